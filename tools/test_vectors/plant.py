#!/usr/bin/env python3
"""plant.py FILE: adds records that are wrong on purpose to the end of FILE, one for each function and one whose
number no function has, so that the program shows that it can say no. Each is the last record of its function
whose result is a number, with the last bit of the expected result changed; `is_finite` expects 0 for 1."""
import struct, sys

data = open(sys.argv[1], "rb").read()
records = [struct.unpack("<5Q", data[at:at + 40]) for at in range(0, len(data), 40)]
for function in range(1, 15):
    f, a, b, c, expected = [r for r in records if r[0] == function and r[4] % 2**63 <= 0x7FEFFFFFFFFFFFFF][-1]
    wrong = expected ^ 0x3FF0000000000000 if function == 14 else expected ^ 1
    data += struct.pack("<5Q", f, a, b, c, wrong)
data += struct.pack("<5Q", 15, 0, 0, 0, 0)
open(sys.argv[1], "wb").write(data)
print("planted: 15 records that are wrong on purpose, from record", len(records), "on")
