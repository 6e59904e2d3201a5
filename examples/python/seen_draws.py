#!/usr/bin/env python3
"""Shows what the draws of a seed are worth where a standard normal number is wanted.

    python3 examples/python/seen_draws.py [--draws N] [--seed S]

A draw (calstwid.draws) is a sum of twelve numbers spread evenly from 0 to 1, less 6. A risk manager who drives paths by it wants to know how far that is
from the normal distribution: in the middle, and among the large moves. N draws, ten million unless told, are taken from one seed in calls of 1,024, each
of which goes on from the state that the one before it reached. Side by side stand:

- what was seen. A draw is a whole number over 2^32, so that mean, variance and excess kurtosis are worked from sums that are exact. Beyond k are the draws
  above k or below -k;
- what a sum of twelve itself has (the distribution of Irwin and Hall, for numbers that are spread evenly and independent), worked in fractions, and one
  standard error of N such sums: chance alone puts what is seen within two of them nineteen times in twenty;
- what the normal distribution has.

The largest gap between two distribution functions is Kolmogorov's distance; that of the draws is taken at each of them, on both sides of its step. The
draws' gap from the normal does not shrink as N grows: it goes to that of the sum of twelve. Their gap from the sum of twelve itself does, as 1 over the
root of N.

Takes the standard library alone; ten million draws take half a minute and 270 MB. From a clone, after tools/library/build.
"""
import argparse
import math
import os
import sys
import time
from array import array
from bisect import bisect_left, bisect_right
from collections import namedtuple
from fractions import Fraction
from operator import mul

sys.dont_write_bytecode = True
ROOT = os.path.realpath(os.path.join(os.path.dirname(os.path.realpath(__file__)), "..", ".."))
sys.path.insert(0, os.path.join(ROOT, "bindings", "python"))
import calstwid  # noqa: E402

DRAWS, SEED = 10_000_000, 88172645463325252
CALL = 1024  # the most that a call gives
UNIT = 2**32  # a draw is a whole number over this
TERMS = 12
BEYOND = (1, 2, 3, 4, 5)
PROGRESS = sys.stderr.isatty()

# A line of the table: what was seen, what a sum of twelve has, its standard error, and what the normal distribution has.
Row = namedtuple("Row", "name seen twelve error normal")


# ---- the sum of twelve, and the normal


def moments(highest):
    """Its moments up to so high a one, which are exact: the numbers from 0 to 1, less a half, have the even moments 1 / ((k + 1) 2^k), and those of a sum
    of independent numbers come from a product of power series."""
    one = [Fraction(1, math.factorial(k + 1) * 2**k) if k % 2 == 0 else Fraction(0) for k in range(highest + 1)]
    of_sum = [Fraction(1)] + [Fraction(0)] * highest
    for _ in range(TERMS):
        of_sum = [sum(of_sum[i] * one[k - i] for i in range(k + 1)) for k in range(highest + 1)]
    return [part * math.factorial(k) for k, part in enumerate(of_sum)]


def twelve_below(x):
    """The share of the sums below x: exact where x is a fraction, and good to 1e-14 where it is a float."""
    if x > 0:
        return 1 - twelve_below(-x)  # there the terms would be large and their sum small
    x += TERMS // 2
    return sum((-1) ** k * math.comb(TERMS, k) * (x - k) ** TERMS for k in range(math.floor(x) + 1)) / math.factorial(TERMS)


def normal_below(x):
    return math.erfc(-x / math.sqrt(2.0)) / 2.0


def apart():
    """The largest gap between the two: on a grid of fractions, and on two finer ones around the place found. Both are symmetric about 0."""
    place, largest = Fraction(-3), 0.0
    for step in (Fraction(1, 32), Fraction(1, 2**11), Fraction(1, 2**17)):
        near = [x for x in (place + k * step for k in range(-96, 97)) if -6 <= x <= 0]
        largest, place = max((abs(float(twelve_below(x)) - normal_below(float(x))), x) for x in near)
    return largest


# ---- the draws


def collected(count, seed, say):
    """The draws in the order of their size, and the sums of their first four powers, a draw being counted in units of 1 / 2^32."""
    # by the whole number at or below a draw: each part is sorted by itself, for the sake of memory
    parts = [array("d") for _ in range(TERMS)]
    sums, done, state = [0] * 4, 0, seed
    while done < count:
        out = array("d", bytes(8 * min(CALL, count - done)))
        state = calstwid.draws_into(state, out)
        whole = [int(draw * UNIT) for draw in out]
        squares = [m * m for m in whole]
        for place, powers in enumerate((whole, squares, map(mul, whole, squares), map(mul, squares, squares))):
            sums[place] += sum(powers)
        for draw in out:
            parts[math.floor(draw) + TERMS // 2].append(draw)
        done += len(out)
        say(done)
    ordered = array("d")
    for place, part in enumerate(parts):
        ordered.extend(sorted(part))
        parts[place] = None
    return ordered, sums


def shape(count, sums):
    """Mean, variance and excess kurtosis from the sums, exactly until they are handed over."""
    mean, two, three, four = (Fraction(total, count * UNIT**power) for power, total in enumerate(sums, 1))
    variance = two - mean**2
    return float(mean), float(variance), float((four - 4 * mean * three + 6 * mean**2 * two - 3 * mean**4) / variance**2 - 3)


def largest_gap(ordered, below, stretch=256):
    """Kolmogorov's distance between the draws and a distribution function. Neither ever falls, so that what their values at the ends of a stretch of draws
    allow is a bound for the whole of it: a stretch whose bound is not above what was found already is passed over."""
    count, largest = len(ordered), 0.0
    for first in range(0, count, stretch):
        end = min(first + stretch, count)
        if max(below(ordered[end - 1]) - first / count, end / count - below(ordered[first])) > largest:
            for place in range(first, end):
                share = below(ordered[place])
                largest = max(largest, share - place / count, (place + 1) / count - share)
    return largest


def seen(count=DRAWS, seed=SEED, say=lambda done: None):
    """The rows of the table, and the draws' largest gap from the sum of twelve."""
    ordered, sums = collected(count, seed, say)
    mean, variance, kurtosis = shape(count, sums)
    two, four, six, eight = (moments(8)[k] for k in (2, 4, 6, 8))
    root = math.sqrt(count)
    # that of the kurtosis is to first order, the variance being 1
    of_kurtosis = math.sqrt(eight - 4 * four * six + 4 * four**3 - four**2)
    rows = [
        Row("mean", mean, 0.0, math.sqrt(two) / root, 0.0),
        Row("variance", variance, float(two), math.sqrt(four - 1) / root, 1.0),
        Row("excess kurtosis", kurtosis, float(four / two**2 - 3), of_kurtosis / root, 0.0),
    ]
    for k in BEYOND:
        share = float(2 * twelve_below(Fraction(-k)))
        beyond = bisect_left(ordered, -k) + count - bisect_right(ordered, k)
        rows.append(Row(f"share beyond {k}", beyond / count, share, math.sqrt(share * (1 - share)) / root, 2 * normal_below(-k)))
    rows.append(Row("smallest", ordered[0], -6.0, None, -math.inf))
    rows.append(Row("largest", ordered[-1], 6.0, None, math.inf))
    rows.append(Row("largest gap from the normal", largest_gap(ordered, normal_below), apart(), None, 0.0))
    return rows, largest_gap(ordered, twelve_below)


def table(rows):
    yield f"{'':27}{'seen':>17}{'sum of twelve':>17}{'std. error':>12}{'normal':>17}"
    for row in rows:
        error = "" if row.error is None else f"{row.error:.2g}"
        yield f"{row.name:27}{row.seen:17.9g}{row.twelve:17.9g}{error:>12}{row.normal:17.9g}"


def main():
    parser = argparse.ArgumentParser(description=__doc__.split("\n")[0])
    parser.add_argument("--draws", type=int, default=DRAWS, help=f"default {DRAWS}")
    parser.add_argument("--seed", type=int, default=SEED, help=f"1 to 2^64 - 1; default {SEED}")
    options = parser.parse_args()
    if options.draws < 2:
        parser.error("--draws: at least 2 are wanted")
    if not 1 <= options.seed < 2**64:
        parser.error("--seed: a number from 1 to 2^64 - 1 is wanted")
    began, shown = time.monotonic(), [0.0]

    def say(done):
        now = time.monotonic()
        if PROGRESS and (now - shown[0] > 0.2 or done == options.draws):
            shown[0] = now
            print(f"\r{done} of {options.draws} draws, {now - began:.0f} s", end="\n" if done == options.draws else "", file=sys.stderr, flush=True)

    rows, gap = seen(options.draws, options.seed, say)
    print(f"{options.draws} draws of the seed {options.seed}, in calls of {CALL}, each from the state that the one before it reached")
    print()
    print("\n".join(table(rows)))
    print()
    far, name = max((abs(row.seen - row.twelve) / row.error, row.name) for row in rows if row.error)
    print(f"from the sum of twelve the draws are off by up to {far:.1f} standard errors ({name}), and by a gap of {gap:.6f} between the distribution")
    print(f"functions: {gap * math.sqrt(options.draws):.2f} times 1 over the root of their number, where chance alone is above 1.36 once in twenty times")


if __name__ == "__main__":
    main()
