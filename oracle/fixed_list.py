"""The fixed lists of run files (oracle/fixed) and of calls (oracle/fixed_calls), each entry with its outcome. That is the one which stands
beside it in its list, as it was when the list was made, but where a later request of document 02 has turned it: `turned.txt` beside the lists
names each line of an output, and each call, that a request has turned."""
import os
import re
import struct

from runfile import H

HERE = os.path.dirname(os.path.realpath(__file__))
TURNED = os.path.join(HERE, "fixed", "turned.txt")
TURNED_CALLS = os.path.join(HERE, "fixed_calls", "turned.txt")
# The base's, then one for each request that brought files or calls of its own.
LISTS = ["base", "A.2", "A.4", "A.6"]
CALL_LISTS = ["edges", "random", "A.2", "A.4", "A.6", "A.5"]


def records(run, part, form):
    """The records of one of the six parts of a run file."""
    offset, length = struct.unpack_from("<2I", run, 8 * part)
    return list(struct.iter_unpack("<" + form, run[offset : offset + length]))


def no_pillars(run, old, now):
    """A.2: "Refusal 7 no longer covers pillars in those kinds", 6 and 7. A job that lacked nothing else goes on behind rule 7."""
    job = re.fullmatch(r"(\d+ [67]) 7 0{16} 0", old)
    lacking = job and not records(run, 1, "2d") and records(run, 3, "3d")
    return bool(lacking and re.fullmatch(job[1] + r" (0|8|9|1\d) [0-9a-f]{16} 0", now))


def needed(run, number):
    """The times at which a job needs a factor."""
    kind, a, b, c, _ = records(run, 5, "Q4d")[number]
    if kind in (1, 2, 8, 9):
        return [b, c]
    if kind in (3, 4):
        return [a, b]
    if kind in (12, 13):
        return [time + step for time, _ in records(run, 4, "2d") for step in (0.0, H)]
    return [b, b + H, *(coupon[0] for coupon in records(run, 3, "3d"))]


def between_points(run, old, now):
    """A.4: "Refusal 8 is left for times before the first or after the last point, for a curve without points, and for a factor so found
    that is not finite." A job goes on behind rule 8 if every time that it needs lies on the curve or between two points of it, one at
    least between; no other line turns."""
    job = re.fullmatch(r"(\d+) (\d+) 8 0{16} 0", old)
    times = [time for time, _ in records(run, 2, "2d")]
    if not job or not times:
        return False
    asked = needed(run, int(job[1]))
    inside = all(times[0] <= time <= times[-1] for time in asked) and not set(asked) <= set(times)
    line = re.compile(f"{job[1]} {job[2]}" + r" (0|9|1\d) [0-9a-f]{16} \d+")
    return inside and all(map(line.fullmatch, now.split(" / ")))


def published(run, old, now):
    """A.6: "Kind 13 is a path". A file that broke its layout by a job of kind 13 alone is read now: it has such a job, and none of a kind
    that is still unknown. What is printed begins with the header and has a line at least for each job."""
    if old != "refused 1":
        return False
    kinds = [kind for kind, *_ in records(run, 5, "Q4d")]
    header, *lines = now.split(" / ")
    numbers = sorted({int(line.split()[0]) for line in lines})
    return header == HEADER and 13 in kinds and all(1 <= kind <= 13 for kind in kinds) and numbers == list(range(len(kinds)))


def no_pillars_call(call, old, now):
    """A.2 in a call; `old` and `now` are what follows the arrow."""
    name, _, pillars, sigmas, _, _, payments = (call.split() + [""] * 6)[:7]
    pricer = name in ("payer_swaption_value", "receiver_swaption_value")
    lacking = pricer and pillars == sigmas == "[]" and payments != "[]"
    return lacking and old.split()[0] == "7" and now.split()[0] in ("0", "8", "9", "10", "11", "13")


def between_points_call(call, old, now):
    """A.4 in a call: one that looks factors up, and was refused for want of one."""
    return call.split()[0] in FETCHING and old.split()[0] == "8" and now.split()[0] in ("0", "9", "10", "11", "12", "13")


HEADER = "job kind answer value note"
FETCHING = """A zcb_price theta forward_rate_from_curve swap_annuity_from_curve caplet_price floorlet_price bond_put_price bond_call_price
    swaption_price payer_swaption_value receiver_swaption_value fit_caplet_black fit_caplet_normal fit_swaption_black fit_swaption_normal
    calibrate_to_instruments generate""".split()
# What a request may turn: whether it names this line of a run file's output, or this call, and whether it can become that. What two
# requests have turned, one behind the other, stands under the first.
REQUESTS = {"A.2": no_pillars, "A.4": between_points, "A.6": published}
CALL_REQUESTS = {"A.2": no_pillars_call, "A.4": between_points_call}


def listed():
    """Of every list its entries, by name and number, with the run file and the output beside it."""
    for name in LISTS:
        with open(os.path.join(HERE, "fixed", name + ".bin"), "rb") as file:
            data = file.read()
        at = number = 0

        def part():
            nonlocal at
            (size,) = struct.unpack_from("<I", data, at)
            at += 4
            if size == 0xFFFFFFFF:
                return None
            at += size
            return data[at - size : at]

        while (run := part()) is not None:
            yield f"{name} {number}", run, part()
            number += 1


def rows():
    """The turned lines: entry, request, the line in the list, the line now. Where one becomes several, ` / ` stands between them."""
    with open(TURNED, encoding="ascii") as file:
        for line in file:
            name, number, request, rest = line.rstrip("\n").split(" ", 3)
            yield f"{name} {number}", request, *rest.split(" -> ")


def entries():
    """Entry, run file and what the program prints for it now."""
    turned = {}
    for entry, *row in rows():
        turned.setdefault(entry, []).append(row)
    for entry, run, output in listed():
        lines = output.decode().splitlines()
        for request, old, now in turned.pop(entry, []):
            if lines.count(old) != 1 or not REQUESTS[request](run, old, now):
                raise ValueError(f"entry {entry}: {request} does not turn {old} to {now}")
            lines[lines.index(old)] = now.replace(" / ", "\n")
        yield entry, run, "".join(line + "\n" for line in lines).encode()
    if turned:
        raise ValueError(f"turned lines of no entry: {sorted(turned)}")


def call_file(name):
    """The lines of a list of calls: declarations, lists that calls share, comments, and calls with their outcomes."""
    with open(os.path.join(HERE, "fixed_calls", name + ".txt"), encoding="ascii") as file:
        return file.read().splitlines()


def calls():
    """The lines of all lists of calls, a turned call with its outcome of now."""
    turned = {}
    with open(TURNED_CALLS, encoding="ascii") as file:
        for line in file:
            request, rest = line.rstrip("\n").split(" ", 1)
            call, now = rest.split(" -> ")
            turned[call] = request, now
    unseen = set(turned)
    for name in CALL_LISTS:
        for line in call_file(name):
            call, _, old = line.partition(" -> ")
            if call in turned and not line.startswith("function"):
                request, now = turned[call]
                if not CALL_REQUESTS[request](call, old, now):
                    raise ValueError(f"{request} does not turn {line} to {now}")
                unseen.discard(call)
                line = f"{call} -> {now}"
            yield line
    if unseen:
        raise ValueError(f"turned calls that no list has: {sorted(unseen)}")
