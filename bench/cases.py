"""The run files that bench/run times: every kind alone, the large fits and payers, and how the time grows."""
import os
import struct
import sys

sys.dont_write_bytecode = True
sys.path.insert(0, os.path.join(os.path.dirname(os.path.realpath(__file__)), "..", "oracle"))
from runfile import H, job, run  # noqa: E402

ALPHA = 0.1
OPTIONS = [0.5, 1.0, 1.5, 2.0]
# A job's strike moves off the money by these steps, its option time through OPTIONS.
STRIKES = [0.02 + 0.0005 * i for i in range(32)]


# In place of a number of points: a point a month. All times but those of a grid are then four days on from a month's end.
MONTH_ENDS = "month ends"


def off(points):
    return 0.011 if points == MONTH_ENDS else 0.0


def factor(t, scale=1.0):
    return scale * 2.718281828459045 ** (-0.03 * t - 0.0002 * t * t)


def curve(points, needed, scale=1.0):
    """A curve of so many points: the needed times and others between 0 and beyond the last of them."""
    if points == MONTH_ENDS:
        return [(month / 12, factor(month / 12, scale)) for month in range(int(12 * max(needed)) + 3)]
    last = max(needed) + 1.0
    times = set(needed)
    step = 0
    while len(times) < points:
        step += 1
        times.add(last * (step * 0.6180339887498949 % 1.0))
    return [(t, factor(t, scale)) for t in sorted(times)]


def pillars(count):
    return [(0.25 * (i + 1), 0.008 + 0.0001 * i) for i in range(count)]


def coupons(count, later=0.0):
    return [(2.5 + 0.5 * i + later, 0.5) for i in range(count)]


def at_options(payments):
    return OPTIONS + [t + H for t in OPTIONS] + [t for t, _ in payments]


def spans(count=32, step=0.5, later=0.0):
    """So many starts, each with the end a step on."""
    return [(step * (i + 1) + later, step * (i + 2) + later) for i in range(count)]


def fit_quote(normal):
    return 0.0075 if normal else 0.25


def swaption_job(kind, i, later=0.0):
    strike, option = STRIKES[i % 32], OPTIONS[i // 32 % 4] + later
    if kind == 5:
        return job(5, strike, option, 0.007 + 0.00002 * i)
    if kind in (6, 7):
        return job(kind, strike, option, 1e6, 1.0 if i % 2 else -1.0)
    return job(kind, strike, option, fit_quote(kind == 11) * (1.0 + 0.001 * i))


def swaptions(kind, count, jobs, points=64, scale=1.0, pillar_count=8):
    """So many jobs over so many coupons; `jobs` may be the list of their numbers."""
    numbers = range(jobs) if isinstance(jobs, int) else jobs
    listed = coupons(count, off(points))
    size = points if points == MONTH_ENDS else max(points, count + 8)
    return run(alpha=ALPHA, pillars=pillars(pillar_count), curve=curve(size, at_options(listed), scale),
               coupons=listed, jobs=[swaption_job(kind, i, off(points)) for i in numbers])


def caplet_job(kind, i, listed):
    start, end = listed[i % len(listed)]
    strike = STRIKES[i * 7 % 32]
    if kind in (1, 2):
        return job(kind, strike, start, end, 0.007 + 0.00002 * i)
    if kind in (3, 4):
        return job(kind, start, end, factor(end) / factor(start) * (0.99 + 0.0001 * i), 0.007 + 0.00002 * i)
    return job(kind, strike, start, end, fit_quote(kind == 9) * (1.0 + 0.001 * i))


def caplets(kind, jobs=128, points=64):
    listed = spans(later=off(points))
    return run(alpha=ALPHA, curve=curve(points, sorted({t for span in listed for t in span})),
               jobs=[caplet_job(kind, i, listed) for i in range(jobs)])


def spread(points, jobs=128):
    """Kind 1 with its times spread over a curve of any size."""
    listed = curve(points, [0.5, 32.0])
    places = [(i * 5 % (points - 1), i * 5 % (points - 1) + 1) for i in range(jobs)]
    if points > 128:
        places = [(i * (points - 2) // jobs, i * (points - 2) // jobs + 1) for i in range(jobs)]
    pairs = [(listed[low][0], listed[high][0]) for low, high in places]
    return run(alpha=ALPHA, curve=listed, jobs=[caplet_job(1, i, pairs) for i in range(jobs)])


def walked(points, curve_points):
    """A path's grid times, and a curve for them."""
    grid = [0.25 + 0.015625 * i for i in range(points)]
    needed = sorted({*grid, *(t + H for t in grid)})
    return grid, curve(curve_points if curve_points == MONTH_ENDS else max(curve_points, len(needed)), needed)


def path(points, curve_points, pillar_count, jobs, kind=12):
    times, listed = walked(points, curve_points)
    grid = [(t, (i * 0.6180339887498949 % 1.0) * 4.0 - 2.0) for i, t in enumerate(times)]
    return run(alpha=ALPHA, pillars=pillars(pillar_count), curve=listed, grid=grid, jobs=[job(kind)] * jobs)


def seeded(draws=0, grid=(), points=(), schedule=()):
    """Draws or a path from a seed as bench/seeded.c reads them: the seed, how many draws, pillars, points and grid times, alpha, and those lists."""
    numbers = [ALPHA, *(x for pair in (*schedule, *points) for x in pair), *grid]
    return struct.pack(f"<Q4I{len(numbers)}d", 88172645463325252, draws, len(schedule), len(points), len(grid), *numbers)


def for_the_rust(section, data):
    """The file that the Rust is given: it has no kind 13, and is timed on kind 12 over the same lists."""
    if section != "published":
        return data
    at, size = struct.unpack_from("<2I", data, 40)
    made = bytearray(data)
    for place in range(at, at + size, 40):
        if struct.unpack_from("<Q", made, place) == (13,):
            struct.pack_into("<Q", made, place, 12)
    return bytes(made)


def basket(count, curve_points=128):
    """A basket as bench/basket.c reads it: the numbers of points and of caplets, alpha, the points, the caplets
    (1 for a normal quote, strike, start, end, volatility)."""
    listed = spans(count, 0.25, off(curve_points))
    points = curve(curve_points, sorted({t for span in listed for t in span}))
    made = struct.pack("<2Id", len(points), count, ALPHA)
    made += b"".join(struct.pack("<2d", *point) for point in points)
    for i, (start, end) in enumerate(listed):
        normal = i % 2
        made += struct.pack("<5d", normal, STRIKES[i * 7 % 32], start, end, fit_quote(normal) * (1.0 + 0.002 * i))
    return made


def mixed(jobs):
    """Jobs of kinds 1 to 11 in turn, over 10 coupons."""
    listed, payments = spans(), coupons(10)
    made = []
    for i in range(jobs):
        kind = i % 11 + 1
        made.append(swaption_job(kind, i) if kind in (5, 6, 7, 10, 11) else caplet_job(kind, i, listed))
    needed = sorted({t for span in listed for t in span} | set(at_options(payments)))
    return run(alpha=ALPHA, pillars=pillars(8), curve=curve(64, needed), coupons=payments, jobs=made)


# (section, name, file). The section says how it is called: in rounds, as a basket, from a seed, or the whole program; of what is `published` the Rust is
# given another kind (`for_the_rust`), and beside `draws` and `seeded`, which it has not, bench/run sets something else.
CASES = [("kinds", f"kind {kind}, 128 jobs", caplets(kind)) for kind in (1, 2, 3, 4)]
CASES += [("kinds", f"kind {kind}, 128 jobs, 10 coupons", swaptions(kind, 10, 128)) for kind in (5, 6, 7)]
# A fixed-rate scenario: the search is run, and no normal function.
CASES += [("kinds", "kind 6, 128 jobs, 10 coupons, no pillars", swaptions(6, 10, 128, pillar_count=0))]
CASES += [("kinds", f"kind {kind}, 128 jobs", caplets(kind)) for kind in (8, 9)]
CASES += [("kinds", f"kind {kind}, 128 jobs, 10 coupons", swaptions(kind, 10, 128)) for kind in (10, 11)]
CASES += [("kinds", "kind 12, 128 jobs of 64 points", path(64, 128, 8, 128))]
# A curve of month ends: nearly every factor is worked from its two neighbours, by the Rust at each evaluation.
CASES += [("month-end", f"kind {kind}, 128 jobs, month-end curve", caplets(kind, points=MONTH_ENDS)) for kind in (1, 2, 3, 4)]
CASES += [("month-end", f"kind {kind}, 128 jobs, 10 coupons, month-end curve", swaptions(kind, 10, 128, MONTH_ENDS)) for kind in (5, 6, 7)]
CASES += [("month-end", f"kind {kind}, 128 jobs, month-end curve", caplets(kind, points=MONTH_ENDS)) for kind in (8, 9)]
CASES += [("month-end", f"kind {kind}, 128 jobs, 10 coupons, month-end curve", swaptions(kind, 10, 128, MONTH_ENDS)) for kind in (10, 11)]
CASES += [("month-end", "kind 12, 128 jobs of 64 points, month-end curve", path(64, MONTH_ENDS, 8, 128))]
CASES += [("month-end", "kind 12, 1 job of 1,024 points, month-end curve", path(1024, MONTH_ENDS, 64, 1))]
CASES += [("basket", "a basket of 64 caplets, month-end curve", basket(64, MONTH_ENDS))]
# Over one pillar: kind 12, and kind 13, of which the Rust has none.
for points, word in ((2048, "2,048 points"), (MONTH_ENDS, "month-end curve")):
    CASES += [("large", f"kind 12, 1 job of 1,024 points, one pillar, {word}", path(1024, points, 1, 1))]
    CASES += [("published", f"kind 13, 1 job of 1,024 points, one pillar, {word} (the Rust has no kind 13: its kind 12)", path(1024, points, 1, 1, 13))]
# From a seed, which the Rust has not: draws beside a loop in C, and a path beside ours that is given the same draws.
CASES += [("draws", "10^6 draws in calls of 1,024, so that a ms is a ns a draw (in the Rust's place: the same loop in C, -O2)", seeded(draws=10**6))]
for points, word in ((2048, "2,048 points"), (MONTH_ENDS, "month-end curve")):
    CASES += [("seeded", f"kind 12, 1,024 points from a seed, 64 pillars, {word} (in the Rust's place: ours, given those draws)",
               seeded(0, *walked(1024, points), pillars(64)))]
# On a curve scaled by 1e8 no residual of job 11 is below 1e-12: all 200 halvings are run.
CASES += [("large", f"kind {kind}, 1 job, 64 coupons, {word}", swaptions(kind, 64, [11], 72, scale))
          for kind in (10, 11) for word, scale in (("converging", 1.0), ("unconverged", 1e8))]
CASES += [("large", "kind 12, 1 job of 1,024 points, 64 pillars, 2,048 points", path(1024, 2048, 64, 1))]
CASES += [("large", "kind 6, 128 jobs, 64 coupons", swaptions(6, 64, 128, 72))]
CASES += [("basket", "a basket of 64 caplets", basket(64))]
CASES += [("growth", f"kind 6, 128 jobs, coupons {n}", swaptions(6, n, 128)) for n in (1, 4, 16, 64)]
CASES += [("growth", f"kind 1, 128 jobs, curve points {n}", spread(n)) for n in (16, 128, 2048)]
CASES += [("program", f"mixed kinds 1 to 11, jobs {n}", mixed(n)) for n in (1, 16, 128)]
CASES += [("program", "128 fits of kind 11, 64 coupons, converging", swaptions(11, 64, 128, 72, 1.0, 64))]
