#!/usr/bin/env python3
"""Averages paths of the short rate, and shows which of the two kinds of path gives back the curve that it was drawn from.

    python3 examples/python/average_paths.py [--paths N] [--seed S] [--sigma X] [--picture FILE | --no-picture]

A risk manager averages exp(-integral of the rate) over many paths, for each maturity, and expects the curve's factor there. Kind 12 (calstwid.generate)
has the shift f + half the variance of the state, and misses it; kind 13 (calstwid.generate_published) has f + g * g / 2, g being
(sigma / alpha) * (1 - exp(-alpha * t)), as Brigo and Mercurio publish it, and does not.

Both kinds are worked over the same draws, Python's random.Random(S).gauss(0, 1), each list of draws once as it is and once with its signs turned: such a
pair counts as two of the N paths and as one number of the average, whose standard error is that of the pairs. The integral along a path is by
trapezoids. From the averages D(T) comes the forward rate over a step of the grid, -ln(D(T + step) / D(T)) / step, beside which stands the curve's own,
calstwid.forward_rate_from_curve; a miss is the one less the other, in basis points. "all paths" is the miss that is left where the average is taken over
all paths there are: the walk is linear in its draws, so that this average is known. What is left of it for kind 13 is what the grid's steps cost, and that
the forward rate in a shift is taken over a day, which meets a month's end a day early.

Draws a picture, target/average_paths.png where no other is named. That wants matplotlib (Debian: python3-matplotlib); without it the numbers are printed
all the same. From a clone, after tools/library/build.
"""
import argparse
import calendar
import datetime
import math
import os
import random
import statistics
import sys
import time
from array import array
from collections import namedtuple

sys.dont_write_bytecode = True
ROOT = os.path.realpath(os.path.join(os.path.dirname(os.path.realpath(__file__)), "..", ".."))
sys.path.insert(0, os.path.join(ROOT, "bindings", "python"))
import calstwid  # noqa: E402

ALPHA, SIGMA, PATHS, SEED = 0.05, 0.01, 8000, 20261117
MATURITIES = [float(year) for year in range(1, 11)]
STEP = 0.01  # years; with a step beyond the last maturity the grid has 1,002 points, of the 1,024 that a path may have
STEPS = [round(maturity / STEP) for maturity in MATURITIES]
GRID = array("d", [k / 100 for k in range(STEPS[-1] + 2)])
KINDS = {12: calstwid.generate_into, 13: calstwid.generate_published_into}
BP = 1e4
PROGRESS = sys.stderr.isatty()

# What was found of a kind at a maturity. Rates are fractions a year; misses, their standard errors and their values over all paths are basis points.
Found = namedtuple("Found", "mean forward forward_miss forward_error forward_due zero_miss zero_error zero_due")
# The curve's own forward and zero rate at a maturity, and what was found of each kind.
Row = namedtuple("Row", "maturity forward zero kinds")


def curve(today=datetime.date(2026, 1, 15), months=122):
    """A curve as a desk sends it: today, then the month ends that follow, past ten years; a time is days/365, a factor has ten digits. The rates rise from
    2.2 % towards 3.9 %. No maturity, and no step that begins at one, meets a month's end."""
    ends = [(today.year + month // 12, month % 12 + 1) for month in range(today.month - 1, today.month - 1 + months)]
    days = [(datetime.date(year, month, calendar.monthrange(year, month)[1]) - today).days for year, month in ends]
    times = [0.0] + [day / 365.0 for day in days]
    zeros = [0.039 - 0.017 * math.exp(-t / 5.0) for t in times]
    return array("d", times), array("d", [round(math.exp(-zero * t), 10) for zero, t in zip(zeros, times)])


def integrals(path):
    """The integral of a path up to each maturity and up to a step behind it, by trapezoids."""
    total, done, found = 0.0, 0, []
    for steps in STEPS:
        for upto in (steps, steps + 1):
            # the ends of a stretch count half
            total += STEP * (sum(path[done : upto + 1]) - 0.5 * (path[done] + path[upto]))
            done = upto
            found.append(total)
    return found


def half_variances(alpha, sigma):
    """Half the variance of the state's integral, up to the same times: the walk x' = x - alpha * x * dt + sigma * draw * sqrt(dt) is linear in its draws."""
    keep, add, half = 1.0 - alpha * STEP, sigma * sigma * STEP, 0.5 * STEP
    of_x = both = of_integral = 0.0
    found = [0.0]
    for _ in range(len(GRID) - 1):
        reach = half * (1.0 + keep)
        of_integral += 2.0 * reach * both + reach * reach * of_x + half * half * add
        both = keep * (both + reach * of_x) + half * add
        of_x = keep * keep * of_x + add
        found.append(of_integral / 2.0)
    return [found[upto] for steps in STEPS for upto in (steps, steps + 1)]


def averaged(pairs, seed, sigma=SIGMA, alpha=ALPHA, say=lambda done: None):
    """A row for each maturity: both kinds over the same draws, so many pairs of them."""
    times, factors = curve()
    lists = array("d", [0.0]), array("d", [sigma]), times, factors, GRID
    chance = random.Random(seed)
    out = array("d", bytes(8 * len(GRID)))
    # of each kind: the average of a pair's two discounts, and of its two rates, pair after pair, for each maturity
    discounts = {kind: [[] for _ in range(2 * len(STEPS))] for kind in KINDS}
    rates = {kind: [[] for _ in STEPS] for kind in KINDS}
    for pair in range(pairs):
        draws = array("d", [chance.gauss(0.0, 1.0) for _ in GRID])
        turned = array("d", [-draw for draw in draws])
        for kind, path_into in KINDS.items():
            two = []
            for signed in (draws, turned):
                path_into(alpha, *lists, signed, out)
                two.append(([math.exp(-integral) for integral in integrals(out)], [out[steps] for steps in STEPS]))
            for place, (one, other) in enumerate(zip(two[0][0], two[1][0])):
                discounts[kind][place].append(0.5 * (one + other))
            for place, (one, other) in enumerate(zip(two[0][1], two[1][1])):
                rates[kind][place].append(0.5 * (one + other))
        say(pair + 1)
    # a path whose draws are all 0 is the shift itself
    shifts = {}
    for kind, path_into in KINDS.items():
        path_into(alpha, *lists, array("d", bytes(8 * len(GRID))), out)
        shifts[kind] = integrals(out)
    halves = half_variances(alpha, sigma)
    rows = []
    for place, maturity in enumerate(MATURITIES):
        forward = calstwid.forward_rate_from_curve(times, factors, maturity)
        zero = -math.log(calstwid.swap_annuity_from_curve(times, factors, [maturity], [1.0])) / maturity
        found = {}
        for kind in KINDS:
            here, later = discounts[kind][2 * place], discounts[kind][2 * place + 1]
            mean, mean_later = statistics.fmean(here), statistics.fmean(later)
            implied = -math.log(mean_later / mean) / STEP
            # to first order the logarithm of a mean moves as each number over that mean
            moves = [(one / mean - other / mean_later) / STEP for one, other in zip(here, later)]
            logs = [halves[at] - shifts[kind][at] for at in (2 * place, 2 * place + 1)]
            found[kind] = Found(
                mean=statistics.fmean(rates[kind][place]),
                forward=implied,
                forward_miss=BP * (implied - forward),
                forward_error=BP * statistics.stdev(moves) / math.sqrt(pairs),
                forward_due=BP * ((logs[0] - logs[1]) / STEP - forward),
                zero_miss=BP * (-math.log(mean) / maturity - zero),
                zero_error=BP * statistics.stdev(here) / mean / maturity / math.sqrt(pairs),
                zero_due=BP * (-logs[0] / maturity - zero),
            )
        rows.append(Row(maturity, forward, zero, found))
    return rows


def table(rows, what):
    """The misses of both kinds, of the forward rate or of the zero rate."""
    yield f"{'':6}{what + ' of':>15}{'kind 12':>17}{'kind 13':>34}"
    yield (f"{'years':>6}{'the curve, %':>15}" + 2 * f"{'miss, bp':>12}{'s.e.':>10}{'all paths':>12}").rstrip()
    for row in rows:
        cells = [[getattr(one, what + part) for part in ("_miss", "_error", "_due")] for one in row.kinds.values()]
        yield f"{row.maturity:6.2f}{100 * getattr(row, what):15.4f}" + "".join(f"{miss:12.3f}{error:10.3f}{due:12.3f}" for miss, error, due in cells)


def verdict(rows, kind):
    """The largest miss of a kind over all paths, in basis points; and how far the misses seen here lie from what grid and day cost, in standard errors.
    Forward and zero rates alike."""
    pairs = [(row.kinds[kind], row.kinds[13]) for row in rows]
    due = max(max(abs(one.forward_due), abs(one.zero_due)) for one, _ in pairs)
    beyond = [(one.forward_miss - cost.forward_due) / one.forward_error for one, cost in pairs]
    beyond += [(one.zero_miss - cost.zero_due) / one.zero_error for one, cost in pairs]
    return due, max(map(abs, beyond))


def draw(picture, rows, sigma, paths):
    import matplotlib

    matplotlib.use("Agg")
    from matplotlib import pyplot

    figure, (left, right) = pyplot.subplots(1, 2, figsize=(12, 4.8), layout="constrained")
    years = [row.maturity for row in rows]
    left.axhline(0.0, color="0.6", linewidth=0.8)
    right.plot(years, [100 * row.forward for row in rows], color="black", label="forward rate of the curve")
    for kind, colour in ((12, "tab:red"), (13, "tab:blue")):
        found = [row.kinds[kind] for row in rows]
        label = {12: "kind 12, f + variance / 2", 13: "kind 13, f + g² / 2"}[kind]
        left.errorbar(years, [one.forward_miss for one in found], [2 * one.forward_error for one in found], fmt="o", color=colour, capsize=3, label=label)
        left.plot(years, [one.forward_due for one in found], "--", color=colour, linewidth=1.0)
        right.plot(years, [100 * one.forward for one in found], "o", color=colour, label=f"kind {kind}, forward of the averaged paths")
        right.plot(years, [100 * one.mean for one in found], ":", color=colour, label=f"kind {kind}, mean rate")
    figure.suptitle(f"{paths} paths of each kind averaged, alpha {ALPHA:g}, sigma {sigma:g}")
    left.set_title("Forward rate of the averaged paths less the curve's")
    left.set_ylabel("basis points (bars: two standard errors; dashed: all paths)")
    right.set_title("Forward and mean rates")
    right.set_ylabel("rate (% a year)")
    for axes in (left, right):
        axes.set_xlabel("time (years)")
        axes.grid(True, alpha=0.3)
        axes.legend(loc="best")
    figure.savefig(picture, dpi=110)


def main():
    parser = argparse.ArgumentParser(description=__doc__.split("\n")[0])
    parser.add_argument("--paths", type=int, default=PATHS, help=f"paths of each kind, an even number from 4; default {PATHS}")
    parser.add_argument("--seed", type=int, default=SEED)
    parser.add_argument("--sigma", type=float, default=SIGMA, help=f"default {SIGMA}")
    parser.add_argument("--picture", default=os.path.join(ROOT, "target", "average_paths.png"))
    parser.add_argument("--no-picture", action="store_true")
    options = parser.parse_args()
    if options.paths < 4 or options.paths % 2:
        parser.error("--paths: an even number from 4 is wanted, the paths being drawn in pairs")
    pairs, began, shown = options.paths // 2, time.monotonic(), [0.0]

    def say(done):
        now = time.monotonic()
        if PROGRESS and (now - shown[0] > 0.2 or done == pairs):
            shown[0] = now
            print(f"\r{2 * done} of {options.paths} paths, {now - began:.0f} s", end="\n" if done == pairs else "", file=sys.stderr, flush=True)

    rows = averaged(pairs, options.seed, options.sigma, say=say)
    print(f"{options.paths} paths of each kind, alpha {ALPHA:g}, sigma {options.sigma:g}, {len(GRID)} grid points {STEP:g} years apart, seed {options.seed}")
    print()
    for what in ("forward", "zero"):
        print("\n".join(table(rows, what)))
        print()
    print(f"{'':6}{'forward of':>15}{'mean rate, %':>20}")
    print(f"{'years':>6}{'the curve, %':>15}{'kind 12':>12}{'kind 13':>12}")
    for row in rows:
        print(f"{row.maturity:6.2f}{100 * row.forward:15.4f}" + "".join(f"{100 * row.kinds[kind].mean:12.4f}" for kind in KINDS))
    print()
    for kind in KINDS:
        due, beyond = verdict(rows, kind)
        print(f"kind {kind}: over all paths it misses by up to {due:.3f} bp; over these, beside what grid and day cost, by up to {beyond:.1f} standard errors")
    if options.no_picture:
        return
    try:
        draw(options.picture, rows, options.sigma, options.paths)
        print(f"picture: {options.picture}")
    except ImportError as error:
        print(f"no picture, which is passed over: {error}; install matplotlib (Debian: apt-get install python3-matplotlib)")


if __name__ == "__main__":
    main()
