#!/usr/bin/env python3
"""Fits the model to a swaption's Black volatility, prices the swaption at the sigma found, and works one path of the short rate with it.

    python3 bindings/python/examples/fit_price_path.py [PICTURE]

Draws the residual over sigma and the path as a picture, target/fit_price_path.png where no other is named. That wants matplotlib (Debian:
python3-matplotlib); without it the numbers are printed all the same.
"""
import math
import os
import random
import sys

sys.dont_write_bytecode = True
ROOT = os.path.realpath(os.path.join(os.path.dirname(os.path.realpath(__file__)), "..", "..", ".."))
sys.path.insert(0, os.path.join(ROOT, "bindings", "python"))
import calstwid  # noqa: E402

ALPHA, STRIKE, OPTION_TIME, QUOTED = 0.1, 0.031, 1.0, 0.22
PAYMENTS, ACCRUALS = [2.0, 3.0, 4.0, 5.0], [1.0, 1.0, 1.0, 1.0]
GRID = [month / 12.0 for month in range(1, 61)]


def curve():
    """Rates that rise from 2.6 % towards 3.3 %, a point a month, one more than the grid has: a forward rate wants the day after its time, which lies
    between two points."""
    times = [month / 12.0 for month in range(62)]
    return times, [math.exp(-(0.033 - 0.007 * math.exp(-time / 2.0)) * time) for time in times]


def market_price(times, factors):
    """What the quoted volatility says: annuity times Black's call on the forward swap rate, the swap ending at its last payment."""
    annuity = calstwid.swap_annuity_from_curve(times, factors, PAYMENTS, ACCRUALS)
    factor = dict(zip(times, factors))
    forward = (factor[OPTION_TIME] - factor[PAYMENTS[-1]]) / annuity
    return forward, annuity * calstwid.black_call(forward, STRIKE, QUOTED, OPTION_TIME)


def draw(picture, fit, sigmas, residuals, path, forwards):
    import matplotlib

    matplotlib.use("Agg")
    from matplotlib import pyplot

    figure, (left, right) = pyplot.subplots(1, 2, figsize=(12, 4.8), layout="constrained")
    left.axhline(0.0, color="0.6", linewidth=0.8)
    left.plot([100 * sigma for sigma in sigmas], [1e4 * residual for residual in residuals], color="tab:blue")
    left.plot([100 * fit.sigma], [1e4 * fit.residual], "o", color="tab:red", label=f"fitted: sigma {100 * fit.sigma:.4f} %, halving {fit.halvings}")
    left.set_title(f"1y into 4y payer at {100 * STRIKE:g} %, Black volatility {100 * QUOTED:g} %")
    left.set_xlabel("sigma (% a year)")
    left.set_ylabel("model less market price (bp of notional)")
    left.legend(loc="upper left")
    right.plot([0.0, *GRID], [100 * rate for rate in forwards], "--", color="0.4", label="forward rate of today's curve")
    right.plot(GRID, [100 * rate for rate in path], color="tab:blue", label="short rate, one path")
    right.set_title(f"A path at the sigma fitted, alpha {ALPHA:g}")
    right.set_xlabel("time (years)")
    right.set_ylabel("rate (% a year)")
    right.legend(loc="best")
    for axes in (left, right):
        axes.grid(True, alpha=0.3)
    figure.savefig(picture, dpi=110)


def main():
    picture = sys.argv[1] if len(sys.argv) > 1 else os.path.join(ROOT, "target", "fit_price_path.png")
    times, factors = curve()
    swap = times, factors, PAYMENTS, ACCRUALS, STRIKE, OPTION_TIME

    fit = calstwid.fit_swaption_black(ALPHA, *swap, vol=QUOTED)
    print(f"fitted sigma {fit.sigma!r} after {fit.halvings} halvings, residual {fit.residual:.3e}, converged: {fit.converged}")

    swaption = calstwid.swaption_price(ALPHA, *swap, sigma=fit.sigma)
    forward, market = market_price(times, factors)
    print(f"forward swap rate {forward:.6f}, market price {market!r}")
    print(f"model price {swaption.value!r}, critical rate {swaption.rate:.6f}")
    print(f"residual by hand {swaption.value - market:.3e}")

    sigmas = [fit.sigma * (0.02 + 0.02 * step) for step in range(100)]
    residuals = [calstwid.swaption_price(ALPHA, *swap, sigma=sigma).value - market for sigma in sigmas]
    print(f"residual from {residuals[0]:.3e} at sigma {sigmas[0]:.6f} to {residuals[-1]:.3e} at sigma {sigmas[-1]:.6f}")

    chance = random.Random(20260101)
    draws = [chance.gauss(0.0, 1.0) for _ in GRID]
    path = calstwid.generate(ALPHA, [0.0], [fit.sigma], times, factors, GRID, draws)
    forwards = [calstwid.forward_rate_from_curve(times, factors, time) for time in [0.0, *GRID]]
    print(f"short rate after 1 year {path[11]:.6f}, after 5 years {path[-1]:.6f}")

    try:
        calstwid.fit_swaption_black(ALPHA, times, factors, [*PAYMENTS, 6.0], [*ACCRUALS, 1.0], STRIKE, OPTION_TIME, vol=QUOTED)
    except calstwid.Refused as refused:
        print(f"with a payment after 6 years, behind the curve's last point: {refused}")

    try:
        draw(picture, fit, sigmas, residuals, path, forwards)
        print(f"picture: {picture}")
    except ImportError as error:
        print(f"no picture: {error}; install matplotlib (Debian: apt-get install python3-matplotlib)")


main()
