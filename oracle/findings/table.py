"""The findings: places where the Rust loses a root, lets a NaN through or
hands over a fit that has not converged.

Each row: name, title, run file, what the Rust does with each job (as
`oracle judge --rust` says it, NaN for any NaN), and the story. `make` writes
the run files, the judge's output and FINDINGS.md from this table; `check`
runs them all.
"""
import os
import sys

HERE = os.path.dirname(os.path.realpath(__file__))
sys.path.insert(0, os.path.dirname(HERE))
from runfile import H, job, run  # noqa: E402

NAN = float("nan")
TWO = [(1.0, 1.0), (2.0, 0.97)]



# A curve factor of the largest float, one a hundred-millionth of it, a strike
# and a quoted volatility found by search: at sigma 1.000000005 model and
# market price are equal to the last bit, at 2.0 the model price overflows.
with open(os.path.join(HERE, "infinite-end-residual.run"), "rb") as file:
    OVERFLOW = file.read()

FINDINGS = [
    (
        "nan-quote", "A quoted volatility of NaN comes out as sigma 1e-8",
        run(0.1, curve=TWO, jobs=[job(8, 0.03, 1, 2, NAN), job(9, 0.03, 1, 2, NAN)]),
        ["serves 3e45798ee2308c3a unconverged, calibrates 3e45798ee2308c3a 0000000000000000"] * 2,
        "`vol <= 0.0` is false for a NaN, so Black's and Bachelier's calls price it. Every residual is NaN; two NaN "
        "signums are never equal, so the solver sees a change of sign, moves its upper end 200 times and returns the "
        "lower end. The status says NotConverged, and `calibrate_to_instruments` drops it: sigma 1e-8, diagonal 0. "
        "Document 01: 2.",
    ),
    (
        "negative-forward", "The same from finite numbers: a negative forward under Black",
        run(0.1, curve=[(1, 1), (2, 1.01)], jobs=[job(8, 0.03, 1, 2, 0.2)]),
        ["serves 3e45798ee2308c3a unconverged, calibrates 3e45798ee2308c3a 0000000000000000"],
        "The forward is below 0, ln of forward over strike is NaN, and so is every residual. The Rust returns sigma "
        "1e-8. Document 01: 9, at the first residual.",
    ),
    (
        "unconverged-fit", "A fit that has not converged is handed over like one that has",
        run(0.1, curve=[(1, 1e6), (2, 0.97e6)], jobs=[job(8, 0.03, 1, 2, 0.2)]),
        ["serves 3f7aaf74f9b57c7a unconverged, calibrates 3f7aaf74f9b57c7a 3fa09f75b07b9690"],
        "Prices are in the thousands and have no residual below 1e-12 in size. After 200 halvings the solver says NotConverged; "
        "`calibrate_to_instruments` takes the sigma and drops the status. Document 01 serves the same sigma with "
        "note 0, status unconverged, 200 halvings and the residual.",
    ),
    (
        "converged-on-nothing", "A fit that converges at once because prices are small",
        run(0.1, curve=[(1, 1e-13), (2, 0.97e-13)], jobs=[job(8, 0.03, 1, 2, 0.2)]),
        ["serves 3ff00000015798ee converged, calibrates 3ff00000015798ee 0000000000000000"],
        "The tolerance is absolute. With curve factors of 1e-13 every residual is below 1e-12 in size, so the first "
        "midpoint, sigma 1.000000005, is returned as converged; the sigma that fits is 0.0065. Document 01 follows "
        "the Rust: served, note 1.",
    ),
    (
        "root-at-lower-end", "An exact root at an end is refused",
        run(0.1, curve=[(1, 1), (2, 1)], jobs=[job(9, 5, 1, 2, 0.01)]),
        ["refuses"],
        "Model and market price are both 0 at sigma 1e-8, so the residual there is +0 and 1e-8 fits exactly. Its "
        "signum is 1 like that of the residual at 2.0, and the solver finds no change of sign. Document 01 follows "
        "the Rust: 12.",
    ),
    (
        "infinite-end-residual", "A fit beside an infinite residual",
        OVERFLOW,
        ["serves 3ff00000015798ee converged, calibrates 3ff00000015798ee 3fc95c9d5e17b800"],
        "The model price overflows at sigma 2.0; the residual there is infinite and counts as a positive sign. The "
        "first midpoint happens to fit exactly. Document 01: 13, an end residual is not finite.",
    ),
    (
        "no-bracket", "`swaption_price` without a bracket",
        run(1e18, curve=[(1, 1), (1 + H, 1), (2, 1)], coupons=[(2, 1)], jobs=[job(5, -0.9, 1, 0.01)]),
        ["serves 3fb3f607217a6bb4"],
        "The coupon sum is 0.18 at the last lower rung and below 1 at all others: there is no critical rate between "
        "the rungs. `swaption_price` does not look; it halves towards the last rung and prices there, 0.078. "
        "(`find_critical_rate` looks and refuses.) Document 01: 10.",
    ),
    (
        "no-bracket-flat", "The same with a payment so near that B is 0",
        run(0.5, curve=[(0, 1), (5e-324, 0.3), (H, 1)], coupons=[(5e-324, 1)], jobs=[job(5, 1, 0, 0.01)]),
        ["serves 0000000000000000"],
        "B is 0 and the sum is 0.6 at every rate. The Rust serves a value of 0. Document 01: 10.",
    ),
    (
        "nan-sum", "A NaN coupon sum passes for a small one",
        run(0.5, pillars=[(0, 0.01)], curve=[(1, 1), (1 + H, 1), (2, 1)], coupons=[(2, 1), (2, 0)],
            jobs=[job(6, -1, 1, 1, 1), job(5, -1, 1, 0.01)]),
        ["serves NaN", "serves NaN"],
        "Coefficients -1 and 1 at the same time: the sum is 0, and infinity less infinity further down. A NaN is "
        "neither `>= 1` on the ladder nor `< 1` in the check after it, so `find_critical_rate` returns rate "
        "-0.5 × 2^60 as bracketed; the derivative is NaN, which is not below 1e-14, and the value NaN is returned as "
        "Ok. Document 01: 9, at the rung.",
    ),
    (
        "root-between-rungs", "A root inside the first rungs is lost",
        run(0.01, pillars=[(0, 0.01)], curve=[(1, 1), (1 + H, 1), (2, 1), (12, 1)], coupons=[(12, 1), (2, 0)],
            jobs=[job(5, -0.01, 1, 0.01), job(6, -0.01, 1, 1, 1)]),
        ["serves NaN", "serves NaN"],
        "With a negative coefficient on the longest payment the sum is not monotone: below 1 at -0.5, above 1 at "
        "-0.3, below 1 at 0. There are critical rates near -0.011 and -0.36, but the lower ladder starts at -0.5 and "
        "walks away from them into NaN. The Rust returns NaN. Document 01: 9.",
    ),
    (
        "payer-below-zero", "An option worth less than 0",
        run(1e-5, curve=[(1, 0.8), (1 + H, 0.799511), (2, 0.64), (3, 0.512), (4, 0.4096)],
            coupons=[(2, 3.3145), (3, -3.5714), (4, 0.2531)], jobs=[job(6, 1, 1, 1, 1), job(7, 1, 1, 1, 1)]),
        ["serves bf788c12f34cbf00", "serves 0000000000000000"],
        "With a negative coefficient in the middle the sum is 1 at three rates, near -0.18, 0.05 and 0.36, and the forward, 0.22, "
        "lies between the last two. The search finds the first, below the forward, so that every bond option of the payer is in "
        "the money; without variance they add up to the swap's worth, which is below 0: -0.006. Document 02, A.2, follows the Rust: "
        "\"every bond option is at intrinsic value\", and not the swaption.",
    ),
    (
        "root-still-moving", "200 halvings are not enough",
        run(1e-300, curve=[(1, 1), (1 + H, 1), (1e300, 0.5)], coupons=[(1e300, 1)], jobs=[job(5, 0.5, 1, 0.01)]),
        ["serves 7ff0000000000000"],
        "B is 6e299: the critical rate is near -5e-301 and the bracket is still 2^-200 wide at the end. The Rust "
        "returns infinity as Ok. Document 01: 13 (the lower end's sum is infinite, the value too).",
    ),
    (
        "missing-factor", "A missing factor counts as 0 inside `swaption_price`'s search",
        run(0.1, curve=[(1 + H, 1), (2, 0.97), (3, 0.94)], coupons=[(2, 1), (3, 1)],
            jobs=[job(5, 0.03, 1, 0.01), job(11, 0.03, 1, 0.01)]),
        ["refuses", "refuses"],
        "The curve begins a day after the option time, so that there is no factor at t. In the search `unwrap_or(0.0)` makes "
        "every A 0 and the whole ladder and 200 halvings run on sums of 0; the pricing after it looks the factor up again and "
        "returns the error. Nothing wrong is served, but the search's result meant nothing. Document 01: 8, before the search, "
        "which document 02, A.4, leaves for times before the first point or after the last.",
    ),
    (
        "zero-variance", "A bond option at the money without variance is NaN",
        run(0.5, curve=[(1, 1), (2, 1)], jobs=[job(3, 1, 2, 1, 0), job(4, 1, 2, 1, 0)]),
        ["serves NaN", "serves NaN"],
        "sigma 0 makes the bond volatility 0, and d1 is 0/0. The Rust returns NaN as Ok; away from the money it "
        "returns the intrinsic value. Document 01: 13.",
    ),
    (
        "alpha-zero", "Mean reversion 0 is NaN",
        run(0.0, curve=TWO, jobs=[job(1, 0.03, 1, 2, 0.01), job(8, 0.03, 1, 2, 0.2)]),
        ["serves NaN", "serves 3e45798ee2308c3a unconverged, calibrates 3e45798ee2308c3a 0000000000000000"],
        "B divides 0 by 0. A price is NaN as Ok, and a fit is sigma 1e-8 as above. Document 01: 3.",
    ),
    (
        "falling-grid", "A path back in time is NaN",
        run(0.1, pillars=[(0, 0.01)], curve=[(0, 1), (H, 1), (1, 1), (1 + H, 1)], grid=[(1, 0), (0, 1)], jobs=[job(12)]),
        ["serves 3f07c262f97f7769 NaN"],
        "The root of a negative step is NaN and stays in the path. Document 01: 4.",
    ),
    (
        "no-pillars", "A path without a volatility schedule panics",
        run(0.1, curve=[(0, 1), (H, 1)], grid=[(0, 0)], jobs=[job(12)]),
        ["panics"],
        "The lookup reads the first pillar of an empty list. Document 01: 7, and document 02, A.2, leaves it so; a swaption "
        "without pillars the Rust values at variance 0, as A.2 has it.",
    ),
    (
        "fit-without-coupons", "A swaption fit without coupons comes out as sigma 1e-8",
        run(0.1, curve=[(1, 0.98), (1 + H, 0.9799)], jobs=[job(10, 0.03, 1, 0.2), job(11, 0.03, 1, 0.01)]),
        ["serves 3e45798ee2308c3a unconverged, calibrates 3e45798ee2308c3a 0000000000000000"] * 2,
        "No test turns an empty list of coupons down; the solver does not converge and returns its lower end. Document 01: 7.",
    ),
    (
        "payment-in-the-past", "A swaption fit over a payment before its option time comes out as sigma 1e-8",
        run(0.1, curve=[(0.5, 0.99), (1, 0.98), (1 + H, 0.9799)], coupons=[(0.5, 0.5)], jobs=[job(10, 0.03, 1, 0.2), job(11, 0.03, 1, 0.01)]),
        ["serves 3e45798ee2308c3a unconverged, calibrates 3e45798ee2308c3a 0000000000000000"] * 2,
        "A payment that has been made has a B below 0, and no test turns it down; the solver does not converge and returns its lower end. Document 01: 5.",
    ),
]
