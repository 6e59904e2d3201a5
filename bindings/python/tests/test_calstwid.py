"""Holds the module to the examples, to the fixed run files and to document 01's cases. From the repository's root, with the library built:

    python3 -m unittest discover bindings/python/tests
"""
import doctest
import glob
import importlib.util
import math
import os
import pickle
import random
import struct
import subprocess
import sys
import unittest
from array import array
from fractions import Fraction

sys.dont_write_bytecode = True
ROOT = os.path.realpath(os.path.join(os.path.dirname(os.path.realpath(__file__)), "..", "..", ".."))
sys.path[:0] = [os.path.join(ROOT, "bindings", "python"), os.path.join(ROOT, "oracle")]
import calstwid  # noqa: E402
from fixed_list import entries  # noqa: E402
from runfile import H, job, run  # noqa: E402

NAN, INFINITY = float("nan"), float("inf")


def bits(x):
    return struct.pack(">d", x).hex()


class RunFile:
    """The lists of a run file, as a caller has them."""

    def __init__(self, data):
        parts = [data[at : at + size] for at, size in struct.iter_unpack("<2I", data[:48])]
        (self.alpha,) = struct.unpack("<d", parts[0])
        self.pillars, self.sigmas = self.columns(parts[1], 2)
        self.times, self.factors = self.columns(parts[2], 2)
        self.payments, self.accruals, self.own_dfs = self.columns(parts[3], 3)
        self.grid, self.draws = self.columns(parts[4], 2)
        self.jobs = list(struct.iter_unpack("<Q4d", parts[5]))

    @staticmethod
    def columns(part, width):
        rows = list(struct.iter_unpack(f"<{width}d", part))
        return tuple([row[column] for row in rows] for column in range(width))

    def call(self, kind, a, b, c, d):
        """The values and notes of a job, by the call of its kind."""
        curve = self.alpha, self.times, self.factors
        coupons = self.payments, self.accruals
        if kind in (1, 2):
            return [((calstwid.caplet_price, calstwid.floorlet_price)[kind - 1](*curve, a, b, c, d), 0)]
        if kind in (3, 4):
            return [((calstwid.bond_put_price, calstwid.bond_call_price)[kind - 3](*curve, a, b, c, d), 0)]
        if kind == 5:
            return [(calstwid.swaption_price(*curve, *coupons, a, b, c).value, 0)]
        if kind in (6, 7):
            value = (calstwid.payer_swaption_value, calstwid.receiver_swaption_value)[kind - 6]
            pillars = self.pillars, self.sigmas
            return [(value(self.alpha, *pillars, self.times, self.factors, *coupons, self.own_dfs, a, b, c, d).value, 0)]
        if kind in (8, 9):
            fit = (calstwid.fit_caplet_black, calstwid.fit_caplet_normal)[kind - 8](*curve, a, b, c, d)
            return [(fit.sigma, fit.halvings if fit.converged else 0)]
        if kind in (10, 11):
            fit = (calstwid.fit_swaption_black, calstwid.fit_swaption_normal)[kind - 10](*curve, *coupons, a, b, c)
            return [(fit.sigma, fit.halvings if fit.converged else 0)]
        path = {12: calstwid.generate, 13: calstwid.generate_published}[kind]
        rates = path(self.alpha, self.pillars, self.sigmas, self.times, self.factors, self.grid, self.draws)
        return [(value, point) for point, value in enumerate(rates)] or [(0.0, 0)]

    def printed(self):
        """What the program prints, each job by its call."""
        lines = ["job kind answer value note"]
        for place, (kind, *numbers) in enumerate(self.jobs):
            try:
                answer, results = 0, self.call(kind, *numbers)
            except calstwid.Refused as refused:
                answer, results = refused.number, [(0.0, 0)]
            lines += [f"{place} {kind} {answer} {bits(value)} {note}" for value, note in results]
        return "".join(line + "\n" for line in lines)


def examples():
    for path in sorted(glob.glob(os.path.join(ROOT, "examples", "*.run"))):
        with open(path, "rb") as file, open(path[:-4] + ".out", "rb") as out:
            yield os.path.basename(path), file.read(), out.read()


def example(name):
    return next(RunFile(data) for one, data, _ in examples() if one == name)


def desk():
    return example("desk.run")


# ---- document 01's exp and ln and document 02's factor between two points, written out: Python rounds each operation once and fuses none

LN_2 = 0.693147180369123816490, 1.90821492927058770002e-10


def written_exp(x):
    if x != x or x > 710 or x < -746:
        return x if x != x else INFINITY if x > 0 else 0.0
    product = x * 1.4426950408889634
    k = math.trunc(product) + (math.copysign(1, product) if abs(product - math.trunc(product)) >= 0.5 else 0)
    r, p = (x - k * LN_2[0]) - k * LN_2[1], 1.0
    for n in range(13, 0, -1):
        p = 1 + (r * p) / n
    a = math.trunc(k / 2)
    return p * 2.0**a * 2.0 ** (k - a)


def written_ln(x):
    """Of a number above 0."""
    m, k = math.frexp(x)
    m, k = (m, k) if m >= 0.75 else (2 * m, k - 1)
    s, t = (m - 1) / (m + 1), 0.0
    z = s * s
    for n in range(25, 0, -2):
        t = 1 / n + z * t
    return k * LN_2[0] + (2 * (s * t) + k * LN_2[1])


def between(t0, f0, t1, f1, t):
    w = (t - t0) / (t1 - t0)
    return written_exp(written_ln(f0) + w * (written_ln(f1) - written_ln(f0)))


def read_at(times, factors, t):
    """The factor at a time on the curve or between two of its points, by reading along the list."""
    for place, time in enumerate(times):
        if time == t:
            return factors[place]
        if place and times[place - 1] < t < time:
            return between(times[place - 1], factors[place - 1], time, factors[place], t)
    raise AssertionError(f"{t} is outside the curve")


class Refusals(unittest.TestCase):
    def refused(self, number, function, *arguments):
        with self.assertRaises(calstwid.Refused) as caught:
            function(*arguments)
        self.assertEqual(caught.exception.number, number)
        self.assertEqual(caught.exception.sentence, calstwid.SENTENCES[number])
        self.assertEqual(str(caught.exception), f"refused {number}: {calstwid.SENTENCES[number]}")


class Files(unittest.TestCase):
    def test_whole_case(self):
        data = run(alpha=0.5, curve=[(1, 1), (2, 1)], jobs=[job(3, 1, 2, 0.5, 0), job(4, 1, 2, 0.5, 0)])
        printed = b"job kind answer value note\n0 3 0 0000000000000000 0\n1 4 0 3fe0000000000000 0\n"
        self.assertEqual(calstwid.run_file(data), printed)
        self.assertEqual([calstwid.piece(data, k) for k in range(4)], [*printed.splitlines(keepends=True), b""])
        self.assertEqual(bits(calstwid.bond_put_price(0.5, [1, 2], [1, 1], 1, 2, 0.5, 0)), "0000000000000000")
        self.assertEqual(calstwid.bond_call_price(0.5, [1, 2], [1, 1], 1, 2, 0.5, 0), 0.5)

    def test_examples(self):
        seen = 0
        for name, data, expected in examples():
            with self.subTest(name):
                self.assertEqual(calstwid.run_file(data), expected)
                if expected != b"refused 1\n":
                    self.assertEqual(RunFile(data).printed(), expected.decode())
                seen += 1
        self.assertGreaterEqual(seen, 15)

    def test_fixed_run_files(self):
        seen = calls = 0
        for entry, data, expected in entries():
            self.assertEqual(calstwid.run_file(data), expected, entry)
            if expected != b"refused 1\n":
                self.assertEqual(RunFile(data).printed(), expected.decode(), entry)
                calls += 1
            seen += 1
        self.assertEqual(seen, 1025)
        self.assertGreater(calls, 300)

    def test_files_that_break_their_layout(self):
        for data in (b"", b"\0", bytes(48), bytes(65536), bytes(65537), bytearray(7), memoryview(b"1234")):
            self.assertEqual(calstwid.run_file(data), b"refused 1\n")
        for wrong in ("text", None, [1, 2], 5):
            with self.assertRaises(TypeError):
                calstwid.run_file(wrong)
        with self.assertRaises(ValueError):
            calstwid.piece(b"", -1)
        with self.assertRaises(TypeError):
            calstwid.piece(b"", 0.0)


class Desk(Refusals):
    """README's numbers."""

    def setUp(self):
        self.desk = d = desk()
        self.curve = d.alpha, d.times, d.factors
        self.swap = *self.curve, d.payments, d.accruals
        self.pricer = d.alpha, d.pillars, d.sigmas, d.times, d.factors, d.payments, d.accruals

    def test_values(self):
        curve, swap = self.curve, self.swap
        self.assertEqual(calstwid.caplet_price(*curve, strike=0.03, start=1.0, end=1.5, sigma=0.01), 0.0018520317606408843)
        self.assertEqual(calstwid.floorlet_price(*curve, strike=0.03, start=1.0, end=1.5, sigma=0.01), 0.0017439422727289755)
        self.assertEqual(calstwid.bond_put_price(*curve, t=1.0, bond=5.0, strike=0.88, sigma=0.01), 0.007709327124727912)
        self.assertEqual(calstwid.bond_call_price(*curve, t=1.0, bond=5.0, strike=0.88, sigma=0.01), 0.014425234027098555)
        self.assertEqual(calstwid.swaption_price(*swap, strike=0.031, t=1.0, sigma=0.01).value, 0.010713537784161791)
        for own in (None, self.desk.own_dfs, [0.0] * 4):
            payer = calstwid.payer_swaption_value(*self.pricer, own_dfs=own, strike=0.031, t=1.0, notional=1e6, side=1.0)
            receiver = calstwid.receiver_swaption_value(*self.pricer, own_dfs=own, strike=0.031, t=1.0, notional=1e6, side=-1.0)
            self.assertEqual((payer.value, receiver.value), (10713.537784161801, -12679.02875263987))
        path = calstwid.generate(*self.pricer[:5], self.desk.grid, self.desk.draws)
        self.assertEqual(path, [0.031512192643853264, 0.025986290645509974, 0.031659410562398474, 0.03215463750724506])

    def test_fits(self):
        fits = [
            (calstwid.fit_caplet_black(*self.curve, strike=0.03, start=1.0, end=1.5, vol=0.25), 0.007965961463308302, 37),
            (calstwid.fit_caplet_normal(*self.curve, strike=0.03, start=1.0, end=1.5, vol=0.0075), 0.00795676143695671, 36),
            (calstwid.fit_swaption_black(*self.swap, strike=0.031, t=1.0, vol=0.22), 0.008309960890466608, 39),
            (calstwid.fit_swaption_normal(*self.swap, strike=0.031, t=1.0, vol=0.007), 0.008622592662243852, 40),
        ]
        for fit, sigma, halvings in fits:
            self.assertEqual((fit.sigma, fit.halvings, fit.converged), (sigma, halvings, True))
            self.assertLess(abs(fit.residual), 1e-12)
            self.assertTrue(fit.low < fit.sigma < fit.high)
            self.assertTrue(fit.low_residual < 0 < fit.high_residual)

    def test_searches(self):
        model = calstwid.swaption_price(*self.swap, 0.031, 1.0, 0.01)
        payer = calstwid.payer_swaption_value(*self.pricer, None, 0.031, 1.0, 1e6, 1.0)
        for bracket, rate in ((model.bracket, model.rate), (payer.bracket, payer.rate)):
            self.assertTrue(bracket.lower <= rate <= bracket.upper)
            self.assertTrue(bracket.lower_sum >= 1 >= bracket.upper_sum)
            self.assertEqual((bracket.lower_rung, bracket.upper_rung), (0, 0))
        self.assertAlmostEqual(payer.stepped, payer.rate, places=12)
        empty = calstwid.swaption_price(*self.curve, [], [], 0.031, 1.0, 0.01)
        self.assertEqual(empty, calstwid.Swaption(0.0, 0.0, calstwid.Bracket(0.0, 0.0, 0.0, 0.0, 0, 0)))

    def test_own_factors(self):
        own = [0.9, 0.88, 0.85, 0.8]
        value = calstwid.payer_swaption_value(*self.pricer, own, 0.031, 1.0, 1e6, 1.0).value
        self.assertNotEqual(value, 10713.537784161801)
        self.refused(6, calstwid.payer_swaption_value, *self.pricer, [0.9, 0.0, 0.85, 0.8], 0.031, 1.0, 1e6, 1.0)
        self.refused(1, calstwid.payer_swaption_value, *self.pricer, own[:3], 0.031, 1.0, 1e6, 1.0)

    def test_fixed_rate_scenario(self):
        """Document 02, A.2: no pillars are no movement in kinds 6 and 7; the numbers of examples/fixed-rate.run and fixed-rate-own-factors.run."""
        d = self.desk
        both = calstwid.payer_swaption_value, calstwid.receiver_swaption_value

        def values(own, strike):
            return [value(d.alpha, [], [], *self.pricer[3:], own, strike, 1.0, 1e6, 1.0).value for value in both]

        self.assertEqual(values(None, 0.025) + values(None, 0.035), [19654.453823508105, 0.0, 0.0, 16378.78749646876])
        own = [0.945, 0.918, 0.892, 0.867]
        self.assertEqual(values(own, 0.025) + values(own, 0.035), [19796.2211782985, 0.0, 0.0, 16496.32682373106])
        for value in both:
            rest = *self.pricer[3:], None, 0.031, 1.0, 1e6, 1.0
            self.assertEqual(value(d.alpha, [], [], *rest), value(d.alpha, [0.5, 1.0], [0.0, 0.0], *rest))
            self.refused(1, value, d.alpha, [], [0.01], *rest)
            self.refused(1, value, d.alpha, [0.5], [], *rest)
            self.refused(7, value, d.alpha, [], [], *self.curve[1:], [], [], None, 0.031, 1.0, 1e6, 1.0)
        self.refused(7, calstwid.generate, d.alpha, [], [], *self.curve[1:], [], [])
        self.refused(7, calstwid.transition_variances, d.alpha, [], [], 1, 0.25)
        self.refused(7, calstwid.pillars_reached, [], [], 1.0)
        self.assertEqual(calstwid.hull_white_piecewise_variance(d.alpha, [], [], 0.0, 1.0), 0.0)

    def test_basket(self):
        kinds, strikes, starts, ends = [False, True], [0.03, 0.03], [1.0, 1.0], [1.5, 1.5]
        basket = calstwid.calibrate_to_instruments(*self.curve, kinds, strikes, starts, ends, [0.25, 0.0075])
        alone = [calstwid.fit_caplet_black(*self.curve, 0.03, 1.0, 1.5, 0.25), calstwid.fit_caplet_normal(*self.curve, 0.03, 1.0, 1.5, 0.0075)]
        bumped = calstwid.fit_caplet_black(*self.curve, 0.03, 1.0, 1.5, 0.25 + 1e-6)
        self.assertEqual(basket.sigmas, tuple(fit.sigma for fit in alone))
        self.assertEqual(basket.residuals, tuple(fit.residual for fit in alone))
        self.assertEqual((basket.statuses, basket.halvings, basket.bumped_statuses), ((True, True), (37, 36), (True, True)))
        self.assertEqual(basket.diagonal[0], (bumped.sigma - alone[0].sigma) / 1e-6)
        empty = calstwid.calibrate_to_instruments(*self.curve, [], [], [], [], [])
        self.assertEqual(empty, calstwid.Basket((), (), (), (), (), ()))
        whole = calstwid.calibrate_to_instruments(*self.curve, [False] * 64, [0.03] * 64, [1.0] * 64, [1.5] * 64, [0.25] * 64)
        self.assertEqual(whole.sigmas, (alone[0].sigma,) * 64)
        self.refused(1, calstwid.calibrate_to_instruments, *self.curve, [False] * 65, [0.03] * 65, [1.0] * 65, [1.5] * 65, [0.25] * 65)
        self.refused(1, calstwid.calibrate_to_instruments, *self.curve, [False], strikes, starts, ends, [0.25, 0.0075])
        self.refused(6, calstwid.calibrate_to_instruments, *self.curve, kinds, strikes, starts, ends, [0.25, 0.0])
        for wrong in ([0, 1], ["", "x"], [0.0, 1.0], None, b"\0\1", "ab"):
            with self.assertRaises(TypeError):
                calstwid.calibrate_to_instruments(*self.curve, wrong, strikes, starts, ends, [0.25, 0.0075])


class BetweenPoints(Refusals):
    """Document 02, A.4: factors between curve points, over the month ends of examples/month-end.run."""

    def setUp(self):
        self.month_end = m = example("month-end.run")
        self.curve = m.times, m.factors

    def factor(self, times, factors, t):
        """The factor itself: the annuity of one coupon whose accrual is 1."""
        return calstwid.swap_annuity_from_curve(times, factors, [t], [1.0])

    def listed(self, *needed):
        """The curve with these times on its list too, their factors worked here."""
        points = dict(zip(*self.curve))
        points.update((t, read_at(*self.curve, t)) for t in needed)
        return sorted(points), [points[t] for t in sorted(points)]

    def test_written_out(self):
        for x in (0.0, -0.0, 1.0, -0.5, 0.34657359027997264, 709.78, 710.0, 711.0, -745.2, -746.5, 1e-300, NAN, INFINITY, -INFINITY, -33.3):
            self.assertEqual(str(written_exp(x)), str(calstwid.exp(x)))
        for x in (1.0, 0.75, 0.7499999999999999, 1.5, 0.97, 5e-324, 1e-310, 1.7976931348623157e308, 123.456):
            self.assertEqual(bits(written_ln(x)), bits(calstwid.ln(x)))

    def test_month_ends(self):
        times, factors = self.curve
        last, seen = times[-1], set()
        for day in range(int(last * 365) + 1):
            for t in (day / 365, day / 365 + H, math.nextafter(day / 365, 9), (day + 0.5) / 365):
                if t <= last:
                    self.assertEqual(bits(self.factor(times, factors, t)), bits(read_at(times, factors, t)), t)
                    seen.add(t in times)
        self.assertEqual(seen, {True, False})

    def test_listed_times_keep_their_factors(self):
        times, factors = self.curve
        self.assertEqual([bits(self.factor(times, factors, t)) for t in times], [bits(factor) for factor in factors])
        # a factor that exp(ln()) would not give back
        self.assertEqual([bits(self.factor([1, 2], [0.68, 0.68], t)) for t in (1, 2)], [bits(0.68)] * 2)
        # numbers compared
        for zero, other in ((0.0, -0.0), (-0.0, 0.0)):
            self.assertEqual(self.factor([-1, zero, 1], [0.9, 0.8, 0.7], other), 0.8)
            self.assertEqual(self.factor([zero], [0.8], other), 0.8)

    def test_ends(self):
        times, factors = self.curve
        first, last = times[0], times[-1]
        self.assertEqual((self.factor(times, factors, first), self.factor(times, factors, last)), (factors[0], factors[-1]))
        for t in (math.nextafter(first, -1), math.nextafter(last, 9), -1.0, 6.0, -1e308, 1e308):
            self.refused(8, self.factor, times, factors, t)
        caplet = lambda curve, start, end: calstwid.caplet_price(0.1, *curve, 0.03, start, end, 0.01)  # noqa: E731
        self.assertGreater(caplet(self.curve, 1.0, last), 0)
        self.refused(8, caplet, self.curve, 1.0, math.nextafter(last, 9))
        later = times[1:], factors[1:]
        self.assertGreater(caplet(later, times[1], 1.0), 0)
        self.refused(8, caplet, later, math.nextafter(times[1], 0), 1.0)
        # one point serves its own time alone, and none serve no time
        self.assertEqual(self.factor([1.0], [0.97], 1.0), 0.97)
        for t in (math.nextafter(1.0, 0), math.nextafter(1.0, 2)):
            self.refused(8, self.factor, [1.0], [0.97], t)
        self.refused(8, self.factor, [], [], 1.0)
        self.refused(8, caplet, ([], []), 1.0, 2.0)
        self.assertEqual(calstwid.swap_annuity_from_curve([], [], [], []), 0.0)

    def test_zeros_beside_the_refusal(self):
        m, beyond = self.month_end, math.nextafter(self.month_end.times[-1], 9)
        late = [*m.payments[:-1], beyond], m.accruals
        reports = [
            calstwid._optionlet(calstwid._caplet_price, m.alpha, *self.curve, 0.03, 1.0, beyond, 0.01, "sigma"),
            calstwid._optionlet(calstwid._fit_caplet_black, m.alpha, *self.curve, 0.03, 1.0, beyond, 0.25, "vol"),
            calstwid._on_swap(calstwid._swaption_price, m.alpha, *self.curve, *late, 0.031, 1.0, 0.01, "sigma"),
            calstwid._on_swap(calstwid._fit_swaption_normal, m.alpha, *self.curve, *late, 0.031, 1.0, 0.007, "vol"),
        ]
        for report in reports:
            answer, *others = [getattr(report, name) for name, _ in report._fields_]
            self.assertEqual((answer, {bits(float(one)) for one in others}), (8, {bits(0.0)}))

    def test_every_call(self):
        """A call gives the same where its times stand on the list, with the factors worked here."""
        m, month = self.month_end, 31 / 365
        alpha, coupons, pillars = m.alpha, (m.payments, m.accruals), (m.pillars, m.sigmas)
        h2 = calstwid.fused(2.0, H, H / 2)
        needed = [t + more for t in (*m.payments, *m.grid, 1.5) for more in (0.0, H)] + [H / 2, H / 2 + H, h2, month, month + H, month - H]
        self.assertFalse(set(needed) & set(m.times))
        curves = self.curve, self.listed(*needed)
        self.assertGreater(len(curves[1][0]), len(m.times) + 20)
        calls = [
            lambda c: calstwid.A(alpha, *c, 1.0, 4.0, 0.01),
            lambda c: calstwid.zcb_price(alpha, *c, 0.02, 1.0, 4.0, 0.01),
            lambda c: calstwid.theta(alpha, *c, month, 0.01),
            lambda c: calstwid.theta(alpha, *c, H / 2, 0.01),
            lambda c: calstwid.forward_rate_from_curve(*c, 1.0),
            lambda c: calstwid.swap_annuity_from_curve(*c, *coupons),
            lambda c: calstwid.caplet_price(alpha, *c, 0.03, 1.0, 1.5, 0.01),
            lambda c: calstwid.floorlet_price(alpha, *c, 0.03, 1.0, 1.5, 0.01),
            lambda c: calstwid.bond_put_price(alpha, *c, 1.0, 5.0, 0.88, 0.01),
            lambda c: calstwid.bond_call_price(alpha, *c, 1.0, 5.0, 0.88, 0.01),
            lambda c: calstwid.swaption_price(alpha, *c, *coupons, 0.031, 1.0, 0.01),
            lambda c: calstwid.payer_swaption_value(alpha, *pillars, *c, *coupons, None, 0.031, 1.0, 1e6, 1.0),
            lambda c: calstwid.receiver_swaption_value(alpha, *pillars, *c, *coupons, None, 0.031, 1.0, 1e6, -1.0),
            lambda c: calstwid.payer_swaption_value(alpha, [], [], *c, *coupons, [0.94, 0.91, 0.88, 0.85], 0.031, 1.0, 1e6, 1.0),
            lambda c: calstwid.fit_caplet_black(alpha, *c, 0.03, 1.0, 1.5, 0.25),
            lambda c: calstwid.fit_caplet_normal(alpha, *c, 0.03, 1.0, 1.5, 0.0075),
            lambda c: calstwid.fit_swaption_black(alpha, *c, *coupons, 0.031, 1.0, 0.22),
            lambda c: calstwid.fit_swaption_normal(alpha, *c, *coupons, 0.031, 1.0, 0.007),
            lambda c: calstwid.calibrate_to_instruments(alpha, *c, [False, True], [0.03] * 2, [1.0, 0.5], [1.5, 1.0], [0.25, 0.0075]),
            lambda c: calstwid.generate(alpha, *pillars, *c, m.grid, m.draws),
        ]
        for place, call in enumerate(calls):
            self.assertEqual(call(curves[0]), call(curves[1]), place)

    def test_lent_list(self):
        m = self.month_end
        lists = m.alpha, m.pillars, m.sigmas, m.times, m.factors
        before = array("d", [7.0, 8.0, 9.0, 10.0, 11.0])
        out = array("d", before)
        last = m.times[-1]
        # the last point itself: the day after it is behind it
        for grid in ([0.25, 0.5, 1.0, last], [0.25, 0.5, 1.0, math.nextafter(last, 9)], [0.25, 0.5, 1.0, 9.0], [last] * 4):
            self.refused(8, calstwid.generate_into, *lists, grid, m.draws, out)
        self.refused(8, calstwid.generate_into, *lists[:3], [], [], m.grid, m.draws, out)
        self.refused(8, calstwid.generate_into, *lists[:3], [-1e308, 1.2e308], [0.9, 0.8], [1e308] * 4, m.draws, out)
        self.assertEqual(out, before)
        # many grid times between two points, and one of the points among them
        grid = [0.1, 0.11, m.times[2], 0.13]
        self.assertTrue(m.times[1] < grid[0] and grid[3] + H < m.times[3])
        self.assertEqual(calstwid.generate_into(*lists, grid, m.draws, out), 4)
        listed = self.listed(*(t + more for t in grid for more in (0.0, H)))
        self.assertEqual(out.tolist(), [*calstwid.generate(*lists[:3], *listed, grid, m.draws), 11.0])

    def test_not_finite(self):
        largest = 1.7976931348623157e308
        wide = [-1e308, 1.2e308], [0.9, 0.8]
        self.assertTrue(math.isnan(between(-1e308, 0.9, 1.2e308, 0.8, 1e308)))
        steep = [0.7057691290677448, 3.2464201598086486], [9.469050158921633e-238, largest]
        late = 3.246420159808648
        self.assertEqual(between(steep[0][0], steep[1][0], steep[0][1], steep[1][1], late), INFINITY)
        for curve, t in ((wide, 1e308), (steep, late)):
            self.refused(8, self.factor, *curve, t)
            self.refused(8, calstwid.bond_call_price, 0.1, *curve, t, curve[0][1], 0.5, 0.01)
            self.refused(8, calstwid.fit_caplet_normal, 0.1, *curve, 0.03, t, curve[0][1], 0.0075)
            self.refused(8, calstwid.swaption_price, 0.1, *curve, [curve[0][1]], [1.0], 0.03, t, 0.01)
        # their ends keep their factors, and other times between them are served
        self.assertEqual([self.factor(*wide, t) for t in wide[0]], wide[1])
        self.assertEqual([self.factor(*steep, t) for t in steep[0]], steep[1])
        self.assertEqual(bits(self.factor(*wide, 0.0)), bits(written_exp(written_ln(0.9))))  # w is 0, the distance being infinite
        self.assertEqual(bits(self.factor(*steep, 2.0)), bits(read_at(*steep, 2.0)))

    def test_no_promise_that_it_lies_between(self):
        """docs/DIFFERENCES.md's inputs."""
        rows = [
            (0.68, 0.68, 1.5, "3fe5c28f5c28f5c2"),  # below both
            (0.34, 0.33999999999999997, 1.5, "3fd5c28f5c28f5c1"),  # below both
            (0.12, 0.11999999999999998, 1.5, "3fbeb851eb851eb9"),  # above both
            (0.7, 0.68, 1.9999999999999998, "3fe5c28f5c28f5c2"),  # below 0.68, to which the curve falls
            (0.21, 0.2, 1.0000000000000002, "3fcae147ae147ae2"),  # above 0.21, from which the curve falls
        ]
        for f0, f1, t, expected in rows:
            found = self.factor([1.0, 2.0], [f0, f1], t)
            self.assertEqual((bits(found), bits(between(1.0, f0, 2.0, f1, t))), (expected, expected))
            self.assertFalse(min(f0, f1) <= found <= max(f0, f1))
        # w is 1 once rounded, and the time is still between the points
        self.assertEqual((0.9999999999999999 - -1.0) / (1.0 - -1.0), 1.0)
        self.assertEqual(bits(self.factor([-1.0, 1.0], [0.7, 0.68], 0.9999999999999999)), "3fe5c28f5c28f5c2")


class Published(Refusals):
    """Document 02, A.6: kind 13, a path centred as published."""

    def walked(self, alpha, sigma, times, factors, grid, draws, centre):
        """A path worked here over the library's fused, sqrt, exp and forward rate: `centre` has a point's shift, from the forward rate, the state's
        variance, the time and the time that has passed."""
        rates, x, before, variance = [], 0.0, 0.0, 0.0
        for t, draw in zip(grid, draws):
            dt = t - before
            decay = calstwid.exp(-2.0 * alpha * dt)
            x = x + calstwid.fused(-alpha * x, dt, draw * sigma * calstwid.sqrt(dt))
            variance = calstwid.fused(variance, decay, sigma * sigma * (1.0 - decay) / (2.0 * alpha))
            rates.append(x + centre(calstwid.forward_rate_from_curve(times, factors, t), variance, t, dt))
            before = t
        return rates

    @staticmethod
    def published(alpha, sigma):
        def centre(f, variance, t, dt):
            g = (sigma / alpha) * (1.0 - calstwid.exp((-alpha) * t))
            return f + 0.5 * (g * g)

        return centre

    @staticmethod
    def slips(alpha, sigma):
        """Centres that are wrong in one place each."""

        def g(t):
            return (sigma / alpha) * (1.0 - calstwid.exp((-alpha) * t))

        def other_g(t):
            return sigma * (1.0 - calstwid.exp((-alpha) * t)) / alpha

        return {
            "half the state's variance": lambda f, variance, t, dt: f + 0.5 * variance,
            "fused": lambda f, variance, t, dt: calstwid.fused(0.5 * g(t), g(t), f),
            "the step for t": lambda f, variance, t, dt: f + 0.5 * (g(dt) * g(dt)),
            "the product, then the division": lambda f, variance, t, dt: f + 0.5 * (other_g(t) * other_g(t)),
        }

    def cases(self):
        """Models, curves and grids, from 0 too, and with times that stand still."""
        d, m = desk(), example("month-end.run")
        days = [day / 365 for day in range(0, 1800, 7)]
        chance = random.Random(20261117)
        draws = [chance.gauss(0.0, 1.0) for _ in days]
        for alpha, sigma in ((0.1, 0.01), (0.05, 0.013), (1e-9, 0.02), (3.0, 0.3), (0.7, 0.0), (40.0, 1.5)):
            yield alpha, sigma, m.times, m.factors, days, draws
            yield alpha, sigma, m.times, m.factors, m.grid, m.draws
            yield alpha, sigma, d.times, d.factors, [0.0, 0.0, 0.25, 0.5, 0.5, 1.0, 2.0], draws[:7]

    def test_formula(self):
        seen, unlike = 0, set()
        for alpha, sigma, times, factors, grid, draws in self.cases():
            for first in (0.0, 0.5, 3.0):
                rest = times, factors, grid, draws
                twelve = calstwid.generate(alpha, [first], [sigma], *rest)
                thirteen = calstwid.generate_published(alpha, [first], [sigma], *rest)
                due = self.walked(alpha, sigma, *rest, lambda f, variance, t, dt: calstwid.fused(0.5, variance, f))
                self.assertEqual(list(map(bits, twelve)), list(map(bits, due)))
                due = self.walked(alpha, sigma, *rest, self.published(alpha, sigma))
                self.assertEqual(list(map(bits, thirteen)), list(map(bits, due)))
                seen += len(grid)
            unlike |= {name for name, slip in self.slips(alpha, sigma).items() if self.walked(alpha, sigma, *rest, slip) != thirteen}
        self.assertGreater(seen, 4000)
        self.assertEqual(unlike, set(self.slips(1.0, 1.0)))

    def test_centre(self):
        """Both kinds differ in the shift alone: at time 0 and at a sigma of 0 not at all."""
        m = example("month-end.run")
        rest = m.times, m.factors
        still = [0.0, 1.0, 4.5], [0.4, -0.3, 1.2]
        flat = calstwid.generate_published(0.1, [1.0], [0.0], *rest, *still)
        self.assertEqual(flat, calstwid.generate(0.1, [1.0], [0.0], *rest, *still))
        self.assertEqual(flat, [calstwid.forward_rate_from_curve(*rest, t) for t in still[0]])
        start = [0.0, 0.0], [0.4, -0.3]
        self.assertEqual(calstwid.generate_published(0.1, [1.0], [0.01], *rest, *start), calstwid.generate(0.1, [1.0], [0.01], *rest, *start))
        # g * g / 2 is above half the state's variance once time has passed, by as much as is written here
        one, other = (path(0.1, [1.0], [0.01], *rest, [4.5], [0.0])[0] for path in (calstwid.generate, calstwid.generate_published))
        g, variance = 0.1 * (1 - math.exp(-0.45)), 1e-4 * (1 - math.exp(-0.9)) / 0.2
        self.assertAlmostEqual(other - one, (g * g - variance) / 2, places=15)
        self.assertGreater(other - one, 4e-4)

    def test_turned_down(self):
        m = example("month-end.run")
        rest, path = (m.times, m.factors, m.grid, m.draws), calstwid.generate_published
        late = m.times, m.factors, [0.25, 0.5, 1.0, 9.0], m.draws
        none = [], [], m.grid, m.draws
        two, jump = ([1.0, 2.0], [0.01, 0.01]), ([1.0, 1.0 + H, 5.0], [5e-324, 1.0, 1.0])
        self.refused(7, path, 0.1, [], [], *rest)
        self.refused(15, path, 0.1, *two, *rest)
        self.refused(15, path, 0.1, [float(i) for i in range(64)], [0.01] * 64, *rest)
        # an empty grid needs no time, and its pillars are looked at
        self.refused(7, path, 0.1, [], [], m.times, m.factors, [], [])
        self.refused(15, path, 0.1, *two, m.times, m.factors, [], [])
        self.assertEqual(path(0.1, [1.0], [0.01], m.times, m.factors, [], []), [])
        self.assertEqual(path(0.1, [1.0], [0.01], [], [], [], []), [])
        # 15 before 8, 7 before 8, and 8 where there is one pillar
        for pillars, number in ((two, 15), (([], []), 7), (([1.0], [0.01]), 8)):
            self.refused(number, path, 0.1, *pillars, *late)
            self.refused(number, path, 0.1, *pillars, *none)
        # 15 after 1 to 6
        self.refused(1, path, 0.1, [float(i) for i in range(65)], [0.01] * 65, *rest)
        self.refused(1, path, 0.1, two[0], [0.01], *rest)
        self.refused(1, path, 0.1, *two, m.times, m.factors, m.grid, m.draws[:-1])
        self.refused(2, path, 0.1, two[0], [0.01, NAN], *rest)
        self.refused(2, path, NAN, *two, *rest)
        self.refused(3, path, 0.0, *two, *rest)
        self.refused(4, path, 0.1, [2.0, 1.0], two[1], *rest)
        self.refused(4, path, 0.1, *two, m.times, m.factors, m.grid[::-1], m.draws)
        self.refused(5, path, 0.1, *two, m.times, m.factors, [-0.25, *m.grid[1:]], m.draws)
        self.refused(6, path, 0.1, two[0], [0.01, -0.01], *rest)
        # 13 last: an infinite rate, and behind it a time that the curve does not reach
        self.refused(13, path, 0.1, [1.0], [0.01], *jump, [1.0], [0.0])
        self.refused(13, path, 1e-300, [1.0], [1e10], m.times, m.factors, [1.0], [0.0])
        self.refused(8, path, 0.1, [1.0], [0.01], *jump, [1.0, 6.0], [0.0, 0.0])
        self.refused(15, path, 0.1, *two, *jump, [1.0], [0.0])
        # kind 12 is asked nothing new
        self.assertEqual(len(calstwid.generate(0.1, *two, *rest)), 4)
        self.refused(8, calstwid.generate, 0.1, *two, *late)

    def test_lent_list(self):
        m = example("month-end.run")
        one, rest, into = ([1.0], [0.01]), (m.times, m.factors, m.grid), calstwid.generate_published_into
        before = array("d", [7.0, 8.0, 9.0, 10.0, 11.0])
        out = array("d", before)
        self.refused(15, into, 0.1, [1.0, 2.0], [0.01, 0.01], *rest, m.draws, out)
        self.refused(7, into, 0.1, [], [], *rest, m.draws, out)
        self.refused(8, into, 0.1, *one, m.times, m.factors, [0.25, 0.5, 1.0, 9.0], m.draws, out)
        self.refused(13, into, 1e-300, [1.0], [1e10], *rest, m.draws, out)
        self.refused(2, into, 0.1, *one, *rest, [0.3, -1.1, NAN, 0.05], out)
        short = array("d", [7.0, 8.0, 9.0])
        self.refused(1, into, 0.1, *one, *rest, m.draws, short)
        self.assertEqual((out, short), (before, before[:3]))
        self.assertEqual(into(0.1, *one, *rest, m.draws, out), 4)
        path = calstwid.generate_published(0.1, *one, *rest, m.draws)
        self.assertEqual(out.tolist(), [*path, 11.0])
        self.assertEqual(calstwid.generate_published(0.1, *one, m.times, m.factors, iter(m.grid), iter(m.draws)), path)
        self.assertEqual(into(0.1, *one, m.times, m.factors, [], [], out), 0)
        report = calstwid._generate_published(0.1, *[part for xs in ([1.0, 2.0], [0.01] * 2, *rest, m.draws, out) for part in calstwid._list("xs", xs)])
        self.assertEqual((report.answer, report.count), (15, 0))

    def test_run_file(self):
        m = example("month-end.run")
        lists = {"alpha": 0.1, "curve": list(zip(m.times, m.factors)), "grid": list(zip(m.grid, m.draws))}
        data = run(**lists, pillars=[(1.0, 0.01)], jobs=[job(13), job(12), job(13, NAN, NAN, NAN, NAN)])
        lines = [line.split() for line in calstwid.run_file(data).decode().splitlines()[1:]]
        due = [calstwid.generate_published(0.1, [1.0], [0.01], m.times, m.factors, m.grid, m.draws)]
        due.append(calstwid.generate(0.1, [1.0], [0.01], m.times, m.factors, m.grid, m.draws))
        expected = [[str(place), kind, "0", bits(rate), str(note)] for place, kind, path in ((0, "13", 0), (1, "12", 1), (2, "13", 0))
                    for note, rate in enumerate(due[path])]
        self.assertEqual(lines, expected)
        self.assertEqual(RunFile(data).printed(), calstwid.run_file(data).decode())
        lists["grid"] = []
        header, zeros = "job kind answer value note\n", "0 13 0 0000000000000000 0\n"
        self.assertEqual(calstwid.run_file(run(**lists, pillars=[(1.0, 0.01)], jobs=[job(13)])).decode(), header + zeros)
        for pillars, answer in (([], 7), ([(1.0, 0.01), (2.0, 0.01)], 15)):
            printed = calstwid.run_file(run(**lists, pillars=pillars, jobs=[job(13)])).decode()
            self.assertEqual(printed, header + f"0 13 {answer} 0000000000000000 0\n")
        self.assertEqual(calstwid.run_file(run(**lists, pillars=[(1.0, 0.01)], jobs=[job(13), job(14)])), b"refused 1\n")


class Draws(Refusals):
    """Document 02, A.5: the draws of a seed, and paths that name one."""

    SEEDS = [1, 2, 3, 1 << 32, 1 << 63, (1 << 64) - 1, 88172645463325252, 2026]
    # of a path: listed, from a seed, and each into a lent list
    KINDS = [
        (calstwid.generate, calstwid.generate_seeded, calstwid.generate_into, calstwid.generate_seeded_into),
        (calstwid.generate_published, calstwid.generate_published_seeded, calstwid.generate_published_into, calstwid.generate_published_seeded_into),
    ]

    @staticmethod
    def step(x):
        x ^= (x << 13) % (1 << 64)
        x ^= x >> 7
        return x ^ (x << 17) % (1 << 64)

    def drawn(self, seed, count):
        """In whole numbers: the draws, and the state that they reach."""
        draws, x = [], seed
        for _ in range(count):
            total = 0
            for _ in range(12):
                x = self.step(x)
                total += x >> 32
            draws.append((total - 6 * 2**32) / 2**32)
        return draws, x

    def test_stated(self):
        states = [88172645463325252]
        for _ in range(3):
            states.append(self.step(states[-1]))
        self.assertEqual(states[1:], [8748534153485358512, 3040900993826735515, 3453997556048239312])
        self.assertEqual(calstwid.draws(1, 1).values, [0.5116662674117833])
        for seed in self.SEEDS:
            draws, state = self.drawn(seed, 1024)
            found = calstwid.draws(seed, 1024)
            self.assertEqual((list(map(bits, found.values)), found.state), (list(map(bits, draws)), state))
            self.assertTrue(all(-6 <= draw < 6 for draw in draws) and bits(-0.0) not in map(bits, found.values))

    def test_goes_on(self):
        """The first n do not depend on how many follow, and the state has the others."""
        for seed in self.SEEDS:
            whole = calstwid.draws(seed, 1024)
            for n in (0, 1, 2, 12, 500, 1023, 1024):
                front, state = calstwid.draws(seed, n)
                self.assertEqual(front, whole.values[:n])
                self.assertEqual(calstwid.draws(state, 1024 - n), (whole.values[n:], whole.state))
            self.assertEqual(calstwid.draws(seed, 0), calstwid.Seeded([], seed))

    def test_independent_they_are_not(self):
        """What the header and draws() say of the seeds 1, 2, 3 and so on."""
        first = [calstwid.draws(seed, 1).values[0] for seed in range(1, 10001)]
        self.assertAlmostEqual(sum(first) / len(first), -0.51, places=2)
        one, other = 12345, 67890
        states = [calstwid.draws(seed, 100).state for seed in (one, other, one ^ other)]
        self.assertEqual(states[0] ^ states[1], states[2])

    def test_turned_down(self):
        before = array("d", [7.0] * 1025)
        out = array("d", before)
        for count in (0, 1, 1024):
            self.refused(14, calstwid.draws, 0, count)
            self.refused(14, calstwid.draws_into, 0, memoryview(out)[:count])
        for seed in (0, 1):
            for count in (1025, 2**40, 2**64 - 1):
                self.refused(1, calstwid.draws, seed, count)
            self.refused(1, calstwid.draws_into, seed, out)
        self.assertEqual(out, before)
        for seed, due in ((0, (14, 0, 0)), (2026, (0, 5, self.drawn(2026, 5)[1]))):
            report = calstwid._draws(seed, *calstwid._list("out", out[:5]))
            self.assertEqual((report.answer, report.count, report.state), due)
        self.assertEqual(calstwid.draws_into(2026, memoryview(out)[:3]), self.drawn(2026, 3)[1])
        self.assertEqual(out.tolist(), self.drawn(2026, 3)[0] + [7.0] * 1022)

    def test_no_seed(self):
        """What is no u64 is not cut to one."""
        m = example("month-end.run")
        lists, out = (0.1, [1.0], [0.01], m.times, m.factors, m.grid), array("d", bytes(32))
        calls = [lambda seed: calstwid.draws(seed, 4), lambda seed: calstwid.draws_into(seed, out)]
        for _, seeded, _, into in self.KINDS:
            calls += [lambda seed, seeded=seeded: seeded(*lists, seed), lambda seed, into=into: into(*lists, seed, out)]
        wrongs = [(1.0, TypeError), (True, TypeError), (False, TypeError), ("1", TypeError), (None, TypeError), ([1], TypeError), (1j, TypeError)]
        wrongs += [(NAN, TypeError), (-1, ValueError), (2**64, ValueError), (2**64 + 1, ValueError), (-(2**64) + 1, ValueError), (10**5000, ValueError)]
        for call in calls:
            for wrong, error in wrongs:
                with self.assertRaisesRegex(error, "^seed: an int"):
                    call(wrong)
            self.refused(14, call, 0)
            call(2**64 - 1)
        for wrong, error in ((1.0, TypeError), (True, TypeError), (-1, ValueError), (2**64, ValueError)):
            with self.assertRaisesRegex(error, "^count: an int"):
                calstwid.draws(1, wrong)

    def test_paths(self):
        m = example("month-end.run")
        weeks = [7 * week / 365 for week in range(250)]
        for listed, seeded, _, into in self.KINDS:
            for grid in (weeks, m.grid, [0.0, 0.0, 0.5, 0.5, 2.0], []):
                seed, lists = 88172645463325252, (0.1, [1.0], [0.01], m.times, m.factors)
                for _ in range(3):
                    draws, state = self.drawn(seed, len(grid))
                    due = list(map(bits, listed(*lists, grid, draws)))
                    rates, reached = seeded(*lists, grid, seed)
                    self.assertEqual((list(map(bits, rates)), reached), (due, state))
                    self.assertEqual(seeded(*lists, iter(grid), seed), (rates, state))
                    out = array("d", [7.0] * (len(grid) + 1))
                    self.assertEqual((into(*lists, grid, seed, out), out.tolist()), (state, [*rates, 7.0]))
                    # a path is the front of a longer one
                    self.assertEqual(seeded(*lists, grid[: len(grid) // 2], seed).values, rates[: len(grid) // 2])
                    seed = state
        # a grid is read before it is written over
        shared = array("d", m.grid)
        self.assertEqual((calstwid.generate_seeded_into(*lists, shared, 5, shared), shared.tolist()), calstwid.generate_seeded(*lists, m.grid, 5)[::-1])

    def test_paths_turned_down(self):
        """14 stands between 6 and 7, and every other refusal is that of the listed path."""
        m = example("month-end.run")
        one, two, none = ([1.0], [0.01]), ([1.0, 2.0], [0.01, 0.01]), ([], [])
        curve, late, jump = (m.times, m.factors), [0.25, 0.5, 1.0, 9.0], ([1.0, 1.0 + H, 5.0], [5e-324, 1.0, 1.0])
        tries = [
            (0.1, *one, *curve, m.grid),
            (0.1, *one, *curve, []),
            (0.1, *none, *curve, m.grid),
            (0.1, *none, *curve, []),
            (0.1, *two, *curve, m.grid),
            (0.1, *two, *curve, late),
            (0.1, *one, *curve, late),
            (0.1, *one, [], [], m.grid),
            (0.1, *one, *jump, [1.0]),
            (0.1, [1.0], [-0.01], *curve, m.grid),
            (0.1, *one, m.times, [*m.factors[:-1], 0.0], m.grid),
            (0.1, *one, *curve, [-0.25, *m.grid[1:]]),
            (0.1, *one, *curve, m.grid[::-1]),
            (0.0, *two, *curve, m.grid),
            (NAN, *none, *curve, m.grid),
            (0.1, *one, *curve, [*m.grid[:-1], INFINITY]),
            (0.1, two[0], [0.01], *curve, m.grid),
            (0.1, [float(i) for i in range(65)], [0.01] * 65, *curve, m.grid),
            (0.1, *one, *curve, [day / 365 for day in range(1025)]),
        ]
        answers = set()
        for _, _, listed_into, into in self.KINDS:
            for lists in tries:
                before = array("d", [7.0] * (len(lists[-1]) + 1))
                for seed in (2026, 0):
                    draws, out, written = self.drawn(seed, len(lists[-1]))[0], array("d", before), array("d", before)
                    try:
                        due = listed_into(*lists, draws, out) and 0
                    except calstwid.Refused as refused:
                        due = refused.number
                    if seed == 0 and due not in range(1, 7):
                        due = 14
                    if due:
                        self.refused(due, into, *lists, seed, written)
                        self.assertEqual(written, before)
                    else:
                        into(*lists, seed, written)
                        self.assertEqual(written, out)
                    answers.add(due)
            self.refused(1, into, *tries[0], 0, array("d", bytes(24)))
        self.assertEqual(answers, {0, 1, 2, 3, 4, 5, 6, 7, 8, 13, 14, 15})
        arguments = [part for xs in (*two, *curve, m.grid) for part in calstwid._list("xs", xs)]
        report = calstwid._generate_published_seeded(0.1, *arguments, 0, *calstwid._list("out", [7.0] * 4))
        self.assertEqual((report.answer, report.count, report.state), (14, 0, 0))

    def test_documented(self):
        failed, tried = doctest.testmod(calstwid)
        self.assertEqual(failed, 0)
        self.assertGreaterEqual(tried, 7)


class Example(unittest.TestCase):
    """A script of examples/python, as the class attribute `example`."""

    @classmethod
    def load(cls, name):
        path = os.path.join(ROOT, "examples", "python", name + ".py")
        spec = importlib.util.spec_from_file_location(name, path)
        cls.example = importlib.util.module_from_spec(spec)
        spec.loader.exec_module(cls.example)

    def run_twice(self, *words):
        """What it prints, the same each time."""
        environment = {**os.environ, "PYTHONDONTWRITEBYTECODE": "1"}
        command = [sys.executable, self.example.__file__, *words]
        printed, again = (subprocess.run(command, capture_output=True, text=True, env=environment, timeout=120) for _ in range(2))
        self.assertEqual((printed.returncode, printed.stdout), (again.returncode, again.stdout))
        return printed


class SeenDraws(Example):
    """examples/python/seen_draws.py in small."""

    @classmethod
    def setUpClass(cls):
        cls.load("seen_draws")

    def test_sum_of_twelve(self):
        e, F = self.example, Fraction
        self.assertEqual(e.moments(8), [1, 0, 1, 0, F(29, 10), 0, F(569, 42), 0, F(2569, 30)])
        self.assertEqual([e.twelve_below(F(x)) for x in (-7, -6, 0, 6, 7)], [0, 0, F(1, 2), 1, 1])
        # what a sum of at most 1 cuts off the corner of a cube of twelve dimensions, and the corner across from it
        self.assertEqual(e.twelve_below(F(-5)), F(1, math.factorial(12)))
        self.assertEqual(1 - e.twelve_below(F(5)), F(1, math.factorial(12)))
        for x in range(-60, 61):
            self.assertAlmostEqual(e.twelve_below(x / 10), float(e.twelve_below(F(x, 10))), delta=1e-14)
        # to first order in the kurtosis it is (3 x - x^3) phi(x) / 240 at its largest
        self.assertAlmostEqual(e.apart(), 0.0023, places=4)

    def test_largest_gap(self):
        e, chance = self.example, random.Random(5)
        for count in (1, 2, 7, 300, 2000):
            draws = sorted(chance.choice([chance.gauss(0, 1), round(chance.gauss(0, 1), 1)]) for _ in range(count))
            below = e.normal_below
            due = max(max(abs(below(x) - place / count), abs(below(x) - (place + 1) / count)) for place, x in enumerate(draws))
            self.assertEqual([e.largest_gap(draws, below, stretch) for stretch in (1, 16, 256)], [due] * 3)

    def test_seen(self):
        e, seed, count = self.example, 7, 50000
        ordered, sums = e.collected(count, seed, lambda done: None)
        draws, state = [], seed
        while len(draws) < count:
            values, state = calstwid.draws(state, min(1024, count - len(draws)))
            draws += values
        self.assertEqual(ordered.tolist(), sorted(draws))
        self.assertEqual(sums, [sum(int(draw * 2**32) ** power for draw in draws) for power in (1, 2, 3, 4)])
        mean, variance, kurtosis = e.shape(count, sums)
        self.assertAlmostEqual(mean, math.fsum(draws) / count, places=12)
        self.assertAlmostEqual(variance, math.fsum((draw - mean) ** 2 for draw in draws) / count, places=12)
        self.assertAlmostEqual(kurtosis, math.fsum((draw - mean) ** 4 for draw in draws) / count / variance**2 - 3, places=10)
        rows, gap = e.seen(count, seed)
        for row in rows:
            if row.error:
                self.assertLess(abs(row.seen - row.twelve), 4 * row.error + 1 / count, row)
        self.assertLess(gap * math.sqrt(count), 2.0)
        named = {row.name: row for row in rows}
        self.assertEqual((named["smallest"].seen, named["largest"].seen), (min(draws), max(draws)))
        self.assertEqual(named["share beyond 2"].seen, sum(abs(draw) > 2 for draw in draws) / count)

    def test_printed(self):
        printed = self.run_twice("--draws", "3000", "--seed", "3")
        self.assertEqual((printed.returncode, printed.stderr), (0, ""), printed)
        self.assertEqual(len(printed.stdout.splitlines()), 17, printed.stdout)
        self.assertRegex(printed.stdout, "(?m)^3000 draws of the seed 3, in calls of 1024, .*\n\n.*\nmean .*\nvariance .*\nexcess kurtosis .* -0[.]1 ")
        for wrong in (["--draws", "1"], ["--seed", "0"], ["--seed", str(2**64)], ["--seed", "x"]):
            self.assertEqual(self.run_twice(*wrong).returncode, 2)


class AveragedPaths(Example):
    """examples/python/average_paths.py in small: paths of kind 13 average to the curve, and those of kind 12 do not."""

    @classmethod
    def setUpClass(cls):
        cls.load("average_paths")

    def test_misses(self):
        alpha, sigma = self.example.ALPHA, 0.015
        rows = self.example.averaged(pairs=300, seed=7, sigma=sigma)
        self.assertEqual([row.maturity for row in rows], self.example.MATURITIES)
        for row in rows:
            own, other, t = row.kinds[13], row.kinds[12], row.maturity
            # what the grid's steps and the forward's day cost, and then chance
            self.assertLess(abs(own.forward_due), 0.1, row)
            self.assertLess(abs(own.zero_due), 0.1, row)
            self.assertLess(abs(own.forward_miss), 4 * own.forward_error + 0.1, row)
            self.assertLess(abs(own.zero_miss), 4 * own.zero_error + 0.1, row)
            # both have the same draws, so that chance is left out of what lies between them: half the variance of the state less g * g / 2
            g, variance = sigma / alpha * (1 - math.exp(-alpha * t)), sigma**2 * (1 - math.exp(-2 * alpha * t)) / (2 * alpha)
            self.assertAlmostEqual(other.forward_miss - own.forward_miss, 1e4 * (variance - g * g) / 2, delta=0.1)
            self.assertAlmostEqual(other.forward_due - own.forward_due, 1e4 * (variance - g * g) / 2, delta=0.1)
            self.assertAlmostEqual(1e4 * (own.mean - row.forward), 1e4 * g * g / 2, delta=0.1)
            self.assertAlmostEqual(1e4 * (other.mean - row.forward), 1e4 * variance / 2, delta=0.1)
            if t >= 3.0:
                self.assertGreater(abs(other.forward_miss), 5 * other.forward_error + 0.1, row)
            if t >= 4.0:
                self.assertGreater(abs(other.zero_miss), 5 * other.zero_error + 0.1, row)

    def test_printed(self):
        command = "--paths", "40", "--seed", "3", "--no-picture"
        printed = self.run_twice(*command)
        self.assertEqual((printed.returncode, printed.stderr), (0, ""), printed)
        self.assertRegex(printed.stdout, "(?m)^kind 12: over all paths .* 27[.]8[0-9]* bp;.*\nkind 13: over all paths .* 0[.]0[0-9]* bp;")
        rows = [line for line in printed.stdout.splitlines() if line[:6].strip().replace(".", "").isdigit()]
        self.assertEqual(len(rows), 3 * len(self.example.MATURITIES), printed.stdout)
        self.assertEqual(self.run_twice(*command, "--paths", "0").returncode, 2)


class Numbers(unittest.TestCase):
    """Document 01's proved cases, and the rest of the functions that refuse nothing."""

    def test_cases(self):
        self.assertEqual(calstwid.norm_cdf(0), 0.5)
        self.assertEqual((calstwid.norm_cdf(38), calstwid.norm_cdf(-38)), (1.0, 0.0))
        self.assertEqual((calstwid.norm_cdf_dual(38), calstwid.norm_cdf_dual(-38)), (1.0, 0.0))
        self.assertEqual((calstwid.exp(0), calstwid.ln(1), calstwid.sqrt(4)), (1.0, 0.0, 2.0))
        self.assertEqual(bits(calstwid.sqrt(-0.0)), bits(-0.0))
        self.assertEqual(calstwid.fused(2, 3, 1), 7.0)
        self.assertEqual((calstwid.signum(-0.0), calstwid.signum(0.0)), (-1.0, 1.0))

    def test_beside_pythons_own(self):
        for x in (-2.5, -0.3, 0.0, 0.4, 1.7):
            self.assertAlmostEqual(calstwid.exp(x), math.exp(x), places=13)
            self.assertAlmostEqual(calstwid.exp_m1(x), math.expm1(x), places=13)
            self.assertAlmostEqual(calstwid.norm_cdf(x), (1 + math.erf(x / math.sqrt(2))) / 2, places=13)
            self.assertAlmostEqual(calstwid.norm_cdf_dual(x), (1 + math.erf(x / math.sqrt(2))) / 2, places=13)
            self.assertAlmostEqual(calstwid.norm_pdf(x), math.exp(-x * x / 2) / math.sqrt(2 * math.pi), places=13)
        self.assertAlmostEqual(calstwid.ln(7.5), math.log(7.5), places=13)
        self.assertEqual(calstwid.sqrt(2), math.sqrt(2))
        self.assertEqual(calstwid.midpoint(1, 4), 2.5)
        self.assertEqual((calstwid.max(1, 2), calstwid.min(1, 2), calstwid.max(NAN, 2), calstwid.min(2, NAN)), (2.0, 1.0, 2.0, 2.0))
        for either in (calstwid.max, calstwid.min):
            self.assertEqual([bits(either(0.0, -0.0)), bits(either(-0.0, 0.0))], [bits(0.0), bits(-0.0)])

    def test_nan(self):
        for function in (calstwid.exp, calstwid.exp_m1, calstwid.ln, calstwid.sqrt, calstwid.norm_cdf, calstwid.norm_pdf, calstwid.signum):
            self.assertTrue(math.isnan(function(NAN)))


class Formulas(Refusals):
    """The calls that are no kind, beside what they stand for: an argument out of place is seen here."""

    def setUp(self):
        self.desk = desk()
        self.curve = self.desk.times, self.desk.factors
        self.pillars = self.desk.pillars, self.desk.sigmas

    def test_model(self):
        alpha, t, bond, sigma = 0.1, 1.0, 4.0, 0.012
        b = (1 - math.exp(-alpha * (bond - t))) / alpha
        p = dict(zip(*self.curve))
        self.assertAlmostEqual(calstwid.B(alpha, t, bond), b, places=13)
        spread = sigma**2 * (1 - math.exp(-2 * alpha * (bond - t))) / (2 * alpha)
        self.assertAlmostEqual(calstwid.short_rate_variance(alpha, t, bond, sigma), spread, places=13)
        state = sigma**2 * (1 - math.exp(-2 * alpha * t)) / (2 * alpha)
        self.assertAlmostEqual(calstwid.zcb_price_volatility(alpha, sigma, t, bond), b * math.sqrt(state), places=13)
        forward = calstwid.forward_rate_from_curve(*self.curve, t)
        self.assertAlmostEqual(forward, 0.03, places=10)
        a = p[bond] / p[t] * math.exp(b * forward - state * b * b / 2)
        self.assertAlmostEqual(calstwid.A(alpha, *self.curve, t, bond, sigma), a, places=12)
        self.assertAlmostEqual(calstwid.zcb_price(alpha, *self.curve, 0.02, t, bond, sigma), a * math.exp(-b * 0.02), places=12)
        days = [0.0, H, 2 * H]
        drift = calstwid.theta(alpha, days, [math.exp(-0.03 * day) for day in days], 0.0, sigma)
        self.assertAlmostEqual(drift, alpha * 0.03, places=6)

    def test_pillars(self):
        times, sigmas = self.pillars
        self.assertEqual([calstwid.volatility(times, sigmas, t) for t in (0, 0.5, 0.75, 1, 9)], [0.010, 0.010, 0.010, 0.011, 0.012])
        self.assertEqual([calstwid.pillars_reached(times, sigmas, t) for t in (0, 0.5, 0.75, 1, 9)], [0, 1, 1, 2, 3])
        self.refused(7, calstwid.volatility, [], [], 1)
        alpha = 0.1
        step = lambda s, a, b: s * s * (math.exp(2 * alpha * b) - math.exp(2 * alpha * a)) / (2 * alpha)  # noqa: E731
        whole = math.exp(-2 * alpha * 1.5) * (step(0.010, 0.25, 1) + step(0.011, 1, 1.5))
        self.assertAlmostEqual(calstwid.hull_white_piecewise_variance(alpha, times, sigmas, 0.25, 1.5), whole, places=13)
        variances = calstwid.transition_variances(alpha, times, sigmas, 4, 0.25)
        self.assertEqual(len(variances), 4)
        self.assertAlmostEqual(variances[0], calstwid.hull_white_piecewise_variance(alpha, times, sigmas, 0.0, 0.25), places=13)
        self.assertEqual(calstwid.transition_variances(alpha, times, sigmas, 0, 0.25), [])
        self.assertEqual(len(calstwid.transition_variances(alpha, times, sigmas, 1024, 0.25)), 1024)
        for steps in (1025, 2**64 - 1):
            self.refused(1, calstwid.transition_variances, alpha, times, sigmas, steps, 0.25)
        for wrong, error in ((-1, ValueError), (2**64, ValueError), (1.0, TypeError), ("1", TypeError), (None, TypeError)):
            with self.assertRaises(error):
                calstwid.transition_variances(alpha, times, sigmas, wrong, 0.25)

    def test_quotes(self):
        fwd, strike, vol, tau = 0.031, 0.028, 0.22, 1.5
        d1 = (math.log(fwd / strike) + vol * vol * tau / 2) / (vol * math.sqrt(tau))
        d = calstwid.d1_d2(fwd, strike, vol, tau)
        self.assertAlmostEqual(d.d1, d1, places=12)
        self.assertAlmostEqual(d.d2, d1 - vol * math.sqrt(tau), places=12)
        n = calstwid.norm_cdf
        call, put = calstwid.black_call(fwd, strike, vol, tau), calstwid.black_put(fwd, strike, vol, tau)
        self.assertAlmostEqual(call, fwd * n(d.d1) - strike * n(d.d2), places=14)
        self.assertAlmostEqual(call - put, fwd - strike, places=14)
        s = 0.007 * math.sqrt(tau)
        x = (fwd - strike) / s
        self.assertAlmostEqual(calstwid.bachelier_call(fwd, strike, 0.007, tau), (fwd - strike) * n(x) + s * calstwid.norm_pdf(x), places=14)
        self.refused(6, calstwid.black_call, fwd, 0.0, vol, tau)
        p = dict(zip(*self.curve))
        annuity = calstwid.swap_annuity_from_curve(*self.curve, [2.0, 4.0], [0.5, 2.0])
        self.assertAlmostEqual(annuity, 0.5 * p[2.0] + 2.0 * p[4.0], places=14)
        self.assertEqual(calstwid.swap_annuity_from_curve(*self.curve, [], []), 0.0)

    def test_critical_rate(self):
        self.assertEqual(calstwid.find_critical_rate([1], [1], [0]).rate, -0.5)
        self.refused(11, calstwid.implicit_critical_rate, [1], [1], [0])
        for coefficient in (2, 0.5):
            self.refused(10, calstwid.find_critical_rate, [coefficient], [1], [0])
        self.refused(9, calstwid.find_critical_rate, [1, -1], [1, 1], [1, 1])
        self.refused(10, calstwid.find_critical_rate, [], [], [])
        found, stepped = (f([0.5, 0.6], [0.98, 0.95], [1.0, 2.0]) for f in (calstwid.find_critical_rate, calstwid.implicit_critical_rate))
        total = sum(c * a * math.exp(-b * found.rate) for c, a, b in zip([0.5, 0.6], [0.98, 0.95], [1.0, 2.0]))
        self.assertAlmostEqual(total, 1.0, places=12)
        self.assertEqual((stepped.rate, stepped.bracket), (found.rate, found.bracket))
        self.assertAlmostEqual(stepped.stepped, stepped.rate, places=12)


class TurnedDown(Refusals):
    SMALL = [0.0, H, 1.0, 1.0 + H, 2.0], [1.0, 1.0, 0.97, 0.9699, 0.94]

    def test_each_number(self):
        caplet, payer = calstwid.caplet_price, calstwid.payer_swaption_value
        small, pillars, coupons = self.SMALL, ([1.0], [0.01]), ([2.0], [1.0])
        self.refused(1, caplet, 0.5, [1.0, 2.0], [1.0], 0.03, 1.0, 2.0, 0.01)
        self.refused(2, caplet, 0.5, *small, 0.03, 1.0, 2.0, NAN)
        self.refused(2, caplet, 0.5, [1.0, NAN], [1.0, 0.9], 0.03, 1.0, 2.0, 0.01)
        self.refused(2, caplet, INFINITY, *small, 0.03, 1.0, 2.0, 0.01)
        self.refused(3, caplet, 0, *small, 0.03, 1.0, 2.0, 0.01)
        self.refused(4, caplet, 0.5, [2.0, 1.0], [0.94, 0.97], 0.03, 1.0, 2.0, 0.01)
        self.refused(5, caplet, 0.5, *small, 0.03, 2.0, 1.0, 0.01)
        self.refused(6, payer, 0.5, *pillars, *small, *coupons, [0.0], 0.03, 1.0, 1.0, 2.0)
        self.refused(7, payer, 0.5, *pillars, *small, [], [], [], 0.03, 1.0, 1.0, 1.0)
        self.refused(7, calstwid.volatility, [], [], 1.0)
        self.refused(8, caplet, 0.5, *small, 0.03, 1.0, 2.5, 0.01)
        self.refused(8, caplet, 0.5, [1.0, 2.0], [0.97, 0.94], 0.03, 0.5, 2.0, 0.01)
        self.refused(8, caplet, 0.5, [], [], 0.03, 1.0, 1.5, 0.01)
        self.refused(9, calstwid.swaption_price, 0.5, *small, [2.0, 2.0], [1.0, 0.0], -1.0, 1.0, 0.01)
        self.refused(10, calstwid.swaption_price, 0.5, *small, *coupons, -3.0, 1.0, 0.01)
        tiny = [0.0, 1e-300, H], [1.0, 1.0, 1.0]
        self.refused(11, payer, 1.0, [0.0], [0.01], *tiny, [1e-300], [0.0], [0.0], 0.0, 0.0, 1.0, 1.0)
        self.refused(12, calstwid.fit_caplet_black, 0.5, *small, 0.03, 1.0, 2.0, 1e-9)
        self.refused(13, calstwid.bond_put_price, 0.5, [1.0, 2.0], [1e308, 1.0], 1.0, 2.0, 1e10, 0.01)
        self.refused(14, calstwid.draws, 0, 1)
        self.refused(15, calstwid.generate_published, 0.5, [1.0, 2.0], [0.01, 0.01], *small, [1.0], [0.3])

    def test_sentences(self):
        self.assertEqual(sorted(calstwid.SENTENCES), [*range(1, 16)])
        refused = calstwid.Refused(3)
        self.assertEqual(str(refused), "refused 3: alpha is zero or negative")
        again = pickle.loads(pickle.dumps(refused))
        self.assertEqual((again.number, again.sentence), (3, "alpha is zero or negative"))

    def test_long_lists(self):
        long = [float(i) for i in range(2048)]
        flat = [1.0] * 2048
        self.assertEqual(calstwid.bond_call_price(0.5, long, flat, 1, 2, 0.5, 0), 0.5)
        self.refused(1, calstwid.bond_call_price, 0.5, long + [2048.0], flat + [1.0], 1, 2, 0.5, 0)
        self.refused(1, calstwid.bond_call_price, 0.5, long, flat[:-1], 1, 2, 0.5, 0)
        self.assertEqual(calstwid.volatility(long[:64], flat[:64], 70), 1.0)
        self.refused(1, calstwid.volatility, long[:65], flat[:65], 70)
        self.refused(1, calstwid.find_critical_rate, flat[:65], flat[:65], flat[:65])
        self.refused(1, calstwid.find_critical_rate, [1.0], [1.0, 1.0], [1.0])
        self.refused(1, calstwid.swap_annuity_from_curve, long, flat, [1.0] * 65, [1.0] * 65)

    def test_lent_list(self):
        d = desk()
        lists = d.alpha, d.pillars, d.sigmas, d.times, d.factors, d.grid
        before = array("d", [7.0, 8.0, 9.0, 10.0, 11.0])
        out = array("d", before)
        self.refused(2, calstwid.generate_into, *lists, [0.3, -1.1, NAN, 0.05], out)
        self.refused(1, calstwid.generate_into, *lists, d.draws[:3], out)
        self.refused(3, calstwid.generate_into, 0.0, *lists[1:], d.draws, out)
        self.refused(8, calstwid.generate_into, *lists[:-1], [0.25, 0.5, 1.0, 6.0], d.draws, out)
        short = array("d", [7.0, 8.0, 9.0])
        self.refused(1, calstwid.generate_into, *lists, d.draws, short)
        self.refused(1, calstwid.generate_into, *lists, d.draws, array("d"))
        self.assertEqual((out, short), (before, before[:3]))
        self.assertEqual(calstwid.generate_into(*lists, d.draws, out), 4)
        path = calstwid.generate(*lists, d.draws)
        self.assertEqual(out.tolist(), [*path, 11.0])
        self.assertEqual(calstwid.generate(*lists[:-1], iter(d.grid), iter(d.draws)), path)
        self.assertEqual(calstwid.generate(*lists[:-1], [], []), [])
        shared = array("d", d.draws)
        self.assertEqual((calstwid.generate_into(*lists, shared, shared), shared.tolist()), (4, path))
        out = array("d", before)
        self.refused(5, calstwid.transition_variances_into, d.alpha, d.pillars, d.sigmas, 5, 0.0, out)
        self.refused(1, calstwid.transition_variances_into, d.alpha, d.pillars, d.sigmas, 6, 0.25, out)
        self.assertEqual(out, before)
        self.assertEqual(calstwid.transition_variances_into(d.alpha, d.pillars, d.sigmas, 4, 0.25, out), 4)
        self.assertEqual(out.tolist(), [*calstwid.transition_variances(d.alpha, d.pillars, d.sigmas, 4, 0.25), 11.0])
        for wrong in ([0.0] * 4, (0.0,) * 4, bytes(32), bytearray(32), array("f", [0.0] * 4), memoryview(before).toreadonly(), None, "text"):
            with self.assertRaises(TypeError):
                calstwid.generate_into(*lists, d.draws, wrong)


class Lists(unittest.TestCase):
    def price(self, times, factors):
        return calstwid.bond_call_price(0.5, times, factors, 1, 2, 0.5, 0)

    def test_sorts_of_lists(self):
        times, factors = array("d", [1.0, 2.0]), array("d", [1.0, 1.0])
        askew = memoryview(bytearray(1) + bytearray(times.tobytes()))[1:].cast("d")
        sorts = [
            [1.0, 2.0],
            (1, 2),
            range(1, 3),
            iter([1, 2.0]),
            times,
            array("f", [1, 2]),
            array("i", [1, 2]),
            memoryview(times),
            memoryview(times).toreadonly(),
            memoryview(array("d", [1.0, 7.0, 2.0]))[::2],
            askew,
        ]
        for one in sorts:
            self.assertEqual(self.price(one, factors), 0.5)
        self.assertEqual((times, factors), (array("d", [1.0, 2.0]), array("d", [1.0, 1.0])))

    def test_lent_for_the_call_alone(self):
        times, factors = array("d", [1.0, 2.0]), array("d", [1.0, 1.0])
        self.assertEqual(self.price(times, factors), 0.5)
        times.append(3.0)
        factors.append(1.0)
        self.assertEqual(self.price(times, factors), 0.5)

    def test_numpy(self):
        try:
            import numpy
        except ImportError:
            self.skipTest("numpy is not at hand")
        for kind in ("f8", "f4", "i8", ">f8", "u1"):
            self.assertEqual(self.price(numpy.array([1, 2], kind), numpy.ones(2, kind)), 0.5)
        self.assertEqual(self.price(numpy.array([1.0, 9.0, 2.0])[::2], numpy.ones(2)), 0.5)
        self.assertEqual(calstwid.B(numpy.float64(0.5), numpy.float32(1), numpy.int64(2)), calstwid.B(0.5, 1, 2))
        for wrong in (numpy.ones((2, 2)), numpy.float64(1), numpy.ones(2, complex), numpy.array(["1", "2"]), numpy.array([1, "2"], object)):
            with self.assertRaises(TypeError):
                self.price([1, 2], wrong)
        d = desk()
        out = numpy.zeros(4)
        curve = calstwid.generate_into(d.alpha, d.pillars, d.sigmas, d.times, d.factors, d.grid, d.draws, out)
        self.assertEqual((curve, out.tolist()), (4, calstwid.generate(d.alpha, d.pillars, d.sigmas, d.times, d.factors, d.grid, d.draws)))
        self.assertEqual(calstwid.calibrate_to_instruments(0.1, d.times, d.factors, numpy.array([True]), [0.03], [1], [1.5], [0.0075]).statuses, (True,))
        self.assertEqual((calstwid.draws_into(numpy.uint64(2**64 - 1), out), out.tolist()), calstwid.draws(2**64 - 1, 4)[::-1])
        for wrong in (numpy.bool_(True), numpy.float64(1)):
            with self.assertRaises(TypeError):
                calstwid.draws(wrong, 1)

    def test_no_numbers(self):
        wrongs = ("12", b"\0" * 16, bytearray(16), None, 5, {1.0: 2.0}, {1.0, 2.0}, ["1", "2"], [1, None], [1, [2]], [1j, 2], [b"1"], object())
        for wrong in wrongs:
            with self.assertRaises(TypeError):
                self.price(wrong, [1, 1])
        for wrong in ("1", b"1", None, [1.0], 1j, object()):
            with self.assertRaises(TypeError):
                calstwid.bond_call_price(wrong, [1, 2], [1, 1], 1, 2, 0.5, 0)
            with self.assertRaises(TypeError):
                calstwid.exp(wrong)
        for wrong in (True, [True, 2], iter([1j, 2]), (x for x in [1, 2j])):
            with self.assertRaises(TypeError):
                self.price(wrong, [1, 1])
        with self.assertRaises(TypeError):
            calstwid.exp(True)
        with self.assertRaisesRegex(ValueError, "x: .* beyond it"):
            calstwid.exp(10**400)
        for huge in ([1, 10**400], iter([1, 10**400])):
            with self.assertRaisesRegex(ValueError, "times: .* beyond it"):
                self.price(huge, [1, 1])
        with self.assertRaisesRegex(ValueError, "k: an int from 0"):
            calstwid.piece(b"", 10**5000)
        with self.assertRaises(TypeError):
            calstwid.exp()

    def test_kept_errors_lock_nothing(self):
        d = desk()
        lists = [array("d", xs) for xs in (d.pillars, d.sigmas, d.times, d.factors, d.grid, d.draws)]
        out, payments, floats = array("d", bytes(32)), array("d", d.payments), array("f", bytes(16))
        tries = [
            (calstwid.Refused, lambda: calstwid.generate_into(0.0, *lists, out)),
            (TypeError, lambda: calstwid.generate_into(0.1, *lists[:-1], [1j], out)),
            (TypeError, lambda: calstwid.generate_into(0.1, *lists, [0.0] * 4)),
            (TypeError, lambda: calstwid.generate_into(0.1, *lists, floats)),
            (calstwid.Refused, lambda: calstwid.generate_seeded_into(0.1, *lists[:-1], 0, out)),
            (TypeError, lambda: calstwid.generate_published_seeded_into(0.1, *lists[:-1], 1.0, out)),
            (calstwid.Refused, lambda: calstwid.draws_into(0, out)),
            (ValueError, lambda: calstwid.draws_into(-1, out)),
            (calstwid.Refused, lambda: calstwid.transition_variances_into(0.0, *lists[:2], 4, 0.25, out)),
            (calstwid.Refused, lambda: calstwid.payer_swaption_value(0.0, *lists[:4], payments, d.accruals, None, 0.03, 1, 1, 1)),
            (TypeError, lambda: calstwid.payer_swaption_value(0.1, *lists[:4], payments, d.accruals, None, 0.03, 1, 1, "1")),
        ]
        kept = []
        for error, call in tries:
            try:
                call()
            except error as caught:
                kept.append(caught)
            # BufferError where one is still lent
            for one in (*lists, out, payments, floats):
                one.append(0.0)
                one.pop()
        self.assertEqual(len(kept), len(tries))

    def test_numpy_that_is_no_list_of_numbers(self):
        try:
            import numpy
        except ImportError:
            self.skipTest("numpy is not at hand")
        masked = numpy.ma.masked_array([1.0, 2.0], [False, True])
        whole = numpy.ma.masked_array([1.0, 2.0])
        wrongs = [masked, whole, numpy.ma.masked, [1.0, numpy.ma.masked], [numpy.bool_(True), 2], numpy.array([True, True])]
        wrongs += [[numpy.complex128(1 + 2j), 2], [1, numpy.complex64(2j)], [numpy.array(1 + 2j), 2]]
        for wrong in wrongs:
            with self.assertRaises(TypeError):
                self.price(wrong, [1, 1])
        with self.assertRaises(TypeError):
            self.price((x for x in numpy.ones(2, complex)), [1, 1])
        with self.assertRaisesRegex(TypeError, "times: .*>d"):
            self.price(memoryview(numpy.array([1, 2], ">f8")), [1, 1])
        for wrong in (numpy.ma.masked, numpy.complex128(1j), numpy.array(1j), numpy.bool_(True)):
            with self.assertRaises(TypeError):
                calstwid.exp(wrong)
        d = desk()
        with self.assertRaises(TypeError):
            calstwid.generate_into(d.alpha, d.pillars, d.sigmas, d.times, d.factors, d.grid, d.draws, numpy.ma.zeros(4))
        basket = lambda normals: calstwid.calibrate_to_instruments(0.1, d.times, d.factors, normals, [0.03], [1], [1.5], [0.0075])  # noqa: E731
        self.assertEqual([basket(one).statuses for one in ([numpy.bool_(True)], numpy.array([True]), [True])], [(True,)] * 3)
        for wrong in (numpy.ma.masked_array([True]), [numpy.array([True])], [numpy.int64(1)]):
            with self.assertRaises(TypeError):
                basket(wrong)

    def test_frozen(self):
        d1d2 = calstwid.d1_d2(0.03, 0.03, 0.2, 1)
        with self.assertRaises(AttributeError):
            d1d2.d1 = 0.0


if __name__ == "__main__":
    unittest.main()
