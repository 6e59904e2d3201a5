#!/usr/bin/env python3
"""check.py FILE: works out every vector of FILE a second time, in Python, and says how many differ.
fused and sqrt: in exact fractions of whole numbers, rounded once, with no floating-point operation but
Python's correctly rounded division of integers. The others: document 01's text over Python's floats,
their fused steps in exact fractions."""
import collections, math, struct, sys
from fractions import Fraction

NAMES = ["fused", "sqrt", "exp", "exp_m1", "ln", "norm_pdf", "norm_cdf", "norm_cdf_dual", "signum", "midpoint",
         "max", "min", "abs", "is_finite"]
inf, nan = math.inf, math.nan
sign = lambda x: math.copysign(1.0, x)


def nearest(q, zero=0.0):
    """The float nearest to the fraction q, ties to even; the zero given where q is 0."""
    if q == 0:
        return zero
    try:
        r = abs(q.numerator) / q.denominator
    except OverflowError:
        r = inf
    return r if q > 0 else -r


def fused(a, b, c):
    if any(map(math.isnan, (a, b, c))) or not (math.isfinite(a) and math.isfinite(b)):
        return a * b + c  # NaN or an infinity: nothing is rounded
    if math.isinf(c):
        return c
    s = sign(a) * sign(b)
    zero = -0.0 if s < 0 and sign(c) < 0 else 0.0
    return nearest(Fraction(a) * Fraction(b) + Fraction(c), zero)


def sqrt(x):
    if math.isnan(x) or x < 0:
        return nan
    if x == 0 or x == inf:
        return x
    n = Fraction(x) * 2**2200  # a whole number, whose root has 560 digits and more
    r = math.isqrt(n.numerator)
    exact = r * r == n.numerator
    return nearest(Fraction(2 * r + (not exact), 2**1101))


FIRST, SECOND, SQRT_2PI = 0.693147180369123816490, 1.90821492927058770002e-10, 2.5066282746310005


def exp(x):
    if math.isnan(x):
        return nan
    if x > 710:
        return inf
    if x < -746:
        return 0.0
    product = Fraction(x * 1.4426950408889634)
    k = math.floor(abs(product) + Fraction(1, 2)) * (1 if product >= 0 else -1)
    r = (x - k * FIRST) - k * SECOND
    p = 1.0
    for n in range(13, 0, -1):
        p = 1.0 + (r * p) / n
    a = abs(k) // 2 * (1 if k >= 0 else -1)
    return p * 2.0**a * 2.0 ** (k - a)


def exp_m1(y):
    if not abs(y) <= 0.5:
        return exp(y) - 1.0
    q = 1.0
    for n in range(17, 1, -1):
        q = 1.0 + (y * q) / n
    return y * q


def ln(x):
    if math.isnan(x) or x < 0:
        return nan
    if x == 0:
        return -inf
    if x == inf:
        return x
    k, m = 0, Fraction(x)
    k = m.numerator.bit_length() - m.denominator.bit_length()
    m = m / Fraction(2) ** k  # between 1/2 and 2
    while m >= Fraction(3, 2):
        m, k = m / 2, k + 1
    while m < Fraction(3, 4):
        m, k = m * 2, k - 1
    m = float(m)
    s = (m - 1.0) / (m + 1.0)
    z, t = s * s, 0.0
    for n in range(25, 0, -2):
        t = 1.0 / n + z * t
    return k * FIRST + (2.0 * (s * t) + k * SECOND)


def norm_pdf(d):
    return exp((-0.5 * d) * d) / SQRT_2PI


NUM = [3.52624965998911e-2, 0.700383064443688, 6.37396220353165, 33.912866078383, 112.079291497871, 221.213596169931,
       220.206867912376]
DEN = [8.83883476483184e-2, 1.75566716318264, 16.064177579207, 86.7807322029461, 296.564248779674, 637.333633378831,
       793.826512519948, 440.413735824752]


def normal(x, step):
    z = abs(x)
    if z > 37.0:
        cum = 0.0
    elif z < 7.071067811865475:
        num, den = NUM[0], DEN[0]
        for c in NUM[1:]:
            num = step(num, z, c)
        for c in DEN[1:]:
            den = step(den, z, c)
        cum = exp(-z * z * 0.5) * num / den
    else:
        b = z + 0.65
        for n in (4.0, 3.0, 2.0, 1.0):
            b = z + n / b
        cum = exp(-z * z * 0.5) / (b * SQRT_2PI)
    return 1.0 - cum if x > 0 else cum


FUNCTIONS = [
    fused, lambda a, b, c: sqrt(a), lambda a, b, c: exp(a), lambda a, b, c: exp_m1(a), lambda a, b, c: ln(a),
    lambda a, b, c: norm_pdf(a), lambda a, b, c: normal(a, fused), lambda a, b, c: normal(a, lambda p, z, k: p * z + k),
    lambda a, b, c: nan if math.isnan(a) else sign(a), lambda a, b, c: (a + b) / 2.0,
    lambda a, b, c: b if math.isnan(a) else a if math.isnan(b) else max(a, b),
    lambda a, b, c: b if math.isnan(a) else a if math.isnan(b) else min(a, b), lambda a, b, c: abs(a),
    lambda a, b, c: float(math.isfinite(a))]


def same(x, y):
    return math.isnan(x) and math.isnan(y) or struct.pack("<d", x) == struct.pack("<d", y)


def main():
    data = open(sys.argv[1], "rb").read()
    seen, differ, ties = collections.Counter(), collections.Counter(), 0
    for at in range(0, len(data), 40):
        f, a, b, c, expected = struct.unpack("<Qdddd", data[at:at + 40])
        seen[f] += 1
        r = FUNCTIONS[f - 1](a, b, c)
        if not same(r, expected):
            differ[f] += 1
            if differ[f] <= 3:
                print(NAMES[f - 1], "record", at // 40, a.hex(), b.hex(), c.hex(), "file", expected.hex(), "here", r.hex())
    for f in sorted(seen):
        print(NAMES[f - 1], seen[f], "vectors,", differ[f], "differ")
    print("total", sum(seen.values()), "vectors,", sum(differ.values()), "differ")
    sys.exit(1 if differ else 0)


main()
