/* The elementary and normal functions in C, written from the text of document 01 ("Elementary
   functions") and, for the normal functions, from the order of operations of norm_cdf.rs.
   It is the judge of the proved functions, so it shares nothing with their code: it takes C's own
   round, frexp and ldexp, and the processor's instructions for the fused step and the root.
   Compile with -ffp-contract=off: a product and a sum may become one step only where it is written so. */
#ifndef DOCUMENT01_H
#define DOCUMENT01_H
#include <immintrin.h>
#include <math.h>
#include <stdint.h>
#include <string.h>

static inline double from_bits(uint64_t b) { double x; memcpy(&x, &b, 8); return x; }
static inline uint64_t to_bits(double x) { uint64_t b; memcpy(&b, &x, 8); return b; }

/* The instructions vfmadd and vsqrtsd themselves; `make` and `compare` look for them in the object file. */
__attribute__((noinline, unused)) static double hardware_fma(double a, double b, double c)
{
    return _mm_cvtsd_f64(_mm_fmadd_sd(_mm_set_sd(a), _mm_set_sd(b), _mm_set_sd(c)));
}
__attribute__((noinline, unused)) static double hardware_sqrt(double x)
{
    return _mm_cvtsd_f64(_mm_sqrt_sd(_mm_setzero_pd(), _mm_set_sd(x)));
}

#define LN2_FIRST 0.693147180369123816490
#define LN2_SECOND 1.90821492927058770002e-10
#define SQRT_2PI 2.5066282746310005

static double doc_exp(double x)
{
    if (isnan(x)) return NAN;
    if (x > 710) return INFINITY;
    if (x < -746) return 0.0;
    double k = round(x * 1.4426950408889634); /* C's round: ties away from zero */
    double r = (x - k * LN2_FIRST) - k * LN2_SECOND;
    double p = 1;
    for (int n = 13; n >= 1; n--) p = 1 + (r * p) / n;
    int whole = (int)k, a = whole / 2, b = whole - a; /* C's division is toward zero */
    return p * ldexp(1, a) * ldexp(1, b);
}

/* The two series by their first n, so that a test can find arguments that tell 17 from 16, and 25 from 23. */
static double exp_m1_from(double y, int top)
{
    if (!(fabs(y) <= 0.5)) return doc_exp(y) - 1;
    double q = 1;
    for (int n = top; n >= 2; n--) q = 1 + (y * q) / n;
    return y * q;
}
static double doc_exp_m1(double y) { return exp_m1_from(y, 17); }

static double ln_from(double x, int top)
{
    if (isnan(x) || x < 0) return NAN;
    if (x == 0) return -INFINITY;
    if (isinf(x)) return x;
    int k;
    double m = frexp(x, &k); /* 0.5 <= m < 1, also of a subnormal */
    if (m < 0.75) { m = m * 2; k = k - 1; }
    double s = (m - 1) / (m + 1), z = s * s, t = 0;
    for (int n = top; n >= 1; n -= 2) t = 1.0 / n + z * t;
    return k * LN2_FIRST + (2 * (s * t) + k * LN2_SECOND);
}
static double doc_ln(double x) { return ln_from(x, 25); }

static double doc_norm_pdf(double d) { return doc_exp((-0.5 * d) * d) / SQRT_2PI; }

/* Hart's polynomials, highest power first. */
static const double hart_num[7] = {
    3.52624965998911e-2, 0.700383064443688, 6.37396220353165, 33.912866078383,
    112.079291497871, 221.213596169931, 220.206867912376};
static const double hart_den[8] = {
    8.83883476483184e-2, 1.75566716318264, 16.064177579207, 86.7807322029461,
    296.564248779674, 637.333633378831, 793.826512519948, 440.413735824752};

static double tail(double z, double e)
{
    double b = z + 0.65;
    for (int n = 4; n >= 1; n--) b = z + n / b;
    return e / (b * SQRT_2PI);
}

/* once: fused steps, as for f64; else a product and then a sum, as for DualFwd. */
static inline double doc_normal(double x, int once)
{
    double z = fabs(x), cum;
    if (z > 37) {
        cum = 0;
    } else {
        double e = doc_exp(-z * z * 0.5);
        if (z < 7.071067811865475) {
            double num = hart_num[0], den = hart_den[0];
            for (int i = 1; i < 7; i++) num = once ? hardware_fma(num, z, hart_num[i]) : num * z + hart_num[i];
            for (int i = 1; i < 8; i++) den = once ? hardware_fma(den, z, hart_den[i]) : den * z + hart_den[i];
            cum = e * num / den;
        } else {
            cum = tail(z, e);
        }
    }
    return x > 0 ? 1 - cum : cum;
}
static double doc_norm_cdf(double x) { return doc_normal(x, 1); }
static double doc_norm_cdf_dual(double x) { return doc_normal(x, 0); }

static double doc_signum(double x) { return isnan(x) ? NAN : signbit(x) ? -1 : 1; }
static double doc_midpoint(double a, double b) { return (a + b) / 2; }
static double doc_max(double a, double b) { return isnan(a) ? b : isnan(b) ? a : a > b ? a : b; }
static double doc_min(double a, double b) { return isnan(a) ? b : isnan(b) ? a : a < b ? a : b; }
#endif
