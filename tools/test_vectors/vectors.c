/* Writes the vectors of the gate to standard output: records of five words, least byte first, that are
   the function's number, three arguments' bits (0 where unused) and the expected bits.
   fused and sqrt: the expected bits are the processor's (vfmadd, vsqrtsd). The others: document01.h. */
#include <stdio.h>
#include "operands.h"

enum { FUSED = 1, SQRT, EXP, EXP_M1, LN, NORM_PDF, NORM_CDF, NORM_CDF_DUAL, SIGNUM, MIDPOINT, MAX, MIN, ABS, IS_FINITE };

static double result(uint64_t f, double a, double b, double c)
{
    switch (f) {
    case FUSED: return hardware_fma(a, b, c);
    case SQRT: return hardware_sqrt(a);
    case EXP: return doc_exp(a);
    case EXP_M1: return doc_exp_m1(a);
    case LN: return doc_ln(a);
    case NORM_PDF: return doc_norm_pdf(a);
    case NORM_CDF: return doc_norm_cdf(a);
    case NORM_CDF_DUAL: return doc_norm_cdf_dual(a);
    case SIGNUM: return doc_signum(a);
    case MIDPOINT: return doc_midpoint(a, b);
    case MAX: return doc_max(a, b);
    case MIN: return doc_min(a, b);
    case ABS: return fabs(a);
    default: return isfinite(a) ? 1 : 0;
    }
}

static void out(uint64_t f, uint64_t a, uint64_t b, uint64_t c)
{
    double r = result(f, from_bits(a), from_bits(b), from_bits(c));
    uint64_t record[5] = {f, a, b, c, isnan(r) ? 0x7ff8000000000000ULL : to_bits(r)};
    fwrite(record, 8, 5, stdout);
}
static void out1(uint64_t f, double x) { out(f, to_bits(x), 0, 0); }
/* x, the floats on either side, and the same of -x. */
static void around(uint64_t f, double x)
{
    double near[3] = {nextafter(x, -INFINITY), x, nextafter(x, INFINITY)};
    for (int i = 0; i < 3; i++) { out1(f, near[i]); out1(f, -near[i]); }
}

/* The operand classes: zero, subnormals, normals at both ends, powers of two with their neighbours,
   numbers whose products lie at the limits, infinity and NaN. */
static const uint64_t edges[] = {
    0, 1, 2, 0x0008000000000000, 0x000fffffffffffff, 0x0010000000000000, 0x0010000000000001,
    0x1ff0000000000000, 0x2000000000000001, 0x3c9fffffffffffff, 0x3ca0000000000000, 0x3cb0000000000000,
    0x3fdfffffffffffff, 0x3fe0000000000000, 0x3fefffffffffffff, 0x3ff0000000000000, 0x3ff0000000000001,
    0x4000000000000000, 0x4008000000000000, 0x433fffffffffffff, 0x4340000000000000, 0x5fefffffffffffff,
    0x5ff0000000000000, 0x7fdfffffffffffff, 0x7fe0000000000000, 0x7feffffffffffffe, 0x7fefffffffffffff,
    0x7ff0000000000000, 0x7ff0000000000001, 0x7ff8000000000000};
#define EDGES (sizeof edges / sizeof *edges)

/* The same by class: how many there are, and which. Any member stands for its class. */
enum { ZERO, SUBNORMAL, LEAST_NORMAL, POWER_OF_TWO, NORMAL, GREATEST, INFINITE_ONE, NOT_A_NUMBER, CLASSES };
static const struct { unsigned count; uint64_t bits[12]; } classes[CLASSES] = {
    {1, {0}},
    {5, {1, 2, 3, 0x0008000000000000, 0x000fffffffffffff}},
    {1, {0x0010000000000000}},
    {11, {0x0020000000000000, 0x1ff0000000000000, 0x2000000000000000, 0x3ca0000000000000, 0x3cb0000000000000, 0x3fe0000000000000,
          0x3ff0000000000000, 0x4000000000000000, 0x4340000000000000, 0x5ff0000000000000, 0x7fe0000000000000}},
    {12, {0x0010000000000001, 0x001fffffffffffff, 0x2000000000000001, 0x3c9fffffffffffff, 0x3fdfffffffffffff, 0x3fefffffffffffff,
          0x3ff0000000000001, 0x4008000000000000, 0x433fffffffffffff, 0x5fefffffffffffff, 0x7fdfffffffffffff, 0x7feffffffffffffe}},
    {1, {0x7fefffffffffffff}},
    {1, {0x7ff0000000000000}},
    {2, {0x7ff0000000000001, 0x7ff8000000000000}}};
static uint64_t member(int class) { return classes[class].bits[any() % classes[class].count]; }

/* Arguments of every exponent and of either sign. */
static void every_exponent(uint64_t f, int n) { while (n-- > 0) out(f, any(), 0, 0); }
static double uniform(double lo, double hi) { return lo + (hi - lo) * ((double)(any() >> 11) * 0x1p-53); }
/* A number of size below 1, small ones as likely as large ones. */
static double small(void)
{
    double x = uniform(-1, 1);
    return ldexp(x, -(int)between(0, 60));
}
static void edges_alone(uint64_t f)
{
    for (unsigned i = 0; i < EDGES; i++) { out(f, edges[i], 0, 0); out(f, edges[i] | SIGN, 0, 0); }
}

static void fused(void)
{
    /* Sums whose last digit is decided by what is least: ties, ties broken, limits. */
    static const double chosen[][3] = {
        {2, 3, 1}, {0x1p1023, 0x1.fffffffffffffp0, 0x1p970}, {0x1p1023, 0x1.fffffffffffffp0, 0x1.fffffffffffffp969},
        {0x1p1023, 2, -0x1p970}, {0x1p1023, 2, -0x1.0000000000001p970}, {0x1p1023, 2, -0x1p971},
        {0x1p512, 0x1p512, -0x1.fffffffffffffp1023}, {0x1p-537, 0x1p-538, 0}, {0x1p-537, 0x1p-538, 0x1p-1074},
        {0x1p-537, 0x1.8p-537, 0}, {0x1.8p-537, 0x1p-538, 0}, {-0x1p-537, 0x1p-538, 0}, {0x1p-600, 0x1p-600, 0},
        {0x1p-600, -0x1p-600, 0}, {0x1p-600, -0x1p-600, 0x1p-1022}, {0x1p-600, 0x1p-600, 0x1p-1022},
        {1, 0x1p-1022, -0x1p-1074}, {0x1.fffffffffffffp-1, 0x1p-1022, 0}, {0x1.fffffffffffffp-1, 0x1p-1022, 0x1p-1074},
        {1, 1, 0x1p-53}, {1, 0x1.0000000000001p0, 0x1p-53}, {1, 1, -0x1p-54}, {1, 1, -0x1.8p-54}, {3, 0x1p-1074, 0},
        {0x1.0000000000001p0, 0x1.0000000000001p0, -0x1.0000000000002p0}, {0x1p-1074, 0x1p-1074, -0x1p-1074},
        {0x1.fffffffffffffp1023, 0x1.fffffffffffffp1023, -INFINITY}, {0x1.fffffffffffffp1023, 2, -0x1.fffffffffffffp1023}};
    for (unsigned i = 0; i < sizeof chosen / sizeof *chosen; i++)
        for (int s = 0; s < 8; s++)
            out(FUSED, to_bits(s & 1 ? -chosen[i][0] : chosen[i][0]), to_bits(s & 2 ? -chosen[i][1] : chosen[i][1]),
                to_bits(s & 4 ? -chosen[i][2] : chosen[i][2]));
    /* Every triple of operand classes with every sign; of a NaN the signs do not count, and one choice is enough. */
    for (int i = 0; i < CLASSES; i++)
        for (int j = 0; j < CLASSES; j++)
            for (int k = 0; k < CLASSES; k++)
                for (int s = 0; s < 8; s++) {
                    if (s && (i == NOT_A_NUMBER || j == NOT_A_NUMBER || k == NOT_A_NUMBER)) break;
                    uint64_t a = member(i), b = member(j), c = member(k);
                    out(FUSED, a | (uint64_t)(s & 1) << 63, b | (uint64_t)(s >> 1 & 1) << 63, c | (uint64_t)(s >> 2) << 63);
                }
    for (int class = 0; class < T_CLASSES; class++)
        for (int n = 0; n < 150; n++) {
            uint64_t a, b, c;
            triple(class, &a, &b, &c);
            out(FUSED, a, b, c);
        }
}

static void root(void)
{
    edges_alone(SQRT);
    around(SQRT, 4);
    around(SQRT, 2);
    for (int class = 0; class < R_CLASSES; class++)
        for (int n = 0; n < 130; n++) out(SQRT, root_operand(class), 0, 0);
}

static void exponential(uint64_t f)
{
    edges_alone(f);
    around(f, 710);
    around(f, 746);
    around(f, 709.782712893384);   /* the greatest result */
    around(f, 708.3964185322641);  /* the least normal result */
    around(f, 745.1332191019412);  /* the least result */
    around(f, 744.4400719213812);
    around(f, 0.5);
    around(f, 1);
    /* k changes at the halves of 1 / 1.4426950408889634: ties of the rounded product, and their neighbours */
    for (int k = -1076; k <= 1024; k += 26) {
        double x = (k + 0.5) / 1.4426950408889634;
        for (int i = 0; i < 2; i++) x = nextafter(x, -INFINITY);
        for (int i = 0; i < 5; i++, x = nextafter(x, INFINITY))
            if (i == 2 || (x * 1.4426950408889634 == k + 0.5) || i == 1) out1(f, x);
    }
    for (int k = 0; k < 3; k++) { around(f, (k + 0.5) / 1.4426950408889634); around(f, k * 0.6931471805599453); }
    for (int n = 0; n < 150; n++) out1(f, uniform(-746, 710));
    for (int n = 0; n < 100; n++) out1(f, uniform(-1, 1));
    for (int n = 0; n < 60; n++) out1(f, uniform(-0.5, 0.5));
    for (int n = 0; n < 60; n++) out1(f, small());
    every_exponent(f, 60);
}

static void logarithm(void)
{
    edges_alone(LN);
    for (int k = -1074; k <= 1023; k += 31) {
        double p = ldexp(1, k);
        out1(LN, p);
        if (k < -1021 || k > 1021) continue;
        double starts[3] = {p, 0.75 * p, 1.5 * p};
        for (int i = 0; i < 3; i++) {
            out1(LN, nextafter(starts[i], 0));
            out1(LN, starts[i]);
            out1(LN, nextafter(starts[i], INFINITY));
        }
    }
    around(LN, 1);
    around(LN, 0.75);
    around(LN, 1.5);
    around(LN, 0x1.8p1023);
    around(LN, 0x1.8p-1074 * 3);
    for (int n = 0; n < 52; n++) out(LN, (any() & FRACTION) >> n, 0, 0);
    for (int n = 0; n < 60; n++) out1(LN, uniform(0.5, 2));
    for (int n = 0; n < 100; n++) out(LN, any() & ~SIGN, 0, 0);
    every_exponent(LN, 40);
}

/* Random arguments hardly ever show the series' first term, so some that do are looked for. */
static void first_terms(void)
{
    for (int found = 0; found < 10;) {
        double y = uniform(-0.5, 0.5);
        if (exp_m1_from(y, 16) != exp_m1_from(y, 17)) { out1(EXP_M1, y); found++; }
    }
    for (int found = 0; found < 10;) {
        double x = uniform(0.75, 1.5);
        if (ln_from(x, 23) != ln_from(x, 25)) { out1(LN, x); found++; }
    }
}

static void normal(uint64_t f)
{
    edges_alone(f);
    around(f, 37);
    around(f, 38);
    around(f, 7.071067811865475);
    around(f, 5);
    around(f, 38.485408335567335); /* where the density is the least number */
    for (int n = 0; n < 150; n++) out1(f, uniform(-7.1, 7.1));
    for (int n = 0; n < 100; n++) out1(f, uniform(-38, 38));
    for (int n = 0; n < 50; n++) out1(f, uniform(7, 9));
    for (int n = 0; n < 50; n++) out1(f, small());
    for (int n = 0; n < 50; n++) out1(f, (double)between(-600, 600) / 100);
    every_exponent(f, 40);
}

/* max and min of zeros of unlike sign are left out: document 01 does not say which zero it is. */
static void pairs(uint64_t f)
{
    for (unsigned i = 0; i < EDGES; i += 2)
        for (unsigned j = 1; j < EDGES; j += 3) {
            unsigned s = any() % 4;
            out(f, edges[i] | (uint64_t)(s & 1) << 63, edges[j] | (uint64_t)(s >> 1) << 63, 0);
        }
    for (int s = 0; s < 4; s++) {
        uint64_t a = (uint64_t)(s & 1) << 63, b = (uint64_t)(s >> 1) << 63;
        if (f == MIDPOINT || a == b) out(f, a, b, 0);
        out(f, INFINITE | a, INFINITE | b, 0);
        out(f, INFINITE | 1 | a, b, 0);
        out(f, a, INFINITE | 1 | b, 0);
        out(f, INFINITE | 1, INFINITE | 2, 0);
        out(f, a | 1, b, 0);
        out(f, 0x7fefffffffffffff | a, 0x7fefffffffffffff | b, 0);
    }
    for (int n = 0; n < 40; n++) {
        uint64_t a = any(), b = any();
        out(f, a, b, 0);
    }
    for (int n = 0; n < 20; n++) {
        double x = uniform(-2, 2);
        out(f, to_bits(x), to_bits(nextafter(x, n % 2 ? 9 : -9)), 0);
    }
}

int main(void)
{
    random_state = 1906;
    fused();
    root();
    exponential(EXP);
    exponential(EXP_M1);
    logarithm();
    first_terms();
    normal(NORM_PDF);
    normal(NORM_CDF);
    normal(NORM_CDF_DUAL);
    for (uint64_t f = SIGNUM; f <= IS_FINITE; f++)
        if (MIDPOINT <= f && f <= MIN) pairs(f);
        else { edges_alone(f); every_exponent(f, 30); }
    return 0;
}
