/* Operands of the fused step and of the root, by class, from a generator with a seed: the vectors of
   the gate and the long comparison with the hardware draw from the same classes. */
#ifndef OPERANDS_H
#define OPERANDS_H
#include "document01.h"

#define SIGN 0x8000000000000000ULL
#define FRACTION 0x000fffffffffffffULL
#define INFINITE 0x7ff0000000000000ULL

/* Steele, Lea and Flood's splitmix64. No expression below draws twice: C leaves the order of its parts open,
   and every compiler is to make the same operands. */
static uint64_t random_state;
static inline uint64_t any(void)
{
    uint64_t z = (random_state += 0x9e3779b97f4a7c15ULL);
    z = (z ^ (z >> 30)) * 0xbf58476d1ce4e5b9ULL;
    z = (z ^ (z >> 27)) * 0x94d049bb133111ebULL;
    return z ^ (z >> 31);
}
/* A whole number from lo to hi. */
static inline long between(long lo, long hi) { return lo + (long)(any() % (uint64_t)(hi - lo + 1)); }
static inline uint64_t sign(void) { return any() & SIGN; }

/* A fraction field: any digits, few ones, few zeros, or digits at the front only. */
static inline uint64_t fraction(void)
{
    uint64_t r = any(), f = 0;
    switch (r % 4) {
    case 0: return any() & FRACTION;
    case 1:
    case 2:
        for (int n = (r >> 8) % 4; n > 0; n--) f ^= 1ULL << (any() % 52);
        return r % 4 == 1 ? f : FRACTION ^ f;
    default: return (any() & FRACTION) & (~0ULL << ((r >> 8) % 53));
    }
}
static inline long clamp(long e) { return e < 0 ? 0 : e > 2046 ? 2046 : e; }
static inline uint64_t with_exponent(long field)
{
    uint64_t s = sign();
    return s | (uint64_t)clamp(field) << 52 | fraction();
}
/* A subnormal number of any size, or zero. */
static inline uint64_t subnormal(void)
{
    uint64_t f = any() & FRACTION;
    return f >> between(0, 52);
}
/* The bits of x with a sign drawn for it. */
static inline uint64_t signed_bits(double x) { return to_bits(fabs(x)) | sign(); }

/* a and b whose product has about the exponent field `field`, which may lie outside 0 to 2046. */
static inline void factors(long field, uint64_t *a, uint64_t *b)
{
    long lo = field + 1023 - 2046, hi = field + 1023 - 1;
    long ea = between(lo < 1 ? 1 : lo, hi > 2046 ? 2046 : hi);
    *a = with_exponent(ea);
    *b = with_exponent(field + 1023 - ea);
}

enum { T_ANY, T_CLOSE, T_CANCEL, T_TINY, T_HUGE, T_HALFWAY, T_CLASSES };
static const char *const triple_class[T_CLASSES] = {
    "any bits", "close exponents", "cancellations", "subnormal results", "overflow edges", "halfway cases"};

static void triple(int class, uint64_t *a, uint64_t *b, uint64_t *c)
{
    long field;
    switch (class) {
    case T_ANY: *a = any(); *b = any(); *c = any(); return;
    case T_CLOSE:
        field = between(1, 2046);
        factors(field, a, b);
        *c = with_exponent(any() % 2 ? field + between(-3, 3) : field + between(-120, 120));
        return;
    case T_CANCEL: /* c is the rounded product negated, or some units beside it */
        factors(between(1, 2046), a, b);
        *c = to_bits(-(from_bits(*a) * from_bits(*b)));
        if ((*c & ~SIGN) < INFINITE && any() % 4) *c += between(-3, 3);
        return;
    case T_TINY:
        factors(between(-60, 3), a, b);
        *c = any() % 3 == 0 ? subnormal() : any() % 2 ? 0 : with_exponent(between(0, 60));
        *c ^= sign();
        return;
    case T_HUGE:
        factors(between(2040, 2048), a, b);
        *c = any() % 8 == 0 ? 0x7fefffffffffffffULL - any() % 4 : with_exponent(between(1975, 2046));
        *c ^= sign();
        return;
    default: { /* a product of 54 or 55 digits, odd; c zero, or small enough only to break the tie; or c half a unit */
        int n = (int)between(1, 26);
        uint64_t p = (any() % (1ULL << n)) | (1ULL << n) | 1, q = any() % (1ULL << (53 - n)) | (1ULL << (53 - n)) | 1;
        long shift = between(-900, 850);
        double x = (double)p, y = ldexp((double)q, (int)shift), product = x * y;
        *a = signed_bits(x);
        *b = to_bits(y);
        switch (any() % 4) {
        case 0: *c = sign(); return;
        case 1: *c = signed_bits(ldexp(product, -(int)between(100, 140))); return;
        case 2: /* an exact product of few digits, and half its unit */
            *b = to_bits(ldexp(1, (int)shift));
            product = x * from_bits(*b);
            *a = signed_bits(x * (1 + 0x1p-52 * (double)(any() % 1024)));
            *c = signed_bits(ldexp(1, ilogb(product) - 53));
            *c += between(-1, 1);
            return;
        default: *c = signed_bits(ldexp(1, ilogb(product) - (int)between(52, 55))); return;
        }
    }
    }
}

enum { R_ANY, R_POSITIVE, R_SUBNORMAL, R_SQUARE, R_HALFWAY, R_POWER, R_CLASSES };
static const char *const root_class[R_CLASSES] = {
    "any bits", "positive", "subnormal", "squares", "halfway roots", "powers of two"};

/* The float nearest to the whole number n times 2^e. */
static double rounded(unsigned __int128 n, int e)
{
    int drop = 0;
    while (n >> drop >> 64) drop++;
    uint64_t top = (uint64_t)(n >> drop);
    if (n & (((unsigned __int128)1 << drop) - 1)) top |= 1; /* the digits dropped, as one */
    return ldexp((double)top, e + drop);
}

static uint64_t root_operand(int class)
{
    uint64_t m, x;
    switch (class) {
    case R_ANY: return any();
    case R_POSITIVE: return with_exponent(between(1, 2046)) & ~SIGN;
    case R_SUBNORMAL: return subnormal();
    case R_SQUARE: /* an exact square, or a unit beside one */
        m = any();
        m >>= between(38, 63);
        x = to_bits(ldexp((double)m * (double)m, 2 * (int)between(-520, 480)));
        return m ? x + between(-1, 1) : x;
    case R_HALFWAY: /* nearest to the square of a number half way between two floats */
        m = any() >> 10 | 1ULL << 53 | 1;
        x = to_bits(rounded((unsigned __int128)m * m, 2 * (int)between(-560, 450)));
        return x + between(-1, 1);
    default: m = (uint64_t)between(0, 2046) << 52; return m ? m + between(-1, 1) : 1ULL << between(0, 51);
    }
}
#endif
