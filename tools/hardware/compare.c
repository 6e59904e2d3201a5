/* Compares the proved functions, linked as a static library, with the processor's fused step and root and
   with the C of document 01, on random operands; and times each.
   compare N SEED: N triples and N roots, N / 10 arguments of each other function. */
#include <stdio.h>
#include <stdlib.h>
#include <time.h>
#include "../test_vectors/operands.h"

double calstwid_fused(double, double, double);
double calstwid_sqrt(double);
double calstwid_exp(double);
double calstwid_exp_m1(double);
double calstwid_ln(double);
double calstwid_norm_pdf(double);
double calstwid_norm_cdf(double);
double calstwid_norm_cdf_dual(double);

static long differing;

/* The same bits, or two NaNs: NaNs are not told apart. */
static int same(double x, double y) { return to_bits(x) == to_bits(y) || (isnan(x) && isnan(y)); }

static void report(const char *name, uint64_t a, uint64_t b, uint64_t c, double here, double there)
{
    if (++differing <= 10)
        printf("DIFFERS %s %016lx %016lx %016lx: library %016lx, expected %016lx\n", name, a, b, c, to_bits(here), to_bits(there));
}

/* Of the processor, so that other work on the machine counts less. */
static double seconds(void)
{
    struct timespec t;
    clock_gettime(CLOCK_PROCESS_CPUTIME_ID, &t);
    return (double)t.tv_sec + (double)t.tv_nsec * 1e-9;
}

static void progress(const char *name, long i, long n)
{
    if (i % 10000000 == 0 && i) fprintf(stderr, "%s: %ld of %ld, %ld differ\n", name, i, n, differing);
}

static void line(const char *name, const char *class, long count, long bad)
{
    printf("%-14s %-18s %11ld compared, %ld differ\n", name, class, count, bad);
}

static void triples(long n)
{
    long count[T_CLASSES] = {0}, bad[T_CLASSES] = {0};
    for (long i = 0; i < n; i++) {
        uint64_t a, b, c;
        int class = (int)(i % T_CLASSES);
        triple(class, &a, &b, &c);
        double here = calstwid_fused(from_bits(a), from_bits(b), from_bits(c));
        double there = hardware_fma(from_bits(a), from_bits(b), from_bits(c));
        count[class]++;
        if (!same(here, there)) { bad[class]++; report("fused", a, b, c, here, there); }
        progress("fused", i, n);
    }
    for (int k = 0; k < T_CLASSES; k++) line("fused", triple_class[k], count[k], bad[k]);
}

static void roots(long n)
{
    long count[R_CLASSES] = {0}, bad[R_CLASSES] = {0};
    for (long i = 0; i < n; i++) {
        int class = (int)(i % R_CLASSES);
        uint64_t a = root_operand(class);
        double here = calstwid_sqrt(from_bits(a)), there = hardware_sqrt(from_bits(a));
        count[class]++;
        if (!same(here, there)) { bad[class]++; report("sqrt", a, 0, 0, here, there); }
        progress("sqrt", i, n);
    }
    for (int k = 0; k < R_CLASSES; k++) line("sqrt", root_class[k], count[k], bad[k]);
}

/* An argument of a function of one number: any bits, or a number of a size at which the function has work. */
static double uniform(double lo, double hi) { return lo + (hi - lo) * ((double)(any() >> 11) * 0x1p-53); }
enum { A_ANY, A_POSITIVE, A_SMALL, A_RANGE, A_CLASSES };
static const char *const argument_class[A_CLASSES] = {"any bits", "any positive", "below 1 in size", "the working range"};
static double argument(int class, double lo, double hi)
{
    switch (class) {
    case A_ANY: return from_bits(any());
    case A_POSITIVE: return from_bits(any() & ~SIGN);
    case A_SMALL: { double x = uniform(-1, 1); return ldexp(x, -(int)between(0, 60)); }
    default: return uniform(lo, hi);
    }
}

static const struct function {
    const char *name;
    double (*library)(double), (*document)(double);
    double lo, hi;
} functions[] = {
    {"exp", calstwid_exp, doc_exp, -747, 711},
    {"exp_m1", calstwid_exp_m1, doc_exp_m1, -40, 40},
    {"ln", calstwid_ln, doc_ln, 0.5, 2},
    {"norm_pdf", calstwid_norm_pdf, doc_norm_pdf, -39, 39},
    {"norm_cdf", calstwid_norm_cdf, doc_norm_cdf, -9, 9},
    {"norm_cdf_dual", calstwid_norm_cdf_dual, doc_norm_cdf_dual, -9, 9},
};
#define FUNCTIONS (sizeof functions / sizeof *functions)

static void arguments(const struct function *f, long n)
{
    long count[A_CLASSES] = {0}, bad[A_CLASSES] = {0};
    for (long i = 0; i < n; i++) {
        int class = i % 8 < 3 ? (int)(i % 8) : A_RANGE;
        double x = argument(class, f->lo, f->hi), here = f->library(x), there = f->document(x);
        count[class]++;
        if (!same(here, there)) { bad[class]++; report(f->name, to_bits(x), 0, 0, here, there); }
        progress(f->name, i, n);
    }
    for (int k = 0; k < A_CLASSES; k++) line(f->name, argument_class[k], count[k], bad[k]);
}

/* Calls over a list of arguments that fits the cache; the sum keeps the calls from being dropped. */
#define LIST 4096
#define ROUNDS 500
static double list_a[LIST], list_b[LIST], list_c[LIST];
static volatile double sink;

static void time_one(const char *name, double (*f)(double), double lo, double hi)
{
    for (int i = 0; i < LIST; i++) list_a[i] = uniform(lo, hi);
    double sum = 0, start = seconds();
    for (int r = 0; r < ROUNDS; r++)
        for (int i = 0; i < LIST; i++) sum += f(list_a[i]);
    printf("%-28s %7.1f ns a call\n", name, (seconds() - start) / ((double)ROUNDS * LIST) * 1e9);
    sink = sum;
}
static void time_three(const char *name, double (*f)(double, double, double))
{
    for (int i = 0; i < LIST; i++) { list_a[i] = uniform(-1, 1); list_b[i] = uniform(-1, 1); list_c[i] = uniform(-1, 1); }
    double sum = 0, start = seconds();
    for (int r = 0; r < ROUNDS; r++)
        for (int i = 0; i < LIST; i++) sum += f(list_a[i], list_b[i], list_c[i]);
    printf("%-28s %7.1f ns a call\n", name, (seconds() - start) / ((double)ROUNDS * LIST) * 1e9);
    sink = sum;
}

int main(int argc, char **argv)
{
    if (argc != 3) { fprintf(stderr, "compare N SEED\n"); return 2; }
    long n = atol(argv[1]);
    random_state = strtoull(argv[2], NULL, 0);
    double start = seconds();
    triples(n);
    printf("fused: %ld triples in %.0f s of the processor\n", n, seconds() - start);
    start = seconds();
    roots(n);
    printf("sqrt: %ld roots in %.0f s of the processor\n", n, seconds() - start);
    start = seconds();
    for (unsigned i = 0; i < FUNCTIONS; i++) arguments(&functions[i], n / 10);
    printf("others: %ld arguments each in %.0f s of the processor\n", n / 10, seconds() - start);
    time_three("fused, library", calstwid_fused);
    time_three("fused, instruction", hardware_fma);
    time_one("sqrt, library", calstwid_sqrt, 0, 1000);
    time_one("sqrt, instruction", hardware_sqrt, 0, 1000);
    for (unsigned i = 0; i < FUNCTIONS; i++) {
        const struct function *f = &functions[i];
        char name[64];
        double lo = f->lo < -40 ? -20 : f->lo, hi = f->hi > 40 ? 20 : f->hi;
        snprintf(name, sizeof name, "%s, library", f->name);
        time_one(name, f->library, lo, hi);
        snprintf(name, sizeof name, "%s, C of document 01", f->name);
        time_one(name, f->document, lo, hi);
    }
    printf("%ld differ\n", differing);
    return differing != 0;
}
