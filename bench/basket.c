/*
 * basket ROUNDS < FILE: fits a basket of caplets ROUNDS times through the library, and prints the last round's lines, one a caplet:
 * its sigma and its place on the diagonal, by their bits. The cut-out Rust prints the same (`bench/run`).
 *
 * The file, the least byte first, as bench/cases.py writes it: how many points and how many caplets (four bytes each), alpha, the
 * points (time, factor), the caplets (1 for a normal quote or 0 for a Black one, strike, start, end, quoted volatility).
 */
#include <calstwid.h>

#include <inttypes.h>
#include <stdio.h>
#include <stdlib.h>
#include <string.h>

static double times[CALSTWID_MAX_CURVE], factors[CALSTWID_MAX_CURVE];
static double strikes[CALSTWID_MAX_BASKET], starts[CALSTWID_MAX_BASKET], ends[CALSTWID_MAX_BASKET], vols[CALSTWID_MAX_BASKET];
static bool normals[CALSTWID_MAX_BASKET];
/* a line is two numbers of 16 digits, a blank and an end of line */
static char text[34 * CALSTWID_MAX_BASKET + 1];

static void stop(const char *what)
{
    fprintf(stderr, "basket: %s\n", what);
    exit(2);
}

static double number(void)
{
    double value;
    if (fread(&value, sizeof value, 1, stdin) != 1)
        stop("the file is cut off");
    return value;
}

static uint64_t bits(double value)
{
    uint64_t word;
    memcpy(&word, &value, sizeof word);
    return word;
}

int main(int count, char **words)
{
    uint32_t sizes[2];
    if (count != 2)
        stop("usage: basket ROUNDS < FILE");
    if (fread(sizes, sizeof sizes, 1, stdin) != 1)
        stop("the file is cut off");
    if (sizes[0] > CALSTWID_MAX_CURVE || sizes[1] > CALSTWID_MAX_BASKET)
        stop("the curve or the basket is over its limit");
    const size_t points = sizes[0], caplets = sizes[1];
    const double alpha = number();
    for (size_t i = 0; i < points; i++) {
        times[i] = number();
        factors[i] = number();
    }
    for (size_t i = 0; i < caplets; i++) {
        normals[i] = number() == 1.0;
        strikes[i] = number();
        starts[i] = number();
        ends[i] = number();
        vols[i] = number();
    }
    for (unsigned long rounds = strtoul(words[1], NULL, 10); rounds > 0; rounds--) {
        const calstwid_basket_report report =
            calstwid_calibrate_to_instruments(alpha, times, points, factors, points, normals, caplets, strikes, caplets, starts,
                                              caplets, ends, caplets, vols, caplets);
        if (report.answer != 0)
            stop(calstwid_sentence(report.answer));
        char *end = text;
        for (size_t i = 0; i < caplets; i++)
            end += sprintf(end, "%016" PRIx64 " %016" PRIx64 "\n", bits(report.sigmas[i]), bits(report.diagonal[i]));
    }
    fputs(text, stdout);
    return 0;
}
