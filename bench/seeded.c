/*
 * seeded WHAT ROUNDS < FILE: draws and paths from a seed, ROUNDS times, of which the last round is printed. WHAT is
 *
 *   draws     the draws, through the library, in calls of up to CALSTWID_MAX_DRAWS that go on from the state before
 *   plain     the same draws by a loop in plain C, in lists of the same length
 *   path      a path through the library, from the seed
 *   listed    the same path through the library, given those draws as a list, which are drawn before the rounds begin
 *
 * The first two print the state reached and the draws of the last calls, the others the rates, by their bits, a line each. The first
 * two print the same, and the other two as well, or bench/run stops.
 *
 * The file, the least byte first, as bench/cases.py writes it: the seed (eight bytes), how many draws, pillars, curve points and grid
 * times (four bytes each), alpha, the pillars (time, sigma), the points (time, factor), the grid's times.
 */
#include <calstwid.h>

#include <inttypes.h>
#include <stdio.h>
#include <stdlib.h>
#include <string.h>

static double pillars[CALSTWID_MAX_PILLARS], sigmas[CALSTWID_MAX_PILLARS], times[CALSTWID_MAX_CURVE], factors[CALSTWID_MAX_CURVE];
static double grid[CALSTWID_MAX_GRID], drawn[CALSTWID_MAX_DRAWS], rates[CALSTWID_MAX_GRID];

static void stop(const char *what)
{
    fprintf(stderr, "seeded: %s\n", what);
    exit(2);
}

static void given(void *value, size_t size)
{
    if (fread(value, size, 1, stdin) != 1)
        stop("the file is cut off");
}

static uint64_t bits(double value)
{
    uint64_t word;
    memcpy(&word, &value, sizeof word);
    return word;
}

static uint64_t served(calstwid_draws_report report)
{
    if (report.answer != 0)
        stop(calstwid_sentence(report.answer));
    return report.state;
}

static uint64_t from_library(uint64_t seed, double *out, size_t count)
{
    return served(calstwid_draws(seed, out, count));
}

/* Visible from outside, so that the compiler has to write the list as it would for a caller that it does not see. */
uint64_t plain(uint64_t seed, double *out, size_t count)
{
    uint64_t x = seed;
    for (size_t i = 0; i < count; i++) {
        uint64_t sum = 0;
        for (int step = 0; step < 12; step++) {
            x ^= x << 13;
            x ^= x >> 7;
            x ^= x << 17;
            sum += x >> 32;
        }
        out[i] = ((double)sum - 25769803776.0) / 4294967296.0;
    }
    return x;
}

int main(int count, char **words)
{
    uint64_t seed, state = 0;
    uint32_t sizes[4];
    double alpha;
    if (count != 3)
        stop("usage: seeded WHAT ROUNDS < FILE");
    given(&seed, sizeof seed);
    given(sizes, sizeof sizes);
    const size_t draws = sizes[0], schedule = sizes[1], points = sizes[2], steps = sizes[3];
    if (schedule > CALSTWID_MAX_PILLARS || points > CALSTWID_MAX_CURVE || steps > CALSTWID_MAX_GRID)
        stop("a list is over its limit");
    given(&alpha, sizeof alpha);
    for (size_t i = 0; i < schedule; i++) {
        given(&pillars[i], sizeof pillars[i]);
        given(&sigmas[i], sizeof sigmas[i]);
    }
    for (size_t i = 0; i < points; i++) {
        given(&times[i], sizeof times[i]);
        given(&factors[i], sizeof factors[i]);
    }
    for (size_t i = 0; i < steps; i++)
        given(&grid[i], sizeof grid[i]);

    const char *what = words[1];
    unsigned long rounds = strtoul(words[2], NULL, 10);
    if (strcmp(what, "draws") == 0 || strcmp(what, "plain") == 0) {
        uint64_t (*const fill)(uint64_t, double *, size_t) = *what == 'd' ? from_library : plain;
        for (; rounds > 0; rounds--) {
            state = seed;
            for (size_t left = draws, now; left > 0; left -= now) {
                now = left < CALSTWID_MAX_DRAWS ? left : CALSTWID_MAX_DRAWS;
                state = fill(state, drawn, now);
            }
        }
        printf("%016" PRIx64 "\n", state);
        for (size_t i = 0; i < CALSTWID_MAX_DRAWS; i++)
            printf("%016" PRIx64 "\n", bits(drawn[i]));
        return 0;
    }
    if (strcmp(what, "path") == 0) {
        for (; rounds > 0; rounds--)
            served(calstwid_generate_seeded(alpha, pillars, schedule, sigmas, schedule, times, points, factors, points, grid, steps,
                                            seed, rates, steps));
    } else if (strcmp(what, "listed") == 0) {
        from_library(seed, drawn, steps);
        for (; rounds > 0; rounds--) {
            const calstwid_count_report report =
                calstwid_generate(alpha, pillars, schedule, sigmas, schedule, times, points, factors, points, grid, steps, drawn,
                                  steps, rates, steps);
            if (report.answer != 0)
                stop(calstwid_sentence(report.answer));
        }
    } else {
        stop("WHAT is draws, plain, path or listed");
    }
    for (size_t i = 0; i < steps; i++)
        printf("%016" PRIx64 "\n", bits(rates[i]));
    return 0;
}
