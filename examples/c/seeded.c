/*
 * Two desks want the same scenario from a seed. One desk names the seed in its call; the other takes the seed's draws and hands
 * them over as a list: both have the same path, bit for bit. The next path goes on from the state that the first one reached, and a
 * seed of 0 is refused. The curve is examples/c/fit.c's, a point a year, and the paths are of kind 13, centred as published. From
 * the repository, after tools/library/build:
 *
 *     cc -Iinclude examples/c/seeded.c target/lib/libcalstwid.a -o target/seeded && target/seeded
 */
#include <calstwid.h>

#include <inttypes.h>
#include <stdio.h>
#include <stdlib.h>
#include <string.h>

#define POINTS 8
#define LIST(list) list, sizeof(list) / sizeof(list)[0]

static const double times[] = {0.0, 1.0, 2.0, 3.0, 4.0, 5.0};
static const double factors[] = {1.0,                0.9704455335485082, 0.9417645335842487,
                                 0.9139311852712282, 0.8869204367171575, 0.8607079764250578};
static const double pillars[] = {0.0}, sigmas[] = {0.01};
static const double grid[POINTS] = {0.25, 0.5, 0.75, 1.0, 1.25, 1.5, 1.75, 2.0};

static uint64_t bits(double value)
{
    uint64_t word;
    memcpy(&word, &value, sizeof word);
    return word;
}

/* Stops where a call was not served. */
static void served(uint64_t answer)
{
    if (answer != CALSTWID_SERVED) {
        printf("refused with %" PRIu64 ": %s\n", answer, calstwid_sentence(answer));
        exit(1);
    }
}

int main(void)
{
    const double alpha = 0.1;
    const uint64_t seed = 20261118;
    double ours[POINTS], theirs[POINTS], next[POINTS], draws[POINTS];

    /* one desk names the seed */
    calstwid_draws_report path = calstwid_generate_published_seeded(alpha, LIST(pillars), LIST(sigmas), LIST(times), LIST(factors),
                                                                    LIST(grid), seed, LIST(ours));
    served(path.answer);

    /* the other takes the draws, as it might from elsewhere, and hands them over */
    calstwid_draws_report drawn = calstwid_draws(seed, LIST(draws));
    served(drawn.answer);
    calstwid_count_report listed = calstwid_generate_published(alpha, LIST(pillars), LIST(sigmas), LIST(times), LIST(factors),
                                                               LIST(grid), LIST(draws), LIST(theirs));
    served(listed.answer);

    /* the next path: not the seed 20261119, but the state that this one reached */
    calstwid_draws_report after = calstwid_generate_published_seeded(alpha, LIST(pillars), LIST(sigmas), LIST(times), LIST(factors),
                                                                     LIST(grid), path.state, LIST(next));
    served(after.answer);

    printf("time  draw          rate      rate's bits       the next path's\n");
    for (size_t i = 0; i < POINTS; i++)
        printf("%.2f  %12.9f  %.6f  %016" PRIx64 "  %016" PRIx64 "\n", grid[i], draws[i], ours[i], bits(ours[i]), bits(next[i]));
    printf("the two desks have %s path, and the state %" PRIu64 " after it\n",
           memcmp(ours, theirs, sizeof ours) == 0 && path.state == drawn.state ? "the same" : "another", path.state);
    printf("the state after the next path is %" PRIu64 "\n", after.state);

    /* a seed of 0 has no draws */
    path = calstwid_generate_published_seeded(alpha, LIST(pillars), LIST(sigmas), LIST(times), LIST(factors), LIST(grid), 0,
                                              LIST(ours));
    printf("refused with %" PRIu64 ": %s\n", path.answer, calstwid_sentence(path.answer));
    return 0;
}
