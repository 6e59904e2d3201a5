/*
 * Fits a sigma to a swaption's Black volatility, prices the swaption with it, at a time between two points of the curve too, and
 * shows a call that is refused. The curve and the swap are those of examples/desk.run, whose job 9 is the same fit. From the
 * repository, after tools/library/build:
 *
 *     cc -Iinclude examples/c/fit.c target/lib/libcalstwid.a -o target/fit && target/fit
 */
#include <calstwid.h>

#include <inttypes.h>
#include <stdio.h>
#include <stdlib.h>
#include <string.h>

/* As in the run file, the day after each time stands on the curve too, since a forward rate is taken over it. */
#define DAY (1.0 / 365.0)
#define LIST(list) list, sizeof(list) / sizeof(list)[0]

static const double times[] = {0.0, DAY,       0.25, 0.25 + DAY, 0.5, 0.5 + DAY, 1.0, 1.0 + DAY, 1.5,
                               1.5 + DAY, 2.0, 2.0 + DAY,  3.0, 3.0 + DAY, 4.0, 4.0 + DAY, 5.0, 5.0 + DAY};
static const double factors[] = {
    1.0,                0.9999178115968299, 0.9925280548191384, 0.9924464805232114, 0.9851119396030626, 0.9850309748258029,
    0.9704455335485082, 0.9703657741797423, 0.9559974818331,    0.9559189099266334, 0.9417645335842487, 0.9416871314610712,
    0.9139311852712282, 0.9138560707265034, 0.8869204367171575, 0.8868475421427249, 0.8607079764250578, 0.8606372362108797};
static const double payments[] = {2.0, 3.0, 4.0, 5.0};
static const double late_payments[] = {2.0, 3.0, 4.0, 6.0};
static const double accruals[] = {1.0, 1.0, 1.0, 1.0};

/* A number with as few digits as read back to it, and its bits. */
static void show(const char *name, double value)
{
    char text[32];
    int digits = 15;
    uint64_t bits;
    do {
        snprintf(text, sizeof text, "%.*g", digits, value);
    } while (strtod(text, NULL) != value && ++digits <= 17);
    memcpy(&bits, &value, sizeof bits);
    printf("%-8s %s, bits %016" PRIx64 "\n", name, text, bits);
}

int main(void)
{
    const double alpha = 0.1, strike = 0.031, option_time = 1.0, quoted = 0.22;

    calstwid_fit_report fit = calstwid_fit_swaption_black(alpha, LIST(times), LIST(factors), LIST(payments), LIST(accruals), strike,
                                                          option_time, quoted);
    if (fit.answer != CALSTWID_SERVED) {
        printf("refused with %" PRIu64 ": %s\n", fit.answer, calstwid_sentence(fit.answer));
        return 1;
    }
    show("sigma", fit.sigma);
    printf("%s at halving %" PRIu64 "\n", fit.converged ? "converged" : "not converged", fit.halvings);

    calstwid_swaption_report price = calstwid_swaption_price(alpha, LIST(times), LIST(factors), LIST(payments), LIST(accruals), strike,
                                                             option_time, fit.sigma);
    if (price.answer != CALSTWID_SERVED) {
        printf("refused with %" PRIu64 ": %s\n", price.answer, calstwid_sentence(price.answer));
        return 1;
    }
    show("value", price.value);
    show("rate", price.rate);

    /* neither 0.75 nor the day after it is on the curve: their factors are found between its points */
    price = calstwid_swaption_price(alpha, LIST(times), LIST(factors), LIST(payments), LIST(accruals), strike, 0.75, fit.sigma);
    if (price.answer != CALSTWID_SERVED) {
        printf("refused with %" PRIu64 ": %s\n", price.answer, calstwid_sentence(price.answer));
        return 1;
    }
    show("at 0.75", price.value);

    /* the last payment is after the curve's last point */
    price = calstwid_swaption_price(alpha, LIST(times), LIST(factors), LIST(late_payments), LIST(accruals), strike, option_time,
                                    fit.sigma);
    printf("refused with %" PRIu64 ": %s\n", price.answer, calstwid_sentence(price.answer));
    return 0;
}
