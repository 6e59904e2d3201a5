/*
 * Calstwid: Hull-White pricing and fitting of interest-rate options, for C (C99) and C++.
 *
 * Every function here is proved to give a defined value or the first refusal that applies, whatever its numbers are: a NaN, an
 * infinity, a list that is too long. None keeps anything from call to call, takes memory from the heap or prints, so that calls may
 * be made from several threads at once. That the heap is not used and how much stack a call takes (76 KB were the most seen, in
 * calstwid_piece) was measured and is not proved. tools/library/build makes the libraries, for Linux on x86-64; tools/library/header
 * holds this text to their source.
 *
 * Units. A time is in years from today. A rate and a strike of a rate are fractions a year: 0.03 is three percent. A volatility is
 * the standard deviation of a year's move, which grows with the square root of time: of the rate for sigma (mean reversion aside)
 * and for a normal quote, of the rate's logarithm for a Black quote. A factor is a discount factor, today's price of 1 paid at its time. A bond's strike is a price for 1. An
 * accrual is a fraction of a year. A value is for a notional of 1 except where a notional is an argument. alpha is the model's mean
 * reversion, a year.
 *
 * Lists. A list `xs` is a pointer and the number of its elements, `n_xs`. Lists that belong together have the same length, or the
 * call is refused with 1:
 *   a curve    `times`, `factors`: times rise strictly, factors are above 0; at most CALSTWID_MAX_CURVE
 *   pillars    `times` or `pillars`, `sigmas`: times rise strictly, sigmas are not negative; at most CALSTWID_MAX_PILLARS
 *   coupons    `payments`, `accruals`, and `own_dfs` where a call has them; at most CALSTWID_MAX_COUPONS
 *   a grid     `grid`, and `draws` where a call has no seed in their place: times do not fall; at most CALSTWID_MAX_GRID
 *
 * The curve at a time. A call says at which times it needs the curve. Such a time is on the curve, or between two of its points:
 *   - a time t that equals a listed one (as a number: -0.0 equals 0.0) has the factor listed there, as it is;
 *   - one strictly between two neighbours (t0, f0) and (t1, f1) has exp(ln(f0) + w * (ln(f1) - ln(f0))), w being (t - t0) / (t1 - t0):
 *     calstwid_exp and calstwid_ln, every operation rounded once and none fused. Rounded so, it need not lie between f0 and f1;
 *   - before the first point, after the last, on a curve without points, and where the factor so found is not finite, the call is
 *     refused with 8. One point serves its own time alone.
 * A call that takes a forward rate at t needs the curve at t + 1.0 / 365.0 too, worked in double.
 *
 * What the caller owes. No proof reaches across this line:
 *   - no pointer is NULL, not even where the length is 0 (any address of the type serves then);
 *   - a list has as many elements as its length says, aligned as C aligns them, each set to a value; a bool is 0 or 1;
 *   - a list that is written (`out`) overlaps no other argument;
 *   - while a call runs no other thread writes a list that it was given, and two calls at once have no `out` in common: every proof
 *     assumes it;
 *   - the processor rounds to nearest and keeps subnormal numbers, as a C program starts. One linked with -ffast-math starts
 *     otherwise (seen with gcc and clang), and gets other bits.
 *
 * Reports. The first field of a report is the answer: 0 where the call was served, else the number of the refusal. Beside a refusal
 * every other field is 0 (false, +0.0), and a list to be written is as it was. Each function lists the answers that it can give.
 */
#ifndef CALSTWID_H
#define CALSTWID_H

#include <stdbool.h>
#include <stddef.h>
#include <stdint.h>

#ifdef __cplusplus
extern "C" {
#endif

/* The most elements that a list may have; over it a call is refused with CALSTWID_SIZE. */
#define CALSTWID_MAX_PILLARS 64
#define CALSTWID_MAX_CURVE 2048
#define CALSTWID_MAX_COUPONS 64
#define CALSTWID_MAX_TERMS 64
#define CALSTWID_MAX_GRID 1024
#define CALSTWID_MAX_DRAWS 1024
#define CALSTWID_MAX_BASKET 64
#define CALSTWID_MAX_STEPS 1024
/* The most bytes and jobs of a run file; over it the file breaks its layout. */
#define CALSTWID_MAX_FILE_BYTES 65536
#define CALSTWID_MAX_JOBS 128
/* The room that calstwid_piece wants. */
#define CALSTWID_PIECE_BYTES 131072

/*
 * The answers. A call gives the first that applies, in the order 1 to 6, 14, 7, 15, 8 to 13: a number says nothing of its place, and
 * 14 is met after 6 and before 7, 15 after 7 and before 8. A search or a fit meets 8 to 12 in the order of its evaluations.
 */
enum calstwid_answer {
    CALSTWID_SERVED = 0,
    CALSTWID_SIZE = 1,
    CALSTWID_NOT_FINITE = 2,
    CALSTWID_MEAN_REVERSION = 3,
    CALSTWID_ORDER = 4,
    CALSTWID_TIMES = 5,
    CALSTWID_DOMAIN = 6,
    CALSTWID_EMPTY = 7,
    CALSTWID_OFF_CURVE = 8,
    CALSTWID_NAN_REACHED = 9,
    CALSTWID_NO_BRACKET = 10,
    CALSTWID_FLAT_DERIVATIVE = 11,
    CALSTWID_NO_SIGN_CHANGE = 12,
    CALSTWID_OVERFLOW = 13,
    CALSTWID_ZERO_SEED = 14,
    CALSTWID_SEVERAL_PILLARS = 15
};

/* What an answer says, as a sentence without its full stop; "unknown answer" for a number that is none. */
static inline const char *calstwid_sentence(uint64_t answer)
{
    switch (answer) {
    case CALSTWID_SERVED:
        return "served";
    case CALSTWID_SIZE:
        return "a list is over its limit, paired lists differ in length, or an output is too short";
    case CALSTWID_NOT_FINITE:
        return "an input number is NaN or infinite";
    case CALSTWID_MEAN_REVERSION:
        return "alpha is zero or negative";
    case CALSTWID_ORDER:
        return "curve or pillar times do not strictly rise, or grid times fall";
    case CALSTWID_TIMES:
        return "an option or first grid time is below 0, a bond, end or payment time is not above the option time, "
               "or a fit's option time is 0";
    case CALSTWID_DOMAIN:
        return "a sigma is negative, a quoted volatility is not above 0, a Black strike is not above 0, a curve factor is not "
               "above 0, a coupon's own factor is negative or is 0 beside one that is not, or a side is neither 1 nor -1";
    case CALSTWID_EMPTY:
        return "there are no coupons, or no pillars, where the call wants them";
    case CALSTWID_OFF_CURVE:
        return "a time that the call needs is before the curve's first point or after its last, the curve has no points, or the "
               "factor found between two points is not finite";
    case CALSTWID_NAN_REACHED:
        return "a critical-rate evaluation or a fit residual that is reached is NaN";
    case CALSTWID_NO_BRACKET:
        return "one of the two ladders has no good rate, so that there is no bracket";
    case CALSTWID_FLAT_DERIVATIVE:
        return "the critical-rate derivative is below 1e-14 in size";
    case CALSTWID_NO_SIGN_CHANGE:
        return "the residuals at 1e-8 and 2.0 have the same sign: no sigma between them fits";
    case CALSTWID_OVERFLOW:
        return "a float of the answer is not finite";
    case CALSTWID_ZERO_SEED:
        return "a seed is zero";
    case CALSTWID_SEVERAL_PILLARS:
        return "a path centred as published serves one pillar, and there is more than one";
    default:
        return "unknown answer";
    }
}

/* ---- reports ---- */

typedef struct calstwid_price_report {
    uint64_t answer;
    double value;
} calstwid_price_report;

typedef struct calstwid_d1_d2_report {
    uint64_t answer;
    double d1;
    double d2;
} calstwid_d1_d2_report;

/* How many values or bytes were written, or how many pillar times are meant. */
typedef struct calstwid_count_report {
    uint64_t answer;
    uint64_t count;
} calstwid_count_report;

/* How many values were written from a seed, and the state that was reached, which is the seed of the draws that follow. */
typedef struct calstwid_draws_report {
    uint64_t answer;
    uint64_t count;
    uint64_t state;
} calstwid_draws_report;

/*
 * A critical rate: the rate at which a sum over bonds is 1. It is sought on two ladders, of lower rates -0.5 * 2^i and upper rates
 * 0.5 * 2^j (i and j from 0 to 60; the rungs taken are lower_rung and upper_rung), and then by 200 halvings. `rate` is the midpoint
 * of the last bracket, `lower` to `upper`, at whose ends the sum is lower_sum and upper_sum.
 */
typedef struct calstwid_critical_rate_report {
    uint64_t answer;
    double rate;
    double lower;
    double upper;
    double lower_sum;
    double upper_sum;
    uint64_t lower_rung;
    uint64_t upper_rung;
} calstwid_critical_rate_report;

/* The same; `stepped` is the rate after one Newton step from `rate`. */
typedef struct calstwid_implicit_rate_report {
    uint64_t answer;
    double stepped;
    double rate;
    double lower;
    double upper;
    double lower_sum;
    double upper_sum;
    uint64_t lower_rung;
    uint64_t upper_rung;
} calstwid_implicit_rate_report;

/* A swaption's value for a notional of 1, and its critical rate as above. */
typedef struct calstwid_swaption_report {
    uint64_t answer;
    double value;
    double rate;
    double lower;
    double upper;
    double lower_sum;
    double upper_sum;
    uint64_t lower_rung;
    uint64_t upper_rung;
} calstwid_swaption_report;

/* A swaption's value times notional and side, priced at the rate `stepped`. */
typedef struct calstwid_valuation_report {
    uint64_t answer;
    double value;
    double stepped;
    double rate;
    double lower;
    double upper;
    double lower_sum;
    double upper_sum;
    uint64_t lower_rung;
    uint64_t upper_rung;
} calstwid_valuation_report;

/*
 * A fit: the sigma at which the model's price is the quoted one. A residual is the model's price less the quoted one; `residual` is
 * that at sigma, and sigma is the midpoint of `low` and `high`. `converged` where a halving met a midpoint whose residual is below
 * 1e-12 in size: sigma is this midpoint, low and high are the ends that it halves, and halvings, 1 to 200, is this halving. Where
 * none did, halvings is 200, and low and high are the ends after halving 200. The first ends, 1e-8 and 2.0, are not tested so. The
 * residuals at low and high differ in sign (+0.0 and -0.0 do too).
 */
typedef struct calstwid_fit_report {
    uint64_t answer;
    double sigma;
    double residual;
    double low;
    double high;
    double low_residual;
    double high_residual;
    uint64_t halvings;
    bool converged;
} calstwid_fit_report;

/*
 * A basket's fits, in the order given: the first `count` places of each list, 0 in the others. A status is 1 where the fit
 * converged, else 0; halvings as in a fit, as doubles. diagonal is the change of sigma over 1e-6 where the quoted volatility is
 * raised by 1e-6, by a second, bumped fit; bumped_statuses are those fits' statuses. 3,088 bytes, by value.
 */
typedef struct calstwid_basket_report {
    uint64_t answer;
    uint64_t count;
    double sigmas[CALSTWID_MAX_BASKET];
    double statuses[CALSTWID_MAX_BASKET];
    double halvings[CALSTWID_MAX_BASKET];
    double residuals[CALSTWID_MAX_BASKET];
    double diagonal[CALSTWID_MAX_BASKET];
    double bumped_statuses[CALSTWID_MAX_BASKET];
} calstwid_basket_report;

/* ---- functions of numbers: a value for every double, nothing is refused. NaNs are not told apart ---- */

/* a * b + c, rounded once. */
double calstwid_fused(double a, double b, double c);

/* The square root, rounded once: NaN below 0; that of -0.0 is -0.0. */
double calstwid_sqrt(double x);

/* The exponential: infinity above 710, +0.0 below -746. By stated steps, so that the bits are the same on every machine. */
double calstwid_exp(double x);

/* exp(y) - 1, by a series of its own where y is at most 0.5 in size. */
double calstwid_exp_m1(double y);

/* The natural logarithm: NaN below 0, -infinity at a zero. */
double calstwid_ln(double x);

/* The density of the normal distribution. */
double calstwid_norm_pdf(double d);

/* The normal distribution function, between 0 and 1, by fused steps: what every call takes but the two swaption values. */
double calstwid_norm_cdf(double x);

/* The same by a product and then a sum in each step, as the two swaption values take it: last bits differ. */
double calstwid_norm_cdf_dual(double x);

/* (a + b) / 2. */
double calstwid_midpoint(double a, double b);

/* 1 where the sign is +, and -1 where it is -, at zeros too: signum(-0.0) is -1. NaN at NaN. */
double calstwid_signum(double x);

/* The larger and the smaller; a NaN is passed over; of two equal numbers the first. */
double calstwid_max(double a, double b);
double calstwid_min(double a, double b);

/* ---- the model's formulas: t is an option time, bond a bond's time ---- */

/*
 * B(t, T) = (1 - exp(-alpha * (T - t))) / alpha.
 * Answers 0, 2, 3, 5, 13.
 */
calstwid_price_report calstwid_B(double alpha, double t, double bond);

/*
 * The volatility at t of the price of a bond that ends at `bond`: sigma * B(t, T) * sqrt((1 - exp(-2 * alpha * t)) / (2 * alpha)).
 * Answers 0, 2, 3, 5, 6, 13.
 */
calstwid_price_report calstwid_zcb_price_volatility(double alpha, double sigma, double t, double bond);

/*
 * The variance of the short rate from t to `bond`: sigma^2 * (1 - exp(-2 * alpha * (T - t))) / (2 * alpha).
 * Answers 0, 2, 3, 5, 6, 13.
 */
calstwid_price_report calstwid_short_rate_variance(double alpha, double t, double bond, double sigma);

/*
 * A(t, T) of the bond price A * exp(-B * rate). Needs the curve at t, bond and t + 1.0 / 365.0.
 * Answers 0, 1, 2, 3, 4, 5, 6, 8, 13.
 */
calstwid_price_report calstwid_A(double alpha, const double *times, size_t n_times, const double *factors, size_t n_factors,
                                 double t, double bond, double sigma);

/*
 * The price at t of 1 paid at `bond`, the short rate then being `rate`. Needs the curve at t, bond and t + 1.0 / 365.0.
 * Answers 0, 1, 2, 3, 4, 5, 6, 8, 13.
 */
calstwid_price_report calstwid_zcb_price(double alpha, const double *times, size_t n_times, const double *factors, size_t n_factors,
                                         double rate, double t, double bond, double sigma);

/*
 * The drift theta(t) that fits the curve. Needs the curve at t and t + 1.0 / 365.0; and at t - 1.0 / 365.0 where t is above
 * 1.0 / 365.0, else at calstwid_fused(2.0, 1.0 / 365.0, t).
 * Answers 0, 1, 2, 3, 4, 5, 6, 8, 13.
 */
calstwid_price_report calstwid_theta(double alpha, const double *times, size_t n_times, const double *factors, size_t n_factors,
                                     double t, double sigma);

/*
 * The forward rate at t over a day: -ln(P(t + h) / P(t)) / h, h being 1.0 / 365.0. Needs the curve at t and t + h.
 * Answers 0, 1, 2, 4, 5, 6, 8, 13.
 */
calstwid_price_report calstwid_forward_rate_from_curve(const double *times, size_t n_times, const double *factors, size_t n_factors,
                                                       double t);

/* ---- quoted volatilities: fwd is a forward rate, tau the option time, which is above 0; no discounting ---- */

/*
 * d1 and d2 of Black's formula; a forward that is not above 0 is 13. Answers 0, 2, 5, 6, 13.
 */
calstwid_d1_d2_report calstwid_d1_d2(double fwd, double strike, double vol, double tau);

/*
 * Black's call and put; a forward below 0 is 13. Answers 0, 2, 5, 6, 13.
 */
calstwid_price_report calstwid_black_call(double fwd, double strike, double vol, double tau);
calstwid_price_report calstwid_black_put(double fwd, double strike, double vol, double tau);

/*
 * Bachelier's call: vol is a normal volatility, and the strike may have any sign. Answers 0, 2, 5, 6, 13.
 */
calstwid_price_report calstwid_bachelier_call(double fwd, double strike, double vol, double tau);

/*
 * The sum of accrual * factor over the coupons; 0 for none, which needs no time. Needs the curve at each payment time.
 * Answers 0, 1, 2, 4, 6, 8, 13.
 */
calstwid_price_report calstwid_swap_annuity_from_curve(const double *times, size_t n_times, const double *factors, size_t n_factors,
                                                       const double *payments, size_t n_payments, const double *accruals,
                                                       size_t n_accruals);

/* ---- pillars: a volatility holds from its time to the next one, the first from the start too ---- */

/*
 * The volatility at t: that of the last pillar at or before t, else of the first. No pillars are refused with 7.
 * Answers 0, 1, 2, 4, 5, 6, 7.
 */
calstwid_price_report calstwid_volatility(const double *times, size_t n_times, const double *sigmas, size_t n_sigmas, double t);

/*
 * The pillar times at or before t: they are the first `count` of `times`. No pillars are refused with 7.
 * Answers 0, 1, 2, 4, 5, 6, 7.
 */
calstwid_count_report calstwid_pillars_reached(const double *times, size_t n_times, const double *sigmas, size_t n_sigmas,
                                               double t);

/*
 * The variance of the state from `start` to `end`. Takes any finite alpha, and no pillars too (0 then).
 * Answers 0, 1, 2, 4, 5, 6, 13.
 */
calstwid_price_report calstwid_hull_white_piecewise_variance(double alpha, const double *times, size_t n_times,
                                                             const double *sigmas, size_t n_sigmas, double start, double end);

/*
 * The variance over each of `steps` steps of time_step years, from 0, written to the front of `out`; count is steps. At most
 * CALSTWID_MAX_STEPS, and `out` has room for them, else 1; a time_step that is not above 0 is 5; no pillars are 7.
 * Answers 0, 1, 2, 3, 4, 5, 6, 7, 13.
 */
calstwid_count_report calstwid_transition_variances(double alpha, const double *times, size_t n_times, const double *sigmas,
                                                    size_t n_sigmas, size_t steps, double time_step, double *out, size_t n_out);

/* ---- options at one sigma: kinds 1 to 5 of a run file ---- */

/*
 * A caplet and a floorlet on the simple rate from start to end. Need the curve at start and end.
 * Answers 0, 1, 2, 3, 4, 5, 6, 8, 13.
 */
calstwid_price_report calstwid_caplet_price(double alpha, const double *times, size_t n_times, const double *factors,
                                            size_t n_factors, double strike, double start, double end, double sigma);
calstwid_price_report calstwid_floorlet_price(double alpha, const double *times, size_t n_times, const double *factors,
                                              size_t n_factors, double strike, double start, double end, double sigma);

/*
 * An option at t to sell (put) or buy (call) at the price `strike` 1 paid at `bond`. Need the curve at t and bond.
 * Answers 0, 1, 2, 3, 4, 5, 6, 8, 13.
 */
calstwid_price_report calstwid_bond_put_price(double alpha, const double *times, size_t n_times, const double *factors,
                                              size_t n_factors, double t, double bond, double strike, double sigma);
calstwid_price_report calstwid_bond_call_price(double alpha, const double *times, size_t n_times, const double *factors,
                                               size_t n_factors, double t, double bond, double strike, double sigma);

/*
 * A payer swaption by the model: at t, into a swap that pays `strike` over the coupons. Needs the curve at t, t + 1.0 / 365.0 and
 * the payment times. With no coupons it is served, all fields 0, and needs no time.
 * Answers 0, 1, 2, 3, 4, 5, 6, 8, 9, 10, 13.
 */
calstwid_swaption_report calstwid_swaption_price(double alpha, const double *times, size_t n_times, const double *factors,
                                                 size_t n_factors, const double *payments, size_t n_payments,
                                                 const double *accruals, size_t n_accruals, double strike, double t, double sigma);

/* ---- swaptions by the pricer, over pillars: kinds 6 and 7 ---- */

/*
 * The value of a payer and of a receiver swaption, times notional and side, which is 1.0 or -1.0. own_dfs are the coupons' own
 * factors: all 0 where the curve's are to be taken, else all above 0. Need the curve at t, t + 1.0 / 365.0 and the payment times.
 * No pillars, neither times nor sigmas, are a fixed-rate scenario: the variance is 0, and every bond option is at intrinsic value. No
 * coupons are refused with 7. Answers 0, 1, 2, 3, 4, 5, 6, 7, 8, 9, 10, 11, 13.
 */
calstwid_valuation_report calstwid_payer_swaption_value(double alpha, const double *pillars, size_t n_pillars, const double *sigmas,
                                                        size_t n_sigmas, const double *times, size_t n_times, const double *factors,
                                                        size_t n_factors, const double *payments, size_t n_payments,
                                                        const double *accruals, size_t n_accruals, const double *own_dfs,
                                                        size_t n_own_dfs, double strike, double t, double notional, double side);
calstwid_valuation_report calstwid_receiver_swaption_value(double alpha, const double *pillars, size_t n_pillars,
                                                           const double *sigmas, size_t n_sigmas, const double *times,
                                                           size_t n_times, const double *factors, size_t n_factors,
                                                           const double *payments, size_t n_payments, const double *accruals,
                                                           size_t n_accruals, const double *own_dfs, size_t n_own_dfs,
                                                           double strike, double t, double notional, double side);

/* ---- fits of one sigma to a quoted volatility, from 1e-8 to 2.0: kinds 8 to 11 ---- */

/*
 * To a caplet's Black volatility, and to its normal one. start is above 0; a Black strike is above 0, a normal one may have any
 * sign. Need the curve at start and end.
 * Answers 0, 1, 2, 3, 4, 5, 6, 8, 9, 12, 13.
 */
calstwid_fit_report calstwid_fit_caplet_black(double alpha, const double *times, size_t n_times, const double *factors,
                                              size_t n_factors, double strike, double start, double end, double vol);
calstwid_fit_report calstwid_fit_caplet_normal(double alpha, const double *times, size_t n_times, const double *factors,
                                               size_t n_factors, double strike, double start, double end, double vol);

/*
 * To a payer swaption's Black volatility, and to its normal one, the swap ending at its last listed payment. t is above 0; there is
 * a coupon; the strike as above. Need the curve at t, t + 1.0 / 365.0 and the payment times.
 * Answers 0, 1, 2, 3, 4, 5, 6, 7, 8, 9, 10, 12, 13.
 */
calstwid_fit_report calstwid_fit_swaption_black(double alpha, const double *times, size_t n_times, const double *factors,
                                                size_t n_factors, const double *payments, size_t n_payments,
                                                const double *accruals, size_t n_accruals, double strike, double t, double vol);
calstwid_fit_report calstwid_fit_swaption_normal(double alpha, const double *times, size_t n_times, const double *factors,
                                                 size_t n_factors, const double *payments, size_t n_payments,
                                                 const double *accruals, size_t n_accruals, double strike, double t, double vol);

/*
 * Up to CALSTWID_MAX_BASKET caplets, each fitted by itself, then each fitted again to its quote plus 1e-6. A caplet is one place of
 * the five lists, which have one length; `normals` has true for a normal quote and false for a Black one. Rules 1 to 6 are asked of
 * all caplets first; then the first refusal of a fit refuses the basket. Needs the curve at each start and end. An empty basket is
 * served, all fields 0, and needs no time.
 * Answers 0, 1, 2, 3, 4, 5, 6, 8, 9, 12, 13.
 */
calstwid_basket_report calstwid_calibrate_to_instruments(double alpha, const double *times, size_t n_times, const double *factors,
                                                         size_t n_factors, const bool *normals, size_t n_normals,
                                                         const double *strikes, size_t n_strikes, const double *starts,
                                                         size_t n_starts, const double *ends, size_t n_ends, const double *vols,
                                                         size_t n_vols);

/* ---- the critical rate alone ---- */

/*
 * The rate at which the sum of coefficient * affine * exp(-b * rate) over the terms is 1. The three lists have one length, at most
 * CALSTWID_MAX_TERMS; no terms are refused with 10. Answers 0, 1, 2, 9, 10, 13.
 */
calstwid_critical_rate_report calstwid_find_critical_rate(const double *coefficients, size_t n_coefficients, const double *affines,
                                                          size_t n_affines, const double *b, size_t n_b);

/*
 * The same with one Newton step after it. Answers 0, 1, 2, 9, 10, 11, 13.
 */
calstwid_implicit_rate_report calstwid_implicit_critical_rate(const double *coefficients, size_t n_coefficients,
                                                              const double *affines, size_t n_affines, const double *b, size_t n_b);

/* ---- paths: kinds 12 and 13 ---- */

/*
 * The short rate at each time of the grid, written to the front of `out`, one standard normal draw a step; count is the number of
 * the grid's times. `out` is no shorter than the grid, else 1. Needs the curve at each grid time and 1.0 / 365.0 after it. An
 * empty grid is served and needs no time; no pillars are refused with 7. The rate at a point is the state x, which walks from 0 and
 * has the mean 0, plus a shift: the forward rate plus half the variance of the state. Averaged over many paths, exp(-integral of
 * the rate) so misses the curve's factors; calstwid_generate_published does not.
 * Answers 0, 1, 2, 3, 4, 5, 6, 7, 8, 13.
 */
calstwid_count_report calstwid_generate(double alpha, const double *pillars, size_t n_pillars, const double *sigmas,
                                        size_t n_sigmas, const double *times, size_t n_times, const double *factors,
                                        size_t n_factors, const double *grid, size_t n_grid, const double *draws, size_t n_draws,
                                        double *out, size_t n_out);

/*
 * The same walk centred as Brigo and Mercurio publish it, kind 13: at a grid time t the shift is f + 0.5 * (g * g), f being the
 * forward rate as before and g = (sigma / alpha) * (1.0 - calstwid_exp((-alpha) * t)), every operation rounded once and none fused.
 * It serves one pillar, whose sigma holds at all times. No pillars are refused with 7, and more than one directly after it, with
 * 15: before any time is looked up on the curve. 65 pillars are over their limit and so 1. All else is as in calstwid_generate.
 * Answers 0, 1, 2, 3, 4, 5, 6, 7, 8, 13, 15.
 */
calstwid_count_report calstwid_generate_published(double alpha, const double *pillars, size_t n_pillars, const double *sigmas,
                                                  size_t n_sigmas, const double *times, size_t n_times, const double *factors,
                                                  size_t n_factors, const double *grid, size_t n_grid, const double *draws,
                                                  size_t n_draws, double *out, size_t n_out);

/* ---- draws and paths from a seed ---- */

/*
 * Fills the whole of `out` with draws, the same for everyone who names the same seed; count is n_out. An `out` of more than
 * CALSTWID_MAX_DRAWS is refused with 1, and then a seed of 0 with 14, for an empty `out` too.
 *
 * A draw. The state x is a uint64_t that is not 0, and begins as the seed. A step of it is Marsaglia's xorshift64,
 *     x ^= x << 13;  x ^= x >> 7;  x ^= x << 17;
 * after which it is not 0 either. A draw takes twelve steps and adds up the top 32 bits, x >> 32, after each of them; it is
 *     (sum - 6 * 2^32) / 2^32
 * exactly: nothing is rounded. It is at least -6 and below 6, and never -0.0. The next draw goes on from the state that this one
 * reached, so that the first n draws do not depend on how many follow.
 *
 * What it stands for. A draw is the sum of twelve numbers from 0 to 1, less 6. Were each of them equally likely and none dependent
 * on another, its mean would be -6 / 2^32 and its variance 1 - 2^-64: 0 and 1 for all that matters. It is given where a standard
 * normal number is wanted, and is one no further than such a sum is: the two distribution functions are up to 0.0023 apart, the
 * excess kurtosis is -0.1, and large draws are rare. Beyond 3 there are three quarters as many as the normal has, beyond 4 a
 * quarter, beyond 5 fewer than a hundredth, and beyond 6 none. examples/python/seen_draws.py prints this beside draws.
 *
 * The state. `state` is the state after the last draw; for an empty `out` it is the seed. Given as the seed of the next call it
 * goes on from there: one seed serves as many draws as are wanted, in calls of up to 1,024, and as many paths, each from the state
 * that the one before it reported. The seeds 1, 2, 3 and so on do not serve for that, since they give no independent draws. A small
 * seed's first step leaves the top 32 bits 0 or nearly so, and the first draws of the seeds 1 to 10,000 have the mean -0.51; and
 * the states of the seed a ^ b are those of a and those of b, joined by ^.
 * Answers 0, 1, 14.
 */
calstwid_draws_report calstwid_draws(uint64_t seed, double *out, size_t n_out);

/*
 * A path of kind 12 that names a seed in place of its draws: exactly calstwid_generate on the first n_grid draws of the seed, as
 * calstwid_draws has them. A seed of 0 is refused with 14, directly after rule 6 and before 7, for an empty grid too; every other
 * refusal is that of calstwid_generate. count is the number of the grid's times, `state` the state after the last draw: given as
 * the seed of the next path, or to calstwid_draws, it goes on from there. For an empty grid it is the seed.
 * Answers 0, 1, 2, 3, 4, 5, 6, 7, 8, 13, 14.
 */
calstwid_draws_report calstwid_generate_seeded(double alpha, const double *pillars, size_t n_pillars, const double *sigmas,
                                               size_t n_sigmas, const double *times, size_t n_times, const double *factors,
                                               size_t n_factors, const double *grid, size_t n_grid, uint64_t seed, double *out,
                                               size_t n_out);

/*
 * The same of kind 13: exactly calstwid_generate_published on these draws, with 15 where that has it, directly after 7.
 * Answers 0, 1, 2, 3, 4, 5, 6, 7, 8, 13, 14, 15.
 */
calstwid_draws_report calstwid_generate_published_seeded(double alpha, const double *pillars, size_t n_pillars, const double *sigmas,
                                                         size_t n_sigmas, const double *times, size_t n_times,
                                                         const double *factors, size_t n_factors, const double *grid,
                                                         size_t n_grid, uint64_t seed, double *out, size_t n_out);

/* ---- run files ---- */

/*
 * What the program prints for a run file, piece by piece: piece 0 is the header, or `refused 1` for a file that breaks its layout
 * (one longer than CALSTWID_MAX_FILE_BYTES, or of more than CALSTWID_MAX_JOBS jobs, among others); piece k + 1 is the lines of job
 * k. It is written to the front of `out`, with no 0 after it; count is its bytes, and 0 after the last piece. Where `out` is
 * shorter than CALSTWID_PIECE_BYTES the call is refused with 1. Answers 0, 1.
 */
calstwid_count_report calstwid_piece(const uint8_t *file, size_t n_file, size_t k, uint8_t *out, size_t n_out);

#ifdef __cplusplus
}
#endif

#endif
