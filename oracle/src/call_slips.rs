//! The slips of a library call: single mistakes of a wrapper between a program and
//! the library, or of the judge of a call, to see whether the comparison tells
//! them from what is right.
//!
//! A wrapper's slips are made for every function from its own arguments and fields;
//! `RULE_SLIPS` are the judge's, by name.

use crate::abi::{Arg, Call, Kind, Meddle, Outcome, FUNCTIONS};
use crate::call_rules::{groups, judged};

#[derive(Clone, Copy, PartialEq, Eq, Debug)]
pub enum Slip {
    /// Two arguments of one type exchanged.
    Exchanged(usize, usize),
    /// The last record of a group of lists is not passed on.
    LastDropped(usize),
    /// A size or a seed is one more.
    OneMore(usize),
    /// A field is 0 where the call is served.
    FieldEmpty(usize),
    /// A field is not 0 where the call is refused.
    FieldKept(usize),
    /// A field and the next exchanged.
    FieldsExchanged(usize),
    /// The count is one more.
    CountMore,
    /// The answer is 0 whatever it was.
    AnswerLost,
    /// A lent list is written although the call is refused.
    WrittenOnRefusal,
    /// One place more is written.
    WrittenBehind,
    /// The place beside the list is written.
    WrittenBeside,
    /// The last place is not written.
    LastUnwritten,
    /// A list that is lent to be read is written.
    InputWritten(usize),
    /// The judge's slip of that name.
    Judge(&'static str),
}

/// Name, functions, what is wrong.
const RULE_SLIPS: &[(&str, &[&str], &str)] = &[
    (
        "limits-exclusive",
        LISTS,
        "a list at its limit, or 1,024 steps, is refused",
    ),
    (
        "limits-one-more",
        LISTS,
        "a list may have one record more than its limit, and there may be 1,025 steps",
    ),
    (
        "longer-second-passes",
        LISTS,
        "rule 1 lets a list pass that is longer than the one before it",
    ),
    (
        "shorter-second-passes",
        LISTS,
        "rule 1 lets a list pass that is shorter than the one before it",
    ),
    ("order-1", LISTS, "rule 2 before rule 1"),
    ("room-any", OUTPUTS, "an output may be too short"),
    (
        "room-one-more",
        OUTPUTS,
        "an output must be longer than what is written",
    ),
    (
        "room-exact",
        OUTPUTS,
        "an output must be as long as what is written",
    ),
    ("infinities-pass", NO_KINDS, "rule 2 looks for NaN alone"),
    (
        "lists-unchecked",
        CURVES,
        "rule 2 looks at plain numbers alone",
    ),
    (
        "variance-alpha-checked",
        &["hull_white_piecewise_variance"],
        "rule 3 looks at the alpha of the piecewise variance",
    ),
    ("alpha-zero-passes", ALPHAS, "alpha of 0 passes rule 3"),
    (
        "rising-loosely",
        RISING,
        "curve and pillar times may be equal",
    ),
    (
        "option-zero-refused",
        OPTIONS,
        "an option time of 0 is refused",
    ),
    (
        "minus-zero-refused",
        OPTIONS,
        "an option time of -0 is below 0",
    ),
    (
        "later-equal-passes",
        LATER,
        "a bond or end time may equal the option time",
    ),
    (
        "tau-zero-passes",
        &[
            "d1_d2",
            "black_call",
            "black_put",
            "bachelier_call",
            "transition_variances",
        ],
        "a tau or time step of 0 passes rule 5",
    ),
    ("sigma-zero-refused", SIGMAS, "a sigma of 0 is refused"),
    (
        "zeros-pass",
        POSITIVE,
        "a factor, quoted volatility or Black strike of 0 passes rule 6",
    ),
    (
        "bachelier-strike-checked",
        &["bachelier_call"],
        "rule 6 looks at the strike",
    ),
    (
        "forward-checked",
        &["d1_d2", "black_call", "black_put", "bachelier_call"],
        "rule 6 looks at the forward",
    ),
    (
        "no-pillars-refused",
        PRICER,
        "no pillars are refused by 7, as before document 02, A.2",
    ),
    ("no-coupons-searched", PRICER, "no coupons pass rule 7"),
    (
        "7-for-both-alone",
        PRICER,
        "7 only where there are neither coupons nor pillars",
    ),
    (
        "no-pillars-move",
        PRICER,
        "no pillars are a volatility of 0.01",
    ),
    (
        "no-pillars-1e-9",
        PRICER,
        "no pillars are a volatility of 1e-9",
    ),
    (
        "no-pillars-swap-intrinsic",
        PRICER,
        "without pillars the sum of the bond options is cut off at 0",
    ),
    (
        "sigmas-without-times",
        PRICER,
        "sigmas without pillar times pass for no pillars",
    ),
    (
        "times-without-sigmas",
        PRICER,
        "pillar times without sigmas pass for no pillars",
    ),
    (
        "no-pillars-path",
        &["generate", "generate_seeded"],
        "no pillars are served, at a volatility of 0",
    ),
    (
        "published-half-variance",
        PUBLISHED,
        "half the state's variance is kept, as in kind 12",
    ),
    (
        "published-no-shift",
        PUBLISHED,
        "the shift is the forward alone",
    ),
    (
        "published-step",
        PUBLISHED,
        "g over t less the grid time before it",
    ),
    ("published-at-t-plus-h", PUBLISHED, "g at t + h"),
    (
        "published-square-fused",
        PUBLISHED,
        "(0.5 × g) × g and f with one rounding",
    ),
    (
        "published-half-first",
        PUBLISHED,
        "(0.5 × g) × g in place of 0.5 × (g × g)",
    ),
    ("published-not-halved", PUBLISHED, "f + g × g"),
    ("published-not-squared", PUBLISHED, "f + 0.5 × g"),
    (
        "published-exp-m1",
        PUBLISHED,
        "exp_m1 in g in place of 1 - exp",
    ),
    ("published-by-b", PUBLISHED, "g is sigma × B(0, t)"),
    (
        "published-divided-last",
        PUBLISHED,
        "g is (sigma × (1 - exp))/alpha",
    ),
    (
        "published-multiplied-out",
        PUBLISHED,
        "g is sigma/alpha - (sigma/alpha) × exp",
    ),
    (
        "published-multiplied-out-fused",
        PUBLISHED,
        "the same with one rounding",
    ),
    (
        "published-2-alpha",
        PUBLISHED,
        "g has exp((-2 × alpha) × t)",
    ),
    (
        "published-state-first",
        PUBLISHED,
        "(x + f) + 0.5 × (g × g)",
    ),
    (
        "published-variance-refused",
        PUBLISHED,
        "13 where the state's variance is not finite",
    ),
    (
        "path-step-unfused",
        PUBLISHED,
        "the state's step with products and sums",
    ),
    (
        "several-pillars-pass",
        PUBLISHED,
        "any number of pillars is served",
    ),
    ("two-pillars-pass", PUBLISHED, "15 from three pillars on"),
    (
        "15-with-a-grid-alone",
        PUBLISHED,
        "an empty grid does not meet 15",
    ),
    ("15-before-2", PUBLISHED, "15 directly after rule 1"),
    ("15-before-6", PUBLISHED, "15 before rule 6"),
    ("15-behind-8", PUBLISHED, "15 after rule 8"),
    ("15-last", PUBLISHED, "15 after rule 13"),
    (
        "65-pillars-15",
        PUBLISHED,
        "more than 64 pillars are refused by 15",
    ),
    (
        "no-pillars-published",
        PUBLISHED,
        "no pillars are served, at a volatility of 0",
    ),
    (
        "published-empty-unchecked",
        PUBLISHED,
        "an empty grid is served before rules 2 to 7 and 15",
    ),
    (
        "published-in-kind-12",
        &["generate", "generate_seeded"],
        "over one pillar kind 13's shift",
    ),
    (
        "15-in-kind-12",
        &["generate", "generate_seeded"],
        "more than one pillar is refused by 15",
    ),
    // Stated draws (document 02, A.5).
    ("step-12-for-13", SEEDED, "left 12 in place of 13"),
    ("step-14-for-13", SEEDED, "left 14 in place of 13"),
    ("step-6-for-7", SEEDED, "right 6 in place of 7"),
    ("step-8-for-7", SEEDED, "right 8 in place of 7"),
    ("step-16-for-17", SEEDED, "left 16 in place of 17"),
    (
        "step-5-for-17",
        SEEDED,
        "left 5, as in the generator of 32 bits",
    ),
    (
        "step-13-and-17-exchanged",
        SEEDED,
        "left 17, right 7, left 13",
    ),
    ("step-7-first", SEEDED, "right 7, left 13, left 17"),
    ("step-7-left", SEEDED, "left 7 in place of right"),
    ("step-13-right", SEEDED, "right 13 in place of left"),
    ("step-17-right", SEEDED, "right 17 in place of left"),
    ("step-mirrored", SEEDED, "right 13, left 7, right 17"),
    ("step-without-17", SEEDED, "left 13, right 7 and no more"),
    ("step-rotated", SEEDED, "rotations in place of shifts"),
    ("step-signed", SEEDED, "right 7 draws the top bit after it"),
    (
        "step-of-the-old-state",
        SEEDED,
        "all three shifts are of the state before the step",
    ),
    ("step-added", SEEDED, "sums in place of exclusive ors"),
    ("draw-of-11", SEEDED, "eleven steps a draw"),
    ("draw-of-13", SEEDED, "thirteen steps a draw"),
    (
        "draw-before-the-step",
        SEEDED,
        "the state before each step is added",
    ),
    ("draw-low-bits", SEEDED, "the low 32 bits are added"),
    (
        "draw-signed-bits",
        SEEDED,
        "the top 32 bits are taken for a signed number",
    ),
    ("draw-31-bits", SEEDED, "the top 31 bits, doubled"),
    ("draw-sum-of-32-bits", SEEDED, "the sum is kept in 32 bits"),
    (
        "draw-last-step",
        SEEDED,
        "twelve times the state after the last step",
    ),
    ("draw-less-5", SEEDED, "5 × 2^32 is taken away"),
    ("draw-less-nothing", SEEDED, "nothing is taken away"),
    (
        "draw-single",
        SEEDED,
        "the sum is rounded to 24 bits on its way",
    ),
    ("draw-over-2^31", SEEDED, "divided by 2^31"),
    ("draw-over-2^32-1", SEEDED, "divided by 2^32 - 1"),
    // In a path it never shows: 0 and -0 times a sigma are added to a state that is not -0.
    ("draw-minus-zero", &["draws"], "a draw of 0 is -0"),
    ("draws-anew", SEEDED, "each draw starts from the seed"),
    (
        "draws-a-step-apart",
        SEEDED,
        "a step is passed over between two draws",
    ),
    ("draws-reversed", SEEDED, "the last draw comes first"),
    (
        "state-one-draw-short",
        SEEDED,
        "the state before the last draw is reported",
    ),
    (
        "state-one-draw-more",
        SEEDED,
        "the state after one draw more is reported",
    ),
    (
        "state-one-step-more",
        SEEDED,
        "the state after one step more is reported",
    ),
    (
        "state-of-the-room",
        SEEDED_PATHS,
        "the state after as many draws as the output has room for",
    ),
    ("state-of-the-seed", SEEDED, "the seed itself is reported"),
    (
        "zero-seed-passes",
        SEEDED,
        "a zero seed is let through: every draw is -6",
    ),
    ("zero-seed-as-1", SEEDED, "a zero seed is taken for 1"),
    ("seed-1-refused", SEEDED, "14 for a seed of 1 too"),
    (
        "low-half-0-refused",
        SEEDED,
        "14 where the low 32 bits are 0",
    ),
    (
        "high-half-0-refused",
        SEEDED,
        "14 where the top 32 bits are 0",
    ),
    (
        "top-bit-refused",
        SEEDED,
        "14 where the seed is below 0 as a signed number",
    ),
    ("14-before-1", SEEDED, "14 before rule 1"),
    ("14-before-2", SEEDED_PATHS, "14 directly after rule 1"),
    ("14-before-5", SEEDED_PATHS, "14 before rule 5"),
    ("14-before-6", SEEDED_PATHS, "14 before rule 6"),
    ("14-behind-7", SEEDED_PATHS, "14 after rule 7"),
    (
        "14-behind-15",
        &["generate_published_seeded"],
        "14 after 15",
    ),
    ("14-behind-8", SEEDED_PATHS, "14 after rule 8"),
    ("14-last", SEEDED_PATHS, "14 after rule 13"),
    (
        "14-with-a-grid-alone",
        SEEDED_PATHS,
        "an empty grid does not meet 14",
    ),
    (
        "14-with-draws-alone",
        &["draws"],
        "an empty list does not meet 14",
    ),
    ("14-written", SEEDED, "the output is filled beside 14"),
    ("1024-draws-refused", &["draws"], "1,024 draws are refused"),
    ("1025-draws-pass", &["draws"], "1,025 draws are let through"),
    (
        "the-other-kind",
        SEEDED_PATHS,
        "kind 12 as kind 13, and kind 13 as kind 12",
    ),
    (
        "no-pillars-pass",
        &["volatility", "pillars_reached", "transition_variances"],
        "no pillars pass rule 7",
    ),
    (
        "empty-variance-refused",
        &["hull_white_piecewise_variance"],
        "no pillars are refused by 7",
    ),
    (
        "empty-annuity-refused",
        &["swap_annuity_from_curve"],
        "no coupons are refused by 7",
    ),
    (
        "annuity-times-checked",
        &["swap_annuity_from_curve"],
        "a payment time that is not above 0 is refused by 5",
    ),
    (
        "step-not-needed",
        &["A", "zcb_price", "theta", "forward_rate_from_curve"],
        "no factor is needed at t + h",
    ),
    (
        "between-refused",
        FETCHING,
        "a time between two curve points is refused by 8, as in document 01",
    ),
    (
        "between-fused",
        FETCHING,
        "between two points: one rounding for the product and the sum",
    ),
    (
        "between-ln-of-ratio",
        FETCHING,
        "between two points: ln f0 + w × ln(f1/f0)",
    ),
    (
        "between-from-above",
        FETCHING,
        "between two points: from the upper one down",
    ),
    (
        "between-two-weights",
        FETCHING,
        "between two points: (1 - w) × ln f0 + w × ln f1",
    ),
    (
        "between-times-exp",
        FETCHING,
        "between two points: f0 × exp(w × (ln f1 - ln f0))",
    ),
    (
        "between-slope-first",
        FETCHING,
        "between two points: ln f0 + (t - t0) × slope",
    ),
    (
        "between-linear",
        FETCHING,
        "between two points: linear in the factors",
    ),
    (
        "between-nearest",
        FETCHING,
        "between two points: the nearer one's factor",
    ),
    (
        "w-from-the-other-end",
        FETCHING,
        "between two points: w = (t1 - t)/(t1 - t0)",
    ),
    (
        "last-factor-carried-on",
        FETCHING,
        "between two points: the factor of the one before",
    ),
    (
        "last-factor-carried-out",
        FETCHING,
        "after the last point its factor is served",
    ),
    (
        "first-factor-carried-back",
        FETCHING,
        "before the first point its factor is served",
    ),
    (
        "extrapolated",
        FETCHING,
        "after the last point the last two are drawn out",
    ),
    (
        "extrapolated-back",
        FETCHING,
        "before the first point the first two are drawn out",
    ),
    (
        "listed-as-end",
        FETCHING,
        "a listed time is worked as the end of the stretch before it",
    ),
    (
        "listed-as-start",
        FETCHING,
        "a listed time is worked as the start of the stretch after it",
    ),
    (
        "listed-from-neighbours",
        FETCHING,
        "a listed time is worked from the points beside it",
    ),
    (
        "factor-not-finite",
        FETCHING,
        "a factor between two points that is not finite is let through",
    ),
    (
        "theta-closed",
        &["theta"],
        "the backward difference at t = h too",
    ),
    (
        "lookup-by-bits",
        &[
            "A",
            "zcb_price",
            "theta",
            "forward_rate_from_curve",
            "swap_annuity_from_curve",
        ],
        "a time is looked up by its bits: -0 is not +0",
    ),
    (
        "reached-before",
        &["pillars_reached"],
        "the pillar times before t, not those at t",
    ),
    (
        "13-not-looked",
        FLOATS,
        "a float that is not finite is served",
    ),
    ("order-2", ALPHAS, "rule 3 before rule 2"),
    (
        "order-3",
        &["A", "zcb_price", "theta", "transition_variances"],
        "rule 4 before rule 3",
    ),
    ("order-4", RISING_OPTIONS, "rule 5 before rule 4"),
    ("order-5", SIGMA_OPTIONS, "rule 6 before rule 5"),
    (
        "by-exp-m1",
        &["B", "short_rate_variance"],
        "exp_m1 in place of 1 - exp",
    ),
    (
        "other-order",
        &["zcb_price_volatility"],
        "B times the root first",
    ),
    (
        "unfused",
        &[
            "A",
            "theta",
            "d1_d2",
            "black_call",
            "black_put",
            "bachelier_call",
            "swap_annuity_from_curve",
        ],
        "products and sums in place of fused ones",
    ),
    ("rate-at-0", &["zcb_price"], "the price at a rate of 0"),
    (
        "times-365",
        &["forward_rate_from_curve"],
        "a product with 365 in place of the division by h",
    ),
    ("by-parity", &["black_put"], "by put-call parity"),
    (
        "backwards",
        &["swap_annuity_from_curve"],
        "the sum from the last coupon on",
    ),
    ("pillar-before", &["volatility"], "the last pillar before t"),
    (
        "zero-before-first",
        &["volatility"],
        "0 before the first pillar",
    ),
    (
        "first-pillar-own-time",
        &["hull_white_piecewise_variance"],
        "the first pillar starts at its own time",
    ),
    (
        "variance-fused",
        &["hull_white_piecewise_variance"],
        "fused in place of a product and a sum",
    ),
    (
        "alpha-1e-12-closed",
        &["hull_white_piecewise_variance"],
        "the plain span for |alpha| <= 1e-12",
    ),
    (
        "steps-added-up",
        &["transition_variances"],
        "a step starts where the sum of the steps before it ends",
    ),
    (
        "one-step-repeated",
        &["transition_variances"],
        "the first step's variance at every step",
    ),
    ("rungs-to-59", TERMS, "ladders end at rung 59"),
    ("rungs-to-61", TERMS, "ladders go on to rung 61"),
    (
        "lower-rung-open",
        TERMS,
        "a lower rung is good above 1 only",
    ),
    (
        "upper-rung-open",
        TERMS,
        "an upper rung is good below 1 only",
    ),
    ("coupon-sum-fused", TERMS, "the sum with fused steps"),
    (
        "ten-before-upper",
        TERMS,
        "10 before the upper ladder is run",
    ),
    ("rate-upper-end", TERMS, "the rate is the upper end"),
    ("halvings-199", TERMS, "199 halvings"),
    ("sum-below-one", TERMS, "a NaN passes for a good sum"),
    ("no-terms-7", TERMS, "no terms are refused by 7"),
    (
        "no-derivative-check",
        &["implicit_critical_rate"],
        "a derivative below 1e-14 is not refused",
    ),
    (
        "derivative-below-1e-13",
        &["implicit_critical_rate"],
        "the derivative is refused below 1e-13",
    ),
    ("piece-from-1", &["piece"], "pieces are counted from 1"),
    (
        "piece-last-again",
        &["piece"],
        "behind the last piece the last is given again",
    ),
    (
        "piece-room-one-more",
        &["piece"],
        "131,072 bytes of room are refused",
    ),
    (
        "piece-room-one-less",
        &["piece"],
        "131,071 bytes of room pass",
    ),
    (
        "piece-refused-1",
        &["piece"],
        "a file that breaks its layout has the call refused",
    ),
    ("fused-rounds-twice", &["fused"], "a product and then a sum"),
    ("sqrt-minus-zero", &["sqrt"], "the root of -0 is +0"),
    ("sqrt-flushes", &["sqrt"], "the root of a subnormal is 0"),
    ("exp-ties-even", &["exp"], "k to even at a tie"),
    ("exp-k-truncated", &["exp", "norm_pdf"], "k toward zero"),
    (
        "exp-degree-12",
        &["exp", "norm_pdf"],
        "the series begins at n = 12",
    ),
    (
        "exp-one-constant",
        &["exp", "norm_pdf"],
        "the second part of ln 2 is left out",
    ),
    ("exp-m1-by-exp", &["exp_m1"], "exp(y) - 1 everywhere"),
    (
        "expm1-degree-12",
        &["exp_m1"],
        "the series begins at n = 12",
    ),
    ("ln-split-at-2", &["ln"], "split with 1 <= m < 2"),
    ("ln-sum-order", &["ln"], "another order of the last sum"),
    ("ln-flushes", &["ln"], "a subnormal is taken for 0"),
    (
        "pdf-by-the-constant",
        &["norm_pdf"],
        "a product in place of the division",
    ),
    (
        "normal-plain-for-both",
        &["norm_cdf"],
        "a product and then a sum",
    ),
    ("normal-fused-for-both", &["norm_cdf_dual"], "fused steps"),
    (
        "normal-37-closed",
        &["norm_cdf", "norm_cdf_dual"],
        "0 or 1 from 37.0 on",
    ),
    (
        "normal-7.07-closed",
        &["norm_cdf", "norm_cdf_dual"],
        "the quotient at 7.071067811865475 too",
    ),
    (
        "normal-tail-short",
        &["norm_cdf", "norm_cdf_dual"],
        "the tail's fraction without 4/b",
    ),
    ("midpoint-halves", &["midpoint"], "a/2 + b/2"),
    ("midpoint-from-below", &["midpoint"], "a + (b - a)/2"),
    ("signum-zero", &["signum"], "signum of a zero is 0"),
    ("signum-minus-zero", &["signum"], "signum of -0 is 1"),
    ("nan-kept", &["max", "min"], "a NaN in front is given"),
    ("nan-not-passed", &["max", "min"], "a NaN behind is given"),
    (
        "second-of-equals",
        &["max", "min"],
        "of two equal numbers the second",
    ),
];

const LISTS: &[&str] = &[
    "A",
    "zcb_price",
    "theta",
    "forward_rate_from_curve",
    "swap_annuity_from_curve",
    "volatility",
    "pillars_reached",
    "hull_white_piecewise_variance",
    "transition_variances",
    "caplet_price",
    "floorlet_price",
    "bond_put_price",
    "bond_call_price",
    "swaption_price",
    "payer_swaption_value",
    "receiver_swaption_value",
    "fit_caplet_black",
    "fit_caplet_normal",
    "fit_swaption_black",
    "fit_swaption_normal",
    "calibrate_to_instruments",
    "find_critical_rate",
    "implicit_critical_rate",
    "generate",
    "generate_published",
    "generate_seeded",
    "generate_published_seeded",
];
/// Calls that fetch factors.
const FETCHING: &[&str] = &[
    "A",
    "zcb_price",
    "theta",
    "forward_rate_from_curve",
    "swap_annuity_from_curve",
    "caplet_price",
    "floorlet_price",
    "bond_put_price",
    "bond_call_price",
    "swaption_price",
    "payer_swaption_value",
    "receiver_swaption_value",
    "fit_caplet_black",
    "fit_caplet_normal",
    "fit_swaption_black",
    "fit_swaption_normal",
    "calibrate_to_instruments",
    "generate",
    "generate_published",
    "generate_seeded",
    "generate_published_seeded",
];
const OUTPUTS: &[&str] = &[
    "transition_variances",
    "generate",
    "generate_published",
    "generate_seeded",
    "generate_published_seeded",
];
const PUBLISHED: &[&str] = &["generate_published", "generate_published_seeded"];
const SEEDED: &[&str] = &["draws", "generate_seeded", "generate_published_seeded"];
const SEEDED_PATHS: &[&str] = &["generate_seeded", "generate_published_seeded"];
const PRICER: &[&str] = &["payer_swaption_value", "receiver_swaption_value"];
const TERMS: &[&str] = &["find_critical_rate", "implicit_critical_rate"];
const NO_KINDS: &[&str] = &[
    "B",
    "zcb_price_volatility",
    "short_rate_variance",
    "A",
    "zcb_price",
    "theta",
    "forward_rate_from_curve",
    "d1_d2",
    "black_call",
    "black_put",
    "bachelier_call",
    "swap_annuity_from_curve",
    "volatility",
    "pillars_reached",
    "hull_white_piecewise_variance",
    "transition_variances",
];
const CURVES: &[&str] = &[
    "A",
    "zcb_price",
    "theta",
    "forward_rate_from_curve",
    "swap_annuity_from_curve",
    "volatility",
    "pillars_reached",
    "hull_white_piecewise_variance",
    "transition_variances",
];
const ALPHAS: &[&str] = &[
    "B",
    "zcb_price_volatility",
    "short_rate_variance",
    "A",
    "zcb_price",
    "theta",
    "transition_variances",
];
const RISING: &[&str] = CURVES;
const OPTIONS: &[&str] = &[
    "B",
    "zcb_price_volatility",
    "short_rate_variance",
    "A",
    "zcb_price",
    "theta",
    "forward_rate_from_curve",
    "volatility",
    "pillars_reached",
    "hull_white_piecewise_variance",
];
const LATER: &[&str] = &[
    "B",
    "zcb_price_volatility",
    "short_rate_variance",
    "A",
    "zcb_price",
    "hull_white_piecewise_variance",
];
const SIGMAS: &[&str] = &[
    "zcb_price_volatility",
    "short_rate_variance",
    "A",
    "zcb_price",
    "theta",
    "volatility",
    "pillars_reached",
    "hull_white_piecewise_variance",
    "transition_variances",
];
const POSITIVE: &[&str] = &[
    "A",
    "zcb_price",
    "theta",
    "forward_rate_from_curve",
    "swap_annuity_from_curve",
    "d1_d2",
    "black_call",
    "black_put",
    "bachelier_call",
];
const FLOATS: &[&str] = &[
    "B",
    "zcb_price_volatility",
    "short_rate_variance",
    "A",
    "zcb_price",
    "theta",
    "forward_rate_from_curve",
    "d1_d2",
    "black_call",
    "black_put",
    "bachelier_call",
    "swap_annuity_from_curve",
    "hull_white_piecewise_variance",
    "transition_variances",
    "find_critical_rate",
    "implicit_critical_rate",
];
const RISING_OPTIONS: &[&str] = &[
    "A",
    "zcb_price",
    "theta",
    "forward_rate_from_curve",
    "volatility",
    "pillars_reached",
    "hull_white_piecewise_variance",
    "transition_variances",
];
const SIGMA_OPTIONS: &[&str] = &[
    "zcb_price_volatility",
    "short_rate_variance",
    "A",
    "zcb_price",
    "theta",
    "forward_rate_from_curve",
    "d1_d2",
    "black_call",
    "black_put",
    "bachelier_call",
    "volatility",
    "pillars_reached",
    "hull_white_piecewise_variance",
    "transition_variances",
];

/// Exchanges that never show: the product of the two is all that is used of them.
const HARMLESS: &[(&str, usize, usize)] = &[
    ("fused", 0, 1),
    ("midpoint", 0, 1),
    ("find_critical_rate", 0, 1),
];

/// All slips of all functions: the function, and the slip.
pub fn all() -> Vec<(usize, Slip)> {
    let mut slips = Vec::new();
    for (function, row) in FUNCTIONS.iter().enumerate() {
        let kinds: Vec<Kind> = row.arguments.iter().map(|one| one.1).collect();
        let mut add = |slip: Slip| slips.push((function, slip));
        for one in 0..kinds.len() {
            for other in one + 1..kinds.len() {
                let harmless = HARMLESS.contains(&(row.name, one, other));
                if kinds[one] == kinds[other] && !harmless {
                    add(Slip::Exchanged(one, other));
                }
            }
            match kinds[one] {
                Kind::Size | Kind::Seed => add(Slip::OneMore(one)),
                Kind::Floats | Kind::Bools | Kind::Bytes => add(Slip::InputWritten(one)),
                Kind::Room | Kind::ByteRoom => {
                    add(Slip::WrittenOnRefusal);
                    // Draws fill the whole of what is lent: behind them is beside it.
                    if row.name != "draws" {
                        add(Slip::WrittenBehind);
                    }
                    add(Slip::WrittenBeside);
                    add(Slip::LastUnwritten);
                }
                Kind::Number => {}
            }
        }
        (0..groups(row.name).len()).for_each(|group| add(Slip::LastDropped(group)));
        if !row.is_ground() {
            add(Slip::AnswerLost);
            for field in 1..row.fields.len() {
                add(Slip::FieldEmpty(field));
                add(Slip::FieldKept(field));
                let alike = row
                    .fields
                    .get(field + 1)
                    .is_some_and(|next| next.1 == row.fields[field].1);
                if alike {
                    add(Slip::FieldsExchanged(field));
                }
            }
            if row.fields[1].0 == "count" {
                add(Slip::CountMore);
            }
        }
        for (name, functions, _) in RULE_SLIPS {
            if functions.contains(&row.name) {
                add(Slip::Judge(name));
            }
        }
    }
    slips
}

/// What is wrong, in words.
pub fn described(function: usize, slip: Slip) -> String {
    let row = &FUNCTIONS[function];
    let argument = |place: usize| row.arguments[place].0;
    let what = match slip {
        Slip::Exchanged(one, other) => {
            format!("{} and {} exchanged", argument(one), argument(other))
        }
        Slip::LastDropped(group) => {
            format!(
                "the last record of {} is not passed on",
                argument(groups(row.name)[group].0[0])
            )
        }
        Slip::OneMore(place) => format!("{} is one more", argument(place)),
        Slip::FieldEmpty(field) => format!("{} is 0 where served", row.fields[field].0),
        Slip::FieldKept(field) => format!("{} is not 0 where refused", row.fields[field].0),
        Slip::FieldsExchanged(field) => {
            format!(
                "{} and {} exchanged",
                row.fields[field].0,
                row.fields[field + 1].0
            )
        }
        Slip::CountMore => "the count is one more".to_string(),
        Slip::AnswerLost => "the answer is always 0".to_string(),
        Slip::WrittenOnRefusal => "the output is written on a refusal".to_string(),
        Slip::WrittenBehind => "one place more is written".to_string(),
        Slip::WrittenBeside => "the place beside the output is written".to_string(),
        Slip::LastUnwritten => "the last place is not written".to_string(),
        Slip::InputWritten(place) => format!("{} is written", argument(place)),
        Slip::Judge(name) => {
            let text = RULE_SLIPS
                .iter()
                .find(|slip| slip.0 == name)
                .map_or("", |slip| slip.2);
            format!("judge: {name}: {text}")
        }
    };
    format!("{}: {what}", row.name)
}

/// The call as a wrapper with this slip passes it on; nothing where it passes on
/// the same, or where the slip is none of arguments.
pub fn passed_on(call: &Call, slip: Slip) -> Option<Call> {
    let mut other = call.clone();
    match slip {
        Slip::Exchanged(one, two) => other.args.swap(one, two),
        Slip::OneMore(place) => other.args[place] = Arg::Size(call.size(place).wrapping_add(1)),
        Slip::LastDropped(group) => {
            for place in groups(call.name())[group].0 {
                match &mut other.args[*place] {
                    Arg::Floats(list) => drop(list.pop()),
                    Arg::Bools(list) => drop(list.pop()),
                    _ => {}
                }
            }
        }
        _ => return None,
    }
    if other.text() == call.text() {
        None
    } else {
        Some(other)
    }
}

/// The report as a wrapper with this slip hands it back.
pub fn handed_back(call: &Call, found: &Outcome, slip: Slip) -> Outcome {
    let mut other = found.clone();
    let served = found.words[0] == 0;
    let fields = call.table().fields;
    let from = |field: usize| fields[..field].iter().map(|one| one.1).sum::<usize>();
    match slip {
        Slip::FieldEmpty(field) if served => {
            other.words[from(field)..from(field + 1)].fill(0);
        }
        Slip::FieldKept(field) if !served => other.words[from(field + 1) - 1] = 1,
        Slip::FieldsExchanged(field) if served => {
            for place in 0..fields[field].1 {
                other
                    .words
                    .swap(from(field) + place, from(field + 1) + place);
            }
        }
        Slip::CountMore if served => other.words[1] += 1,
        Slip::AnswerLost => other.words[0] = 0,
        _ => {}
    }
    other
}

/// What is done to memory behind the library's back.
pub fn meddle(call: &Call, written: usize, served: bool, slip: Slip) -> Meddle {
    let out = call.table().position("out");
    match (slip, out) {
        (Slip::InputWritten(place), _) if call.length(place) > 0 => Meddle::Write(place, 0),
        (Slip::WrittenOnRefusal, Some(out)) if !served && call.length(out) > 0 => {
            Meddle::Write(out, 0)
        }
        (Slip::WrittenBehind, Some(out)) if served && call.length(out) > written => {
            Meddle::Write(out, written as isize)
        }
        (Slip::WrittenBeside, Some(out)) => Meddle::Write(out, -1),
        (Slip::LastUnwritten, Some(out)) if served && written > 0 => Meddle::Unwritten(out),
        _ => Meddle::Nothing,
    }
}

/// Whether the judge with this slip gives another outcome than the right one.
pub fn judge_differs(call: &Call, right: &Outcome, name: &str) -> bool {
    match judged(call, name) {
        Ok(other) => {
            let alike = other.words.iter().zip(&right.words).all(|(one, two)| {
                one == two || (call.table().is_ground() && crate::abi::alike(*one, *two))
            });
            !alike || other.written != right.written
        }
        Err(_) => true,
    }
}
