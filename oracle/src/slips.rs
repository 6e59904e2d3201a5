//! The slips: single mistakes that the judge can be told to make, to see
//! whether a set of run files would tell a program with that mistake from a
//! right one.

/// Where a slip can be seen.
#[derive(Clone, Copy, PartialEq, Eq, Debug)]
pub enum Shows {
    /// In the lines that the program prints.
    Printed,
    /// Only in what the library returns besides.
    Detail,
    /// Nowhere; the text says why.
    Never,
}

const fn printed(shows: Shows) -> bool {
    matches!(shows, Shows::Printed)
}

macro_rules! slips {
    ($($variant:ident, $name:literal, $shows:ident, $text:literal;)*) => {
        #[derive(Clone, Copy, PartialEq, Eq, Debug)]
        pub enum Slip { Nothing, $($variant,)* }

        /// Name, what is wrong, can it show in printed output.
        pub const SLIPS: &[(&str, &str, bool)] =
            &[$(($name, $text, printed(Shows::$shows)),)*];

        /// Name and where it can show.
        pub const SHOWS: &[(&str, Shows)] = &[$(($name, Shows::$shows),)*];

        const VARIANTS: &[Slip] = &[$(Slip::$variant,)*];
    };
}

slips! {
    // Elementary functions.
    ExpTiesEven, "exp-ties-even", Printed, "exp: k to even at a tie instead of away from zero; shows only where the argument times 1.4427 is exactly a half and k would be odd the other way";
    ExpTruncates, "exp-k-truncated", Printed, "exp: k toward zero instead of to the nearest";
    ExpExchanged, "exp-a-b-exchanged", Never, "exp: 2^b before 2^a. The first product is exact either way (|a|, |b| <= 538 and p is near 1), so the last product rounds the same number";
    ExpFloor, "exp-a-floor", Never, "exp: a is the floor of k/2 instead of toward zero. The first product is exact either way";
    ExpDegree, "exp-degree-12", Printed, "exp: the series begins at n = 12";
    ExpOneConstant, "exp-one-constant", Printed, "exp: the second part of ln 2 is left out";
    Exp710Closed, "exp-710-closed", Never, "exp: infinity from 710 on. At 710 the product overflows to infinity as well";
    ExpM1Degree, "expm1-degree-16", Printed, "exp_m1: the series begins at n = 16; shows for 67 in a million arguments between -0.5 and -0.3";
    ExpM1Degree12, "expm1-degree-12", Printed, "exp_m1: the series begins at n = 12";
    ExpM1Open, "expm1-half-open", Never, "exp_m1: the series for |y| < 0.5 only. The arguments of a run file are negative, and at -0.5 both ways give the same bits";
    LnDegree23, "ln-degree-23", Printed, "ln: the series begins at n = 23; shows for few arguments";
    LnDegree, "ln-degree-21", Printed, "ln: the series begins at n = 21; shows for 3 in a thousand arguments between 0.5 and 1.5";
    LnSplit, "ln-split-at-2", Printed, "ln: split with 1 <= m < 2";
    LnOneSum, "ln-sum-order", Printed, "ln: (k first + 2 s t) + k second instead of k first + (2 s t + k second)";
    SignumZero, "signum-zero", Printed, "signum of a zero is 0: a residual of +0 no longer has the sign of a positive one";
    SignumMinusZero, "signum-minus-zero", Printed, "signum of -0 is 1; shows where a residual is -0: a model price rounded to -0 from just below 0 (its products are subnormal) less a market price of +0";
    MidpointHalves, "midpoint-halves", Never, "midpoint as a/2 + b/2: the same unless a half is subnormal, and no end comes below 2^-202 in size before it is 0";
    PdfOrder, "pdf-order", Never, "norm_pdf: exp(-0.5 × (d × d)): a product with 0.5 is exact, so both orders round d × d once (where d × d is subnormal exp gives 1)";
    // Normal functions.
    NormalFused, "normal-fused-for-both", Printed, "the pricer (kinds 6, 7) uses the fused normal function";
    NormalPlain, "normal-plain-for-both", Printed, "the model and the market prices use the normal function with a product and then a sum";
    Normal37, "normal-37-closed", Printed, "normal functions: 0 or 1 from 37.0 on; shows where an argument is exactly 37 in size";
    NormalHart, "normal-7.07-closed", Printed, "normal functions: the quotient up to and including 7.071067811865475; shows where an argument is exactly that";
    NormalTail, "normal-tail-short", Printed, "normal functions: the tail's fraction without 4/b";
    NormalPositive, "normal-positive-closed", Never, "normal functions: the complement from 0 on instead of above 0. N(0) is 0.5 either way";
    // Curve, times and volatility.
    LookupBits, "lookup-by-bits", Printed, "a time is looked up by its bits: -0 is not +0";
    // Factors between curve points (document 02, A.4).
    BetweenRefused, "between-refused", Printed, "a time between two points is refused by 8, as in document 01";
    BetweenFused, "between-fused", Printed, "between two points: w × (ln f1 - ln f0) and ln f0 with one rounding";
    BetweenRatio, "between-ln-of-ratio", Printed, "between two points: ln f0 + w × ln(f1/f0)";
    BetweenFromAbove, "between-from-above", Printed, "between two points: ln f1 + v × (ln f0 - ln f1), v = (t1 - t)/(t1 - t0)";
    BetweenTwoWeights, "between-two-weights", Printed, "between two points: (1 - w) × ln f0 + w × ln f1";
    BetweenTimesExp, "between-times-exp", Printed, "between two points: f0 × exp(w × (ln f1 - ln f0))";
    BetweenSlope, "between-slope-first", Printed, "between two points: ln f0 + (t - t0) × ((ln f1 - ln f0)/(t1 - t0))";
    BetweenLinear, "between-linear", Printed, "between two points: f0 + w × (f1 - f0)";
    BetweenNearest, "between-nearest", Printed, "between two points: the factor of the nearer one";
    BetweenHeld, "between-held", Printed, "between two points: the factor is held between theirs";
    WFromTheOther, "w-from-the-other-end", Printed, "between two points: w = (t1 - t)/(t1 - t0)";
    LastCarriedOn, "last-factor-carried-on", Printed, "between two points: the factor of the one before";
    LastCarriedOut, "last-factor-carried-out", Printed, "after the last point its factor is served";
    FirstCarriedBack, "first-factor-carried-back", Printed, "before the first point its factor is served";
    Extrapolated, "extrapolated", Printed, "after the last point the last two are drawn out";
    ExtrapolatedBack, "extrapolated-back", Printed, "before the first point the first two are drawn out";
    ListedAsEnd, "listed-as-end", Printed, "a listed time is worked as the end of the stretch before it: exp(ln f) is not always f";
    ListedAsStart, "listed-as-start", Printed, "a listed time is worked as the start of the stretch after it";
    ListedBetween, "listed-from-neighbours", Printed, "a listed time is worked from the points beside it";
    NotFiniteFactor, "factor-not-finite", Printed, "a factor between two points that is not finite is let through; most formulas then end in 9 or 13";
    ZeroFactor, "factor-zero-refused", Never, "a factor of 0 between two points is refused. None is: the logarithm lies between the points' own but for a last digit, and exp of the least float's logarithm is the least float, also some last digits below it";
    StepOf360, "h-of-360", Printed, "h is 1/360";
    NoStepNeeded, "h-not-needed", Printed, "kinds 5, 6, 7, 10 and 11 do without a factor at t + h where it is missing (a forward of 0)";
    VolatilityBefore, "volatility-before", Printed, "volatility: the last pillar before t instead of at or before t";
    VolatilityFirstZero, "volatility-zero-before-first", Printed, "volatility: 0 before the first pillar";
    FirstPillar, "first-pillar-own-time", Printed, "variance: the first pillar starts at its own time";
    NoPillarsMove, "no-pillars-move", Printed, "variance: no pillars are a volatility of 0.01";
    NoPillarsTouch, "no-pillars-1e-9", Printed, "variance: no pillars are a volatility of 1e-9";
    AlphaClosed, "alpha-1e-12-closed", Printed, "variance: the plain span for |alpha| <= 1e-12; shows at alpha = 1e-12";
    IntrinsicOpen, "intrinsic-open", Printed, "pricer: intrinsic below 1e-12 instead of up to it; shows where a bond volatility is exactly 1e-12";
    IntrinsicInModel, "intrinsic-in-model", Printed, "kinds 1 to 5: intrinsic where the bond volatility is at most 1e-12";
    VarianceFused, "variance-fused", Printed, "variance: fused instead of a product and a sum";
    // Formulas.
    CapletUnfused, "caplet-unfused", Printed, "kinds 1, 2, 8, 9: 1 + tau × K with two roundings";
    BondUnfused, "bond-option-unfused", Printed, "bond put and call: two products and a difference";
    D1Unfused, "d1-unfused", Printed, "bond put and call: d1 with a product and a sum";
    ModelAUnfused, "model-a-unfused", Printed, "A of the model with products and sums";
    PricerAFused, "pricer-a-fused", Printed, "A of the pricer with fused steps";
    CoefficientUnfused, "coefficient-unfused", Printed, "the last coupon's coefficient with a product and a sum";
    TotalUnfused, "total-unfused", Printed, "kinds 5, 10, 11: the sum of the bond options with products and sums";
    PricerTotalFused, "pricer-total-fused", Printed, "kinds 6, 7: the sum of the bond options with fused steps";
    SumFused, "coupon-sum-fused", Printed, "the priced coupon sum with fused steps";
    BlackUnfused, "black-unfused", Printed, "Black's call: two products and a difference; in a converged fit only the residual shows it";
    BlackD2Unfused, "black-d2-unfused", Printed, "Black's d2: a product and a difference; in a converged fit only the residual shows it";
    NormalCallUnfused, "bachelier-unfused", Printed, "Bachelier's call: two products and a sum; in a converged fit only the residual shows it";
    AnnuityUnfused, "annuity-unfused", Printed, "annuity: products and sums; in a converged fit mostly the residual shows it, in an unconverged one the sigma (with accruals that are no round numbers)";
    OwnOrder, "own-ratio-first", Printed, "kinds 6, 7: component × (own / forward) instead of (component × own) / forward";
    OwnIgnored, "own-ignored", Printed, "kinds 6, 7: own factors are not used";
    SideFirst, "side-first", Never, "kinds 6, 7: value × (notional × side): a product with 1 or -1 is exact";
    OptionOnSwap, "no-pillars-swap-intrinsic", Printed, "kinds 6, 7 without pillars: the sum of the bond options is cut off at 0, as if the swap were at intrinsic value and not each bond option; shows where the coupon sum is 1 at several rates";
    NewtonInModel, "newton-in-kind-5", Printed, "kinds 5, 10, 11 price after a Newton step";
    NoNewton, "no-newton", Printed, "kinds 6, 7 price at the rate before the Newton step";
    SwapEnd, "swap-ends-latest", Printed, "a fitted swap ends at its latest payment instead of the last listed";
    // Coupon work ahead of a ladder (document 02, A.3).
    AOfFirstSigma, "a-of-first-sigma", Printed, "kinds 10, 11: A is worked once, at the first sigma of the fit (1e-8), and kept for the searches and the strikes at every other";
    StrikesOfFirstSigma, "strikes-of-first-sigma", Printed, "kinds 10, 11: a search has A at its own sigma, the bond options' strikes have the A of the fit's first sigma";
    MissingIsZero, "missing-counts-as-0", Printed, "kinds 5, 10, 11: a coupon whose payment time, t or t + h has no factor has A = 0 in the search, as in the Rust, and 8 is met where the search has found its rate; shows where the search meets 9 or 10 first";
    BFromZero, "b-from-0", Printed, "kinds 5, 10, 11: the B worked ahead of the ladders is B(0, T)";
    // Path.
    PathNoShift, "path-no-half-variance", Printed, "path: the shift is the forward alone";
    PathStepUnfused, "path-step-unfused", Printed, "path: the state's step with products and sums";
    PathVarianceUnfused, "path-variance-unfused", Printed, "path: the state's variance with a product and a sum";
    PathShiftUnfused, "path-shift-unfused", Never, "path: half the variance, then a sum: half of a number is exact; a subnormal variance is lost beside a forward, and beside a forward of 0 both ways round its half once";
    // Paths centred as published (document 02, A.6).
    PublishedState, "published-half-variance", Printed, "kind 13: half the state's variance is kept, as in kind 12";
    PublishedNoShift, "published-no-shift", Printed, "kind 13: the shift is the forward alone";
    PublishedStep, "published-step", Printed, "kind 13: g over t less the grid time before it";
    PublishedLater, "published-at-t-plus-h", Printed, "kind 13: g at t + h";
    PublishedSquareFused, "published-square-fused", Printed, "kind 13: (0.5 × g) × g and f with one rounding";
    PublishedHalfFused, "published-half-fused", Never, "kind 13: 0.5 × (g × g) and f with one rounding: half of a number is exact; a subnormal one is lost beside a forward, and beside a forward of 0 both ways round its half once";
    PublishedHalfFirst, "published-half-first", Printed, "kind 13: (0.5 × g) × g; shows where g × g is subnormal beside a forward of 0, and where it is infinite and its half is not";
    PublishedWhole, "published-not-halved", Printed, "kind 13: the shift is f + g × g";
    PublishedPlain, "published-not-squared", Printed, "kind 13: the shift is f + 0.5 × g";
    PublishedExpM1, "published-exp-m1", Printed, "kind 13: exp_m1 in g in place of 1 - exp";
    PublishedB, "published-by-b", Printed, "kind 13: g is sigma × B(0, t)";
    PublishedDivided, "published-divided-last", Printed, "kind 13: g is (sigma × (1 - exp))/alpha";
    PublishedSpread, "published-multiplied-out", Printed, "kind 13: g is sigma/alpha - (sigma/alpha) × exp";
    PublishedSpreadFused, "published-multiplied-out-fused", Printed, "kind 13: the same with one rounding for the product and the difference";
    PublishedTwice, "published-2-alpha", Printed, "kind 13: g has exp((-2 × alpha) × t)";
    PublishedMinus, "published-minus-outside", Never, "kind 13: exp(-(alpha × t)). A change of sign is exact";
    PublishedOneSum, "published-state-first", Printed, "kind 13: (x + f) + 0.5 × (g × g)";
    PublishedRustToo, "published-in-kind-12", Printed, "kind 12 over one pillar has kind 13's shift";
    PublishedVariance, "published-variance-refused", Printed, "kind 13 is refused by 13 where the state's variance is not finite";
    SeveralPass, "several-pillars-pass", Printed, "kind 13 serves any number of pillars";
    TwoPass, "two-pillars-pass", Printed, "kind 13 is refused by 15 from three pillars on";
    SeveralIn12, "15-in-kind-12", Printed, "kind 12 too is refused by 15 where there is more than one pillar";
    SeveralWithGrid, "15-with-a-grid-alone", Printed, "kind 13 with an empty grid does not meet 15";
    SeveralFirst, "15-before-2", Printed, "15 directly after rule 1";
    SeveralBefore6, "15-before-6", Printed, "15 before rule 6";
    SeveralBefore7, "15-before-7", Never, "15 before rule 7: no list is empty and has more than one record";
    SeveralBehind8, "15-behind-8", Printed, "15 after rule 8";
    SeveralLast, "15-last", Printed, "15 after rule 13";
    PublishedUnmoved, "no-pillars-published", Printed, "kind 13 without pillars is served, at a volatility of 0";
    PublishedUnchecked, "published-empty-unchecked", Printed, "kind 13 with an empty grid is served before rules 2 to 7 and 15";
    PublishedColumn, "published-as-12", Printed, "kind 13 prints 12 in the kind column";
    PublishedSilent, "published-empty-silent", Printed, "kind 13 with an empty grid prints no line";
    Kind13Unknown, "kind-13-unknown", Printed, "kind 13 breaks the layout, as before document 02, A.6";
    Kind14Served, "kind-14-served", Printed, "kind 14 is taken for a path too";
    // Search.
    Rungs59, "rungs-to-59", Printed, "ladders end at rung 59; shows where rung 60 is the first good one";
    Rungs61, "rungs-to-61", Printed, "ladders go on to rung 61";
    LowerOpen, "lower-rung-open", Printed, "a lower rung is good above 1 only; shows where a sum is exactly 1";
    UpperOpen, "upper-rung-open", Printed, "an upper rung is good below 1 only; shows where a sum is exactly 1";
    HalvingClosed, "halving-closed", Printed, "a sum of 1 or more moves the lower end";
    Halvings199, "halvings-199", Printed, "199 halvings of the critical rate; shows where the ends still move at 200 (B above 1e58)";
    SumBelowOne, "sum-below-one", Printed, "a rung is refused by `sum < 1` (`sum > 1` above): a NaN passes for good";
    TenEarly, "ten-before-upper", Printed, "10 as soon as the lower ladder has no good rate, before the upper ladder is run";
    RateUpper, "rate-upper-end", Printed, "the critical rate is the upper end instead of the midpoint; shows where the midpoint is the lower one";
    HalvingNan, "halving-nan", Never, "a NaN sum in a halving is let through. Sums are NaN only further out than some rate (0 × infinity, infinity - infinity), so not between two ends whose sums are numbers; an infinite B makes A NaN or 0, which the first rung meets";
    ModelNoBracket, "model-no-bracket", Printed, "kinds 5, 10, 11 do not look whether both ladders found a good rate, as in the Rust";
    NoDerivativeCheck, "no-derivative-check", Printed, "kinds 6, 7: a derivative of size below 1e-14 is not refused";
    DerivativeAtMost, "derivative-below-1e-13", Printed, "kinds 6, 7: the derivative is refused below 1e-13";
    // Fits.
    ProductSigns, "signs-by-product", Printed, "residuals have equal signs when their product is above 0";
    ToleranceClosed, "tolerance-closed", Printed, "a residual of exactly 1e-12 in size converges";
    FitHalvings199, "fit-halvings-199", Detail, "199 halvings of a fit. From 1e-8 and 2 the ends are neighbours after some 80, so only the count of an unconverged fit changes, which prints as 0";
    FitNan, "fit-nan-passes", Printed, "a NaN residual goes on as in the Rust; the fit then ends in 13 instead of 9";
    MarketFirst, "market-first", Printed, "a fit prices the market before the model: a NaN market price gives 9 before 10";
    FitEndsMoved, "fit-ends-moved", Printed, "the ends of a converged fit are moved at the converging halving; in print only where the end that moves away had an infinite residual (served instead of 13), in detail always";
    FitResidualOld, "fit-residual-of-last-halving", Never, "the residual of an unconverged fit is that of halving 200. From 1e-8 and 2 the ends are neighbours after some 80 halvings, so halving 200 asked at the sigma returned";
    FitLow, "fit-from-1e-9", Printed, "fits start at 1e-9";
    NoteMinusOne, "note-off-by-one", Printed, "a fit's note counts halvings from 0";
    NoteUnconverged, "note-of-unconverged", Printed, "an unconverged fit's note is 200";
    PathNote, "path-note-from-1", Printed, "a path's notes count points from 1";
    // Refusals.
    LooseRise, "rising-loosely", Printed, "curve and pillar times may be equal";
    GridStrict, "grid-strict", Printed, "grid times must strictly rise";
    PaymentEqual, "payment-at-option", Printed, "a bond, end or payment time may equal the option time";
    ZeroRefused, "option-time-zero-refused", Printed, "an option time of 0 is refused in kinds 1 to 7";
    FitZeroServed, "fit-time-zero-served", Printed, "a fit's option time may be 0";
    SigmaZero, "sigma-zero-refused", Printed, "a sigma of 0 is refused";
    AlphaZero, "alpha-zero-passes", Printed, "alpha of 0 passes rule 3";
    StrikeNormal, "normal-strike-checked", Printed, "kinds 9 and 11 want a strike above 0";
    OwnInFive, "own-checked-in-model", Printed, "rules 2 and 6 look at own factors in kinds 5, 10 and 11";
    OwnMixed, "own-mixed-served", Printed, "own factors of 0 beside others are taken for the curve's";
    SideAny, "side-any", Printed, "a side is any number";
    UnusedFields, "unused-fields-checked", Printed, "rule 2 looks at unused fields of a job";
    PillarsAlways, "pillars-always-checked", Printed, "rules 2, 4 and 6 look at pillars in every kind";
    PillarsNeeded, "no-pillars-refused", Printed, "kinds 6 and 7 without pillars are refused with 7, as before document 02, A.2";
    CouponsNotNeeded, "no-coupons-searched", Printed, "kinds 6 and 7 without coupons are not refused with 7";
    EmptyBoth, "7-for-both-alone", Printed, "kinds 6 and 7 are refused with 7 only where there are neither coupons nor pillars";
    PathUnmoved, "no-pillars-path", Printed, "kind 12 without pillars is served, at a volatility of 0";
    EmptyRefused, "empty-model-refused", Printed, "kind 5 with no coupons is refused with 7";
    EmptyUnchecked, "empty-model-unchecked", Printed, "kind 5 with no coupons is served before rules 2 to 6";
    EmptyNeedsTime, "empty-model-needs-time", Printed, "kind 5 with no coupons needs its option time on the curve";
    Order23, "order-2-3", Printed, "rule 3 before rule 2";
    Order34, "order-3-4", Printed, "rule 4 before rule 3";
    Order45, "order-4-5", Printed, "rule 5 before rule 4";
    Order56, "order-5-6", Printed, "rule 6 before rule 5";
    Order67, "order-6-7", Printed, "rule 7 before rule 6";
    Order78, "order-7-8", Printed, "a pricer's option time (kinds 6, 7, 10, 11) is looked up before rule 7";
    SumsNotLooked, "13-without-sums", Printed, "rule 13 does not look at the bracket's sums; shows where a final sum is infinite (B above 1e58)";
    NewtonNotLooked, "13-without-newton", Printed, "rule 13 does not look at the rate after the Newton step";
    ResidualsNotLooked, "13-without-end-residuals", Printed, "rule 13 does not look at a fit's end residuals; shows where a price near the largest float makes an end residual infinite and the first halvings converge";
    InnerSums, "13-with-inner-sums", Printed, "rule 13 looks at the coupon sums inside a swaption fit";
    PathEarly, "13-before-8-in-path", Printed, "a path refuses a point that is not finite before it has looked up the later times";
    // Layout.
    LimitExclusive, "limits-exclusive", Printed, "a list at its limit is refused";
    Limits65, "limits-one-more", Printed, "a list may hold one record more than its limit";
    SizeOpen, "size-65535", Printed, "a file of 65,536 bytes is refused";
    SizeNotLooked, "size-any", Printed, "a file may be longer than 65,536 bytes";
    GapsRefused, "gaps-refused", Printed, "a gap between two lists is refused";
    TrailingRefused, "trailing-refused", Printed, "bytes after the last list are refused";
    OverlapAllowed, "overlap-allowed", Printed, "lists may overlap";
    FirstAnywhere, "first-offset-any", Printed, "the first list may begin inside the six pairs";
    PartRecords, "part-records", Printed, "a length need not be whole records";
    KindZero, "kind-0-skipped", Printed, "kind 0 is refused by itself, not the whole file";
    HeaderOnRefusal, "header-on-refusal", Printed, "the header is printed before `refused 1`";
}

/// The slip of that name.
pub fn named(name: &str) -> Option<Slip> {
    SLIPS
        .iter()
        .position(|slip| slip.0 == name)
        .map(|place| VARIANTS[place])
}
