"""What is cut out of the Rust, and what is replaced in the cut text.

Two tables. CUTS names the items by their headers; SUBSTITUTIONS lists every
textual replacement with the number of places it must hit. A number that
differs stops the build: the Rust has changed and the table must be read anew.

Nothing else is changed in a body.
"""

# file under src/ -> list of (wrapper, header). A header is the beginning of
# the item without visibility; the item runs to its matching brace (or to the
# semicolon for a constant and a type). A wrapper is the line of the impl block
# that a method is put back into, None for an item that stands alone.
PRICER = "impl ClosedFormHullWhiteSwaptionPricer"
MODEL = "impl HullWhite<'_, f64>"

CUTS = {
    "math/probability/norm_cdf.rs": [
        (None, "const SQRT_2PI"),
        (None, "const HART_THRESHOLD"),
        (None, "fn norm_cdf<"),
        (None, "trait NormCDF"),
        (None, "impl NormCDF for f64"),
        (None, "impl NormCDF for DualFwd"),
    ],
    "models/utils.rs": [
        (None, "fn d1_d2("),
        (None, "fn black_call("),
        (None, "fn black_put("),
        (None, "fn bachelier_call("),
        (None, "fn swap_annuity_from_curve("),
    ],
    "models/hullwhite/parameters.rs": [
        (None, "fn transition_variances<"),
        (None, "fn hull_white_piecewise_variance<"),
    ],
    "models/hullwhite/hullwhitemodel.rs": [
        (None, "struct HullWhite<"),
        (None, "impl<'a, T: Scalar> HullWhite<"),
        (None, "impl HullWhite<"),
        (None, "impl PathGenerator<"),
    ],
    "pricers/rates/closedformhullwhiteswaptionpricer.rs": [
        (None, "struct ClosedFormHullWhiteSwaptionPricer"),
        (None, "struct JamshidianTerm"),
        (PRICER, "fn b("),
        (PRICER, "fn affine_a("),
        (PRICER, "fn find_critical_rate("),
        (PRICER, "fn implicit_critical_rate("),
        (PRICER, "fn bond_option("),
        (PRICER, "fn swaption_value("),
    ],
    "math/solvers/bisection.rs": [
        (None, "struct Bisection<"),
        (None, "impl<P> Bisection<"),
    ],
    "math/solvers/solvertraits.rs": [
        (None, "type Matrix<"),
        (None, "enum SolutionStatus"),
        (None, "struct OptimizerSolution<"),
        (None, "trait ContFunc<"),
    ],
    "models/hullwhite/hullwhitecalibration.rs": [
        (None, "struct HullWhiteTimeDependentVolatility<"),
        (None, "impl HullWhiteTimeDependentVolatility<"),
        (None, "impl TimeDependentVolatility<"),
        (None, "struct HullWhiteCalibration<"),
        (None, "impl HullWhiteCalibration<"),
        (None, "impl CalibrationInstrumentPricer for"),
        (None, "fn extract_calibration_params("),
        (None, "fn annual_swap_schedule("),
        (None, "struct HwCalibrationObjective<"),
        (None, "impl ContFunc<f64> for HwCalibrationObjective<"),
        (MODEL, "fn calibrate_to_instruments("),
    ],
}

# Why a row keeps the values. Document 01: "The Rust under comparison calls
# these in place of its own."
EXP = "document 01's exp for the platform's; on DualFwd it is the same exp of the value"
LN = "document 01's ln for the platform's; on DualFwd it is the same ln of the value"
EXPM1 = "document 01's exp_m1 for the platform's"
MID = "document 01's midpoint (a+b)/2 for the standard library's, which differs only above half the largest float"
SIGN = "document 01's signum; the same values as the standard library's, written down once"
MAX = "document 01's max (passes over a NaN)"
MIN = "document 01's min (passes over a NaN)"

# (file, pattern, replacement, places, why)
SUBSTITUTIONS = [
    ("math/probability/norm_cdf.rs", ".exp()", ".exp_01()", 2, EXP),
    ("models/utils.rs", ".ln()", ".ln_01()", 1, LN),
    ("models/hullwhite/parameters.rs", ".exp()", ".exp_01()", 1, EXP),
    ("models/hullwhite/parameters.rs", ".exp_m1()", ".exp_m1_01()", 1, EXPM1),
    ("models/hullwhite/parameters.rs", ".max(", ".max_01(", 1, MAX),
    ("models/hullwhite/parameters.rs", ".min(", ".min_01(", 1, MIN),
    ("models/hullwhite/hullwhitemodel.rs", ".exp()", ".exp_01()", 10, EXP),
    ("models/hullwhite/hullwhitemodel.rs", ".ln()", ".ln_01()", 8, LN),
    ("models/hullwhite/hullwhitemodel.rs", "f64::midpoint(", "midpoint_01(", 2, MID),
    ("pricers/rates/closedformhullwhiteswaptionpricer.rs", ".exp()", ".exp_01()", 5, EXP),
    ("pricers/rates/closedformhullwhiteswaptionpricer.rs", ".ln()", ".ln_01()", 3, LN),
    ("pricers/rates/closedformhullwhiteswaptionpricer.rs", "f64::midpoint(", "midpoint_01(", 2, MID),
    ("math/solvers/bisection.rs", "f64::midpoint(", "midpoint_01(", 2, MID),
    ("math/solvers/bisection.rs", ".signum()", ".signum_01()", 4, SIGN),
]

# Tokens that must be gone from every cut text once the table is applied: a
# call of the platform's own function that no row has caught.
FORBIDDEN = [
    ".exp()", ".ln()", ".exp_m1()", ".ln_1p()", ".powf(", ".powi(", ".log(",
    ".log2(", ".log10(", ".exp2(", ".max(", ".min(", ".signum()",
    "f64::midpoint(", "f64::exp", "f64::ln",
]
