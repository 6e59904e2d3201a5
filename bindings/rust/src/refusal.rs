use std::fmt;

/// The refusals, each with its number and its sentence, which stand here alone.
macro_rules! refusals {
    ($($name:ident = $number:literal, $sentence:literal;)*) => {
        /// Why a call was turned down: document 01's thirteen reasons, and 14 and 15 of document 02. The first that applies is given, in the order 1 to 6,
        /// 14, 7, 15, 8 to 13: a number says nothing of its place.
        #[derive(Clone, Copy, Debug, PartialEq, Eq, Hash)]
        #[non_exhaustive]
        pub enum Refusal {
            $(#[doc = concat!(stringify!($number), ": ", $sentence, ".")] $name = $number,)*
        }

        impl Refusal {
            /// All of them, in the order of their numbers.
            pub const ALL: &'static [Refusal] = &[$(Refusal::$name),*];

            /// The number of documents 01 and 02, 1 to 15.
            pub fn number(self) -> u64 {
                self as u64
            }

            /// Why, in a sentence without its full stop.
            pub fn sentence(self) -> &'static str {
                match self {
                    $(Refusal::$name => $sentence,)*
                }
            }

            /// What the library's answer says: served, with the value, or refused.
            pub(crate) fn unless_served<T>(answer: u64, value: T) -> Result<T, Refusal> {
                match answer {
                    0 => Ok(value),
                    $($number => Err(Refusal::$name),)*
                    _ => panic!("the library answered {answer}, which this crate does not know: take both from one clone"),
                }
            }
        }
    };
}

refusals! {
    Size = 1, "a list is over its limit, paired lists differ in length, or an output is too short";
    NotFinite = 2, "an input number is NaN or infinite";
    MeanReversion = 3, "alpha is zero or negative";
    Order = 4, "curve or pillar times do not strictly rise, or grid times fall";
    Times = 5, "an option or first grid time is below 0, a bond, end or payment time is not above the option time, or a fit's option time is 0";
    Domain = 6, "a sigma is negative, a quoted volatility is not above 0, a Black strike is not above 0, a curve factor is not above 0, a coupon's own factor is negative or is 0 beside one that is not, or a side is neither 1 nor -1";
    Empty = 7, "there are no coupons, or no pillars, where the call wants them";
    OffCurve = 8, "a time that the call needs is before the curve's first point or after its last, the curve has no points, or the factor found between two points is not finite";
    NanReached = 9, "a critical-rate evaluation or a fit residual that is reached is NaN";
    NoBracket = 10, "one of the two ladders has no good rate, so that there is no bracket";
    FlatDerivative = 11, "the critical-rate derivative is below 1e-14 in size";
    NoSignChange = 12, "the residuals at 1e-8 and 2.0 have the same sign: no sigma between them fits";
    Overflow = 13, "a float of the answer is not finite";
    ZeroSeed = 14, "a seed is zero";
    SeveralPillars = 15, "a path centred as published serves one pillar, and there is more than one";
}

impl fmt::Display for Refusal {
    fn fmt(&self, f: &mut fmt::Formatter<'_>) -> fmt::Result {
        write!(f, "refused {}: {}", self.number(), self.sentence())
    }
}

impl std::error::Error for Refusal {}
