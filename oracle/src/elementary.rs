//! Document 01's elementary functions, in its words and order. The cut-out
//! Rust calls these in place of the platform's. Square root and fused
//! product-and-sum are the hardware's (`f64::sqrt`, `f64::mul_add`), which
//! round once as IEEE 754 says. The divisors of a loop are listed, so that the
//! compiler unrolls it.

/// The first and the second part of ln 2.
const LN2_FIRST: f64 = 0.693147180369123816490;
const LN2_SECOND: f64 = 1.90821492927058770002e-10;
const ONE_BY_LN2: f64 = 1.4426950408889634;
const SQRT_2PI: f64 = 2.5066282746310005;

/// 2 to a power between -1022 and 1023, exactly.
fn two_to(power: i64) -> f64 {
    f64::from_bits(((power + 1023) as u64) << 52)
}

/// "NaN gives NaN; above 710 infinity; below -746 +0. Else k is the whole
/// number nearest to the rounded product .. ties away from zero; .. The result
/// is p × 2^a × 2^b, a being k/2 toward zero and b = k - a."
pub fn exp(x: f64) -> f64 {
    if x.is_nan() {
        return f64::NAN;
    }
    if x > 710.0 {
        return f64::INFINITY;
    }
    if x < -746.0 {
        return 0.0;
    }
    let product = x * ONE_BY_LN2;
    let k = product.round(); // nearest, ties away from zero
    let r = (x - k * LN2_FIRST) - k * LN2_SECOND;
    let mut p = 1.0;
    for n in [13.0, 12.0, 11.0, 10.0, 9.0, 8.0, 7.0, 6.0, 5.0, 4.0, 3.0, 2.0, 1.0] {
        p = 1.0 + (r * p) / n;
    }
    let k = k as i64;
    let a = k / 2; // toward zero
    let b = k - a;
    p * two_to(a) * two_to(b)
}

/// "for |y| <= 0.5, y × q, where q starts at 1 and for n = 17 down to 2
/// becomes 1 + (y × q)/n; else exp(y) - 1."
pub fn exp_m1(y: f64) -> f64 {
    if y.abs() <= 0.5 {
        let mut q = 1.0;
        for n in [
            17.0, 16.0, 15.0, 14.0, 13.0, 12.0, 11.0, 10.0, 9.0, 8.0, 7.0, 6.0, 5.0, 4.0, 3.0, 2.0,
        ] {
            q = 1.0 + (y * q) / n;
        }
        y * q
    } else {
        exp(y) - 1.0
    }
}

/// Splits a positive finite number exactly as m × 2^k with 0.75 <= m < 1.5.
fn split(x: f64) -> (f64, i64) {
    // A subnormal is scaled up exactly first.
    let (x, scaled) = if x < f64::MIN_POSITIVE {
        (x * two_to(54), 54)
    } else {
        (x, 0)
    };
    let bits = x.to_bits();
    let exponent = (bits >> 52) as i64 - 1023;
    let m = f64::from_bits((bits & 0x000f_ffff_ffff_ffff) | 0x3ff0_0000_0000_0000); // 1 <= m < 2
    if m < 1.5 {
        (m, exponent - scaled)
    } else {
        (m / 2.0, exponent + 1 - scaled)
    }
}

/// "s = (m-1)/(m+1), z = s × s; t starts at 0, and for n = 25, 23, .. 1
/// becomes 1/n + z × t. The result is k times the first ln constant above +
/// (2 × (s × t) + k times the second)."
pub fn ln(x: f64) -> f64 {
    if x.is_nan() || x < 0.0 {
        return f64::NAN;
    }
    if x == 0.0 {
        return f64::NEG_INFINITY;
    }
    if x == f64::INFINITY {
        return x;
    }
    let (m, k) = split(x);
    let k = k as f64;
    let s = (m - 1.0) / (m + 1.0);
    let z = s * s;
    let mut t = 0.0;
    for n in [25.0, 23.0, 21.0, 19.0, 17.0, 15.0, 13.0, 11.0, 9.0, 7.0, 5.0, 3.0, 1.0] {
        t = 1.0 / n + z * t;
    }
    k * LN2_FIRST + (2.0 * (s * t) + k * LN2_SECOND)
}

/// "midpoint is (a+b)/2"
pub fn midpoint(a: f64, b: f64) -> f64 {
    (a + b) / 2.0
}

/// "signum is 1 for +0, -1 for -0, NaN for NaN"
pub fn signum(x: f64) -> f64 {
    if x.is_nan() {
        f64::NAN
    } else if x.is_sign_negative() {
        -1.0
    } else {
        1.0
    }
}

/// "max and min pass over a NaN". Of two zeros the first is given; nothing
/// that is compared or printed depends on that.
pub fn max(a: f64, b: f64) -> f64 {
    if a.is_nan() || b > a {
        b
    } else {
        a
    }
}

pub fn min(a: f64, b: f64) -> f64 {
    if a.is_nan() || b < a {
        b
    } else {
        a
    }
}

/// "norm_pdf(d) is exp((-0.5 × d) × d)/SQRT_2PI"
pub fn norm_pdf(d: f64) -> f64 {
    exp((-0.5 * d) * d) / SQRT_2PI
}
