//! The judge's own arithmetic: document 01's elementary functions and the two
//! normal functions, each able to make the slip it is told to. Written from
//! document 01 beside `elementary.rs`, which the cut-out Rust calls; every
//! accepted job compares the two.

use crate::slips::Slip;

const LN2: (f64, f64) = (0.693147180369123816490, 1.90821492927058770002e-10);
const SQRT_2PI: f64 = 2.5066282746310005;

/// Hart's quotient and its limits, from G. West, "Better approximations to
/// cumulative normal functions", Wilmott 2005; highest power first.
const ABOVE: [f64; 7] = [
    0.0352624965998911,
    0.700383064443688,
    6.37396220353165,
    33.912866078383,
    112.079291497871,
    221.213596169931,
    220.206867912376,
];
const BELOW: [f64; 8] = [
    0.0883883476483184,
    1.75566716318264,
    16.064177579207,
    86.7807322029461,
    296.564248779674,
    637.333633378831,
    793.826512519948,
    440.413735824752,
];
const TAIL_FROM: f64 = 7.071067811865475;

#[derive(Clone, Copy)]
pub struct Numbers {
    pub slip: Slip,
}

impl Numbers {
    /// Without a slip.
    pub const RIGHT: Numbers = Numbers {
        slip: Slip::Nothing,
    };

    #[inline]
    pub fn slips(&self, slip: Slip) -> bool {
        self.slip == slip
    }

    /// Fused; with the slip, a product and then a sum.
    #[inline]
    pub fn fused(&self, slip: Slip, a: f64, b: f64, c: f64) -> f64 {
        if self.slip == slip {
            a * b + c
        } else {
            a.mul_add(b, c)
        }
    }

    /// A product and then a sum; with the slip, fused.
    #[inline]
    pub fn plain(&self, slip: Slip, a: f64, b: f64, c: f64) -> f64 {
        if self.slip == slip {
            a.mul_add(b, c)
        } else {
            a * b + c
        }
    }

    pub fn exp(&self, x: f64) -> f64 {
        if x != x {
            return x;
        }
        if x > 710.0 || (x == 710.0 && self.slips(Slip::Exp710Closed)) {
            return f64::INFINITY;
        }
        if x < -746.0 {
            return 0.0;
        }
        // The whole number nearest to the product. The product is below 1100
        // in size, so its whole part and the rest are exact.
        let product = x * 1.4426950408889634;
        let whole = product as i32;
        let rest = product - f64::from(whole);
        let away = if product < 0.0 { whole - 1 } else { whole + 1 };
        let k = if self.slips(Slip::ExpTruncates) || rest.abs() < 0.5 {
            whole
        } else if rest.abs() == 0.5 && self.slips(Slip::ExpTiesEven) && whole % 2 == 0 {
            whole
        } else {
            away
        };
        let times = f64::from(k);
        let high = x - times * LN2.0;
        let r = if self.slips(Slip::ExpOneConstant) {
            high
        } else {
            high - times * LN2.1
        };
        let mut p = 1.0;
        let mut n = if self.slips(Slip::ExpDegree) {
            12.0
        } else {
            13.0
        };
        while n >= 1.0 {
            p = 1.0 + (r * p) / n;
            n -= 1.0;
        }
        let a = if self.slips(Slip::ExpFloor) {
            k.div_euclid(2)
        } else {
            k / 2
        };
        let b = k - a;
        if self.slips(Slip::ExpExchanged) {
            (p * power_of_two(b)) * power_of_two(a)
        } else {
            (p * power_of_two(a)) * power_of_two(b)
        }
    }

    pub fn exp_m1(&self, y: f64) -> f64 {
        let series = if self.slips(Slip::ExpM1Open) {
            y.abs() < 0.5
        } else {
            y.abs() <= 0.5
        };
        if !series {
            return self.exp(y) - 1.0;
        }
        let mut q = 1.0;
        let mut n = match self.slip {
            Slip::ExpM1Degree => 16.0,
            Slip::ExpM1Degree12 => 12.0,
            _ => 17.0,
        };
        while n >= 2.0 {
            q = 1.0 + (y * q) / n;
            n -= 1.0;
        }
        y * q
    }

    pub fn ln(&self, x: f64) -> f64 {
        if x != x || x < 0.0 {
            return f64::NAN;
        }
        if x == 0.0 {
            return f64::NEG_INFINITY;
        }
        if x == f64::INFINITY {
            return x;
        }
        // x is m × 2^k: halved or doubled into 0.75 .. 1.5 by its exponent,
        // a subnormal being brought up by 2^60 first.
        let mut k = 0;
        let mut m = x;
        if m < f64::MIN_POSITIVE {
            m *= power_of_two(60);
            k = -60;
        }
        let exponent = (m.to_bits() >> 52) as i32 - 1023;
        m = f64::from_bits(m.to_bits() - (((i64::from(exponent)) << 52) as u64));
        k += exponent;
        if m >= 1.5 && !self.slips(Slip::LnSplit) {
            m *= 0.5;
            k += 1;
        }
        let s = (m - 1.0) / (m + 1.0);
        let z = s * s;
        let mut t = 0.0;
        let mut n = match self.slip {
            Slip::LnDegree23 => 23.0,
            Slip::LnDegree => 21.0,
            _ => 25.0,
        };
        while n >= 1.0 {
            t = 1.0 / n + z * t;
            n -= 2.0;
        }
        let k = f64::from(k);
        if self.slips(Slip::LnOneSum) {
            return (k * LN2.0 + 2.0 * (s * t)) + k * LN2.1;
        }
        k * LN2.0 + (2.0 * (s * t) + k * LN2.1)
    }

    pub fn midpoint(&self, a: f64, b: f64) -> f64 {
        if self.slips(Slip::MidpointHalves) {
            return a / 2.0 + b / 2.0;
        }
        (a + b) / 2.0
    }

    pub fn signum(&self, x: f64) -> f64 {
        if x != x {
            return x;
        }
        if x == 0.0 && self.slips(Slip::SignumZero) {
            return 0.0;
        }
        if x == 0.0 && self.slips(Slip::SignumMinusZero) {
            return 1.0;
        }
        if x.to_bits() >> 63 == 1 {
            -1.0
        } else {
            1.0
        }
    }

    pub fn norm_pdf(&self, d: f64) -> f64 {
        let exponent = if self.slips(Slip::PdfOrder) {
            -0.5 * (d * d)
        } else {
            (-0.5 * d) * d
        };
        self.exp(exponent) / SQRT_2PI
    }

    /// The normal function of the f64 side: fused steps.
    pub fn normal(&self, x: f64) -> f64 {
        self.normal_by(x, !self.slips(Slip::NormalPlain))
    }

    /// The normal function of the DualFwd side: a product and then a sum.
    pub fn normal_dual(&self, x: f64) -> f64 {
        self.normal_by(x, self.slips(Slip::NormalFused))
    }

    fn normal_by(&self, x: f64, fused: bool) -> f64 {
        let z = x.abs();
        let step = |sum: f64, coefficient: &f64| {
            if fused {
                sum.mul_add(z, *coefficient)
            } else {
                sum * z + *coefficient
            }
        };
        let beyond = if self.slips(Slip::Normal37) {
            z >= 37.0
        } else {
            z > 37.0
        };
        let quotient = if self.slips(Slip::NormalHart) {
            z <= TAIL_FROM
        } else {
            z < TAIL_FROM
        };
        let lower = if beyond {
            0.0
        } else {
            let e = self.exp((-z * z) * 0.5);
            if quotient {
                let above = ABOVE[1..].iter().fold(ABOVE[0], step);
                let below = BELOW[1..].iter().fold(BELOW[0], step);
                (e * above) / below
            } else {
                let first = z + 0.65;
                let first = if self.slips(Slip::NormalTail) {
                    first
                } else {
                    z + 4.0 / first
                };
                let fraction = z + 1.0 / (z + 2.0 / (z + 3.0 / first));
                e / (fraction * SQRT_2PI)
            }
        };
        let upper_half = if self.slips(Slip::NormalPositive) {
            x >= 0.0
        } else {
            x > 0.0
        };
        if upper_half {
            1.0 - lower
        } else {
            lower
        }
    }
}

fn power_of_two(power: i32) -> f64 {
    f64::from_bits(((power + 1023) as u64) << 52)
}
