//! Single calls of the cut-out Rust, for vectors that test one function.
//!
//!     oracle call NAME ARGUMENT..
//!     oracle vectors NAME COUNT SEED
//!     oracle calls
//!
//! prints `NAME arguments -> results`, every float as 16 hexadecimal digits of
//! its bits; a list stands in brackets. `refused` in place of results means
//! that the Rust returns an error. An argument may also be given as a decimal.
//! `root`, `search` and `basket` are the judge's own answers, document 01's
//! refusal number first; the basket's are compared with
//! `calibrate_to_instruments`. `root` and `search` have the same random
//! arguments for the same seed.

use crate::cut::norm_cdf::NormCDF;
use crate::cut::{
    self, hullwhitecalibration, hullwhitemodel, parameters, pricer, utils, CapletQuote, HullWhite,
};
use crate::elementary;
use crate::judge::{self, Caplet, Case, Job, Run, Term};
use crate::numbers::Numbers;
use crate::shim::{self, DualFwd, TableCurve};

/// One argument of a call.
#[derive(Clone, Debug)]
pub enum Arg {
    One(f64),
    List(Vec<f64>),
}

/// Name, arguments, and what the results are. A list of records is written
/// flat: `[time factor ..]`.
const CALLS: &[(&str, &str, &str)] = &[
    ("exp", "x", "document 01's"),
    ("exp_m1", "x", "document 01's"),
    ("ln", "x", "document 01's"),
    ("norm_pdf", "x", "document 01's"),
    ("signum", "x", "document 01's"),
    ("sqrt", "x", "the hardware's"),
    ("midpoint", "x y", "document 01's"),
    ("max", "x y", "document 01's"),
    ("min", "x y", "document 01's"),
    ("fused", "x y z", "the hardware's"),
    ("norm_cdf", "x", "the f64 one, fused steps"),
    ("norm_cdf_dual", "x", "the DualFwd one, a product and then a sum"),
    ("d1_d2", "forward strike volatility tau", "d1 d2"),
    ("black_call", "forward strike volatility tau", "undiscounted price"),
    ("black_put", "forward strike volatility tau", "undiscounted price"),
    ("bachelier_call", "forward strike volatility tau", "undiscounted price"),
    ("B", "alpha t T", "B(t, T) of the model"),
    ("A", "alpha t T sigma [time factor ..]", "A(t, T) of the model"),
    ("zcb_price", "alpha rate t T sigma [time factor ..]", "price"),
    ("zcb_price_volatility", "alpha sigma t T", "bond volatility"),
    ("theta", "alpha t sigma [time factor ..]", "drift"),
    ("short_rate_variance", "alpha t T sigma", "variance"),
    ("forward_rate", "t [time factor ..]", "forward rate"),
    ("volatility", "t [time sigma ..]", "volatility at t"),
    ("variance", "alpha start end [time sigma ..]", "hull_white_piecewise_variance"),
    ("transition_variances", "alpha steps time_step [time sigma ..]", "one variance a step"),
    ("annuity", "[time factor ..] [time accrual ..]", "swap_annuity_from_curve over given coupons"),
    ("affine_a", "alpha t T variance [time factor ..]", "A(t, T) of the pricer"),
    ("bond_option", "payer(1)/receiver(0) volatility strike option_factor bond_factor", "price"),
    ("critical_rate", "[coefficient A B ..]", "find_critical_rate"),
    ("newton_rate", "rate [coefficient A B ..]", "implicit_critical_rate"),
    ("calibrate", "alpha [time factor ..] [normal(1)/black(0) strike start end volatility ..]",
     "calibrate_to_instruments: the sigmas, then the diagonal"),
    ("root", "[coefficient A B ..]", "the judge's: answer, two rungs, two ends, two sums, rate"),
    ("search", "[coefficient A B ..]", "the judge's: answer, two rungs, two ends, two sums, rate, rate after the Newton step"),
    ("basket", "alpha [time factor ..] [normal(1)/black(0) strike start end volatility ..]",
     "the judge's: answer; for each caplet sigma, status, halvings, residual; then for each the diagonal and the bumped status"),
];

pub fn list() -> i32 {
    for (name, arguments, results) in CALLS {
        println!("{name} {arguments} -> {results}");
    }
    0
}

pub fn call(args: &[String]) -> i32 {
    let Some((name, rest)) = args.split_first() else {
        eprintln!("oracle call NAME ARGUMENT..; oracle calls lists the names");
        return 2;
    };
    match parse(rest).and_then(|arguments| line(name, &arguments)) {
        Ok(text) => {
            println!("{text}");
            0
        }
        Err(what) => {
            eprintln!("oracle call {name}: {what}");
            2
        }
    }
}

pub fn vectors(args: &[String]) -> i32 {
    let numbers: Vec<u64> = args
        .iter()
        .skip(1)
        .filter_map(|word| word.parse().ok())
        .collect();
    let ([count, seed], Some(name)) = (numbers.as_slice(), args.first()) else {
        eprintln!("oracle vectors NAME COUNT SEED");
        return 2;
    };
    let mut dice = Dice::new(*seed);
    for _ in 0..*count {
        let arguments = dice.arguments(name);
        match line(name, &arguments) {
            Ok(text) => println!("{text}"),
            Err(what) => {
                eprintln!("oracle vectors {name}: {what}");
                return 2;
            }
        }
    }
    0
}

fn parse(words: &[String]) -> Result<Vec<Arg>, String> {
    let mut arguments = Vec::new();
    let mut open: Option<Vec<f64>> = None;
    let text = words.join(" ").replace('[', " [ ").replace(']', " ] ");
    for word in text.split_whitespace() {
        match word {
            "[" => open = Some(Vec::new()),
            "]" => arguments.push(Arg::List(open.take().ok_or("] without [")?)),
            _ => {
                let bits = (word.len() == 16)
                    .then(|| u64::from_str_radix(word, 16).ok())
                    .flatten();
                let value = match bits {
                    Some(bits) => f64::from_bits(bits),
                    None => word.parse().map_err(|_| format!("no number: {word}"))?,
                };
                match &mut open {
                    Some(list) => list.push(value),
                    None => arguments.push(Arg::One(value)),
                }
            }
        }
    }
    Ok(arguments)
}

fn line(name: &str, arguments: &[Arg]) -> Result<String, String> {
    let mut text = name.to_string();
    let hex = |value: &f64| format!(" {:016x}", value.to_bits());
    for argument in arguments {
        match argument {
            Arg::One(value) => text += &hex(value),
            Arg::List(list) => {
                text += " [";
                list.iter().for_each(|value| text += &hex(value));
                text += " ]";
            }
        }
    }
    text += " ->";
    let ones: Vec<f64> = arguments
        .iter()
        .filter_map(|arg| {
            if let Arg::One(x) = arg {
                Some(*x)
            } else {
                None
            }
        })
        .collect();
    let lists: Vec<&[f64]> = arguments
        .iter()
        .filter_map(|arg| {
            if let Arg::List(list) = arg {
                Some(list.as_slice())
            } else {
                None
            }
        })
        .collect();
    match name {
        "search" | "root" => {
            let terms = lists.first().ok_or("one list is needed")?;
            return Ok(text + &search(terms, name == "search"));
        }
        "basket" => {
            let ([alpha], [curve, quotes]) = (ones.as_slice(), lists.as_slice()) else {
                return Err("alpha and two lists are needed".into());
            };
            return Ok(text + &basket(*alpha, curve, quotes));
        }
        _ => {}
    }
    match results(name, &ones, &lists)? {
        Ok(values) => values.iter().for_each(|value| text += &hex(value)),
        Err(_) => text += " refused",
    }
    Ok(text)
}

fn pairs(list: &[f64]) -> Vec<(f64, f64)> {
    list.chunks_exact(2).map(|two| (two[0], two[1])).collect()
}

pub fn triples(list: &[f64]) -> Vec<(f64, f64, f64)> {
    list.chunks_exact(3)
        .map(|three| (three[0], three[1], three[2]))
        .collect()
}

/// The Rust's results. The outer error is a wrong number of arguments.
fn results(name: &str, ones: &[f64], lists: &[&[f64]]) -> Result<shim::Result<Vec<f64>>, String> {
    let one = |value: f64| Ok(vec![value]);
    let curve = TableCurve::new(&pairs(lists.first().unwrap_or(&&[][..])));
    Ok(match (name, ones, lists) {
        ("exp", &[x], []) => one(elementary::exp(x)),
        ("exp_m1", &[x], []) => one(elementary::exp_m1(x)),
        ("ln", &[x], []) => one(elementary::ln(x)),
        ("norm_pdf", &[x], []) => one(elementary::norm_pdf(x)),
        ("signum", &[x], []) => one(elementary::signum(x)),
        ("sqrt", &[x], []) => one(x.sqrt()),
        ("midpoint", &[x, y], []) => one(elementary::midpoint(x, y)),
        ("max", &[x, y], []) => one(elementary::max(x, y)),
        ("min", &[x, y], []) => one(elementary::min(x, y)),
        ("fused", &[x, y, z], []) => one(x.mul_add(y, z)),
        ("norm_cdf", &[x], []) => one(x.norm_cdf()),
        ("norm_cdf_dual", &[x], []) => one(DualFwd(x).norm_cdf().0),
        ("d1_d2", &[f, k, v, t], []) => utils::d1_d2(f, k, v, t).map(|(d1, d2)| vec![d1, d2]),
        ("black_call", &[f, k, v, t], []) => utils::black_call(f, k, v, t).map(|x| vec![x]),
        ("black_put", &[f, k, v, t], []) => utils::black_put(f, k, v, t).map(|x| vec![x]),
        ("bachelier_call", &[f, k, v, t], []) => utils::bachelier_call(f, k, v, t).map(|x| vec![x]),
        ("B", &[alpha, t, later], []) => one(HullWhite::new(alpha, &curve).B(t, later)),
        ("A", &[alpha, t, later, sigma], [_]) => HullWhite::new(alpha, &curve)
            .A(t, later, sigma, &curve)
            .map(|x| vec![x]),
        ("zcb_price", &[alpha, rate, t, later, sigma], [_]) => HullWhite::new(alpha, &curve)
            .zcb_price(rate, t, later, sigma, &curve)
            .map(|x| vec![x]),
        ("zcb_price_volatility", &[alpha, sigma, t, later], []) => {
            one(HullWhite::new(alpha, &curve).zcb_price_volatility(sigma, t, later))
        }
        ("theta", &[alpha, t, sigma], [_]) => HullWhite::new(alpha, &curve)
            .theta(t, sigma, &curve)
            .map(|x| vec![x]),
        ("short_rate_variance", &[alpha, t, later, sigma], []) => {
            one(HullWhite::new(alpha, &curve).short_rate_variance(t, later, sigma))
        }
        ("forward_rate", &[t], [_]) => {
            hullwhitemodel::forward_rate(1.0, &curve, t).map(|x| vec![x])
        }
        ("volatility", &[t], [pillars]) if !pillars.is_empty() => {
            hullwhitecalibration::volatility(&pairs(pillars), t).map(|x| vec![x])
        }
        ("variance", &[alpha, start, end], [pillars]) => one(
            parameters::hull_white_piecewise_variance(alpha, &pairs(pillars), start, end),
        ),
        ("transition_variances", &[alpha, steps, time_step], [pillars]) => {
            parameters::transition_variances(alpha, &pairs(pillars), steps as usize, time_step)
        }
        ("annuity", &[], [_, coupons]) => {
            let coupons: Vec<(f64, f64, f64)> = pairs(coupons)
                .iter()
                .map(|two| (two.0, two.1, 0.0))
                .collect();
            cut::lay_out_swap(0.0, &coupons);
            hullwhitecalibration::annuity(&curve, coupons.len() as i64).map(|x| vec![x])
        }
        ("affine_a", &[alpha, t, later, variance], [_]) => {
            pricer::terms(alpha, t, variance, &curve, &[(0.0, later)]).map(|terms| vec![terms[0].1])
        }
        ("bond_option", &[payer, volatility, strike, option, bond], []) => one(
            pricer::bond_option(payer == 1.0, volatility, strike, option, bond),
        ),
        ("critical_rate", &[], [terms]) => pricer::critical_rate(&triples(terms)).map(|x| vec![x]),
        ("calibrate", &[alpha], [_, quotes]) => {
            let quotes: Vec<CapletQuote> =
                caplets(quotes).iter().map(crate::confront::quote).collect();
            hullwhitecalibration::calibrate(alpha, &curve, &cut::caplets(&quotes))
                .map(|(sigmas, diagonal)| [sigmas, diagonal].concat())
        }
        ("newton_rate", &[rate], [terms]) => {
            pricer::newton_rate(&triples(terms), rate).map(|x| vec![x])
        }
        _ => return Err("no such call with these arguments; oracle calls lists them".into()),
    })
}

/// Rules 1 and 2 on terms; there are at most 64, as there are coupons.
fn admitted(terms: &[f64]) -> Result<(), u32> {
    if terms.len() > 3 * 64 {
        return Err(1);
    }
    if terms.iter().any(|float| !float.is_finite()) {
        return Err(2);
    }
    Ok(())
}

/// The judge's search over given terms, with the Newton step or without, compared
/// with the Rust where served.
fn search(terms: &[f64], step: bool) -> String {
    let rows = triples(terms);
    let listed: Vec<Term> = rows
        .iter()
        .map(|&(coefficient, a, b)| Term { coefficient, a, b })
        .collect();
    let run = Run::default();
    let case = Case {
        run: &run,
        job: Job {
            kind: 6,
            ..Job::default()
        },
        n: Numbers::RIGHT,
    };
    let searched = |_| {
        if step {
            case.search_and_step(&listed)
        } else {
            case.search_alone(&listed)
        }
    };
    match admitted(terms).and_then(searched) {
        Ok(found) => {
            let same = crate::confront::same;
            let rate = pricer::critical_rate(&rows).expect("the Rust finds a bracket too");
            assert!(
                same(rate, found.rate),
                "search: the judge and the Rust disagree"
            );
            let mut floats = vec![
                found.ends[0],
                found.ends[1],
                found.sums[0],
                found.sums[1],
                found.rate,
            ];
            if step {
                let newton = pricer::newton_rate(&rows, rate).expect("the Rust steps too");
                assert!(
                    same(newton, found.newton),
                    "the step: the judge and the Rust disagree"
                );
                floats.push(found.newton);
            }
            let words: String = floats
                .iter()
                .map(|float| format!(" {:016x}", float.to_bits()))
                .collect();
            format!(" 0 {} {}{words}", found.rungs[0], found.rungs[1])
        }
        Err(code) => format!(" {code}"),
    }
}

fn caplets(quotes: &[f64]) -> Vec<Caplet> {
    quotes
        .chunks_exact(5)
        .map(|five| Caplet {
            normal: five[0] == 1.0,
            strike: five[1],
            start: five[2],
            end: five[3],
            volatility: five[4],
        })
        .collect()
}

fn basket(alpha: f64, curve: &[f64], quotes: &[f64]) -> String {
    let entries = caplets(quotes);
    let answer = judge::basket(alpha, &pairs(curve), &entries, Numbers::RIGHT);
    let mut text = format!(" {}", answer.code);
    for fit in &answer.fits {
        text += &format!(
            " {:016x} {} {} {:016x}",
            fit.sigma.to_bits(),
            u32::from(fit.converged),
            fit.halvings,
            fit.residual.to_bits()
        );
    }
    for (diagonal, bumped) in answer.diagonal.iter().zip(&answer.bumped) {
        text += &format!(
            " {:016x} {}",
            diagonal.to_bits(),
            u32::from(bumped.converged)
        );
    }
    text
}

// ---------------------------------------------------------- random arguments

pub struct Dice(u64);

const H: f64 = 1.0 / 365.0;

impl Dice {
    pub fn new(seed: u64) -> Dice {
        Dice(seed.wrapping_mul(0x9e37_79b9_7f4a_7c15) ^ 0x5851_f42d_4c95_7f2d)
    }
    pub fn next(&mut self) -> u64 {
        // splitmix64
        self.0 = self.0.wrapping_add(0x9e37_79b9_7f4a_7c15);
        let mut z = self.0;
        z = (z ^ (z >> 30)).wrapping_mul(0xbf58_476d_1ce4_e5b9);
        z = (z ^ (z >> 27)).wrapping_mul(0x94d0_49bb_1331_11eb);
        z ^ (z >> 31)
    }
    pub fn below(&mut self, n: u64) -> u64 {
        self.next() % n
    }
    pub fn unit(&mut self) -> f64 {
        (self.next() >> 11) as f64 / (1u64 << 53) as f64
    }
    pub fn between(&mut self, low: f64, high: f64) -> f64 {
        low + (high - low) * self.unit()
    }
    pub fn log_between(&mut self, low: f64, high: f64) -> f64 {
        elementary::exp(self.between(elementary::ln(low), elementary::ln(high)))
    }

    /// Any float at all, one in four; else one of moderate size or a limit.
    pub fn float(&mut self) -> f64 {
        const LIMITS: [f64; 22] = [
            0.0,
            -0.0,
            1.0,
            -1.0,
            0.5,
            -0.5,
            37.0,
            -37.0,
            7.071067811865475,
            -7.071067811865475,
            710.0,
            -746.0,
            38.0,
            -38.0,
            1e-12,
            5e-324,
            f64::MIN_POSITIVE,
            f64::MAX,
            0.75,
            1.5,
            f64::INFINITY,
            f64::NAN,
        ];
        match self.below(4) {
            0 => f64::from_bits(self.next()),
            1 => {
                let limit = LIMITS[self.below(22) as usize];
                match self.below(3) {
                    0 if limit.is_finite() && limit != 0.0 => f64::from_bits(limit.to_bits() + 1),
                    1 if limit.is_finite() && limit != 0.0 => f64::from_bits(limit.to_bits() - 1),
                    _ => limit,
                }
            }
            2 => self.between(-40.0, 40.0),
            _ => self.between(-1.0, 1.0),
        }
    }

    fn curve(&mut self, times: &[f64]) -> Arg {
        let mut times: Vec<f64> = times.to_vec();
        times.sort_by(f64::total_cmp);
        times.dedup();
        let level = self.between(0.005, 0.08);
        let list = times
            .iter()
            .flat_map(|t| {
                [
                    *t,
                    elementary::exp(-(level + self.between(-1e-4, 1e-4)) * t),
                ]
            })
            .collect();
        Arg::List(list)
    }

    fn pillars(&mut self) -> Arg {
        let mut time = self.between(-1.0, 2.0);
        let count = 1 + self.below(6);
        let mut list = Vec::new();
        for _ in 0..count {
            list.extend([time, self.between(0.0, 0.05)]);
            time += self.between(0.1, 2.0);
        }
        Arg::List(list)
    }

    fn terms(&mut self) -> Arg {
        let count = 1 + self.below(8);
        let (alpha, strike) = (self.log_between(0.01, 0.5), self.between(0.0, 0.1));
        let mut list = Vec::new();
        for place in 1..=count {
            let span = place as f64;
            let coefficient = if place == count { 1.0 + strike } else { strike };
            let b = (1.0 - elementary::exp(-alpha * span)) / alpha;
            list.extend([
                coefficient,
                elementary::exp(-self.between(0.0, 0.05) * span + 0.03 * b),
                b,
            ]);
        }
        Arg::List(list)
    }

    /// Half of the time terms of a swaption; else of sizes and signs that none
    /// has, so that every refusal of a search occurs and far rungs are reached.
    pub fn any_terms(&mut self) -> Arg {
        if self.below(2) == 0 {
            return self.terms();
        }
        let count = match self.below(32) {
            0 => 0,
            1 => 63 + self.below(3),
            _ => 1 + self.below(5),
        };
        if self.below(8) == 0 {
            // As good as flat, steep, or so steep that a sum is infinite.
            return Arg::List(vec![1.0, 1.0, self.log_between(1e-20, 1e100)]);
        }
        let (signs, spread) = (self.below(4) == 0, self.between(1.0, 30.0));
        let mut list = Vec::new();
        for _ in 0..count {
            for size in [2.0, spread, 3.0] {
                let negative = signs && self.below(4) == 0;
                let float = match self.below(if signs { 64 } else { 512 }) {
                    0 => self.float(),
                    1 => 0.0,
                    _ => elementary::exp(self.between(-size, size)),
                };
                list.push(if negative { -float } else { float });
            }
        }
        Arg::List(list)
    }

    fn arguments(&mut self, name: &str) -> Vec<Arg> {
        let alpha = if self.below(8) == 0 {
            1e-12
        } else {
            self.log_between(1e-3, 1.0)
        };
        let t = if self.below(8) == 0 {
            0.0
        } else {
            self.between(0.0, 10.0)
        };
        let later = t + self.between(0.1, 10.0);
        let sigma = if self.below(8) == 0 {
            0.0
        } else {
            self.log_between(1e-4, 0.1)
        };
        let rate = self.between(-0.05, 0.15);
        let ones = |values: &[f64]| {
            values
                .iter()
                .map(|value| Arg::One(*value))
                .collect::<Vec<Arg>>()
        };
        match name {
            "midpoint" | "max" | "min" => ones(&[self.float(), self.float()]),
            "fused" => ones(&[self.float(), self.float(), self.float()]),
            "d1_d2" | "black_call" | "black_put" => {
                let forward = self.log_between(1e-3, 0.2);
                ones(&[
                    forward,
                    forward * self.log_between(0.3, 3.0),
                    self.log_between(0.01, 2.0),
                    self.log_between(0.01, 30.0),
                ])
            }
            "bachelier_call" => ones(&[
                rate,
                self.between(-0.05, 0.15),
                self.log_between(1e-4, 0.05),
                self.log_between(0.01, 30.0),
            ]),
            "B" => ones(&[alpha, t, later]),
            "A" | "affine_a" => {
                let mut list = ones(&[
                    alpha,
                    t,
                    later,
                    if name == "A" { sigma } else { sigma * sigma },
                ]);
                list.push(self.curve(&[t, t + H, later]));
                list
            }
            "zcb_price" => {
                let mut list = ones(&[alpha, rate, t, later, sigma]);
                list.push(self.curve(&[t, t + H, later]));
                list
            }
            "zcb_price_volatility" => ones(&[alpha, sigma, t, later]),
            "theta" => {
                let t = if self.below(4) == 0 {
                    self.between(0.0, 2.0 * H)
                } else {
                    t
                };
                let mut list = ones(&[alpha, t, sigma]);
                let times = if t > H {
                    [t - H, t, t + H]
                } else {
                    [t, t + H, 2.0f64.mul_add(H, t)]
                };
                list.push(self.curve(&times));
                list
            }
            "short_rate_variance" => ones(&[alpha, t, later, sigma]),
            "forward_rate" => vec![Arg::One(t), self.curve(&[t, t + H])],
            "volatility" => vec![Arg::One(t), self.pillars()],
            "variance" => {
                let alpha = match self.below(6) {
                    0 => -alpha,
                    1 => 0.0,
                    2 => 9e-13,
                    _ => alpha,
                };
                let mut list = ones(&[alpha, t, later]);
                list.push(self.pillars());
                list
            }
            "transition_variances" => {
                let mut list = ones(&[alpha, self.below(6) as f64, self.between(0.01, 1.0)]);
                list.push(self.pillars());
                list
            }
            "annuity" => {
                let count = 1 + self.below(8);
                let times: Vec<f64> = (1..=count).map(|place| t + place as f64 * 0.5).collect();
                let coupons = times
                    .iter()
                    .flat_map(|time| [*time, self.between(0.2, 1.1)])
                    .collect();
                vec![self.curve(&times), Arg::List(coupons)]
            }
            "bond_option" => {
                let volatility = match self.below(6) {
                    0 => 1e-12,
                    1 => 0.0,
                    _ => self.log_between(1e-4, 0.3),
                };
                let payer = self.below(2) as f64;
                ones(&[
                    payer,
                    volatility,
                    self.between(0.5, 1.2),
                    self.between(0.5, 1.2),
                    self.between(0.5, 1.2),
                ])
            }
            "critical_rate" => vec![self.terms()],
            "search" | "root" => vec![self.any_terms()],
            "newton_rate" => vec![Arg::One(rate), self.terms()],
            "basket" | "calibrate" => {
                let count = 1 + self.below(6);
                let mut times = Vec::new();
                let mut quotes = Vec::new();
                for place in 1..=count {
                    let (start, end) = (place as f64 * 0.5, place as f64 * 0.5 + 0.5);
                    times.extend([start, end]);
                    let normal = self.below(2);
                    let volatility = if normal == 1 {
                        self.log_between(0.003, 0.02)
                    } else {
                        self.log_between(0.1, 0.6)
                    };
                    quotes.extend([
                        normal as f64,
                        self.between(0.01, 0.05),
                        start,
                        end,
                        volatility,
                    ]);
                }
                vec![Arg::One(alpha), self.curve(&times), Arg::List(quotes)]
            }
            _ => ones(&[self.float()]),
        }
    }
}
