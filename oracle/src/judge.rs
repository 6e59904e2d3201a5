//! The judge: what documents 01 and 02 say the program prints for a run file.
//!
//! Layout, refusals and arithmetic are written here from the two documents, apart
//! from any other program. Every accepted job is then put to the cut-out Rust
//! (`confront.rs`); a single differing bit stops the oracle. With a slip the
//! judge makes that one mistake and asks the Rust nothing.

use crate::confront;
use crate::numbers::Numbers;
pub use crate::slips::SLIPS;
use crate::slips::{self, Slip};
use std::io::Write;

pub struct Outcome {
    /// What the program prints.
    pub printed: Vec<u8>,
    /// The same with a line of detail after each job of kinds 5 to 11.
    pub detail: Vec<u8>,
    /// Kind and answer of each job.
    pub jobs: Vec<(u64, u32)>,
    /// Served fits that did not converge.
    pub unconverged: u32,
    /// Served jobs of kinds 6 and 7 without pillars.
    pub unmoved: u32,
    /// Served jobs with a factor between two points of the curve.
    pub between: u32,
    /// Served jobs of kind 13 whose state's variance is not finite.
    pub overflown: u32,
}

/// The six lists of a run file.
#[derive(Clone, Default, Debug)]
pub struct Run {
    pub alpha: f64,
    pub pillars: Vec<(f64, f64)>,
    pub curve: Vec<(f64, f64)>,
    pub coupons: Vec<(f64, f64, f64)>,
    pub grid: Vec<(f64, f64)>,
    pub jobs: Vec<Job>,
}

#[derive(Clone, Copy, Default, Debug)]
pub struct Job {
    pub kind: u64,
    pub a: f64,
    pub b: f64,
    pub c: f64,
    pub d: f64,
}

/// What a search for the critical rate gives back.
#[derive(Clone, Copy, Default, Debug)]
pub struct Search {
    pub rungs: [u32; 2],
    pub ends: [f64; 2],
    pub sums: [f64; 2],
    pub rate: f64,
    /// The rate after the Newton step; kinds 6 and 7 only.
    pub newton: f64,
}

/// What a fit gives back.
#[derive(Clone, Copy, Default, Debug)]
pub struct Fit {
    pub sigma: f64,
    pub converged: bool,
    pub halvings: u32,
    pub residual: f64,
    pub ends: [f64; 2],
    pub end_residuals: [f64; 2],
}

/// A call's answer: everything that a library call returns. When refused, all
/// but the number is 0 or empty.
#[derive(Clone, Default, Debug)]
pub struct Answer {
    pub code: u32,
    pub value: f64,
    pub search: Search,
    pub fit: Fit,
    pub path: Vec<f64>,
}

/// A refusal's number.
pub type Refusal = u32;

const H: f64 = 1.0 / 365.0;

// ------------------------------------------------------------------ layout

/// Record size and limit of the lists, model first.
const LISTS: [(usize, usize); 6] = [
    (8, 1),
    (16, 64),
    (16, 2048),
    (24, 64),
    (16, 1024),
    (40, 128),
];

fn word(bytes: &[u8], at: usize) -> u64 {
    u64::from_le_bytes(bytes[at..at + 8].try_into().unwrap())
}

fn float(bytes: &[u8], at: usize) -> f64 {
    f64::from_bits(word(bytes, at))
}

/// The lists of a run file, or nothing where it breaks its layout.
pub fn read(bytes: &[u8], slip: Slip) -> Option<Run> {
    let most = if slip == Slip::SizeOpen {
        65_535
    } else {
        65_536
    };
    if bytes.len() > most && slip != Slip::SizeNotLooked {
        return None;
    }
    if bytes.len() < 48 {
        return None;
    }
    let mut lists: [&[u8]; 6] = [&[]; 6];
    let mut from = if slip == Slip::FirstAnywhere {
        0
    } else {
        48_u64
    };
    for (place, (size, limit)) in LISTS.into_iter().enumerate() {
        let pair = word(bytes, 8 * place);
        let (offset, length) = (pair & 0xffff_ffff, pair >> 32);
        if offset < from && !(slip == Slip::OverlapAllowed && place > 0) {
            return None;
        }
        if slip == Slip::GapsRefused && offset != from {
            return None;
        }
        let end = offset + length; // both below 2^32: no wrapping
        if end > bytes.len() as u64 {
            return None;
        }
        let list = &bytes[offset as usize..end as usize];
        if list.len() % size != 0 && slip != Slip::PartRecords {
            return None;
        }
        let count = list.len() / size;
        let limit = match slip {
            Slip::LimitExclusive if place > 0 => limit - 1,
            Slip::Limits65 if place > 0 => limit + 1,
            _ => limit,
        };
        if count > limit || (place == 0 && count != 1) {
            return None;
        }
        lists[place] = list;
        from = end;
    }
    if slip == Slip::TrailingRefused && from != bytes.len() as u64 {
        return None;
    }
    let pairs = |list: &[u8]| -> Vec<(f64, f64)> {
        list.chunks_exact(16)
            .map(|one| (float(one, 0), float(one, 8)))
            .collect()
    };
    let jobs: Vec<Job> = lists[5]
        .chunks_exact(40)
        .map(|one| Job {
            kind: word(one, 0),
            a: float(one, 8),
            b: float(one, 16),
            c: float(one, 24),
            d: float(one, 32),
        })
        .collect();
    let least = if slip == Slip::KindZero { 0 } else { 1 };
    let last = match slip {
        Slip::Kind13Unknown => 12,
        Slip::Kind14Served => 14,
        _ => 13,
    };
    if jobs.iter().any(|job| job.kind < least || job.kind > last) {
        return None;
    }
    Some(Run {
        alpha: float(lists[0], 0),
        pillars: pairs(lists[1]),
        curve: pairs(lists[2]),
        coupons: lists[3]
            .chunks_exact(24)
            .map(|one| (float(one, 0), float(one, 8), float(one, 16)))
            .collect(),
        grid: pairs(lists[4]),
        jobs,
    })
}

// ------------------------------------------------------------------- curve

/// The factor of a curve at a time: "A time on the list keeps its stored factor."
/// Rule 8 "is left for times before the first or after the last point, for a curve
/// without points, and for a factor so found that is not finite."
pub fn factor(n: &Numbers, curve: &[(f64, f64)], time: f64) -> Result<f64, Refusal> {
    // Read along the list; the table curve halves it.
    let at = curve.iter().take_while(|point| point.0 < time).count();
    let (before, after) = curve.split_at(at);
    let listed = match after.first() {
        Some(point) if n.slips(Slip::LookupBits) => point.0.to_bits() == time.to_bits(),
        Some(point) => point.0 == time,
        None => false,
    };
    if listed && !n.slips(Slip::ListedBetween) {
        return Ok(match (before.last(), &after[0], after.get(1)) {
            (Some(one), listed, _) if n.slips(Slip::ListedAsEnd) => between(n, *one, *listed, time),
            (_, listed, Some(two)) if n.slips(Slip::ListedAsStart) => {
                between(n, *listed, *two, time)
            }
            (_, listed, _) => listed.1,
        });
    }
    let after = if listed { &after[1..] } else { after };
    let found = match (before, after) {
        ([.., one], [two, ..]) => between(n, *one, *two, time),
        // Only with the slips that leave a listed time, or serve one outside.
        _ if listed => curve[at].1,
        ([.., one, two], []) if n.slips(Slip::Extrapolated) => between(n, *one, *two, time),
        ([], [one, two, ..]) if n.slips(Slip::ExtrapolatedBack) => between(n, *one, *two, time),
        ([.., last], []) if n.slips(Slip::LastCarriedOut) => last.1,
        ([], [first, ..]) if n.slips(Slip::FirstCarriedBack) => first.1,
        _ => return Err(8),
    };
    let refused = !found.is_finite() && !n.slips(Slip::NotFiniteFactor)
        || found == 0.0 && n.slips(Slip::ZeroFactor)
        || !listed && n.slips(Slip::BetweenRefused);
    if refused {
        Err(8)
    } else {
        Ok(found)
    }
}

/// "exp(ln f0 + w × (ln f1 - ln f0)), where w = (t - t0)/(t1 - t0)"
fn between(n: &Numbers, (t0, f0): (f64, f64), (t1, f1): (f64, f64), t: f64) -> f64 {
    let w = match n.slip {
        Slip::WFromTheOther => (t1 - t) / (t1 - t0),
        _ => (t - t0) / (t1 - t0),
    };
    let (low, high) = (n.ln(f0), n.ln(f1));
    match n.slip {
        Slip::BetweenLinear => f0 + w * (f1 - f0),
        Slip::BetweenNearest => {
            if w > 0.5 {
                f1
            } else {
                f0
            }
        }
        Slip::LastCarriedOn => f0,
        Slip::BetweenHeld => n.exp(low + w * (high - low)).clamp(f0.min(f1), f0.max(f1)),
        Slip::BetweenRatio => n.exp(low + w * n.ln(f1 / f0)),
        Slip::BetweenFromAbove => n.exp(high + ((t1 - t) / (t1 - t0)) * (low - high)),
        Slip::BetweenTwoWeights => n.exp((1.0 - w) * low + w * high),
        Slip::BetweenTimesExp => f0 * n.exp(w * (high - low)),
        Slip::BetweenSlope => n.exp(low + (t - t0) * ((high - low) / (t1 - t0))),
        _ => n.exp(n.plain(Slip::BetweenFused, w, high - low, low)),
    }
}

// ---------------------------------------------------------------- refusals

/// One call under judgement.
pub struct Case<'a> {
    pub run: &'a Run,
    pub job: Job,
    pub n: Numbers,
}

/// One coupon of a swaption as a zero bond: what a search and a price need.
#[derive(Clone, Copy, Debug)]
pub struct Term {
    pub coefficient: f64,
    pub a: f64,
    pub b: f64,
}

/// The rates that a search asked at in its halvings, in order.
pub type Trail = Vec<f64>;

fn strictly_rising(list: &[(f64, f64)], loosely: bool) -> bool {
    list.windows(2)
        .all(|pair| pair[0].0 < pair[1].0 || (loosely && pair[0].0 == pair[1].0))
}

impl Case<'_> {
    fn slips(&self, slip: Slip) -> bool {
        self.n.slips(slip)
    }

    fn uses_pillars(&self) -> bool {
        matches!(self.job.kind, 6 | 7) || self.is_path() || self.slips(Slip::PillarsAlways)
    }

    /// Kinds 12 and 13, and 14 with the slip that lets it in.
    fn is_path(&self) -> bool {
        matches!(self.job.kind, 12..=14)
    }

    /// Document 02, A.6: "Kind 13 is a path whose shift is f + 0.5 × (g × g)".
    fn is_published(&self) -> bool {
        self.is_path() && self.job.kind != 12
    }

    fn uses_coupons(&self) -> bool {
        matches!(self.job.kind, 5 | 6 | 7 | 10 | 11)
    }

    fn uses_own_factors(&self) -> bool {
        matches!(self.job.kind, 6 | 7) || (self.slips(Slip::OwnInFive) && self.uses_coupons())
    }

    /// The fields of the job that its kind uses.
    fn fields(&self) -> Vec<f64> {
        let Job { kind, a, b, c, d } = self.job;
        match kind {
            _ if self.slips(Slip::UnusedFields) => vec![a, b, c, d],
            5 | 10 | 11 => vec![a, b, c],
            12.. => vec![],
            _ => vec![a, b, c, d],
        }
    }

    /// The option time and the times that must lie above it.
    fn times(&self) -> (Option<f64>, Vec<f64>) {
        let Job { kind, a, b, c, .. } = self.job;
        match kind {
            1 | 2 | 8 | 9 => (Some(b), vec![c]),
            3 | 4 => (Some(a), vec![b]),
            5 | 6 | 7 | 10 | 11 => (
                Some(b),
                self.run.coupons.iter().map(|coupon| coupon.0).collect(),
            ),
            _ => (None, vec![]),
        }
    }

    /// The times whose factors the call fetches where it is served.
    fn fetched(&self) -> Vec<f64> {
        let (option, later) = self.times();
        let mut times: Vec<f64> = match self.job.kind {
            5 if later.is_empty() => Vec::new(),
            12.. => self.run.grid.iter().map(|point| point.0).collect(),
            _ => option.into_iter().collect(),
        };
        if matches!(self.job.kind, 5..=7 | 10..) {
            times.extend(times.clone().iter().map(|t| t + H));
        }
        times.extend(later);
        times
    }

    /// Whether the call breaks one of the rules 2 to 7, or 15.
    fn breaks(&self, rule: Refusal) -> bool {
        let run = self.run;
        let Job { kind, a, c, d, .. } = self.job;
        let fit = matches!(kind, 8..=11);
        match rule {
            2 => {
                let mut numbers = vec![run.alpha];
                numbers.extend(self.fields());
                numbers.extend(run.curve.iter().flat_map(|point| [point.0, point.1]));
                if self.uses_pillars() {
                    numbers.extend(run.pillars.iter().flat_map(|pillar| [pillar.0, pillar.1]));
                }
                if self.uses_coupons() {
                    numbers.extend(run.coupons.iter().flat_map(|coupon| [coupon.0, coupon.1]));
                }
                if self.uses_own_factors() {
                    numbers.extend(run.coupons.iter().map(|coupon| coupon.2));
                }
                if self.is_path() {
                    numbers.extend(run.grid.iter().flat_map(|point| [point.0, point.1]));
                }
                numbers.iter().any(|number| !number.is_finite())
            }
            3 => run.alpha < 0.0 || (run.alpha == 0.0 && !self.slips(Slip::AlphaZero)),
            4 => {
                let loosely = self.slips(Slip::LooseRise);
                let falls = |pair: &[(f64, f64)]| {
                    pair[1].0 < pair[0].0
                        || (self.slips(Slip::GridStrict) && pair[1].0 == pair[0].0)
                };
                !strictly_rising(&run.curve, loosely)
                    || (self.uses_pillars() && !strictly_rising(&run.pillars, loosely))
                    || (self.is_path() && run.grid.windows(2).any(falls))
            }
            5 => {
                let (option, later) = self.times();
                let Some(option) = option else {
                    return run.grid.first().is_some_and(|point| point.0 < 0.0);
                };
                let equal_passes = self.slips(Slip::PaymentEqual);
                option < 0.0
                    || later
                        .iter()
                        .any(|time| !(*time > option || (equal_passes && *time == option)))
                    || (fit && option == 0.0 && !self.slips(Slip::FitZeroServed))
                    || (!fit && option == 0.0 && self.slips(Slip::ZeroRefused))
            }
            6 => {
                let zero_refused = self.slips(Slip::SigmaZero);
                let bad_sigma = |sigma: f64| sigma < 0.0 || (zero_refused && sigma == 0.0);
                let bad_job = match kind {
                    1..=4 => bad_sigma(d),
                    5 => bad_sigma(c),
                    6 | 7 => d != 1.0 && d != -1.0 && !self.slips(Slip::SideAny),
                    8 => !(d > 0.0) || !(a > 0.0),
                    9 => !(d > 0.0) || (self.slips(Slip::StrikeNormal) && !(a > 0.0)),
                    10 => !(c > 0.0) || !(a > 0.0),
                    11 => !(c > 0.0) || (self.slips(Slip::StrikeNormal) && !(a > 0.0)),
                    _ => false,
                };
                let bad_own = self.uses_own_factors() && {
                    let own = || run.coupons.iter().map(|coupon| coupon.2);
                    let mixed =
                        own().any(|factor| factor == 0.0) && own().any(|factor| factor != 0.0);
                    own().any(|factor| factor < 0.0) || (mixed && !self.slips(Slip::OwnMixed))
                };
                bad_job
                    || run.curve.iter().any(|point| !(point.1 > 0.0))
                    || (self.uses_pillars() && run.pillars.iter().any(|pillar| bad_sigma(pillar.1)))
                    || bad_own
            }
            7 => {
                let no_coupons = run.coupons.is_empty()
                    && match kind {
                        6 | 7 if self.slips(Slip::CouponsNotNeeded) => false,
                        6 | 7 if self.slips(Slip::EmptyBoth) => run.pillars.is_empty(),
                        5 => self.slips(Slip::EmptyRefused),
                        _ => matches!(kind, 6 | 7 | 10 | 11),
                    };
                // Document 02, A.2, of 6 and 7: "Refusal 7 no longer covers pillars in those
                // kinds".
                let no_pillars = run.pillars.is_empty()
                    && match kind {
                        6 | 7 => self.slips(Slip::PillarsNeeded),
                        12 => !self.slips(Slip::PathUnmoved),
                        _ => self.is_published() && !self.slips(Slip::PublishedUnmoved),
                    };
                no_coupons || no_pillars
            }
            // A.6: "It serves one pillar only", "more than one in kind 13 is refused as 15".
            15 => {
                let most = match self.n.slip {
                    Slip::SeveralPass => 64,
                    Slip::TwoPass => 2,
                    Slip::SeveralWithGrid if run.grid.is_empty() => 64,
                    _ => 1,
                };
                let meets = self.is_published() || (kind == 12 && self.slips(Slip::SeveralIn12));
                meets && run.pillars.len() > most
            }
            _ => unreachable!(),
        }
    }

    /// The rules 2 to 7 in document 01's order, and A.6's 15 directly after them.
    fn check(&self) -> Result<(), Refusal> {
        let mut order = vec![2, 3, 4, 5, 6, 7];
        match self.n.slip {
            Slip::Order23 => order.swap(0, 1),
            Slip::Order34 => order.swap(1, 2),
            Slip::Order45 => order.swap(2, 3),
            Slip::Order56 => order.swap(3, 4),
            Slip::Order67 => order.swap(4, 5),
            _ => {}
        }
        match self.n.slip {
            Slip::SeveralFirst => order.insert(0, 15),
            Slip::SeveralBefore6 => order.insert(4, 15),
            Slip::SeveralBefore7 => order.insert(5, 15),
            Slip::SeveralBehind8 | Slip::SeveralLast => {}
            _ => order.push(15),
        }
        for rule in order {
            if rule == 7 && self.slips(Slip::Order78) && matches!(self.job.kind, 6 | 7 | 10 | 11) {
                self.factor(self.job.b)?;
            }
            if self.breaks(rule) {
                return Err(rule);
            }
        }
        Ok(())
    }

    // ------------------------------------------------ curve and volatility

    /// The curve's factor at a time; rule 8.
    fn factor(&self, time: f64) -> Result<f64, Refusal> {
        factor(&self.n, &self.run.curve, time)
    }

    fn step(&self) -> f64 {
        if self.slips(Slip::StepOf360) {
            1.0 / 360.0
        } else {
            H
        }
    }

    /// The forward rate at t from the factors at t and t + h.
    fn forward(&self, t: f64) -> Result<f64, Refusal> {
        let h = self.step();
        let now = self.factor(t)?;
        let plus = match self.factor(t + h) {
            Err(_) if self.slips(Slip::NoStepNeeded) && !self.is_path() => return Ok(0.0),
            other => other?,
        };
        Ok(-self.n.ln(plus / now) / h)
    }

    /// "The last pillar at or before t, else the first."
    fn volatility(&self, t: f64) -> f64 {
        let before = |time: f64| {
            if self.slips(Slip::VolatilityBefore) {
                time < t
            } else {
                time <= t
            }
        };
        match self
            .run
            .pillars
            .iter()
            .rev()
            .find(|pillar| before(pillar.0))
        {
            Some(pillar) => pillar.1,
            None if self.slips(Slip::VolatilityFirstZero) => 0.0,
            None if self.run.pillars.is_empty() => 0.0, // only with the slip that lets it in
            None => self.run.pillars[0].1,
        }
    }

    /// `hull_white_piecewise_variance` from start to end; 0 where there are no
    /// pillars.
    pub fn variance(&self, start: f64, end: f64) -> f64 {
        let alpha = self.run.alpha;
        let pillars: &[(f64, f64)] = match self.run.pillars.as_slice() {
            [] if self.slips(Slip::NoPillarsMove) => &[(0.0, 0.01)],
            [] if self.slips(Slip::NoPillarsTouch) => &[(0.0, 1e-9)],
            pillars => pillars,
        };
        let mut variance = 0.0;
        for (place, pillar) in pillars.iter().enumerate() {
            let whole = place == 0 && !self.slips(Slip::FirstPillar);
            let lower = if whole || pillar.0 < start {
                start
            } else {
                pillar.0
            };
            let upper = match pillars.get(place + 1) {
                Some(next) if next.0 < end => next.0,
                _ => end,
            };
            if upper <= lower {
                continue;
            }
            let small = if self.slips(Slip::AlphaClosed) {
                alpha.abs() <= 1e-12
            } else {
                alpha.abs() < 1e-12
            };
            let weight = if small {
                upper - lower
            } else {
                let kept = self.n.exp((-2.0 * alpha) * (end - upper));
                let grown = -self.n.exp_m1((-2.0 * alpha) * (upper - lower));
                (kept * grown) / (2.0 * alpha)
            };
            variance = self
                .n
                .plain(Slip::VarianceFused, pillar.1 * pillar.1, weight, variance);
        }
        variance
    }

    // ------------------------------------------------------- model formulas

    /// B(t, T).
    fn b(&self, t: f64, later: f64) -> f64 {
        (1.0 - self.n.exp(-self.run.alpha * (later - t))) / self.run.alpha
    }

    /// 1 - exp(-2 alpha t).
    fn settled(&self, t: f64) -> f64 {
        1.0 - self.n.exp((-2.0 * self.run.alpha) * t)
    }

    /// The model's A from B, the forward and ln(P(0,T)/P(0,t)).
    fn model_a(&self, t: f64, sigma: f64, b: f64, forward: f64, log_ratio: f64) -> f64 {
        let carried = self.n.fused(Slip::ModelAUnfused, b, forward, log_ratio);
        let spread = (((sigma * sigma) / (4.0 * self.run.alpha)) * self.settled(t)) * b;
        self.n
            .exp(self.n.fused(Slip::ModelAUnfused, spread, -b, carried))
    }

    /// Bond volatility of the model.
    fn bond_volatility(&self, sigma: f64, t: f64, later: f64) -> f64 {
        (sigma * self.b(t, later)) * (self.settled(t) / (2.0 * self.run.alpha)).sqrt()
    }

    /// `bond_put_price` and `bond_call_price`.
    fn bond_option(
        &self,
        put: bool,
        t: f64,
        later: f64,
        strike: f64,
        sigma: f64,
    ) -> Result<f64, Refusal> {
        let p_t = self.factor(t)?;
        let p_s = self.factor(later)?;
        let volatility = self.bond_volatility(sigma, t, later);
        let paid = strike * p_t;
        if self.slips(Slip::IntrinsicInModel) && volatility <= 1e-12 {
            let gain = if put { paid - p_s } else { p_s - paid };
            return Ok(if gain > 0.0 { gain } else { 0.0 });
        }
        let log = self.n.ln(p_s / paid);
        let d1 = self
            .n
            .fused(Slip::D1Unfused, 0.5 * volatility, volatility, log)
            / volatility;
        let d2 = d1 - volatility;
        let n = |d: f64| self.n.normal(d);
        Ok(if put {
            self.n
                .fused(Slip::BondUnfused, paid, n(-d2), -(p_s * n(-d1)))
        } else {
            self.n.fused(Slip::BondUnfused, p_s, n(d1), -(paid * n(d2)))
        })
    }

    /// `caplet_price` and `floorlet_price`.
    fn caplet(
        &self,
        cap: bool,
        strike: f64,
        t: f64,
        later: f64,
        sigma: f64,
    ) -> Result<f64, Refusal> {
        let grown = self.n.fused(Slip::CapletUnfused, later - t, strike, 1.0);
        Ok(grown * self.bond_option(cap, t, later, 1.0 / grown, sigma)?)
    }

    // ----------------------------------------------------------- the search

    /// "The priced coupon sum at a rate adds coefficient × A × exp(-B × rate)
    /// over the terms."
    fn coupon_sum(&self, terms: &[Term], rate: f64) -> f64 {
        let mut sum = 0.0;
        for term in terms {
            let priced = term.coefficient * term.a;
            sum = self
                .n
                .plain(Slip::SumFused, priced, self.n.exp(-term.b * rate), sum);
        }
        sum
    }

    /// One ladder: the first good rung with its rate and sum, or none.
    fn ladder(&self, terms: &[Term], lower: bool) -> Result<Option<(u32, f64, f64)>, Refusal> {
        let last = match self.n.slip {
            Slip::Rungs59 => 59,
            Slip::Rungs61 => 61,
            _ => 60,
        };
        let mut rate = if lower { -0.5 } else { 0.5 };
        for rung in 0..=last {
            let sum = self.coupon_sum(terms, rate);
            let good = match self.n.slip {
                Slip::SumBelowOne if lower => !(sum < 1.0),
                Slip::SumBelowOne => !(sum > 1.0),
                _ if sum.is_nan() => return Err(9),
                Slip::LowerOpen if lower => sum > 1.0,
                Slip::UpperOpen if !lower => sum < 1.0,
                _ if lower => sum >= 1.0,
                _ => sum <= 1.0,
            };
            if good {
                return Ok(Some((rung, rate, sum)));
            }
            rate *= 2.0;
        }
        Ok(None)
    }

    /// Ladders, then 200 halvings. `bracket_needed` is false only for the slip
    /// that goes on without one.
    pub fn search(
        &self,
        terms: &[Term],
        bracket_needed: bool,
        trail: &mut Trail,
    ) -> Result<Search, Refusal> {
        let low = self.ladder(terms, true)?;
        if low.is_none() && self.slips(Slip::TenEarly) {
            return Err(10);
        }
        let high = self.ladder(terms, false)?;
        if bracket_needed && (low.is_none() || high.is_none()) {
            return Err(10);
        }
        let lost = |end: f64| (60, end, self.coupon_sum(terms, end));
        let low = low.unwrap_or_else(|| lost(-0.5 * 2f64.powi(60)));
        let high = high.unwrap_or_else(|| lost(0.5 * 2f64.powi(60)));
        let mut found = Search {
            rungs: [low.0, high.0],
            ends: [low.1, high.1],
            sums: [low.2, high.2],
            ..Search::default()
        };
        trail.clear();
        let halvings = if self.slips(Slip::Halvings199) {
            199
        } else {
            200
        };
        while trail.len() < halvings {
            let before = found.ends;
            let middle = self.n.midpoint(found.ends[0], found.ends[1]);
            let sum = self.coupon_sum(terms, middle);
            if sum.is_nan() && !matches!(self.n.slip, Slip::HalvingNan | Slip::SumBelowOne) {
                return Err(9);
            }
            let above = sum > 1.0 || (sum == 1.0 && self.slips(Slip::HalvingClosed));
            let side = if above { 0 } else { 1 };
            found.ends[side] = middle;
            found.sums[side] = sum;
            trail.push(middle);
            if before[side].to_bits() == middle.to_bits() {
                // Nothing moved: every later halving asks the same again.
                trail.resize(halvings, middle);
            }
        }
        found.rate = if self.slips(Slip::RateUpper) {
            found.ends[1]
        } else {
            self.n.midpoint(found.ends[0], found.ends[1])
        };
        Ok(found)
    }

    /// One Newton step; rule 11.
    pub fn newton(&self, terms: &[Term], rate: f64) -> Result<f64, Refusal> {
        let mut objective = -1.0;
        let mut derivative = 0.0;
        for term in terms {
            let bond = term.a * self.n.exp(rate * -term.b);
            objective += bond * term.coefficient;
            derivative -= bond * (term.coefficient * term.b);
        }
        let least = if self.slips(Slip::DerivativeAtMost) {
            1e-13
        } else {
            1e-14
        };
        if derivative.abs() < least && !self.slips(Slip::NoDerivativeCheck) {
            return Err(11);
        }
        Ok(rate - objective / derivative)
    }

    /// The search over given terms, without the Newton step.
    pub fn search_alone(&self, terms: &[Term]) -> Result<Search, Refusal> {
        let found = self.search(terms, true, &mut Vec::new())?;
        let floats = [found.ends, found.sums, [found.rate; 2]];
        if floats.iter().flatten().any(|float| !float.is_finite()) {
            return Err(13);
        }
        Ok(found)
    }

    /// Search and Newton step over given terms.
    pub fn search_and_step(&self, terms: &[Term]) -> Result<Search, Refusal> {
        let mut found = self.search(terms, true, &mut Vec::new())?;
        found.newton = self.newton(terms, found.rate)?;
        let floats = [found.ends, found.sums, [found.rate, found.newton]];
        if floats.iter().flatten().any(|float| !float.is_finite()) {
            return Err(13);
        }
        Ok(found)
    }

    fn coefficient(&self, place: usize, accrual: f64, strike: f64) -> f64 {
        if place + 1 == self.run.coupons.len() {
            self.n.fused(Slip::CoefficientUnfused, accrual, strike, 1.0)
        } else {
            accrual * strike
        }
    }

    // ------------------------------------------- swaption by the model (5)

    /// What does not depend on sigma: rule 8 is met here.
    fn swap(&self, strike: f64, t: f64) -> Result<Swap, Refusal> {
        // NaN stands for a missing one, only with the slip that lets it in.
        let fetched = |factor: Result<f64, Refusal>| match factor {
            Err(_) if self.slips(Slip::MissingIsZero) => Ok(f64::NAN),
            other => other,
        };
        let start = fetched(self.factor(t))?;
        let forward = self.forward(t);
        let no_forward = forward.is_err();
        let forward = fetched(forward)?;
        let b_from = if self.slips(Slip::BFromZero) { 0.0 } else { t };
        let mut legs = Vec::new();
        for (place, coupon) in self.run.coupons.iter().enumerate() {
            let factor = fetched(self.factor(coupon.0))?;
            legs.push(Leg {
                time: coupon.0,
                accrual: coupon.1,
                factor,
                missing: no_forward || factor.is_nan(),
                coefficient: self.coefficient(place, coupon.1, strike),
                b: self.b(b_from, coupon.0),
                log_ratio: self.n.ln(factor / start),
            });
        }
        Ok(Swap {
            t,
            strike,
            start,
            forward,
            legs,
        })
    }

    /// `HullWhite::swaption_price`. `first` is the sigma that a fit asked at first.
    fn model_swaption(
        &self,
        swap: &Swap,
        sigma: f64,
        first: f64,
        trail: &mut Trail,
    ) -> Result<(f64, Search), Refusal> {
        let a = |leg: &Leg, sigma: f64| match leg.missing {
            true => 0.0, // only with the slip that lets it in
            false => self.model_a(swap.t, sigma, leg.b, swap.forward, leg.log_ratio),
        };
        let sigma_of_a = if self.slips(Slip::AOfFirstSigma) {
            first
        } else {
            sigma
        };
        let terms: Vec<Term> = swap
            .legs
            .iter()
            .map(|leg| Term {
                coefficient: leg.coefficient,
                a: a(leg, sigma_of_a),
                b: leg.b,
            })
            .collect();
        let search = self.search(&terms, !self.slips(Slip::ModelNoBracket), trail)?;
        if swap.legs.iter().any(|leg| leg.missing) {
            return Err(8);
        }
        let rate = if self.slips(Slip::NewtonInModel) {
            self.newton(&terms, search.rate)?
        } else {
            search.rate
        };
        let mut total = 0.0;
        for (term, leg) in terms.iter().zip(&swap.legs) {
            let struck = if self.slips(Slip::StrikesOfFirstSigma) {
                a(leg, first)
            } else {
                term.a
            };
            let strike = struck * self.n.exp(-term.b * rate);
            let put = self.bond_option(true, swap.t, leg.time, strike, sigma)?;
            total = self
                .n
                .fused(Slip::TotalUnfused, term.coefficient, put, total);
        }
        Ok((total, search))
    }

    // ------------------------------------- swaption by the pricer (6 and 7)

    /// The pricer's terms; rule 8 is met here.
    pub fn pricer_terms(&self, strike: f64, t: f64, variance: f64) -> Result<Vec<Term>, Refusal> {
        let start = self.factor(t)?;
        let forward = self.forward(t)?;
        let mut terms = Vec::new();
        for (place, coupon) in self.run.coupons.iter().enumerate() {
            let b = self.b(t, coupon.0);
            let log_ratio = self.n.ln(self.factor(coupon.0)? / start);
            let carried = self.n.plain(Slip::PricerAFused, forward, b, log_ratio);
            let spread = (0.5 * b) * b;
            let log_a = if self.slips(Slip::PricerAFused) {
                variance.mul_add(-spread, carried)
            } else {
                carried - variance * spread
            };
            let coefficient = self.coefficient(place, coupon.1, strike);
            terms.push(Term {
                coefficient,
                a: self.n.exp(log_a),
                b,
            });
        }
        Ok(terms)
    }

    fn pricer_option(
        &self,
        payer: bool,
        volatility: f64,
        strike: f64,
        start: f64,
        bond: f64,
    ) -> f64 {
        let paid = strike * start;
        let small = if self.slips(Slip::IntrinsicOpen) {
            volatility < 1e-12
        } else {
            volatility <= 1e-12
        };
        if small {
            let gain = if payer { paid - bond } else { bond - paid };
            return if gain > 0.0 { gain } else { 0.0 };
        }
        let d1 = (self.n.ln(bond / paid) + (volatility * volatility) * 0.5) / volatility;
        let d2 = d1 - volatility;
        let n = |d: f64| self.n.normal_dual(d);
        if payer {
            paid * n(-d2) - bond * n(-d1)
        } else {
            bond * n(d1) - paid * n(d2)
        }
    }

    /// `swaption_value`.
    fn pricer_swaption(&self, trail: &mut Trail) -> Result<(f64, Search), Refusal> {
        let Job {
            kind,
            a: strike,
            b: t,
            c: notional,
            d: side,
        } = self.job;
        let variance = self.variance(0.0, t);
        let deviation = if variance > 0.0 { variance.sqrt() } else { 0.0 };
        let terms = self.pricer_terms(strike, t, variance)?;
        let mut search = self.search(&terms, true, trail)?;
        search.newton = self.newton(&terms, search.rate)?;
        let rate = if self.slips(Slip::NoNewton) {
            search.rate
        } else {
            search.newton
        };
        let start = self.factor(t)?;
        let own_used =
            self.run.coupons.iter().any(|coupon| coupon.2 != 0.0) && !self.slips(Slip::OwnIgnored);
        let mut value = 0.0;
        for (term, coupon) in terms.iter().zip(&self.run.coupons) {
            let bond = self.factor(coupon.0)?;
            let strike = term.a * self.n.exp(rate * -term.b);
            let mut part = self.pricer_option(kind == 6, deviation * term.b, strike, start, bond);
            if own_used && coupon.2 != 0.0 {
                part = if self.slips(Slip::OwnOrder) {
                    part * (coupon.2 / bond)
                } else {
                    (part * coupon.2) / bond
                };
            }
            value = self
                .n
                .plain(Slip::PricerTotalFused, part, term.coefficient, value);
        }
        if self.slips(Slip::OptionOnSwap) && self.run.pillars.is_empty() && value < 0.0 {
            value = 0.0;
        }
        if self.slips(Slip::SideFirst) {
            return Ok((value * (notional * side), search));
        }
        Ok(((value * notional) * side, search))
    }

    // ----------------------------------------------------------------- fits

    /// Undiscounted call at the quoted volatility, Black's or Bachelier's.
    fn call(&self, normal: bool, forward: f64, strike: f64, volatility: f64, t: f64) -> f64 {
        let root = t.sqrt();
        if normal {
            let spread = volatility * root;
            let gain = forward - strike;
            let d = gain / spread;
            return self.n.fused(
                Slip::NormalCallUnfused,
                gain,
                self.n.normal(d),
                spread * self.n.norm_pdf(d),
            );
        }
        let log = self.n.ln(forward / strike) / (volatility * root);
        let d1 = (0.5 * volatility).mul_add(root, log);
        let d2 = self.n.fused(Slip::BlackD2Unfused, volatility, -root, d1);
        let paid = strike * self.n.normal(d2);
        self.n
            .fused(Slip::BlackUnfused, forward, self.n.normal(d1), -paid)
    }

    /// The market price of a caplet.
    fn caplet_market(&self, one: &Caplet) -> Result<f64, Refusal> {
        let (p_t, p_s) = (self.factor(one.start)?, self.factor(one.end)?);
        let span = one.end - one.start;
        let forward = (p_t / p_s - 1.0) / span;
        Ok((p_s * span) * self.call(one.normal, forward, one.strike, one.volatility, one.start))
    }

    /// The market price of the listed swap's option.
    fn swap_market(&self, swap: &Swap, normal: bool, volatility: f64) -> f64 {
        let mut annuity = 0.0;
        for leg in &swap.legs {
            annuity = self
                .n
                .fused(Slip::AnnuityUnfused, leg.accrual, leg.factor, annuity);
        }
        let mut last = swap.legs[swap.legs.len() - 1];
        if self.slips(Slip::SwapEnd) {
            for leg in &swap.legs {
                if leg.time > last.time {
                    last = *leg;
                }
            }
        }
        let forward = (swap.start - last.factor) / annuity;
        annuity * self.call(normal, forward, swap.strike, volatility, swap.t)
    }

    /// `Bisection::solve` from 1e-8 to 2.0. `asked` receives every sigma with
    /// its residual, in order.
    fn solve(
        &self,
        objective: &mut dyn FnMut(f64) -> Result<f64, Refusal>,
        asked: &mut Vec<(f64, f64)>,
    ) -> Result<Fit, Refusal> {
        asked.clear();
        let mut residual = |sigma: f64, asked: &mut Vec<(f64, f64)>| -> Result<f64, Refusal> {
            let value = objective(sigma)?;
            asked.push((sigma, value));
            if value.is_nan() && !self.slips(Slip::FitNan) {
                return Err(9);
            }
            Ok(value)
        };
        let mut ends = [if self.slips(Slip::FitLow) { 1e-9 } else { 1e-8 }, 2.0];
        let mut values = [residual(ends[0], asked)?, residual(ends[1], asked)?];
        let equal_signs = |one: f64, other: f64| {
            if self.slips(Slip::ProductSigns) {
                one * other > 0.0
            } else {
                self.n.signum(one) == self.n.signum(other)
            }
        };
        if equal_signs(values[0], values[1]) {
            return Err(12);
        }
        let last = if self.slips(Slip::FitHalvings199) {
            199
        } else {
            200
        };
        let mut latest = 0.0;
        for halving in 1..=last {
            let middle = self.n.midpoint(ends[0], ends[1]);
            // A sigma asked before has the residual it had.
            let known = (0..2).find(|side| ends[*side].to_bits() == middle.to_bits());
            let value = match known {
                Some(side) => {
                    asked.push((middle, values[side]));
                    values[side]
                }
                None => residual(middle, asked)?,
            };
            latest = value;
            let side = if equal_signs(value, values[0]) { 0 } else { 1 };
            let close =
                value.abs() < 1e-12 || (self.slips(Slip::ToleranceClosed) && value.abs() == 1e-12);
            if close && !self.slips(Slip::FitEndsMoved) {
                return Ok(Fit {
                    sigma: middle,
                    converged: true,
                    halvings: halving,
                    residual: value,
                    ends,
                    end_residuals: values,
                });
            }
            ends[side] = middle;
            values[side] = value;
            if close {
                return Ok(Fit {
                    sigma: middle,
                    converged: true,
                    halvings: halving,
                    residual: value,
                    ends,
                    end_residuals: values,
                });
            }
        }
        let middle = self.n.midpoint(ends[0], ends[1]);
        let value = residual(middle, asked)?;
        Ok(Fit {
            sigma: middle,
            converged: false,
            halvings: last,
            residual: if self.slips(Slip::FitResidualOld) {
                latest
            } else {
                value
            },
            ends,
            end_residuals: values,
        })
    }

    /// One caplet fitted: kinds 8 and 9, and each entry of a basket.
    pub fn fit_caplet(&self, one: &Caplet, asked: &mut Vec<(f64, f64)>) -> Result<Fit, Refusal> {
        let market = self.caplet_market(one)?;
        let fit = self.solve(
            &mut |sigma| Ok(self.caplet(true, one.strike, one.start, one.end, sigma)? - market),
            asked,
        )?;
        self.finite_fit(fit)
    }

    fn fit_swaption(&self, normal: bool, asked: &mut Vec<(f64, f64)>) -> Result<Fit, Refusal> {
        let Job {
            a: strike,
            b: t,
            c: volatility,
            ..
        } = self.job;
        let swap = self.swap(strike, t)?;
        let market = self.swap_market(&swap, normal, volatility);
        let mut trail = Vec::new();
        let mut inner_infinite = false;
        let mut first = None;
        let fit = self.solve(
            &mut |sigma| {
                if self.slips(Slip::MarketFirst) && market.is_nan() {
                    return Err(9);
                }
                let first = *first.get_or_insert(sigma);
                let (model, search) = self.model_swaption(&swap, sigma, first, &mut trail)?;
                inner_infinite |= search.sums.iter().any(|sum| !sum.is_finite());
                Ok(model - market)
            },
            asked,
        )?;
        if inner_infinite && self.slips(Slip::InnerSums) {
            return Err(13);
        }
        self.finite_fit(fit)
    }

    /// Rule 13 for a fit.
    fn finite_fit(&self, fit: Fit) -> Result<Fit, Refusal> {
        let mut floats = vec![fit.sigma, fit.residual, fit.ends[0], fit.ends[1]];
        if !self.slips(Slip::ResidualsNotLooked) {
            floats.extend(fit.end_residuals);
        }
        if floats.iter().all(|float| float.is_finite()) {
            Ok(fit)
        } else {
            Err(13)
        }
    }

    // ----------------------------------------------------------------- path

    /// The points of a path, kind 12's as in `generate`.
    fn path(&self) -> Result<Vec<f64>, Refusal> {
        let too = self.slips(Slip::PublishedRustToo) && self.run.pillars.len() == 1;
        if self.is_published() || too {
            self.walk(|place| self.published_rate(place))
        } else {
            self.walk(|place| self.rust_rate(place))
        }
    }

    /// The walk that both kinds of path share: a rate for each of its places. Confronting
    /// kind 13 goes by it with kind 12's rate.
    pub fn walk(&self, rate: impl Fn(&Place) -> f64) -> Result<Vec<f64>, Refusal> {
        let alpha = self.run.alpha;
        let mut points = Vec::new();
        let (mut state, mut before, mut variance) = (0.0, 0.0, 0.0);
        for &(t, draw) in &self.run.grid {
            let dt = t - before;
            let sigma = self.volatility(t);
            let decay = self.n.exp((-2.0 * alpha) * dt);
            let gained = ((sigma * sigma) * (1.0 - decay)) / (2.0 * alpha);
            variance = self
                .n
                .fused(Slip::PathVarianceUnfused, variance, decay, gained);
            let shock = (draw * sigma) * dt.sqrt();
            state += self
                .n
                .fused(Slip::PathStepUnfused, -alpha * state, dt, shock);
            let forward = self.forward(t)?;
            points.push(rate(&Place {
                t,
                before,
                sigma,
                state,
                variance,
                forward,
            }));
            if self.slips(Slip::PathEarly) && !points[points.len() - 1].is_finite() {
                return Err(13);
            }
            before = t;
        }
        Ok(points)
    }

    /// Kind 12: "the shift is the forward plus half the state variance, as in `generate`".
    pub fn rust_rate(&self, place: &Place) -> f64 {
        let shift = if self.slips(Slip::PathNoShift) {
            place.forward
        } else {
            self.n
                .fused(Slip::PathShiftUnfused, 0.5, place.variance, place.forward)
        };
        place.state + shift
    }

    /// Kind 13: the state plus "f + 0.5 × (g × g)", each product and the sum rounded by
    /// itself. The state's variance is none of it.
    fn published_rate(&self, place: &Place) -> f64 {
        let (x, f, g) = (place.state, place.forward, self.published_g(place));
        let shift = match self.n.slip {
            Slip::PublishedState => 0.5f64.mul_add(place.variance, f),
            Slip::PublishedNoShift => f,
            Slip::PublishedSquareFused => (0.5 * g).mul_add(g, f),
            Slip::PublishedHalfFirst => f + (0.5 * g) * g,
            Slip::PublishedWhole => f + g * g,
            Slip::PublishedPlain => f + 0.5 * g,
            Slip::PublishedOneSum => return (x + f) + 0.5 * (g * g),
            Slip::PublishedVariance if !place.variance.is_finite() => f64::NAN,
            _ => self.n.plain(Slip::PublishedHalfFused, 0.5, g * g, f),
        };
        x + shift
    }

    /// "g = (sigma/alpha) × (1 - exp((-alpha) × t))"
    fn published_g(&self, place: &Place) -> f64 {
        let (alpha, sigma) = (self.run.alpha, place.sigma);
        let t = match self.n.slip {
            Slip::PublishedStep => place.t - place.before,
            Slip::PublishedLater => place.t + self.step(),
            _ => place.t,
        };
        let exponent = match self.n.slip {
            Slip::PublishedTwice => (-2.0 * alpha) * t,
            Slip::PublishedMinus => -(alpha * t),
            _ => (-alpha) * t,
        };
        let (rate, kept) = (sigma / alpha, self.n.exp(exponent));
        match self.n.slip {
            Slip::PublishedExpM1 => rate * -self.n.exp_m1(exponent),
            Slip::PublishedB => sigma * self.b(0.0, t),
            Slip::PublishedDivided => (sigma * (1.0 - kept)) / alpha,
            Slip::PublishedSpread => rate - rate * kept,
            Slip::PublishedSpreadFused => (-rate).mul_add(kept, rate),
            _ => rate * (1.0 - kept),
        }
    }

    // --------------------------------------------------------------- a call

    /// The caplet of kinds 8 and 9.
    pub fn job_caplet(&self) -> Caplet {
        let Job { kind, a, b, c, d } = self.job;
        Caplet {
            normal: kind == 9,
            strike: a,
            start: b,
            end: c,
            volatility: d,
        }
    }

    /// The whole call. The trail of its search or fit is left in `trace`.
    pub fn answer(&self, trace: &mut Trace) -> Answer {
        match self.served(trace) {
            Ok(answer) => answer,
            Err(code) => Answer {
                code,
                ..Answer::default()
            },
        }
    }

    fn served(&self, trace: &mut Trace) -> Result<Answer, Refusal> {
        let Job { kind, a, b, c, d } = self.job;
        let empty_swap = kind == 5 && self.run.coupons.is_empty();
        if kind == 0 {
            return Err(1); // only with the slip that lets it in
        }
        let empty_grid = self.is_published() && self.run.grid.is_empty();
        if empty_swap && self.slips(Slip::EmptyUnchecked)
            || empty_grid && self.slips(Slip::PublishedUnchecked)
        {
            return Ok(Answer::default());
        }
        self.check()?;
        let mut answer = Answer::default();
        match kind {
            1 | 2 => answer.value = self.caplet(kind == 1, a, b, c, d)?,
            3 | 4 => answer.value = self.bond_option(kind == 3, a, b, c, d)?,
            5 if empty_swap => {
                if self.slips(Slip::EmptyNeedsTime) {
                    self.factor(b)?;
                }
            }
            5 => {
                let swap = self.swap(a, b)?;
                (answer.value, answer.search) =
                    self.model_swaption(&swap, c, c, &mut trace.trail)?;
            }
            6 | 7 => (answer.value, answer.search) = self.pricer_swaption(&mut trace.trail)?,
            8 | 9 => answer.fit = self.fit_caplet(&self.job_caplet(), &mut trace.asked)?,
            10 | 11 => answer.fit = self.fit_swaption(kind == 11, &mut trace.asked)?,
            _ => answer.path = self.path()?,
        }
        if self.slips(Slip::SeveralBehind8) && self.breaks(15) {
            return Err(15);
        }
        if matches!(kind, 8..=11) {
            answer.value = answer.fit.sigma;
        }
        // Rule 13.
        let Search {
            ends,
            sums,
            rate,
            newton,
            ..
        } = answer.search;
        let mut floats = vec![answer.value, rate, ends[0], ends[1]];
        if !self.slips(Slip::SumsNotLooked) {
            floats.extend(sums);
        }
        if !self.slips(Slip::NewtonNotLooked) {
            floats.push(newton);
        }
        floats.extend(&answer.path);
        if floats.iter().any(|float| !float.is_finite()) {
            return Err(13);
        }
        if self.slips(Slip::SeveralLast) && self.breaks(15) {
            return Err(15);
        }
        Ok(answer)
    }
}

/// Where a path is at a grid time: the time and the one before it, the volatility looked
/// up there, the state with its variance, and the forward.
pub struct Place {
    t: f64,
    before: f64,
    sigma: f64,
    state: f64,
    pub variance: f64,
    forward: f64,
}

/// A swap under option, with what does not depend on sigma.
struct Swap {
    t: f64,
    strike: f64,
    start: f64,
    forward: f64,
    legs: Vec<Leg>,
}

#[derive(Clone, Copy)]
struct Leg {
    time: f64,
    accrual: f64,
    factor: f64,
    missing: bool,
    coefficient: f64,
    b: f64,
    log_ratio: f64,
}

/// A caplet quote to fit.
#[derive(Clone, Copy, Debug, Default)]
pub struct Caplet {
    pub normal: bool,
    pub strike: f64,
    pub start: f64,
    pub end: f64,
    pub volatility: f64,
}

/// Where a search or a fit has been.
#[derive(Default)]
pub struct Trace {
    pub trail: Trail,
    pub asked: Vec<(f64, f64)>,
}

// ------------------------------------------------------------------ basket

/// A basket's answer; every list has one place for each caplet.
#[derive(Default, Debug)]
pub struct Basket {
    pub code: u32,
    pub fits: Vec<Fit>,
    pub bumped: Vec<Fit>,
    pub diagonal: Vec<f64>,
    /// A bumped fit is what refuses it.
    pub bumping: bool,
}

/// "All fits run, then all bumped fits, 13 being met at each one's end; the
/// first refusal refuses the basket." Rules 1 to 7 look at all entries first.
pub fn basket(alpha: f64, curve: &[(f64, f64)], entries: &[Caplet], n: Numbers) -> Basket {
    let mut bumping = false;
    match served_basket(alpha, curve, entries, n, &mut bumping) {
        Ok(basket) => {
            if n.slip == Slip::Nothing {
                confront::basket(alpha, curve, entries, &basket);
            }
            basket
        }
        Err(code) => Basket {
            code,
            bumping,
            ..Basket::default()
        },
    }
}

/// `bumping` is set once all fits are served.
fn served_basket(
    alpha: f64,
    curve: &[(f64, f64)],
    entries: &[Caplet],
    n: Numbers,
    bumping: &mut bool,
) -> Result<Basket, Refusal> {
    if entries.len() > 64 || curve.len() > 2048 {
        return Err(1);
    }
    let run = Run {
        alpha,
        curve: curve.to_vec(),
        ..Run::default()
    };
    let case = |one: &Caplet| Case {
        run: &run,
        job: Job {
            kind: if one.normal { 9 } else { 8 },
            a: one.strike,
            b: one.start,
            c: one.end,
            d: one.volatility,
        },
        n,
    };
    // The lowest number that any entry breaks; with no entries alpha and the
    // curve are still looked at.
    let nobody = Case {
        run: &run,
        job: Job {
            kind: 12,
            ..Job::default()
        },
        n,
    };
    for rule in 2..=6 {
        if nobody.breaks(rule) || entries.iter().any(|one| case(one).breaks(rule)) {
            return Err(rule);
        }
    }
    let mut asked = Vec::new();
    let mut basket = Basket::default();
    for one in entries {
        basket.fits.push(case(one).fit_caplet(one, &mut asked)?);
    }
    *bumping = true;
    for (one, fit) in entries.iter().zip(&basket.fits) {
        let bumped = Caplet {
            volatility: one.volatility + 1e-6,
            ..*one
        };
        let bumped_fit = case(one).fit_caplet(&bumped, &mut asked)?;
        let diagonal = (bumped_fit.sigma - fit.sigma) / 1e-6;
        if !diagonal.is_finite() {
            return Err(13);
        }
        basket.bumped.push(bumped_fit);
        basket.diagonal.push(diagonal);
    }
    Ok(basket)
}

// ---------------------------------------------------------------- printing

/// Judges a run file. Panics where the judge and the cut-out Rust disagree on
/// an accepted job, and where `slip` is no slip's name.
pub fn judge(bytes: &[u8], slip: Option<&str>) -> Outcome {
    let slip = match slip {
        None => Slip::Nothing,
        Some(name) => {
            slips::named(name).unwrap_or_else(|| panic!("oracle: no slip is named {name}"))
        }
    };
    let mut outcome = Outcome {
        printed: Vec::new(),
        detail: Vec::new(),
        jobs: Vec::new(),
        unconverged: 0,
        unmoved: 0,
        between: 0,
        overflown: 0,
    };
    let header: &[u8] = b"job kind answer value note\n";
    let Some(run) = read(bytes, slip) else {
        if slip == Slip::HeaderOnRefusal {
            outcome.printed.extend(header);
        }
        outcome.printed.extend(b"refused 1\n");
        outcome.detail = outcome.printed.clone();
        return outcome;
    };
    outcome.printed.extend(header);
    outcome.detail.extend(header);
    let mut trace = Trace::default();
    for (number, &job) in run.jobs.iter().enumerate() {
        let case = Case {
            run: &run,
            job,
            n: Numbers { slip },
        };
        let answer = case.answer(&mut trace);
        if slip == Slip::Nothing && answer.code == 0 {
            if let Err(what) = confront::job(&case, &answer, &trace) {
                panic!(
                    "oracle: the judge and the Rust disagree: job {number}, kind {}: {what}",
                    job.kind
                );
            }
        }
        let start = outcome.printed.len();
        print_job(&mut outcome.printed, number, &case, &answer);
        outcome.detail.extend_from_slice(&outcome.printed[start..]);
        print_detail(&mut outcome.detail, &case, &answer);
        outcome.jobs.push((job.kind, answer.code));
        if answer.code == 0 && matches!(job.kind, 8..=11) && !answer.fit.converged {
            outcome.unconverged += 1;
        }
        if answer.code == 0 && matches!(job.kind, 6 | 7) && run.pillars.is_empty() {
            outcome.unmoved += 1;
        }
        let unlisted = |time: &f64| run.curve.iter().all(|point| point.0 != *time);
        if answer.code == 0 && case.fetched().iter().any(unlisted) {
            outcome.between += 1;
        }
        if answer.code == 0 && job.kind == 13 {
            let variances = case.walk(|place| place.variance).unwrap_or_default();
            outcome.overflown += u32::from(variances.iter().any(|one| !one.is_finite()));
        }
    }
    outcome
}

fn print_job(out: &mut Vec<u8>, number: usize, case: &Case, answer: &Answer) {
    let kind = match case.job.kind {
        13 if case.slips(Slip::PublishedColumn) => 12,
        kind => kind,
    };
    let empty = case.job.kind == 13 && case.run.grid.is_empty() && answer.code == 0;
    if empty && case.slips(Slip::PublishedSilent) {
        return;
    }
    let mut line = |value: f64, note: u32| {
        writeln!(
            out,
            "{number} {kind} {} {:016x} {note}",
            answer.code,
            value.to_bits()
        )
        .unwrap();
    };
    if !answer.path.is_empty() {
        let from = if case.slips(Slip::PathNote) { 1 } else { 0 };
        for (point, value) in answer.path.iter().enumerate() {
            line(*value, point as u32 + from);
        }
        return;
    }
    let note = match answer.fit {
        fit if fit.converged && case.slips(Slip::NoteMinusOne) => fit.halvings - 1,
        fit if fit.converged || case.slips(Slip::NoteUnconverged) => fit.halvings,
        _ => 0,
    };
    line(answer.value, note);
}

/// What the library returns and the program does not print: for kinds 5, 6, 7
/// both rungs, both final ends, both sums, the rate (and in 6 and 7 the rate
/// after the Newton step); for fits the status (1 converged), the halvings,
/// the residual, the last ends and their residuals.
fn print_detail(out: &mut Vec<u8>, case: &Case, answer: &Answer) {
    let hex = |float: f64| format!("{:016x}", float.to_bits());
    match case.job.kind {
        kind @ 5..=7 => {
            let Search {
                rungs,
                ends,
                sums,
                rate,
                newton,
            } = answer.search;
            write!(
                out,
                "  rungs {} {} ends {} {} sums {} {} rate {}",
                rungs[0],
                rungs[1],
                hex(ends[0]),
                hex(ends[1]),
                hex(sums[0]),
                hex(sums[1]),
                hex(rate)
            )
            .unwrap();
            if kind != 5 {
                write!(out, " newton {}", hex(newton)).unwrap();
            }
            out.push(b'\n');
        }
        8..=11 => {
            let Fit {
                converged,
                halvings,
                residual,
                ends,
                end_residuals,
                ..
            } = answer.fit;
            writeln!(
                out,
                "  status {} halvings {halvings} residual {} ends {} {} residuals {} {}",
                u32::from(converged),
                hex(residual),
                hex(ends[0]),
                hex(ends[1]),
                hex(end_residuals[0]),
                hex(end_residuals[1])
            )
            .unwrap();
        }
        _ => {}
    }
}
