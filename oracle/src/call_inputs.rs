//! Calls from a seed.
//!
//! Arguments of kinds are the jobs of generated run files (`generate.rs`), those
//! of baskets `baskets.rs` has, those of the critical rate `calls.rs`; the rest is
//! made here. Upon these come faults aimed at a rule, one or two, among them those
//! that no run file can hold: lists over their limits, unpaired lists, an output
//! that is too short.

use crate::abi::{self, Arg, Call, Kind, FUNCTIONS};
use crate::baskets;
use crate::call_rules::{groups, is_path, kind, listed, with_pieces, PIECE_BYTES};
use crate::calls::{self, Dice};
use crate::draws;
use crate::elementary::exp;
use crate::generate;
use crate::judge::{self, Case, Job, Run, Trace};
use crate::numbers::Numbers;
use crate::slips::Slip;
use std::collections::{BTreeMap, VecDeque};
use std::rc::Rc;

const H: f64 = 1.0 / 365.0;
const TINY: f64 = 5e-324;

/// How many of some 1,000 calls are of a function: few of what takes long.
fn weight(name: &str) -> u64 {
    match name {
        "calibrate_to_instruments" => 18,
        "fit_caplet_black" | "fit_caplet_normal" | "fit_swaption_black" | "fit_swaption_normal" => {
            24
        }
        "swaption_price" | "payer_swaption_value" | "receiver_swaption_value" | "generate" => 28,
        "generate_published" | "generate_seeded" | "generate_published_seeded" => 40,
        "find_critical_rate" | "implicit_critical_rate" | "transition_variances" | "piece" => 26,
        _ if FUNCTIONS
            .iter()
            .any(|function| function.name == name && function.is_ground()) =>
        {
            18
        }
        _ => 28,
    }
}

pub struct Inputs {
    seed: u64,
    dice: Dice,
    total: u64,
    drawn: u64,
    next_file: u64,
    next_basket: u64,
    /// Jobs by kind, those of a rare category apart.
    jobs: BTreeMap<(u64, &'static str), VecDeque<(Rc<Run>, Job)>>,
    /// How often a function was planted a fault, and each rule of it.
    plans: BTreeMap<usize, usize>,
    turns: BTreeMap<(usize, u64), usize>,
    pieces: VecDeque<Call>,
    written_terms: BTreeMap<usize, usize>,
    /// The call's terms are written by hand, and stay so.
    as_written: bool,
}

impl Inputs {
    pub fn new(seed: u64) -> Inputs {
        Inputs {
            seed,
            dice: Dice::new(seed ^ 0x6361_6c6c_7300),
            total: FUNCTIONS.iter().map(|function| weight(function.name)).sum(),
            drawn: 0,
            next_file: 0,
            next_basket: 0,
            jobs: BTreeMap::new(),
            plans: BTreeMap::new(),
            turns: BTreeMap::new(),
            pieces: VecDeque::new(),
            written_terms: BTreeMap::new(),
            as_written: false,
        }
    }

    /// The function of the next call: all in turn at first.
    pub fn function(&mut self) -> usize {
        self.drawn += 1;
        if self.drawn <= 8 * FUNCTIONS.len() as u64 {
            return (self.drawn - 1) as usize % FUNCTIONS.len();
        }
        let mut place = self.dice.below(self.total);
        for (function, row) in FUNCTIONS.iter().enumerate() {
            let weight = weight(row.name);
            if place < weight {
                return function;
            }
            place -= weight;
        }
        unreachable!("the weights add up to the total")
    }

    /// A call of that function; with `sound` no fault is planted.
    pub fn call(&mut self, function: usize, sound: bool) -> Call {
        self.as_written = false;
        let mut call = self.base(function);
        if call.table().is_ground() || call.name() == "piece" || sound || self.as_written {
            return call;
        }
        match self.dice.below(16) {
            0..=5 => {}
            6..=7 => odd(&mut self.dice, &mut call),
            _ => self.plant(&mut call),
        }
        call
    }

    /// The next faults in turn: of one rule, of a rule and the next, of a rule and
    /// any other.
    fn plant(&mut self, call: &mut Call) {
        let rules = rules(call.name());
        let plan = self.plans.entry(call.function).or_default();
        let at = *plan % rules.len();
        let second = match *plan / rules.len() % 5 {
            1 | 3 => rules.get(at + 1),
            4 => Some(pick(&mut self.dice, &rules)),
            _ => None,
        };
        *plan += 1;
        for rule in [Some(&rules[at]), second].into_iter().flatten() {
            let turn = self.turns.entry((call.function, *rule)).or_default();
            *turn += 1;
            fault(&mut self.dice, call, *rule, *turn);
        }
    }

    fn base(&mut self, function: usize) -> Call {
        let name = FUNCTIONS[function].name;
        if let Some(other) = listed(name) {
            // A seed in place of the draws.
            let mut call = self.base(abi::named(other).unwrap());
            call.function = function;
            call.args[6] = Arg::Size(seed(&mut self.dice));
            return call;
        }
        let args = match name {
            "piece" => return self.piece(function),
            "draws" => {
                let count = match self.dice.below(8) {
                    0 => *pick(&mut self.dice, &[0, 1, draws::MOST - 1, draws::MOST]),
                    1 => self.dice.below(draws::MOST as u64) as usize,
                    _ => self.dice.below(40) as usize,
                };
                vec![Arg::Size(seed(&mut self.dice)), Arg::Room(count)]
            }
            "calibrate_to_instruments" => self.basket(),
            "find_critical_rate" | "implicit_critical_rate" => self.terms(function),
            _ => match kind(name) {
                // Kinds that are cheap to make are made here as well.
                Some(1..=4 | 8 | 9 | 12 | 13) if self.dice.below(3) == 0 => {
                    made(&mut self.dice, name)
                }
                Some(kind) => self.job(kind),
                None => made(&mut self.dice, name),
            },
        };
        let mut call = Call { function, args };
        // Most files have several pillars, of which kind 13 serves one.
        if name == "generate_published" && call.length(1) > 1 && self.dice.below(4) > 0 {
            keep_one(&mut self.dice, &mut call);
        }
        call
    }

    // ------------------------------------------------ from the other makers

    /// The next job of that kind in generated run files, now and then in those of a
    /// rare category.
    fn job(&mut self, kind: u64) -> Vec<Arg> {
        let categories = rare(kind);
        let mut rare = match self.dice.below(8) {
            0 | 1 if !categories.is_empty() => *pick(&mut self.dice, categories),
            2 | 3 => *pick(&mut self.dice, CURVES),
            _ => "",
        };
        loop {
            if let Some((run, job)) = self
                .jobs
                .get_mut(&(kind, rare))
                .and_then(VecDeque::pop_front)
            {
                return arguments(&run, &job);
            }
            let bytes = if rare.is_empty() {
                generate::generate(self.seed, self.next_file, generate::Files::All).0
            } else {
                generate::of_category(rare, self.seed, self.next_file)
            };
            self.next_file += 1;
            let Some(run) = judge::read(&bytes, Slip::Nothing) else {
                continue;
            };
            let run = Rc::new(run);
            for job in &run.jobs {
                let waiting = self.jobs.entry((job.kind, rare)).or_default();
                // Of fits that overflow those that are refused for it come first; files
                // of many jobs of one kind do not crowd out the others.
                let common =
                    rare == OVERFLOWING && !overflows(&run, job) && self.dice.below(24) > 0;
                if waiting.len() < 400 && !common {
                    waiting.push_back((Rc::clone(&run), *job));
                }
            }
            // A category without jobs of this kind; those about curves have them now and then.
            if !run.jobs.iter().any(|job| job.kind == kind) && !CURVES.contains(&rare) {
                rare = "";
            }
        }
    }

    fn basket(&mut self) -> Vec<Arg> {
        let mut ask = baskets::request(self.seed, self.next_basket);
        self.next_basket += 1;
        if self.dice.below(6) == 0 {
            // Fits whose end residuals overflow: a basket meets 13 by one of them.
            let bytes = generate::of_category(OVERFLOWING, self.seed, self.next_basket);
            let run = judge::read(&bytes, Slip::Nothing).expect("a sound file");
            let from = run.jobs.iter().position(|job| overflows(&run, job));
            let from = from.unwrap_or(self.dice.below(run.jobs.len() as u64) as usize);
            let quotes = run
                .jobs
                .iter()
                .skip(from)
                .take(1 + self.dice.below(2) as usize);
            ask.entries = quotes
                .map(|job| judge::Caplet {
                    normal: job.kind == 9,
                    strike: job.a,
                    start: job.b,
                    end: job.c,
                    volatility: job.d,
                })
                .collect();
            (ask.alpha, ask.curve) = (run.alpha, run.curve);
        }
        let entries =
            |field: fn(&judge::Caplet) -> f64| Arg::Floats(ask.entries.iter().map(field).collect());
        vec![
            Arg::Number(ask.alpha),
            Arg::Floats(ask.curve.iter().map(|point| point.0).collect()),
            Arg::Floats(ask.curve.iter().map(|point| point.1).collect()),
            Arg::Bools(ask.entries.iter().map(|one| one.normal).collect()),
            entries(|one| one.strike),
            entries(|one| one.start),
            entries(|one| one.end),
            entries(|one| one.volatility),
        ]
    }

    /// Random terms, and now and then the next of those below.
    fn terms(&mut self, function: usize) -> Vec<Arg> {
        let rows: Vec<(f64, f64, f64)> = if self.dice.below(3) == 0 {
            let turn = self.written_terms.entry(function).or_default();
            *turn += 1;
            self.as_written = true;
            WRITTEN_TERMS[*turn % WRITTEN_TERMS.len()].to_vec()
        } else {
            match self.dice.any_terms() {
                calls::Arg::List(list) => calls::triples(&list),
                calls::Arg::One(_) => unreachable!(),
            }
        };
        let list =
            |field: fn(&(f64, f64, f64)) -> f64| Arg::Floats(rows.iter().map(field).collect());
        vec![list(|row| row.0), list(|row| row.1), list(|row| row.2)]
    }

    /// Some pieces of a run file in turn, and one behind the last.
    fn piece(&mut self, function: usize) -> Call {
        while self.pieces.is_empty() {
            let seed = self.seed ^ 0x7069_6563_6573;
            let (file, _) = generate::generate(seed, self.next_file, generate::Files::All);
            self.next_file += 1;
            let count = with_pieces(&file, <[Vec<u8>]>::len) as u64;
            let dice = &mut self.dice;
            let mut asked: Vec<u64> = if count <= 6 {
                (0..=count).collect()
            } else {
                vec![
                    0,
                    1,
                    1 + dice.below(count - 1),
                    1 + dice.below(count - 1),
                    count - 1,
                    count,
                ]
            };
            if dice.below(4) == 0 {
                asked.push(*pick(dice, &[count + 1, 128, 129, 130, 1 << 32, u64::MAX]));
            }
            for k in asked {
                let room = match dice.below(24) {
                    0 | 1 => PIECE_BYTES - 1,
                    2 => dice.below(PIECE_BYTES as u64) as usize,
                    3 => 0,
                    4 => PIECE_BYTES + 1 + dice.below(64) as usize,
                    _ => PIECE_BYTES,
                };
                self.pieces.push_back(Call {
                    function,
                    args: vec![Arg::Bytes(file.clone()), Arg::Size(k), Arg::ByteRoom(room)],
                });
            }
        }
        self.pieces.pop_front().unwrap()
    }
}

const OVERFLOWING: &str = "limit/overflowing-fit";

pub const NO_FACTOR: &str = "curve/not-finite";

/// Categories of files in which a wrong factor between points shows.
pub const CURVES: &[&str] = &[
    "curve/last-digit",
    "curve/last-digit",
    NO_FACTOR,
    NO_FACTOR,
    "curve/beside",
    "curve/wild",
];

/// Whether a fit is refused by 13.
fn overflows(run: &Run, job: &Job) -> bool {
    let case = Case {
        run,
        job: *job,
        n: Numbers::RIGHT,
    };
    case.answer(&mut Trace::default()).code == 13
}

/// Categories of files in which a kind's rarer answers are.
fn rare(kind: u64) -> &'static [&'static str] {
    match kind {
        5 => &[
            "limit/overflowing-sum",
            "limit/mixed-signs",
            "limit/rungs",
            "limit/wild-terms",
        ],
        6 | 7 => &[
            "near/derivative",
            "near/derivative",
            "limit/newton-nan",
            "limit/overflowing-sum",
            "limit/rungs",
            "limit/mixed-signs",
            "limit/wide-bracket",
            "limit/no-pillars",
            "limit/no-pillars",
            "limit/three-rates",
        ],
        8 | 9 => &[
            OVERFLOWING,
            OVERFLOWING,
            "refusal/fit-order",
            "fit/zero-residual",
            "near/tolerance",
        ],
        10 | 11 => &[
            "limit/overflowing-swap-fit",
            "refusal/fit-order",
            "refusal/fit-order",
            "limit/rungs",
            "limit/mixed-signs",
            "limit/wild-terms",
        ],
        13 => &[
            "path/overflow",
            "path/overflow",
            "path/probe",
            "path/extreme",
            "path/pillars",
        ],
        _ => &[],
    }
}

/// One of the pillars alone.
fn keep_one(dice: &mut Dice, call: &mut Call) {
    let kept = dice.below(call.length(1) as u64) as usize;
    for place in [1, 2] {
        if let Arg::Floats(list) = &mut call.args[place] {
            *list = list.get(kept).copied().into_iter().collect();
        }
    }
}

/// Terms written by hand: document 01's cases; far rungs, the last one and none;
/// each refusal of a search, in each ladder; the derivative about 1e-14; ends that
/// move up to the last halving; an infinite sum; an infinite step.
const WRITTEN_TERMS: &[&[(f64, f64, f64)]] = &[
    &[(1.0, 1.0, 0.0)],
    &[(2.0, 1.0, 0.0)],
    &[(0.5, 1.0, 0.0)],
    &[(1.0, 1.0, 1.0), (-1.0, 1.0, 1.0)],
    &[(0.03, 0.98, 0.9), (0.03, 0.955, 1.7), (1.03, 0.93, 2.4)],
    &[(1.0, 1e-3, 0.5)],
    &[(1.0, 1e9, 0.25)],
    &[(0.1, 1.0, 1.0); 64],
    &[(1.0, 1e-300, 1.3e-15)],
    &[(1.0, 1e300, 1.3e-15)],
    &[(1.0, 1e-300, 1.1e-15)],
    &[(1.0, 1e300, 1.1e-15)],
    &[(0.1, 1.0, 1.0); 65],
    &[(2.0, 1.0, 1.0), (-1.0, 1.0, 2.0)],
    &[(0.0, 1.0, 1.0)],
    &[(1.0, 1.0, -1.0), (-1.0, 1.0, -1.0), (2.0, 1.0, 0.0)],
    &[(1.0, 1.0, -1.0), (1.0, 1.0, -1.0), (-1.0, 1.0, -1.0)],
    &[(1e200, 1e200, 1.0)],
    &[],
    &[(0.0, 1.0, 0.0)],
    &[(-1.0, 1.0, 1.0)],
    &[(0.5, 1.0, -1.0)],
    &[(1.0, 1.0, -1.0)],
    &[(1.0, 1.0, 0.99e-14)],
    &[(1.0, 1.0, 1.01e-14)],
    &[(2.0, 1.0, 0.0), (1.0, 1.0, -1.0), (-1.0, 1.0, -1.0)],
    &[(1.0, 1.0, 1e60)],
    &[(1.0, 1.0, 1e300)],
    &[(1e-310, 1e308, 1.0)],
];

/// The arguments of a job.
fn arguments(run: &Run, job: &Job) -> Vec<Arg> {
    fn list<T>(rows: &[T], field: impl Fn(&T) -> f64) -> Arg {
        Arg::Floats(rows.iter().map(field).collect())
    }
    let number = Arg::Number;
    let mut args = vec![number(run.alpha)];
    if matches!(job.kind, 6 | 7 | 12 | 13) {
        args.extend([
            list(&run.pillars, |row| row.0),
            list(&run.pillars, |row| row.1),
        ]);
    }
    args.extend([list(&run.curve, |row| row.0), list(&run.curve, |row| row.1)]);
    if matches!(job.kind, 5 | 6 | 7 | 10 | 11) {
        args.extend([
            list(&run.coupons, |row| row.0),
            list(&run.coupons, |row| row.1),
        ]);
    }
    match job.kind {
        6 | 7 => args.extend([
            list(&run.coupons, |row| row.2),
            number(job.a),
            number(job.b),
            number(job.c),
            number(job.d),
        ]),
        5 | 10 | 11 => args.extend([number(job.a), number(job.b), number(job.c)]),
        12 | 13 => args.extend([
            list(&run.grid, |row| row.0),
            list(&run.grid, |row| row.1),
            Arg::Room(run.grid.len() + (job.a.to_bits() % 3) as usize),
        ]),
        _ => args.extend([number(job.a), number(job.b), number(job.c), number(job.d)]),
    }
    args
}

// ------------------------------------------------------------- made arguments

fn pick<'a, T>(dice: &mut Dice, list: &'a [T]) -> &'a T {
    &list[dice.below(list.len() as u64) as usize]
}

/// The next number up or down.
fn beside(dice: &mut Dice, x: f64) -> f64 {
    if x == 0.0 {
        return if dice.below(2) == 0 { TINY } else { -TINY };
    }
    f64::from_bits(if dice.below(2) == 0 {
        x.to_bits() + 1
    } else {
        x.to_bits() - 1
    })
}

/// Seeds whose first draw is 0, the least there is above or below it, and the largest and
/// the least that 3.5 × 10^10 steps came to.
const TELLING_SEEDS: [u64; 8] = [
    17_892_164_126_007_106_754,
    12_240_183_772_860_489_190,
    17_375_478_837_852_107_581,
    6_270_334_941_022_404_859,
    12_137_938_378_585_902_984,
    14_515_766_582_153_317_804,
    17_392_244_520_015_928_209,
    14_799_773_462_629_792_111,
];

/// A seed that is not 0: any, few bits, nearly all of them, one half alone, Marsaglia's own.
fn seed(dice: &mut Dice) -> u64 {
    let any = dice.next().max(1);
    match dice.below(12) {
        0 => 1 + dice.below(16),
        1 => 1 << dice.below(64),
        2 => !(1 << dice.below(64)),
        3 => *pick(dice, &[1, u64::MAX, 1 << 63, 88_172_645_463_325_252]),
        4 => any >> 32 | 1,
        5 => any << 32 | 1 << 63,
        6 => *pick(dice, &TELLING_SEEDS),
        _ => any,
    }
}

/// A finite number above 0 of any size.
fn wild(dice: &mut Dice) -> f64 {
    match dice.below(3) {
        0 => *pick(
            dice,
            &[
                TINY,
                1e-320,
                f64::MIN_POSITIVE,
                1e-300,
                1e-154,
                1e-16,
                1e-12,
                0.5,
                1.0,
                2.0,
                1e12,
                1e154,
                1e300,
                f64::MAX,
            ],
        ),
        1 => f64::from_bits(1 + dice.below(0x7fef_ffff_ffff_ffff)),
        _ => dice.log_between(1e-30, 1e30),
    }
}

fn bad(dice: &mut Dice) -> f64 {
    f64::from_bits(*pick(
        dice,
        &[
            0x7ff8_0000_0000_0000,
            0xfff8_0000_0000_0000,
            0x7ff0_0000_0000_0001,
            0xffff_ffff_ffff_ffff,
            0x7ff0_0000_0000_0000,
            0xfff0_0000_0000_0000,
        ],
    ))
}

fn alpha(dice: &mut Dice) -> f64 {
    match dice.below(16) {
        0 => 1e-12,
        1 => beside(dice, 1e-12),
        2 => *pick(dice, &[1e-16, 1e-6, 5.0, 50.0, 1e-300]),
        _ => dice.log_between(1e-3, 1.0),
    }
}

fn option_time(dice: &mut Dice) -> f64 {
    match dice.below(16) {
        0 => 0.0,
        1 => -0.0,
        2 => dice.between(0.0, 3.0 * H),
        3 => *pick(dice, &[H, 2.0 * H, 0.5, 1.0]),
        _ => dice.between(0.0, 10.0),
    }
}

fn later_time(dice: &mut Dice, t: f64) -> f64 {
    match dice.below(16) {
        0 => t + H,
        1 => f64::from_bits(t.abs().to_bits() + 1),
        2 => t + dice.between(10.0, 100.0),
        _ => t + dice.between(0.1, 10.0),
    }
}

fn sigma(dice: &mut Dice) -> f64 {
    match dice.below(16) {
        0 => 0.0,
        1 => -0.0,
        2 => dice.log_between(1e-12, 3.0),
        _ => dice.log_between(1e-4, 0.1),
    }
}

/// A curve that has these times, among others, or points before and after them and
/// here and there between.
fn curve(dice: &mut Dice, needed: &[f64]) -> [Arg; 2] {
    let mut times = needed.to_vec();
    let between = dice.below(3) == 0;
    if between {
        let reach = |times: &[f64], of: fn(f64, f64) -> f64| times.iter().copied().reduce(of);
        let first = reach(&times, f64::min).unwrap_or(0.0) - dice.between(0.0, 0.1);
        let last = reach(&times, f64::max).unwrap_or(1.0) + dice.between(0.0, 0.1);
        // Some of the times stay.
        times.retain(|_| dice.below(8) == 0);
        times.extend([first, last]);
        for _ in 0..dice.below(40) {
            times.push(dice.between(first, last));
        }
    } else {
        for _ in 0..dice.below(6) {
            times.push(dice.between(0.0, 12.0));
        }
        if dice.below(16) == 0 {
            times.push(-dice.between(0.0, 2.0));
        }
    }
    times.retain(|time| time.is_finite());
    times.sort_by(f64::total_cmp);
    times.dedup_by(|one, other| one == other);
    let full = match dice.below(160) {
        0 => 2048,
        1 => 2049,
        _ => 0,
    };
    while times.len() < full {
        let last = times.last().copied().unwrap_or(0.0);
        times.push(last.max(0.0) + 0.25);
    }
    for time in &mut times {
        // A zero of the other sign is the same time.
        if *time == 0.0 && dice.below(3) == 0 {
            *time = -*time;
        }
    }
    let level = dice.between(-0.02, 0.08);
    // Far from 1 a factor's logarithm shows its last digits.
    let any = dice.below(if between { 4 } else { 16 }) == 0;
    let scale = if dice.below(12) == 0 {
        dice.log_between(1e-6, 1e9)
    } else {
        1.0
    };
    let factors = times
        .iter()
        .map(|t| {
            if any {
                dice.log_between(1e-3, 1e3)
            } else {
                scale * exp(-(level + dice.between(-1e-4, 1e-4)) * t)
            }
        })
        .map(|factor| {
            if factor > 0.0 && factor.is_finite() {
                factor
            } else {
                1.0
            }
        })
        .collect();
    [Arg::Floats(times), Arg::Floats(factors)]
}

/// Pillars, one of them at times at a time that is asked for.
fn pillars(dice: &mut Dice, asked: &[f64]) -> [Arg; 2] {
    let count = match dice.below(48) {
        0 => 64,
        1 => 63,
        _ => 1 + dice.below(6),
    };
    let mut time = dice.between(-1.0, 2.0);
    let mut times = Vec::new();
    while times.len() < count as usize {
        times.push(time);
        time += dice.between(0.05, 2.0);
    }
    if dice.below(3) == 0 && !asked.is_empty() {
        times.pop();
        let exact = *pick(dice, asked);
        times.push(match dice.below(4) {
            0 => beside(dice, exact),
            _ => exact,
        });
    }
    times.sort_by(f64::total_cmp);
    times.dedup_by(|one, other| one == other);
    let sigmas = times
        .iter()
        .map(|_| {
            if dice.below(8) == 0 {
                0.0
            } else {
                dice.between(0.0, 0.05)
            }
        })
        .collect();
    [Arg::Floats(times), Arg::Floats(sigmas)]
}

fn made(dice: &mut Dice, name: &str) -> Vec<Arg> {
    let alpha = alpha(dice);
    let t = option_time(dice);
    let bond = later_time(dice, t);
    let sigma = sigma(dice);
    let number = Arg::Number;
    let ones = |numbers: &[f64]| numbers.iter().map(|one| number(*one)).collect::<Vec<Arg>>();
    // alpha, the curve, plain numbers.
    let with_curve = |dice: &mut Dice, needed: &[f64], rest: &[f64]| {
        let [times, factors] = curve(dice, needed);
        [vec![number(alpha), times, factors], ones(rest)].concat()
    };
    match name {
        "fused" | "midpoint" | "max" | "min" | "sqrt" | "exp" | "exp_m1" | "ln" | "norm_pdf"
        | "norm_cdf" | "norm_cdf_dual" | "signum" => ones(&ground(dice, name)),
        "B" => ones(&[alpha, t, bond]),
        "zcb_price_volatility" => ones(&[alpha, sigma, t, bond]),
        "short_rate_variance" => ones(&[alpha, t, bond, sigma]),
        "A" => with_curve(dice, &[t, t + H, bond], &[t, bond, sigma]),
        "zcb_price" => {
            let rate = dice.between(-0.05, 0.15);
            with_curve(dice, &[t, t + H, bond], &[rate, t, bond, sigma])
        }
        "theta" => {
            let t = match dice.below(8) {
                0 => H,
                1 => beside(dice, H),
                2 => dice.between(0.0, 2.0 * H),
                _ => t,
            };
            let third = if t > H { t - H } else { t + 2.0 * H };
            with_curve(dice, &[t, t + H, third], &[t, sigma])
        }
        "forward_rate_from_curve" => {
            let [times, factors] = curve(dice, &[t, t + H]);
            vec![times, factors, number(t)]
        }
        "d1_d2" | "black_call" | "black_put" => {
            let forward = dice.log_between(1e-3, 0.2);
            let strike = match dice.below(12) {
                0 => forward,
                1 => beside(dice, forward),
                2 => dice.log_between(1e-12, 1e3),
                _ => forward * dice.log_between(0.3, 3.0),
            };
            let vol = if dice.below(8) == 0 {
                dice.log_between(1e-5, 20.0)
            } else {
                dice.log_between(0.01, 2.0)
            };
            ones(&[forward, strike, vol, dice.log_between(0.01, 30.0)])
        }
        "bachelier_call" => {
            let forward = dice.between(-0.05, 0.15);
            let strike = if dice.below(12) == 0 {
                forward
            } else {
                dice.between(-0.05, 0.15)
            };
            let vol = if dice.below(8) == 0 {
                dice.log_between(1e-6, 1.0)
            } else {
                dice.log_between(1e-4, 0.05)
            };
            ones(&[forward, strike, vol, dice.log_between(0.01, 30.0)])
        }
        "swap_annuity_from_curve" => {
            let count = match dice.below(32) {
                0 => 0,
                1 => 64,
                2 => 65,
                _ => 1 + dice.below(8),
            };
            let from = match dice.below(6) {
                0 => -0.5,
                1 => -1.0,
                _ => t,
            };
            let mut payments: Vec<f64> =
                (1..=count).map(|place| from + place as f64 * 0.5).collect();
            let [times, factors] = curve(dice, &payments);
            if dice.below(4) == 0 {
                payments.reverse();
            }
            let accruals = payments.iter().map(|_| dice.between(-0.2, 1.1)).collect();
            vec![times, factors, Arg::Floats(payments), Arg::Floats(accruals)]
        }
        "volatility" | "pillars_reached" => {
            let [times, sigmas] = pillars(dice, &[t]);
            vec![times, sigmas, number(t)]
        }
        "hull_white_piecewise_variance" => {
            let alpha = match dice.below(12) {
                0 | 1 => -alpha,
                2 => 0.0,
                3 => -0.0,
                4 => beside(dice, -1e-12),
                _ => alpha,
            };
            let [times, sigmas] = if dice.below(24) == 0 {
                [Arg::Floats(Vec::new()), Arg::Floats(Vec::new())]
            } else {
                pillars(dice, &[t, bond])
            };
            vec![number(alpha), times, sigmas, number(t), number(bond)]
        }
        "transition_variances" => {
            let steps = match dice.below(48) {
                0 => 1024,
                1 => 1023,
                2..=8 => dice.below(40),
                _ => dice.below(7),
            };
            let step = if dice.below(12) == 0 {
                dice.log_between(1e-6, 1e3)
            } else {
                dice.between(0.01, 1.0)
            };
            let [times, sigmas] = pillars(dice, &[step, 2.0 * step]);
            let room = steps as usize
                + if dice.below(2) == 0 {
                    0
                } else {
                    dice.below(4) as usize
                };
            vec![
                number(alpha),
                times,
                sigmas,
                Arg::Size(steps),
                number(step),
                Arg::Room(room),
            ]
        }
        "caplet_price" | "floorlet_price" => {
            let strike = if dice.below(8) == 0 {
                dice.between(-0.5, 0.5)
            } else {
                dice.between(-0.02, 0.1)
            };
            with_curve(dice, &[t, bond], &[strike, t, bond, sigma])
        }
        "bond_put_price" | "bond_call_price" => {
            let strike = if dice.below(16) == 0 {
                dice.between(-1.0, 3.0)
            } else {
                dice.between(0.5, 1.2)
            };
            with_curve(dice, &[t, bond], &[t, bond, strike, sigma])
        }
        "fit_caplet_black" | "fit_caplet_normal" => {
            let t = t + 0.05;
            let end = t + dice.between(0.1, 1.0);
            let (strike, vol) = if name == "fit_caplet_black" {
                (dice.log_between(0.005, 0.1), dice.log_between(0.05, 0.8))
            } else {
                (dice.between(-0.01, 0.08), dice.log_between(0.002, 0.02))
            };
            with_curve(dice, &[t, end], &[strike, t, end, vol])
        }
        "generate" | "generate_published" => {
            let count = match dice.below(64) {
                0 => 1024,
                1 => 0,
                _ => 1 + dice.below(8),
            };
            let mut grid: Vec<f64> = (0..count)
                .map(|_| {
                    if dice.below(8) == 0 {
                        0.5
                    } else {
                        dice.between(0.0, 10.0)
                    }
                })
                .collect();
            grid.sort_by(f64::total_cmp);
            // The curve has room for 1,024 times and those a day later.
            let needed: Vec<f64> = grid.iter().flat_map(|t| [*t, t + H]).collect();
            let [pillar_times, sigmas] = pillars(dice, &grid);
            let [times, factors] = curve(dice, &needed);
            let draws = grid.iter().map(|_| dice.between(-3.0, 3.0)).collect();
            let room = grid.len()
                + if dice.below(2) == 0 {
                    0
                } else {
                    dice.below(4) as usize
                };
            vec![
                number(alpha),
                pillar_times,
                sigmas,
                times,
                factors,
                Arg::Floats(grid),
                Arg::Floats(draws),
                Arg::Room(room),
            ]
        }
        _ => unreachable!("{name}"),
    }
}

/// Arguments of a ground function: any floats, and those about its own limits.
fn ground(dice: &mut Dice, name: &str) -> Vec<f64> {
    let x = dice.float();
    let sign = if dice.below(2) == 0 { 1.0 } else { -1.0 };
    let aimed = dice.below(2) == 0;
    match name {
        "fused" => {
            let (a, b) = match dice.below(3) {
                0 => (x, dice.float()),
                1 => (dice.between(-2.0, 2.0), dice.between(-2.0, 2.0)),
                _ => (wild(dice), sign * wild(dice)),
            };
            let product = a * b;
            let c = match dice.below(4) {
                0 => -product,
                1 => beside(dice, -product),
                2 => product * sign * dice.log_between(1e-20, 1e20),
                _ => dice.float(),
            };
            vec![a, b, c]
        }
        "max" | "min" | "midpoint" => {
            let y = match dice.below(6) {
                0 => x,
                1 => -x,
                2 => beside(dice, x),
                3 => *pick(
                    dice,
                    &[f64::NAN, 0.0, -0.0, TINY, f64::INFINITY, f64::NEG_INFINITY],
                ),
                _ => dice.float(),
            };
            match dice.below(8) {
                0 => vec![sign * 0.0, -sign * 0.0],
                1 => vec![y, x],
                3 => vec![f64::NAN, dice.float()],
                4 => vec![dice.float(), f64::NAN],
                2 => vec![
                    sign * f64::from_bits(dice.below(100)),
                    f64::from_bits(dice.below(0x0020_0000_0000_0000)),
                ],
                _ => vec![x, y],
            }
        }
        "sqrt" if aimed => {
            let root = wild(dice);
            vec![match dice.below(5) {
                4 => sign * 0.0,
                0 => root * root,
                1 => beside(dice, root * root),
                2 => f64::from_bits(dice.below(0x0010_0000_0000_0000)),
                _ => sign * root,
            }]
        }
        "exp" | "exp_m1" | "norm_pdf" if aimed => {
            // Ties of k, the ends of the range, the series' own range.
            let tie = tie(dice);
            vec![match dice.below(6) {
                0 => tie,
                1 => beside(dice, tie),
                2 => sign * dice.between(0.0, 0.5),
                3 => beside(dice, sign * 0.5),
                4 => *pick(
                    dice,
                    &[0.5, -0.5, 710.0, -746.0, -745.2, 709.9, -708.5, -740.0],
                ),
                _ => dice.between(-750.0, 712.0),
            }]
        }
        "ln" if aimed => {
            let power = 2f64.powi(dice.below(2000) as i32 - 1000);
            let split = *pick(dice, &[0.75, 1.5, 1.0, 1.49, 0.76]) * power;
            vec![match dice.below(6) {
                0 => split,
                1 => beside(dice, split),
                2 => f64::from_bits(dice.below(0x0010_0000_0000_0000)),
                3 => dice.between(0.5, 1.5),
                4 => beside(dice, 1.0),
                _ => wild(dice),
            }]
        }
        "norm_cdf" | "norm_cdf_dual" if aimed => {
            let tail = 7.071067811865475;
            let limit = *pick(
                dice,
                &[
                    37.0,
                    37.0,
                    tail,
                    tail,
                    0.0,
                    38.0,
                    2f64.powi(-10),
                    4.0,
                    2f64.powi(-20),
                    8.0,
                ],
            );
            vec![
                sign * match dice.below(3) {
                    0 => limit,
                    1 => beside(dice, limit),
                    _ => dice.between(0.0, 38.0),
                },
            ]
        }
        "signum" if aimed => vec![*pick(
            dice,
            &[
                0.0,
                -0.0,
                TINY,
                -TINY,
                f64::NAN,
                f64::INFINITY,
                f64::NEG_INFINITY,
            ],
        )],
        _ => vec![x],
    }
}

/// An argument of exp whose product with 1/ln 2 is a whole number and a half, if
/// one is found.
fn tie(dice: &mut Dice) -> f64 {
    let mut near = 0.5;
    for _ in 0..40 {
        let half = dice.below(1000) as f64 - 500.0 + 0.5;
        near = half / 1.4426950408889634;
        for steps in [0, 1, u64::MAX] {
            let x = f64::from_bits(near.to_bits().wrapping_add(steps));
            if x * 1.4426950408889634 == half {
                return x;
            }
        }
    }
    near
}

// -------------------------------------------------------------------- faults

/// The refusals at which faults of a call can be aimed, in their order: 1 to 6, 14, 7, 15,
/// 8, and 13.
fn rules(name: &str) -> Vec<u64> {
    if name == "draws" {
        return vec![1, 14];
    }
    let function = FUNCTIONS
        .iter()
        .find(|function| function.name == name)
        .unwrap();
    let has = |argument: &str| function.position(argument).is_some();
    let mut rules = Vec::new();
    if !groups(name).is_empty() {
        rules.push(1);
    }
    rules.push(2);
    if has("alpha") {
        rules.push(3);
    }
    if has("times") || has("pillars") {
        rules.push(4);
    }
    if ["t", "start", "starts", "tau", "time_step", "grid"]
        .iter()
        .any(|one| has(one))
    {
        rules.push(5);
    }
    if ["sigma", "sigmas", "factors", "vol", "vols"]
        .iter()
        .any(|one| has(one))
    {
        rules.push(6);
    }
    if has("seed") {
        rules.push(14);
    }
    if has("pillars") || (has("payments") && function.position("times") != Some(0)) {
        rules.push(7);
    }
    if name.starts_with("generate_published") {
        rules.push(15);
    }
    if has("times") {
        rules.push(8);
    }
    rules.push(13);
    rules
}

fn set(call: &mut Call, argument: &str, number: f64) -> bool {
    match call.table().position(argument) {
        Some(place) => {
            call.args[place] = Arg::Number(number);
            true
        }
        None => false,
    }
}

fn get(call: &Call, argument: &str) -> Option<f64> {
    call.table()
        .position(argument)
        .map(|place| call.number(place))
}

/// One element of a list, to be changed.
fn element<'a>(dice: &mut Dice, call: &'a mut Call, argument: &str) -> Option<&'a mut f64> {
    let place = call.table().position(argument)?;
    match &mut call.args[place] {
        Arg::Floats(list) if !list.is_empty() => {
            // The ends often.
            let last = list.len() - 1;
            let at = match dice.below(4) {
                0 => 0,
                1 => last,
                _ => dice.below(list.len() as u64) as usize,
            };
            Some(&mut list[at])
        }
        _ => None,
    }
}

/// Of these arguments those that the call has, in turn.
fn some_of(turn: usize, call: &Call, arguments: &[&'static str]) -> Option<&'static str> {
    let have: Vec<&'static str> = arguments
        .iter()
        .copied()
        .filter(|one| call.table().position(one).is_some())
        .collect();
    have.get(turn % have.len().max(1)).copied()
}

/// A fault that mostly, not always, has the call refused with that number; its ways
/// in turn.
fn fault(dice: &mut Dice, call: &mut Call, rule: u64, turn: usize) {
    match rule {
        1 => lengths(dice, call, turn),
        2 => {
            let place = turn % call.args.len();
            let (argument, kind) = call.table().arguments[place];
            let value = bad(dice);
            match kind {
                Kind::Number => call.args[place] = Arg::Number(value),
                Kind::Floats => {
                    if let Some(one) = element(dice, call, argument) {
                        *one = value;
                    }
                }
                _ => {}
            }
        }
        3 => {
            let value = *pick(dice, &[0.0, -0.0, -0.5, -TINY, -1e-12, -f64::MAX]);
            set(call, "alpha", value);
        }
        4 => times(dice, call, turn),
        5 => early(dice, call, turn),
        6 => {
            let value = *pick(dice, &[0.0, -0.0, -1.0, -0.01, -TINY]);
            let some = some_of(
                turn,
                call,
                &[
                    "sigma", "sigmas", "vol", "vols", "strike", "strikes", "factors", "own_dfs",
                    "side", "factors",
                ],
            );
            match some {
                Some("side") => {
                    let side = *pick(
                        dice,
                        &[0.0, 2.0, -2.0, 0.5, f64::from_bits(0x3ff0_0000_0000_0001)],
                    );
                    set(call, "side", side);
                }
                Some(argument @ ("sigmas" | "vols" | "strikes" | "factors" | "own_dfs")) => {
                    let value = if argument == "own_dfs" && dice.below(2) == 0 {
                        0.9
                    } else {
                        value
                    };
                    if let Some(one) = element(dice, call, argument) {
                        *one = value;
                    }
                }
                Some(argument) => {
                    set(call, argument, value);
                }
                None => {}
            }
        }
        7 => {
            let names = ["pillars", "payments"];
            let Some(argument) = some_of(turn, call, &names) else {
                return;
            };
            let place = call.table().position(argument);
            for (places, _) in groups(call.name()) {
                if places.contains(&place.unwrap()) {
                    places
                        .iter()
                        .for_each(|place| call.args[*place] = Arg::Floats(Vec::new()));
                }
            }
        }
        8 => lookups(dice, call, turn),
        // More pillars than the one that kind 13 serves, up to the limit; an empty grid now
        // and then.
        15 => {
            let count = *pick(dice, &[2, 2, 2, 3, 3, 5, 63, 64]);
            grow(call, &[1, 2], count.max(call.length(1)));
            if dice.below(4) == 0 {
                no_grid(call);
            }
        }
        // An empty grid, and a list for no draws, now and then.
        14 => {
            let place = call.table().position("seed").unwrap();
            call.args[place] = Arg::Size(0);
            match call.name() {
                "draws" if dice.below(3) == 0 => call.args[1] = Arg::Room(0),
                name if is_path(name) && dice.below(4) == 0 => no_grid(call),
                _ => {}
            }
        }
        _ if turn % 2 == 0 && overflow(dice, call) => {}
        _ => {
            let number = *pick(
                dice,
                &[
                    f64::MAX,
                    1e200,
                    1e308,
                    1e160,
                    TINY,
                    1e-300,
                    -f64::MAX,
                    -1e300,
                ],
            );
            let some = some_of(
                turn / 2,
                call,
                &[
                    "sigma",
                    "rate",
                    "fwd",
                    "vol",
                    "bond",
                    "notional",
                    "strike",
                    "sigmas",
                    "draws",
                    "accruals",
                    "coefficients",
                    "affines",
                    "b",
                    "alpha",
                    "end",
                    "tau",
                    "time_step",
                    "factors",
                ],
            );
            match some {
                Some(
                    argument @ ("sigmas" | "draws" | "accruals" | "coefficients" | "affines" | "b"
                    | "factors"),
                ) => {
                    let number = if matches!(argument, "sigmas" | "factors") {
                        number.abs()
                    } else {
                        number
                    };
                    if let Some(one) = element(dice, call, argument) {
                        *one = number;
                    }
                }
                Some(argument @ ("fwd" | "rate" | "strike" | "notional")) => {
                    let number = if dice.below(2) == 0 {
                        *pick(dice, &[0.0, -1.0, -1e5, 1e5])
                    } else {
                        number
                    };
                    set(call, argument, number);
                }
                Some(argument) => {
                    set(call, argument, number.abs());
                }
                None => {}
            }
        }
    }
}

/// The lists of the grid's group: its times, and the draws where they are listed.
fn grid_places(call: &Call) -> &'static [usize] {
    groups(call.name())[2].0
}

fn no_grid(call: &mut Call) {
    for place in grid_places(call) {
        call.args[*place] = Arg::Floats(Vec::new());
    }
}

/// Several arguments at once that take a result beyond the floats; false where
/// there is no such way for the call.
fn overflow(dice: &mut Dice, call: &mut Call) -> bool {
    match call.name() {
        // A bond so far away, beside an alpha so small, that B overflows.
        "B" => {
            let alpha = dice.log_between(1e-320, 1e-306);
            set(call, "alpha", alpha);
            set(call, "bond", f64::MAX)
        }
        "bachelier_call" => {
            let high = if dice.below(2) == 0 {
                f64::MAX
            } else {
                1.5e308
            };
            set(call, "fwd", high);
            set(call, "strike", -high)
        }
        "swap_annuity_from_curve" => {
            if let Arg::Floats(accruals) = &mut call.args[3] {
                accruals.fill(1.7e308);
            }
            true
        }
        "forward_rate_from_curve" | "theta" | "A" | "zcb_price" => {
            let place = call.table().position("factors").unwrap();
            if let Arg::Floats(factors) = &mut call.args[place] {
                let (one, other) = if dice.below(2) == 0 {
                    (1e300, 1e-300)
                } else {
                    (1e-300, 1e300)
                };
                for (at, factor) in factors.iter_mut().enumerate() {
                    *factor = if at % 2 == 0 { one } else { other };
                }
            }
            true
        }
        // At the last time g × g is infinite, and half of it would not be.
        name if name.starts_with("generate_published") => {
            let last = call.floats(5).last().copied().unwrap_or(0.0);
            let share = 1.0 - exp(-call.number(0) * last);
            let sigma = dice.between(1.35e154, 1.89e154) * (call.number(0) / share);
            if !(sigma > 0.0 && sigma.is_finite()) {
                return false;
            }
            call.args[1] = Arg::Floats(vec![0.0]);
            call.args[2] = Arg::Floats(vec![sigma]);
            true
        }
        _ => false,
    }
}

/// Lists of other lengths, over their limits, and outputs that are too short.
fn lengths(dice: &mut Dice, call: &mut Call, turn: usize) {
    if call.name() == "draws" {
        call.args[1] = Arg::Room(draws::MOST + 1 + dice.below(3) as usize / 2);
        return;
    }
    if let Some(out) = call.table().position("out") {
        let needed = match call.name() {
            name if is_path(name) => call.length(5),
            _ => call.size(3) as usize,
        };
        match turn % 6 {
            0 => {
                call.args[out] = Arg::Room(needed.saturating_sub(1));
                return;
            }
            1 => {
                call.args[out] = Arg::Room(0);
                return;
            }
            2 if is_path(call.name()) => {
                grow(call, grid_places(call), 1025);
                return;
            }
            // 65 pillars, which the turns below never come to beside an output.
            3 if is_path(call.name()) && turn % 24 == 9 => {
                grow(call, &[1, 2], 65);
                return;
            }
            2 if call.name() == "transition_variances" => {
                call.args[3] = Arg::Size(*pick(dice, &[1025, 1026, u64::MAX, 1 << 32]));
                call.args[out] = Arg::Room(*pick(dice, &[1025, 1026, needed]));
                return;
            }
            _ => {}
        }
    }
    if let (Some(pillars), 3) = (call.table().position("pillars"), turn % 4) {
        // Times without sigmas, or the reverse, are not the same as no pillars.
        call.args[pillars + turn / 4 % 2] = Arg::Floats(Vec::new());
        return;
    }
    let groups = groups(call.name());
    let (places, limit) = groups[turn % groups.len()];
    let turn = turn / groups.len();
    let place = places[turn / 6 % places.len()];
    match turn % 6 {
        0 => shorten(&mut call.args[place]),
        1 | 2 => {
            let length = call.length(place) + 1;
            lengthen(&mut call.args[place], length);
        }
        3 => {
            call.args[place] = match call.args[place] {
                Arg::Bools(_) => Arg::Bools(Vec::new()),
                _ => Arg::Floats(Vec::new()),
            }
        }
        4 => grow(call, places, limit + 1),
        _ => {
            // At the limit, which is no fault, but for one list.
            grow(call, places, limit);
            if dice.below(2) == 0 {
                lengthen(&mut call.args[place], limit + 1);
            }
        }
    }
}

fn shorten(arg: &mut Arg) {
    match arg {
        Arg::Floats(list) => drop(list.pop()),
        Arg::Bools(list) => drop(list.pop()),
        _ => {}
    }
}

/// More elements behind the last: what stands for times goes on rising.
fn lengthen(arg: &mut Arg, length: usize) {
    match arg {
        Arg::Floats(list) => {
            let rises = list.windows(2).all(|two| two[0] < two[1]);
            while list.len() < length {
                let last = list.last().copied().unwrap_or(0.5);
                list.push(if rises {
                    last + last.abs().max(1.0) / 64.0
                } else {
                    last
                });
            }
        }
        Arg::Bools(list) => list.resize(length, false),
        _ => {}
    }
}

/// The lists of a group brought to one length, each times list rising.
fn grow(call: &mut Call, places: &[usize], length: usize) {
    for place in places {
        let (argument, _) = call.table().arguments[*place];
        if matches!(argument, "times" | "pillars" | "grid" | "payments" | "ends") {
            lengthen(&mut call.args[*place], length);
            continue;
        }
        match &mut call.args[*place] {
            Arg::Floats(list) => {
                let last = list.last().copied().unwrap_or(0.5);
                list.resize(length, last);
            }
            Arg::Bools(list) => list.resize(length, true),
            _ => {}
        }
    }
    if let (true, Some(out)) = (places[0] == 5, call.table().position("out")) {
        call.args[out] = Arg::Room(call.length(out).max(length));
    }
}

/// Times that do not rise.
fn times(dice: &mut Dice, call: &mut Call, turn: usize) {
    let Some(argument) = some_of(turn, call, &["times", "pillars", "grid"]) else {
        return;
    };
    let place = call.table().position(argument).unwrap();
    let Arg::Floats(list) = &mut call.args[place] else {
        return;
    };
    if list.len() < 2 {
        return;
    }
    let at = 1 + dice.below(list.len() as u64 - 1) as usize;
    match dice.below(5) {
        0 => list[at] = list[at - 1],
        1 => list[at - 1] = list[at],
        2 => list.swap(at - 1, at),
        3 => list.reverse(),
        _ => {
            list[at] = if list[at - 1] > 0.0 {
                f64::from_bits(list[at - 1].to_bits() - 1)
            } else {
                list[at - 1] - 1.0
            }
        }
    }
}

/// Times too early or too late for an option.
fn early(dice: &mut Dice, call: &mut Call, turn: usize) {
    let negative = *pick(dice, &[-1.0, -TINY, -0.5, 0.0, -0.0]);
    let option = get(call, "t").or(get(call, "start"));
    match some_of(
        turn,
        call,
        &[
            "t",
            "start",
            "bond",
            "end",
            "tau",
            "time_step",
            "grid",
            "payments",
            "starts",
            "ends",
        ],
    ) {
        Some(argument @ ("t" | "start" | "tau" | "time_step")) => {
            set(call, argument, negative);
        }
        Some(argument @ ("bond" | "end")) => {
            let option = option.unwrap_or(0.0);
            let value = *pick(dice, &[option, option, option, option - 0.25, -option, 0.0]);
            let value = if dice.below(3) == 0 && option != 0.0 {
                f64::from_bits(option.to_bits() - 1)
            } else {
                value
            };
            set(call, argument, value);
        }
        Some("grid") => {
            let place = call.table().position("grid").unwrap();
            if let Arg::Floats(list) = &mut call.args[place] {
                if let Some(first) = list.first_mut() {
                    *first = negative;
                }
            }
        }
        Some(argument @ ("payments" | "starts" | "ends")) => {
            let value = match option {
                Some(option) => *pick(dice, &[option, 0.0, option - 0.1]),
                None => negative,
            };
            if let Some(one) = element(dice, call, argument) {
                *one = value;
            }
        }
        _ => {}
    }
}

/// Two curves with a time each whose factor is NaN or infinite, and a time before and
/// one after it that have theirs.
const NOT_FINITE: [(&[(f64, f64)], f64, [f64; 2]); 2] = [
    (&[(-1e308, 0.9), (1.2e308, 0.8)], 1e308, [1.0, 1.2e308]),
    (
        &[
            (0.7057691290677448, 9.469050158921633e-238),
            (3.2464201598086486, f64::MAX),
            (5.0, 1.0),
        ],
        3.246420159808648,
        [1.0, 4.0],
    ),
];

/// The arguments that are times to be looked up.
const LOOKED_UP: [&str; 8] = [
    "t", "start", "bond", "end", "payments", "grid", "starts", "ends",
];

/// A time at which the curve has no factor, or nearly none.
fn lookups(dice: &mut Dice, call: &mut Call, turn: usize) {
    let place = call.table().position("times").unwrap();
    let mut points: Vec<(f64, f64)> = call
        .floats(place)
        .iter()
        .zip(call.floats(place + 1))
        .map(|(time, factor)| (*time, *factor))
        .collect();
    let at = dice.below(points.len().max(1) as u64) as usize;
    let option = get(call, "t").or(get(call, "start")).unwrap_or(1.0);
    match turn % 9 {
        0 => points.clear(),
        1 => drop(points.drain(..at)),
        2 => points.truncate(at),
        3 if !points.is_empty() => points[at].0 = beside(dice, points[at].0),
        4 if !points.is_empty() => drop(points.remove(at)),
        5 => {
            let (steep, missing, others) = NOT_FINITE[dice.below(2) as usize];
            points = steep.to_vec();
            move_times(call, others);
            move_one(dice, call, turn / 9, |_| missing);
        }
        6 => {
            // Everything within a day, and the curve's end: no factor at t + h.
            points = vec![(option - 2.0 * H, 1.0), (option + 0.5 * H, 0.99)];
            move_times(call, [option, option + 0.5 * H]);
        }
        7 => move_one(dice, call, turn / 9, |time| f64::from_bits(time.to_bits() ^ 1)),
        _ => {
            let (first, last) = match (points.first(), points.last()) {
                (Some(first), Some(last)) => (first.0, last.0),
                _ => return,
            };
            let outside = match dice.below(4) {
                0 => first / 2.0,
                1 => beside(dice, first),
                2 => beside(dice, last),
                _ => last + 0.123,
            };
            move_one(dice, call, turn / 9, |_| outside);
        }
    }
    call.args[place] = Arg::Floats(points.iter().map(|point| point.0).collect());
    call.args[place + 1] = Arg::Floats(points.iter().map(|point| point.1).collect());
}

/// All option times of a call brought to one, and all later ones to another.
fn move_times(call: &mut Call, [option, later]: [f64; 2]) {
    for (place, (argument, _)) in call.table().arguments.iter().enumerate() {
        match (*argument, &mut call.args[place]) {
            ("t" | "start", number) => *number = Arg::Number(option),
            ("bond" | "end", number) => *number = Arg::Number(later),
            ("starts", Arg::Floats(list)) => list.fill(option),
            ("payments" | "grid" | "ends", Arg::Floats(list)) => list.fill(later),
            _ => {}
        }
    }
}

/// One of the times that are looked up, in turn, put elsewhere.
fn move_one(dice: &mut Dice, call: &mut Call, turn: usize, to: impl Fn(f64) -> f64) {
    match some_of(turn, call, &LOOKED_UP) {
        Some(argument @ ("payments" | "grid" | "starts" | "ends")) => {
            if let Some(one) = element(dice, call, argument) {
                *one = to(*one);
            }
        }
        Some(argument) => {
            let now = get(call, argument).unwrap();
            set(call, argument, to(now));
        }
        None => {}
    }
}

/// A number or an element of an uncommon size, or equal to another; a list at its
/// limit, or of one record; an output with more room.
fn odd(dice: &mut Dice, call: &mut Call) {
    let place = dice.below(call.args.len() as u64) as usize;
    let (argument, kind) = call.table().arguments[place];
    let value = match dice.below(6) {
        0 => wild(dice),
        1 => -wild(dice),
        2 => *pick(dice, &[0.0, -0.0]),
        3 => *pick(dice, &[1e-12, 1e-14, 1e-8, 2.0, 1.0, -1.0, 0.5]),
        4 => dice.float(),
        _ => {
            // As another number of the call.
            let other = dice.below(call.args.len() as u64) as usize;
            match call.args[other] {
                Arg::Number(number) => number,
                _ => dice.between(0.0, 2.0),
            }
        }
    };
    match kind {
        Kind::Number => call.args[place] = Arg::Number(value),
        Kind::Room => {
            let room = call.length(place) + 1 + dice.below(1100) as usize;
            call.args[place] = Arg::Room(room);
        }
        Kind::Size => call.args[place] = Arg::Size(dice.below(12)),
        Kind::Seed => call.args[place] = Arg::Size(dice.below(3)),
        Kind::Floats | Kind::Bools => match dice.below(4) {
            0 => {
                let group = groups(call.name())
                    .iter()
                    .find(|group| group.0.contains(&place));
                if let Some((places, limit)) = group {
                    grow(call, places, *limit);
                }
            }
            1 => {
                let group = groups(call.name())
                    .iter()
                    .find(|group| group.0.contains(&place));
                if let Some((places, _)) = group {
                    for place in *places {
                        match &mut call.args[*place] {
                            Arg::Floats(list) => list.truncate(1),
                            Arg::Bools(list) => list.truncate(1),
                            _ => {}
                        }
                    }
                }
            }
            _ => {
                if let Some(one) = element(dice, call, argument) {
                    *one = value;
                }
            }
        },
        _ => {}
    }
}
