//! Baskets from a seed.

use crate::call_inputs::{CURVES, NO_FACTOR};
use crate::calls::Dice;
use crate::generate;
use crate::judge::{self, Caplet};
use crate::numbers::Numbers;
use crate::slips::Slip;

/// What a basket asks.
pub struct Request {
    pub alpha: f64,
    pub curve: Vec<(f64, f64)>,
    pub entries: Vec<Caplet>,
}

fn size(dice: &mut Dice) -> usize {
    match dice.below(40) {
        0 => 0,
        1..=9 => 1,
        10..=31 => 2 + dice.below(4) as usize,
        32..=34 => 5,
        35..=37 => 6 + dice.below(58) as usize,
        38 => 64,
        _ => 64 + dice.below(2) as usize,
    }
}

/// A flat curve with some noise over the times that the caplets ask for.
fn curve(dice: &mut Dice, entries: &[Caplet], level: f64, scale: f64) -> Vec<(f64, f64)> {
    let mut times: Vec<f64> = entries.iter().flat_map(|one| [one.start, one.end]).collect();
    times.sort_by(f64::total_cmp);
    times.dedup();
    let mut points = Vec::new();
    for t in times {
        let rate = level + dice.between(-1e-4, 1e-4);
        points.push((t, scale * crate::elementary::exp(-rate * t)));
    }
    points
}

/// A basket of quotes as they come, on a curve scaled by a power of ten: where
/// it is large no residual gets below the tolerance. Most baskets have quotes
/// near the money alone, so that long ones are served too.
fn market(dice: &mut Dice, most: u64) -> Request {
    let near = dice.below(4) > 0;
    let level = if near { dice.between(0.01, 0.06) } else { dice.between(-0.01, 0.08) };
    let space = dice.between(0.1, 1.0);
    let mut entries = Vec::new();
    for place in 0..size(dice) {
        let start = if dice.below(4) == 0 {
            dice.between(0.01, 20.0)
        } else {
            (place + 1) as f64 * space
        };
        let normal = dice.below(2) == 1;
        let odd = if near { 2 } else { dice.below(8) };
        entries.push(Caplet {
            normal,
            strike: match (normal, odd) {
                (true, 0) => dice.between(-0.02, 0.0),
                (_, 1) => dice.log_between(1e-4, 0.5),
                _ => level * dice.between(0.8, 1.25),
            },
            start,
            end: start + dice.between(0.05, 1.0),
            volatility: match (normal, odd) {
                (_, 0) => dice.log_between(1e-6, 5.0),
                (true, _) => dice.log_between(0.003, 0.02),
                (false, _) => dice.log_between(0.1, 0.6),
            },
        });
    }
    let scale = 10f64.powi(dice.below(most + 1) as i32);
    let curve = curve(dice, &entries, level, scale);
    let alpha = if dice.below(8) == 0 { 1e-12 } else { dice.log_between(1e-3, 1.0) };
    Request { alpha, curve, entries }
}

/// Whether a caplet's own fit is served; its bumped fit may be refused.
fn fits_alone(ask: &Request, one: &Caplet) -> bool {
    let answer = judge::basket(ask.alpha, &ask.curve, std::slice::from_ref(one), Numbers::RIGHT);
    answer.code == 0 || answer.bumping
}

/// The caplets of a generated run file, now and then of one about its curve, mostly
/// without those that are refused.
fn from_run_file(dice: &mut Dice, seed: u64, index: u64) -> Option<Request> {
    let mut all = dice.below(4) == 0;
    let bytes = if dice.below(2) == 0 {
        let category = CURVES[dice.below(CURVES.len() as u64) as usize];
        all |= category == NO_FACTOR;
        generate::of_category(category, seed, index)
    } else {
        generate::generate(seed, index, generate::Files::All).0
    };
    let run = judge::read(&bytes, Slip::Nothing)?;
    let asked: Vec<Caplet> = run
        .jobs
        .iter()
        .filter(|job| matches!(job.kind, 8 | 9))
        .map(|job| Caplet {
            normal: job.kind == 9,
            strike: job.a,
            start: job.b,
            end: job.c,
            volatility: job.d,
        })
        .collect();
    let mut ask = Request {
        alpha: run.alpha,
        curve: run.curve.clone(),
        entries: Vec::new(),
    };
    ask.entries = asked.into_iter().filter(|one| all || fits_alone(&ask, one)).take(65).collect();
    Some(ask)
}

/// One number of a basket made wrong.
fn spoil(dice: &mut Dice, ask: &mut Request) {
    const WRONG: [f64; 6] = [0.0, -0.0, -1.0, f64::INFINITY, f64::NEG_INFINITY, f64::NAN];
    let wrong = WRONG[dice.below(6) as usize];
    let field = dice.below(9);
    if field == 8 {
        ask.alpha = wrong;
        return;
    }
    if !ask.curve.is_empty() && field >= 5 {
        let place = dice.below(ask.curve.len() as u64) as usize;
        match field {
            5 => ask.curve[place].0 = wrong,
            6 => ask.curve[place].1 = wrong,
            _ => ask.curve[place].0 = ask.curve[dice.below(ask.curve.len() as u64) as usize].0,
        }
        return;
    }
    let count = ask.entries.len() as u64;
    if count == 0 {
        return;
    }
    let one = &mut ask.entries[dice.below(count) as usize];
    match field {
        0 => one.strike = wrong,
        1 => one.start = wrong,
        2 => one.end = if dice.below(2) == 0 { one.start } else { wrong },
        3 => one.volatility = wrong,
        _ => one.end += if dice.below(2) == 0 { 1.0 / 512.0 } else { 1000.0 },
    }
}

/// One caplet's volatility brought just below the first at which its fit is
/// refused, so that the bumped one lies beyond.
fn to_the_edge(dice: &mut Dice, ask: &mut Request) {
    let count = ask.entries.len() as u64;
    if count == 0 {
        return;
    }
    let place = dice.below(count) as usize;
    let mut one = ask.entries[place];
    one.normal = true;
    let fits = |volatility: f64| fits_alone(ask, &Caplet { volatility, ..one });
    let (mut low, mut high) = (one.volatility, one.volatility);
    if !fits(low) {
        return;
    }
    while fits(high) {
        (low, high) = (high, 2.0 * high);
        if high > 1e3 {
            return;
        }
    }
    while high - low > 1e-8 {
        let middle = (low + high) / 2.0;
        if fits(middle) {
            low = middle;
        } else {
            high = middle;
        }
    }
    one.volatility = low;
    ask.entries[place] = one;
}

/// The curve filled up with points behind its last.
fn lengthen(ask: &mut Request, count: usize) {
    let mut last = ask.curve.last().map_or(1.0, |point| point.0);
    while ask.curve.len() < count {
        last += 0.25;
        ask.curve.push((last, 0.5));
    }
}

/// Quotes as they come, on curves of any size, from run files, with one number
/// wrong, with a bumped fit beyond the edge, with a curve at its limit and over.
pub fn request(seed: u64, index: u64) -> Request {
    let mut dice = Dice::new(seed.wrapping_mul(0x1_0000_0001).wrapping_add(index));
    match dice.below(16) {
        0..=6 => market(&mut dice, 0),
        7..=8 => market(&mut dice, 12),
        9..=12 => match from_run_file(&mut dice, seed, index) {
            Some(ask) => ask,
            None => market(&mut dice, 0),
        },
        13 => {
            let mut ask = market(&mut dice, 2);
            spoil(&mut dice, &mut ask);
            ask
        }
        14 => {
            let mut ask = market(&mut dice, 2);
            to_the_edge(&mut dice, &mut ask);
            ask
        }
        _ => {
            let mut ask = market(&mut dice, 0);
            lengthen(&mut ask, 2048 + dice.below(2) as usize);
            ask
        }
    }
}
