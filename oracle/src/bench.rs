//! The cut-out Rust timed: `bench/run` holds it against the program. The file
//! is read once; each round asks the Rust for every job and formats the line
//! that the program prints; the last round's lines are written. Compiled with
//! `--cfg plain` exp and ln keep no table and no trace, so that the Rust is
//! measured at its own work.

use crate::cut::{self, hullwhitecalibration as calibration, hullwhitemodel, pricer};
use crate::cut::{CapletQuote, HullWhite};
use crate::judge::{self, Job, Run};
use crate::shim::{self, PathGenerator, TableCurve};
use crate::{confront, slips};
use std::io::Write;

/// `bench FILE ROUNDS` and `bench-basket FILE ROUNDS`.
pub fn main(basket: bool, args: &[String]) -> i32 {
    let [file, rounds] = args else {
        eprintln!("oracle bench FILE ROUNDS");
        return 2;
    };
    let bytes = std::fs::read(file).expect("the file can be read");
    let rounds: u32 = rounds.parse().expect("ROUNDS is a number");
    let text = if basket {
        work_basket(&bytes, rounds)
    } else {
        work(&bytes, rounds)
    };
    std::io::stdout().write_all(&text).expect("standard output can be written");
    0
}

/// What the Rust is handed for the jobs of a file, laid out once.
struct Lent<'a> {
    run: &'a Run,
    curve: &'a TableCurve,
    model: HullWhite<'a, f64>,
    schedule: Vec<(f64, f64)>,
    own: bool,
    state: shim::HullWhiteSwaptionState,
    parameters: shim::HullWhiteParameters<shim::DualFwd>,
    times: Vec<f64>,
    draws: Vec<f64>,
}

fn work(bytes: &[u8], rounds: u32) -> Vec<u8> {
    let header = b"job kind answer value note\n";
    let run = judge::read(bytes, slips::Slip::Nothing).expect("a run file");
    let curve = TableCurve::new(&run.curve);
    let lent = Lent {
        run: &run,
        curve: &curve,
        model: hullwhitemodel::with_schedule(run.alpha, &curve, &run.pillars),
        schedule: run.coupons.iter().map(|one| (one.0, one.1)).collect(),
        own: run.coupons.iter().any(|one| one.2 != 0.0),
        state: cut::swaption_state(&run.curve, &run.coupons),
        parameters: cut::swaption_parameters(run.alpha, &run.pillars),
        times: run.grid.iter().map(|point| point.0).collect(),
        draws: run.grid.iter().map(|point| point.1).collect(),
    };
    let mut points = vec![0.0; run.grid.len()];
    let mut text = header.to_vec();
    for _ in 0..rounds {
        text.truncate(header.len());
        for (number, job) in run.jobs.iter().enumerate() {
            lines(&lent, number, job, &mut points, &mut text).expect("the Rust serves the job");
        }
    }
    text
}

/// A job's lines: the Rust's own values in the program's words.
fn lines(
    lent: &Lent,
    number: usize,
    job: &Job,
    points: &mut [f64],
    text: &mut Vec<u8>,
) -> shim::Result<()> {
    let Job { kind, a, b, c, d } = *job;
    let Lent { run, curve, model, .. } = lent;
    let mut note = 0;
    let value = match kind {
        1 => model.caplet_price(a, b, c, d, *curve)?,
        2 => model.floorlet_price(a, b, c, d, *curve)?,
        3 => model.bond_put_price(a, b, c, d, *curve)?,
        4 => model.bond_call_price(a, b, c, d, *curve)?,
        5 => model.swaption_price(a, b, &lent.schedule, c, *curve)?,
        6 | 7 => {
            let trade = cut::swaption_trade(&run.coupons, kind == 6, a, b, c, d);
            let pricer = pricer::new(run.alpha, lent.own);
            pricer::value(&pricer, &trade, &lent.state, &lent.parameters)?
        }
        8..=11 => {
            let solved = calibration::solve(run.alpha, curve, &confront::instrument(run, job))?;
            if solved.converged {
                note = solved.asked.len() - 2;
            }
            solved.x
        }
        12 => {
            model.generate(&lent.times, &lent.draws, points)?;
            for (point, value) in points.iter().enumerate() {
                line(text, number, kind, *value, point);
            }
            return Ok(());
        }
        _ => panic!("kind {kind} is not the Rust's"),
    };
    line(text, number, kind, value, note);
    Ok(())
}

fn line(text: &mut Vec<u8>, number: usize, kind: u64, value: f64, note: usize) {
    writeln!(text, "{number} {kind} 0 {:016x} {note}", value.to_bits()).unwrap();
}

/// A basket as `bench/basket.c` reads it: the numbers of points and of
/// caplets (u32), alpha, the points, the caplets. A line a caplet: its sigma
/// and its place on the diagonal.
fn work_basket(bytes: &[u8], rounds: u32) -> Vec<u8> {
    let points = u32::from_le_bytes(bytes[..4].try_into().unwrap()) as usize;
    let numbers: Vec<f64> = bytes[8..]
        .chunks_exact(8)
        .map(|one| f64::from_le_bytes(one.try_into().unwrap()))
        .collect();
    let (listed, quoted) = numbers[1..].split_at(2 * points);
    let listed: Vec<(f64, f64)> = listed.chunks_exact(2).map(|one| (one[0], one[1])).collect();
    let quotes: Vec<CapletQuote> = quoted
        .chunks_exact(5)
        .map(|one| CapletQuote {
            normal: one[0] == 1.0,
            strike: one[1],
            start: one[2],
            end: one[3],
            volatility: one[4],
        })
        .collect();
    let curve = TableCurve::new(&listed);
    let mut text = Vec::new();
    for _ in 0..rounds {
        text.clear();
        let (sigmas, diagonal) = calibration::calibrate(numbers[0], &curve, &cut::caplets(&quotes))
            .expect("the Rust serves the basket");
        for (sigma, slope) in sigmas.iter().zip(&diagonal) {
            writeln!(text, "{:016x} {:016x}", sigma.to_bits(), slope.to_bits()).unwrap();
        }
    }
    text
}
