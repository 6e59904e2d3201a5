//! The Rust's work counted, for `oracle/counts`: how often a job of kinds 5, 6,
//! 7, 10 and 11 has the Rust evaluate the coupon sum, look a time up, on the curve
//! or between two of its points, work A and B, and ask for exp and ln. The curve's
//! own exp and ln are not counted, nor is the judge's work; that tells beforehand
//! how many evaluations there must be.

use crate::judge::{Case, Job, Run, Search, Trace};
use crate::numbers::Numbers;
use crate::{confront, judge, shim, slips::Slip};
use std::io::Read;

/// A line for each job of the file on standard input.
pub fn main() -> i32 {
    let mut bytes = Vec::new();
    std::io::stdin().read_to_end(&mut bytes).expect("standard input can be read");
    let Some(run) = judge::read(&bytes, Slip::Nothing) else {
        eprintln!("oracle counts: the file breaks its layout");
        return 1;
    };
    for (number, job) in run.jobs.iter().enumerate() {
        match counted(&run, job) {
            Ok(line) => println!("{number} {} {line}", job.kind),
            Err(why) => {
                eprintln!("oracle counts: job {number}: {why}");
                return 1;
            }
        }
    }
    0
}

/// The rates at which a search is to ask: the Rust's, and those of a search
/// that ends with the first halving which leaves its ends as they were.
struct Evaluations {
    rust: usize,
    until_still: usize,
}

fn evaluations(search: &Search, trail: &[f64], ends_again: bool) -> Evaluations {
    let rungs = search.rungs[0] + search.rungs[1] + 2;
    let mut ends = [-0.5, 0.5];
    for (end, rung) in ends.iter_mut().zip(search.rungs) {
        *end *= 2f64.powi(rung as i32);
    }
    // A midpoint was put for the lower end where it lies at or below the last
    // one, else for the upper.
    let still = trail.iter().position(|middle| {
        let side = usize::from(*middle > search.ends[0]);
        std::mem::replace(&mut ends[side], *middle).to_bits() == middle.to_bits()
    });
    Evaluations {
        rust: confront::rates_asked(search, trail, ends_again).len(),
        until_still: rungs as usize + still.map_or(trail.len(), |place| place + 1),
    }
}

fn counted(run: &Run, job: &Job) -> Result<String, String> {
    let (option, kind) = (job.b, job.kind);
    if !matches!(kind, 5 | 6 | 7 | 10 | 11) || run.coupons.is_empty() {
        return Err("only kinds 5, 6, 7, 10 and 11, with coupons, are counted".into());
    }
    let judged = |job: Job, trace: &mut Trace| {
        let case = Case { run, job, n: Numbers::RIGHT };
        let answer = case.answer(trace);
        if answer.code != 0 {
            return Err(format!("refused as {}", answer.code));
        }
        confront::job(&case, &answer, trace)?;
        Ok(answer)
    };
    let mut trace = Trace::default();
    let answer = judged(*job, &mut trace)?;
    // A fit prices at every sigma that it asks at as kind 5 does.
    let mut expected = Vec::new();
    if kind >= 10 {
        if !answer.fit.converged {
            return Err("the fit does not converge".into());
        }
        for (sigma, _) in &trace.asked {
            let at_sigma = Job { kind: 5, c: *sigma, ..*job };
            let mut trace = Trace::default();
            let answer = judged(at_sigma, &mut trace)?;
            expected.push(evaluations(&answer.search, &trace.trail, false));
        }
    } else {
        expected.push(evaluations(&answer.search, &trace.trail, kind != 5));
    }
    let (result, asked) = shim::with_asked(|| confront::rust(run, job));
    result.map_err(|error| format!("the Rust refuses: {error}"))?;
    // t + h is looked up by A alone, once; -alpha × (T - t) is an argument of B alone, once.
    let next_day = option + 1.0 / 365.0;
    let of_b: Vec<u64> = run
        .coupons
        .iter()
        .map(|coupon| (-run.alpha * (coupon.0 - option)).to_bits())
        .collect();
    Ok(format!(
        "coupons {} searches {} evaluations {} until_still {} lookups {} between {} a {} b {} exp {} ln {}",
        run.coupons.len(),
        expected.len(),
        expected.iter().map(|one| one.rust).sum::<usize>(),
        expected.iter().map(|one| one.until_still).sum::<usize>(),
        asked.lookups.len(),
        asked.between.len(),
        asked.lookups.iter().filter(|time| **time == next_day).count(),
        asked.exps.iter().filter(|x| of_b.contains(&x.to_bits())).count(),
        asked.exps.len(),
        asked.lns.len(),
    ))
}
