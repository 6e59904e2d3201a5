//! Puts an accepted job to the cut-out Rust and compares, bit by bit, all that
//! the Rust gives: values, critical rates, every rate at which a search asked,
//! every sigma at which a fit asked with its residual, status, points of a
//! path. NaNs are not told apart. Kind 13 the Rust does not have; of it the walk alone
//! is compared, by the rates that kind 12 has over it.

use crate::cut::{self, hullwhitecalibration as calibration, parameters, pricer};
use crate::cut::{CapletQuote, HullWhite};
use crate::judge::{Answer, Basket, Caplet, Case, Fit, Job, Run, Search, Trace};
use crate::shim::{self, TableCurve};

type Check = Result<(), String>;

pub fn same(one: f64, other: f64) -> bool {
    one.to_bits() == other.to_bits() || (one.is_nan() && other.is_nan())
}

fn equal(what: &str, judged: f64, rust: f64) -> Check {
    if same(judged, rust) {
        Ok(())
    } else {
        Err(format!(
            "{what}: judge {:016x} ({judged:e}), Rust {:016x} ({rust:e})",
            judged.to_bits(),
            rust.to_bits()
        ))
    }
}

fn served<T>(what: &str, result: shim::Result<T>) -> Result<T, String> {
    result.map_err(|error| format!("{what}: the Rust refuses: {error}"))
}

/// What the Rust returns for a job, asked as it stands, with no rule of
/// document 01 before it; for kind 13 kind 12's path.
pub fn rust(run: &Run, job: &Job) -> shim::Result<Vec<f64>> {
    let Job { kind, a, b, c, d } = *job;
    let curve = TableCurve::new(&run.curve);
    let model = HullWhite::new(run.alpha, &curve);
    let value = match kind {
        1 => model.caplet_price(a, b, c, d, &curve)?,
        2 => model.floorlet_price(a, b, c, d, &curve)?,
        3 => model.bond_put_price(a, b, c, d, &curve)?,
        4 => model.bond_call_price(a, b, c, d, &curve)?,
        5 => cut::model_swaption(run.alpha, &curve, &run.coupons, a, b, c)?,
        6 | 7 => cut::pricer_swaption(
            run.alpha,
            &run.pillars,
            &run.curve,
            &run.coupons,
            kind == 6,
            a,
            b,
            c,
            d,
        )?,
        8..=11 => calibration::solve(run.alpha, &curve, &instrument(run, job))?.x,
        _ => return cut::path(run.alpha, &run.pillars, &curve, &run.grid),
    };
    Ok(vec![value])
}

pub fn quote(one: &Caplet) -> CapletQuote {
    CapletQuote {
        normal: one.normal,
        strike: one.strike,
        start: one.start,
        end: one.end,
        volatility: one.volatility,
    }
}

/// The Rust's instrument for kinds 8 to 11; its dates are laid out.
pub fn instrument(run: &Run, job: &Job) -> shim::CalibrationInstrument {
    let Job { kind, a, b, c, d } = *job;
    match kind {
        8 | 9 => {
            let one = CapletQuote {
                normal: kind == 9,
                strike: a,
                start: b,
                end: c,
                volatility: d,
            };
            cut::caplets(&[one]).remove(0)
        }
        _ => cut::swaption(kind == 11, a, b, c, &run.coupons),
    }
}

/// The rates at which the Rust evaluates the sum: it tries rungs 0 to 59 in
/// each ladder (rung 60 is only looked at afterwards), then halves. Between
/// the two `find_critical_rate` asks both ends again.
pub fn rates_asked(search: &Search, trail: &[f64], ends_again: bool) -> Vec<f64> {
    let mut rates = Vec::new();
    for (rung, first) in [(search.rungs[0], -0.5), (search.rungs[1], 0.5)] {
        rates.extend((0..=rung.min(59)).map(|step| first * 2f64.powi(step as i32)));
    }
    if ends_again {
        rates.push(-0.5 * 2f64.powi(search.rungs[0] as i32));
        rates.push(0.5 * 2f64.powi(search.rungs[1] as i32));
    }
    rates.extend(trail);
    rates
}

pub fn job(case: &Case, answer: &Answer, trace: &Trace) -> Check {
    let Case { run, job, .. } = *case;
    match job.kind {
        5 if run.coupons.is_empty() => equal(
            "value",
            answer.value,
            served("swaption_price", rust(run, &job))?[0],
        ),
        5 => model_swaption(run, &job, answer, trace),
        6 | 7 => pricer_swaption(case, answer, trace),
        8..=11 => fit(run, &job, &answer.fit, trace),
        12 => path(&answer.path, run, &job),
        // No Rust stands behind kind 13's shift. The state, its variance and the forward are
        // those of kind 12, whose rates over them must be the Rust's, finite or not.
        13 => {
            let rates = case
                .walk(|place| case.rust_rate(place))
                .map_err(|code| format!("walk: refusal {code}"))?;
            path(&rates, run, &job)
        }
        _ => equal("value", answer.value, served("price", rust(run, &job))?[0]),
    }
}

/// Every point against `generate`.
fn path(judged: &[f64], run: &Run, job: &Job) -> Check {
    let points = served("generate", rust(run, job))?;
    if points.len() != judged.len() {
        return Err("path: another number of points".into());
    }
    for (place, (judged, rust)) in judged.iter().zip(&points).enumerate() {
        equal(&format!("point {place}"), *judged, *rust)?;
    }
    Ok(())
}

/// Kind 5. In one evaluation of the sum the Rust calls exp five times for each
/// coupon (three in A, one in B, the last at -B × rate).
fn model_swaption(run: &Run, job: &Job, answer: &Answer, trace: &Trace) -> Check {
    let (result, exps) = shim::with_trace(|| rust(run, job));
    equal("value", answer.value, served("swaption_price", result)?[0])?;
    let curve = TableCurve::new(&run.curve);
    let model = HullWhite::new(run.alpha, &curve);
    let bs: Vec<f64> = run
        .coupons
        .iter()
        .map(|coupon| model.B(job.b, coupon.0))
        .collect();
    let mut asked = exps.iter().skip(4).step_by(5);
    let mut rates = rates_asked(&answer.search, &trace.trail, false);
    for (place, rate) in rates.iter().enumerate() {
        for b in &bs {
            let seen = asked.next().copied().unwrap_or(f64::NAN);
            equal(&format!("evaluation {place} of the sum"), -b * rate, seen)?;
        }
    }
    // The first bond strike follows, at the rate itself.
    rates.push(answer.search.rate);
    equal(
        "the critical rate",
        -bs[0] * answer.search.rate,
        asked.next().copied().unwrap_or(f64::NAN),
    )
}

/// Kinds 6 and 7: the value by `swaption_value`, and beside it the terms, the
/// variance, the search and the Newton step by the Rust's own functions.
fn pricer_swaption(case: &Case, answer: &Answer, trace: &Trace) -> Check {
    let Case { run, job, .. } = *case;
    equal(
        "value",
        answer.value,
        served("swaption_value", rust(run, &job))?[0],
    )?;
    let variance = parameters::hull_white_piecewise_variance(run.alpha, &run.pillars, 0.0, job.b);
    equal("variance", case.variance(0.0, job.b), variance)?;
    let judged = case
        .pricer_terms(job.a, job.b, variance)
        .map_err(|code| format!("terms: refusal {code}"))?;
    let payments: Vec<(f64, f64)> = judged
        .iter()
        .zip(&run.coupons)
        .map(|(term, coupon)| (term.coefficient, coupon.0))
        .collect();
    let curve = TableCurve::new(&run.curve);
    let terms = served(
        "terms",
        pricer::terms(run.alpha, job.b, variance, &curve, &payments),
    )?;
    for (term, rust) in judged.iter().zip(&terms) {
        equal("A of a term", term.a, rust.1)?;
        equal("B of a term", term.b, rust.2)?;
    }
    let (rate, exps) = shim::with_trace(|| pricer::critical_rate(&terms));
    let rate = served("find_critical_rate", rate)?;
    equal("the critical rate", answer.search.rate, rate)?;
    let rates = rates_asked(&answer.search, &trace.trail, true);
    if exps.len() != rates.len() * terms.len() {
        return Err(format!(
            "the search: judge asks at {} rates, the Rust calls exp {} times",
            rates.len(),
            exps.len()
        ));
    }
    let mut asked = exps.iter();
    for (place, at) in rates.iter().enumerate() {
        for term in &terms {
            equal(
                &format!("evaluation {place} of the sum"),
                -term.2 * at,
                *asked.next().unwrap(),
            )?;
        }
    }
    equal(
        "the rate after the Newton step",
        answer.search.newton,
        served("implicit_critical_rate", pricer::newton_rate(&terms, rate))?,
    )
}

/// How often the Rust halved: it asked at two ends, at each halving, and for an
/// unconverged fit once more at the end.
fn halvings(solved: &calibration::Solved) -> usize {
    solved.asked.len() - if solved.converged { 2 } else { 3 }
}

/// Kinds 8 to 11.
fn fit(run: &Run, job: &Job, judged: &Fit, trace: &Trace) -> Check {
    let curve = TableCurve::new(&run.curve);
    let instrument = instrument(run, job);
    let rust = served("solve", calibration::solve(run.alpha, &curve, &instrument))?;
    equal("sigma", judged.sigma, rust.x)?;
    equal("residual", judged.residual, rust.f)?;
    if judged.converged != rust.converged {
        return Err(format!(
            "status: judge {}, Rust {}",
            judged.converged, rust.converged
        ));
    }
    asked_alike(&trace.asked, &rust.asked)?;
    if judged.halvings as usize != halvings(&rust) {
        return Err(format!(
            "halvings: judge {}, Rust {}",
            judged.halvings,
            halvings(&rust)
        ));
    }
    // Each end was asked, and had that residual; the sigma lies midway.
    for (end, value) in judged.ends.iter().zip(judged.end_residuals) {
        let Some(at) = rust.asked.iter().find(|at| same(at.0, *end)) else {
            return Err(format!("the Rust never asked at the end {end:e}"));
        };
        equal("an end's residual", value, at.1)?;
    }
    equal(
        "the midpoint of the ends",
        crate::elementary::midpoint(judged.ends[0], judged.ends[1]),
        rust.x,
    )?;
    // A caplet is put to calibrate_to_instruments too; that may refuse where
    // the bumped fit does.
    if matches!(job.kind, 8 | 9) {
        if let Ok((sigmas, _)) = calibration::calibrate(run.alpha, &curve, &[instrument]) {
            equal("sigma of calibrate_to_instruments", judged.sigma, sigmas[0])?;
        }
    }
    Ok(())
}

/// What the solver says of a fit and what `calibrate_to_instruments` makes of
/// it, in words.
pub fn rust_fit(run: &Run, job: &Job) -> String {
    let curve = TableCurve::new(&run.curve);
    let status = match calibration::solve(run.alpha, &curve, &instrument(run, job)) {
        Ok(solved) if solved.converged => "converged",
        Ok(_) => "unconverged",
        Err(_) => "refused",
    };
    match calibration::calibrate(run.alpha, &curve, &[instrument(run, job)]) {
        Ok((sigmas, diagonal)) => format!(
            " {status}, calibrates{}",
            crate::words(&[sigmas[0], diagonal[0]])
        ),
        Err(error) => format!(" {status}, calibration refuses: {error}"),
    }
}

fn asked_alike(judged: &[(f64, f64)], rust: &[(f64, f64)]) -> Check {
    if judged.len() != rust.len() {
        return Err(format!(
            "residuals asked: judge {}, Rust {}",
            judged.len(),
            rust.len()
        ));
    }
    for (place, (one, other)) in judged.iter().zip(rust).enumerate() {
        equal(&format!("sigma {place} asked"), one.0, other.0)?;
        equal(&format!("residual {place}"), one.1, other.1)?;
    }
    Ok(())
}

/// A served basket against `calibrate_to_instruments`.
pub fn basket(alpha: f64, curve: &[(f64, f64)], entries: &[Caplet], judged: &Basket) {
    let curve = TableCurve::new(curve);
    let quotes: Vec<CapletQuote> = entries.iter().map(quote).collect();
    let check = || -> Check {
        let (sigmas, diagonal) = served(
            "calibrate_to_instruments",
            calibration::calibrate(alpha, &curve, &cut::caplets(&quotes)),
        )?;
        for (place, fit) in judged.fits.iter().enumerate() {
            equal(&format!("sigma {place}"), fit.sigma, sigmas[place])?;
            equal(
                &format!("diagonal {place}"),
                judged.diagonal[place],
                diagonal[place],
            )?;
        }
        for (bump, fits) in [(0.0, &judged.fits), (1e-6, &judged.bumped)] {
            for (one, fit) in entries.iter().zip(fits) {
                let bumped = CapletQuote {
                    volatility: if bump == 0.0 {
                        one.volatility
                    } else {
                        one.volatility + bump
                    },
                    ..quote(one)
                };
                let rust = served(
                    "solve",
                    calibration::solve(alpha, &curve, &cut::caplets(&[bumped])[0]),
                )?;
                equal("a fit's sigma", fit.sigma, rust.x)?;
                equal("a fit's residual", fit.residual, rust.f)?;
                if fit.converged != rust.converged {
                    return Err("a fit's status".into());
                }
                if fit.halvings as usize != halvings(&rust) {
                    return Err("a fit's halvings".into());
                }
            }
        }
        Ok(())
    };
    if let Err(what) = check() {
        panic!("oracle: the judge and the Rust disagree: basket: {what}");
    }
}
