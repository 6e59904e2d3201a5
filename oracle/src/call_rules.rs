//! What a call of the library must give: the refusals by the judge's reading of
//! documents 01 and 02, and where it serves, the bits of the Rust.
//!
//! Kinds 1 to 13 and the basket are judged by `judge.rs` and put to the Rust by
//! `confront.rs`, of kind 13 the walk alone; here stand rule 1 of every call, the
//! rules of the calls that are no kind, and the reports. A served call that is no
//! kind is the Rust's own function. A path over a seed (A.5) is the path over the draws
//! that the judge makes of it (`draws.rs`).

use crate::abi::{self, Arg, Call, Outcome};
use crate::confront;
use crate::cut::norm_cdf::NormCDF;
use crate::cut::{
    self, hullwhitecalibration, hullwhitemodel, parameters, pricer, utils, HullWhite,
};
use crate::draws;
use crate::elementary;
use crate::judge::{self, Answer, Caplet, Case, Job, Run, Search, Term, Trace};
use crate::numbers::Numbers;
use crate::shim::{self, DualFwd, TableCurve};
use crate::slips::{self, Slip};
use std::cell::RefCell;

const H: f64 = 1.0 / 365.0;

/// The library's CALSTWID_PIECE_BYTES.
pub const PIECE_BYTES: usize = 131_072;

/// The right outcome.
pub fn expected(call: &Call) -> Result<Outcome, String> {
    judged(call, "")
}

/// The outcome by a judge that makes the named slip of `RULE_SLIPS`, or none. An
/// error is a disagreement between the judge and the Rust.
pub fn judged(call: &Call, slip: &str) -> Result<Outcome, String> {
    if call.table().is_ground() {
        return Ok(Outcome {
            words: vec![ground(call, slip).to_bits()],
            written: Vec::new(),
        });
    }
    if let "piece" = call.name() {
        return Ok(piece(call, slip));
    }
    if slip == "order-1" && has_bad_number(call) {
        return Ok(call.refused(2));
    }
    if slip == "14-before-1" && seed(call) == Some(0) {
        return Ok(call.refused(14));
    }
    if slip == "65-pillars-15" && call.length(1) > 64 && call.length(1) == call.length(2) {
        return Ok(call.refused(15));
    }
    if breaks_rule_1(call, slip) {
        return Ok(call.refused(1));
    }
    if !slip.is_empty() && breaks_rule_1(call, "") {
        // Let through by the slip; no answer has that number.
        return Ok(call.refused(99));
    }
    match call.name() {
        "calibrate_to_instruments" => Ok(basket(call, slip)),
        "find_critical_rate" | "implicit_critical_rate" => critical_rate(call, slip),
        "draws" => Ok(draws(call, slip)),
        name if listed(name).is_some() => seeded(call, slip),
        _ if kind(call.name()).is_some() => job(call, slip),
        _ => no_kind(call, slip),
    }
}

// ------------------------------------------------------------------- rule 1

/// The lists of a call that belong together, and how many records they may have.
pub fn groups(name: &str) -> &'static [(&'static [usize], usize)] {
    match name {
        "A" | "zcb_price" | "theta" | "caplet_price" | "floorlet_price" | "bond_put_price"
        | "bond_call_price" | "fit_caplet_black" | "fit_caplet_normal" => &[(&[1, 2], 2048)],
        "forward_rate_from_curve" => &[(&[0, 1], 2048)],
        "swap_annuity_from_curve" => &[(&[0, 1], 2048), (&[2, 3], 64)],
        "volatility" | "pillars_reached" => &[(&[0, 1], 64)],
        "hull_white_piecewise_variance" | "transition_variances" => &[(&[1, 2], 64)],
        "swaption_price" | "fit_swaption_black" | "fit_swaption_normal" => {
            &[(&[1, 2], 2048), (&[3, 4], 64)]
        }
        "payer_swaption_value" | "receiver_swaption_value" => {
            &[(&[1, 2], 64), (&[3, 4], 2048), (&[5, 6, 7], 64)]
        }
        "calibrate_to_instruments" => &[(&[1, 2], 2048), (&[3, 4, 5, 6, 7], 64)],
        "find_critical_rate" | "implicit_critical_rate" => &[(&[0, 1, 2], 64)],
        "generate" | "generate_published" => &[(&[1, 2], 64), (&[3, 4], 2048), (&[5, 6], 1024)],
        "generate_seeded" | "generate_published_seeded" => {
            &[(&[1, 2], 64), (&[3, 4], 2048), (&[5], 1024)]
        }
        _ => &[],
    }
}

fn breaks_rule_1(call: &Call, slip: &str) -> bool {
    let limit_of = |limit: usize| match slip {
        "limits-exclusive" => limit - 1,
        "limits-one-more" => limit + 1,
        _ => limit,
    };
    for (places, limit) in groups(call.name()) {
        let lengths: Vec<usize> = places.iter().map(|place| call.length(*place)).collect();
        let paired = match slip {
            "longer-second-passes" => lengths.windows(2).all(|two| two[0] <= two[1]),
            "shorter-second-passes" => lengths.windows(2).all(|two| two[0] >= two[1]),
            "sigmas-without-times" if lengths[0] == 0 => true,
            "times-without-sigmas" if lengths[1] == 0 => true,
            _ => lengths.iter().all(|length| *length == lengths[0]),
        };
        if !paired || lengths.iter().any(|length| *length > limit_of(*limit)) {
            return true;
        }
    }
    let room_short = |room: usize, needed: u64| match slip {
        "room-any" => false,
        "room-one-more" => (room as u64) <= needed,
        "room-exact" => room as u64 != needed,
        _ => (room as u64) < needed,
    };
    match call.name() {
        "transition_variances" => {
            let steps = call.size(3);
            steps > limit_of(1024) as u64 || room_short(call.length(5), steps)
        }
        "draws" => {
            let most = match slip {
                "1024-draws-refused" => draws::MOST - 1,
                "1025-draws-pass" => draws::MOST + 1,
                _ => draws::MOST,
            };
            call.length(1) > most
        }
        name if is_path(name) => room_short(call.length(7), call.length(5) as u64),
        _ => false,
    }
}

fn has_bad_number(call: &Call) -> bool {
    call.args.iter().any(|arg| match arg {
        Arg::Number(number) => !number.is_finite(),
        Arg::Floats(list) => list.iter().any(|number| !number.is_finite()),
        _ => false,
    })
}

// -------------------------------------------------------- kinds and baskets

/// The number of a call that is a kind.
pub fn kind(name: &str) -> Option<u64> {
    Some(match name {
        "caplet_price" => 1,
        "floorlet_price" => 2,
        "bond_put_price" => 3,
        "bond_call_price" => 4,
        "swaption_price" => 5,
        "payer_swaption_value" => 6,
        "receiver_swaption_value" => 7,
        "fit_caplet_black" => 8,
        "fit_caplet_normal" => 9,
        "fit_swaption_black" => 10,
        "fit_swaption_normal" => 11,
        "generate" => 12,
        "generate_published" => 13,
        _ => return None,
    })
}

/// Of a path that names a seed the call that is given its draws as a list.
pub fn listed(name: &str) -> Option<&'static str> {
    Some(match name {
        "generate_seeded" => "generate",
        "generate_published_seeded" => "generate_published",
        _ => return None,
    })
}

/// The four calls for a path, whose grid and output stand in the same places.
pub fn is_path(name: &str) -> bool {
    matches!(kind(listed(name).unwrap_or(name)), Some(12 | 13))
}

/// The judge's arithmetic with the slip of that name, if it is one of its own.
fn numbers(slip: &str) -> Numbers {
    Numbers {
        slip: slips::named(slip).unwrap_or(Slip::Nothing),
    }
}

fn pairs(call: &Call, first: usize) -> Vec<(f64, f64)> {
    let (one, other) = (call.floats(first), call.floats(first + 1));
    one.iter()
        .zip(other)
        .map(|(one, other)| (*one, *other))
        .collect()
}

/// The call as a job over lists.
pub fn as_job(call: &Call, kind: u64) -> (Run, Job) {
    let x = |place: usize| call.number(place);
    let mut run = Run {
        alpha: x(0),
        ..Run::default()
    };
    let mut job = Job {
        kind,
        ..Job::default()
    };
    match kind {
        1..=4 | 8 | 9 => {
            run.curve = pairs(call, 1);
            (job.a, job.b, job.c, job.d) = (x(3), x(4), x(5), x(6));
        }
        5 | 10 | 11 => {
            run.curve = pairs(call, 1);
            run.coupons = pairs(call, 3)
                .iter()
                .map(|two| (two.0, two.1, 0.0))
                .collect();
            (job.a, job.b, job.c) = (x(5), x(6), x(7));
        }
        6 | 7 => {
            run.pillars = pairs(call, 1);
            run.curve = pairs(call, 3);
            let own = call.floats(7);
            run.coupons = pairs(call, 5)
                .iter()
                .zip(own)
                .map(|(two, own)| (two.0, two.1, *own))
                .collect();
            (job.a, job.b, job.c, job.d) = (x(8), x(9), x(10), x(11));
        }
        _ => {
            run.pillars = pairs(call, 1);
            run.curve = pairs(call, 3);
            run.grid = pairs(call, 5);
        }
    }
    (run, job)
}

fn job(call: &Call, slip: &str) -> Result<Outcome, String> {
    let (run, job) = as_job(call, kind(call.name()).unwrap());
    let case = Case {
        run: &run,
        job,
        n: numbers(slip),
    };
    let mut trace = Trace::default();
    let answer = case.answer(&mut trace);
    if answer.code == 0 && slip.is_empty() {
        confront::job(&case, &answer, &trace)?;
    }
    Ok(job_outcome(call, job.kind, &answer))
}

// ------------------------------------------------------------- stated draws

/// The seed of a call that names one.
fn seed(call: &Call) -> Option<u64> {
    call.table().position("seed").map(|place| call.size(place))
}

/// Document 02, A.5: "A library call for a path may name a seed in place of its list of
/// draws", "A zero seed is refused as 14, directly after rule 6".
fn seeded(call: &Call, slip: &str) -> Result<Outcome, String> {
    let (seed, grid) = (taken(call.size(6), slip), call.length(5));
    let name = match (listed(call.name()).unwrap(), slip) {
        ("generate", "the-other-kind") => "generate_published",
        (_, "the-other-kind") => "generate",
        (name, _) => name,
    };
    let mut over_draws = call.clone();
    over_draws.function = abi::named(name).unwrap();
    over_draws.args[6] = Arg::Floats(draws::drawn(seed, grid, slip).0);
    let path = job(&over_draws, slip)?;
    // The rules that come before 14, in document 02's order behind rule 1.
    let before: &[u64] = match slip {
        "14-before-2" => &[],
        "14-before-5" => &[2, 3, 4],
        "14-before-6" => &[2, 3, 4, 5],
        "14-behind-7" => &[2, 3, 4, 5, 6, 7],
        "14-behind-15" => &[2, 3, 4, 5, 6, 7, 15],
        "14-behind-8" => &[2, 3, 4, 5, 6, 7, 15, 8],
        "14-last" => &[2, 3, 4, 5, 6, 7, 15, 8, 13],
        _ => &[2, 3, 4, 5, 6],
    };
    let passes = slip == "14-with-a-grid-alone" && grid == 0;
    Ok(match path.words[0] {
        code if code != 0 && before.contains(&code) => call.refused(code),
        _ if meets_14(seed, slip) && !passes => zero_seed(call, path.written, slip),
        0 => Outcome {
            words: vec![
                0,
                grid as u64,
                draws::left(seed, grid, call.length(7), slip),
            ],
            written: path.written,
        },
        code => call.refused(code),
    })
}

/// The call that fills a lent list with draws and does nothing else: rule 1 is behind it, 14
/// is all that is left to meet.
fn draws(call: &Call, slip: &str) -> Outcome {
    let (seed, count) = (taken(call.size(0), slip), call.length(1));
    let (draws, _) = draws::drawn(seed, count, slip);
    let written = draws.iter().map(|draw| draw.to_bits()).collect();
    if meets_14(seed, slip) && !(slip == "14-with-draws-alone" && count == 0) {
        return zero_seed(call, written, slip);
    }
    Outcome {
        words: vec![0, count as u64, draws::left(seed, count, count, slip)],
        written,
    }
}

fn taken(seed: u64, slip: &str) -> u64 {
    if seed == 0 && slip == "zero-seed-as-1" {
        1
    } else {
        seed
    }
}

fn meets_14(seed: u64, slip: &str) -> bool {
    match slip {
        "zero-seed-passes" => false,
        "seed-1-refused" => seed <= 1,
        "low-half-0-refused" => seed as u32 == 0,
        "high-half-0-refused" => seed >> 32 == 0,
        "top-bit-refused" => seed == 0 || seed >> 63 == 1,
        _ => seed == 0,
    }
}

/// The refusal by 14; with a slip the output is filled nonetheless.
fn zero_seed(call: &Call, written: Vec<u64>, slip: &str) -> Outcome {
    let mut refused = call.refused(14);
    if slip == "14-written" {
        refused.written = written;
    }
    refused
}

fn job_outcome(call: &Call, kind: u64, answer: &Answer) -> Outcome {
    let code = u64::from(answer.code);
    if code != 0 {
        return call.refused(code);
    }
    let value = answer.value.to_bits();
    let words = match kind {
        1..=4 => vec![0, value],
        5 => [vec![0, value], search_words(&answer.search)].concat(),
        6 | 7 => {
            let newton = answer.search.newton.to_bits();
            [vec![0, value, newton], search_words(&answer.search)].concat()
        }
        8..=11 => {
            let fit = &answer.fit;
            let floats = [
                fit.sigma,
                fit.residual,
                fit.ends[0],
                fit.ends[1],
                fit.end_residuals[0],
                fit.end_residuals[1],
            ];
            let mut words = vec![0];
            words.extend(floats.iter().map(|float| float.to_bits()));
            words.extend([u64::from(fit.halvings), u64::from(fit.converged)]);
            words
        }
        _ => vec![0, answer.path.len() as u64],
    };
    Outcome {
        words,
        written: answer.path.iter().map(|float| float.to_bits()).collect(),
    }
}

/// Rate, ends, sums, rungs.
fn search_words(search: &Search) -> Vec<u64> {
    let floats = [
        search.rate,
        search.ends[0],
        search.ends[1],
        search.sums[0],
        search.sums[1],
    ];
    let mut words: Vec<u64> = floats.iter().map(|float| float.to_bits()).collect();
    words.extend(search.rungs.map(u64::from));
    words
}

fn basket(call: &Call, slip: &str) -> Outcome {
    let Arg::Bools(normals) = &call.args[3] else {
        unreachable!()
    };
    let entries: Vec<Caplet> = normals
        .iter()
        .enumerate()
        .map(|(place, normal)| Caplet {
            normal: *normal,
            strike: call.floats(4)[place],
            start: call.floats(5)[place],
            end: call.floats(6)[place],
            volatility: call.floats(7)[place],
        })
        .collect();
    let answer = judge::basket(call.number(0), &pairs(call, 1), &entries, numbers(slip));
    if answer.code != 0 {
        return call.refused(u64::from(answer.code));
    }
    let status = |converged: bool| f64::from(u8::from(converged));
    let fits = &answer.fits;
    let lists: [Vec<f64>; 6] = [
        fits.iter().map(|fit| fit.sigma).collect(),
        fits.iter().map(|fit| status(fit.converged)).collect(),
        fits.iter().map(|fit| f64::from(fit.halvings)).collect(),
        fits.iter().map(|fit| fit.residual).collect(),
        answer.diagonal.clone(),
        answer
            .bumped
            .iter()
            .map(|fit| status(fit.converged))
            .collect(),
    ];
    let mut words = vec![0, fits.len() as u64];
    for list in &lists {
        words.extend((0..64).map(|place| list.get(place).map_or(0, |float| float.to_bits())));
    }
    Outcome {
        words,
        written: Vec::new(),
    }
}

// -------------------------------------------------------- the critical rate

/// Rules 1 and 2, the search, the step, 13; compared with the Rust rate by rate.
fn critical_rate(call: &Call, slip: &str) -> Result<Outcome, String> {
    let stepping = call.name() == "implicit_critical_rate";
    if has_bad_number(call) {
        return Ok(call.refused(2));
    }
    let rows: Vec<(f64, f64, f64)> = (0..call.length(0))
        .map(|place| {
            (
                call.floats(0)[place],
                call.floats(1)[place],
                call.floats(2)[place],
            )
        })
        .collect();
    let terms: Vec<Term> = rows
        .iter()
        .map(|&(coefficient, a, b)| Term { coefficient, a, b })
        .collect();
    let run = Run::default();
    let case = Case {
        run: &run,
        job: Job {
            kind: 6,
            ..Job::default()
        },
        n: numbers(slip),
    };
    if rows.is_empty() && slip == "no-terms-7" {
        return Ok(call.refused(7));
    }
    let mut trail = Vec::new();
    let searched = case.search(&terms, true, &mut trail).and_then(|mut found| {
        if stepping {
            found.newton = case.newton(&terms, found.rate)?;
        }
        let floats = [found.ends, found.sums, [found.rate, found.newton]];
        let finite = floats.iter().flatten().all(|float| float.is_finite());
        if finite || slip == "13-not-looked" {
            Ok(found)
        } else {
            Err(13)
        }
    });
    let found = match searched {
        Ok(found) => found,
        Err(code) => return Ok(call.refused(u64::from(code))),
    };
    if slip.is_empty() {
        as_the_rust(&rows, &found, &trail, stepping)?;
    }
    let mut words = vec![0];
    if stepping {
        words.push(found.newton.to_bits());
    }
    words.extend(search_words(&found));
    Ok(Outcome {
        words,
        written: Vec::new(),
    })
}

fn as_the_rust(
    rows: &[(f64, f64, f64)],
    found: &Search,
    trail: &[f64],
    stepping: bool,
) -> Result<(), String> {
    let same = |what: &str, judged: f64, rust: f64| {
        if confront::same(judged, rust) {
            Ok(())
        } else {
            Err(format!("{what}: judge {judged:e}, Rust {rust:e}"))
        }
    };
    let told = |error: shim::QSError| format!("the Rust refuses: {error}");
    let (rate, exps) = shim::with_trace(|| pricer::critical_rate(rows));
    let rate = rate.map_err(told)?;
    same("the critical rate", found.rate, rate)?;
    let rates = confront::rates_asked(found, trail, true);
    if exps.len() != rates.len() * rows.len() {
        return Err(format!(
            "the search: {} rates asked, exp called {} times",
            rates.len(),
            exps.len()
        ));
    }
    let asked = rates
        .iter()
        .flat_map(|rate| rows.iter().map(move |row| -row.2 * rate));
    for (judged, rust) in asked.zip(&exps) {
        same("a rate of the search", judged, *rust)?;
    }
    if stepping {
        let newton = pricer::newton_rate(rows, rate).map_err(told)?;
        same("the rate after the step", found.newton, newton)?;
    }
    Ok(())
}

// ----------------------------------------------------- calls that are no kind

/// What the rules look at in a call that is no kind.
#[derive(Default)]
struct Used {
    alpha: Option<f64>,
    /// Lists of times that must strictly rise.
    rising: Vec<Vec<f64>>,
    /// The option time, and a time that must lie above it.
    option: Option<f64>,
    later: Option<f64>,
    /// A time that must be above 0.
    above_0: Option<f64>,
    /// Sigmas, which may be 0; and what must be above 0.
    sigmas: Vec<f64>,
    positive: Vec<f64>,
    /// A pillar list that may not be empty.
    pillars: Option<usize>,
    /// Times at which the curve must have a factor.
    needed: Vec<f64>,
}

fn used(call: &Call, slip: &str) -> Used {
    let name = call.name();
    let table = call.table();
    let at = |argument: &str| table.position(argument);
    let number = |argument: &str| at(argument).map(|place| call.number(place));
    let list = |argument: &str| at(argument).map(|place| call.floats(place).to_vec());
    let mut used = Used {
        alpha: number("alpha"),
        option: number("t").or(number("start")),
        later: number("bond").or(number("end")),
        above_0: number("tau").or(number("time_step")),
        ..Used::default()
    };
    used.rising.extend(list("times"));
    used.rising.extend(list("pillars"));
    used.sigmas.extend(number("sigma"));
    used.sigmas.extend(list("sigmas").unwrap_or_default());
    used.positive.extend(list("factors").unwrap_or_default());
    used.positive.extend(number("vol"));
    // "A Black strike is not above 0": of d1_d2 and Black's calls, not Bachelier's.
    if name != "bachelier_call" || slip == "bachelier-strike-checked" {
        used.positive.extend(number("strike"));
    }
    if slip == "forward-checked" {
        used.positive.extend(number("fwd"));
    }
    // "the piecewise variance alone takes any finite alpha"
    if name == "hull_white_piecewise_variance" && slip != "variance-alpha-checked" {
        used.alpha = None;
    }
    let looked_up = matches!(
        name,
        "volatility" | "pillars_reached" | "transition_variances"
    );
    if looked_up || (slip == "empty-variance-refused" && name == "hull_white_piecewise_variance") {
        used.pillars = at("pillars").map(|place| call.length(place));
    }
    if let Some(t) = used.option.filter(|_| at("times").is_some()) {
        used.needed = match name {
            // "2 h" is exact, so the sum rounds once either way.
            "theta" => {
                let before = t > H || (slip == "theta-closed" && t >= H);
                vec![t, t + H, if before { t - H } else { t + 2.0 * H }]
            }
            _ => vec![t, t + H],
        };
        used.needed.extend(used.later);
        if slip == "step-not-needed" {
            used.needed.retain(|time| *time != t + H);
        }
    }
    if name == "swap_annuity_from_curve" {
        used.needed = list("payments").unwrap_or_default();
        if slip == "annuity-times-checked" {
            used.option = Some(0.0);
            used.later = used.needed.iter().copied().reduce(f64::min);
        }
        if slip == "empty-annuity-refused" {
            used.pillars = Some(used.needed.len());
        }
    }
    used
}

fn breaks(call: &Call, used: &Used, rule: u64, slip: &str) -> bool {
    match rule {
        2 => match slip {
            "infinities-pass" => call.args.iter().any(|arg| match arg {
                Arg::Number(number) => number.is_nan(),
                Arg::Floats(list) => list.iter().any(|number| number.is_nan()),
                _ => false,
            }),
            "lists-unchecked" => call
                .args
                .iter()
                .any(|arg| matches!(arg, Arg::Number(number) if !number.is_finite())),
            _ => has_bad_number(call),
        },
        3 => used
            .alpha
            .is_some_and(|alpha| alpha < 0.0 || (alpha == 0.0 && slip != "alpha-zero-passes")),
        4 => {
            let rises =
                |two: &[f64]| two[0] < two[1] || (slip == "rising-loosely" && two[0] == two[1]);
            used.rising.iter().any(|times| !times.windows(2).all(rises))
        }
        5 => {
            let early = used.option.is_some_and(|option| {
                option < 0.0
                    || (slip == "option-zero-refused" && option == 0.0)
                    || (slip == "minus-zero-refused" && option == 0.0 && option.is_sign_negative())
            });
            let before = match (used.option, used.later) {
                (Some(option), Some(later)) => {
                    !(later > option || (slip == "later-equal-passes" && later == option))
                }
                _ => false,
            };
            let nothing = used
                .above_0
                .is_some_and(|time| time < 0.0 || (time == 0.0 && slip != "tau-zero-passes"));
            early || before || nothing
        }
        6 => {
            let zero_refused = slip == "sigma-zero-refused";
            used.sigmas
                .iter()
                .any(|sigma| *sigma < 0.0 || (zero_refused && *sigma == 0.0))
                || used
                    .positive
                    .iter()
                    .any(|number| *number < 0.0 || (*number == 0.0 && slip != "zeros-pass"))
        }
        7 => used.pillars == Some(0) && slip != "no-pillars-pass",
        _ => {
            let (n, curve) = (numbers(slip), curve(call));
            let missing = |time: &f64| judge::factor(&n, &curve, *time).is_err();
            used.needed.iter().any(missing)
        }
    }
}

/// The points of the call's curve; none where it has no curve.
fn curve(call: &Call) -> Vec<(f64, f64)> {
    let place = call.table().position("times");
    place.map_or(Vec::new(), |place| pairs(call, place))
}

/// The curve for the Rust: the call's own, whose factors at the needed times are
/// the judge's; with a slip of the judge's these times with their wrong factors.
fn fetched(call: &Call, used: &Used, slip: &str) -> Result<TableCurve, String> {
    let (n, points) = (numbers(slip), curve(call));
    let judged = |time: f64| (time, judge::factor(&n, &points, time).unwrap_or(f64::NAN));
    let mut needed: Vec<(f64, f64)> = used.needed.iter().map(|time| judged(*time)).collect();
    if n.slip != Slip::Nothing {
        needed.sort_by(|one, other| one.0.total_cmp(&other.0));
        needed.dedup_by(|one, other| one.0 == other.0);
        return Ok(TableCurve::new(&needed));
    }
    let table = TableCurve::new(&points);
    for (time, factor) in needed.iter().filter(|_| slip.is_empty()) {
        if table.find(*time).map(f64::to_bits) != Some(factor.to_bits()) {
            return Err(format!("the factor at {time:e}: judge {factor:e}"));
        }
    }
    Ok(table)
}

/// The order of the rules; with a slip two neighbours exchanged.
fn order(slip: &str) -> Vec<u64> {
    let mut order: Vec<u64> = (2..=8).collect();
    match slip
        .strip_prefix("order-")
        .and_then(|rule| rule.parse::<usize>().ok())
    {
        Some(first) if first > 1 => order.swap(first - 2, first - 1),
        _ => {}
    }
    order
}

fn no_kind(call: &Call, slip: &str) -> Result<Outcome, String> {
    let used = used(call, slip);
    for rule in order(slip) {
        if breaks(call, &used, rule, slip) {
            return Ok(call.refused(rule));
        }
    }
    if call.name() == "pillars_reached" {
        let t = call.number(2);
        let reached = |time: &&f64| match slip {
            "reached-before" => **time < t,
            _ => **time <= t,
        };
        let count = call.floats(0).iter().filter(reached).count();
        return Ok(Outcome {
            words: vec![0, count as u64],
            written: Vec::new(),
        });
    }
    let curve = fetched(call, &used, slip)?;
    let values = match slipped(call, &curve, slip).map_or_else(|| rust(call, &curve), Ok) {
        Ok(values) => values,
        // With a slip the Rust is asked what it need not answer.
        Err(_) if !slip.is_empty() => return Ok(call.refused(99)),
        Err(error) => return Err(format!("the judge serves and the Rust refuses: {error}")),
    };
    if values.iter().any(|value| !value.is_finite()) && slip != "13-not-looked" {
        return Ok(call.refused(13));
    }
    let bits: Vec<u64> = values.iter().map(|value| value.to_bits()).collect();
    Ok(if call.table().writes() {
        Outcome {
            words: vec![0, bits.len() as u64],
            written: bits,
        }
    } else {
        Outcome {
            words: [vec![0], bits].concat(),
            written: Vec::new(),
        }
    })
}

/// The Rust's own function.
fn rust(call: &Call, curve: &TableCurve) -> shim::Result<Vec<f64>> {
    let x = |place: usize| call.number(place);
    let model = || HullWhite::new(x(0), curve);
    let value = match call.name() {
        "B" => model().B(x(1), x(2)),
        "zcb_price_volatility" => model().zcb_price_volatility(x(1), x(2), x(3)),
        "short_rate_variance" => model().short_rate_variance(x(1), x(2), x(3)),
        "A" => model().A(x(3), x(4), x(5), curve)?,
        "zcb_price" => model().zcb_price(x(3), x(4), x(5), x(6), curve)?,
        "theta" => model().theta(x(3), x(4), curve)?,
        "forward_rate_from_curve" => hullwhitemodel::forward_rate(1.0, curve, x(2))?,
        "d1_d2" => {
            let (d1, d2) = utils::d1_d2(x(0), x(1), x(2), x(3))?;
            return Ok(vec![d1, d2]);
        }
        "black_call" => utils::black_call(x(0), x(1), x(2), x(3))?,
        "black_put" => utils::black_put(x(0), x(1), x(2), x(3))?,
        "bachelier_call" => utils::bachelier_call(x(0), x(1), x(2), x(3))?,
        "swap_annuity_from_curve" => {
            let coupons: Vec<(f64, f64, f64)> = pairs(call, 2)
                .iter()
                .map(|two| (two.0, two.1, 0.0))
                .collect();
            cut::lay_out_swap(0.0, &coupons);
            hullwhitecalibration::annuity(curve, coupons.len() as i64)?
        }
        "volatility" => hullwhitecalibration::volatility(&pairs(call, 0), x(2))?,
        "hull_white_piecewise_variance" => {
            parameters::hull_white_piecewise_variance(x(0), &pairs(call, 1), x(3), x(4))
        }
        "transition_variances" => {
            return parameters::transition_variances(
                x(0),
                &pairs(call, 1),
                call.size(3) as usize,
                x(4),
            );
        }
        name => unreachable!("{name}"),
    };
    Ok(vec![value])
}

/// The formula of a call that is no kind, worked with the named mistake; nothing
/// where the slip is none of its formula.
fn slipped(call: &Call, curve: &TableCurve, slip: &str) -> Option<Vec<f64>> {
    let x = |place: usize| call.number(place);
    let factor = |time: f64| curve.find(time).unwrap_or(f64::NAN);
    let (exp, ln, exp_m1) = (elementary::exp, elementary::ln, elementary::exp_m1);
    let forward = |t: f64| -ln(factor(t + H) / factor(t)) / H;
    let b = |alpha: f64, t: f64, bond: f64| (1.0 - exp(-alpha * (bond - t))) / alpha;
    let settled = |alpha: f64, t: f64| 1.0 - exp(-2.0 * alpha * t);
    Some(match (call.name(), slip) {
        ("B", "by-exp-m1") => vec![-exp_m1(-x(0) * (x(2) - x(1))) / x(0)],
        ("zcb_price_volatility", "other-order") => {
            let root = (settled(x(0), x(2)) / (2.0 * x(0))).sqrt();
            vec![x(1) * (b(x(0), x(2), x(3)) * root)]
        }
        ("short_rate_variance", "by-exp-m1") => {
            vec![x(3) * x(3) * -exp_m1(-2.0 * x(0) * (x(2) - x(1))) / (2.0 * x(0))]
        }
        ("A", "unfused") => {
            let b = b(x(0), x(3), x(4));
            let carried = b * forward(x(3)) + ln(factor(x(4)) / factor(x(3)));
            let spread = (((x(5) * x(5)) / (4.0 * x(0))) * settled(x(0), x(3))) * b;
            vec![exp(carried - spread * b)]
        }
        ("zcb_price", "rate-at-0") => {
            let mut other = call.clone();
            other.args[3] = Arg::Number(0.0);
            return rust(&other, curve).ok();
        }
        ("theta", "unfused") => {
            let t = x(3);
            let slope = if t > H {
                (forward(t) - -ln(factor(t) / factor(t - H)) / H) / H
            } else {
                (-ln(factor(t + 2.0 * H) / factor(t + H)) / H - forward(t)) / H
            };
            vec![(x(4) * x(4) / (2.0 * x(0))) * settled(x(0), t) + (x(0) * forward(t) + slope)]
        }
        ("forward_rate_from_curve", "times-365") => {
            vec![-ln(factor(x(2) + H) / factor(x(2))) * 365.0]
        }
        ("d1_d2", "unfused") => {
            let root = x(3).sqrt();
            let d1 = 0.5 * x(2) * root + ln(x(0) / x(1)) / (x(2) * root);
            vec![d1, d1 - x(2) * root]
        }
        ("black_call" | "black_put", "unfused") => {
            let (d1, d2) = utils::d1_d2(x(0), x(1), x(2), x(3)).ok()?;
            vec![if call.name() == "black_call" {
                x(0) * d1.norm_cdf() - x(1) * d2.norm_cdf()
            } else {
                x(1) * (-d2).norm_cdf() - x(0) * (-d1).norm_cdf()
            }]
        }
        ("black_put", "by-parity") => {
            vec![utils::black_call(x(0), x(1), x(2), x(3)).ok()? - (x(0) - x(1))]
        }
        ("bachelier_call", "unfused") => {
            let spread = x(2) * x(3).sqrt();
            let d = (x(0) - x(1)) / spread;
            vec![(x(0) - x(1)) * d.norm_cdf() + spread * elementary::norm_pdf(d)]
        }
        ("swap_annuity_from_curve", "unfused") => {
            vec![pairs(call, 2)
                .iter()
                .fold(0.0, |sum, coupon| sum + coupon.1 * factor(coupon.0))]
        }
        ("swap_annuity_from_curve", "backwards") => {
            let coupons = pairs(call, 2);
            vec![coupons
                .iter()
                .rev()
                .fold(0.0, |sum, coupon| coupon.1.mul_add(factor(coupon.0), sum))]
        }
        ("volatility", "no-pillars-pass") if call.length(0) == 0 => vec![0.0],
        ("volatility", "pillar-before") => {
            let pillars = pairs(call, 0);
            let found = pillars
                .iter()
                .rev()
                .find(|pillar| pillar.0 < x(2))
                .unwrap_or(&pillars[0]);
            vec![found.1]
        }
        ("volatility", "zero-before-first") => {
            vec![pairs(call, 0)
                .iter()
                .rev()
                .find(|pillar| pillar.0 <= x(2))
                .map_or(0.0, |pillar| pillar.1)]
        }
        (
            "hull_white_piecewise_variance",
            "first-pillar-own-time" | "variance-fused" | "alpha-1e-12-closed",
        ) => {
            let run = Run {
                alpha: x(0),
                pillars: pairs(call, 1),
                ..Run::default()
            };
            let case = Case {
                run: &run,
                job: Job::default(),
                n: numbers(slip),
            };
            vec![case.variance(x(3), x(4))]
        }
        ("transition_variances", "steps-added-up" | "one-step-repeated") => {
            let mut start = 0.0;
            (0..call.size(3))
                .map(|_| {
                    let end = start + x(4);
                    let step = parameters::hull_white_piecewise_variance(
                        x(0),
                        &pairs(call, 1),
                        start,
                        end,
                    );
                    if slip == "steps-added-up" {
                        start = end;
                    }
                    step
                })
                .collect()
        }
        _ => return None,
    })
}

// ---------------------------------------------------------- ground functions

/// Document 01's own; with a slip the judge's arithmetic, which can make it.
fn ground(call: &Call, slip: &str) -> f64 {
    let x = |place: usize| call.number(place);
    let n = numbers(slip);
    match (call.name(), slip) {
        ("fused", "fused-rounds-twice") => x(0) * x(1) + x(2),
        ("fused", _) => x(0).mul_add(x(1), x(2)),
        ("sqrt", "sqrt-minus-zero") if x(0) == 0.0 => 0.0,
        ("sqrt", "sqrt-flushes") if x(0).abs() < f64::MIN_POSITIVE => 0.0 * x(0),
        ("sqrt", _) => x(0).sqrt(),
        ("exp", "") => elementary::exp(x(0)),
        ("exp", _) => n.exp(x(0)),
        ("exp_m1", "exp-m1-by-exp") => elementary::exp(x(0)) - 1.0,
        ("exp_m1", "") => elementary::exp_m1(x(0)),
        ("exp_m1", _) => n.exp_m1(x(0)),
        ("ln", "ln-flushes") if x(0).abs() < f64::MIN_POSITIVE => f64::NEG_INFINITY,
        ("ln", "") => elementary::ln(x(0)),
        ("ln", _) => n.ln(x(0)),
        ("norm_pdf", "pdf-by-the-constant") => {
            elementary::exp((-0.5 * x(0)) * x(0)) * 0.398_942_280_401_432_7
        }
        ("norm_pdf", "") => elementary::norm_pdf(x(0)),
        ("norm_pdf", _) => n.norm_pdf(x(0)),
        ("norm_cdf", "") => x(0).norm_cdf(),
        ("norm_cdf", _) => n.normal(x(0)),
        ("norm_cdf_dual", "") => DualFwd(x(0)).norm_cdf().0,
        ("norm_cdf_dual", _) => n.normal_dual(x(0)),
        ("midpoint", "midpoint-halves") => x(0) / 2.0 + x(1) / 2.0,
        ("midpoint", "midpoint-from-below") => x(0) + (x(1) - x(0)) / 2.0,
        ("midpoint", _) => elementary::midpoint(x(0), x(1)),
        ("signum", "") => elementary::signum(x(0)),
        ("signum", _) => n.signum(x(0)),
        ("max", "nan-kept") if x(0).is_nan() => x(0),
        ("min", "nan-kept") if x(0).is_nan() => x(0),
        ("max", "nan-not-passed") if x(1).is_nan() => x(1),
        ("min", "nan-not-passed") if x(1).is_nan() => x(1),
        ("max" | "min", "second-of-equals") if x(0) == x(1) => x(1),
        ("max", _) => elementary::max(x(0), x(1)),
        ("min", _) => elementary::min(x(0), x(1)),
        (name, _) => unreachable!("{name}"),
    }
}

// -------------------------------------------------------------------- pieces

/// What the program prints for a file, cut where a job's lines begin: the header
/// or `refused 1`, then the lines of each job. The last file's pieces are kept.
pub fn with_pieces<T>(file: &[u8], work: impl FnOnce(&[Vec<u8>]) -> T) -> T {
    thread_local! {
        static LAST: RefCell<(Vec<u8>, Vec<Vec<u8>>)> = const { RefCell::new((Vec::new(), Vec::new())) };
    }
    LAST.with(|last| {
        let mut last = last.borrow_mut();
        if last.1.is_empty() || last.0 != file {
            last.1.clear(); // the judge may fall over
            let pieces = cut_in_pieces(&judge::judge(file, None).printed);
            *last = (file.to_vec(), pieces);
        }
        work(&last.1)
    })
}

fn cut_in_pieces(printed: &[u8]) -> Vec<Vec<u8>> {
    let mut pieces: Vec<Vec<u8>> = Vec::new();
    let mut job: &[u8] = b"";
    for line in printed.split_inclusive(|byte| *byte == b'\n') {
        let number = line.split(|byte| *byte == b' ').next().unwrap_or(b"");
        if pieces.len() < 2 || number != job {
            pieces.push(line.to_vec());
        } else {
            pieces.last_mut().unwrap().extend(line);
        }
        job = number;
    }
    pieces
}

fn piece(call: &Call, slip: &str) -> Outcome {
    let Arg::Bytes(file) = &call.args[0] else {
        unreachable!()
    };
    let room = call.length(2);
    let short = match slip {
        "piece-room-one-more" => room <= PIECE_BYTES,
        "piece-room-one-less" => room + 1 < PIECE_BYTES,
        _ => room < PIECE_BYTES,
    };
    if short {
        return call.refused(1);
    }
    let k = call.size(1);
    let piece = with_pieces(file, |pieces| {
        let k = match slip {
            "piece-from-1" => k.saturating_add(1),
            "piece-last-again" => k.min(pieces.len() as u64 - 1),
            _ => k,
        };
        usize::try_from(k)
            .ok()
            .and_then(|k| pieces.get(k))
            .cloned()
            .unwrap_or_default()
    });
    if slip == "piece-refused-1" && piece == b"refused 1\n" {
        return call.refused(1);
    }
    Outcome {
        words: vec![0, piece.len() as u64],
        written: piece.iter().map(|byte| u64::from(*byte)).collect(),
    }
}
