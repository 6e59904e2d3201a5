//! Holds the crate to the examples, to the fixed run files and to document 01's cases.
use calstwid::*;
use std::path::{Path, PathBuf};

fn root() -> PathBuf {
    Path::new(env!("CARGO_MANIFEST_DIR")).join("../..")
}

/// The lists of a run file, as a caller has them.
struct RunFile {
    alpha: f64,
    pillars: [Vec<f64>; 2],
    curve: [Vec<f64>; 2],
    coupons: [Vec<f64>; 3],
    grid: [Vec<f64>; 2],
    jobs: Vec<(u64, [f64; 4])>,
}

fn word(bytes: &[u8], at: usize) -> u64 {
    u64::from_le_bytes(bytes[at..at + 8].try_into().unwrap())
}

fn float(bytes: &[u8], at: usize) -> f64 {
    f64::from_bits(word(bytes, at))
}

fn columns<const N: usize>(part: &[u8]) -> [Vec<f64>; N] {
    std::array::from_fn(|column| (0..part.len() / (8 * N)).map(|row| float(part, 8 * (row * N + column))).collect())
}

impl RunFile {
    fn read(data: &[u8]) -> RunFile {
        let half = |at: usize| u32::from_le_bytes(data[at..at + 4].try_into().unwrap()) as usize;
        let part = |place: usize| &data[half(8 * place)..half(8 * place) + half(8 * place + 4)];
        let job = |at: &[u8]| (word(at, 0), [float(at, 8), float(at, 16), float(at, 24), float(at, 32)]);
        RunFile {
            alpha: float(part(0), 0),
            pillars: columns(part(1)),
            curve: columns(part(2)),
            coupons: columns(part(3)),
            grid: columns(part(4)),
            jobs: part(5).chunks(40).map(job).collect(),
        }
    }

    fn example(name: &str) -> RunFile {
        RunFile::read(&std::fs::read(root().join("examples").join(name)).unwrap())
    }

    fn desk() -> RunFile {
        RunFile::example("desk.run")
    }

    fn curve(&self) -> Curve<'_> {
        Curve { times: &self.curve[0], factors: &self.curve[1] }
    }

    fn pillars(&self) -> Pillars<'_> {
        Pillars { times: &self.pillars[0], sigmas: &self.pillars[1] }
    }

    fn coupons(&self) -> Coupons<'_> {
        Coupons { payments: &self.coupons[0], accruals: &self.coupons[1] }
    }

    fn path(&self, kind: u64) -> Result<Vec<f64>, Refusal> {
        let mut out = vec![0.0; self.grid[0].len()];
        let call = if kind == 12 { generate } else { generate_published };
        let written = call(self.alpha, self.pillars(), self.curve(), &self.grid[0], &self.grid[1], &mut out)?;
        assert_eq!(written, out.len());
        Ok(out)
    }

    /// The values and notes of a job, by the call of its kind.
    fn call(&self, kind: u64, [a, b, c, d]: [f64; 4]) -> Result<Vec<(f64, u64)>, Refusal> {
        let (alpha, curve, coupons, pillars, own) = (self.alpha, self.curve(), self.coupons(), self.pillars(), &self.coupons[2]);
        let fitted = |fit: Fit| (fit.sigma, if fit.converged { fit.halvings } else { 0 });
        let one = match kind {
            1 => (caplet_price(alpha, curve, a, b, c, d)?, 0),
            2 => (floorlet_price(alpha, curve, a, b, c, d)?, 0),
            3 => (bond_put_price(alpha, curve, a, b, c, d)?, 0),
            4 => (bond_call_price(alpha, curve, a, b, c, d)?, 0),
            5 => (swaption_price(alpha, curve, coupons, a, b, c)?.value, 0),
            6 => (payer_swaption_value(alpha, pillars, curve, coupons, own, a, b, c, d)?.value, 0),
            7 => (receiver_swaption_value(alpha, pillars, curve, coupons, own, a, b, c, d)?.value, 0),
            8 => fitted(fit_caplet_black(alpha, curve, a, b, c, d)?),
            9 => fitted(fit_caplet_normal(alpha, curve, a, b, c, d)?),
            10 => fitted(fit_swaption_black(alpha, curve, coupons, a, b, c)?),
            11 => fitted(fit_swaption_normal(alpha, curve, coupons, a, b, c)?),
            _ => {
                assert!(kind == 12 || kind == 13);
                let path: Vec<_> = self.path(kind)?.into_iter().zip(0..).collect();
                return Ok(if path.is_empty() { vec![(0.0, 0)] } else { path });
            }
        };
        Ok(vec![one])
    }

    /// What the program prints, each job by its call.
    fn printed(&self) -> String {
        let mut lines = String::from("job kind answer value note\n");
        for (place, &(kind, numbers)) in self.jobs.iter().enumerate() {
            let (answer, results) = match self.call(kind, numbers) {
                Ok(results) => (0, results),
                Err(refusal) => (refusal.number(), vec![(0.0, 0)]),
            };
            for (value, note) in results {
                lines += &format!("{place} {kind} {answer} {:016x} {note}\n", value.to_bits());
            }
        }
        lines
    }
}

fn held(name: &str, data: &[u8], expected: &[u8]) {
    let expected = std::str::from_utf8(expected).unwrap();
    assert_eq!(String::from_utf8(run_file(data)).unwrap(), expected, "{name}");
    if expected != "refused 1\n" {
        assert_eq!(RunFile::read(data).printed(), expected, "{name}");
    }
}

#[test]
fn whole_case() {
    let mut data = Vec::new();
    for half in [48u32, 8, 56, 0, 56, 32, 88, 0, 88, 0, 88, 80] {
        data.extend(half.to_le_bytes());
    }
    for number in [0.5f64, 1.0, 1.0, 2.0, 1.0] {
        data.extend(number.to_le_bytes());
    }
    for kind in [3u64, 4] {
        data.extend(kind.to_le_bytes());
        for number in [1.0f64, 2.0, 0.5, 0.0] {
            data.extend(number.to_le_bytes());
        }
    }
    held("whole case", &data, b"job kind answer value note\n0 3 0 0000000000000000 0\n1 4 0 3fe0000000000000 0\n");
    let curve = Curve { times: &[1.0, 2.0], factors: &[1.0, 1.0] };
    assert_eq!(bond_put_price(0.5, curve, 1.0, 2.0, 0.5, 0.0).map(f64::to_bits), Ok(0));
    assert_eq!(bond_call_price(0.5, curve, 1.0, 2.0, 0.5, 0.0), Ok(0.5));
}

#[test]
fn examples() {
    let mut seen = 0;
    for entry in std::fs::read_dir(root().join("examples")).unwrap() {
        let path = entry.unwrap().path();
        if path.extension().is_some_and(|ending| ending == "run") {
            held(&path.display().to_string(), &std::fs::read(&path).unwrap(), &std::fs::read(path.with_extension("out")).unwrap());
            seen += 1;
        }
    }
    assert!(seen >= 15);
}

/// The run files of a fixed list, each with what is printed for it now: lines that a request has turned stand in `turned.txt`.
fn fixed_list(name: &str) -> usize {
    let list = std::fs::read(root().join(format!("oracle/fixed/{name}.bin"))).unwrap();
    let turned = std::fs::read_to_string(root().join("oracle/fixed/turned.txt")).unwrap();
    let mut at = 0;
    let mut part = || {
        let size = u32::from_le_bytes(list[at..at + 4].try_into().unwrap());
        at += 4;
        (size != u32::MAX).then(|| {
            at += size as usize;
            &list[at - size as usize..at]
        })
    };
    let mut seen = 0;
    while let Some(run) = part() {
        let entry = format!("{name} {seen} ");
        let mut lines: Vec<&str> = std::str::from_utf8(part().unwrap()).unwrap().lines().collect();
        for row in turned.lines().filter_map(|row| row.strip_prefix(&entry)) {
            let (old, now) = row.split_once(' ').unwrap().1.split_once(" -> ").unwrap();
            let place = lines.iter().position(|line| *line == old).unwrap();
            lines.splice(place..=place, now.split(" / "));
        }
        held(&entry, run, (lines.join("\n") + "\n").as_bytes());
        seen += 1;
    }
    seen
}

#[test]
fn fixed_run_files() {
    assert_eq!(["base", "A.2", "A.4", "A.6"].map(fixed_list), [570, 129, 180, 146]);
}

#[test]
fn files_that_break_their_layout() {
    for data in [vec![], vec![0], vec![0; 48], vec![0; 65_536], vec![0; 65_537]] {
        assert_eq!(run_file(&data), b"refused 1\n");
    }
    let mut short = vec![7; PIECE_BYTES - 1];
    assert_eq!(piece(&[], 0, &mut short), Err(Refusal::Size));
    assert!(short.iter().all(|&byte| byte == 7));
    assert_eq!(piece(&[], usize::MAX, &mut vec![0; PIECE_BYTES]), Ok(0));
}

/// README's numbers.
#[test]
fn desk() {
    let desk = RunFile::desk();
    let (alpha, curve, coupons, pillars) = (desk.alpha, desk.curve(), desk.coupons(), desk.pillars());
    assert_eq!(caplet_price(alpha, curve, 0.03, 1.0, 1.5, 0.01), Ok(0.0018520317606408843));
    assert_eq!(floorlet_price(alpha, curve, 0.03, 1.0, 1.5, 0.01), Ok(0.0017439422727289755));
    assert_eq!(bond_put_price(alpha, curve, 1.0, 5.0, 0.88, 0.01), Ok(0.007709327124727912));
    assert_eq!(bond_call_price(alpha, curve, 1.0, 5.0, 0.88, 0.01), Ok(0.014425234027098555));
    let model = swaption_price(alpha, curve, coupons, 0.031, 1.0, 0.01).unwrap();
    assert_eq!(model.value, 0.010713537784161791);
    let payer = payer_swaption_value(alpha, pillars, curve, coupons, &[0.0; 4], 0.031, 1.0, 1e6, 1.0).unwrap();
    assert_eq!(payer.value, 10713.537784161801);
    let receiver = receiver_swaption_value(alpha, pillars, curve, coupons, &[0.0; 4], 0.031, 1.0, 1e6, -1.0).unwrap();
    assert_eq!(receiver.value, -12679.02875263987);
    for (bracket, rate) in [(model.bracket, model.rate), (payer.bracket, payer.rate)] {
        assert!(bracket.lower <= rate && rate <= bracket.upper);
        assert!(bracket.lower_sum >= 1.0 && bracket.upper_sum <= 1.0);
        assert_eq!((bracket.lower_rung, bracket.upper_rung), (0, 0));
    }
    assert!((payer.stepped - payer.rate).abs() < 1e-12);
    for (fit, sigma, halvings) in [
        (fit_caplet_black(alpha, curve, 0.03, 1.0, 1.5, 0.25), 0.007965961463308302, 37),
        (fit_caplet_normal(alpha, curve, 0.03, 1.0, 1.5, 0.0075), 0.00795676143695671, 36),
        (fit_swaption_black(alpha, curve, coupons, 0.031, 1.0, 0.22), 0.008309960890466608, 39),
        (fit_swaption_normal(alpha, curve, coupons, 0.031, 1.0, 0.007), 0.008622592662243852, 40),
    ] {
        let fit = fit.unwrap();
        assert_eq!((fit.sigma, fit.halvings, fit.converged), (sigma, halvings, true));
        assert!(fit.residual.abs() < 1e-12 && fit.low < sigma && sigma < fit.high);
        assert!(fit.low_residual < 0.0 && fit.high_residual > 0.0);
    }
    assert_eq!(desk.path(12), Ok(vec![0.031512192643853264, 0.025986290645509974, 0.031659410562398474, 0.03215463750724506]));
}

#[test]
fn basket() {
    let desk = RunFile::desk();
    let (alpha, curve) = (desk.alpha, desk.curve());
    let caplets = Caplets { normals: &[false, true], strikes: &[0.03; 2], starts: &[1.0; 2], ends: &[1.5; 2], vols: &[0.25, 0.0075] };
    let basket = calibrate_to_instruments(alpha, curve, caplets).unwrap();
    let alone = [fit_caplet_black(alpha, curve, 0.03, 1.0, 1.5, 0.25), fit_caplet_normal(alpha, curve, 0.03, 1.0, 1.5, 0.0075)];
    let bumped = fit_caplet_black(alpha, curve, 0.03, 1.0, 1.5, 0.25 + 1e-6).unwrap();
    assert_eq!(basket.sigmas, alone.map(|fit| fit.unwrap().sigma));
    assert_eq!(basket.residuals, alone.map(|fit| fit.unwrap().residual));
    assert_eq!((basket.statuses, basket.halvings, basket.bumped_statuses), (vec![true; 2], vec![37, 36], vec![true; 2]));
    assert_eq!(basket.diagonal[0], (bumped.sigma - alone[0].unwrap().sigma) / 1e-6);
    let none = Caplets { normals: &[], strikes: &[], starts: &[], ends: &[], vols: &[] };
    assert_eq!(calibrate_to_instruments(alpha, curve, none).unwrap().sigmas, []);
    let one = [0.03; 65];
    let many = Caplets { normals: &[false; 65], strikes: &one, starts: &[1.0; 65], ends: &[1.5; 65], vols: &[0.25; 65] };
    assert_eq!(calibrate_to_instruments(alpha, curve, many), Err(Refusal::Size));
    assert_eq!(calibrate_to_instruments(alpha, curve, Caplets { normals: &[false], ..caplets }), Err(Refusal::Size));
    assert_eq!(calibrate_to_instruments(alpha, curve, Caplets { vols: &[0.25, 0.0], ..caplets }), Err(Refusal::Domain));
}

/// Document 01's proved cases.
#[test]
fn numbers() {
    assert_eq!((norm_cdf(0.0), norm_cdf(38.0), norm_cdf(-38.0)), (0.5, 1.0, 0.0));
    assert_eq!((norm_cdf_dual(38.0), norm_cdf_dual(-38.0)), (1.0, 0.0));
    assert_eq!((exp(0.0), ln(1.0), sqrt(4.0), fused(2.0, 3.0, 1.0)), (1.0, 0.0, 2.0, 7.0));
    assert_eq!(sqrt(-0.0).to_bits(), (-0.0f64).to_bits());
    assert_eq!((signum(-0.0), signum(0.0)), (-1.0, 1.0));
    assert_eq!((midpoint(1.0, 4.0), max(1.0, 2.0), min(1.0, 2.0), max(f64::NAN, 2.0), min(2.0, f64::NAN)), (2.5, 2.0, 1.0, 2.0, 2.0));
    for either in [max, min] {
        assert_eq!([either(0.0, -0.0), either(-0.0, 0.0)].map(f64::to_bits), [0.0f64, -0.0].map(f64::to_bits));
    }
    assert!(near(exp(1.7), 1.7f64.exp()) && near(exp_m1(0.3), 0.3f64.exp_m1()) && near(ln(7.5), 7.5f64.ln()));
    assert!(near(norm_pdf(0.7), (-0.245f64).exp() / (2.0 * std::f64::consts::PI).sqrt()));
    assert!(near(norm_cdf(1.96), 0.9750021048517795) && near(norm_cdf_dual(1.96), 0.9750021048517795));
    assert!(exp(f64::NAN).is_nan() && ln(-1.0).is_nan());
}

fn near(one: f64, other: f64) -> bool {
    (one - other).abs() < 1e-12
}

/// The calls that are no kind, beside what they stand for: an argument out of place is seen here.
#[test]
fn formulas() {
    let desk = RunFile::desk();
    let (curve, pillars) = (desk.curve(), desk.pillars());
    let p = |time: f64| curve.factors[curve.times.iter().position(|&t| t == time).unwrap()];
    let (alpha, t, bond, sigma) = (0.1f64, 1.0f64, 4.0f64, 0.012f64);
    let b = (1.0 - (-alpha * (bond - t)).exp()) / alpha;
    let state = sigma * sigma * (1.0 - (-2.0 * alpha * t).exp()) / (2.0 * alpha);
    let forward = forward_rate_from_curve(curve, t).unwrap();
    let a = p(bond) / p(t) * (b * forward - state * b * b / 2.0).exp();
    assert!(near(B(alpha, t, bond).unwrap(), b) && (forward - 0.03).abs() < 1e-10);
    assert!(near(A(alpha, curve, t, bond, sigma).unwrap(), a));
    assert!(near(zcb_price(alpha, curve, 0.02, t, bond, sigma).unwrap(), a * (-b * 0.02).exp()));
    assert!(near(zcb_price_volatility(alpha, sigma, t, bond).unwrap(), b * state.sqrt()));
    let spread = sigma * sigma * (1.0 - (-2.0 * alpha * (bond - t)).exp()) / (2.0 * alpha);
    assert!(near(short_rate_variance(alpha, t, bond, sigma).unwrap(), spread));
    let days = [0.0, 1.0 / 365.0, 2.0 / 365.0];
    let factors = days.map(|day: f64| (-0.03 * day).exp());
    assert!((theta(alpha, Curve { times: &days, factors: &factors }, 0.0, sigma).unwrap() - alpha * 0.03).abs() < 1e-6);

    assert_eq!([0.0, 0.5, 0.75, 1.0, 9.0].map(|t| volatility(pillars, t).unwrap()), [0.010, 0.010, 0.010, 0.011, 0.012]);
    assert_eq!([0.0, 0.5, 0.75, 1.0, 9.0].map(|t| pillars_reached(pillars, t).unwrap().len()), [0, 1, 1, 2, 3]);
    assert_eq!(pillars_reached(pillars, 1.0), Ok(&[0.5, 1.0][..]));
    assert_eq!(volatility(Pillars { times: &[], sigmas: &[] }, 1.0), Err(Refusal::Empty));
    let step = |s: f64, a: f64, b: f64| s * s * ((2.0 * alpha * b).exp() - (2.0 * alpha * a).exp()) / (2.0 * alpha);
    let whole = (-2.0 * alpha * 1.5).exp() * (step(0.010, 0.25, 1.0) + step(0.011, 1.0, 1.5));
    assert!(near(hull_white_piecewise_variance(alpha, pillars, 0.25, 1.5).unwrap(), whole));

    let (fwd, strike, vol, tau) = (0.031f64, 0.028f64, 0.22f64, 1.5f64);
    let d = d1_d2(fwd, strike, vol, tau).unwrap();
    let d1 = ((fwd / strike).ln() + vol * vol * tau / 2.0) / (vol * tau.sqrt());
    assert!(near(d.d1, d1) && near(d.d2, d1 - vol * tau.sqrt()));
    let (call, put) = (black_call(fwd, strike, vol, tau).unwrap(), black_put(fwd, strike, vol, tau).unwrap());
    assert!(near(call, fwd * norm_cdf(d.d1) - strike * norm_cdf(d.d2)) && near(call - put, fwd - strike));
    let s = 0.007 * tau.sqrt();
    let x = (fwd - strike) / s;
    assert!(near(bachelier_call(fwd, strike, 0.007, tau).unwrap(), (fwd - strike) * norm_cdf(x) + s * norm_pdf(x)));
    let annuity = swap_annuity_from_curve(curve, Coupons { payments: &[2.0, 4.0], accruals: &[0.5, 2.0] }).unwrap();
    assert!(near(annuity, 0.5 * p(2.0) + 2.0 * p(4.0)));
}

#[test]
fn critical_rates() {
    let term = |coefficient| find_critical_rate(Terms { coefficients: &[coefficient], affines: &[1.0], b: &[0.0] });
    assert_eq!(term(1.0).unwrap().rate, -0.5);
    assert_eq!((term(2.0), term(0.5)), (Err(Refusal::NoBracket), Err(Refusal::NoBracket)));
    let flat = Terms { coefficients: &[1.0], affines: &[1.0], b: &[0.0] };
    assert_eq!(implicit_critical_rate(flat), Err(Refusal::FlatDerivative));
    let apart = Terms { coefficients: &[1.0, -1.0], affines: &[1.0, 1.0], b: &[1.0, 1.0] };
    assert_eq!(find_critical_rate(apart), Err(Refusal::NanReached));
    let terms = Terms { coefficients: &[0.5, 0.6], affines: &[0.98, 0.95], b: &[1.0, 2.0] };
    let (found, stepped) = (find_critical_rate(terms).unwrap(), implicit_critical_rate(terms).unwrap());
    assert!(near(0.5 * 0.98 * (-found.rate).exp() + 0.6 * 0.95 * (-2.0 * found.rate).exp(), 1.0));
    assert_eq!((stepped.rate, stepped.bracket), (found.rate, found.bracket));
    assert!(near(stepped.stepped, stepped.rate));
}

/// A call that each number turns down.
#[test]
fn refusals() {
    let h = 1.0 / 365.0;
    let small = Curve { times: &[0.0, h, 1.0, 1.0 + h, 2.0], factors: &[1.0, 1.0, 0.97, 0.9699, 0.94] };
    let caplet = |alpha, curve, start, end, sigma| caplet_price(alpha, curve, 0.03, start, end, sigma);
    let (coupons, pillars) = (Coupons { payments: &[2.0], accruals: &[1.0] }, Pillars { times: &[1.0], sigmas: &[0.01] });
    let payer = |pillars, side| payer_swaption_value(0.5, pillars, small, coupons, &[0.0], 0.03, 1.0, 1.0, side).map(|it| it.value);
    let twice = Coupons { payments: &[2.0, 2.0], accruals: &[1.0, 0.0] };
    let tiny = Curve { times: &[0.0, 1e-300, h], factors: &[1.0; 3] };
    let at_once = Coupons { payments: &[1e-300], accruals: &[0.0] };
    let from_0 = Pillars { times: &[0.0], sigmas: &[0.01] };
    let several = Pillars { times: &[0.0, 1.0], sigmas: &[0.01; 2] };
    let all = [
        caplet(0.5, Curve { times: &[1.0, 2.0], factors: &[1.0] }, 1.0, 2.0, 0.01),
        caplet(0.5, small, 1.0, 2.0, f64::NAN),
        caplet(0.0, small, 1.0, 2.0, 0.01),
        caplet(0.5, Curve { times: &[2.0, 1.0], factors: &[0.94, 0.97] }, 1.0, 2.0, 0.01),
        caplet(0.5, small, 2.0, 1.0, 0.01),
        payer(pillars, 2.0),
        volatility(Pillars { times: &[], sigmas: &[] }, 1.0),
        caplet(0.5, small, 1.0, 2.5, 0.01),
        swaption_price(0.5, small, twice, -1.0, 1.0, 0.01).map(|it| it.value),
        swaption_price(0.5, small, coupons, -3.0, 1.0, 0.01).map(|it| it.value),
        payer_swaption_value(1.0, from_0, tiny, at_once, &[0.0], 0.0, 0.0, 1.0, 1.0).map(|it| it.value),
        fit_caplet_black(0.5, small, 0.03, 1.0, 2.0, 1e-9).map(|it| it.sigma),
        bond_put_price(0.5, Curve { times: &[1.0, 2.0], factors: &[1e308, 1.0] }, 1.0, 2.0, 1e10, 0.01),
        draws(0, &mut [0.0]).map(|state| state as f64),
        generate_published(0.5, several, small, &[1.0], &[0.3], &mut [0.0]).map(|written| written as f64),
    ];
    assert_eq!(Refusal::ALL.len(), all.len());
    for ((place, outcome), number) in all.into_iter().enumerate().zip(1..) {
        let refusal = outcome.unwrap_err();
        assert_eq!((refusal, refusal.number()), (Refusal::ALL[place], number));
        assert_eq!(refusal.to_string(), format!("refused {number}: {}", refusal.sentence()));
    }
    assert_eq!(caplet(0.5, Curve { times: &[], factors: &[] }, 1.0, 2.0, 0.01), Err(Refusal::OffCurve));
    let error: Box<dyn std::error::Error> = Refusal::MeanReversion.into();
    assert_eq!(error.to_string(), "refused 3: alpha is zero or negative");
}

/// Document 02, A.2: no pillars are no movement in kinds 6 and 7; the numbers of examples/fixed-rate.run and fixed-rate-own-factors.run.
#[test]
fn fixed_rate_scenario() {
    let desk = RunFile::desk();
    let (alpha, curve, coupons, none) = (desk.alpha, desk.curve(), desk.coupons(), Pillars { times: &[], sigmas: &[] });
    let both = |pillars, own: &[f64], strike| {
        let payer = payer_swaption_value(alpha, pillars, curve, coupons, own, strike, 1.0, 1e6, 1.0).unwrap();
        (payer, receiver_swaption_value(alpha, pillars, curve, coupons, own, strike, 1.0, 1e6, 1.0).unwrap())
    };
    let values = |own: &[f64]| [0.025, 0.035].map(|strike| both(none, own, strike)).map(|(payer, receiver)| (payer.value, receiver.value));
    assert_eq!(values(&[0.0; 4]), [(19654.453823508105, 0.0), (0.0, 16378.78749646876)]);
    assert_eq!(values(&[0.945, 0.918, 0.892, 0.867]), [(19796.2211782985, 0.0), (0.0, 16496.32682373106)]);
    let still = Pillars { times: &[0.5, 1.0], sigmas: &[0.0; 2] };
    assert_eq!(both(none, &[0.0; 4], 0.031), both(still, &[0.0; 4], 0.031));

    let payer = |pillars, coupons: Coupons| {
        let own = vec![0.0; coupons.payments.len()];
        payer_swaption_value(alpha, pillars, curve, coupons, &own, 0.031, 1.0, 1e6, 1.0).map(|it| it.value)
    };
    assert_eq!(payer(none, Coupons { payments: &[], accruals: &[] }), Err(Refusal::Empty));
    assert_eq!(payer(Pillars { times: &[], sigmas: &[0.01] }, coupons), Err(Refusal::Size));
    assert_eq!(payer(Pillars { times: &[0.5], sigmas: &[] }, coupons), Err(Refusal::Size));
    assert_eq!(generate(alpha, none, curve, &[], &[], &mut []), Err(Refusal::Empty));
    assert_eq!(transition_variances(alpha, none, 1, 0.25, &mut [0.0]), Err(Refusal::Empty));
    assert_eq!(pillars_reached(none, 1.0), Err(Refusal::Empty));
    assert_eq!(hull_white_piecewise_variance(alpha, none, 0.0, 1.0), Ok(0.0));
}

/// The factor itself: the annuity of one coupon whose accrual is 1.
fn factor(times: &[f64], factors: &[f64], t: f64) -> Result<f64, Refusal> {
    swap_annuity_from_curve(Curve { times, factors }, Coupons { payments: &[t], accruals: &[1.0] })
}

/// Document 02's factor between two points: Rust rounds each operation once and fuses none.
fn between((t0, f0): (f64, f64), (t1, f1): (f64, f64), t: f64) -> f64 {
    let w = (t - t0) / (t1 - t0);
    exp(ln(f0) + w * (ln(f1) - ln(f0)))
}

/// The f64 above a number that is not negative, and the one below a number above 0.
fn above(x: f64) -> f64 {
    f64::from_bits(x.to_bits() + 1)
}

fn below(x: f64) -> f64 {
    f64::from_bits(x.to_bits() - 1)
}

/// Document 02, A.4: factors between curve points, over the month ends of examples/month-end.run.
#[test]
fn month_ends() {
    let month_end = RunFile::example("month-end.run");
    let [times, factors] = &month_end.curve;
    let (points, last) = (times.len(), *times.last().unwrap());
    let point = |place: usize| (times[place], factors[place]);
    for place in 0..points {
        assert_eq!(factor(times, factors, times[place]).map(f64::to_bits), Ok(factors[place].to_bits()));
    }
    for place in 1..points {
        let (t0, t1) = (times[place - 1], times[place]);
        let within = (1..32).map(|part| t0 + (t1 - t0) * f64::from(part) / 32.0);
        for t in within.chain([above(t0), below(t1)]) {
            let due = between(point(place - 1), point(place), t);
            assert_eq!(factor(times, factors, t).map(f64::to_bits), Ok(due.to_bits()), "{t}");
        }
    }
    assert_eq!(factor(times, factors, -0.0), Ok(factors[0]));
    assert_eq!([-above(0.0), above(last)].map(|t| factor(times, factors, t)), [Err(Refusal::OffCurve); 2]);
    assert_eq!(factor(&times[1..], &factors[1..], below(times[1])), Err(Refusal::OffCurve));

    // every kind gives the same where its times stand on the list
    let mut on_the_list = RunFile::example("month-end.run");
    let needed = [0.25, 0.5, 1.0, 1.5, 2.0, 3.0, 4.0, 5.0].map(|t| [t, t + 1.0 / 365.0]).concat();
    let mut curve: Vec<_> = (0..points).map(point).chain(needed.iter().map(|&t| (t, factor(times, factors, t).unwrap()))).collect();
    curve.sort_by(|one, other| one.0.total_cmp(&other.0));
    assert!(curve.windows(2).all(|pair| pair[0].0 < pair[1].0), "none of these times is a month's end");
    on_the_list.curve = [curve.iter().map(|point| point.0).collect(), curve.iter().map(|point| point.1).collect()];
    assert_eq!(month_end.printed(), on_the_list.printed());
    assert!(month_end.printed().lines().skip(1).all(|line| line.split(' ').nth(2) == Some("0")));

    // the last point itself: the day after it is behind it
    let (alpha, pillars, curve, draws) = (month_end.alpha, month_end.pillars(), month_end.curve(), &month_end.grid[1][..]);
    let none = Curve { times: &[], factors: &[] };
    let before = [7.0, 8.0, 9.0, 10.0, 11.0];
    let mut out = before;
    assert_eq!(generate(alpha, pillars, curve, &[0.25, 0.5, 1.0, last], draws, &mut out), Err(Refusal::OffCurve));
    assert_eq!(generate(alpha, pillars, curve, &[0.25, 0.5, 1.0, above(last)], draws, &mut out), Err(Refusal::OffCurve));
    assert_eq!(generate(alpha, pillars, none, &month_end.grid[0], draws, &mut out), Err(Refusal::OffCurve));
    assert_eq!(out, before);
}

/// Document 02, A.4: what is left to refusal 8, and docs/DIFFERENCES.md's inputs.
#[test]
fn factors_not_found_and_not_between() {
    assert_eq!(factor(&[], &[], 1.0), Err(Refusal::OffCurve));
    let one = [1.0, below(1.0), above(1.0)].map(|t| factor(&[1.0], &[0.97], t));
    assert_eq!(one, [Ok(0.97), Err(Refusal::OffCurve), Err(Refusal::OffCurve)]);
    let wide = ([-1e308, 1.2e308], [0.9, 0.8], 1e308);
    let steep = ([0.7057691290677448, 3.2464201598086486], [9.469050158921633e-238, f64::MAX], 3.246420159808648);
    let found = |(times, factors, t): ([f64; 2], [f64; 2], f64)| between((times[0], factors[0]), (times[1], factors[1]), t);
    assert!(found(wide).is_nan() && found(steep) == f64::INFINITY);
    for (times, factors, t) in [wide, steep] {
        assert_eq!(factor(&times, &factors, t), Err(Refusal::OffCurve));
        let curve = Curve { times: &times, factors: &factors };
        assert_eq!(bond_call_price(0.1, curve, t, times[1], 0.5, 0.01), Err(Refusal::OffCurve));
        assert_eq!(fit_caplet_normal(0.1, curve, 0.03, t, times[1], 0.0075), Err(Refusal::OffCurve));
        let mut out = [7.0];
        assert_eq!(generate(0.1, Pillars { times: &[1.0], sigmas: &[0.01] }, curve, &[t], &[0.3], &mut out), Err(Refusal::OffCurve));
        assert_eq!(out, [7.0]);
        assert_eq!(times.map(|t| factor(&times, &factors, t)), factors.map(Ok));
    }
    let rows = [
        (0.68, 0.68, 1.5, 0x3fe5c28f5c28f5c2),
        (0.34, 0.33999999999999997, 1.5, 0x3fd5c28f5c28f5c1),
        (0.12, 0.11999999999999998, 1.5, 0x3fbeb851eb851eb9),
        (0.7, 0.68, 1.9999999999999998, 0x3fe5c28f5c28f5c2),
        (0.21, 0.2, 1.0000000000000002, 0x3fcae147ae147ae2),
    ];
    for (f0, f1, t, bits) in rows {
        let found = factor(&[1.0, 2.0], &[f0, f1], t).unwrap();
        assert_eq!(found.to_bits(), bits);
        assert!(found < f64::min(f0, f1) || found > f64::max(f0, f1));
    }
}

/// Document 02, A.6: kind 13, a path centred as published, beside its formula over the library's own exp, fused, sqrt and forward rate.
#[test]
fn published() {
    let month_end = RunFile::example("month-end.run");
    let (curve, grid, draws) = (month_end.curve(), &month_end.grid[0][..], &month_end.grid[1][..]);
    let weeks: Vec<f64> = (0..250).map(|week| f64::from(7 * week) / 365.0).collect();
    let spread: Vec<f64> = (0..250).map(|step| 3.0 * (f64::from(step) * 2.399).sin()).collect();
    let (mut seen, mut unlike) = (0, [0; 4]);
    for (alpha, sigma) in [(0.1, 0.01), (0.05, 0.013), (1e-9, 0.02), (3.0, 0.3), (0.7, 0.0), (40.0, 1.5)] {
        for (grid, draws) in [(grid, draws), (&weeks[..], &spread[..]), (&[0.0, 0.0, 0.5, 0.5, 2.0][..], &spread[..5])] {
            let pillars = Pillars { times: &[1.0], sigmas: &[sigma] };
            let mut rates = [(); 2].map(|()| vec![7.0; grid.len() + 1]);
            assert_eq!(generate(alpha, pillars, curve, grid, draws, &mut rates[0]), Ok(grid.len()));
            assert_eq!(generate_published(alpha, pillars, curve, grid, draws, &mut rates[1]), Ok(grid.len()));
            assert_eq!(rates.each_ref().map(|path| path[grid.len()]), [7.0; 2]);
            let (mut x, mut before, mut variance) = (0.0, 0.0, 0.0);
            for (point, (&t, &draw)) in grid.iter().zip(draws).enumerate() {
                let dt = t - before;
                let decay = exp(-2.0 * alpha * dt);
                x += fused(-alpha * x, dt, draw * sigma * sqrt(dt));
                variance = fused(variance, decay, sigma * sigma * (1.0 - decay) / (2.0 * alpha));
                let f = forward_rate_from_curve(curve, t).unwrap();
                let g = |t: f64| (sigma / alpha) * (1.0 - exp((-alpha) * t));
                let other_g = sigma * (1.0 - exp((-alpha) * t)) / alpha;
                let due = [x + fused(0.5, variance, f), x + (f + 0.5 * (g(t) * g(t)))];
                assert_eq!(rates.each_ref().map(|path| path[point].to_bits()), due.map(f64::to_bits), "{alpha} {sigma} {t}");
                // slips, each of which other points tell
                let slips = [f + 0.5 * variance, fused(0.5 * g(t), g(t), f), f + 0.5 * (g(dt) * g(dt)), f + 0.5 * (other_g * other_g)];
                for (place, slip) in slips.into_iter().enumerate() {
                    unlike[place] += usize::from(x + slip != due[1]);
                }
                before = t;
                seen += 1;
            }
        }
    }
    assert!(seen > 1500 && unlike.iter().all(|&times| times > 0), "{seen} {unlike:?}");
}

/// Document 02, A.6: 15 stands between 7 and 8, and what is refused leaves the output as it was.
#[test]
fn published_turned_down() {
    let month_end = RunFile::example("month-end.run");
    let (curve, grid, draws) = (month_end.curve(), &month_end.grid[0][..], &month_end.grid[1][..]);
    let (times, sigmas): (Vec<f64>, Vec<f64>) = ((0..65).map(f64::from).collect(), vec![0.01; 65]);
    let pillars = |count: usize| Pillars { times: &times[..count], sigmas: &sigmas[..count] };
    let (nowhere, late) = (Curve { times: &[], factors: &[] }, [0.25, 0.5, 1.0, 9.0]);
    let jump = Curve { times: &[1.0, 1.0 + 1.0 / 365.0, 5.0], factors: &[5e-324, 1.0, 1.0] };
    let before = [7.0, 8.0, 9.0, 10.0, 11.0];
    let mut out = before;
    let mut call = |alpha, pillars, curve, grid: &[f64], draws: &[f64]| generate_published(alpha, pillars, curve, grid, draws, &mut out);
    for (count, refusal) in [(0, Refusal::Empty), (2, Refusal::SeveralPillars), (64, Refusal::SeveralPillars), (65, Refusal::Size)] {
        assert_eq!(call(0.1, pillars(count), curve, grid, draws), Err(refusal));
        assert_eq!(call(0.1, pillars(count), curve, &late, draws), Err(refusal));
        assert_eq!(call(0.1, pillars(count), nowhere, grid, draws), Err(refusal));
        assert_eq!(call(0.1, pillars(count), curve, &[], &[]), Err(refusal));
    }
    assert_eq!(call(0.1, pillars(1), curve, &late, draws), Err(Refusal::OffCurve));
    assert_eq!(call(0.1, pillars(1), nowhere, grid, draws), Err(Refusal::OffCurve));
    assert_eq!(call(0.1, pillars(1), jump, &[1.0, 6.0], &[0.0; 2]), Err(Refusal::OffCurve));
    assert_eq!(call(0.1, pillars(1), jump, &[1.0], &[0.0]), Err(Refusal::Overflow));
    assert_eq!(call(0.1, pillars(2), jump, &[1.0], &[0.0]), Err(Refusal::SeveralPillars));
    // 1 to 6 come before it
    assert_eq!(call(0.1, Pillars { times: &[1.0, 2.0], sigmas: &[0.01] }, curve, grid, draws), Err(Refusal::Size));
    assert_eq!(call(f64::NAN, pillars(2), curve, grid, draws), Err(Refusal::NotFinite));
    assert_eq!(call(0.0, pillars(2), curve, grid, draws), Err(Refusal::MeanReversion));
    assert_eq!(call(0.1, Pillars { times: &[2.0, 1.0], sigmas: &[0.01; 2] }, curve, grid, draws), Err(Refusal::Order));
    assert_eq!(call(0.1, pillars(2), curve, &[-1.0], &[0.0]), Err(Refusal::Times));
    assert_eq!(call(0.1, Pillars { times: &[1.0, 2.0], sigmas: &[0.01, -0.01] }, curve, grid, draws), Err(Refusal::Domain));
    assert_eq!(call(0.1, pillars(1), curve, &[], &[]), Ok(0));
    assert_eq!(out, before);
    assert_eq!(generate_published(0.1, pillars(1), curve, grid, draws, &mut out[..3]), Err(Refusal::Size));
    assert_eq!(out, before);
    assert_eq!(generate_published(0.1, pillars(1), curve, grid, draws, &mut out), Ok(4));
    assert_eq!(out[4], 11.0);
    // kind 12 is asked nothing new
    assert_eq!(generate(0.1, pillars(64), curve, grid, draws, &mut out), Ok(4));
    assert_eq!(generate(0.1, pillars(2), curve, &late, draws, &mut out), Err(Refusal::OffCurve));
}

/// Document 02's draws in whole numbers: the first of a seed, and the state that they reach.
fn drawn(seed: u64, count: usize) -> (Vec<f64>, u64) {
    let mut x = seed;
    let draws = (0..count).map(|_| {
        let mut sum = 0i64;
        for _ in 0..12 {
            x ^= x << 13;
            x ^= x >> 7;
            x ^= x << 17;
            sum += (x >> 32) as i64;
        }
        (sum - (6 << 32)) as f64 / 4294967296.0
    });
    (draws.collect(), x)
}

fn bits_of(list: &[f64]) -> Vec<u64> {
    list.iter().map(|x| x.to_bits()).collect()
}

/// Document 02, A.5: the draws of a seed.
#[test]
fn stated_draws() {
    assert_eq!(drawn(1, 1).0, [0.5116662674117833]);
    for seed in [1, 2, 3, 1 << 32, 1 << 63, u64::MAX, 88172645463325252, 2026] {
        let mut all = [7.0; 1024];
        let (due, last) = drawn(seed, 1024);
        assert_eq!((draws(seed, &mut all), bits_of(&all)), (Ok(last), bits_of(&due)), "{seed}");
        assert!(all.iter().all(|draw| (-6.0..6.0).contains(draw) && draw.to_bits() != (-0.0f64).to_bits()));
        // the first n do not depend on how many follow, and the state goes on with the others
        for n in [0, 1, 2, 12, 500, 1023] {
            let mut some = [7.0; 1024];
            let state = draws(seed, &mut some[..n]).unwrap();
            assert_eq!((bits_of(&some[..n]), &some[n..]), (bits_of(&all[..n]), &[7.0; 1024][n..]));
            assert_eq!((draws(state, &mut some[n..]), bits_of(&some)), (Ok(last), bits_of(&all)));
        }
        assert_eq!(draws(seed, &mut []), Ok(seed));
    }
    // 1 before 14, and nothing is written
    let mut long = vec![7.0; 1025];
    assert_eq!([1, 0].map(|seed| draws(seed, &mut long)), [Err(Refusal::Size); 2]);
    assert_eq!(draws(0, &mut long[..1024]), Err(Refusal::ZeroSeed));
    assert_eq!(draws(0, &mut []), Err(Refusal::ZeroSeed));
    assert!(long.iter().all(|&x| x == 7.0));
}

/// Document 02, A.5: a path names a seed in place of its draws.
#[test]
fn seeded_paths() {
    type Listed = fn(f64, Pillars, Curve, &[f64], &[f64], &mut [f64]) -> Result<usize, Refusal>;
    type Seeded = fn(f64, Pillars, Curve, &[f64], u64, &mut [f64]) -> Result<u64, Refusal>;
    let month_end = RunFile::example("month-end.run");
    let (curve, one) = (month_end.curve(), Pillars { times: &[1.0], sigmas: &[0.01] });
    let weeks: Vec<f64> = (0..250).map(|week| f64::from(7 * week) / 365.0).collect();
    let kinds: [(Listed, Seeded); 2] = [(generate, generate_seeded), (generate_published, generate_published_seeded)];
    for (listed, seeded) in kinds {
        for grid in [&weeks[..], &month_end.grid[0], &[0.0, 0.0, 0.5, 0.5, 2.0], &[]] {
            let mut seed = 88172645463325252;
            for _ in 0..3 {
                let (draws, state) = drawn(seed, grid.len());
                let mut rates = [(); 2].map(|()| vec![7.0; grid.len() + 1]);
                assert_eq!(listed(0.1, one, curve, grid, &draws, &mut rates[0]), Ok(grid.len()));
                assert_eq!(seeded(0.1, one, curve, grid, seed, &mut rates[1]), Ok(state));
                assert_eq!(bits_of(&rates[0]), bits_of(&rates[1]));
                // a path is the front of a longer one
                let front = grid.len() / 2;
                let mut short = vec![7.0; front];
                assert_eq!(seeded(0.1, one, curve, &grid[..front], seed, &mut short), Ok(drawn(seed, front).1));
                assert_eq!(bits_of(&short), bits_of(&rates[1][..front]));
                seed = state;
            }
        }
    }
}

/// Document 02, A.5: 14 stands between 6 and 7, and what is refused leaves the output as it was.
#[test]
fn seeded_turned_down() {
    let month_end = RunFile::example("month-end.run");
    let (curve, grid) = (month_end.curve(), &month_end.grid[0][..]);
    let (nowhere, late) = (Curve { times: &[], factors: &[] }, [0.25, 0.5, 1.0, 9.0]);
    let jump = Curve { times: &[1.0, 1.0 + 1.0 / 365.0, 5.0], factors: &[5e-324, 1.0, 1.0] };
    let none = Pillars { times: &[], sigmas: &[] };
    let one = Pillars { times: &[1.0], sigmas: &[0.01] };
    let two = Pillars { times: &[1.0, 2.0], sigmas: &[0.01; 2] };
    let long: Vec<f64> = (0..1025).map(|day| f64::from(day) / 365.0).collect();
    let before = [7.0, 8.0, 9.0, 10.0, 11.0];
    let mut out = before;
    for (published, call) in [generate_seeded, generate_published_seeded].into_iter().enumerate() {
        let several = [Refusal::OffCurve, Refusal::SeveralPillars][published];
        for (pillars, due) in [(none, Refusal::Empty), (two, several), (one, Refusal::OffCurve)] {
            assert_eq!(call(0.1, pillars, curve, &late, 1, &mut out), Err(due));
            assert_eq!(call(0.1, pillars, nowhere, grid, 1, &mut out), Err(due));
            for (curve, grid) in [(curve, grid), (curve, &late[..]), (nowhere, grid), (curve, &[])] {
                assert_eq!(call(0.1, pillars, curve, grid, 0, &mut out), Err(Refusal::ZeroSeed));
            }
        }
        assert_eq!(call(0.1, one, jump, &[1.0], 1, &mut out), Err(Refusal::Overflow));
        // 1 to 6 come before it
        for seed in [0, 1] {
            assert_eq!(call(0.1, one, curve, grid, seed, &mut out[..3]), Err(Refusal::Size));
            assert_eq!(call(0.1, one, curve, &long, seed, &mut vec![0.0; 1025]), Err(Refusal::Size));
            assert_eq!(call(0.1, Pillars { sigmas: &[0.01], ..two }, curve, grid, seed, &mut out), Err(Refusal::Size));
            assert_eq!(call(f64::NAN, one, curve, grid, seed, &mut out), Err(Refusal::NotFinite));
            assert_eq!(call(0.0, one, curve, grid, seed, &mut out), Err(Refusal::MeanReversion));
            assert_eq!(call(0.1, one, curve, &[1.0, 0.5], seed, &mut out), Err(Refusal::Order));
            assert_eq!(call(0.1, one, curve, &[-1.0], seed, &mut out), Err(Refusal::Times));
            assert_eq!(call(0.1, Pillars { sigmas: &[-0.01], ..one }, curve, grid, seed, &mut out), Err(Refusal::Domain));
        }
        assert_eq!(call(0.1, one, nowhere, &[], 2026, &mut out), Ok(2026));
        assert_eq!(out, before);
    }
}

#[test]
fn long_and_unpaired_lists() {
    let times: Vec<f64> = (0..2049).map(f64::from).collect();
    let factors = vec![1.0; 2049];
    let call = |n: usize, m: usize| bond_call_price(0.5, Curve { times: &times[..n], factors: &factors[..m] }, 1.0, 2.0, 0.5, 0.0);
    assert_eq!(call(2048, 2048), Ok(0.5));
    assert_eq!(call(2049, 2049), Err(Refusal::Size));
    assert_eq!(call(2048, 2047), Err(Refusal::Size));
    let pillars = |n: usize| volatility(Pillars { times: &times[..n], sigmas: &factors[..n] }, 70.0);
    assert_eq!((pillars(64), pillars(65)), (Ok(1.0), Err(Refusal::Size)));
    let terms = Terms { coefficients: &[1.0; 65], affines: &[1.0; 65], b: &[1.0; 65] };
    assert_eq!(find_critical_rate(terms), Err(Refusal::Size));
    assert_eq!(find_critical_rate(Terms { affines: &[1.0; 64], ..terms }), Err(Refusal::Size));
}

#[test]
fn lent_lists() {
    let desk = RunFile::desk();
    let (alpha, pillars, curve, grid, draws) = (desk.alpha, desk.pillars(), desk.curve(), &desk.grid[0][..], &desk.grid[1][..]);
    let before = [7.0, 8.0, 9.0, 10.0, 11.0];
    let mut out = before;
    assert_eq!(generate(alpha, pillars, curve, grid, &[0.3, -1.1, f64::NAN, 0.05], &mut out), Err(Refusal::NotFinite));
    assert_eq!(generate(alpha, pillars, curve, grid, &draws[..3], &mut out), Err(Refusal::Size));
    assert_eq!(generate(0.0, pillars, curve, grid, draws, &mut out), Err(Refusal::MeanReversion));
    assert_eq!(generate(alpha, pillars, curve, &[0.25, 0.5, 1.0, 6.0], draws, &mut out), Err(Refusal::OffCurve));
    assert_eq!(generate(alpha, pillars, curve, grid, draws, &mut out[..3]), Err(Refusal::Size));
    assert_eq!(generate(alpha, pillars, curve, grid, draws, &mut []), Err(Refusal::Size));
    assert_eq!(out, before);
    assert_eq!(generate(alpha, pillars, curve, &[], &[], &mut out), Ok(0));
    assert_eq!(generate(alpha, pillars, curve, grid, draws, &mut out), Ok(4));
    assert_eq!((&out[..4], out[4]), (&desk.path(12).unwrap()[..], 11.0));

    let mut out = before;
    assert_eq!(transition_variances(alpha, pillars, 5, 0.0, &mut out), Err(Refusal::Times));
    assert_eq!(transition_variances(alpha, pillars, 6, 0.25, &mut out), Err(Refusal::Size));
    assert_eq!(transition_variances(alpha, pillars, 1025, 0.25, &mut [0.0; 2000]), Err(Refusal::Size));
    assert_eq!(out, before);
    assert_eq!(transition_variances(alpha, pillars, 4, 0.25, &mut out), Ok(4));
    assert!(near(out[0], hull_white_piecewise_variance(alpha, pillars, 0.0, 0.25).unwrap()));
    assert_eq!(out[4], 11.0);
}
