//! Calstwid: Hull-White interest-rate options priced and fitted. Every call answers whatever it is given, with a value or with the first
//! [`Refusal`] that applies; each is proved to meet its contract where it is written, in Rattle. Nothing here adds to a call's meaning: lists
//! are lent as they are, and a [`Refusal`] is the number that the library answers. While a call runs nobody may write a list that it reads, or
//! touch the one that it writes, from another thread either: a borrow sees to both.
//!
//! Times are years from today; rates, strikes of rates and volatilities are fractions a year (0.03 is 3 %); alpha is the mean reversion. A value is
//! for a notional of 1 except where a notional is an argument.
//!
//! A time at which a call needs the [`Curve`] is on the curve or between two of its points. On the curve it has the factor listed there; strictly
//! between two neighbours (t0, f0) and (t1, f1) it has exp(ln(f0) + w × (ln(f1) - ln(f0))), w being (t - t0) / (t1 - t0), by [`exp`] and [`ln`].
//! Before the first point, after the last, and where that factor is not finite, the call is refused with [`Refusal::OffCurve`]. Where a call says that
//! it needs t + 1/365, it is `t + 1.0 / 365.0`.
//!
//! ```
//! use calstwid::{bond_call_price, Curve, Refusal};
//! let curve = Curve { times: &[1.0, 2.0], factors: &[1.0, 1.0] };
//! assert_eq!(bond_call_price(0.5, curve, 1.0, 2.0, 0.5, 0.0), Ok(0.5));
//! assert_eq!(bond_call_price(0.5, curve, 1.25, 1.75, 0.5, 0.0), Ok(0.5));
//! assert_eq!(bond_call_price(0.5, curve, 1.0, 3.0, 0.5, 0.0), Err(Refusal::OffCurve));
//! ```

mod ffi;
mod refusal;

pub use refusal::Refusal;

/// A discount curve: strictly rising times and the factor at each, at most 2,048. Between two points it has factors too, outside them none.
#[derive(Clone, Copy, Debug)]
pub struct Curve<'a> {
    pub times: &'a [f64],
    pub factors: &'a [f64],
}

/// The model's volatility: strictly rising times and the sigma from each on, at most 64. Before the first time the first sigma holds. Without any,
/// [`payer_swaption_value`] and [`receiver_swaption_value`] value a fixed-rate scenario, and calls that look a sigma up are refused.
/// [`generate_published`] and [`generate_published_seeded`] take one alone.
#[derive(Clone, Copy, Debug)]
pub struct Pillars<'a> {
    pub times: &'a [f64],
    pub sigmas: &'a [f64],
}

/// A swap's fixed leg: payment times and accruals, at most 64.
#[derive(Clone, Copy, Debug)]
pub struct Coupons<'a> {
    pub payments: &'a [f64],
    pub accruals: &'a [f64],
}

/// The caplets of a basket, at most 64: is the quoted volatility normal (else Black), strike, start, end, quoted volatility.
#[derive(Clone, Copy, Debug)]
pub struct Caplets<'a> {
    pub normals: &'a [bool],
    pub strikes: &'a [f64],
    pub starts: &'a [f64],
    pub ends: &'a [f64],
    pub vols: &'a [f64],
}

/// The terms of a critical rate, at most 64: coefficient × A × exp(-B × rate) each.
#[derive(Clone, Copy, Debug)]
pub struct Terms<'a> {
    pub coefficients: &'a [f64],
    pub affines: &'a [f64],
    pub b: &'a [f64],
}

/// The two ends of a search after its last halving with the coupon sums there, and the rungs of the two ladders that it began at.
#[derive(Clone, Copy, Debug, PartialEq)]
pub struct Bracket {
    pub lower: f64,
    pub upper: f64,
    pub lower_sum: f64,
    pub upper_sum: f64,
    pub lower_rung: u64,
    pub upper_rung: u64,
}

/// The rate at which the coupon sum is 1: the midpoint of its bracket.
#[derive(Clone, Copy, Debug, PartialEq)]
pub struct CriticalRate {
    pub rate: f64,
    pub bracket: Bracket,
}

/// A critical rate, and the rate after one Newton step from it.
#[derive(Clone, Copy, Debug, PartialEq)]
pub struct ImplicitRate {
    pub stepped: f64,
    pub rate: f64,
    pub bracket: Bracket,
}

/// A swaption by the model, for a notional of 1, with its critical rate. All 0 where there are no coupons.
#[derive(Clone, Copy, Debug, PartialEq)]
pub struct Swaption {
    pub value: f64,
    pub rate: f64,
    pub bracket: Bracket,
}

/// A swaption by the pricer: priced at the rate after the Newton step.
#[derive(Clone, Copy, Debug, PartialEq)]
pub struct Valuation {
    pub value: f64,
    pub stepped: f64,
    pub rate: f64,
    pub bracket: Bracket,
}

/// A fit: the sigma, the residual there, the last two ends with theirs, and the halvings made, 200 where it did not converge.
#[derive(Clone, Copy, Debug, PartialEq)]
pub struct Fit {
    pub sigma: f64,
    pub residual: f64,
    pub low: f64,
    pub high: f64,
    pub low_residual: f64,
    pub high_residual: f64,
    pub halvings: u64,
    pub converged: bool,
}

/// A basket's fits in the order given, and the diagonal of sensitivities by fits to bumped volatilities. A status is whether a fit converged.
#[derive(Clone, Debug, PartialEq)]
pub struct Basket {
    pub sigmas: Vec<f64>,
    pub statuses: Vec<bool>,
    pub halvings: Vec<u64>,
    pub residuals: Vec<f64>,
    pub diagonal: Vec<f64>,
    pub bumped_statuses: Vec<bool>,
}

/// Black's d1 and d2.
#[derive(Clone, Copy, Debug, PartialEq)]
pub struct D1D2 {
    pub d1: f64,
    pub d2: f64,
}

/// The room that [`piece`] wants in its output.
pub const PIECE_BYTES: usize = 131_072;

/// Calls the library: a number as it stands, a list `[xs]` as its address and its length.
macro_rules! call {
    // SAFETY: the declarations are the library's own. A slice is aligned, initialised and not null, and what is lent to be written is lent alone.
    (@ $name:ident ($($done:expr,)*)) => { unsafe { ffi::$name($($done),*) } };
    (@ $name:ident ($($done:expr,)*) [$list:expr] $(, $($rest:tt)*)?) => {
        call!(@ $name ($($done,)* $list.as_ptr(), $list.len(),) $($($rest)*)?)
    };
    (@ $name:ident ($($done:expr,)*) mut [$list:expr] $(, $($rest:tt)*)?) => {
        call!(@ $name ($($done,)* $list.as_mut_ptr(), $list.len(),) $($($rest)*)?)
    };
    (@ $name:ident ($($done:expr,)*) $number:expr $(, $($rest:tt)*)?) => {
        call!(@ $name ($($done,)* $number,) $($($rest)*)?)
    };
    ($name:ident, $($rest:tt)*) => { call!(@ $name () $($rest)*) };
}

/// Calls one of the four functions that work a path: what follows the grid is `[draws]` or a seed, and `mut [out]`.
macro_rules! path {
    ($name:ident, $alpha:expr, $pillars:expr, $curve:expr, $grid:expr, $($rest:tt)*) => {
        call!($name, $alpha, [$pillars.times], [$pillars.sigmas], [$curve.times], [$curve.factors], [$grid], $($rest)*)
    };
}

macro_rules! bracket {
    ($report:expr) => {
        Bracket {
            lower: $report.lower,
            upper: $report.upper,
            lower_sum: $report.lower_sum,
            upper_sum: $report.upper_sum,
            lower_rung: $report.lower_rung,
            upper_rung: $report.upper_rung,
        }
    };
}

fn price(report: ffi::PriceReport) -> Result<f64, Refusal> {
    Refusal::unless_served(report.answer, report.value)
}

fn count(report: ffi::CountReport) -> Result<usize, Refusal> {
    Refusal::unless_served(report.answer, report.count as usize)
}

/// The state that the draws have reached.
fn reached(report: ffi::DrawsReport) -> Result<u64, Refusal> {
    Refusal::unless_served(report.answer, report.state)
}

fn valuation(report: ffi::ValuationReport) -> Result<Valuation, Refusal> {
    let ffi::ValuationReport { value, stepped, rate, .. } = report;
    Refusal::unless_served(report.answer, Valuation { value, stepped, rate, bracket: bracket!(report) })
}

fn fit(report: ffi::FitReport) -> Result<Fit, Refusal> {
    let ffi::FitReport { answer, sigma, residual, low, high, low_residual, high_residual, halvings, converged } = report;
    Refusal::unless_served(answer, Fit { sigma, residual, low, high, low_residual, high_residual, halvings, converged })
}

// ---- the elementary and normal functions, which refuse nothing

/// a × b + c with a single rounding.
pub fn fused(a: f64, b: f64, c: f64) -> f64 {
    call!(calstwid_fused, a, b, c)
}

/// The square root; NaN below 0.
pub fn sqrt(x: f64) -> f64 {
    call!(calstwid_sqrt, x)
}

/// e to the power of x; infinity above 710.
pub fn exp(x: f64) -> f64 {
    call!(calstwid_exp, x)
}

/// exp(y) - 1.
pub fn exp_m1(y: f64) -> f64 {
    call!(calstwid_exp_m1, y)
}

/// The natural logarithm; NaN below 0, -infinity at 0.
pub fn ln(x: f64) -> f64 {
    call!(calstwid_ln, x)
}

/// The density of the normal distribution.
pub fn norm_pdf(d: f64) -> f64 {
    call!(calstwid_norm_pdf, d)
}

/// The normal distribution by fused steps.
pub fn norm_cdf(x: f64) -> f64 {
    call!(calstwid_norm_cdf, x)
}

/// The normal distribution by a product and then a sum, as the pricer has it: last bits differ from [`norm_cdf`].
pub fn norm_cdf_dual(x: f64) -> f64 {
    call!(calstwid_norm_cdf_dual, x)
}

/// (a + b)/2.
pub fn midpoint(a: f64, b: f64) -> f64 {
    call!(calstwid_midpoint, a, b)
}

/// 1 for +0, -1 for -0, NaN for NaN.
pub fn signum(x: f64) -> f64 {
    call!(calstwid_signum, x)
}

/// The larger of two numbers; passes over a NaN.
pub fn max(a: f64, b: f64) -> f64 {
    call!(calstwid_max, a, b)
}

/// The smaller of two numbers; passes over a NaN.
pub fn min(a: f64, b: f64) -> f64 {
    call!(calstwid_min, a, b)
}

// ---- the model's formulas

/// B of the model from the option time t to the bond time.
#[allow(non_snake_case)]
pub fn B(alpha: f64, t: f64, bond: f64) -> Result<f64, Refusal> {
    price(call!(calstwid_B, alpha, t, bond))
}

/// A of the model. Needs the curve at t, t + 1/365 and the bond time.
#[allow(non_snake_case)]
pub fn A(alpha: f64, curve: Curve, t: f64, bond: f64, sigma: f64) -> Result<f64, Refusal> {
    price(call!(calstwid_A, alpha, [curve.times], [curve.factors], t, bond, sigma))
}

/// The bond's price at t, the short rate then being `rate`. Needs the curve at t, t + 1/365 and the bond time.
pub fn zcb_price(alpha: f64, curve: Curve, rate: f64, t: f64, bond: f64, sigma: f64) -> Result<f64, Refusal> {
    price(call!(calstwid_zcb_price, alpha, [curve.times], [curve.factors], rate, t, bond, sigma))
}

/// The volatility of the bond's price over the option's life.
pub fn zcb_price_volatility(alpha: f64, sigma: f64, t: f64, bond: f64) -> Result<f64, Refusal> {
    price(call!(calstwid_zcb_price_volatility, alpha, sigma, t, bond))
}

/// The variance of the short rate from t to the bond time.
pub fn short_rate_variance(alpha: f64, t: f64, bond: f64, sigma: f64) -> Result<f64, Refusal> {
    price(call!(calstwid_short_rate_variance, alpha, t, bond, sigma))
}

/// The drift of the model at t. Needs the curve at t, t + 1/365 and t - 1/365, or where t is not above 1/365 at `fused(2.0, 1.0 / 365.0, t)`.
pub fn theta(alpha: f64, curve: Curve, t: f64, sigma: f64) -> Result<f64, Refusal> {
    price(call!(calstwid_theta, alpha, [curve.times], [curve.factors], t, sigma))
}

/// The forward rate from t to t + 1/365. Needs the curve at both.
pub fn forward_rate_from_curve(curve: Curve, t: f64) -> Result<f64, Refusal> {
    price(call!(calstwid_forward_rate_from_curve, [curve.times], [curve.factors], t))
}

/// The sigma at t: that of the last pillar at or before t, else the first.
pub fn volatility(pillars: Pillars, t: f64) -> Result<f64, Refusal> {
    price(call!(calstwid_volatility, [pillars.times], [pillars.sigmas], t))
}

/// The pillar times at or before t, a part of the list given.
pub fn pillars_reached<'a>(pillars: Pillars<'a>, t: f64) -> Result<&'a [f64], Refusal> {
    let reached = count(call!(calstwid_pillars_reached, [pillars.times], [pillars.sigmas], t))?;
    Ok(&pillars.times[..reached])
}

/// The state variance from start to end; any finite alpha is taken.
pub fn hull_white_piecewise_variance(alpha: f64, pillars: Pillars, start: f64, end: f64) -> Result<f64, Refusal> {
    price(call!(calstwid_hull_white_piecewise_variance, alpha, [pillars.times], [pillars.sigmas], start, end))
}

/// Writes the variance of each of the steps, at most 1,024, to the front of `out`, and says how many were written. `out` is untouched where the call is refused.
pub fn transition_variances(alpha: f64, pillars: Pillars, steps: usize, time_step: f64, out: &mut [f64]) -> Result<usize, Refusal> {
    count(call!(calstwid_transition_variances, alpha, [pillars.times], [pillars.sigmas], steps, time_step, mut [out]))
}

// ---- quotes

/// Black's d1 and d2.
pub fn d1_d2(fwd: f64, strike: f64, vol: f64, tau: f64) -> Result<D1D2, Refusal> {
    let report = call!(calstwid_d1_d2, fwd, strike, vol, tau);
    Refusal::unless_served(report.answer, D1D2 { d1: report.d1, d2: report.d2 })
}

/// Black's call on a forward, undiscounted.
pub fn black_call(fwd: f64, strike: f64, vol: f64, tau: f64) -> Result<f64, Refusal> {
    price(call!(calstwid_black_call, fwd, strike, vol, tau))
}

/// Black's put on a forward, undiscounted.
pub fn black_put(fwd: f64, strike: f64, vol: f64, tau: f64) -> Result<f64, Refusal> {
    price(call!(calstwid_black_put, fwd, strike, vol, tau))
}

/// Bachelier's call on a forward, undiscounted; the volatility is normal.
pub fn bachelier_call(fwd: f64, strike: f64, vol: f64, tau: f64) -> Result<f64, Refusal> {
    price(call!(calstwid_bachelier_call, fwd, strike, vol, tau))
}

/// The sum of accrual × factor over the coupons; 0 for none. Needs the curve at each payment time.
pub fn swap_annuity_from_curve(curve: Curve, coupons: Coupons) -> Result<f64, Refusal> {
    price(call!(calstwid_swap_annuity_from_curve, [curve.times], [curve.factors], [coupons.payments], [coupons.accruals]))
}

// ---- options

/// Kind 1: a caplet on the rate from start to end. Needs the curve at both.
pub fn caplet_price(alpha: f64, curve: Curve, strike: f64, start: f64, end: f64, sigma: f64) -> Result<f64, Refusal> {
    price(call!(calstwid_caplet_price, alpha, [curve.times], [curve.factors], strike, start, end, sigma))
}

/// Kind 2: a floorlet on the rate from start to end. Needs the curve at both.
pub fn floorlet_price(alpha: f64, curve: Curve, strike: f64, start: f64, end: f64, sigma: f64) -> Result<f64, Refusal> {
    price(call!(calstwid_floorlet_price, alpha, [curve.times], [curve.factors], strike, start, end, sigma))
}

/// Kind 3: a put at t on the bond that pays 1 at the bond time. Needs the curve at both.
pub fn bond_put_price(alpha: f64, curve: Curve, t: f64, bond: f64, strike: f64, sigma: f64) -> Result<f64, Refusal> {
    price(call!(calstwid_bond_put_price, alpha, [curve.times], [curve.factors], t, bond, strike, sigma))
}

/// Kind 4: a call at t on the bond that pays 1 at the bond time. Needs the curve at both.
pub fn bond_call_price(alpha: f64, curve: Curve, t: f64, bond: f64, strike: f64, sigma: f64) -> Result<f64, Refusal> {
    price(call!(calstwid_bond_call_price, alpha, [curve.times], [curve.factors], t, bond, strike, sigma))
}

/// Kind 5: the payer swaption by the model; t is the option's time. Needs the curve at t, t + 1/365 and the payment times. With no coupons it is 0 and
/// needs no time.
pub fn swaption_price(alpha: f64, curve: Curve, coupons: Coupons, strike: f64, t: f64, sigma: f64) -> Result<Swaption, Refusal> {
    let report =
        call!(calstwid_swaption_price, alpha, [curve.times], [curve.factors], [coupons.payments], [coupons.accruals], strike, t, sigma);
    Refusal::unless_served(report.answer, Swaption { value: report.value, rate: report.rate, bracket: bracket!(report) })
}

/// Kind 6: the payer swaption by the pricer, the variance up to t being that of the pillars. `own_dfs` has a discount factor of its own for each
/// coupon; 0 for all means the curve's. `side` is 1 (bought) or -1 (sold). Needs the curve at t, t + 1/365 and the payment times. No pillars, neither
/// times nor sigmas, are a fixed-rate scenario: the variance is 0, and every bond option is at intrinsic value.
///
/// ```
/// use calstwid::{payer_swaption_value, Coupons, Curve, Pillars};
///
/// let curve = Curve { times: &[1.0, 1.0 + 1.0 / 365.0, 2.0], factors: &[0.97, 0.9699, 0.94] };
/// let coupons = Coupons { payments: &[2.0], accruals: &[1.0] };
/// let none = Pillars { times: &[], sigmas: &[] };
/// let payer = payer_swaption_value(0.1, none, curve, coupons, &[0.0], 0.02, 1.0, 100.0, 1.0)?;
/// assert!((payer.value - 100.0 * (0.97 - 1.02 * 0.94)).abs() < 1e-10); // what the swap is worth
/// # Ok::<(), calstwid::Refusal>(())
/// ```
#[allow(clippy::too_many_arguments)]
pub fn payer_swaption_value(
    alpha: f64,
    pillars: Pillars,
    curve: Curve,
    coupons: Coupons,
    own_dfs: &[f64],
    strike: f64,
    t: f64,
    notional: f64,
    side: f64,
) -> Result<Valuation, Refusal> {
    valuation(call!(
        calstwid_payer_swaption_value,
        alpha,
        [pillars.times],
        [pillars.sigmas],
        [curve.times],
        [curve.factors],
        [coupons.payments],
        [coupons.accruals],
        [own_dfs],
        strike,
        t,
        notional,
        side
    ))
}

/// Kind 7: the receiver swaption by the pricer; as [`payer_swaption_value`].
#[allow(clippy::too_many_arguments)]
pub fn receiver_swaption_value(
    alpha: f64,
    pillars: Pillars,
    curve: Curve,
    coupons: Coupons,
    own_dfs: &[f64],
    strike: f64,
    t: f64,
    notional: f64,
    side: f64,
) -> Result<Valuation, Refusal> {
    valuation(call!(
        calstwid_receiver_swaption_value,
        alpha,
        [pillars.times],
        [pillars.sigmas],
        [curve.times],
        [curve.factors],
        [coupons.payments],
        [coupons.accruals],
        [own_dfs],
        strike,
        t,
        notional,
        side
    ))
}

// ---- the critical rate

/// The rate at which the terms sum to 1.
pub fn find_critical_rate(terms: Terms) -> Result<CriticalRate, Refusal> {
    let report = call!(calstwid_find_critical_rate, [terms.coefficients], [terms.affines], [terms.b]);
    Refusal::unless_served(report.answer, CriticalRate { rate: report.rate, bracket: bracket!(report) })
}

/// The same with one Newton step after it.
pub fn implicit_critical_rate(terms: Terms) -> Result<ImplicitRate, Refusal> {
    let report = call!(calstwid_implicit_critical_rate, [terms.coefficients], [terms.affines], [terms.b]);
    let ffi::ImplicitRateReport { stepped, rate, .. } = report;
    Refusal::unless_served(report.answer, ImplicitRate { stepped, rate, bracket: bracket!(report) })
}

// ---- fits

/// Kind 8: the sigma, from 1e-8 to 2.0, at which the model's caplet has the price that Black's volatility gives it. Needs the curve at start and end.
pub fn fit_caplet_black(alpha: f64, curve: Curve, strike: f64, start: f64, end: f64, vol: f64) -> Result<Fit, Refusal> {
    fit(call!(calstwid_fit_caplet_black, alpha, [curve.times], [curve.factors], strike, start, end, vol))
}

/// Kind 9: the same for a normal volatility.
pub fn fit_caplet_normal(alpha: f64, curve: Curve, strike: f64, start: f64, end: f64, vol: f64) -> Result<Fit, Refusal> {
    fit(call!(calstwid_fit_caplet_normal, alpha, [curve.times], [curve.factors], strike, start, end, vol))
}

/// Kind 10: the sigma at which the model's swaption has the price that Black's volatility gives it. The swap ends at its last listed
/// payment. Needs the curve at t, t + 1/365 and the payment times.
pub fn fit_swaption_black(alpha: f64, curve: Curve, coupons: Coupons, strike: f64, t: f64, vol: f64) -> Result<Fit, Refusal> {
    fit(call!(calstwid_fit_swaption_black, alpha, [curve.times], [curve.factors], [coupons.payments], [coupons.accruals], strike, t, vol))
}

/// Kind 11: the same for a normal volatility.
pub fn fit_swaption_normal(alpha: f64, curve: Curve, coupons: Coupons, strike: f64, t: f64, vol: f64) -> Result<Fit, Refusal> {
    fit(call!(calstwid_fit_swaption_normal, alpha, [curve.times], [curve.factors], [coupons.payments], [coupons.accruals], strike, t, vol))
}

/// A fit for each caplet, and one for each with its volatility bumped. The first refusal refuses the basket. Needs the curve at each start and end.
pub fn calibrate_to_instruments(alpha: f64, curve: Curve, caplets: Caplets) -> Result<Basket, Refusal> {
    let report = call!(
        calstwid_calibrate_to_instruments,
        alpha,
        [curve.times],
        [curve.factors],
        [caplets.normals],
        [caplets.strikes],
        [caplets.starts],
        [caplets.ends],
        [caplets.vols]
    );
    let used = ..report.count as usize;
    let basket = Basket {
        sigmas: report.sigmas[used].to_vec(),
        statuses: report.statuses[used].iter().map(|&status| status == 1.0).collect(),
        halvings: report.halvings[used].iter().map(|&halvings| halvings as u64).collect(),
        residuals: report.residuals[used].to_vec(),
        diagonal: report.diagonal[used].to_vec(),
        bumped_statuses: report.bumped_statuses[used].iter().map(|&status| status == 1.0).collect(),
    };
    Refusal::unless_served(report.answer, basket)
}

// ---- paths and run files

/// Kind 12: writes the short rate at each of at most 1,024 grid times to the front of `out`, and says how many were written; `draws` has a standard
/// normal number for each. Needs the curve at each grid time and 1/365 after it. `out` is untouched where the call is refused.
///
/// The rate is a state, which walks from 0 and has the mean 0, plus a shift: the forward rate plus half the state's variance. Averaged over many
/// paths, exp(-integral of the rate) so misses the curve's factors; [`generate_published`] does not.
pub fn generate(alpha: f64, pillars: Pillars, curve: Curve, grid: &[f64], draws: &[f64], out: &mut [f64]) -> Result<usize, Refusal> {
    count(path!(calstwid_generate, alpha, pillars, curve, grid, [draws], mut [out]))
}

/// Kind 13: the walk of [`generate`] centred as Brigo and Mercurio publish it. At a grid time t the shift is f + 0.5 × (g × g), f being the forward
/// rate and g = (sigma / alpha) × (1 - exp((-alpha) × t)), every operation rounded once. It serves one pillar: more are refused with
/// [`Refusal::SeveralPillars`], after [`Refusal::Empty`] and before [`Refusal::OffCurve`]. All else is as in [`generate`].
///
/// ```
/// use calstwid::{exp, forward_rate_from_curve, generate_published, Curve, Pillars, Refusal};
///
/// let curve = Curve { times: &[0.0, 1.0, 2.0], factors: &[1.0, 0.97, 0.94] };
/// let pillars = Pillars { times: &[0.0], sigmas: &[0.01] };
/// let mut out = [0.0];
/// assert_eq!(generate_published(0.1, pillars, curve, &[1.0], &[0.0], &mut out)?, 1);
/// let g = (0.01 / 0.1) * (1.0 - exp(-0.1 * 1.0));
/// assert_eq!(out[0], forward_rate_from_curve(curve, 1.0)? + 0.5 * (g * g)); // a draw of 0 leaves the state at 0
/// let two = Pillars { times: &[0.0, 1.0], sigmas: &[0.01, 0.01] };
/// assert_eq!(generate_published(0.1, two, curve, &[1.0], &[0.0], &mut out), Err(Refusal::SeveralPillars));
/// # Ok::<(), Refusal>(())
/// ```
pub fn generate_published(
    alpha: f64,
    pillars: Pillars,
    curve: Curve,
    grid: &[f64],
    draws: &[f64],
    out: &mut [f64],
) -> Result<usize, Refusal> {
    count(path!(calstwid_generate_published, alpha, pillars, curve, grid, [draws], mut [out]))
}

/// Fills the whole of `out`, at most 1,024, with draws, the same for everyone who names the same seed, and gives the state reached: the seed of the
/// draws that follow, and for an empty `out` the seed itself. A seed of 0 is refused with [`Refusal::ZeroSeed`], and `out` is untouched where the call
/// is refused.
///
/// The state is a u64 that is not 0, and begins as the seed. A step of it is Marsaglia's xorshift64: `x ^= x << 13; x ^= x >> 7; x ^= x << 17`. A draw takes
/// twelve steps, adds up the top 32 bits after each of them, takes away 6 × 2^32 and divides by 2^32, exactly. It is at least -6 and below 6, and never
/// -0; the first n draws do not depend on how many follow. A sum of twelve stands for a standard normal number and is none: mean 0 and variance 1 but for
/// less than 1e-8, excess kurtosis -0.1, fewer large draws, and none beyond 6.
///
/// Many lists or paths come from one seed, each from the state that the one before it reached. The seeds 1, 2, 3 and so on do not serve for that: they
/// give no independent draws. The first draws of the seeds 1 to 10,000 have the mean -0.51, and the states of the seed a ^ b are those of a and of b,
/// joined by ^.
///
/// ```
/// use calstwid::{draws, Refusal};
///
/// let mut one = [0.0];
/// let state = draws(1, &mut one)?;
/// assert_eq!(one, [0.5116662674117833]);
/// let (mut next, mut three) = ([0.0; 2], [0.0; 3]);
/// draws(state, &mut next)?;
/// draws(1, &mut three)?;
/// assert_eq!(three, [one[0], next[0], next[1]]);
/// assert_eq!(draws(0, &mut one), Err(Refusal::ZeroSeed));
/// # Ok::<(), Refusal>(())
/// ```
pub fn draws(seed: u64, out: &mut [f64]) -> Result<u64, Refusal> {
    reached(call!(calstwid_draws, seed, mut [out]))
}

/// Kind 12 from a seed: exactly [`generate`] on as many [`draws`] of the seed as the grid has times. The rates are written to the front of `out`; the state
/// reached is given, the seed of the next path or draws. A seed of 0 is refused with [`Refusal::ZeroSeed`], directly after [`Refusal::Domain`] and before
/// [`Refusal::Empty`], for an empty grid too. `out` is untouched where the call is refused.
///
/// ```
/// use calstwid::{draws, generate, generate_seeded, Curve, Pillars, Refusal};
///
/// let curve = Curve { times: &[0.0, 1.0, 2.0], factors: &[1.0, 0.97, 0.94] };
/// let pillars = Pillars { times: &[0.0], sigmas: &[0.01] };
/// let (grid, mut rates, mut listed, mut drawn) = ([0.5, 1.0], [0.0; 2], [0.0; 2], [0.0; 2]);
/// let state = generate_seeded(0.1, pillars, curve, &grid, 2026, &mut rates)?;
/// assert_eq!(draws(2026, &mut drawn)?, state);
/// generate(0.1, pillars, curve, &grid, &drawn, &mut listed)?;
/// assert_eq!(rates, listed);
/// // another path, which goes on from there
/// generate_seeded(0.1, pillars, curve, &grid, state, &mut rates)?;
/// assert_ne!(rates, listed);
/// # Ok::<(), Refusal>(())
/// ```
pub fn generate_seeded(alpha: f64, pillars: Pillars, curve: Curve, grid: &[f64], seed: u64, out: &mut [f64]) -> Result<u64, Refusal> {
    reached(path!(calstwid_generate_seeded, alpha, pillars, curve, grid, seed, mut [out]))
}

/// Kind 13 from a seed: exactly [`generate_published`] on as many [`draws`] of the seed as the grid has times. All else is as in [`generate_seeded`], and
/// more than one pillar is refused with [`Refusal::SeveralPillars`], after [`Refusal::ZeroSeed`] and [`Refusal::Empty`].
pub fn generate_published_seeded(
    alpha: f64,
    pillars: Pillars,
    curve: Curve,
    grid: &[f64],
    seed: u64,
    out: &mut [f64],
) -> Result<u64, Refusal> {
    reached(path!(calstwid_generate_published_seeded, alpha, pillars, curve, grid, seed, mut [out]))
}

/// Writes piece k of what the program prints for a run file to the front of `out`, and says how many bytes it has: piece 0 is the header, or
/// `refused 1` where the file breaks its layout; piece k + 1 has the lines of job k; after the last piece it is 0. Refused by 1 where `out` is shorter than [`PIECE_BYTES`].
pub fn piece(file: &[u8], k: usize, out: &mut [u8]) -> Result<usize, Refusal> {
    count(call!(calstwid_piece, [file], k, mut [out]))
}

/// All that the program prints for a run file.
pub fn run_file(file: &[u8]) -> Vec<u8> {
    let mut out = vec![0; PIECE_BYTES];
    let mut printed = Vec::new();
    for k in 0.. {
        let bytes = piece(file, k, &mut out).expect("there is room for a piece");
        if bytes == 0 {
            break;
        }
        printed.extend_from_slice(&out[..bytes]);
    }
    printed
}
