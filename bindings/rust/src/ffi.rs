//! The library's declarations, as in include/calstwid.h: a list is its address and its length. `bindings/declared` holds them to that file.

#[repr(C)]
pub struct PriceReport {
    pub answer: u64,
    pub value: f64,
}

#[repr(C)]
pub struct D1D2Report {
    pub answer: u64,
    pub d1: f64,
    pub d2: f64,
}

#[repr(C)]
pub struct CountReport {
    pub answer: u64,
    pub count: u64,
}

#[repr(C)]
pub struct DrawsReport {
    pub answer: u64,
    pub count: u64,
    pub state: u64,
}

#[repr(C)]
pub struct CriticalRateReport {
    pub answer: u64,
    pub rate: f64,
    pub lower: f64,
    pub upper: f64,
    pub lower_sum: f64,
    pub upper_sum: f64,
    pub lower_rung: u64,
    pub upper_rung: u64,
}

#[repr(C)]
pub struct ImplicitRateReport {
    pub answer: u64,
    pub stepped: f64,
    pub rate: f64,
    pub lower: f64,
    pub upper: f64,
    pub lower_sum: f64,
    pub upper_sum: f64,
    pub lower_rung: u64,
    pub upper_rung: u64,
}

#[repr(C)]
pub struct SwaptionReport {
    pub answer: u64,
    pub value: f64,
    pub rate: f64,
    pub lower: f64,
    pub upper: f64,
    pub lower_sum: f64,
    pub upper_sum: f64,
    pub lower_rung: u64,
    pub upper_rung: u64,
}

#[repr(C)]
pub struct ValuationReport {
    pub answer: u64,
    pub value: f64,
    pub stepped: f64,
    pub rate: f64,
    pub lower: f64,
    pub upper: f64,
    pub lower_sum: f64,
    pub upper_sum: f64,
    pub lower_rung: u64,
    pub upper_rung: u64,
}

#[repr(C)]
pub struct FitReport {
    pub answer: u64,
    pub sigma: f64,
    pub residual: f64,
    pub low: f64,
    pub high: f64,
    pub low_residual: f64,
    pub high_residual: f64,
    pub halvings: u64,
    pub converged: bool,
}

#[repr(C)]
pub struct BasketReport {
    pub answer: u64,
    pub count: u64,
    pub sigmas: [f64; 64],
    pub statuses: [f64; 64],
    pub halvings: [f64; 64],
    pub residuals: [f64; 64],
    pub diagonal: [f64; 64],
    pub bumped_statuses: [f64; 64],
}

extern "C" {
    pub fn calstwid_fused(a: f64, b: f64, c: f64) -> f64;
    pub fn calstwid_sqrt(x: f64) -> f64;
    pub fn calstwid_exp(x: f64) -> f64;
    pub fn calstwid_exp_m1(y: f64) -> f64;
    pub fn calstwid_ln(x: f64) -> f64;
    pub fn calstwid_norm_pdf(d: f64) -> f64;
    pub fn calstwid_norm_cdf(x: f64) -> f64;
    pub fn calstwid_norm_cdf_dual(x: f64) -> f64;
    pub fn calstwid_midpoint(a: f64, b: f64) -> f64;
    pub fn calstwid_signum(x: f64) -> f64;
    pub fn calstwid_max(a: f64, b: f64) -> f64;
    pub fn calstwid_min(a: f64, b: f64) -> f64;
    pub fn calstwid_B(alpha: f64, t: f64, bond: f64) -> PriceReport;
    pub fn calstwid_zcb_price_volatility(alpha: f64, sigma: f64, t: f64, bond: f64) -> PriceReport;
    pub fn calstwid_short_rate_variance(alpha: f64, t: f64, bond: f64, sigma: f64) -> PriceReport;
    pub fn calstwid_A(
        alpha: f64,
        times: *const f64,
        n_times: usize,
        factors: *const f64,
        n_factors: usize,
        t: f64,
        bond: f64,
        sigma: f64,
    ) -> PriceReport;
    pub fn calstwid_zcb_price(
        alpha: f64,
        times: *const f64,
        n_times: usize,
        factors: *const f64,
        n_factors: usize,
        rate: f64,
        t: f64,
        bond: f64,
        sigma: f64,
    ) -> PriceReport;
    pub fn calstwid_theta(
        alpha: f64,
        times: *const f64,
        n_times: usize,
        factors: *const f64,
        n_factors: usize,
        t: f64,
        sigma: f64,
    ) -> PriceReport;
    pub fn calstwid_forward_rate_from_curve(
        times: *const f64,
        n_times: usize,
        factors: *const f64,
        n_factors: usize,
        t: f64,
    ) -> PriceReport;
    pub fn calstwid_black_call(fwd: f64, strike: f64, vol: f64, tau: f64) -> PriceReport;
    pub fn calstwid_black_put(fwd: f64, strike: f64, vol: f64, tau: f64) -> PriceReport;
    pub fn calstwid_bachelier_call(fwd: f64, strike: f64, vol: f64, tau: f64) -> PriceReport;
    pub fn calstwid_swap_annuity_from_curve(
        times: *const f64,
        n_times: usize,
        factors: *const f64,
        n_factors: usize,
        payments: *const f64,
        n_payments: usize,
        accruals: *const f64,
        n_accruals: usize,
    ) -> PriceReport;
    pub fn calstwid_volatility(times: *const f64, n_times: usize, sigmas: *const f64, n_sigmas: usize, t: f64) -> PriceReport;
    pub fn calstwid_hull_white_piecewise_variance(
        alpha: f64,
        times: *const f64,
        n_times: usize,
        sigmas: *const f64,
        n_sigmas: usize,
        start: f64,
        end: f64,
    ) -> PriceReport;
    pub fn calstwid_caplet_price(
        alpha: f64,
        times: *const f64,
        n_times: usize,
        factors: *const f64,
        n_factors: usize,
        strike: f64,
        start: f64,
        end: f64,
        sigma: f64,
    ) -> PriceReport;
    pub fn calstwid_floorlet_price(
        alpha: f64,
        times: *const f64,
        n_times: usize,
        factors: *const f64,
        n_factors: usize,
        strike: f64,
        start: f64,
        end: f64,
        sigma: f64,
    ) -> PriceReport;
    pub fn calstwid_bond_put_price(
        alpha: f64,
        times: *const f64,
        n_times: usize,
        factors: *const f64,
        n_factors: usize,
        t: f64,
        bond: f64,
        strike: f64,
        sigma: f64,
    ) -> PriceReport;
    pub fn calstwid_bond_call_price(
        alpha: f64,
        times: *const f64,
        n_times: usize,
        factors: *const f64,
        n_factors: usize,
        t: f64,
        bond: f64,
        strike: f64,
        sigma: f64,
    ) -> PriceReport;
    pub fn calstwid_d1_d2(fwd: f64, strike: f64, vol: f64, tau: f64) -> D1D2Report;
    pub fn calstwid_swaption_price(
        alpha: f64,
        times: *const f64,
        n_times: usize,
        factors: *const f64,
        n_factors: usize,
        payments: *const f64,
        n_payments: usize,
        accruals: *const f64,
        n_accruals: usize,
        strike: f64,
        t: f64,
        sigma: f64,
    ) -> SwaptionReport;
    pub fn calstwid_payer_swaption_value(
        alpha: f64,
        pillars: *const f64,
        n_pillars: usize,
        sigmas: *const f64,
        n_sigmas: usize,
        times: *const f64,
        n_times: usize,
        factors: *const f64,
        n_factors: usize,
        payments: *const f64,
        n_payments: usize,
        accruals: *const f64,
        n_accruals: usize,
        own_dfs: *const f64,
        n_own_dfs: usize,
        strike: f64,
        t: f64,
        notional: f64,
        side: f64,
    ) -> ValuationReport;
    pub fn calstwid_receiver_swaption_value(
        alpha: f64,
        pillars: *const f64,
        n_pillars: usize,
        sigmas: *const f64,
        n_sigmas: usize,
        times: *const f64,
        n_times: usize,
        factors: *const f64,
        n_factors: usize,
        payments: *const f64,
        n_payments: usize,
        accruals: *const f64,
        n_accruals: usize,
        own_dfs: *const f64,
        n_own_dfs: usize,
        strike: f64,
        t: f64,
        notional: f64,
        side: f64,
    ) -> ValuationReport;
    pub fn calstwid_fit_caplet_black(
        alpha: f64,
        times: *const f64,
        n_times: usize,
        factors: *const f64,
        n_factors: usize,
        strike: f64,
        start: f64,
        end: f64,
        vol: f64,
    ) -> FitReport;
    pub fn calstwid_fit_caplet_normal(
        alpha: f64,
        times: *const f64,
        n_times: usize,
        factors: *const f64,
        n_factors: usize,
        strike: f64,
        start: f64,
        end: f64,
        vol: f64,
    ) -> FitReport;
    pub fn calstwid_fit_swaption_black(
        alpha: f64,
        times: *const f64,
        n_times: usize,
        factors: *const f64,
        n_factors: usize,
        payments: *const f64,
        n_payments: usize,
        accruals: *const f64,
        n_accruals: usize,
        strike: f64,
        t: f64,
        vol: f64,
    ) -> FitReport;
    pub fn calstwid_fit_swaption_normal(
        alpha: f64,
        times: *const f64,
        n_times: usize,
        factors: *const f64,
        n_factors: usize,
        payments: *const f64,
        n_payments: usize,
        accruals: *const f64,
        n_accruals: usize,
        strike: f64,
        t: f64,
        vol: f64,
    ) -> FitReport;
    pub fn calstwid_calibrate_to_instruments(
        alpha: f64,
        times: *const f64,
        n_times: usize,
        factors: *const f64,
        n_factors: usize,
        normals: *const bool,
        n_normals: usize,
        strikes: *const f64,
        n_strikes: usize,
        starts: *const f64,
        n_starts: usize,
        ends: *const f64,
        n_ends: usize,
        vols: *const f64,
        n_vols: usize,
    ) -> BasketReport;
    pub fn calstwid_find_critical_rate(
        coefficients: *const f64,
        n_coefficients: usize,
        affines: *const f64,
        n_affines: usize,
        b: *const f64,
        n_b: usize,
    ) -> CriticalRateReport;
    pub fn calstwid_implicit_critical_rate(
        coefficients: *const f64,
        n_coefficients: usize,
        affines: *const f64,
        n_affines: usize,
        b: *const f64,
        n_b: usize,
    ) -> ImplicitRateReport;
    pub fn calstwid_pillars_reached(times: *const f64, n_times: usize, sigmas: *const f64, n_sigmas: usize, t: f64) -> CountReport;
    pub fn calstwid_transition_variances(
        alpha: f64,
        times: *const f64,
        n_times: usize,
        sigmas: *const f64,
        n_sigmas: usize,
        steps: usize,
        time_step: f64,
        out: *mut f64,
        n_out: usize,
    ) -> CountReport;
    pub fn calstwid_generate(
        alpha: f64,
        pillars: *const f64,
        n_pillars: usize,
        sigmas: *const f64,
        n_sigmas: usize,
        times: *const f64,
        n_times: usize,
        factors: *const f64,
        n_factors: usize,
        grid: *const f64,
        n_grid: usize,
        draws: *const f64,
        n_draws: usize,
        out: *mut f64,
        n_out: usize,
    ) -> CountReport;
    pub fn calstwid_generate_published(
        alpha: f64,
        pillars: *const f64,
        n_pillars: usize,
        sigmas: *const f64,
        n_sigmas: usize,
        times: *const f64,
        n_times: usize,
        factors: *const f64,
        n_factors: usize,
        grid: *const f64,
        n_grid: usize,
        draws: *const f64,
        n_draws: usize,
        out: *mut f64,
        n_out: usize,
    ) -> CountReport;
    pub fn calstwid_draws(seed: u64, out: *mut f64, n_out: usize) -> DrawsReport;
    pub fn calstwid_generate_seeded(
        alpha: f64,
        pillars: *const f64,
        n_pillars: usize,
        sigmas: *const f64,
        n_sigmas: usize,
        times: *const f64,
        n_times: usize,
        factors: *const f64,
        n_factors: usize,
        grid: *const f64,
        n_grid: usize,
        seed: u64,
        out: *mut f64,
        n_out: usize,
    ) -> DrawsReport;
    pub fn calstwid_generate_published_seeded(
        alpha: f64,
        pillars: *const f64,
        n_pillars: usize,
        sigmas: *const f64,
        n_sigmas: usize,
        times: *const f64,
        n_times: usize,
        factors: *const f64,
        n_factors: usize,
        grid: *const f64,
        n_grid: usize,
        seed: u64,
        out: *mut f64,
        n_out: usize,
    ) -> DrawsReport;
    pub fn calstwid_piece(file: *const u8, n_file: usize, k: usize, out: *mut u8, n_out: usize) -> CountReport;
}
