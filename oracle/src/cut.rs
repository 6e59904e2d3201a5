//! The cut-out Rust, compiled as it was written but for the listed
//! substitutions, and the few functions by which the judge calls it. Each
//! module below holds one file of the Rust.
#![allow(dead_code, non_snake_case, unused_imports, clippy::all)]

use crate::shim::{
    self, CalibrationInstrument, CalibrationInstrumentType, CapletFloorlet, Coupon, Date,
    DiscountCurveElement, DualFwd, HullWhiteSwaptionState, OwnFactors, PathGenerator, Period,
    Quote, QuoteDetails, Result, Scalar, Side, SwaptionType, TableCurve, VolatilityType,
};

pub mod norm_cdf {
    use crate::shim::{DualFwd, Elementary, Scalar};
    include!(concat!(env!("ORACLE_CUT"), "/norm_cdf.rs"));
}

pub mod utils {
    use super::norm_cdf::{norm_cdf, NormCDF};
    use crate::shim::*;
    include!(concat!(env!("ORACLE_CUT"), "/utils.rs"));
}

pub mod parameters {
    use crate::shim::*;
    include!(concat!(env!("ORACLE_CUT"), "/parameters.rs"));
}

pub mod solvertraits {
    use crate::shim::*;
    include!(concat!(env!("ORACLE_CUT"), "/solvertraits.rs"));
}

pub mod bisection {
    use super::solvertraits::{ContFunc, OptimizerSolution, SolutionStatus};
    use crate::shim::*;
    include!(concat!(env!("ORACLE_CUT"), "/bisection.rs"));
}

pub mod hullwhitemodel {
    use super::hullwhitecalibration::HullWhiteTimeDependentVolatility;
    use super::norm_cdf::norm_cdf;
    use crate::shim::*;
    include!(concat!(env!("ORACLE_CUT"), "/hullwhitemodel.rs"));

    /// The model with a volatility schedule laid in, for paths.
    pub fn with_schedule<'a>(
        alpha: f64,
        curve: &'a TableCurve,
        pillars: &[(f64, f64)],
    ) -> HullWhite<'a, f64> {
        let mut model = HullWhite::new(alpha, curve);
        model.vol_func = Some(HullWhiteTimeDependentVolatility::new(pillars.to_vec()));
        model
    }

    pub fn forward_rate(alpha: f64, curve: &TableCurve, t: f64) -> Result<f64> {
        HullWhite::new(alpha, curve).forward_rate_from_curve(t)
    }
}

pub mod pricer {
    use super::norm_cdf::norm_cdf;
    use super::parameters::hull_white_piecewise_variance;
    use crate::shim::*;
    include!(concat!(
        env!("ORACLE_CUT"),
        "/closedformhullwhiteswaptionpricer.rs"
    ));

    pub fn new(alpha: f64, own: bool) -> ClosedFormHullWhiteSwaptionPricer {
        ClosedFormHullWhiteSwaptionPricer {
            alpha,
            parameter_source: GaussianRateParameterSource,
            discount_policy: if own {
                Some(Box::new(OwnFactors))
            } else {
                None
            },
        }
    }

    pub fn value(
        pricer: &ClosedFormHullWhiteSwaptionPricer,
        trade: &EuropeanSwaptionTrade<DualFwd>,
        state: &HullWhiteSwaptionState,
        parameters: &HullWhiteParameters<DualFwd>,
    ) -> Result<f64> {
        Ok(pricer.swaption_value(trade, state, parameters)?.value())
    }

    /// Terms of (coefficient, payment time) with the Rust's own B and A.
    pub fn terms(
        alpha: f64,
        option_time: f64,
        variance: f64,
        curve: &TableCurve,
        payments: &[(f64, f64)],
    ) -> Result<Vec<(f64, f64, f64)>> {
        let pricer = new(alpha, false);
        let mut terms = Vec::new();
        for &(coefficient, time) in payments {
            let a = pricer.affine_a(option_time, time, DualFwd(variance), curve)?;
            terms.push((coefficient, a.value(), pricer.b(option_time, time)));
        }
        Ok(terms)
    }

    fn listed(terms: &[(f64, f64, f64)]) -> Vec<JamshidianTerm> {
        terms
            .iter()
            .map(|&(coefficient, a, b)| JamshidianTerm {
                payment_date: Date(0),
                coefficient,
                b,
                affine_a: DualFwd(a),
                forward_df: DualFwd(0.0),
            })
            .collect()
    }

    /// `find_critical_rate` over terms of (coefficient, A, B).
    pub fn critical_rate(terms: &[(f64, f64, f64)]) -> Result<f64> {
        ClosedFormHullWhiteSwaptionPricer::find_critical_rate(&listed(terms))
    }

    /// `implicit_critical_rate`: the rate after the Newton step.
    pub fn newton_rate(terms: &[(f64, f64, f64)], rate: f64) -> Result<f64> {
        Ok(
            ClosedFormHullWhiteSwaptionPricer::implicit_critical_rate(&listed(terms), rate)?
                .value(),
        )
    }

    pub fn bond_option(
        payer: bool,
        volatility: f64,
        strike: f64,
        option_df: f64,
        bond_df: f64,
    ) -> f64 {
        let kind = if payer {
            SwaptionType::Payer
        } else {
            SwaptionType::Receiver
        };
        ClosedFormHullWhiteSwaptionPricer::bond_option(
            kind,
            DualFwd(volatility),
            DualFwd(strike),
            DualFwd(option_df),
            DualFwd(bond_df),
        )
        .value()
    }
}

pub mod hullwhitecalibration {
    use super::bisection::Bisection;
    use super::hullwhitemodel::HullWhite;
    use super::solvertraits::{ContFunc, OptimizerSolution, SolutionStatus};
    use super::utils::{bachelier_call, black_call, swap_annuity_from_curve};
    use crate::shim::*;
    use std::cell::RefCell;
    include!(concat!(env!("ORACLE_CUT"), "/hullwhitecalibration.rs"));

    /// What `Bisection::solve` gave, and every sigma at which it asked for the
    /// objective with what it got: from these the halvings, the ends and the
    /// end residuals follow.
    pub struct Solved {
        pub x: f64,
        pub f: f64,
        pub converged: bool,
        pub asked: Vec<(f64, f64)>,
    }

    struct Recorded<'a, P> {
        inner: &'a P,
        asked: RefCell<Vec<(f64, f64)>>,
    }

    impl<P: ContFunc<f64>> ContFunc<f64> for Recorded<'_, P> {
        fn call(&self, sigma: &f64) -> Result<f64> {
            let value = self.inner.call(sigma)?;
            self.asked.borrow_mut().push((*sigma, value));
            Ok(value)
        }
    }

    /// One fit: the Rust's objective under the Rust's solver, with the ends
    /// and the count that `calibrate_to_instruments` gives it.
    pub fn solve(
        alpha: f64,
        curve: &TableCurve,
        instrument: &CalibrationInstrument,
    ) -> Result<Solved> {
        let model = HullWhite::new(alpha, curve);
        let objective = HwCalibrationObjective {
            hw: &model,
            instrument,
            market_vol: instrument.quote_value(),
            reference_date: Date::REFERENCE,
            day_counter: DayCounter,
            curve,
        };
        extract_calibration_params(instrument, Date::REFERENCE, DayCounter, curve)?;
        let recorded = Recorded {
            inner: &objective,
            asked: RefCell::new(Vec::new()),
        };
        let solution =
            Bisection::<Recorded<HwCalibrationObjective>>::new(1e-8, 2.0, 200).solve(&recorded)?;
        Ok(Solved {
            x: solution.x,
            f: solution.f,
            converged: matches!(solution.status, SolutionStatus::Converged),
            asked: recorded.asked.into_inner(),
        })
    }

    /// `calibrate_to_instruments`: the sigmas and the diagonal.
    pub fn calibrate(
        alpha: f64,
        curve: &TableCurve,
        instruments: &[CalibrationInstrument],
    ) -> Result<(Vec<f64>, Vec<f64>)> {
        let mut model = HullWhite::new(alpha, curve);
        model.calibrate_to_instruments(instruments, Date::REFERENCE, curve)?;
        let volatility = model.vol_func().unwrap();
        let sigmas = volatility.iter().map(|pair| pair.1).collect();
        let matrix = volatility.ift_sensitivities().unwrap();
        Ok((
            sigmas,
            (0..instruments.len())
                .map(|place| matrix[place][place])
                .collect(),
        ))
    }

    /// The market price of one instrument at its quoted volatility.
    pub fn market_price(
        alpha: f64,
        curve: &TableCurve,
        instrument: &CalibrationInstrument,
    ) -> Result<f64> {
        let model = HullWhite::new(alpha, curve);
        let pricer = HullWhiteCalibration {
            hw: &model,
            sigma: 0.0,
            reference_date: Date::REFERENCE,
            day_counter: DayCounter,
            curve,
        };
        pricer.market_price(instrument, instrument.quote_value())
    }

    pub fn volatility(pillars: &[(f64, f64)], t: f64) -> Result<f64> {
        HullWhiteTimeDependentVolatility::new(pillars.to_vec()).vol(t)
    }

    pub fn annuity(curve: &TableCurve, payments: i64) -> Result<f64> {
        swap_annuity_from_curve(curve, Date::REFERENCE, Date(0), Date(payments), DayCounter)
    }
}

pub use hullwhitemodel::HullWhite;

fn quote(normal: bool, strike: f64, tenor: i64) -> Quote {
    Quote {
        details: QuoteDetails {
            vol_type: if normal {
                VolatilityType::Normal
            } else {
                VolatilityType::Black
            },
            strike,
            option_expiry: Period(1),
            tenor: Period(tenor),
        },
    }
}

/// A caplet quote: strike, start, end, quoted volatility.
#[derive(Clone, Copy, Debug)]
pub struct CapletQuote {
    pub normal: bool,
    pub strike: f64,
    pub start: f64,
    pub end: f64,
    pub volatility: f64,
}

/// Caplets as the Rust's instruments; lays out their dates, two for each.
pub fn caplets(quotes: &[CapletQuote]) -> Vec<CalibrationInstrument> {
    shim::lay_out_dates(
        quotes
            .iter()
            .flat_map(|one| [(one.start, 0.0), (one.end, 0.0)]),
    );
    quotes
        .iter()
        .zip(0..)
        .map(|(one, place)| CalibrationInstrument {
            quote: quote(one.normal, one.strike, 0),
            built: CalibrationInstrumentType::CapletFloorlet(CapletFloorlet {
                start: Date(2 * place),
                end: Date(2 * place + 1),
            }),
            quoted_volatility: one.volatility,
        })
        .collect()
}

/// The dates of a swap: the option at position 0, then the listed payments.
pub fn lay_out_swap(option_time: f64, coupons: &[(f64, f64, f64)]) {
    let payments = coupons.iter().map(|coupon| (coupon.0, coupon.1));
    shim::lay_out_dates(std::iter::once((option_time, 0.0)).chain(payments));
}

/// A swaption as the Rust's instrument; lays out its dates.
pub fn swaption(
    normal: bool,
    strike: f64,
    option_time: f64,
    volatility: f64,
    coupons: &[(f64, f64, f64)],
) -> CalibrationInstrument {
    lay_out_swap(option_time, coupons);
    CalibrationInstrument {
        quote: quote(normal, strike, coupons.len() as i64),
        built: CalibrationInstrumentType::EuropeanSwaption(()),
        quoted_volatility: volatility,
    }
}

/// Kind 5's `swaption_price`.
pub fn model_swaption(
    alpha: f64,
    curve: &TableCurve,
    coupons: &[(f64, f64, f64)],
    strike: f64,
    option_time: f64,
    sigma: f64,
) -> Result<f64> {
    let schedule: Vec<(f64, f64)> = coupons.iter().map(|coupon| (coupon.0, coupon.1)).collect();
    HullWhite::new(alpha, curve).swaption_price(strike, option_time, &schedule, sigma, curve)
}

/// The curves that the pricer asks: the forward curve and the own factors.
pub fn swaption_state(
    curve: &[(f64, f64)],
    coupons: &[(f64, f64, f64)],
) -> HullWhiteSwaptionState {
    let mut own_factors = vec![0.0];
    own_factors.extend(coupons.iter().map(|coupon| coupon.2));
    HullWhiteSwaptionState {
        forward: DiscountCurveElement(TableCurve::new(curve)),
        own: DiscountCurveElement(TableCurve::of_own_factors(own_factors)),
    }
}

pub fn swaption_parameters(
    alpha: f64,
    pillars: &[(f64, f64)],
) -> shim::HullWhiteParameters<DualFwd> {
    shim::HullWhiteParameters {
        alpha,
        schedule: pillars
            .iter()
            .map(|pillar| (pillar.0, DualFwd(pillar.1)))
            .collect(),
    }
}

/// The trade of kinds 6 and 7; lays out its dates.
pub fn swaption_trade(
    coupons: &[(f64, f64, f64)],
    payer: bool,
    strike: f64,
    option_time: f64,
    notional: f64,
    side: f64,
) -> shim::EuropeanSwaptionTrade<DualFwd> {
    lay_out_swap(option_time, coupons);
    shim::EuropeanSwaptionTrade {
        instrument: shim::EuropeanSwaption {
            strike,
            kind: if payer {
                SwaptionType::Payer
            } else {
                SwaptionType::Receiver
            },
            cashflows: coupons
                .iter()
                .zip(1..)
                .map(|(coupon, position)| {
                    shim::CashflowType::FixedRateCoupon(Coupon {
                        position,
                        after_option: coupon.0 > option_time,
                    })
                })
                .collect(),
        },
        notional,
        side: Side(side),
        number: std::marker::PhantomData,
    }
}

/// Kinds 6 and 7: the pricer's `swaption_value`.
#[allow(clippy::too_many_arguments)]
pub fn pricer_swaption(
    alpha: f64,
    pillars: &[(f64, f64)],
    curve: &[(f64, f64)],
    coupons: &[(f64, f64, f64)],
    payer: bool,
    strike: f64,
    option_time: f64,
    notional: f64,
    side: f64,
) -> Result<f64> {
    let own = coupons.iter().any(|coupon| coupon.2 != 0.0);
    pricer::value(
        &pricer::new(alpha, own),
        &swaption_trade(coupons, payer, strike, option_time, notional, side),
        &swaption_state(curve, coupons),
        &swaption_parameters(alpha, pillars),
    )
}

/// Kind 12's `generate`.
pub fn path(
    alpha: f64,
    pillars: &[(f64, f64)],
    curve: &TableCurve,
    grid: &[(f64, f64)],
) -> Result<Vec<f64>> {
    let times: Vec<f64> = grid.iter().map(|point| point.0).collect();
    let draws: Vec<f64> = grid.iter().map(|point| point.1).collect();
    let mut scenario = vec![0.0; grid.len()];
    hullwhitemodel::with_schedule(alpha, curve, pillars).generate(&times, &draws, &mut scenario)?;
    Ok(scenario)
}
