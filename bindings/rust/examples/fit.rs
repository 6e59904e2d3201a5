//! Fits the model to a swaption's Black volatility and prices the swaption at the sigma found: `cargo run --offline --example fit`.
use calstwid::{fit_swaption_black, swaption_price, Coupons, Curve, Refusal};

fn main() -> Result<(), Refusal> {
    // A flat curve at 3 %, a point a year. The day after the option time, which the model's forward rate wants, has its factor between two points.
    let times = [0.0, 1.0, 2.0, 3.0, 4.0, 5.0];
    let factors = times.map(|time: f64| (-0.03 * time).exp());
    let curve = Curve { times: &times, factors: &factors };
    let coupons = Coupons { payments: &[2.0, 3.0, 4.0, 5.0], accruals: &[1.0; 4] };
    let (alpha, strike, option_time, quoted) = (0.1, 0.031, 1.0, 0.22);

    let fit = fit_swaption_black(alpha, curve, coupons, strike, option_time, quoted)?;
    println!("sigma {} after {} halvings, residual {:e}", fit.sigma, fit.halvings, fit.residual);
    let swaption = swaption_price(alpha, curve, coupons, strike, option_time, fit.sigma)?;
    println!("price {} for a notional of 1, critical rate {}", swaption.value, swaption.rate);

    let late = Coupons { payments: &[2.0, 3.0, 4.0, 6.0], ..coupons };
    let refused = fit_swaption_black(alpha, curve, late, strike, option_time, quoted).unwrap_err();
    println!("with a payment after the curve's last point: {refused}");
    Ok(())
}
