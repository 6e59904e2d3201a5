//! What the cut-out Rust stands on: errors, the dual number, the curve, dates,
//! quotes and trades, reduced to what the cut bodies ask of them. No formula
//! lives here but that of a table curve between its points.
//!
//! Dates are positions in a table of (time, accrual) that the caller lays out
//! before a call: position -1 is the reference date, 0 the first date of the
//! table. A period is a number of positions, so that the Rust's walk from date
//! to date is a walk along the listed payments.
#![allow(dead_code)]

use crate::elementary;
use std::cell::{Cell, RefCell};
use std::fmt;
use std::ops::{Add, Div, Mul, Neg, Sub};

// ---------------------------------------------------------------- errors

#[derive(Debug)]
pub enum QSError {
    InvalidValueErr(String),
    UnexpectedErr(String),
    ValueNotSetErr(String),
    SolverErr(String),
    NotFoundErr(String),
}

impl fmt::Display for QSError {
    fn fmt(&self, out: &mut fmt::Formatter<'_>) -> fmt::Result {
        let (QSError::InvalidValueErr(text)
        | QSError::UnexpectedErr(text)
        | QSError::ValueNotSetErr(text)
        | QSError::SolverErr(text)
        | QSError::NotFoundErr(text)) = self;
        out.write_str(text)
    }
}

pub type Result<T> = std::result::Result<T, QSError>;

// ------------------------------------------------- elementary functions

// The Rust evaluates A and B anew at every trial rate, so the same arguments
// come back a few hundred times. A small table of (argument, result) saves the
// work; it gives back what the function gave. With `--cfg plain`, which the
// timing is compiled with, there is no table and no trace.
const PLACE_BITS: u32 = 14;

struct Memo {
    rows: RefCell<Vec<(u64, f64)>>,
    function: fn(f64) -> f64,
}

impl Memo {
    const fn new(function: fn(f64) -> f64) -> Self {
        Memo {
            rows: RefCell::new(Vec::new()),
            function,
        }
    }

    fn at(&self, x: f64) -> f64 {
        let bits = x.to_bits();
        let mut rows = self.rows.borrow_mut();
        if rows.is_empty() {
            let zero = (self.function)(0.0);
            rows.resize(1 << PLACE_BITS, (0, zero));
        }
        let place = (bits.wrapping_mul(0x9e37_79b9_7f4a_7c15) >> (64 - PLACE_BITS)) as usize;
        let row = &mut rows[place];
        if row.0 != bits {
            *row = (bits, (self.function)(x));
        }
        row.1
    }
}

thread_local! {
    static EXP: Memo = const { Memo::new(elementary::exp) };
    static LN: Memo = const { Memo::new(elementary::ln) };
    static TRACING: Cell<bool> = const { Cell::new(false) };
    static TRACE: RefCell<Asked> = const { RefCell::new(Asked::new()) };
    static DATES: RefCell<Vec<(f64, f64)>> = const { RefCell::new(Vec::new()) };
}

/// What the Rust asked for, in order: the arguments of exp and of ln, and the
/// times that it looked up on a curve, with those of them between two points.
pub struct Asked {
    pub exps: Vec<f64>,
    pub lns: Vec<f64>,
    pub lookups: Vec<f64>,
    pub between: Vec<f64>,
}

impl Asked {
    const fn new() -> Self {
        Asked {
            exps: Vec::new(),
            lns: Vec::new(),
            lookups: Vec::new(),
            between: Vec::new(),
        }
    }
}

/// Notes one argument, where a trace is on.
#[cfg(not(plain))]
fn note(list: fn(&mut Asked) -> &mut Vec<f64>, at: f64) {
    if TRACING.with(Cell::get) {
        TRACE.with(|trace| list(&mut trace.borrow_mut()).push(at));
    }
}
#[cfg(plain)]
fn note(_: fn(&mut Asked) -> &mut Vec<f64>, _: f64) {}

/// Runs `work` and gives back, beside its result, every argument at which it
/// called exp, in order: the trail of a search.
pub fn with_trace<T>(work: impl FnOnce() -> T) -> (T, Vec<f64>) {
    let (result, asked) = with_asked(work);
    (result, asked.exps)
}

/// The same with all that it asked for.
pub fn with_asked<T>(work: impl FnOnce() -> T) -> (T, Asked) {
    /// Ends the tracing even where the work panics.
    struct Tracing;
    impl Drop for Tracing {
        fn drop(&mut self) {
            TRACING.with(|on| on.set(false));
        }
    }
    TRACE.with(|trace| *trace.borrow_mut() = Asked::new());
    TRACING.with(|on| on.set(true));
    let tracing = Tracing;
    let result = work();
    drop(tracing);
    (
        result,
        TRACE.with(|trace| std::mem::replace(&mut *trace.borrow_mut(), Asked::new())),
    )
}

/// The names that the substitutions put in place of the platform's.
pub trait Elementary {
    fn exp_01(self) -> Self;
    fn ln_01(self) -> Self;
    fn exp_m1_01(self) -> Self;
    fn signum_01(self) -> Self;
    fn max_01(self, other: Self) -> Self;
    fn min_01(self, other: Self) -> Self;
}

/// exp and ln themselves, which nobody notes.
#[cfg(not(plain))]
fn exp(x: f64) -> f64 {
    EXP.with(|memo| memo.at(x))
}
#[cfg(not(plain))]
fn ln(x: f64) -> f64 {
    LN.with(|memo| memo.at(x))
}
#[cfg(plain)]
use elementary::{exp, ln};

impl Elementary for f64 {
    fn exp_01(self) -> f64 {
        note(|asked| &mut asked.exps, self);
        exp(self)
    }
    fn ln_01(self) -> f64 {
        note(|asked| &mut asked.lns, self);
        ln(self)
    }
    fn exp_m1_01(self) -> f64 {
        if self.abs() > 0.5 {
            note(|asked| &mut asked.exps, self);
        }
        elementary::exp_m1(self)
    }
    fn signum_01(self) -> f64 {
        elementary::signum(self)
    }
    fn max_01(self, other: f64) -> f64 {
        elementary::max(self, other)
    }
    fn min_01(self, other: f64) -> f64 {
        elementary::min(self, other)
    }
}

pub fn midpoint_01(a: f64, b: f64) -> f64 {
    elementary::midpoint(a, b)
}

/// Document 01's, which calls exp once.
pub fn norm_pdf(d: f64) -> f64 {
    note(|asked| &mut asked.exps, (-0.5 * d) * d);
    elementary::norm_pdf(d)
}

// ------------------------------------------------------ the dual number

/// What the generic bodies ask of a number.
pub trait Scalar: Copy + From<f64> {
    fn scalar(value: f64) -> Self;
    fn value(&self) -> f64;
    fn zero() -> Self;
    fn add_val(self, other: Self) -> Self;
    fn mul_val(self, other: Self) -> Self;
}

impl Scalar for f64 {
    fn scalar(value: f64) -> f64 {
        value
    }
    fn value(&self) -> f64 {
        *self
    }
    fn zero() -> f64 {
        0.0
    }
    fn add_val(self, other: f64) -> f64 {
        self + other
    }
    fn mul_val(self, other: f64) -> f64 {
        self * other
    }
}

/// "DualFwd is replaced by its value: one f64 operation for each written one."
#[derive(Clone, Copy, Debug)]
pub struct DualFwd(pub f64);

impl From<f64> for DualFwd {
    fn from(value: f64) -> Self {
        DualFwd(value)
    }
}

impl Scalar for DualFwd {
    fn scalar(value: f64) -> Self {
        DualFwd(value)
    }
    fn value(&self) -> f64 {
        self.0
    }
    fn zero() -> Self {
        DualFwd(0.0)
    }
    fn add_val(self, other: Self) -> Self {
        DualFwd(self.0 + other.0)
    }
    fn mul_val(self, other: Self) -> Self {
        DualFwd(self.0 * other.0)
    }
}

impl DualFwd {
    pub fn new(value: f64) -> Self {
        DualFwd(value)
    }
    pub fn abs(self) -> Self {
        DualFwd(self.0.abs())
    }
    pub fn sqrt(self) -> Self {
        DualFwd(self.0.sqrt())
    }
}

impl Elementary for DualFwd {
    fn exp_01(self) -> Self {
        DualFwd(self.0.exp_01())
    }
    fn ln_01(self) -> Self {
        DualFwd(self.0.ln_01())
    }
    fn exp_m1_01(self) -> Self {
        DualFwd(self.0.exp_m1_01())
    }
    fn signum_01(self) -> Self {
        DualFwd(self.0.signum_01())
    }
    fn max_01(self, other: Self) -> Self {
        DualFwd(self.0.max_01(other.0))
    }
    fn min_01(self, other: Self) -> Self {
        DualFwd(self.0.min_01(other.0))
    }
}

macro_rules! operator {
    ($trait:ident, $method:ident, $sign:tt) => {
        impl $trait for DualFwd {
            type Output = DualFwd;
            fn $method(self, other: DualFwd) -> DualFwd {
                DualFwd(self.0 $sign other.0)
            }
        }
        impl $trait<f64> for DualFwd {
            type Output = DualFwd;
            fn $method(self, other: f64) -> DualFwd {
                DualFwd(self.0 $sign other)
            }
        }
    };
}
operator!(Add, add, +);
operator!(Sub, sub, -);
operator!(Mul, mul, *);
operator!(Div, div, /);

impl Neg for DualFwd {
    type Output = DualFwd;
    fn neg(self) -> DualFwd {
        DualFwd(-self.0)
    }
}

// ----------------------------------------------------------------- dates

/// A position in the table of dates.
#[derive(Clone, Copy, Debug, PartialEq, Eq, PartialOrd, Ord)]
pub struct Date(pub i64);

impl Date {
    pub const REFERENCE: Date = Date(-1);

    /// A date that the Rust must see as not after position 0, although it is
    /// listed at `position`: a payment that does not lie after the option.
    pub fn too_early(position: i64) -> Date {
        Date(-1 - position)
    }

    fn row(self) -> (f64, f64) {
        let position = if self.0 < 0 { -1 - self.0 } else { self.0 };
        DATES.with(|dates| dates.borrow()[position as usize])
    }
}

impl fmt::Display for Date {
    fn fmt(&self, out: &mut fmt::Formatter<'_>) -> fmt::Result {
        write!(out, "date {}", self.0)
    }
}

/// Lays out the dates 0, 1, .. with their times and, for a payment, the
/// accrual of the span that ends there.
pub fn lay_out_dates(dates: impl IntoIterator<Item = (f64, f64)>) {
    DATES.with(|table| {
        let mut table = table.borrow_mut();
        table.clear();
        table.extend(dates);
    });
}

#[derive(Clone, Copy, Debug)]
pub enum TimeUnit {
    Days,
    Years,
}

/// A number of positions.
#[derive(Clone, Copy, Debug, PartialEq, Eq)]
pub struct Period(pub i64);

impl Period {
    pub fn new(positions: i64, _unit: TimeUnit) -> Period {
        Period(positions)
    }
}

impl Add<Period> for Date {
    type Output = Date;
    fn add(self, period: Period) -> Date {
        Date(self.0 + period.0)
    }
}

/// From the reference date: the time in the table. From another date: the
/// accrual listed at the end date.
#[derive(Clone, Copy, Debug)]
pub struct DayCounter;

impl DayCounter {
    pub fn year_fraction(&self, start: Date, end: Date) -> f64 {
        let (time, accrual) = end.row();
        if start == Date::REFERENCE {
            time
        } else {
            accrual
        }
    }
}

// ----------------------------------------------------------------- curve

pub trait InterestRatesTermStructure<T> {
    fn reference_date(&self) -> Date;
    fn discount_factor(&self, date: Date) -> Result<T>;
    fn discount_factor_from_time(&self, time: f64) -> Result<T>;
    fn day_counter(&self) -> Option<DayCounter>;
}

/// Two lists. A time that equals one of the times as a number, so that -0 equals
/// +0, has its factor; one strictly between two neighbours has document 02's, A.4,
/// worked anew at each lookup, as a plain table curve does; any other is an error,
/// and so is a factor that is not finite. The neighbours are found by halving. The
/// Rust's own exp and ln are noted, those of the curve are not. For a curve of
/// coupons' own factors `by_date` holds the factor of each date instead.
pub struct TableCurve {
    times: Vec<f64>,
    factors: Vec<f64>,
    rising: bool,
    last: Cell<usize>,
    by_date: Vec<f64>,
}

impl TableCurve {
    pub fn new(points: &[(f64, f64)]) -> Self {
        TableCurve {
            times: points.iter().map(|point| point.0).collect(),
            factors: points.iter().map(|point| point.1).collect(),
            rising: points.windows(2).all(|pair| pair[0].0 < pair[1].0),
            last: Cell::new(0),
            by_date: Vec::new(),
        }
    }

    pub fn of_own_factors(factors: Vec<f64>) -> Self {
        TableCurve {
            by_date: factors,
            ..TableCurve::new(&[])
        }
    }

    pub fn find(&self, time: f64) -> Option<f64> {
        // Where times do not rise there are no neighbours, and the first place that
        // matches counts.
        if !self.rising {
            let place = self.times.iter().position(|at| *at == time)?;
            return Some(self.factors[place]);
        }
        // The last place found is tried first.
        let last = self.last.get();
        if self.times.get(last) == Some(&time) {
            return Some(self.factors[last]);
        }
        let place = self.times.partition_point(|at| *at < time);
        if *self.times.get(place)? == time {
            self.last.set(place);
            return Some(self.factors[place]);
        }
        let before = place.checked_sub(1)?;
        note(|asked| &mut asked.between, time);
        let factor = self.between(before, time);
        factor.is_finite().then_some(factor)
    }

    /// "exp(ln f0 + w × (ln f1 - ln f0)), where w = (t - t0)/(t1 - t0)"
    fn between(&self, before: usize, t: f64) -> f64 {
        let (t0, t1) = (self.times[before], self.times[before + 1]);
        let (log0, log1) = (ln(self.factors[before]), ln(self.factors[before + 1]));
        let w = (t - t0) / (t1 - t0);
        exp(log0 + w * (log1 - log0))
    }
}

impl<T: Scalar> InterestRatesTermStructure<T> for TableCurve {
    fn reference_date(&self) -> Date {
        Date::REFERENCE
    }
    fn discount_factor(&self, date: Date) -> Result<T> {
        if self.by_date.is_empty() {
            self.discount_factor_from_time(date.row().0)
        } else {
            Ok(T::scalar(self.by_date[date.0 as usize]))
        }
    }
    fn discount_factor_from_time(&self, time: f64) -> Result<T> {
        note(|asked| &mut asked.lookups, time);
        match self.find(time) {
            Some(factor) => Ok(T::scalar(factor)),
            None => Err(QSError::NotFoundErr(format!(
                "the curve has no factor at {time}"
            ))),
        }
    }
    fn day_counter(&self) -> Option<DayCounter> {
        Some(DayCounter)
    }
}

// -------------------------------------------------- model and calibration

pub trait PathGenerator<T> {
    fn generate(&self, times: &[f64], draws: &[f64], scenario: &mut [T]) -> Result<()>;
}

pub trait TimeDependentVolatility<T> {
    fn vol(&self, t: f64) -> Result<T>;
}

pub trait CalibrationInstrumentPricer {
    fn price(&self, instrument: &CalibrationInstrument) -> Result<f64>;
    fn sensitivity(&self, instrument: &CalibrationInstrument) -> Result<f64>;
}

#[derive(Clone)]
pub struct HullWhiteCalibrationRecord {
    pub identifier: String,
    pub expiry: Period,
    pub t: f64,
    pub big_t: f64,
    pub market_vol: f64,
    pub market_price: f64,
    pub model_price: f64,
    pub calibrated_sigma: f64,
    pub forward_rate: f64,
    pub effective_strike: f64,
}

#[derive(Clone)]
pub struct HullWhiteCalibrationQuality {
    pub records: Vec<HullWhiteCalibrationRecord>,
}

#[derive(Clone, Debug)]
pub enum VolatilityType {
    Black,
    Normal,
}

#[derive(Clone, Copy, Debug)]
pub enum Strike {
    Absolute(f64),
    Atm,
}

impl Strike {
    pub fn resolve(self, forward: f64) -> f64 {
        match self {
            Strike::Absolute(strike) => strike,
            Strike::Atm => forward,
        }
    }
}

#[derive(Clone, Debug)]
pub struct CapletFloorlet {
    pub start: Date,
    pub end: Date,
}

impl CapletFloorlet {
    pub fn start_accrual_date(&self) -> Date {
        self.start
    }
    pub fn end_accrual_date(&self) -> Date {
        self.end
    }
}

/// Never built: document 01 has no caps. The bodies name it.
#[derive(Clone, Debug)]
pub struct CapFloor {
    pub strike: Strike,
    pub caplets: Vec<CapletFloorlet>,
}

impl CapFloor {
    pub fn strike(&self) -> Strike {
        self.strike
    }
    pub fn caplet_floorlets(&self) -> &[CapletFloorlet] {
        &self.caplets
    }
}

#[derive(Clone, Debug)]
pub enum CalibrationInstrumentType {
    CapletFloorlet(CapletFloorlet),
    EuropeanSwaption(()),
    CapFloor(CapFloor),
    Other,
}

pub struct QuoteDetails {
    pub vol_type: VolatilityType,
    pub strike: f64,
    pub option_expiry: Period,
    pub tenor: Period,
}

impl QuoteDetails {
    pub fn vol_type(&self) -> Option<&VolatilityType> {
        Some(&self.vol_type)
    }
    pub fn strike(&self) -> Option<Strike> {
        Some(Strike::Absolute(self.strike))
    }
    pub fn option_expiry(&self) -> Option<Period> {
        Some(self.option_expiry)
    }
    pub fn tenor(&self) -> Option<Period> {
        Some(self.tenor)
    }
}

pub struct Quote {
    pub details: QuoteDetails,
}

impl Quote {
    pub fn details(&self) -> &QuoteDetails {
        &self.details
    }
}

pub struct CalibrationInstrument {
    pub quote: Quote,
    pub built: CalibrationInstrumentType,
    pub quoted_volatility: f64,
}

impl CalibrationInstrument {
    pub fn quote(&self) -> &Quote {
        &self.quote
    }
    pub fn built(&self) -> &CalibrationInstrumentType {
        &self.built
    }
    pub fn quote_value(&self) -> f64 {
        self.quoted_volatility
    }
    pub fn pillar_label(&self) -> String {
        String::new()
    }
}

// ------------------------------------------------- the pricer's surroundings

pub struct GaussianRateParameterSource;

/// Two curves at most: the forward curve and the coupons' own factors.
#[derive(Clone, Copy, Debug, PartialEq, Eq)]
pub enum MarketIndex {
    Forward,
    Own,
}

impl MarketIndex {
    pub fn rate_index_details(&self) -> Result<MarketIndex> {
        Ok(*self)
    }
    pub fn rate_definition(&self) -> MarketIndex {
        *self
    }
    pub fn day_counter(&self) -> DayCounter {
        DayCounter
    }
}

pub trait DiscountPolicy {
    fn accept(&self, swaption: &EuropeanSwaption) -> Result<MarketIndex>;
}

/// Discount with the coupons' own factors.
pub struct OwnFactors;

impl DiscountPolicy for OwnFactors {
    fn accept(&self, _swaption: &EuropeanSwaption) -> Result<MarketIndex> {
        Ok(MarketIndex::Own)
    }
}

pub struct HullWhiteParameters<T> {
    pub alpha: f64,
    pub schedule: Vec<(f64, T)>,
}

impl<T> HullWhiteParameters<T> {
    pub fn alpha(&self) -> f64 {
        self.alpha
    }
    pub fn sigma_schedule(&self) -> &[(f64, T)] {
        &self.schedule
    }
    pub fn day_counter(&self) -> Option<DayCounter> {
        None
    }
}

#[derive(Clone, Copy, Debug)]
pub enum SwaptionType {
    Payer,
    Receiver,
}

/// One listed payment; `position` is its place in the table of dates.
pub struct Coupon {
    pub position: i64,
    pub after_option: bool,
}

impl Coupon {
    pub fn payment_date(&self) -> Date {
        if self.after_option {
            Date(self.position)
        } else {
            Date::too_early(self.position)
        }
    }
    pub fn accrual_start_date(&self) -> Date {
        Date(self.position - 1)
    }
    pub fn accrual_end_date(&self) -> Date {
        Date(self.position)
    }
    pub fn rate(&self) -> &Coupon {
        self
    }
    pub fn day_counter(&self) -> DayCounter {
        DayCounter
    }
}

pub enum CashflowType {
    FixedRateCoupon(Coupon),
    Other,
}

pub struct EuropeanSwaption {
    pub strike: f64,
    pub kind: SwaptionType,
    pub cashflows: Vec<CashflowType>,
}

impl EuropeanSwaption {
    pub fn market_index(&self) -> MarketIndex {
        MarketIndex::Forward
    }
    pub fn expiry_date(&self) -> Date {
        Date(0)
    }
    pub fn underlying(&self) -> &EuropeanSwaption {
        self
    }
    pub fn fixed_leg(&self) -> &EuropeanSwaption {
        self
    }
    pub fn cashflows(&self) -> &[CashflowType] {
        &self.cashflows
    }
    pub fn strike(&self) -> f64 {
        self.strike
    }
    pub fn underlying_type(&self) -> SwaptionType {
        self.kind
    }
}

/// The side of a trade, 1 or -1 in the run file.
#[derive(Clone, Copy)]
pub struct Side(pub f64);

impl Side {
    pub fn sign(self) -> f64 {
        self.0
    }
}

pub struct EuropeanSwaptionTrade<T> {
    pub instrument: EuropeanSwaption,
    pub notional: f64,
    pub side: Side,
    pub number: std::marker::PhantomData<T>,
}

impl<T> EuropeanSwaptionTrade<T> {
    pub fn instrument(&self) -> &EuropeanSwaption {
        &self.instrument
    }
    pub fn notional(&self) -> f64 {
        self.notional
    }
    pub fn side(&self) -> Side {
        self.side
    }
}

pub struct DiscountCurveElement(pub TableCurve);

impl DiscountCurveElement {
    pub fn curve(&self) -> &dyn InterestRatesTermStructure<DualFwd> {
        &self.0
    }
}

pub struct HullWhiteSwaptionState {
    pub forward: DiscountCurveElement,
    pub own: DiscountCurveElement,
}

impl HullWhiteSwaptionState {
    pub fn get_discount_curve_element(&self, index: &MarketIndex) -> Result<&DiscountCurveElement> {
        Ok(match index {
            MarketIndex::Forward => &self.forward,
            MarketIndex::Own => &self.own,
        })
    }
}
