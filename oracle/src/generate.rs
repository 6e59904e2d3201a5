//! The generator of run files: a seed and an index give one run file.
//!
//! Everything here is worked out with the four operations, square roots and
//! fused steps, which round alike on every machine, so a seed gives the same
//! bytes everywhere. Each file belongs to a category, named "group/variant"; of
//! every category that is no damaged file some have no pillars, some one alone, and some
//! a curve of month ends in place of the times that the jobs need, or all if asked.
//! Behind most jobs of kind 12 stands one of kind 13, over the same lists:
//!
//! - desk:    realistic books, every kind of job;
//! - fit:     files of fits, converging or, with scaled curves, not;
//! - curve:   times on, beside, between and outside the points of a curve;
//! - path:    paths of kinds 12 and 13 over one pillar, and over none or several;
//! - limit:   full lists, empty lists, zeros, huge and tiny numbers;
//! - refusal: faults planted one by one or several at a time;
//! - near:    numbers on a limit of document 01 and one step beside it;
//! - layout:  damaged files.

/// The step of the forward rate, in years.
const H: f64 = 1.0 / 365.0;

/// The smallest number above zero.
const TINY: f64 = 5e-324;

/// Length of the offset table at the start of a run file.
const TABLE: usize = 48;

// ---------------------------------------------------------------------------
// Chance
// ---------------------------------------------------------------------------

/// A stream of numbers (splitmix64).
pub struct Dice(u64);

impl Dice {
    /// The stream of one file: seeds and indices give unrelated streams.
    pub fn new(seed: u64, index: u64) -> Dice {
        let mut start = Dice(seed);
        let mixed = start.next() ^ index.wrapping_mul(0xd134_2543_de82_ef95);
        let mut dice = Dice(mixed);
        dice.next();
        dice
    }

    fn next(&mut self) -> u64 {
        self.0 = self.0.wrapping_add(0x9e37_79b9_7f4a_7c15);
        let mut z = self.0;
        z = (z ^ (z >> 30)).wrapping_mul(0xbf58_476d_1ce4_e5b9);
        z = (z ^ (z >> 27)).wrapping_mul(0x94d0_49bb_1331_11eb);
        z ^ (z >> 31)
    }

    /// A whole number from 0 to n - 1.
    fn below(&mut self, n: usize) -> usize {
        (((self.next() >> 32) * n as u64) >> 32) as usize
    }

    /// A whole number from low to high, both included.
    fn range(&mut self, low: usize, high: usize) -> usize {
        low + self.below(high - low + 1)
    }

    /// True once in n times.
    fn one_in(&mut self, n: usize) -> bool {
        self.below(n) == 0
    }

    /// From 0 up to, not including, 1.
    fn unit(&mut self) -> f64 {
        (self.next() >> 11) as f64 / 9_007_199_254_740_992.0
    }

    fn between(&mut self, low: f64, high: f64) -> f64 {
        low + (high - low) * self.unit()
    }

    /// Between two positive numbers, evenly in the logarithm.
    fn log_between(&mut self, low: f64, high: f64) -> f64 {
        let (low, high) = (ln(low), ln(high));
        exp(self.between(low, high))
    }

    fn pick<T: Copy>(&mut self, list: &[T]) -> T {
        list[self.below(list.len())]
    }

    fn sign(&mut self) -> f64 {
        if self.one_in(2) {
            1.0
        } else {
            -1.0
        }
    }

    fn shuffle<T>(&mut self, list: &mut [T]) {
        for i in (1..list.len()).rev() {
            let j = self.below(i + 1);
            list.swap(i, j);
        }
    }

    /// Roughly a standard normal draw.
    fn draw(&mut self) -> f64 {
        let mut sum = -6.0;
        for _ in 0..12 {
            sum += self.unit();
        }
        sum
    }

    /// A finite number above 0 of any size, special ones often.
    fn wild(&mut self) -> f64 {
        match self.below(4) {
            0 => self.pick(&[
                TINY, 1e-320, f64::MIN_POSITIVE, 1e-300, 1e-154, 1e-100, 1e-16, 1e-12, 0.5, 1.0,
                2.0, 3.0, 1e12, 1e16, 1e100, 1e154, 1e300, f64::MAX,
            ]),
            1 => f64::from_bits(self.next() % 0x7ff0_0000_0000_0000).max(TINY),
            2 => self.log_between(1e-30, 1e30),
            _ => self.log_between(1e-3, 1e3),
        }
    }

    /// A NaN of some make, or an infinity.
    fn bad(&mut self) -> f64 {
        f64::from_bits(self.pick(&[
            0x7ff8_0000_0000_0000,
            0xfff8_0000_0000_0000,
            0x7ff0_0000_0000_0001,
            0xffff_ffff_ffff_ffff,
            0x7ff0_0000_0000_0000,
            0xfff0_0000_0000_0000,
        ]))
    }
}

/// The number n steps further from zero (n above 0) or nearer to it.
fn step(x: f64, n: i64) -> f64 {
    if x == 0.0 {
        let tiny = f64::from_bits(n.unsigned_abs());
        return if n < 0 { -tiny } else { tiny };
    }
    f64::from_bits(x.to_bits().wrapping_add(n as u64))
}

// ---------------------------------------------------------------------------
// Elementary functions as document 01 writes them
// ---------------------------------------------------------------------------

fn power_of_two(k: i32) -> f64 {
    f64::from_bits(((1023 + k) as u64) << 52)
}

fn exp(x: f64) -> f64 {
    if x.is_nan() {
        return x;
    }
    if x > 710.0 {
        return f64::INFINITY;
    }
    if x < -746.0 {
        return 0.0;
    }
    exp_with((x * 1.4426950408889634).round(), x)
}

/// exp with a given k.
fn exp_with(k: f64, x: f64) -> f64 {
    let r = (x - k * 0.693147180369123816490) - k * 1.90821492927058770002e-10;
    let mut p = 1.0;
    for n in (1..=13).rev() {
        p = 1.0 + (r * p) / f64::from(n);
    }
    let k = k as i32;
    let a = k / 2;
    p * power_of_two(a) * power_of_two(k - a)
}

fn exp_m1(y: f64) -> f64 {
    if !(y.abs() <= 0.5) {
        return exp(y) - 1.0;
    }
    exp_m1_from(17, y)
}

/// exp_m1 for small y, its series begun at n = first.
fn exp_m1_from(first: i32, y: f64) -> f64 {
    let mut q = 1.0;
    for n in (2..=first).rev() {
        q = 1.0 + (y * q) / f64::from(n);
    }
    y * q
}

fn ln(x: f64) -> f64 {
    ln_from(25, x)
}

/// ln with its series begun at n = first.
fn ln_from(first: i32, x: f64) -> f64 {
    if x.is_nan() || x < 0.0 {
        return f64::NAN;
    }
    if x == 0.0 {
        return f64::NEG_INFINITY;
    }
    if x == f64::INFINITY {
        return x;
    }
    let (full, extra) = if x < f64::MIN_POSITIVE {
        (x * 18_014_398_509_481_984.0, 54)
    } else {
        (x, 0)
    };
    let bits = full.to_bits();
    let mut k = ((bits >> 52) as i32 - 1023 - extra) as f64;
    let mut m = f64::from_bits((bits & 0x000f_ffff_ffff_ffff) | 0x3ff0_0000_0000_0000);
    if m >= 1.5 {
        m *= 0.5;
        k += 1.0;
    }
    let s = (m - 1.0) / (m + 1.0);
    let z = s * s;
    let mut t = 0.0;
    let mut n = first;
    while n >= 1 {
        t = 1.0 / f64::from(n) + z * t;
        n -= 2;
    }
    k * 0.693147180369123816490 + (2.0 * (s * t) + k * 1.90821492927058770002e-10)
}

// ---------------------------------------------------------------------------
// Model formulas, used to aim at a limit
// ---------------------------------------------------------------------------

/// B(t, T).
fn bond_slope(alpha: f64, t: f64, end: f64) -> f64 {
    (1.0 - exp(-alpha * (end - t))) / alpha
}

/// The bond price's volatility in kinds 1 to 5.
fn bond_volatility(alpha: f64, sigma: f64, t: f64, end: f64) -> f64 {
    let b = bond_slope(alpha, t, end);
    sigma * b * ((1.0 - exp(-2.0 * alpha * t)) / (2.0 * alpha)).sqrt()
}

/// d1 and d2 of a bond option in kinds 1 to 5.
fn bond_d(volatility: f64, strike: f64, p_option: f64, p_bond: f64) -> (f64, f64) {
    let log = ln(p_bond / (strike * p_option));
    let d1 = (0.5 * volatility).mul_add(volatility, log) / volatility;
    (d1, d1 - volatility)
}

/// The pricer's bond volatility with one pillar at time 0.
fn pricer_volatility(alpha: f64, sigma: f64, t: f64, end: f64) -> f64 {
    let weight = exp(-2.0 * alpha * 0.0) * (-exp_m1(-2.0 * alpha * t)) / (2.0 * alpha);
    (sigma * sigma * weight).sqrt() * bond_slope(alpha, t, end)
}

// ---------------------------------------------------------------------------
// The contents of a run file
// ---------------------------------------------------------------------------

/// One job: its kind and the fields a, b, c, d.
#[derive(Clone, Copy)]
struct Job {
    kind: u64,
    f: [f64; 4],
}

/// The six parts of a run file.
#[derive(Clone, Default)]
struct Desk {
    alpha: f64,
    pillars: Vec<(f64, f64)>,
    curve: Vec<(f64, f64)>,
    coupons: Vec<(f64, f64, f64)>,
    grid: Vec<(f64, f64)>,
    jobs: Vec<Job>,
}

fn put_pairs(list: &[(f64, f64)]) -> Vec<u8> {
    let mut out = Vec::with_capacity(16 * list.len());
    for &(x, y) in list {
        out.extend(x.to_le_bytes());
        out.extend(y.to_le_bytes());
    }
    out
}

impl Desk {
    /// The bytes of the six parts.
    fn parts(&self) -> [Vec<u8>; 6] {
        let mut coupons = Vec::new();
        for &(time, accrual, own) in &self.coupons {
            for number in [time, accrual, own] {
                coupons.extend(number.to_le_bytes());
            }
        }
        let mut jobs = Vec::new();
        for job in &self.jobs {
            jobs.extend(job.kind.to_le_bytes());
            for number in job.f {
                jobs.extend(number.to_le_bytes());
            }
        }
        [
            self.alpha.to_le_bytes().to_vec(),
            put_pairs(&self.pillars),
            put_pairs(&self.curve),
            coupons,
            put_pairs(&self.grid),
            jobs,
        ]
    }

    /// The run file without gaps.
    fn bytes(&self) -> Vec<u8> {
        join(&self.parts(), &[0; 7], 0)
    }

    /// The run file with unused bytes between, before and after its parts.
    fn bytes_with_gaps(&self, dice: &mut Dice) -> Vec<u8> {
        let mut gaps = [0; 7];
        for gap in &mut gaps {
            if dice.one_in(2) {
                *gap = dice.below(24);
            }
        }
        join(&self.parts(), &gaps, dice.next() as u8)
    }
}

/// Lays six parts behind the table, gaps[i] filling bytes before part i and
/// gaps[6] after the last.
fn join(parts: &[Vec<u8>; 6], gaps: &[usize; 7], filling: u8) -> Vec<u8> {
    let mut table = Vec::new();
    let mut body = Vec::new();
    for (part, gap) in parts.iter().zip(gaps) {
        body.resize(body.len() + gap, filling);
        table.extend(((TABLE + body.len()) as u32).to_le_bytes());
        table.extend((part.len() as u32).to_le_bytes());
        body.extend(part);
    }
    body.resize(body.len() + gaps[6], filling);
    table.extend(body);
    table
}

// ---------------------------------------------------------------------------
// Building desks
// ---------------------------------------------------------------------------

/// A smooth discount curve: the zero rate moves from `level` by `slope`.
#[derive(Clone, Copy)]
struct Shape {
    scale: f64,
    level: f64,
    slope: f64,
    pace: f64,
}

impl Shape {
    /// A flat curve with all factors 1.
    const FLAT: Shape = Shape { scale: 1.0, level: 0.0, slope: 0.0, pace: 1.0 };

    /// A market curve, now and then with negative rates.
    fn market(dice: &mut Dice) -> Shape {
        let low = if dice.one_in(8) { -0.02 } else { 0.005 };
        Shape {
            scale: 1.0,
            level: dice.between(low, 0.06),
            slope: dice.between(-0.02, 0.03),
            pace: dice.between(0.05, 1.0),
        }
    }

    fn factor(&self, t: f64) -> f64 {
        let zero = self.level + self.slope * (1.0 - exp(-t * self.pace));
        self.scale * exp(-zero * t)
    }
}

/// A desk in the making: the curve's times are gathered as jobs are added.
struct Builder {
    desk: Desk,
    shape: Shape,
    times: Vec<f64>,
    pins: Vec<(f64, f64)>,
}

impl Builder {
    fn new(shape: Shape, alpha: f64) -> Builder {
        let desk = Desk { alpha, ..Desk::default() };
        Builder { desk, shape, times: Vec::new(), pins: Vec::new() }
    }

    /// A time that a job looks up.
    fn need(&mut self, t: f64) {
        self.times.push(t);
    }

    /// A time at which a job also looks up the forward rate.
    fn need_forward(&mut self, t: f64) {
        self.need(t);
        self.need(t + H);
    }

    /// Fixes the factor of one time.
    fn pin(&mut self, t: f64, factor: f64) {
        self.pins.push((t, factor));
        self.need(t);
    }

    fn factor(&self, t: f64) -> f64 {
        for &(time, factor) in &self.pins {
            if time == t {
                return factor;
            }
        }
        self.shape.factor(t)
    }

    /// The simple forward rate between two times.
    fn forward(&self, t: f64, end: f64) -> f64 {
        (self.factor(t) / self.factor(end) - 1.0) / (end - t)
    }

    /// The forward swap rate of the listed coupons.
    fn swap_forward(&self, t: f64) -> f64 {
        let mut annuity = 0.0;
        for &(time, accrual, _) in &self.desk.coupons {
            annuity = accrual.mul_add(self.factor(time), annuity);
        }
        match self.desk.coupons.last() {
            Some(&(last, _, _)) => (self.factor(t) - self.factor(last)) / annuity,
            None => 0.02,
        }
    }

    fn job(&mut self, kind: u64, a: f64, b: f64, c: f64, d: f64) {
        self.desk.jobs.push(Job { kind, f: [a, b, c, d] });
    }

    fn coupon(&mut self, time: f64, accrual: f64) {
        self.desk.coupons.push((time, accrual, 0.0));
        self.need(time);
    }

    /// Evenly spaced coupons after a start, with accruals close to the space.
    fn coupons(&mut self, dice: &mut Dice, start: f64, count: usize, space: f64) {
        let days = dice.one_in(2);
        for i in 0..count {
            let time = start + space * (i + 1) as f64;
            let accrual = if days { space * dice.between(0.98, 1.02) } else { space };
            self.coupon(time, accrual);
        }
    }

    /// Own discount factors, all above 0, from a second curve.
    fn own_factors(&mut self, dice: &mut Dice) {
        let spread = dice.between(-0.01, 0.01);
        for coupon in &mut self.desk.coupons {
            coupon.2 = self.shape.factor(coupon.0) * exp(-spread * coupon.0);
        }
    }

    fn pillars(&mut self, dice: &mut Dice, count: usize) {
        let mut time = if dice.one_in(2) { 0.0 } else { dice.between(0.0, 1.0) };
        for _ in 0..count {
            let sigma = dice.log_between(0.001, 0.05);
            self.desk.pillars.push((time, sigma));
            time += dice.pick(&[0.25, 0.5, 1.0, 2.0]);
        }
    }

    fn grid(&mut self, dice: &mut Dice, count: usize, space: f64) {
        let mut time = if dice.one_in(2) { 0.0 } else { space };
        for _ in 0..count {
            let draw = dice.draw();
            self.desk.grid.push((time, draw));
            self.need_forward(time);
            if !dice.one_in(8) {
                time += space;
            }
        }
    }

    /// The finished desk, its curve holding every needed time once.
    fn finish(mut self) -> Desk {
        self.times.sort_by(f64::total_cmp);
        self.times.dedup_by(|a, b| a == b);
        let times = std::mem::take(&mut self.times);
        self.desk.curve = times.iter().map(|&t| (t, self.factor(t))).collect();
        self.desk
    }
}

/// An option time of a real book.
fn market_time(dice: &mut Dice) -> f64 {
    match dice.below(3) {
        0 => dice.range(1, 40) as f64 * 0.25,
        1 => dice.range(1, 3650) as f64 / 365.0,
        _ => dice.between(0.05, 12.0),
    }
}

fn market_alpha(dice: &mut Dice) -> f64 {
    dice.log_between(0.01, 0.5)
}

fn market_sigma(dice: &mut Dice) -> f64 {
    dice.log_between(0.001, 0.05)
}

/// A strike around a forward rate.
fn strike_around(dice: &mut Dice, forward: f64) -> f64 {
    match dice.below(6) {
        0 => forward,
        1 => forward + dice.between(-0.02, 0.02),
        2 => -dice.between(0.0, 0.01),
        _ => forward * dice.between(0.5, 1.6),
    }
}

/// A strike around a forward rate, above 0.
fn black_strike(dice: &mut Dice, forward: f64) -> f64 {
    let strike = if dice.one_in(6) { forward } else { forward * dice.between(0.6, 1.6) };
    if strike > 0.0 {
        strike
    } else {
        dice.between(0.001, 0.03)
    }
}

fn black_quote(dice: &mut Dice) -> f64 {
    dice.between(0.05, 0.6)
}

fn normal_quote(dice: &mut Dice) -> f64 {
    dice.between(0.002, 0.02)
}

/// Kinds 1 and 2 on a fresh period.
fn add_caplet(b: &mut Builder, dice: &mut Dice, kind: u64) {
    let t = market_time(dice);
    let end = t + dice.pick(&[0.25, 0.5, 1.0]);
    b.need(t);
    b.need(end);
    let strike = strike_around(dice, b.forward(t, end));
    let sigma = market_sigma(dice);
    b.job(kind, strike, t, end, sigma);
}

/// Kinds 3 and 4 on a fresh bond.
fn add_bond_option(b: &mut Builder, dice: &mut Dice, kind: u64) {
    let t = market_time(dice);
    let end = t + dice.between(0.1, 10.0);
    b.need(t);
    b.need(end);
    let strike = b.factor(end) / b.factor(t) * dice.between(0.85, 1.15);
    let sigma = market_sigma(dice);
    b.job(kind, t, end, strike, sigma);
}

/// Kinds 5, 6, 7 on the listed coupons.
fn add_swaption(b: &mut Builder, dice: &mut Dice, kind: u64, t: f64) {
    b.need_forward(t);
    let strike = strike_around(dice, b.swap_forward(t));
    if kind == 5 {
        let sigma = market_sigma(dice);
        b.job(5, strike, t, sigma, 0.0);
    } else {
        let notional = dice.pick(&[1.0, 100.0, 1e6, 1e7, -5e5, 123_456.78]);
        let side = dice.sign();
        b.job(kind, strike, t, notional, side);
    }
}

/// Kinds 8 and 9 on a fresh period.
fn add_caplet_fit(b: &mut Builder, dice: &mut Dice, kind: u64) {
    let t = market_time(dice);
    let end = t + dice.pick(&[0.25, 0.5, 1.0]);
    b.need(t);
    b.need(end);
    let forward = b.forward(t, end);
    if kind == 8 {
        let (strike, quote) = (black_strike(dice, forward), black_quote(dice));
        b.job(8, strike, t, end, quote);
    } else {
        let (strike, quote) = (strike_around(dice, forward), normal_quote(dice));
        b.job(9, strike, t, end, quote);
    }
}

/// Kinds 10 and 11 on the listed coupons.
fn add_swaption_fit(b: &mut Builder, dice: &mut Dice, kind: u64, t: f64) {
    b.need_forward(t);
    let forward = b.swap_forward(t);
    if kind == 10 {
        let (strike, quote) = (black_strike(dice, forward), black_quote(dice));
        b.job(10, strike, t, quote, 0.0);
    } else {
        let (strike, quote) = (strike_around(dice, forward), normal_quote(dice));
        b.job(11, strike, t, quote, 0.0);
    }
}

/// A job of any kind; swaptions have the option time t.
fn add_job(b: &mut Builder, dice: &mut Dice, kind: u64, t: f64) {
    match kind {
        1 | 2 => add_caplet(b, dice, kind),
        3 | 4 => add_bond_option(b, dice, kind),
        5 | 6 | 7 => add_swaption(b, dice, kind, t),
        8 | 9 => add_caplet_fit(b, dice, kind),
        10 | 11 => add_swaption_fit(b, dice, kind, t),
        _ => b.job(kind, 0.0, 0.0, 0.0, 0.0),
    }
}

/// A market builder with coupons, pillars and a grid; returns the swap's start.
fn market(dice: &mut Dice, coupons: usize, grid: usize) -> (Builder, f64) {
    let shape = Shape::market(dice);
    let mut b = Builder::new(shape, market_alpha(dice));
    let start = market_time(dice);
    let space = dice.pick(&[0.25, 0.5, 1.0]);
    b.coupons(dice, start, coupons, space);
    let pillars = dice.range(1, 6);
    b.pillars(dice, pillars);
    let grid_space = dice.pick(&[0.1, 0.25, 0.5, 1.0]);
    b.grid(dice, grid, grid_space);
    (b, start)
}

/// The swap's start, or a time before it.
fn swaption_time(dice: &mut Dice, start: f64) -> f64 {
    if dice.one_in(4) {
        start * dice.between(0.3, 1.0)
    } else {
        start
    }
}

/// Random values in the fields that a kind ignores.
fn fill_unused(dice: &mut Dice, desk: &mut Desk) {
    for job in &mut desk.jobs {
        for i in 0..4 {
            if roles(job.kind)[i] == Role::Unused {
                job.f[i] = match dice.below(4) {
                    0 => dice.bad(),
                    1 => dice.wild() * dice.sign(),
                    _ => job.f[i],
                };
            }
        }
    }
}

// ---------------------------------------------------------------------------
// desk: realistic books
// ---------------------------------------------------------------------------

fn desk_every_kind(dice: &mut Dice) -> Desk {
    let coupons = if dice.one_in(4) { dice.range(6, 20) } else { dice.range(3, 5) };
    let grid = dice.range(1, 12);
    let (mut b, start) = market(dice, coupons, grid);
    if dice.one_in(4) {
        b.own_factors(dice);
    }
    let mut kinds: Vec<u64> = (1..=9).collect();
    kinds.push(12);
    kinds.extend([5, 6, 7]);
    if coupons <= 5 || dice.one_in(6) {
        kinds.push(dice.pick(&[10, 11]));
    }
    for _ in 0..dice.below(6) {
        kinds.push(dice.range(1, 9) as u64);
    }
    dice.shuffle(&mut kinds);
    for kind in kinds {
        let t = swaption_time(dice, start);
        add_job(&mut b, dice, kind, t);
    }
    for _ in 0..dice.below(10) {
        let t = market_time(dice);
        b.need(t);
    }
    let mut desk = b.finish();
    if dice.one_in(3) {
        fill_unused(dice, &mut desk);
    }
    desk
}

fn desk_swaptions(dice: &mut Dice) -> Desk {
    let coupons = dice.range(3, 20);
    let (mut b, start) = market(dice, coupons, 0);
    if dice.one_in(2) {
        b.own_factors(dice);
    }
    for _ in 0..dice.range(4, 12) {
        let kind = dice.pick(&[5, 6, 6, 7, 7]);
        let t = swaption_time(dice, start);
        add_swaption(&mut b, dice, kind, t);
    }
    b.finish()
}

fn desk_paths(dice: &mut Dice) -> Desk {
    let count = dice.range(5, 60);
    let (mut b, _) = market(dice, 0, count);
    // Pillars exactly on grid times show which of the two comes first.
    if dice.one_in(2) {
        b.desk.pillars.clear();
        let mut times: Vec<f64> = b.desk.grid.iter().map(|p| p.0).collect();
        times.dedup();
        for time in times.into_iter().step_by(2).take(64) {
            let sigma = market_sigma(dice);
            b.desk.pillars.push((time, sigma));
        }
    }
    b.job(12, 0.0, 0.0, 0.0, 0.0);
    b.finish()
}

// ---------------------------------------------------------------------------
// fit: files of fits
// ---------------------------------------------------------------------------

fn fits(dice: &mut Dice, scale: f64, swaptions: usize, caplets: usize) -> Desk {
    let coupons = dice.range(1, 4);
    let (mut b, start) = market(dice, coupons, 0);
    b.desk.pillars.clear();
    b.shape.scale = scale;
    let mut kinds = Vec::new();
    for _ in 0..caplets {
        kinds.push(dice.pick(&[8, 9]));
    }
    for _ in 0..swaptions {
        kinds.push(dice.pick(&[10, 11]));
    }
    dice.shuffle(&mut kinds);
    for kind in kinds {
        let t = swaption_time(dice, start);
        add_job(&mut b, dice, kind, t);
    }
    b.finish()
}

fn fit_converging(dice: &mut Dice) -> Desk {
    let caplets = dice.range(4, 12);
    fits(dice, 1.0, 1, caplets)
}

fn fit_scaled(dice: &mut Dice) -> Desk {
    let scale = dice.log_between(1e5, 1e9);
    let caplets = dice.range(6, 16);
    fits(dice, scale, 0, caplets)
}

/// Few coupons: a search for each of 200 halvings is slow.
fn fit_scaled_swaption(dice: &mut Dice) -> Desk {
    let scale = dice.log_between(1e5, 1e9);
    let coupons = dice.range(1, 3);
    let (mut b, start) = market(dice, coupons, 0);
    b.shape.scale = scale;
    b.desk.pillars.clear();
    let kind = dice.pick(&[10, 11]);
    let t = swaption_time(dice, start);
    add_swaption_fit(&mut b, dice, kind, t);
    for _ in 0..dice.below(4) {
        let kind = dice.pick(&[8, 9]);
        add_caplet_fit(&mut b, dice, kind);
    }
    b.finish()
}

/// Wide strikes and quotes: no sign change, or very small prices.
fn fit_odd_quotes(dice: &mut Dice) -> Desk {
    let scale = dice.pick(&[1.0, 1.0, 1e6]);
    let caplets = dice.range(6, 16);
    let swaptions = dice.below(2);
    let mut desk = fits(dice, scale, swaptions, caplets);
    for job in &mut desk.jobs {
        let quote = if job.kind <= 9 { 3 } else { 2 };
        match dice.below(4) {
            0 => job.f[quote] = dice.log_between(1e-10, 1e-3),
            1 => job.f[quote] = dice.log_between(1.0, 100.0),
            2 => job.f[0] = job.f[0].abs() * dice.log_between(0.01, 100.0),
            _ => {}
        }
    }
    desk
}

/// Deep out of the money, the market price underflows: residuals of exactly 0.
fn fit_zero_residual(dice: &mut Dice) -> Desk {
    let shape = Shape::market(dice);
    let mut b = Builder::new(shape, market_alpha(dice));
    for _ in 0..dice.range(3, 8) {
        let t = market_time(dice);
        let end = t + dice.pick(&[0.25, 0.5, 1.0]);
        b.need(t);
        b.need(end);
        let forward = b.forward(t, end).abs();
        if dice.one_in(2) {
            let quote = dice.log_between(1e-4, 1e-2);
            let strike = forward * dice.between(1.5, 3.0);
            b.job(8, strike, t, end, quote);
        } else {
            let quote = dice.log_between(1e-7, 1e-5);
            let strike = forward + dice.between(0.01, 0.05);
            b.job(9, strike, t, end, quote);
        }
    }
    b.finish()
}

// ---------------------------------------------------------------------------
// curve: times on, beside, between and outside a curve's points
// ---------------------------------------------------------------------------

/// The next ends of months, in years of 365 days from some day of some month.
fn month_ends(dice: &mut Dice, count: usize) -> Vec<f64> {
    const DAYS: [usize; 12] = [31, 28, 31, 30, 31, 30, 31, 31, 30, 31, 30, 31];
    let first = dice.below(48);
    let mut days = dice.below(DAYS[first % 12]);
    let mut times = Vec::new();
    for month in first + 1..=first + count {
        times.push(days as f64 / 365.0);
        // February of every fourth year.
        days += DAYS[month % 12] + usize::from(month % 48 == 13);
    }
    times
}

/// A curve's factor at any time, by straight lines through the logarithms; outside
/// that of the first or last point, and 1 where there is none.
fn drawn(curve: &[(f64, f64)], t: f64) -> f64 {
    let (before, after) = curve.split_at(curve.partition_point(|point| point.0 < t));
    match (before.last(), after.first()) {
        (Some(&one), Some(&two)) => between(one, two, t),
        (one, two) => one.or(two).map_or(1.0, |point| point.1),
    }
}

/// Document 02's factor between two points, A.4.
fn between((t0, f0): (f64, f64), (t1, f1): (f64, f64), t: f64) -> f64 {
    let w = (t - t0) / (t1 - t0);
    exp(ln(f0) + w * (ln(f1) - ln(f0)))
}

/// Puts a curve of 12 to 360 month ends in place of the desk's, now and then with
/// today's point before them, or with an end too early. Where its times go beyond 30
/// years most of its points are left out instead; an empty curve, or one with a fault,
/// stays as it is.
fn to_month_ends(dice: &mut Dice, desk: &mut Desk) {
    let good = |&(t, factor): &(f64, f64)| t.is_finite() && factor > 0.0 && factor.is_finite();
    let rises = |two: &[(f64, f64)]| two[0].0 < two[1].0;
    let sound = desk.curve.iter().all(good) && desk.curve.windows(2).all(rises);
    let (Some(&first), Some(&last), true) = (desk.curve.first(), desk.curve.last(), sound) else {
        return;
    };
    if first.0 < 0.0 || last.0 > 30.0 {
        desk.curve.retain(|point| *point == first || *point == last || dice.one_in(4));
        return;
    }
    let months = (last.0 * 12.0) as usize + 3;
    let count = match dice.below(6) {
        0 => dice.range(12, 360),
        1 => dice.range(months / 2, months),
        _ => months,
    };
    let mut times = month_ends(dice, count.clamp(12, 360));
    if times[0] > 0.0 && dice.one_in(2) {
        times.insert(0, 0.0);
    }
    desk.curve = times.iter().map(|&t| (t, drawn(&desk.curve, t))).collect();
}

/// A desk's book on a curve of month ends.
fn curve_month_ends(dice: &mut Dice) -> Desk {
    let mut desk = desk_every_kind(dice);
    to_month_ends(dice, &mut desk);
    desk
}

/// Jobs of every kind at one of these option times and later times, those of fits of
/// swaptions now and then: three coupons at most and a path over these times.
fn at_times(dice: &mut Dice, curve: Vec<(f64, f64)>, options: &[f64], later: &[f64]) -> Desk {
    let mut b = Builder::new(Shape::market(dice), market_alpha(dice));
    b.desk.pillars = vec![(0.0, market_sigma(dice))];
    for _ in 0..dice.range(1, 3) {
        let accrual = dice.between(0.5, 1.0);
        b.desk.coupons.push((dice.pick(later), accrual, 0.0));
    }
    for _ in 0..dice.range(1, 3) {
        let from = if dice.one_in(2) { options } else { later };
        let time = dice.pick(from);
        b.desk.grid.push((time, dice.draw()));
    }
    b.desk.grid.sort_by(|one, other| one.0.total_cmp(&other.0));
    for kind in (1..=12).chain(1..=9) {
        if matches!(kind, 10 | 11) && !dice.one_in(3) {
            continue;
        }
        let (t, end) = (dice.pick(options), dice.pick(later));
        let sigma = market_sigma(dice);
        let ratio = drawn(&curve, end) / drawn(&curve, t);
        let forward = (1.0 / ratio - 1.0) / (end - t);
        match kind {
            1 | 2 => b.job(kind, strike_around(dice, forward), t, end, sigma),
            3 | 4 => b.job(kind, t, end, ratio * dice.between(0.9, 1.1), sigma),
            5 => b.job(5, strike_around(dice, forward), t, sigma, 0.0),
            6 | 7 => b.job(kind, strike_around(dice, forward), t, 1e6, dice.sign()),
            8 => b.job(8, black_strike(dice, forward), t, end, black_quote(dice)),
            9 => b.job(9, strike_around(dice, forward), t, end, normal_quote(dice)),
            10 => b.job(10, black_strike(dice, forward), t, black_quote(dice), 0.0),
            11 => b.job(11, strike_around(dice, forward), t, normal_quote(dice), 0.0),
            _ => b.job(12, 0.0, 0.0, 0.0, 0.0),
        }
    }
    b.desk.curve = curve;
    b.desk
}

/// Points at these times on a market's curve.
fn points(dice: &mut Dice, times: &[f64]) -> Vec<(f64, f64)> {
    let shape = Shape::market(dice);
    times.iter().map(|&t| (t, shape.factor(t))).collect()
}

/// Times on the points, and one step beside them on both sides, that of the first and
/// the last point included.
fn curve_beside(dice: &mut Dice) -> Desk {
    let mut times = vec![dice.between(0.1, 1.0)];
    for _ in 0..dice.range(2, 5) {
        let space = dice.pick(&[H, 0.25, 1.0]) * dice.between(0.5, 2.0);
        times.push(times[times.len() - 1] + space);
    }
    let curve = points(dice, &times);
    let mut beside = |times: &[f64]| -> Vec<f64> {
        times.iter().map(|&t| step(t, dice.range(0, 2) as i64 - 1)).collect()
    };
    let half = times.len() / 2;
    let (options, later) = (beside(&times[..half]), beside(&times[half..]));
    at_times(dice, curve, &options, &later)
}

/// Curves of no point, of one and of two.
fn curve_few_points(dice: &mut Dice) -> Desk {
    let (t, end) = (dice.between(0.1, 2.0), dice.between(2.5, 5.0));
    let times = match dice.below(8) {
        0 => vec![],
        1 => vec![t],
        2 => vec![end],
        3 => vec![t, end],
        _ => vec![t - 0.1 * dice.unit(), end + 0.1 * dice.unit()],
    };
    let curve = points(dice, &times);
    let (options, later) = ([t, t, step(t, 1), t * 0.5], [end, end, step(end, -1), end + 0.5]);
    at_times(dice, curve, &options, &later)
}

/// Points at -0, at +0 and about them, and the same times.
fn curve_zero(dice: &mut Dice) -> Desk {
    let mut times = Vec::new();
    for time in [-1.0, -TINY, 0.0, TINY, H] {
        if dice.one_in(2) {
            times.push(if time == 0.0 { dice.pick(&[0.0, -0.0]) } else { time });
        }
    }
    times.extend([1.0, 2.0]);
    let curve = points(dice, &times);
    at_times(dice, curve, &[0.0, -0.0, 0.0, -0.0, TINY, 0.5], &[1.0, 1.5, 2.0])
}

/// Payments within a day: t + h lies after the last point.
fn curve_one_day(dice: &mut Dice) -> Desk {
    let t = dice.between(0.1, 5.0);
    let later = [t + 0.5 * H, t + 0.25 * H];
    let last = t + dice.pick(&[0.5, 0.75, 1.0, 1.5]) * H;
    let first = t - dice.pick(&[0.0, 0.05]);
    let curve = points(dice, &[first, last]);
    at_times(dice, curve, &[t], &later)
}

/// Times between points at which another way to round gives other bits: far from 1 a
/// factor's logarithm shows its last digits.
fn curve_last_digit(dice: &mut Dice) -> Desk {
    let scale = dice.log_between(0.1, 10.0);
    let ends = month_ends(dice, 24);
    let mut curve = points(dice, &ends);
    curve.iter_mut().for_each(|point| point.1 *= scale);
    let way = dice.below(4);
    let otherwise = |(t0, f0): (f64, f64), (t1, f1): (f64, f64), t: f64| {
        let (w, low, high) = ((t - t0) / (t1 - t0), ln(f0), ln(f1));
        exp(match way {
            0 => w.mul_add(high - low, low),
            1 => low + w * ln(f1 / f0),
            2 => high + (t1 - t) / (t1 - t0) * (low - high),
            _ => low + (t - t0) * ((high - low) / (t1 - t0)),
        })
    };
    let mut times = vec![1.0, 1.5];
    for _ in 0..4000 {
        let at = dice.below(23);
        let (one, two) = (curve[at], curve[at + 1]);
        let t = dice.between(one.0, two.0);
        if otherwise(one, two, t) != between(one, two, t) {
            times.push(t);
        }
        if times.len() == 10 {
            break;
        }
    }
    times.sort_by(f64::total_cmp);
    let (options, later) = times.split_at(times.len() / 2);
    at_times(dice, curve, options, later)
}

/// A time between two points whose factor is NaN or infinite: as an option time or as
/// a later one.
fn curve_not_finite(dice: &mut Dice) -> Desk {
    let (mut curve, mut time) = (vec![(-1e308, 0.9), (1.2e308, 0.8)], 1e308);
    let (mut before, mut after) = (dice.pick(&[0.0, 1.0, 1e307]), 1.2e308);
    if dice.one_in(2) {
        curve = vec![(0.7057691290677448, 9.469050158921633e-238), (3.2464201598086486, f64::MAX)];
        time = 3.246420159808648;
        // Or another such, if one is found.
        let tries = dice.pick(&[0, 4000]);
        for _ in 0..tries {
            let one = (dice.between(0.0, 1.0), dice.wild());
            let two = (dice.between(2.0, 4.0), f64::MAX);
            let near = step(two.0, -(dice.range(1, 3) as i64));
            if !between(one, two, near).is_finite() {
                (curve, time) = (vec![one, two], near);
                break;
            }
        }
        (before, after) = (dice.between(1.0, 2.0), time + 0.5);
        curve.push((5.0, dice.pick(&[1.0, f64::MAX])));
    }
    if dice.one_in(2) {
        at_times(dice, curve, &[time], &[after])
    } else {
        at_times(dice, curve, &[before], &[time, time, after])
    }
}

/// Factors of any size, spans that round to nothing or overflow.
fn curve_wild(dice: &mut Dice) -> Desk {
    let mut times: Vec<f64> = (0..dice.range(2, 5)).map(|_| dice.sign() * dice.wild()).collect();
    times.sort_by(f64::total_cmp);
    times.dedup();
    let curve: Vec<(f64, f64)> = times.iter().map(|&t| (t, dice.wild())).collect();
    let mut asked = Vec::new();
    while asked.len() < 8 {
        let (one, two) = (dice.pick(&times), dice.pick(&times));
        let time: f64 = match dice.below(4) {
            0 => one,
            1 => step(one, dice.pick(&[-1, 1])),
            2 => one / 2.0 + two / 2.0,
            _ => one * dice.unit(),
        };
        asked.push(if time.is_finite() { time.abs() } else { 1.0 });
    }
    asked.sort_by(f64::total_cmp);
    at_times(dice, curve, &asked[..4], &asked[4..])
}

// ---------------------------------------------------------------------------
// path: kinds 12 and 13
// ---------------------------------------------------------------------------

/// A builder with one pillar, its grid still empty.
fn one_pillar(shape: Shape, alpha: f64, time: f64, sigma: f64) -> Builder {
    let mut b = Builder::new(shape, alpha);
    b.desk.pillars = vec![(time, sigma)];
    b
}

/// A path along these times, draws of that size; kind 13 comes beside it later.
fn along(mut b: Builder, dice: &mut Dice, times: &[f64], size: f64) -> Desk {
    for &time in times {
        let draw = if size == 0.0 { 0.0 } else { size * dice.draw() };
        b.desk.grid.push((time, draw));
        b.need_forward(time);
    }
    b.job(12, 0.0, 0.0, 0.0, 0.0);
    b.finish()
}

/// Rising times from 0 on, some of them twice.
fn grid_times(dice: &mut Dice, count: usize, space: f64) -> Vec<f64> {
    let mut time = dice.pick(&[0.0, 0.0, -0.0, space]);
    let mut times = Vec::new();
    for _ in 0..count {
        times.push(time);
        if !dice.one_in(8) {
            time += space * dice.between(0.5, 1.5);
        }
    }
    times
}

/// A market's path over one pillar, whose time may lie anywhere.
fn path_centred(dice: &mut Dice) -> Desk {
    let shape = Shape::market(dice);
    let alpha = market_alpha(dice);
    let pillar = dice.pick(&[0.0, -1.0, 0.5, 100.0]);
    let b = one_pillar(shape, alpha, pillar, market_sigma(dice));
    let (count, space) = (dice.range(1, 40), dice.pick(&[H, 0.1, 0.25, 1.0, 5.0]));
    let times = grid_times(dice, count, space);
    along(b, dice, &times, 1.0)
}

/// On factors of 1 and without draws a rate of kind 13 is 0.5 × (g × g) alone, down to
/// a square that is subnormal.
fn path_probe(dice: &mut Dice) -> Desk {
    let sigma = match dice.below(3) {
        0 => dice.log_between(1e-164, 1e-150),
        _ => dice.log_between(1e-6, 10.0),
    };
    let alpha = dice.log_between(1e-3, 10.0);
    let b = one_pillar(Shape::FLAT, alpha, 0.0, sigma);
    let (count, space) = (dice.range(1, 24), dice.pick(&[0.01, 0.1, 1.0, 10.0]));
    let times = grid_times(dice, count, space);
    along(b, dice, &times, 0.0)
}

/// Alpha and sigma of any size, sigma 0, times from -0 and the least float on to
/// the largest.
fn path_extreme(dice: &mut Dice) -> Desk {
    let alpha = match dice.below(4) {
        0 => dice.log_between(1e-18, 1e-6),
        1 => dice.log_between(10.0, 1e18),
        2 => dice.wild(),
        _ => market_alpha(dice),
    };
    let sigma = match dice.below(4) {
        0 => dice.pick(&[0.0, -0.0, TINY, 1e-300]),
        1 => dice.wild(),
        _ => market_sigma(dice),
    };
    let shape = if dice.one_in(3) { Shape::FLAT } else { Shape::market(dice) };
    let mut b = one_pillar(shape, alpha, dice.pick(&[0.0, -0.0, -1.0, 2.0]), sigma);
    let mut times = vec![dice.pick(&[0.0, -0.0, TINY, 1e-300, 0.5])];
    for _ in 0..dice.below(6) {
        let last = times[times.len() - 1];
        times.push(match dice.below(8) {
            0 => last,
            1 => last + 1.0 / alpha.clamp(1e-3, 1e300),
            2 => last + 746.0 / alpha.clamp(0.1, 1e300),
            3 => last + dice.log_between(1e-300, 1.0),
            4 => last + dice.log_between(100.0, 1e6),
            _ => last + dice.between(0.0, 2.0),
        });
    }
    if dice.one_in(6) {
        let far = dice.pick(&[1e16, 1e200, 1e308, f64::MAX]);
        times.push(far);
        b.shape = Shape::FLAT;
    }
    let size = dice.pick(&[0.0, 1.0, 1.0, -1.0]);
    along(b, dice, &times, size)
}

/// A sigma whose square is infinite, or nearly: kind 12 is refused for its variance, and
/// kind 13 looks at none. Or g is so large that its square is infinite, its half not; or
/// sigma/alpha is infinite, which at time 0 gives NaN.
fn path_overflow(dice: &mut Dice) -> Desk {
    let (alpha, sigma) = match dice.below(5) {
        0 => (dice.log_between(1e-200, 1e-100), dice.log_between(1e150, 1e300)),
        1 => {
            let alpha = dice.log_between(0.1, 10.0);
            (alpha, alpha * 1.34e154 * dice.between(0.9, 1.6))
        }
        2 => (dice.wild(), dice.log_between(1e153, 1e156)),
        _ => (dice.log_between(1e3, 1e40), dice.log_between(1e153, 1e157)),
    };
    let shape = if dice.one_in(2) { Shape::FLAT } else { Shape::market(dice) };
    let b = one_pillar(shape, alpha, 0.0, sigma);
    let (count, space) = (dice.range(1, 4), dice.pick(&[1e-9, 0.5, 40.0]));
    let times = grid_times(dice, count, space);
    let size = dice.pick(&[0.0, 1.0, 1e-10]);
    along(b, dice, &times, size)
}

/// No pillars, one, two and more, alone and beside one or two faults of other rules; the
/// grid may be empty.
fn path_pillars(dice: &mut Dice) -> Desk {
    let shape = Shape::market(dice);
    let mut b = Builder::new(shape, market_alpha(dice));
    let pillars = dice.pick(&[0, 1, 1, 2, 2, 2, 3, 6, 63, 64]);
    b.pillars(dice, pillars);
    let (count, space) = (dice.pick(&[0, 1, 2, 3, 5]), dice.pick(&[0.1, 1.0]));
    let times = grid_times(dice, count, space);
    let mut desk = along(b, dice, &times, 1.0);
    for _ in 0..dice.pick(&[0, 0, 1, 1, 1, 2]) {
        match dice.below(9) {
            0 => desk.alpha = dice.bad(),
            1 => desk.alpha = dice.pick(&[0.0, -0.0, -0.1]),
            2 => spoil_pillars(dice, &mut desk),
            3 => spoil_grid(dice, &mut desk),
            4 => spoil_curve(dice, &mut desk),
            5 | 6 => cut_curve(dice, &mut desk),
            // A pillar's sigma below 0, or so large that a rate is infinite.
            7 => {
                let sigma = dice.pick(&[-0.01, -TINY, f64::MAX, 1e300]);
                desk.pillars.iter_mut().take(1).for_each(|pillar| pillar.1 = sigma);
            }
            _ => desk.grid.iter_mut().take(1).for_each(|point| point.1 = f64::MAX),
        }
    }
    desk
}

/// Puts a job of kind 13 behind most of kind 12, for as long as there is room.
fn add_published(dice: &mut Dice, desk: &mut Desk) {
    let mut room = 128 - desk.jobs.len().min(128);
    let mut jobs = Vec::new();
    for &job in &desk.jobs {
        jobs.push(job);
        if job.kind == 12 && room > 0 && !dice.one_in(8) {
            jobs.push(Job { kind: 13, ..job });
            room -= 1;
        }
    }
    // The other way round now and then.
    if dice.one_in(4) && jobs.iter().all(|job| job.kind >= 12) {
        jobs.reverse();
    }
    desk.jobs = jobs;
}

/// Makes a file one about paths: few other jobs, one pillar mostly, and a path where there
/// was none, along times of its curve.
fn to_paths(dice: &mut Dice, desk: &mut Desk) {
    desk.jobs.retain(|job| job.kind == 12 || dice.one_in(8));
    if !desk.jobs.iter().any(|job| job.kind == 12) {
        desk.jobs.push(Job { kind: 12, f: [0.0; 4] });
    }
    if let (true, [first, .., last]) = (desk.grid.is_empty(), desk.curve.as_slice()) {
        let (from, to) = (first.0.max(0.0), last.0 - H);
        if from < to && to.is_finite() && !dice.one_in(8) {
            let mut times: Vec<f64> = (0..dice.range(1, 6)).map(|_| dice.between(from, to)).collect();
            times.sort_by(f64::total_cmp);
            desk.grid = times.iter().map(|&time| (time, dice.draw())).collect();
        }
    }
    if desk.pillars.is_empty() && !dice.one_in(8) {
        desk.pillars.push((dice.pick(&[0.0, 1.0]), market_sigma(dice)));
    }
    if desk.pillars.len() > 1 && !dice.one_in(4) {
        keep_one(dice, desk);
    }
}

/// Keeps one of the pillars, any of them.
fn keep_one(dice: &mut Dice, desk: &mut Desk) {
    let kept = dice.pick(&desk.pillars);
    desk.pillars = vec![kept];
}

// ---------------------------------------------------------------------------
// limit: full and empty lists, extreme numbers
// ---------------------------------------------------------------------------

fn limit_one_coupon(dice: &mut Dice) -> Desk {
    let (mut b, start) = market(dice, 1, 1);
    for kind in [5, 6, 7, 10, 11, 12] {
        let t = swaption_time(dice, start);
        add_job(&mut b, dice, kind, t);
    }
    b.finish()
}

fn limit_64_coupons(dice: &mut Dice) -> Desk {
    let (mut b, start) = market(dice, 64, 1);
    for kind in [5, 6, 7, 12] {
        add_job(&mut b, dice, kind, start);
    }
    if dice.one_in(16) {
        add_job(&mut b, dice, 10, start);
    }
    b.finish()
}

fn limit_64_pillars(dice: &mut Dice) -> Desk {
    let (mut b, start) = market(dice, 3, 20);
    b.desk.pillars.clear();
    b.pillars(dice, 64);
    for kind in [6, 7, 12, 1] {
        let t = swaption_time(dice, start);
        add_job(&mut b, dice, kind, t);
    }
    b.finish()
}

/// Jobs that look only at the curve, in number.
fn add_cheap_jobs(b: &mut Builder, dice: &mut Dice, count: usize) {
    for _ in 0..count {
        let kind = dice.range(1, 4) as u64;
        add_job(b, dice, kind, 0.0);
    }
}

fn limit_2048_points(dice: &mut Dice) -> Desk {
    let (mut b, start) = market(dice, 3, 3);
    add_cheap_jobs(&mut b, dice, 8);
    add_job(&mut b, dice, 6, start);
    add_job(&mut b, dice, 12, start);
    let mut desk = b.finish();
    pad_curve(dice, &mut desk, 2048);
    desk
}

/// Adds points to the curve until it has the given number of them.
fn pad_curve(dice: &mut Dice, desk: &mut Desk, count: usize) {
    let mut time = desk.curve.last().map_or(0.0, |p| p.0);
    while desk.curve.len() < count {
        time += dice.between(0.001, 0.1);
        desk.curve.push((time, dice.between(0.1, 1.0)));
    }
}

fn limit_1024_grid(dice: &mut Dice) -> Desk {
    let (mut b, _) = market(dice, 0, 0);
    let space = dice.pick(&[0.01, 1.0 / 52.0, 0.1]);
    for i in 0..1024 {
        let draw = dice.draw();
        let time = space * (i + 1) as f64;
        b.desk.grid.push((time, draw));
        b.need_forward(time);
    }
    b.job(12, 0.0, 0.0, 0.0, 0.0);
    b.finish()
}

/// Many paths over many points: a long answer.
fn limit_many_paths(dice: &mut Dice) -> Desk {
    let (mut b, _) = market(dice, 0, 0);
    for i in 0..dice.range(300, 1024) {
        let draw = dice.draw();
        let time = (i / 4) as f64 * 0.1;
        b.desk.grid.push((time, draw));
        b.need_forward(time);
    }
    for _ in 0..dice.range(20, 128) {
        b.job(12, 0.0, 0.0, 0.0, 0.0);
    }
    b.finish()
}

fn limit_128_jobs(dice: &mut Dice) -> Desk {
    let (mut b, start) = market(dice, 3, 0);
    add_cheap_jobs(&mut b, dice, 120);
    for kind in [5, 6, 7, 8, 9, 12, 12, 12] {
        add_job(&mut b, dice, kind, start);
    }
    let mut desk = b.finish();
    dice.shuffle(&mut desk.jobs);
    desk
}

/// Every list at its limit at once.
fn limit_all_full(dice: &mut Dice) -> Desk {
    let (mut b, start) = market(dice, 64, 0);
    b.desk.pillars.clear();
    b.pillars(dice, 64);
    add_cheap_jobs(&mut b, dice, 125);
    for kind in [6, 12, 5] {
        add_job(&mut b, dice, kind, start);
    }
    // 1,024 grid points on few different times.
    for i in 0..1024 {
        let time = (i / 64) as f64 * 0.5;
        let draw = dice.draw();
        b.desk.grid.push((time, draw));
        b.need_forward(time);
    }
    let mut desk = b.finish();
    pad_curve(dice, &mut desk, 2048);
    desk
}

/// Times -0 and 0, on the curve and in jobs.
fn limit_negative_zero(dice: &mut Dice) -> Desk {
    let zeros = [0.0, -0.0];
    let shape = Shape::market(dice);
    let mut b = Builder::new(shape, market_alpha(dice));
    let zero = dice.pick(&zeros);
    b.need(zero);
    b.need(H);
    b.coupons(dice, 0.0, 2, 1.0);
    b.need(0.5);
    let first = dice.pick(&zeros);
    b.desk.pillars = vec![(first, 0.01), (0.5, 0.02)];
    for _ in 0..dice.range(1, 3) {
        let time = dice.pick(&zeros);
        let draw = dice.pick(&[0.0, -0.0, 1.0, -1.0]);
        b.desk.grid.push((time, draw));
    }
    let own = dice.pick(&zeros);
    b.desk.coupons[0].2 = own;
    let notional = dice.pick(&[1.0, 0.0, -0.0, -1.0]);
    for kind in 1..=12 {
        let t = dice.pick(&zeros);
        let sigma = dice.pick(&[0.0, -0.0, 0.01]);
        let strike = dice.pick(&[0.0, -0.0, 0.02, 1.0]);
        match kind {
            1 | 2 => b.job(kind, strike, t, 1.0, sigma),
            3 | 4 => b.job(kind, t, 1.0, strike, sigma),
            5 => b.job(5, strike, t, sigma, 0.0),
            6 | 7 => b.job(kind, strike, t, notional, 1.0),
            8 | 9 => b.job(kind, 0.02, t, 1.0, 0.2),
            10 | 11 => b.job(kind, 0.02, t, 0.2, 0.0),
            _ => b.job(12, t, t, t, t),
        }
    }
    b.finish()
}

/// Sigma 0 and option time 0 in every kind that takes them.
fn limit_no_variance(dice: &mut Dice) -> Desk {
    let coupons = dice.range(1, 4);
    let (mut b, start) = market(dice, coupons, 4);
    let zero_time = dice.one_in(2);
    let t = if zero_time { 0.0 } else { start };
    if !zero_time {
        for pillar in &mut b.desk.pillars {
            pillar.1 = dice.pick(&[0.0, -0.0]);
        }
    }
    let first_job = b.desk.jobs.len();
    for _ in 0..2 {
        for kind in 1..=7 {
            add_job(&mut b, dice, kind, t);
        }
    }
    add_job(&mut b, dice, 12, t);
    // Half of the formula jobs start at 0 or have no volatility.
    for i in first_job..b.desk.jobs.len() {
        let mut job = b.desk.jobs[i];
        let (time, sigma) = match job.kind {
            1 | 2 => (1, 3),
            3 | 4 => (0, 3),
            5 => (1, 2),
            _ => continue,
        };
        if dice.one_in(2) {
            job.f[sigma] = dice.pick(&[0.0, -0.0, TINY, 1e-300, 1e-17]);
        }
        if job.kind != 5 && dice.one_in(2) {
            job.f[time] = 0.0;
            b.need(0.0);
        }
        b.desk.jobs[i] = job;
    }
    b.finish()
}

/// Lists empty where a kind may have none, and where it may not.
fn limit_empty_lists(dice: &mut Dice) -> Desk {
    let coupons = if dice.one_in(2) { 0 } else { 2 };
    let grid = if dice.one_in(2) { 0 } else { 2 };
    let (mut b, start) = market(dice, coupons, grid);
    if dice.one_in(2) {
        b.desk.pillars.clear();
    }
    let mut kinds: Vec<u64> = (1..=12).collect();
    dice.shuffle(&mut kinds);
    for kind in kinds {
        add_job(&mut b, dice, kind, start);
    }
    let mut desk = b.finish();
    if dice.one_in(3) {
        desk.curve.clear();
    }
    if dice.one_in(6) {
        desk.jobs.clear();
    }
    if dice.one_in(3) {
        cut_curve(dice, &mut desk);
    }
    // Kind 5 without coupons and kind 12 without a grid are still checked.
    for _ in 0..dice.below(3) {
        match dice.below(4) {
            0 => spoil_alpha(dice, &mut desk),
            1 => spoil_curve(dice, &mut desk),
            2 => spoil_pillars(dice, &mut desk),
            _ => {
                for job in &mut desk.jobs {
                    if dice.one_in(2) {
                        spoil_job(dice, job);
                    }
                }
            }
        }
    }
    desk
}

/// A schedule without pillars, at which kinds 6 and 7 do not move: swaptions on
/// both sides of the money, at option time 0 too, with own factors, B up to
/// infinity, and now and then a fault of another list.
fn limit_no_pillars(dice: &mut Dice) -> Desk {
    let coupons = dice.range(1, 6);
    let grid = dice.below(3);
    let (mut b, start) = market(dice, coupons, grid);
    b.desk.pillars.clear();
    let own = dice.one_in(3);
    if own {
        b.own_factors(dice);
    }
    match dice.below(8) {
        0 => {
            // 1 - exp(-alpha × T) rounds up by so much that B is above T, and infinite; or B is
            // so large that its square is.
            let (alpha, far) = if dice.one_in(2) {
                (dice.pick(&[TINY, 2.0 * TINY, 3.0 * TINY, 1e-322, 1e-320, 1e-318]), f64::MAX)
            } else {
                let far = dice.log_between(1e150, 1e160);
                (dice.between(0.1, 10.0) / far, far)
            };
            b.desk.alpha = alpha;
            b.pin(far, dice.between(0.2, 1.5));
            b.desk.coupons.push((far, 1.0, if own { 0.5 } else { 0.0 }));
        }
        1 => b.desk.alpha = dice.wild(),
        2 => b.desk.alpha = dice.pick(&[TINY, 1e-310, 1e-300, 1e-16, 1e-12, 1e14, 1e300]),
        _ => {}
    }
    for _ in 0..3 {
        for kind in [6, 7] {
            let t = if dice.one_in(4) { 0.0 } else { swaption_time(dice, start) };
            add_swaption(&mut b, dice, kind, t);
        }
    }
    // The same terms as a payer and as a receiver.
    let mut both = b.desk.jobs[0];
    both.kind = 7;
    b.desk.jobs.push(both);
    for kind in 1..=12 {
        if dice.one_in(6) {
            add_job(&mut b, dice, kind, start);
        }
    }
    let mut desk = b.finish();
    match dice.below(8) {
        0 => spoil_alpha(dice, &mut desk),
        1 => spoil_curve(dice, &mut desk),
        2 => spoil_coupons(dice, &mut desk),
        3 => {
            for job in &mut desk.jobs {
                if dice.one_in(2) {
                    spoil_job(dice, job);
                }
            }
        }
        _ => {}
    }
    desk
}

/// Three coupons whose sum is 1 at three rates, the forward between the upper
/// two. The search finds the lowest, on the forward's other side, and so a payer
/// at intrinsic value is worth less than 0; with all rates negated a receiver.
fn limit_three_rates(dice: &mut Dice) -> Desk {
    let sign = dice.sign();
    let forward = sign * dice.between(0.04, 0.1);
    let shape = Shape { level: forward, ..Shape::FLAT };
    let mut b = Builder::new(shape, dice.log_between(1e-6, 1e-4));
    if dice.one_in(3) {
        b.desk.pillars = vec![(0.0, dice.pick(&[0.0, 1e-4, 0.01]))];
    }
    let t = dice.pick(&[0.0, 1.0, 2.5]);
    // The sum less 1 is c × (u - u1) × (u - u2) × (u - u3) in u = exp(-rate).
    let beyond = dice.between(0.01, 0.08);
    let rates = [-dice.between(0.02, 0.1), dice.between(0.005, 0.03), sign * forward + beyond];
    let [u1, u2, u3] = rates.map(|rate| exp(-sign * rate));
    let c = 1.0 / (u1 * u2 * u3);
    b.coupon(t + 1.0, c * (u1 * u2 + u2 * u3 + u3 * u1));
    b.coupon(t + 2.0, -c * (u1 + u2 + u3));
    b.coupon(t + 3.0, c - 1.0);
    if dice.one_in(4) {
        b.own_factors(dice);
    }
    b.need_forward(t);
    for kind in [6, 7] {
        b.job(kind, 1.0, t, dice.pick(&[1.0, 1e6]), dice.sign());
    }
    b.job(5, 1.0, t, 1e-4, 0.0);
    b.finish()
}

/// Very small or very large mean reversion.
fn limit_alpha(dice: &mut Dice) -> Desk {
    let (mut b, start) = market(dice, 2, 5);
    b.desk.alpha = match dice.below(6) {
        0 => dice.log_between(1e-13, 1e-11),
        1 => dice.pick(&[1e-300, TINY, 1e-17, 1e-16, f64::MIN_POSITIVE]),
        2 => dice.log_between(1e-18, 1e-14),
        3 => dice.log_between(1.0, 1e3),
        4 => dice.pick(&[1e14, 1e100, 1e300, f64::MAX]),
        _ => dice.wild(),
    };
    for _ in 0..2 {
        for kind in [1, 2, 3, 4, 5, 6, 7, 8, 9, 12] {
            let t = swaption_time(dice, start);
            add_job(&mut b, dice, kind, t);
        }
    }
    if dice.one_in(4) {
        add_job(&mut b, dice, 11, start);
    }
    b.finish()
}

/// B of any size: far payment times with small alpha, near ones with large.
fn limit_bond_slope(dice: &mut Dice) -> Desk {
    let length = match dice.below(3) {
        0 => dice.log_between(1e-20, 1e70),
        1 => dice.log_between(1e56, 1e61),
        _ => dice.log_between(1e60, 1e64),
    };
    let alpha = dice.log_between(0.1, 30.0) / length;
    let mut b = Builder::new(Shape::FLAT, alpha);
    let t = dice.pick(&[0.0, 1.0, length * 0.5]);
    b.need_forward(t);
    let rate = dice.between(0.0, 0.5);
    for i in 1..=dice.range(1, 3) {
        let time = t + length * i as f64;
        if time > t {
            let far = exp(-rate * i as f64) * dice.between(0.9, 1.0);
            b.pin(time, far);
            let accrual = dice.pick(&[1.0, 0.5, length]);
            b.desk.coupons.push((time, accrual, 0.0));
        }
    }
    let sigma = dice.log_between(1e-3, 10.0) / length;
    b.desk.pillars = vec![(0.0, sigma)];
    for kind in [5, 5, 6, 7] {
        let strike = dice.log_between(1e-3, 1e3);
        match kind {
            5 => b.job(5, strike, t, sigma, 0.0),
            _ => b.job(kind, strike, t, 1.0, 1.0),
        }
    }
    if b.desk.coupons.len() == 1 && t > 0.0 && dice.one_in(2) {
        let strike = dice.log_between(1e-3, 1.0);
        b.job(11, strike, t, dice.log_between(1e-3, 1.0), 0.0);
    }
    b.finish()
}

/// The critical rate placed on a chosen rung of a ladder: one coupon with
/// B = 1/alpha and log coefficient c, so that the rate is c × alpha.
fn limit_rungs(dice: &mut Dice) -> Desk {
    let rung = if dice.one_in(2) { dice.range(59, 62) } else { dice.below(62) } as i32;
    let height = dice.between(0.5, 1.0) * power_of_two(rung) * 0.5;
    let t = dice.pick(&[0.0, 1.0]);
    let log = dice.log_between(0.1, 200.0);
    let alpha = height / log;
    let mut b = Builder::new(Shape::FLAT, alpha);
    b.need_forward(t);
    // Far enough for exp(-alpha × length) to vanish, if it can be.
    let end = t + (60.0 / alpha).clamp(1.0, 1e300);
    if dice.one_in(2) {
        b.pin(end, exp(log));
    } else {
        b.pin(end, exp(-log));
    }
    let accrual = dice.pick(&[0.0, 1e-3, 1.0]);
    b.desk.coupons.push((end, accrual, 0.0));
    b.desk.pillars = vec![(0.0, 0.01)];
    for sigma in [0.0, 1e-3, 0.02, 1.0] {
        b.job(5, 0.02, t, sigma * alpha.min(1.0), 0.0);
    }
    for kind in [6, 7] {
        b.job(kind, 0.02, t, 1.0, 1.0);
    }
    if dice.one_in(8) && t > 0.0 {
        b.job(11, 0.02, t, 0.01, 0.0);
    }
    b.finish()
}

/// Coefficients of both signs: several roots, lost roots, no bracket, and
/// sums of infinity less infinity.
fn limit_mixed_signs(dice: &mut Dice) -> Desk {
    let shape = if dice.one_in(3) { Shape::FLAT } else { Shape::market(dice) };
    let alpha = match dice.below(3) {
        0 => market_alpha(dice),
        1 => dice.log_between(1e-3, 10.0),
        _ => 1e-6,
    };
    let mut b = Builder::new(shape, alpha);
    let t = dice.pick(&[0.0, 1.0, 2.0]);
    let mut time = t;
    for _ in 0..dice.range(1, 4) {
        if !dice.one_in(4) || time == t {
            time += dice.log_between(0.1, 10.0);
        }
        let accrual = dice.sign() * dice.log_between(0.01, 10.0);
        b.coupon(time, accrual);
    }
    if dice.one_in(3) {
        let time = dice.log_between(1.0, 20.0);
        b.pin(t + time, dice.log_between(1e-3, 1e3));
    }
    let sigma = market_sigma(dice);
    b.desk.pillars = vec![(0.0, sigma)];
    for kind in [5, 5, 6, 6, 7, 7] {
        b.need_forward(t);
        let size = dice.log_between(0.01, 100.0);
        let strike = match dice.below(4) {
            0 => -size,
            1 => size,
            2 => 1.0,
            _ => dice.pick(&[-1.0, 0.0, -0.0, 2.0, -2.0, 1e10, -1e10, 1e300]),
        };
        match kind {
            5 => b.job(5, strike, t, sigma, 0.0),
            _ => b.job(kind, strike, t, 1.0, 1.0),
        }
    }
    if t > 0.0 && dice.one_in(2) {
        let kind = dice.pick(&[10, 10, 11]);
        let strike = dice.log_between(0.01, 10.0);
        b.job(kind, strike, t, 0.2, 0.0);
    }
    b.finish()
}

/// Document 01's own critical-rate cases: terms with A 1 and chosen
/// coefficients and B, by times so near that B is 0, or by repeated times.
fn limit_plain_terms(dice: &mut Dice) -> Desk {
    let mut b = Builder::new(Shape::FLAT, 1e-3);
    let t = 1.0;
    b.need_forward(t);
    // One step after t: alpha × length is lost, B is exactly 0.
    let near = step(t, 1);
    let far = 2.0;
    let two = dice.one_in(2);
    if two {
        let time = dice.pick(&[near, far]);
        let accrual = dice.pick(&[1.0, -1.0, 0.0, 0.5]);
        b.coupon(time, accrual);
    }
    let time = dice.pick(&[near, far]);
    let accrual = dice.pick(&[0.0, -2.0, 1.0, -0.5]);
    b.coupon(time, accrual);
    b.desk.pillars = vec![(0.0, 0.01)];
    for strike in [1.0, 0.0, 0.5, -1.0, 2.0] {
        b.job(5, strike, t, 0.01, 0.0);
        b.job(6, strike, t, 1.0, 1.0);
        b.job(7, strike, t, 1.0, -1.0);
    }
    b.job(11, 1.0, t, 0.01, 0.0);
    b.finish()
}

/// Curve factors and strikes of any size: infinite or NaN A, lost sums.
fn limit_wild_terms(dice: &mut Dice) -> Desk {
    let alpha = if dice.one_in(2) { market_alpha(dice) } else { dice.wild() };
    let mut b = Builder::new(Shape::FLAT, alpha);
    let t = dice.pick(&[0.0, 0.5, 1.0]);
    let size = dice.pick(&[1.0, 1e3, 1e100, 1e200]);
    for i in 0..dice.range(1, 3) {
        let accrual = dice.log_between(1.0 / size, size) * dice.sign();
        let time = t + (i + 1) as f64;
        b.pin(time, dice.log_between(1.0 / size, size));
        b.desk.coupons.push((time, accrual, 0.0));
    }
    b.pin(t, dice.log_between(1.0 / size, size));
    // A steep forward at t makes A huge or 0.
    let ratio = dice.pick(&[1.0, 1.0, 0.5, 0.1, 2.0, 10.0]);
    let plus = b.factor(t) * ratio;
    b.pin(t + H, if plus > 0.0 && plus.is_finite() { plus } else { 1.0 });
    let sigma = dice.pick(&[0.0, 0.01, 1.0, 100.0, 1e10, 1e160]);
    b.desk.pillars = vec![(0.0, sigma)];
    let own = dice.pick(&[0.0, 0.0, TINY, 1e-300, 1.0, 1e300, f64::MAX]);
    for coupon in &mut b.desk.coupons {
        coupon.2 = own;
    }
    for _ in 0..4 {
        let strike = dice.log_between(1.0 / size, size) * dice.sign();
        let notional = dice.pick(&[1.0, 0.0, -0.0, 1e308, -1e308, TINY, f64::MAX]);
        let side = dice.sign();
        let kind = dice.pick(&[6, 7]);
        b.job(kind, strike, t, notional, side);
        b.job(5, strike, t, sigma, 0.0);
    }
    if t > 0.0 && dice.one_in(6) {
        let kind = dice.pick(&[10, 11]);
        let strike = dice.log_between(1.0 / size, size);
        b.job(kind, strike, t, 0.2, 0.0);
    }
    b.finish()
}

/// Formula jobs and paths with numbers of any size.
fn limit_wild_formulas(dice: &mut Dice) -> Desk {
    let alpha = if dice.one_in(2) { market_alpha(dice) } else { dice.wild() };
    let mut b = Builder::new(Shape::FLAT, alpha);
    let mut times = Vec::new();
    for _ in 0..dice.range(3, 6) {
        let t = dice.pick(&[0.0, TINY, 1e-300, 1e-9, 0.5, 1.0, 2.0, 30.0, 1e5, 1e100, 1e300]);
        times.push(t);
    }
    times.sort_by(f64::total_cmp);
    times.dedup();
    times.push(times.last().map_or(1.0, |t| t * 2.0 + 1.0));
    for &t in &times {
        let factor = if dice.one_in(2) { dice.wild() } else { dice.between(0.5, 1.0) };
        b.pin(t, factor);
        if t + H != t {
            let plus = if dice.one_in(2) { dice.wild() } else { factor };
            b.pin(t + H, plus);
        }
    }
    for _ in 0..10 {
        let i = dice.below(times.len() - 1);
        let j = dice.range(i + 1, times.len() - 1);
        let (t, end) = (times[i], times[j]);
        let sigma = if dice.one_in(3) { 0.0 } else { dice.wild() };
        let strike = if dice.one_in(4) { 0.0 } else { dice.wild() * dice.sign() };
        match dice.range(1, 6) as u64 {
            kind @ (1 | 2) => b.job(kind, strike, t, end, sigma),
            kind @ (3 | 4) => b.job(kind, t, end, strike, sigma),
            5 => b.job(8, strike, t, end, sigma),
            _ => b.job(9, strike, t, end, sigma),
        }
    }
    for &t in &times {
        let draw = if dice.one_in(2) { dice.draw() } else { dice.wild() * dice.sign() };
        b.desk.grid.push((t, draw));
        if dice.one_in(2) {
            let sigma = if dice.one_in(3) { 0.0 } else { dice.wild() };
            b.desk.pillars.push((t, sigma));
        }
    }
    b.job(12, 0.0, 0.0, 0.0, 0.0);
    b.finish()
}

/// Paths as a direct view of ln, exp and the square root: with factors 1 the
/// shift is half the variance, with no variance the forward alone.
fn limit_path_probe(dice: &mut Dice) -> Desk {
    let alpha = dice.pick(&[0.5, 0.25, 1.0, 0.05]);
    let mut b = Builder::new(Shape::FLAT, alpha);
    let probe = dice.below(3);
    let mut time: f64 = 0.0;
    for _ in 0..dice.range(4, 24) {
        let (gap, sigma, draw) = match probe {
            0 => (1.0, 0.0, 0.0),
            1 => (dice.log_between(1e-3, 1500.0), 1.0, 0.0),
            _ => (dice.log_between(1e-12, 1e6), 1.0, 1.0),
        };
        time += gap;
        if probe == 0 {
            b.pin(time, 1.0);
            b.pin(time + H, dice.wild());
        } else {
            b.need_forward(time);
        }
        b.desk.grid.push((time, draw));
        b.desk.pillars.push((time, sigma));
    }
    if probe == 2 && dice.one_in(2) {
        // Subnormal and tiny times, whose square roots show in full.
        let start = dice.wild().min(1e-10);
        b.desk.grid.insert(0, (start, 1.0));
        b.desk.pillars.insert(0, (start, 1.0));
        b.need_forward(start);
    }
    b.job(12, 0.0, 0.0, 0.0, 0.0);
    b.finish()
}

/// Variance that only survives through weights of any size: a huge early
/// sigma, then none, with strong decay.
fn limit_decayed_variance(dice: &mut Dice) -> Desk {
    let (mut b, _) = market(dice, 0, 0);
    let t = dice.between(1.0, 3.0);
    b.desk.alpha = dice.log_between(0.01, 400.0) / t;
    let count = dice.range(1, 5);
    let mut time = dice.pick(&[0.0, 0.25, 0.5]);
    for i in 0..count {
        let size = dice.log_between(1e-4, 1e4);
        let sigma = if i % 2 == 1 { 0.0 } else { size };
        b.desk.pillars.push((time, sigma));
        time += dice.between(0.1, 1.0);
    }
    b.coupon(t + 1.0, 1.0);
    b.coupon(t + 2.0, 1.0);
    for kind in [6, 7] {
        for _ in 0..3 {
            add_swaption(&mut b, dice, kind, t);
        }
    }
    b.desk.grid = vec![(t * 0.5, 1.0), (t, -1.0), (t + 0.5, 0.5)];
    for i in 0..3 {
        let time = b.desk.grid[i].0;
        b.need_forward(time);
    }
    b.job(12, 0.0, 0.0, 0.0, 0.0);
    b.finish()
}

/// Own discount factors of very different sizes.
fn limit_own_factors(dice: &mut Dice) -> Desk {
    let coupons = dice.range(1, 4);
    let (mut b, start) = market(dice, coupons, 0);
    for coupon in &mut b.desk.coupons {
        coupon.2 = dice.wild();
    }
    if dice.one_in(3) {
        let place = dice.below(coupons);
        b.desk.coupons[place].2 = dice.pick(&[0.0, 0.0, -0.0, -TINY, -1.0]);
    }
    for kind in [6, 7, 6, 7, 5] {
        add_job(&mut b, dice, kind, start);
    }
    b.finish()
}

/// Notionals of any size, the product overflowing at times.
fn limit_notional(dice: &mut Dice) -> Desk {
    let coupons = dice.range(1, 3);
    let (mut b, start) = market(dice, coupons, 0);
    if dice.one_in(2) {
        b.shape.scale = 1e6;
    }
    for _ in 0..8 {
        let kind = dice.pick(&[6, 7]);
        add_swaption(&mut b, dice, kind, start);
    }
    let mut desk = b.finish();
    for job in &mut desk.jobs {
        job.f[2] = dice.pick(&[0.0, -0.0, TINY, -TINY, 1e308, -1e308, f64::MAX, 1e305, 1e-300]);
    }
    desk
}

/// Caplet fits next to overflow: the start factor, which the price at high
/// sigmas comes to, is about the largest number.
fn limit_overflowing_fit(dice: &mut Dice) -> Desk {
    let alpha = dice.log_between(0.005, 0.05);
    let mut b = Builder::new(Shape::FLAT, alpha);
    let t = 30.0;
    let start = step(f64::MAX, -(dice.below(5) as i64 / 3));
    b.pin(t, start);
    for i in 0..12 {
        let end = 50.0 + i as f64;
        let below = 1.0 - dice.log_between(1e-6, 0.05);
        match dice.below(4) {
            // At the money: a high quote brings the market's price to the
            // start factor as well.
            0 => {
                let power = power_of_two(dice.range(20, 300) as i32);
                b.pin(end, start / power * dice.between(0.3, 3.0));
                let strike = (power * below - 1.0) / (end - t);
                b.job(8, strike, t, end, dice.between(5.0, 20.0));
            }
            // Deep in the money with an end factor of a few last digits.
            1 => {
                let power = power_of_two(dice.range(1, 6) as i32);
                let digits = dice.between(1.0, 4.0) * power_of_two(-53);
                b.pin(end, start / power * digits);
                let strike = (power * below - 1.0) / (end - t);
                let quote = b.forward(t, end) * 1e-3;
                b.job(9, strike, t, end, quote);
                b.job(8, strike, t, end, 0.01);
            }
            // A strike so high that the bond strike is subnormal: its rounding
            // takes the price at high sigmas to infinity, past a market price
            // of about the largest number.
            _ => {
                b.pin(end, dice.between(1.0, 4.0));
                let forward = b.forward(t, end);
                b.job(8, forward, t, end, dice.between(5.0, 20.0));
                let density = 1.0 / 2.5066282746310005;
                let quote = start / b.factor(end) / (end - t) / (t.sqrt() * density);
                let steps = dice.range(0, 3) as i64;
                b.job(9, forward, t, end, step(quote, -steps));
            }
        }
    }
    b.finish()
}

/// Swaption fits whose first product overflows at high sigmas only.
fn limit_overflowing_swap_fit(dice: &mut Dice) -> Desk {
    let alpha = dice.log_between(0.01, 0.05);
    let shape = Shape { scale: 1e300, ..Shape::market(dice) };
    let mut b = Builder::new(shape, alpha);
    let t = dice.between(0.5, 2.0);
    let size = 1e6;
    b.coupon(t + 1.0, -size * dice.between(0.3, 1.0));
    b.coupon(t + dice.between(1.5, 2.5), size * dice.between(0.8, 1.5));
    b.need_forward(t);
    for kind in [10, 11, 10, 11] {
        let strike = dice.log_between(1e3, 1e6);
        let quote = if kind == 10 { 0.01 } else { strike * 0.01 };
        b.job(kind, strike, t, quote, 0.0);
    }
    b.finish()
}

/// Coupon sums that jump from far below 1 to infinity: the first two terms
/// overflow together, the other two would bring the sum back.
fn limit_overflowing_sum(dice: &mut Dice) -> Desk {
    let shape = Shape { scale: 1e-300, ..Shape::FLAT };
    let mut b = Builder::new(shape, market_alpha(dice));
    let t = dice.pick(&[0.5, 1.0, 2.0]);
    b.need_forward(t);
    let strike = 1e150 * dice.sign();
    let first = dice.between(0.8, 0.97);
    let third = first * dice.between(0.99, 1.0);
    let parts = [
        (1e-3, first),
        (dice.between(0.5, 5.0), (1.0 - first) * dice.between(0.8, 1.2)),
        (2e-3, -third),
        (3e-3, -(1.0 - third + dice.between(0.005, 0.1))),
    ];
    for (length, part) in parts {
        b.coupon(t + length, f64::MAX * part / strike);
    }
    b.desk.pillars = vec![(0.0, dice.pick(&[0.0, 0.01]))];
    b.job(5, strike, t, dice.log_between(1e-6, 0.1), 0.0);
    b.job(5, strike, t, 0.0, 0.0);
    b.job(6, strike, t, 1.0, 1.0);
    b.job(7, strike, t, 1.0, 1.0);
    b.job(11, strike, t, 1e150 * dice.log_between(1e-3, 1e2), 0.0);
    b.finish()
}

/// B so large that 200 halvings leave a wide bracket, whose lower sum is
/// infinite while the price is not.
fn limit_wide_bracket(dice: &mut Dice) -> Desk {
    let slope = dice.between(1.1e63, 2.4e63);
    let alpha = (1.0 - exp(-1.0)) / slope;
    let mut b = Builder::new(Shape::FLAT, alpha);
    let t = dice.pick(&[0.0, 1.0]);
    b.need_forward(t);
    b.pin(1.0 / alpha, dice.between(0.3, 0.9));
    b.desk.coupons.push((1.0 / alpha, 1.0, 0.0));
    b.desk.pillars = vec![(0.0, 0.0)];
    for strike in [0.0, 0.01, 0.5] {
        b.job(5, strike, t, 0.0, 0.0);
        b.job(6, strike, t, 1.0, 1.0);
        b.job(7, strike, t, 1.0, 1.0);
    }
    b.finish()
}

/// Coupons listed out of order: the last listed one carries the principal.
fn limit_unsorted_coupons(dice: &mut Dice) -> Desk {
    let coupons = dice.range(2, 4);
    let (mut b, start) = market(dice, coupons, 0);
    dice.shuffle(&mut b.desk.coupons);
    for kind in [5, 6, 7, 10, 11] {
        add_job(&mut b, dice, kind, start);
    }
    b.finish()
}

/// A coefficient of -infinity and B so large that the first upper rung
/// meets infinity times 0: no good rate below, NaN above.
fn limit_upper_nan(dice: &mut Dice) -> Desk {
    let length = dice.log_between(1e3, 1e5);
    let mut b = Builder::new(Shape::FLAT, 1.0 / length);
    let t = dice.pick(&[0.0, 1.0]);
    b.need_forward(t);
    b.pin(t + length, dice.log_between(1e150, 1e300));
    b.desk.coupons.push((t + length, -1.0, 0.0));
    b.desk.pillars = vec![(0.0, 0.0)];
    for _ in 0..3 {
        let strike = dice.log_between(1e8, 1e300);
        b.job(5, strike, t, 0.0, 0.0);
        b.job(6, strike, t, 1.0, 1.0);
        b.job(7, strike, t, 1.0, 1.0);
    }
    if t > 0.0 {
        b.job(11, 1e200, t, 1.0, 0.0);
    }
    b.finish()
}

/// A tiny coefficient beside a huge A: the coupon sums are ordinary, but the
/// Newton step meets infinity over infinity. Without variance nothing else
/// of the answer would show it.
fn limit_newton_nan(dice: &mut Dice) -> Desk {
    let mut b = Builder::new(Shape::FLAT, market_alpha(dice));
    let t = dice.pick(&[0.0, 1.0]);
    let low = power_of_two(-500);
    b.pin(t, low);
    b.pin(t + H, low);
    b.pin(t + 1.0, power_of_two(dice.range(515, 523) as i32));
    b.pin(t + 2.0, low);
    b.desk.coupons.push((t + 1.0, power_of_two(-(dice.range(510, 520) as i32)), 0.0));
    b.desk.coupons.push((t + 2.0, -power_of_two(512), 0.0));
    b.desk.pillars = vec![(0.0, dice.pick(&[0.0, 0.0, 0.01]))];
    b.job(6, power_of_two(-512), t, 1.0, 1.0);
    b.job(7, power_of_two(-512), t, 1.0, 1.0);
    b.job(5, power_of_two(-512), t, 0.01, 0.0);
    b.finish()
}

// ---------------------------------------------------------------------------
// refusal: planted faults
// ---------------------------------------------------------------------------

/// What a job's field holds.
#[derive(Clone, Copy, PartialEq)]
enum Role {
    Strike,
    BlackStrike,
    BondStrike,
    Option,
    FitOption,
    End,
    Sigma,
    Quote,
    Notional,
    Side,
    Unused,
}

/// The meaning of a, b, c, d for each kind.
fn roles(kind: u64) -> [Role; 4] {
    use Role::*;
    match kind {
        1 | 2 => [Strike, Option, End, Sigma],
        3 | 4 => [Option, End, BondStrike, Sigma],
        5 => [Strike, Option, Sigma, Unused],
        6 | 7 => [Strike, Option, Notional, Side],
        8 => [BlackStrike, FitOption, End, Quote],
        9 => [Strike, FitOption, End, Quote],
        10 => [BlackStrike, FitOption, Quote, Unused],
        11 => [Strike, FitOption, Quote, Unused],
        _ => [Unused; 4],
    }
}

/// Puts one fault, or one oddity that must be ignored, into a job.
fn spoil_job(dice: &mut Dice, job: &mut Job) {
    let place = dice.below(4);
    let role = roles(job.kind)[place];
    let now = job.f[place];
    if dice.one_in(5) || role == Role::Unused {
        job.f[place] = dice.bad();
        return;
    }
    job.f[place] = match role {
        Role::Strike => match dice.below(3) {
            0 => -dice.log_between(1.0, 1e6),
            1 => dice.sign() * dice.wild(),
            _ => dice.pick(&[0.0, -0.0, 1e300, -1e300, f64::MAX]),
        },
        Role::BlackStrike => match dice.below(3) {
            0 => dice.pick(&[0.0, -0.0, -TINY, -0.01]),
            1 => dice.wild(),
            _ => dice.pick(&[1e300, TINY, f64::MAX]),
        },
        Role::BondStrike => match dice.below(2) {
            0 => dice.sign() * dice.wild(),
            _ => dice.pick(&[0.0, -0.0, 1e308, -1.0, f64::MAX]),
        },
        Role::Option | Role::FitOption => match dice.below(5) {
            0 => dice.pick(&[-TINY, -0.5, -1e300]),
            1 => dice.pick(&[0.0, -0.0]),
            2 => step(now, 1),
            3 => now + dice.between(5.0, 50.0),
            _ => now * 0.5,
        },
        Role::End => match dice.below(4) {
            0 => dice.pick(&[0.0, -0.0, -1.0]),
            1 => job.f[place - 1],
            2 => step(now, 1),
            _ => step(job.f[place - 1], dice.pick(&[-1, 1])),
        },
        Role::Sigma => dice.pick(&[-0.01, -TINY, -0.0, 0.0, 1e200, f64::MAX, 1e5]),
        Role::Quote => {
            dice.pick(&[0.0, -0.0, -TINY, -0.2, TINY, 1e-9, 50.0, 1e10, 1e200, f64::MAX])
        }
        Role::Notional => dice.pick(&[0.0, -0.0, 1e308, -f64::MAX]),
        _ => dice.pick(&[0.0, -0.0, 2.0, 0.5, 1.0000000000000002, -0.9999999999999999, 1e300]),
    };
}

fn spoil_alpha(dice: &mut Dice, desk: &mut Desk) {
    desk.alpha = match dice.below(3) {
        0 => dice.bad(),
        _ => dice.pick(&[0.0, -0.0, -0.1, -TINY, -1e300]),
    };
}

/// Spoils a list whose times must rise strictly: NaN, order, second number.
fn spoil_rising(dice: &mut Dice, list: &mut Vec<(f64, f64)>, second: &[f64]) {
    if list.is_empty() {
        list.push((1.0, 0.5));
    }
    let i = dice.below(list.len());
    match dice.below(8) {
        0 => list[i].0 = dice.bad(),
        1 => list[i].1 = dice.bad(),
        2 | 3 => list[i].1 = dice.pick(second),
        4 => list.insert(i, list[i]),
        5 => {
            let j = dice.below(list.len());
            list.swap(i, j);
        }
        6 => list[i].0 = -list[i].0,
        _ => {
            let last = list[list.len() - 1];
            list.push(last);
        }
    }
}

/// Takes points off one end of the curve, or all: times out there have no factor.
fn cut_curve(dice: &mut Dice, desk: &mut Desk) {
    let place = dice.below(desk.curve.len().max(1));
    match dice.below(5) {
        0 => desk.curve.clear(),
        1 | 2 => desk.curve.truncate(place),
        _ => drop(desk.curve.drain(..place)),
    }
}

fn spoil_curve(dice: &mut Dice, desk: &mut Desk) {
    if dice.one_in(3) && !desk.curve.is_empty() {
        let i = dice.below(desk.curve.len());
        match dice.below(4) {
            0 => desk.curve[i].0 = step(desk.curve[i].0, 1),
            1 => drop(desk.curve.remove(i)),
            _ => cut_curve(dice, desk),
        }
        return;
    }
    spoil_rising(dice, &mut desk.curve, &[0.0, -0.0, -TINY, -1.0]);
}

fn spoil_pillars(dice: &mut Dice, desk: &mut Desk) {
    if dice.one_in(4) {
        desk.pillars.clear();
        return;
    }
    spoil_rising(dice, &mut desk.pillars, &[-0.01, -TINY, -0.0, 0.0]);
}

fn spoil_coupons(dice: &mut Dice, desk: &mut Desk) {
    if dice.one_in(8) || desk.coupons.is_empty() {
        desk.coupons.clear();
        return;
    }
    let i = dice.below(desk.coupons.len());
    let coupon = &mut desk.coupons[i];
    match dice.below(9) {
        0 => coupon.0 = dice.bad(),
        1 => coupon.1 = dice.bad(),
        2 => coupon.2 = dice.bad(),
        3 => coupon.0 = step(coupon.0, 1) + dice.pick(&[0.0, 100.0]),
        4 => coupon.0 = dice.pick(&[0.0, -0.0, -1.0, 0.01]),
        5 => coupon.1 = dice.pick(&[0.0, -1.0, 1e300, -1e300, -1e6]),
        6 => coupon.2 = dice.pick(&[-1.0, -TINY, -0.0]),
        7 => coupon.2 = dice.pick(&[1.0, TINY, 0.9]),
        _ => {
            for coupon in &mut desk.coupons {
                coupon.2 = 0.9;
            }
            desk.coupons[i].2 = dice.pick(&[0.0, -0.0, -0.9, 0.8]);
        }
    }
}

fn spoil_grid(dice: &mut Dice, desk: &mut Desk) {
    if desk.grid.is_empty() {
        desk.grid.push((-1.0, 0.0));
        return;
    }
    let i = dice.below(desk.grid.len());
    match dice.below(9) {
        0 => desk.grid[i].0 = dice.bad(),
        1 => desk.grid[i].1 = dice.bad(),
        2 => desk.grid[0].0 = dice.pick(&[-TINY, -1.0, -0.0, -H]),
        3 => desk.grid[i].0 = step(desk.grid[i].0, 1) + dice.pick(&[0.0, 100.0]),
        4 => desk.grid[i].1 = dice.sign() * dice.pick(&[1e308, f64::MAX, 1e200]),
        5 => desk.grid.clear(),
        6 => {
            let j = dice.below(desk.grid.len());
            desk.grid.swap(i, j);
        }
        7 => desk.grid[i].0 = -desk.grid[i].0,
        _ => {
            let again = desk.grid[i];
            desk.grid.insert(i, again);
        }
    }
}

/// Spoils one of the lists; the curve and alpha, which all kinds use, less often.
fn spoil_list(dice: &mut Dice, desk: &mut Desk) {
    match dice.below(10) {
        0 => spoil_alpha(dice, desk),
        1 | 2 => spoil_curve(dice, desk),
        3 | 4 => spoil_pillars(dice, desk),
        5 | 6 | 7 => spoil_coupons(dice, desk),
        _ => spoil_grid(dice, desk),
    }
}

/// A good desk with each kind twice and few coupons.
fn refusal_base(dice: &mut Dice) -> Desk {
    let coupons = dice.range(1, 3);
    let grid = dice.range(2, 5);
    let (mut b, start) = market(dice, coupons, grid);
    if dice.one_in(2) {
        b.own_factors(dice);
    }
    // Else times before the first that the jobs need have no factor.
    if dice.one_in(2) {
        b.need(0.0);
    }
    for kind in 1..=12 {
        for _ in 0..2 {
            add_job(&mut b, dice, kind, start);
        }
    }
    let mut desk = b.finish();
    // Fits that nothing spoils are slow and told elsewhere.
    desk.jobs.retain(|job| !matches!(job.kind, 10 | 11) || dice.one_in(2));
    desk
}

/// One fault in each job, or in one list.
fn refusal_single(dice: &mut Dice) -> Desk {
    let mut desk = refusal_base(dice);
    if dice.one_in(2) {
        for job in &mut desk.jobs {
            spoil_job(dice, job);
        }
    } else {
        spoil_list(dice, &mut desk);
    }
    desk
}

/// Several faults in each job and in the lists: the order decides.
fn refusal_several(dice: &mut Dice) -> Desk {
    let mut desk = refusal_base(dice);
    for job in &mut desk.jobs {
        for _ in 0..dice.below(4) {
            spoil_job(dice, job);
        }
    }
    for _ in 0..dice.below(3) {
        spoil_list(dice, &mut desk);
    }
    desk
}

/// Breaks one rule of 2 to 8 through the model and the lists.
fn break_list(dice: &mut Dice, desk: &mut Desk, rule: usize) {
    let point = dice.below(desk.curve.len().max(1));
    let pillar = dice.below(desk.pillars.len().max(1));
    let coupon = dice.below(desk.coupons.len().max(1));
    match rule {
        2 => match dice.below(4) {
            0 => desk.alpha = dice.bad(),
            1 => set_pair(dice, &mut desk.curve, point),
            2 => set_pair(dice, &mut desk.pillars, pillar),
            _ => set_pair(dice, &mut desk.grid, 0),
        },
        3 => desk.alpha = dice.pick(&[0.0, -0.0, -0.1]),
        4 => {
            // The last point once more, or two points exchanged.
            for list in [&mut desk.curve, &mut desk.pillars] {
                if list.len() > 1 && dice.one_in(2) {
                    list.swap(0, 1);
                } else if let Some(&last) = list.last() {
                    list.push(last);
                }
            }
            desk.grid.reverse();
        }
        5 => {
            if let Some(first) = desk.grid.first_mut() {
                first.0 = -1.0;
            }
            if let Some(coupon) = desk.coupons.get_mut(coupon) {
                coupon.0 = dice.pick(&[0.0, -1.0]);
            }
        }
        6 => match dice.below(3) {
            0 if !desk.curve.is_empty() => desk.curve[point].1 = dice.pick(&[0.0, -1.0]),
            1 if !desk.coupons.is_empty() => {
                let first = desk.coupons[0];
                desk.coupons.push((first.0, first.1, if first.2 == 0.0 { 0.5 } else { 0.0 }));
            }
            _ if !desk.pillars.is_empty() => desk.pillars[pillar].1 = -0.01,
            _ => {}
        },
        7 => {
            if dice.one_in(2) {
                desk.coupons.clear();
            }
            if dice.one_in(2) {
                desk.pillars.clear();
            }
        }
        _ => cut_curve(dice, desk),
    }
}

/// Makes one number of a list's record bad.
fn set_pair(dice: &mut Dice, list: &mut [(f64, f64)], place: usize) {
    if let Some(pair) = list.get_mut(place) {
        if dice.one_in(2) {
            pair.0 = dice.bad();
        } else {
            pair.1 = dice.bad();
        }
    }
}

/// Breaks rule 2, 5, 6 or 8 through a job's own fields, if its kind can.
fn break_job(dice: &mut Dice, job: &mut Job, rule: usize) {
    let places = roles(job.kind);
    for _ in 0..8 {
        let place = dice.below(4);
        let now = job.f[place];
        let broken = match (rule, places[place]) {
            (_, Role::Unused) => continue,
            (2, _) => dice.bad(),
            (5, Role::Option) => -0.5,
            (5, Role::FitOption) => dice.pick(&[0.0, -0.5]),
            (5, Role::End) => 0.0,
            (6, Role::Sigma) => -0.01,
            (6, Role::Quote | Role::BlackStrike) => dice.pick(&[0.0, -0.1]),
            (6, Role::Side) => dice.pick(&[0.0, 2.0]),
            (8, Role::Option | Role::FitOption) => dice.pick(&[TINY, 0.001]),
            (8, Role::End) => now + 1000.0,
            _ => continue,
        };
        job.f[place] = broken;
        return;
    }
}

/// Two rules of 2 to 8 broken at once, for every job that can break them.
fn refusal_pairs(dice: &mut Dice) -> Desk {
    let mut desk = refusal_base(dice);
    let mut rules = [2, 3, 4, 5, 6, 7, 8];
    dice.shuffle(&mut rules);
    for &rule in &rules[..2] {
        if matches!(rule, 2 | 5 | 6 | 8) && dice.one_in(2) {
            for job in &mut desk.jobs {
                break_job(dice, job, rule);
            }
        } else {
            break_list(dice, &mut desk, rule);
        }
    }
    desk
}

/// Faults in lists only, two or three of them.
fn refusal_lists(dice: &mut Dice) -> Desk {
    let mut desk = refusal_base(dice);
    for _ in 0..dice.range(2, 3) {
        spoil_list(dice, &mut desk);
    }
    desk
}

/// A path that leaves the finite numbers, and mostly goes on after the curve's
/// end: the time without a factor comes first.
fn refusal_path_order(dice: &mut Dice) -> Desk {
    let count = dice.range(3, 8);
    let (mut b, _) = market(dice, 0, count);
    b.job(12, 0.0, 0.0, 0.0, 0.0);
    let mut desk = b.finish();
    let place = dice.below(count);
    desk.grid[place].1 = f64::MAX;
    let size = dice.pick(&[1.0, 1e3, 1e200]);
    for pillar in &mut desk.pillars {
        pillar.1 *= size;
    }
    if !dice.one_in(3) {
        let after = desk.curve.iter().position(|p| p.0 > desk.grid[place].0);
        let first = after.unwrap_or(0);
        let gone = dice.range(first, desk.curve.len() - 1);
        desk.curve.truncate(gone);
    }
    desk
}

/// Searches, fits and paths that meet 9, 10, 12 or 13, on a curve without some of
/// its ends: 8 comes first.
fn refusal_no_factor(dice: &mut Dice) -> Desk {
    let mut desk = match dice.below(6) {
        0 => limit_mixed_signs(dice),
        1 => limit_wild_terms(dice),
        2 => limit_plain_terms(dice),
        3 => refusal_fit_order(dice),
        4 => limit_rungs(dice),
        _ => fit_zero_residual(dice),
    };
    cut_curve(dice, &mut desk);
    desk
}

/// Swaption fits in which the model or the market goes wrong, or both: the
/// model is priced first, at 1e-8, then at 2.
fn refusal_fit_order(dice: &mut Dice) -> Desk {
    let mut b = Builder::new(Shape::market(dice), market_alpha(dice));
    let t = market_time(dice);
    let count = dice.range(1, 2);
    for i in 0..count {
        // Negative accruals: no good rate for the model, a negative forward
        // and so no Black price for the market.
        let accrual = dice.pick(&[-1.0, -1.0, 1.0]) * dice.log_between(0.1, 10.0);
        b.coupon(t + 1.0 + i as f64, accrual);
    }
    b.need_forward(t);
    for kind in [10, 10, 11, 11] {
        let strike = dice.log_between(0.01, 100.0);
        let quote = dice.pick(&[0.2, 1e-9, 100.0, 1e200, 1e308]);
        b.job(kind, strike, t, quote, 0.0);
    }
    b.finish()
}

/// The whole alphabet of numbers in one field of every job.
fn refusal_sweep(dice: &mut Dice) -> Desk {
    let coupons = dice.range(1, 2);
    let (mut b, start) = market(dice, coupons, 2);
    let kind = dice.range(1, 11) as u64;
    let place = dice.below(4);
    let numbers = [
        0.0, -0.0, TINY, -TINY, 1.0, -1.0, 1e-12, 1e300, -1e300, f64::MAX, f64::INFINITY,
        f64::NEG_INFINITY, f64::NAN, 0.5, 2.0,
    ];
    b.need_forward(0.0);
    b.need(1.0);
    b.need(2.0);
    for number in numbers {
        add_job(&mut b, dice, kind, start);
        let last = b.desk.jobs.len() - 1;
        b.desk.jobs[last].f[place] = number;
        // An ordinary fit costs more than it tells here.
        if kind >= 10 && roles(kind)[place] == Role::Unused && last > 1 {
            b.desk.jobs.pop();
        }
    }
    b.finish()
}

// ---------------------------------------------------------------------------
// near: on a limit and one step beside it
// ---------------------------------------------------------------------------

/// Arguments of the normal function at which its form changes.
const TURNS: [f64; 2] = [37.0, 7.071067811865475];

/// Bond options whose d1 or d2 lies exactly on, or next to, a turn.
fn near_normal(dice: &mut Dice) -> Desk {
    let alpha = market_alpha(dice);
    let mut b = Builder::new(Shape::market(dice), alpha);
    for _ in 0..3 {
        let t = market_time(dice);
        let end = t + dice.between(0.5, 5.0);
        b.need(t);
        b.need(end);
        let sigma = dice.log_between(0.01, 0.2);
        let volatility = bond_volatility(alpha, sigma, t, end);
        let (p_option, p_bond) = (b.factor(t), b.factor(end));
        let target = dice.pick(&TURNS) * dice.sign();
        let second = dice.one_in(2);
        let d = |strike: f64| {
            let (d1, d2) = bond_d(volatility, strike, p_option, p_bond);
            if second { d2 } else { d1 }
        };
        let half = if second { -0.5 } else { 0.5 } * volatility * volatility;
        let guess = p_bond / p_option * exp(half - target * volatility);
        let strike = aim(guess, target, d);
        for steps in -3..=3 {
            let kind = dice.pick(&[3, 4]);
            b.job(kind, t, end, step(strike, steps), sigma);
        }
    }
    b.finish()
}

/// The number near a guess at which a falling or rising function comes
/// nearest to a target.
fn aim(guess: f64, target: f64, f: impl Fn(f64) -> f64) -> f64 {
    let mut best = guess;
    let mut miss = f64::INFINITY;
    for steps in -300..=300 {
        let x = step(guess, steps);
        let gap = (f(x) - target).abs();
        if gap < miss {
            miss = gap;
            best = x;
        }
    }
    best
}

/// One-coupon swaptions by the pricer with |d| around a turn: many strikes.
fn near_normal_pricer(dice: &mut Dice) -> Desk {
    let alpha = market_alpha(dice);
    let mut b = Builder::new(Shape::FLAT, alpha);
    let t = dice.range(1, 5) as f64;
    let end = t + dice.range(1, 5) as f64;
    let sigma = dice.log_between(0.02, 0.2);
    b.desk.pillars = vec![(0.0, sigma)];
    b.need_forward(t);
    b.coupon(end, 1.0);
    let volatility = pricer_volatility(alpha, sigma, t, end);
    let target = dice.pick(&TURNS) * dice.sign();
    let half = dice.sign() * 0.5 * volatility * volatility;
    // With one coupon the bond strike is 1 over the coefficient 1 + strike.
    let coefficient = exp(target * volatility + half);
    for i in 0..24 {
        let kind = dice.pick(&[6, 7]);
        let size = step(coefficient, i * 2 - 24);
        b.job(kind, size - 1.0, t, 1e10, 1.0);
    }
    b.finish()
}

/// Normal-volatility fits with d exactly on a turn: no forward, strike and
/// quote by a power of two.
fn near_normal_fit(dice: &mut Dice) -> Desk {
    let mut b = Builder::new(Shape::FLAT, market_alpha(dice));
    b.shape.scale = dice.log_between(1e9, 1e15);
    let (t, end) = (1.0, 2.0);
    b.need(t);
    b.need(end);
    for _ in 0..6 {
        let quote = power_of_two(-(dice.range(4, 8) as i32));
        let target = step(7.071067811865475, dice.range(0, 2) as i64 - 1);
        b.job(9, target * quote * dice.sign(), t, end, quote);
    }
    b.finish()
}

/// The pricer's bond volatility on 1e-12 and next to it.
fn near_bond_volatility(dice: &mut Dice) -> Desk {
    let alpha = market_alpha(dice);
    let shape = if dice.one_in(2) { Shape::FLAT } else { Shape::market(dice) };
    let mut b = Builder::new(shape, alpha);
    let t = dice.range(1, 8) as f64 * 0.5;
    let end = t + dice.range(1, 8) as f64 * 0.5;
    b.coupon(end, 1.0);
    b.need_forward(t);
    let guess = 1e-12 / pricer_volatility(alpha, 1.0, t, end);
    let sigma = aim(guess, 1e-12, |s| pricer_volatility(alpha, s, t, end));
    let beside = dice.pick(&[0, 0, 0, -1, 1, 2]);
    let sigma = step(sigma, beside);
    b.desk.pillars = vec![(0.0, sigma)];
    let forward = b.forward(t, end);
    for _ in 0..8 {
        let kind = dice.pick(&[6, 7]);
        let strike = forward * (1.0 + dice.between(-3e-12, 3e-12)) + dice.between(-1e-12, 1e-12);
        b.job(kind, strike, t, 1e12, 1.0);
    }
    b.finish()
}

/// |alpha| 1e-12 and its neighbours in the variance.
fn near_alpha(dice: &mut Dice) -> Desk {
    let coupons = dice.range(1, 3);
    let (mut b, start) = market(dice, coupons, 4);
    let beside = dice.pick(&[0, 0, 0, -1, 1, -2, 2]);
    b.desk.alpha = step(1e-12, beside);
    for kind in [6, 7, 6, 7, 6, 12, 5, 1, 3] {
        let t = swaption_time(dice, start);
        add_job(&mut b, dice, kind, t);
    }
    b.finish()
}

/// Option times around 0 in every kind.
fn near_zero_time(dice: &mut Dice) -> Desk {
    let shape = Shape::market(dice);
    let mut b = Builder::new(shape, market_alpha(dice));
    b.coupons(dice, 0.0, 2, 1.0);
    b.need(-TINY);
    b.need(0.0);
    b.need(TINY);
    b.need(H);
    b.desk.pillars = vec![(dice.pick(&[0.0, -1.0, TINY, 1.0]), 0.01)];
    let first = dice.pick(&[0.0, -0.0, TINY, -TINY]);
    b.desk.grid = vec![(first, 1.0), (TINY, 1.0), (1.0, 1.0)];
    b.need_forward(1.0);
    for kind in 1..=12 {
        for _ in 0..2 {
            let t = dice.pick(&[0.0, -0.0, TINY, -TINY]);
            match kind {
                1 | 2 => b.job(kind, 0.02, t, 1.0, 0.01),
                3 | 4 => b.job(kind, t, 1.0, 0.98, 0.01),
                5 => b.job(5, 0.02, t, 0.01, 0.0),
                6 | 7 => b.job(kind, 0.02, t, 1.0, 1.0),
                8 | 9 => b.job(kind, 0.02, t, 1.0, 0.2),
                10 | 11 => b.job(kind, 0.02, t, 0.2, 0.0),
                _ => {}
            }
        }
    }
    b.job(12, 0.0, 0.0, 0.0, 0.0);
    b.finish()
}

/// Every other limit of a field: 0, 1 and -1, and the end one step after the
/// option time.
fn near_fields(dice: &mut Dice) -> Desk {
    let (mut b, start) = market(dice, 1, 2);
    let around_zero = [0.0, -0.0, TINY, -TINY];
    let around_one = [
        1.0, -1.0, 1.0000000000000002, 0.9999999999999999, -1.0000000000000002,
        -0.9999999999999999,
    ];
    for kind in 1..=11 {
        for _ in 0..2 {
            let places = roles(kind);
            let place = dice.below(4);
            let wanted = matches!(
                places[place],
                Role::BlackStrike | Role::Sigma | Role::Quote | Role::Side | Role::End
            );
            if !wanted {
                continue;
            }
            add_job(&mut b, dice, kind, start);
            let last = b.desk.jobs.len() - 1;
            let mut job = b.desk.jobs[last];
            job.f[place] = match places[place] {
                Role::Side => dice.pick(&around_one),
                Role::End => {
                    let end = step(job.f[place - 1], dice.range(0, 2) as i64 - 1);
                    b.need(end);
                    end
                }
                _ => dice.pick(&around_zero),
            };
            b.desk.jobs[last] = job;
        }
    }
    // A payment one step before, at or after the option time.
    if dice.one_in(3) {
        let time = step(start, dice.range(0, 2) as i64 - 1);
        b.desk.coupons[0].0 = time;
        b.need(time);
        b.need_forward(start);
        b.job(5, 0.02, start, 0.01, 0.0);
        b.job(6, 0.02, start, 1.0, 1.0);
    }
    let mut desk = b.finish();
    if dice.one_in(4) {
        let place = dice.below(desk.curve.len());
        desk.curve[place].1 = dice.pick(&around_zero);
    }
    if dice.one_in(4) {
        desk.pillars[0].1 = dice.pick(&around_zero);
    }
    if dice.one_in(4) {
        desk.coupons[0].2 = dice.pick(&around_zero);
    }
    desk
}

/// The critical-rate derivative around 1e-14: B is 1/alpha.
fn near_derivative(dice: &mut Dice) -> Desk {
    let alpha = step(1e14, dice.range(0, 16) as i64 - 8);
    let mut b = Builder::new(Shape::FLAT, alpha);
    let t = dice.pick(&[0.0, 1.0]);
    b.need_forward(t);
    b.coupon(t + 1.0, 1.0);
    b.desk.pillars = vec![(0.0, dice.pick(&[0.0, 0.01, 1e7]))];
    for _ in 0..12 {
        let strike = dice.pick(&[0.0, 0.02, 1e-15, -1e-15, 1e-14]) + dice.between(-1e-14, 1e-14);
        let kind = dice.pick(&[6, 7]);
        b.job(kind, strike, t, 1.0, 1.0);
    }
    b.finish()
}

/// Exponents around the ends of exp's range, through the decay of a path and
/// through the logarithm of A.
fn near_exponent(dice: &mut Dice) -> Desk {
    let mut b = Builder::new(Shape::FLAT, 0.5);
    let targets = [746.0, 745.0, 744.44, 745.1332, 708.0, 708.4, 709.78, 710.0];
    let mut time = 0.0;
    for _ in 0..dice.range(1, 4) {
        time += step(dice.pick(&targets), dice.range(0, 4) as i64 - 2);
        b.desk.grid.push((time, 0.0));
        b.need_forward(time);
        let sigma = dice.pick(&[1.0, 1e150, 1e154, 0.0]);
        b.desk.pillars.push((time, sigma));
    }
    b.job(12, 0.0, 0.0, 0.0, 0.0);
    // The logarithm of A around 710 or -746, by two factors far apart.
    let t = 1.0;
    let log = dice.pick(&[709.0, 709.78, 710.0, -745.0, -746.0, -744.4]) + dice.between(-0.5, 0.5);
    b.pin(t, exp(-log * 0.5));
    b.pin(t + H, b.factor(t));
    b.pin(2.0, exp(log * 0.5));
    b.desk.coupons.push((2.0, 1.0, 0.0));
    for _ in 0..4 {
        let strike = dice.between(-1.0, 1.0);
        b.job(5, strike, t, 0.01, 0.0);
        b.job(6, strike, t, 1.0, 1.0);
    }
    b.finish()
}

/// Arguments of exp whose k is a tie, seen through the decay of a variance
/// that nothing is added to; and of exp_m1 around -0.5.
fn near_ties(dice: &mut Dice) -> Desk {
    let mut b = Builder::new(Shape::FLAT, 0.5);
    let first = dice.pick(&[0.25, 0.375, 0.5, 0.75]);
    b.desk.pillars = vec![(0.0, 1.0), (step(first, 1), 0.0)];
    for time in [first, first + tie(dice)] {
        b.desk.grid.push((time, 0.0));
        b.need_forward(time);
    }
    b.job(12, 0.0, 0.0, 0.0, 0.0);
    // -2 alpha × t = -0.5 in the variance.
    let t = step(0.5, dice.range(0, 4) as i64 - 2);
    b.need_forward(t);
    b.coupon(1.5, 1.0);
    for _ in 0..4 {
        let kind = dice.pick(&[6, 7]);
        let strike = dice.between(-0.5, 0.5);
        b.job(kind, strike, t, 1.0, 1.0);
    }
    b.finish()
}

/// A y whose product with exp's factor is exactly a half, if possible one at
/// which the two ways to round that half give different bits of exp(-y).
fn tie(dice: &mut Dice) -> f64 {
    let mut found = 1.0;
    for _ in 0..2000 {
        let whole = dice.below(50) as f64 * 2.0;
        let near = (whole + 0.5) / 1.4426950408889634;
        let y = step(near, dice.range(0, 8) as i64 - 4);
        if y * 1.4426950408889634 == whole + 0.5 {
            found = y;
            if exp_with(-whole, -y) != exp_with(-whole - 1.0, -y) {
                break;
            }
        }
    }
    found
}

/// Variances and forward rates in which the last term of exp_m1's or ln's
/// series decides a bit.
fn near_last_term(dice: &mut Dice) -> Desk {
    let mut b = Builder::new(Shape::FLAT, 0.25);
    b.desk.pillars.push((0.0, 1.0));
    b.coupon(2.0, 1.0);
    let mut t = 0.75;
    for _ in 0..40_000 {
        t = dice.between(0.6, 1.0);
        let y = -2.0 * 0.25 * t;
        if exp_m1_from(16, y) != exp_m1_from(17, y) {
            break;
        }
    }
    b.need_forward(t);
    for kind in [6, 7, 6, 7, 6, 7] {
        let strike = dice.between(-0.5, 0.5);
        b.job(kind, strike, t, 1.0, 1.0);
    }
    for i in 0..4 {
        let mut ratio = 1.5;
        for _ in 0..4_000 {
            ratio = dice.between(1.4, 1.5);
            if ln_from(23, ratio) != ln(ratio) {
                break;
            }
        }
        let time = 3.0 + i as f64;
        b.pin(time, 1.0);
        b.pin(time + H, ratio);
        b.desk.grid.push((time, 0.0));
    }
    b.desk.pillars.push((2.5, 0.0));
    b.job(12, 0.0, 0.0, 0.0, 0.0);
    b.finish()
}

/// Residuals of exactly 1e-12 in a fit: with a volatility so high that the
/// caplet costs the start factor, which is 1e-12, beside a market price of
/// almost nothing.
fn near_tolerance(dice: &mut Dice) -> Desk {
    let mut b = Builder::new(Shape::FLAT, dice.between(0.008, 0.012));
    let (t, end) = (30.0, 60.0);
    let beside = dice.pick(&[0, 0, 0, -1, 1]);
    let start = step(1e-12, beside);
    b.pin(t, start);
    b.pin(end, start * dice.between(1.5, 3.0));
    let forward = b.forward(t, end);
    for _ in 0..6 {
        let away = dice.between(9.0, 30.0);
        b.job(9, 0.0, t, end, -forward / away / t.sqrt());
    }
    b.finish()
}

/// Residuals of +0 and -0 at the lower end of a fit: so far out of the money
/// and with factors so small that the model's products are subnormal and
/// cancel, beside a market price of 0.
fn near_minus_zero(dice: &mut Dice) -> Desk {
    let mut b = Builder::new(Shape::market(dice), market_alpha(dice));
    for i in 0..16 {
        let t = 1.0 + i as f64;
        let end = t + dice.pick(&[0.25, 0.5, 0.75]);
        let scale = dice.log_between(1e-32, 1e-10);
        b.pin(t, scale * b.shape.factor(t));
        b.pin(end, scale * b.shape.factor(end));
        let volatility = bond_volatility(b.desk.alpha, 1e-8, t, end);
        let away = exp(dice.between(33.0, 37.0) * volatility);
        let strike = (b.factor(t) / b.factor(end) * away - 1.0) / (end - t);
        let quote = (strike - b.forward(t, end)) / t.sqrt() / dice.between(40.0, 60.0);
        b.job(9, strike, t, end, quote);
    }
    b.finish()
}

/// Ratios on the ends of ln's split, 0.75 and 1.5 times a power of two.
fn near_log_split(dice: &mut Dice) -> Desk {
    let mut b = Builder::new(Shape::FLAT, 0.1);
    b.desk.pillars.push((0.0, 0.0));
    for i in 1..=dice.range(4, 12) {
        let time = i as f64;
        let power = power_of_two(dice.range(0, 60) as i32 - 30);
        let ratio = dice.pick(&[0.75, 1.5, 1.0]) * power;
        b.pin(time, 1.0);
        b.pin(time + H, step(ratio, dice.range(0, 4) as i64 - 2));
        b.desk.grid.push((time, 0.0));
    }
    b.job(12, 0.0, 0.0, 0.0, 0.0);
    b.finish()
}

/// Grid times on, just before and just after pillar times.
fn near_pillars(dice: &mut Dice) -> Desk {
    let (mut b, start) = market(dice, 2, 0);
    let pillars = b.desk.pillars.clone();
    for &(time, _) in &pillars {
        for steps in -1..=1 {
            let near = step(time, steps);
            if near >= 0.0 && dice.one_in(2) {
                b.desk.grid.push((near, 1.0));
                b.need_forward(near);
            }
        }
        // An option that ends on a pillar.
        if time > 0.0 && time < start {
            add_swaption(&mut b, dice, 6, time);
            add_swaption(&mut b, dice, 7, step(time, 1));
        }
    }
    add_swaption(&mut b, dice, 6, start);
    b.job(12, 0.0, 0.0, 0.0, 0.0);
    b.finish()
}

// ---------------------------------------------------------------------------
// layout: damaged files
// ---------------------------------------------------------------------------

/// A small good desk to be damaged.
fn layout_base(dice: &mut Dice) -> Desk {
    let coupons = dice.range(1, 3);
    let grid = dice.range(1, 3);
    let (mut b, start) = market(dice, coupons, grid);
    for _ in 0..dice.range(1, 4) {
        let kind = dice.pick(&[1, 2, 3, 4, 5, 6, 7, 12, 13]);
        add_job(&mut b, dice, kind, start);
    }
    b.finish()
}

fn word(bytes: &[u8], place: usize) -> u32 {
    u32::from_le_bytes([bytes[place], bytes[place + 1], bytes[place + 2], bytes[place + 3]])
}

fn set_word(bytes: &mut [u8], place: usize, value: u32) {
    bytes[place..place + 4].copy_from_slice(&value.to_le_bytes());
}

/// Cut short anywhere, or at a part's edge.
fn layout_cut(dice: &mut Dice) -> Vec<u8> {
    let mut bytes = layout_base(dice).bytes();
    let length = bytes.len();
    let keep = match dice.below(5) {
        0 => dice.below(length),
        1 => dice.pick(&[0, 1, 4, 8, 40, 47, 48, 55, 56]),
        2 => length - 1,
        3 => length - dice.range(1, 40),
        _ => {
            let part = dice.below(6);
            word(&bytes, 8 * part) as usize
        }
    };
    bytes.truncate(keep);
    bytes
}

/// One entry of the table off by a little or by much.
fn layout_table(dice: &mut Dice) -> Vec<u8> {
    let mut bytes = layout_base(dice).bytes();
    for _ in 0..dice.range(1, 2) {
        let place = 4 * dice.below(12);
        let now = word(&bytes, place);
        let value = match dice.below(6) {
            0 => now.wrapping_add(1),
            1 => now.wrapping_sub(1),
            2 => dice.pick(&[0, 1, 7, 8, 9, 16, 47, 48, 49, 56, 65_536, 65_537]),
            3 => dice.pick(&[0x7fff_ffff, 0x8000_0000, 0xffff_ffff, 0xffff_fff8, 0xffff_fff0]),
            4 => now.wrapping_add(dice.pick(&[8, 16, 24, 40])),
            _ => now.wrapping_sub(dice.pick(&[8, 16, 24, 40])),
        };
        set_word(&mut bytes, place, value);
    }
    bytes
}

/// Two parts' entries exchanged: not sorted, or overlapping.
fn layout_exchanged(dice: &mut Dice) -> Vec<u8> {
    let mut bytes = layout_base(dice).bytes();
    let (i, j) = (dice.below(6), dice.below(6));
    for half in [0, 4] {
        let (x, y) = (word(&bytes, 8 * i + half), word(&bytes, 8 * j + half));
        if half == 0 || dice.one_in(2) {
            set_word(&mut bytes, 8 * i + half, y);
            set_word(&mut bytes, 8 * j + half, x);
        }
    }
    bytes
}

/// Kinds that do not exist.
fn layout_kind(dice: &mut Dice) -> Vec<u8> {
    let mut desk = layout_base(dice);
    let place = dice.below(desk.jobs.len());
    desk.jobs[place].kind = dice.pick(&[
        0,
        0,
        0,
        13,
        14,
        14,
        14,
        15,
        255,
        256,
        257,
        0x1_0000_0001,
        0x100_0000_0000_0006,
        0x8000_0000_0000_0001,
        u64::MAX,
        u64::MAX - 11,
        u64::MAX - 12,
        0x3ff0_0000_0000_0000,
    ]);
    if dice.one_in(2) {
        // A fault of the model beside it: the layout comes first.
        spoil_list(dice, &mut desk);
    }
    desk.bytes()
}

/// A length that is not a whole number of records.
fn layout_part_length(dice: &mut Dice) -> Vec<u8> {
    let desk = layout_base(dice);
    let mut parts = desk.parts();
    let i = dice.below(6);
    if i == 0 {
        let length = dice.pick(&[0, 1, 7, 9, 15, 16, 24]);
        parts[0].resize(length, 0);
    } else if dice.one_in(2) {
        let extra = dice.pick(&[1, 4, 7, 8, 9, 15]);
        let length = parts[i].len() + extra;
        parts[i].resize(length, 0);
    } else {
        let less = dice.pick(&[1, 4, 8]).min(parts[i].len());
        let length = parts[i].len() - less;
        parts[i].truncate(length);
    }
    join(&parts, &[0; 7], 0)
}

/// A list one record over its limit, exactly at it, or the file too long.
fn layout_over_limit(dice: &mut Dice) -> Vec<u8> {
    let mut desk = layout_base(dice);
    let over = if dice.one_in(4) { 0 } else { 1 };
    match dice.below(5) {
        0 => {
            desk.pillars = (0..64 + over).map(|i| (i as f64, 0.01)).collect();
        }
        1 => {
            let count = 2048 + over;
            pad_curve(dice, &mut desk, count);
        }
        2 => {
            let last = desk.coupons[desk.coupons.len() - 1];
            desk.coupons.resize(64 + over, last);
            desk.jobs.truncate(1);
        }
        3 => {
            let last = desk.grid[desk.grid.len() - 1];
            desk.grid.resize(1024 + over, last);
            desk.jobs.truncate(1);
        }
        _ => {
            let (mut b, start) = market(dice, 1, 1);
            for _ in 0..128 + over {
                let kind = dice.pick(&[1, 2, 3, 4]);
                add_job(&mut b, dice, kind, start);
            }
            desk = b.finish();
        }
    }
    desk.bytes()
}

/// Files around the greatest length, good but for it.
fn layout_file_length(dice: &mut Dice) -> Vec<u8> {
    let mut bytes = layout_base(dice).bytes();
    let filling = dice.next() as u8;
    bytes.resize(dice.pick(&[65_535, 65_536, 65_536, 65_537, 65_538, 70_000]), filling);
    bytes
}

/// Short files of nothing or of anything.
fn layout_anything(dice: &mut Dice) -> Vec<u8> {
    let length = match dice.below(4) {
        0 => dice.pick(&[0, 1, 47, 48, 49, 56]),
        _ => dice.below(300),
    };
    let kind = dice.below(3);
    (0..length).map(|_| if kind == 0 { 0 } else { dice.next() as u8 }).collect()
}

/// The table alone with empty parts, right but for alpha.
fn layout_bare(dice: &mut Dice) -> Vec<u8> {
    let mut bytes = Vec::new();
    let model: u32 = dice.pick(&[8, 8, 0, 16]);
    for part in 0..6 {
        let (place, length) = if part == 0 { (48, model) } else { (48 + model, 0) };
        let shift = if dice.one_in(12) { dice.pick(&[1, 8, 47]) } else { 0 };
        bytes.extend(u32::to_le_bytes(place + shift));
        bytes.extend(u32::to_le_bytes(length));
    }
    let alpha = if dice.one_in(2) { 0.1 } else { dice.bad() };
    bytes.extend(f64::to_le_bytes(alpha));
    let more = dice.pick(&[0, 0, 1, 8, 40]);
    bytes.resize(bytes.len() + more, 0);
    bytes
}

/// The first offset below 48, parts inside the table.
fn layout_first_offset(dice: &mut Dice) -> Vec<u8> {
    let mut bytes = layout_base(dice).bytes();
    if dice.one_in(2) {
        set_word(&mut bytes, 0, dice.pick(&[0, 40, 46, 47]));
    } else {
        // Room is made before the model, which then moves through it.
        bytes.splice(TABLE..TABLE, [0; 8]);
        for part in 0..6 {
            let moved = word(&bytes, 8 * part) + 8;
            set_word(&mut bytes, 8 * part, moved);
        }
        set_word(&mut bytes, 0, dice.pick(&[47, 48, 49, 55, 56, 57]));
    }
    bytes
}

/// Gaps and trailing bytes, which are allowed.
fn layout_gaps(dice: &mut Dice) -> Vec<u8> {
    let desk = layout_base(dice);
    desk.bytes_with_gaps(dice)
}

/// The offset of an empty part may lie anywhere between its neighbours, even
/// at the file's end, not beyond.
fn layout_empty_part(dice: &mut Dice) -> Vec<u8> {
    let mut desk = layout_base(dice);
    desk.jobs.retain(|job| matches!(job.kind, 1..=4));
    desk.grid.clear();
    if dice.one_in(2) {
        desk.jobs.clear();
    }
    let mut bytes = desk.bytes();
    let part = if desk.jobs.is_empty() { 5 } else { 4 };
    let now = word(&bytes, 8 * part);
    let shift = dice.pick(&[0, 1, 2, 40]);
    set_word(&mut bytes, 8 * part, now.wrapping_add(shift));
    let more = dice.pick(&[0, 1, 2, 40]);
    bytes.resize(bytes.len() + more, 0xff);
    bytes
}

/// One bit of a good file turned.
fn layout_bit(dice: &mut Dice) -> Vec<u8> {
    let mut bytes = layout_base(dice).bytes();
    let bits = 8 * bytes.len();
    let bit = if dice.one_in(2) { dice.below(8 * TABLE) } else { dice.below(bits) };
    bytes[bit / 8] ^= 1 << (bit % 8);
    bytes
}

// ---------------------------------------------------------------------------
// The table of categories
// ---------------------------------------------------------------------------

/// How a category makes its file.
#[derive(Clone, Copy)]
enum Maker {
    Contents(fn(&mut Dice) -> Desk),
    /// The same with a curve that is its point, and stays.
    Curve(fn(&mut Dice) -> Desk),
    Bytes(fn(&mut Dice) -> Vec<u8>),
}

use Maker::{Bytes, Contents, Curve};

/// Every category with its weight.
const CATEGORIES: &[(&str, u32, Maker)] = &[
    ("desk/every-kind", 120, Contents(desk_every_kind)),
    ("desk/swaptions", 50, Contents(desk_swaptions)),
    ("desk/paths", 30, Contents(desk_paths)),
    ("fit/converging", 40, Contents(fit_converging)),
    ("fit/scaled", 70, Contents(fit_scaled)),
    ("fit/scaled-swaption", 30, Contents(fit_scaled_swaption)),
    ("fit/odd-quotes", 30, Contents(fit_odd_quotes)),
    ("fit/zero-residual", 15, Contents(fit_zero_residual)),
    ("curve/month-ends", 40, Curve(curve_month_ends)),
    ("curve/beside", 25, Curve(curve_beside)),
    ("curve/few-points", 15, Curve(curve_few_points)),
    ("curve/zero", 15, Curve(curve_zero)),
    ("curve/one-day", 10, Curve(curve_one_day)),
    ("curve/last-digit", 20, Curve(curve_last_digit)),
    ("curve/not-finite", 15, Curve(curve_not_finite)),
    ("curve/wild", 15, Curve(curve_wild)),
    ("path/centred", 30, Contents(path_centred)),
    ("path/probe", 15, Contents(path_probe)),
    ("path/extreme", 20, Contents(path_extreme)),
    ("path/overflow", 15, Contents(path_overflow)),
    ("path/pillars", 25, Contents(path_pillars)),
    ("limit/one-coupon", 10, Contents(limit_one_coupon)),
    ("limit/64-coupons", 6, Contents(limit_64_coupons)),
    ("limit/64-pillars", 8, Contents(limit_64_pillars)),
    ("limit/2048-points", 4, Contents(limit_2048_points)),
    ("limit/1024-grid", 4, Contents(limit_1024_grid)),
    ("limit/many-paths", 1, Contents(limit_many_paths)),
    ("limit/128-jobs", 6, Contents(limit_128_jobs)),
    ("limit/all-full", 3, Contents(limit_all_full)),
    ("limit/negative-zero", 15, Contents(limit_negative_zero)),
    ("limit/no-variance", 20, Contents(limit_no_variance)),
    ("limit/empty-lists", 28, Contents(limit_empty_lists)),
    ("limit/no-pillars", 30, Contents(limit_no_pillars)),
    ("limit/three-rates", 12, Contents(limit_three_rates)),
    ("limit/alpha", 20, Contents(limit_alpha)),
    ("limit/bond-slope", 20, Contents(limit_bond_slope)),
    ("limit/rungs", 20, Contents(limit_rungs)),
    ("limit/mixed-signs", 25, Contents(limit_mixed_signs)),
    ("limit/plain-terms", 8, Contents(limit_plain_terms)),
    ("limit/wild-terms", 25, Contents(limit_wild_terms)),
    ("limit/wild-formulas", 25, Contents(limit_wild_formulas)),
    ("limit/path-probe", 25, Contents(limit_path_probe)),
    ("limit/decayed-variance", 15, Contents(limit_decayed_variance)),
    ("limit/own-factors", 16, Contents(limit_own_factors)),
    ("limit/notional", 8, Contents(limit_notional)),
    ("limit/overflowing-fit", 10, Contents(limit_overflowing_fit)),
    ("limit/overflowing-swap-fit", 8, Contents(limit_overflowing_swap_fit)),
    ("limit/overflowing-sum", 12, Contents(limit_overflowing_sum)),
    ("limit/wide-bracket", 8, Contents(limit_wide_bracket)),
    ("limit/unsorted-coupons", 10, Contents(limit_unsorted_coupons)),
    ("limit/upper-nan", 6, Contents(limit_upper_nan)),
    ("limit/newton-nan", 10, Contents(limit_newton_nan)),
    ("refusal/single", 60, Contents(refusal_single)),
    ("refusal/several", 60, Contents(refusal_several)),
    ("refusal/pairs", 40, Contents(refusal_pairs)),
    ("refusal/lists", 30, Contents(refusal_lists)),
    ("refusal/no-factor", 20, Contents(refusal_no_factor)),
    ("refusal/path-order", 12, Contents(refusal_path_order)),
    ("refusal/fit-order", 12, Contents(refusal_fit_order)),
    ("refusal/sweep", 25, Contents(refusal_sweep)),
    ("near/normal", 25, Contents(near_normal)),
    ("near/normal-pricer", 15, Contents(near_normal_pricer)),
    ("near/normal-fit", 8, Contents(near_normal_fit)),
    ("near/bond-volatility", 20, Contents(near_bond_volatility)),
    ("near/alpha", 15, Contents(near_alpha)),
    ("near/zero-time", 15, Contents(near_zero_time)),
    ("near/fields", 20, Contents(near_fields)),
    ("near/derivative", 10, Contents(near_derivative)),
    ("near/exponent", 10, Contents(near_exponent)),
    ("near/ties", 12, Contents(near_ties)),
    ("near/last-term", 8, Contents(near_last_term)),
    ("near/minus-zero", 10, Contents(near_minus_zero)),
    ("near/tolerance", 9, Contents(near_tolerance)),
    ("near/log-split", 8, Contents(near_log_split)),
    ("near/pillars", 12, Contents(near_pillars)),
    ("layout/cut", 15, Bytes(layout_cut)),
    ("layout/table", 25, Bytes(layout_table)),
    ("layout/exchanged", 6, Bytes(layout_exchanged)),
    ("layout/kind", 14, Bytes(layout_kind)),
    ("layout/part-length", 10, Bytes(layout_part_length)),
    ("layout/over-limit", 10, Bytes(layout_over_limit)),
    ("layout/file-length", 12, Bytes(layout_file_length)),
    ("layout/anything", 6, Bytes(layout_anything)),
    ("layout/bare", 6, Bytes(layout_bare)),
    ("layout/first-offset", 9, Bytes(layout_first_offset)),
    ("layout/gaps", 8, Bytes(layout_gaps)),
    ("layout/empty-part", 8, Bytes(layout_empty_part)),
    ("layout/bit", 12, Bytes(layout_bit)),
];

/// Which files are made.
#[derive(Clone, Copy, PartialEq)]
pub enum Files {
    /// All. Of eight that would have pillars one has none and two have one of them, and one in
    /// eight has a curve of month ends; damaged files have all as they are.
    All,
    /// Files without pillars; there are no damaged ones then.
    NoPillars,
    /// Files with curves of month ends, and four times as many of the group curve, which
    /// are as they are; there are no damaged ones then.
    MonthEnds,
    /// Files about paths, in which other jobs are few, and sixteen times as many of the group
    /// path, which keep the pillars that they have; there are no damaged ones then.
    Paths,
}

/// The run file of a seed and an index, with its category.
pub fn generate(seed: u64, index: u64, files: Files) -> (Vec<u8>, &'static str) {
    let mut dice = Dice::new(seed, index);
    let weight = |name: &str, weight: u32, maker: Maker| match (files, maker) {
        (Files::All, _) => weight,
        (_, Bytes(_)) => 0,
        (Files::MonthEnds, Curve(_)) => 4 * weight,
        (Files::Paths, _) if name.starts_with(PATH) => 16 * weight,
        _ => weight,
    };
    let total: u32 = CATEGORIES.iter().map(|row| weight(row.0, row.1, row.2)).sum();
    let mut place = dice.below(total as usize) as u32;
    for &(name, plain, maker) in CATEGORIES {
        let weight = weight(name, plain, maker);
        if place < weight {
            return (make(&mut dice, name, maker, files), name);
        }
        place -= weight;
    }
    unreachable!("the weights add up to the total");
}

/// The run file of a category, a seed and an index.
pub fn of_category(category: &str, seed: u64, index: u64) -> Vec<u8> {
    let row = CATEGORIES.iter().find(|row| row.0 == category).expect("a category's name");
    make(&mut Dice::new(seed, index), row.0, row.2, Files::All)
}

/// What the names of the group path begin with.
const PATH: &str = "path/";

fn make(dice: &mut Dice, name: &str, maker: Maker, files: Files) -> Vec<u8> {
    let mut desk = match maker {
        Contents(build) | Curve(build) => build(dice),
        Bytes(build) => return build(dice),
    };
    let paths = name.starts_with(PATH);
    if files == Files::Paths && !paths {
        to_paths(dice, &mut desk);
    }
    match dice.below(8) {
        _ if files == Files::NoPillars => desk.pillars.clear(),
        _ if files == Files::Paths || paths => {}
        0 => desk.pillars.clear(),
        1 | 2 if !desk.pillars.is_empty() => keep_one(dice, &mut desk),
        _ => {}
    }
    add_published(dice, &mut desk);
    let keeps = matches!(maker, Curve(_));
    if !keeps && (files == Files::MonthEnds || dice.one_in(8)) {
        to_month_ends(dice, &mut desk);
    }
    if dice.one_in(10) {
        desk.bytes_with_gaps(dice)
    } else {
        desk.bytes()
    }
}
