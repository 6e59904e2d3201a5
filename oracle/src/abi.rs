//! The library's calls as a C program sees them: names, arguments, reports.
//!
//! One table, `FUNCTIONS`, says all of it. With `--cfg calls` the library is
//! linked and `run` makes a call: every list that is lent stands against a page
//! that can be neither read nor written, at its end or at its beginning in
//! turn, with a marked margin on the other side. What is lent to be read must
//! be as it was afterwards, and so must every margin.
//!
//! A call and its outcome as a line of text: `NAME ARGUMENT.. -> OUTCOME`. A
//! number is 16 hexadecimal digits of its bits; a size, a seed, and the room of a
//! list to be written, a decimal; a list stands in brackets, numbers with commas
//! between (and `*N` behind one that stands N times), bools as 0 and 1, bytes as two
//! hexadecimal digits each. The outcome is the report field by field, whole numbers as decimals, an array without
//! the zeros at its end; then, where a list is written, what was written to its
//! front.

use std::collections::BTreeMap;
use std::fmt::Write;

#[derive(Clone, Copy, PartialEq, Eq, Debug)]
pub enum Kind {
    Number,
    Size,
    /// A whole number of 64 bits, where a size is as wide as a pointer.
    Seed,
    Floats,
    Bools,
    Bytes,
    /// A list of floats to be written.
    Room,
    /// A list of bytes to be written.
    ByteRoom,
}

#[derive(Clone, PartialEq, Debug)]
pub enum Arg {
    Number(f64),
    /// A size or a seed.
    Size(u64),
    Floats(Vec<f64>),
    Bools(Vec<bool>),
    Bytes(Vec<u8>),
    Room(usize),
    ByteRoom(usize),
}

/// A field of a report: its name, how many places it has, whether these are
/// floats.
pub type Field = (&'static str, usize, bool);

pub struct Function {
    pub name: &'static str,
    pub arguments: &'static [(&'static str, Kind)],
    pub fields: &'static [Field],
    #[cfg(calls)]
    call: fn(&mut Frame) -> Vec<u64>,
}

impl Function {
    /// The ground functions refuse nothing and give a number.
    pub fn is_ground(&self) -> bool {
        self.fields[0].0 == "result"
    }

    pub fn words(&self) -> usize {
        self.fields.iter().map(|field| field.1).sum()
    }

    pub fn position(&self, argument: &str) -> Option<usize> {
        self.arguments.iter().position(|one| one.0 == argument)
    }

    pub fn writes(&self) -> bool {
        self.arguments
            .iter()
            .any(|one| matches!(one.1, Kind::Room | Kind::ByteRoom))
    }
}

// ------------------------------------------------------------------ reports

macro_rules! places {
    () => {
        1
    };
    ($count:literal) => {
        $count
    };
}

macro_rules! report {
    ($name:ident { $($field:ident: $type:ident $([$count:literal])?,)* }) => {
        #[cfg(calls)]
        #[repr(C)]
        struct $name { $($field: report!(@type $type $($count)?),)* }

        #[cfg(calls)]
        impl $name {
            fn words(&self) -> Vec<u64> {
                let mut words = Vec::new();
                $(report!(@words words self.$field, $type $($count)?);)*
                words
            }
        }

        #[allow(non_upper_case_globals)]
        const $name: &[Field] =
            &[$((stringify!($field), places!($($count)?), report!(@float $type)),)*];
    };
    (@type $type:ident) => { report!(@plain $type) };
    (@type $type:ident $count:literal) => { [report!(@plain $type); $count] };
    (@plain u64) => { u64 };
    (@plain f64) => { f64 };
    // Not a bool: what a wrong library writes there need not be one.
    (@plain bool) => { u8 };
    (@float f64) => { true };
    (@float $other:ident) => { false };
    (@words $words:ident $value:expr, f64) => { $words.push($value.to_bits()) };
    (@words $words:ident $value:expr, f64 $count:literal) => {
        $words.extend($value.iter().map(|float| float.to_bits()))
    };
    (@words $words:ident $value:expr, u64) => { $words.push($value) };
    (@words $words:ident $value:expr, bool) => { $words.push(u64::from($value)) };
}

report!(PriceReport {
    answer: u64,
    value: f64,
});
report!(D1D2Report {
    answer: u64,
    d1: f64,
    d2: f64,
});
report!(CountReport {
    answer: u64,
    count: u64,
});
report!(DrawsReport {
    answer: u64,
    count: u64,
    state: u64,
});
report!(CriticalRateReport {
    answer: u64,
    rate: f64,
    lower: f64,
    upper: f64,
    lower_sum: f64,
    upper_sum: f64,
    lower_rung: u64,
    upper_rung: u64,
});
report!(ImplicitRateReport {
    answer: u64,
    stepped: f64,
    rate: f64,
    lower: f64,
    upper: f64,
    lower_sum: f64,
    upper_sum: f64,
    lower_rung: u64,
    upper_rung: u64,
});
report!(SwaptionReport {
    answer: u64,
    value: f64,
    rate: f64,
    lower: f64,
    upper: f64,
    lower_sum: f64,
    upper_sum: f64,
    lower_rung: u64,
    upper_rung: u64,
});
report!(ValuationReport {
    answer: u64,
    value: f64,
    stepped: f64,
    rate: f64,
    lower: f64,
    upper: f64,
    lower_sum: f64,
    upper_sum: f64,
    lower_rung: u64,
    upper_rung: u64,
});
report!(FitReport {
    answer: u64,
    sigma: f64,
    residual: f64,
    low: f64,
    high: f64,
    low_residual: f64,
    high_residual: f64,
    halvings: u64,
    converged: bool,
});
report!(BasketReport {
    answer: u64,
    count: u64,
    sigmas: f64[64],
    statuses: f64[64],
    halvings: f64[64],
    residuals: f64[64],
    diagonal: f64[64],
    bumped_statuses: f64[64],
});

/// What a ground function gives.
#[cfg(calls)]
#[repr(transparent)]
struct Plain {
    result: f64,
}

#[cfg(calls)]
impl Plain {
    fn words(&self) -> Vec<u64> {
        vec![self.result.to_bits()]
    }
}

#[allow(non_upper_case_globals)]
const Plain: &[Field] = &[("result", 1, true)];

// ---------------------------------------------------------------- functions

macro_rules! kind {
    (number) => {
        Kind::Number
    };
    (size) => {
        Kind::Size
    };
    (seed) => {
        Kind::Seed
    };
    (floats) => {
        Kind::Floats
    };
    (bools) => {
        Kind::Bools
    };
    (bytes) => {
        Kind::Bytes
    };
    (room) => {
        Kind::Room
    };
    (byte_room) => {
        Kind::ByteRoom
    };
}

/// The declaration of a function and a call of it, its kinds of arguments taken
/// one by one; a list is a pointer and a length.
#[cfg(calls)]
macro_rules! called {
    ($s:ident $r:ident $f:ident [$($t:ty,)*] [$($e:expr,)*]) => {{
        extern "C" {
            fn $s($(_: $t),*) -> $r;
        }
        unsafe { $s($($e),*) }.words()
    }};
    ($s:ident $r:ident $f:ident [$($t:ty,)*] [$($e:expr,)*] number $($rest:ident)*) => {
        called!($s $r $f [$($t,)* f64,] [$($e,)* $f.number(),] $($rest)*)
    };
    ($s:ident $r:ident $f:ident [$($t:ty,)*] [$($e:expr,)*] size $($rest:ident)*) => {
        called!($s $r $f [$($t,)* usize,] [$($e,)* $f.size(),] $($rest)*)
    };
    ($s:ident $r:ident $f:ident [$($t:ty,)*] [$($e:expr,)*] seed $($rest:ident)*) => {
        called!($s $r $f [$($t,)* u64,] [$($e,)* $f.seed(),] $($rest)*)
    };
    ($s:ident $r:ident $f:ident [$($t:ty,)*] [$($e:expr,)*] floats $($rest:ident)*) => {
        called!($s $r $f [$($t,)* *const f64, usize,] [$($e,)* $f.list(), $f.length(),] $($rest)*)
    };
    ($s:ident $r:ident $f:ident [$($t:ty,)*] [$($e:expr,)*] bools $($rest:ident)*) => {
        called!($s $r $f [$($t,)* *const bool, usize,] [$($e,)* $f.list(), $f.length(),] $($rest)*)
    };
    ($s:ident $r:ident $f:ident [$($t:ty,)*] [$($e:expr,)*] bytes $($rest:ident)*) => {
        called!($s $r $f [$($t,)* *const u8, usize,] [$($e,)* $f.list(), $f.length(),] $($rest)*)
    };
    ($s:ident $r:ident $f:ident [$($t:ty,)*] [$($e:expr,)*] room $($rest:ident)*) => {
        called!($s $r $f [$($t,)* *mut f64, usize,] [$($e,)* $f.list(), $f.length(),] $($rest)*)
    };
    ($s:ident $r:ident $f:ident [$($t:ty,)*] [$($e:expr,)*] byte_room $($rest:ident)*) => {
        called!($s $r $f [$($t,)* *mut u8, usize,] [$($e,)* $f.list(), $f.length(),] $($rest)*)
    };
}

macro_rules! functions {
    ($($symbol:ident $name:ident $report:ident ($($kind:ident $argument:ident),*);)*) => {
        pub const FUNCTIONS: &[Function] = &[$(Function {
            name: stringify!($name),
            arguments: &[$((stringify!($argument), kind!($kind)),)*],
            fields: $report,
            #[cfg(calls)]
            call: |frame| called!($symbol $report frame [] [] $($kind)*),
        },)*];
    };
}

functions! {
    calstwid_fused fused Plain (number a, number b, number c);
    calstwid_sqrt sqrt Plain (number x);
    calstwid_exp exp Plain (number x);
    calstwid_exp_m1 exp_m1 Plain (number y);
    calstwid_ln ln Plain (number x);
    calstwid_norm_pdf norm_pdf Plain (number d);
    calstwid_norm_cdf norm_cdf Plain (number x);
    calstwid_norm_cdf_dual norm_cdf_dual Plain (number x);
    calstwid_midpoint midpoint Plain (number a, number b);
    calstwid_signum signum Plain (number x);
    calstwid_max max Plain (number a, number b);
    calstwid_min min Plain (number a, number b);
    calstwid_B B PriceReport (number alpha, number t, number bond);
    calstwid_zcb_price_volatility zcb_price_volatility PriceReport
        (number alpha, number sigma, number t, number bond);
    calstwid_short_rate_variance short_rate_variance PriceReport
        (number alpha, number t, number bond, number sigma);
    calstwid_A A PriceReport
        (number alpha, floats times, floats factors, number t, number bond, number sigma);
    calstwid_zcb_price zcb_price PriceReport
        (number alpha, floats times, floats factors, number rate, number t, number bond, number sigma);
    calstwid_theta theta PriceReport
        (number alpha, floats times, floats factors, number t, number sigma);
    calstwid_forward_rate_from_curve forward_rate_from_curve PriceReport
        (floats times, floats factors, number t);
    calstwid_d1_d2 d1_d2 D1D2Report (number fwd, number strike, number vol, number tau);
    calstwid_black_call black_call PriceReport (number fwd, number strike, number vol, number tau);
    calstwid_black_put black_put PriceReport (number fwd, number strike, number vol, number tau);
    calstwid_bachelier_call bachelier_call PriceReport
        (number fwd, number strike, number vol, number tau);
    calstwid_swap_annuity_from_curve swap_annuity_from_curve PriceReport
        (floats times, floats factors, floats payments, floats accruals);
    calstwid_volatility volatility PriceReport (floats pillars, floats sigmas, number t);
    calstwid_pillars_reached pillars_reached CountReport (floats pillars, floats sigmas, number t);
    calstwid_hull_white_piecewise_variance hull_white_piecewise_variance PriceReport
        (number alpha, floats pillars, floats sigmas, number start, number end);
    calstwid_transition_variances transition_variances CountReport
        (number alpha, floats pillars, floats sigmas, size steps, number time_step, room out);
    calstwid_caplet_price caplet_price PriceReport
        (number alpha, floats times, floats factors, number strike, number start, number end, number sigma);
    calstwid_floorlet_price floorlet_price PriceReport
        (number alpha, floats times, floats factors, number strike, number start, number end, number sigma);
    calstwid_bond_put_price bond_put_price PriceReport
        (number alpha, floats times, floats factors, number t, number bond, number strike, number sigma);
    calstwid_bond_call_price bond_call_price PriceReport
        (number alpha, floats times, floats factors, number t, number bond, number strike, number sigma);
    calstwid_swaption_price swaption_price SwaptionReport
        (number alpha, floats times, floats factors, floats payments, floats accruals,
         number strike, number t, number sigma);
    calstwid_payer_swaption_value payer_swaption_value ValuationReport
        (number alpha, floats pillars, floats sigmas, floats times, floats factors,
         floats payments, floats accruals, floats own_dfs, number strike, number t, number notional, number side);
    calstwid_receiver_swaption_value receiver_swaption_value ValuationReport
        (number alpha, floats pillars, floats sigmas, floats times, floats factors,
         floats payments, floats accruals, floats own_dfs, number strike, number t, number notional, number side);
    calstwid_fit_caplet_black fit_caplet_black FitReport
        (number alpha, floats times, floats factors, number strike, number start, number end, number vol);
    calstwid_fit_caplet_normal fit_caplet_normal FitReport
        (number alpha, floats times, floats factors, number strike, number start, number end, number vol);
    calstwid_fit_swaption_black fit_swaption_black FitReport
        (number alpha, floats times, floats factors, floats payments, floats accruals,
         number strike, number t, number vol);
    calstwid_fit_swaption_normal fit_swaption_normal FitReport
        (number alpha, floats times, floats factors, floats payments, floats accruals,
         number strike, number t, number vol);
    calstwid_calibrate_to_instruments calibrate_to_instruments BasketReport
        (number alpha, floats times, floats factors, bools normals, floats strikes, floats starts,
         floats ends, floats vols);
    calstwid_find_critical_rate find_critical_rate CriticalRateReport
        (floats coefficients, floats affines, floats b);
    calstwid_implicit_critical_rate implicit_critical_rate ImplicitRateReport
        (floats coefficients, floats affines, floats b);
    calstwid_generate generate CountReport
        (number alpha, floats pillars, floats sigmas, floats times, floats factors, floats grid,
         floats draws, room out);
    calstwid_generate_published generate_published CountReport
        (number alpha, floats pillars, floats sigmas, floats times, floats factors, floats grid,
         floats draws, room out);
    calstwid_draws draws DrawsReport (seed seed, room out);
    calstwid_generate_seeded generate_seeded DrawsReport
        (number alpha, floats pillars, floats sigmas, floats times, floats factors, floats grid,
         seed seed, room out);
    calstwid_generate_published_seeded generate_published_seeded DrawsReport
        (number alpha, floats pillars, floats sigmas, floats times, floats factors, floats grid,
         seed seed, room out);
    calstwid_piece piece CountReport (bytes file, size k, byte_room out);
}

pub fn named(name: &str) -> Option<usize> {
    FUNCTIONS.iter().position(|function| function.name == name)
}

// -------------------------------------------------------- calls and outcomes

#[derive(Clone, PartialEq, Debug)]
pub struct Call {
    /// Its place in `FUNCTIONS`.
    pub function: usize,
    pub args: Vec<Arg>,
}

/// The report's words, field by field, and what was written to the front of the
/// lent list; a byte is a word here.
#[derive(Clone, PartialEq, Eq, Debug)]
pub struct Outcome {
    pub words: Vec<u64>,
    pub written: Vec<u64>,
}

/// Bits of two floats that document 01 does not tell apart.
pub fn alike(one: u64, other: u64) -> bool {
    one == other || (f64::from_bits(one).is_nan() && f64::from_bits(other).is_nan())
}

impl Call {
    pub fn table(&self) -> &'static Function {
        &FUNCTIONS[self.function]
    }

    pub fn name(&self) -> &'static str {
        self.table().name
    }

    pub fn number(&self, place: usize) -> f64 {
        match self.args[place] {
            Arg::Number(number) => number,
            _ => unreachable!(),
        }
    }

    pub fn floats(&self, place: usize) -> &[f64] {
        match &self.args[place] {
            Arg::Floats(list) => list,
            _ => unreachable!(),
        }
    }

    pub fn size(&self, place: usize) -> u64 {
        match self.args[place] {
            Arg::Size(size) => size,
            _ => unreachable!(),
        }
    }

    /// How long a list is, of whatever it is.
    pub fn length(&self, place: usize) -> usize {
        match &self.args[place] {
            Arg::Floats(list) => list.len(),
            Arg::Bools(list) => list.len(),
            Arg::Bytes(list) => list.len(),
            Arg::Room(room) | Arg::ByteRoom(room) => *room,
            _ => unreachable!(),
        }
    }

    /// The refusal of this number.
    pub fn refused(&self, number: u64) -> Outcome {
        let mut words = vec![0; self.table().words()];
        words[0] = number;
        Outcome {
            words,
            written: Vec::new(),
        }
    }

    pub fn text(&self) -> String {
        let mut text = self.name().to_string();
        for arg in &self.args {
            text.push(' ');
            match arg {
                Arg::Number(number) => write!(text, "{:016x}", number.to_bits()).unwrap(),
                Arg::Size(size) => write!(text, "{size}").unwrap(),
                Arg::Room(room) | Arg::ByteRoom(room) => write!(text, "{room}").unwrap(),
                Arg::Floats(list) => text += &floats_text(list),
                Arg::Bools(list) => {
                    let digits: String = list
                        .iter()
                        .map(|one| if *one { '1' } else { '0' })
                        .collect();
                    write!(text, "[{digits}]").unwrap();
                }
                Arg::Bytes(list) => {
                    text.push('[');
                    list.iter()
                        .for_each(|byte| write!(text, "{byte:02x}").unwrap());
                    text.push(']');
                }
            }
        }
        text
    }

    /// The outcome in words; `--one` and the fixed list have it behind `->`.
    pub fn outcome_text(&self, outcome: &Outcome) -> String {
        let function = self.table();
        let mut text = String::new();
        let mut at = 0;
        for &(_, count, float) in function.fields {
            if at > 0 {
                text.push(' ');
            }
            let words = &outcome.words[at..at + count];
            at += count;
            if count > 1 {
                let full = words
                    .iter()
                    .rposition(|word| *word != 0)
                    .map_or(0, |last| last + 1);
                text += &words_text(words[..full].iter().copied());
            } else if float {
                write!(text, "{:016x}", words[0]).unwrap();
            } else {
                write!(text, "{}", words[0]).unwrap();
            }
        }
        if function.arguments.iter().any(|one| one.1 == Kind::Room) {
            text.push(' ');
            text += &words_text(outcome.written.iter().copied());
        }
        if function.arguments.iter().any(|one| one.1 == Kind::ByteRoom) {
            text += " [";
            outcome
                .written
                .iter()
                .for_each(|byte| write!(text, "{byte:02x}").unwrap());
            text.push(']');
        }
        text
    }
}

/// A number that stands more than three times in a row is written once, with a star
/// and how often.
fn floats_text(list: &[f64]) -> String {
    let mut parts = Vec::new();
    for same in list.chunk_by(|one, other| one.to_bits() == other.to_bits()) {
        let word = format!("{:016x}", same[0].to_bits());
        if same.len() > 3 {
            parts.push(format!("{word}*{}", same.len()));
        } else {
            parts.extend(same.iter().map(|_| word.clone()));
        }
    }
    format!("[{}]", parts.join(","))
}

fn words_text(words: impl Iterator<Item = u64>) -> String {
    let parts: Vec<String> = words.map(|word| format!("{word:016x}")).collect();
    format!("[{}]", parts.join(","))
}

/// Lists by name, for lines that share them.
pub type Lists = BTreeMap<String, Vec<f64>>;

/// `list NAME [..]`, which lines after it may refer to.
pub fn parse_list(line: &str, lists: &mut Lists) -> Option<()> {
    let mut words = line.strip_prefix("list ")?.split_whitespace();
    let (name, Arg::Floats(list)) = (
        words.next()?,
        parse_argument(words.next()?, Kind::Floats, lists)?,
    ) else {
        return None;
    };
    lists.insert(name.to_string(), list);
    Some(())
}

/// A call from its line; what stands behind `->` is passed over. A list of floats
/// may be given as `=NAME:FROM:COUNT`, a part of a list by name.
pub fn parse(line: &str, lists: &Lists) -> Result<Call, String> {
    let line = line.split("->").next().unwrap_or("");
    let mut words = line.split_whitespace();
    let name = words.next().ok_or("no name")?;
    let function = named(name).ok_or(format!("no function is called {name}"))?;
    let mut args = Vec::new();
    for (what, kind) in FUNCTIONS[function].arguments {
        let word = words.next().ok_or(format!("{name}: {what} is missing"))?;
        args.push(
            parse_argument(word, *kind, lists).ok_or(format!("{name}: {what} cannot be {word}"))?,
        );
    }
    match words.next() {
        None => Ok(Call { function, args }),
        Some(word) => Err(format!("{name}: too many arguments, from {word} on")),
    }
}

fn parse_argument(word: &str, kind: Kind, lists: &Lists) -> Option<Arg> {
    if let (Kind::Floats, Some(part)) = (kind, word.strip_prefix('=')) {
        let parts: Vec<&str> = part.split(':').collect();
        let [name, from, count] = parts.as_slice() else {
            return None;
        };
        let (from, count): (usize, usize) = (from.parse().ok()?, count.parse().ok()?);
        return Some(Arg::Floats(
            lists.get(*name)?.get(from..from + count)?.to_vec(),
        ));
    }
    let float = |word: &str| {
        let bits = if word.len() == 16 {
            u64::from_str_radix(word, 16).ok()
        } else {
            None
        };
        bits.map(f64::from_bits)
    };
    let inner = word
        .strip_prefix('[')
        .and_then(|word| word.strip_suffix(']'));
    Some(match kind {
        Kind::Number => Arg::Number(float(word)?),
        Kind::Size | Kind::Seed => Arg::Size(word.parse().ok()?),
        Kind::Room => Arg::Room(word.parse().ok()?),
        Kind::ByteRoom => Arg::ByteRoom(word.parse().ok()?),
        Kind::Floats => {
            let mut list = Vec::new();
            for part in inner?.split(',').filter(|part| !part.is_empty()) {
                let (word, count) = part.split_once('*').unwrap_or((part, "1"));
                list.resize(list.len() + count.parse::<usize>().ok()?, float(word)?);
            }
            Arg::Floats(list)
        }
        Kind::Bools => Arg::Bools(inner?.chars().map(|one| one == '1').collect()),
        Kind::Bytes => {
            let digits = inner?;
            let bytes = (0..digits.len() / 2)
                .map(|place| u8::from_str_radix(digits.get(2 * place..2 * place + 2)?, 16).ok());
            Arg::Bytes(bytes.collect::<Option<Vec<u8>>>()?)
        }
    })
}

// ------------------------------------------------------------ making a call

/// What a slip does to memory once the library has returned.
#[derive(Clone, Copy, PartialEq, Eq, Debug)]
pub enum Meddle {
    Nothing,
    /// Writes the place of that argument, counted in its elements from its
    /// first; -1 is the place before it, which is margin or behind the page.
    Write(usize, isize),
    /// The last place that was written holds what it held before the call.
    Unwritten(usize),
}

#[cfg(calls)]
pub use linked::run;

#[cfg(calls)]
use linked::Frame;

#[cfg(calls)]
mod linked {
    use super::{Arg, Call, Meddle, Outcome};
    use std::cell::RefCell;
    use std::ffi::c_void;
    use std::sync::atomic::{AtomicPtr, Ordering};

    extern "C" {
        fn mmap(
            at: *mut c_void,
            size: usize,
            may: i32,
            how: i32,
            file: i32,
            from: i64,
        ) -> *mut c_void;
        fn mprotect(at: *mut c_void, size: usize, may: i32) -> i32;
        fn signal(number: i32, handler: usize) -> usize;
        fn alarm(seconds: u32) -> u32;
        fn _exit(code: i32) -> !;
    }

    const PAGE: usize = 4096;
    /// Bytes that an argument may take.
    const ROOM: usize = 64 * PAGE;
    /// Bytes of margin that are marked.
    const MARGIN: usize = 512;
    const MOST: usize = 12;

    /// The call that is under way, for the handler below.
    static UNDER_WAY: AtomicPtr<Call> = AtomicPtr::new(std::ptr::null_mut());

    /// The signals that end here: a place outside the lists is read or written, the
    /// library falls over, or it does not come back.
    const SIGNALS: [(i32, &str); 6] = [
        (11, "reads or writes outside a list"),
        (7, "reads or writes outside a list"),
        (4, "falls over"),
        (6, "falls over"),
        (8, "falls over"),
        (14, "does not come back"),
    ];

    /// Seconds that a call may take.
    const PATIENCE: u32 = 60;

    extern "C" fn ended(number: i32) {
        let call = UNDER_WAY.load(Ordering::SeqCst);
        let what = SIGNALS
            .iter()
            .find(|one| one.0 == number)
            .map_or("falls over", |one| one.1);
        if call.is_null() {
            eprintln!("signal {number} outside the library");
        } else {
            println!("the library {what}:\n  {}", unsafe { &*call }.text());
        }
        unsafe { _exit(1) }
    }

    /// Room for one argument, a page before it and one after it closed.
    struct Slot(*mut u8);

    impl Slot {
        fn new() -> Slot {
            const READ_AND_WRITE: i32 = 3;
            const PRIVATE_ANONYMOUS: i32 = 0x22;
            unsafe {
                let all = ROOM + 2 * PAGE;
                let at = mmap(
                    std::ptr::null_mut(),
                    all,
                    READ_AND_WRITE,
                    PRIVATE_ANONYMOUS,
                    -1,
                    0,
                );
                assert!(at as isize != -1, "no memory");
                let at = at.cast::<u8>();
                assert_eq!(mprotect(at.cast(), PAGE, 0), 0);
                assert_eq!(mprotect(at.add(PAGE + ROOM).cast(), PAGE, 0), 0);
                Slot(at.add(PAGE))
            }
        }
    }

    thread_local! {
        static SLOTS: RefCell<Vec<Slot>> = RefCell::new({
            let handler = ended as extern "C" fn(i32);
            for (number, _) in SIGNALS {
                unsafe { signal(number, handler as usize) };
            }
            (0..MOST).map(|_| Slot::new()).collect()
        });
    }

    /// An argument as it lies there.
    struct Laid {
        number: f64,
        size: u64,
        start: *mut u8,
        length: usize,
        /// Bytes of an element; 0 where the argument is no list.
        width: usize,
        /// What it held before the call.
        before: Vec<u8>,
    }

    pub struct Frame {
        laid: Vec<Laid>,
        at: usize,
    }

    fn mark(place: usize) -> u8 {
        0x5a ^ (place as u8).wrapping_mul(31)
    }

    impl Frame {
        fn new(call: &Call, at_the_end: bool, slots: &[Slot]) -> Frame {
            let laid = call.args.iter().zip(slots);
            Frame {
                laid: laid
                    .map(|(arg, slot)| Laid::new(arg, slot, at_the_end))
                    .collect(),
                at: 0,
            }
        }

        fn next(&mut self) -> &Laid {
            self.at += 1;
            &self.laid[self.at - 1]
        }
        pub fn number(&mut self) -> f64 {
            self.next().number
        }
        pub fn size(&mut self) -> usize {
            self.next().size as usize
        }
        pub fn seed(&mut self) -> u64 {
            self.next().size
        }
        /// The list's first place; `length` goes on to the next argument.
        pub fn list<T>(&mut self) -> *mut T {
            self.laid[self.at].start.cast()
        }
        pub fn length(&mut self) -> usize {
            self.next().length
        }
    }

    impl Laid {
        fn new(arg: &Arg, slot: &Slot, at_the_end: bool) -> Laid {
            let (mut number, mut size) = (0.0, 0);
            let (width, before): (usize, Vec<u8>) = match arg {
                Arg::Number(value) => {
                    number = *value;
                    (0, Vec::new())
                }
                Arg::Size(value) => {
                    size = *value;
                    (0, Vec::new())
                }
                Arg::Floats(list) => (
                    8,
                    list.iter()
                        .flat_map(|float| float.to_bits().to_le_bytes())
                        .collect(),
                ),
                Arg::Bools(list) => (1, list.iter().map(|one| u8::from(*one)).collect()),
                Arg::Bytes(list) => (1, list.clone()),
                // Numbers that no call gives: quiet NaNs with the place in them.
                Arg::Room(room) => {
                    let marked = (0..*room as u64).map(|place| 0x7ff9_5eed_0000_0000 | place);
                    (8, marked.flat_map(u64::to_le_bytes).collect())
                }
                Arg::ByteRoom(room) => (1, (0..*room).map(|place| 0x80 | mark(place)).collect()),
            };
            let taken = before.len();
            assert!(taken + MARGIN <= ROOM, "an argument is too long");
            let start = unsafe {
                if at_the_end {
                    slot.0.add(ROOM - taken)
                } else {
                    slot.0
                }
            };
            let laid = Laid {
                number,
                size,
                start,
                length: if width == 0 { 0 } else { taken / width },
                width,
                before,
            };
            unsafe {
                std::ptr::copy_nonoverlapping(laid.before.as_ptr(), start, taken);
                let (margin, sign) = laid.margin(at_the_end);
                for place in 0..MARGIN {
                    *margin.offset(sign * place as isize) = mark(place);
                }
            }
            laid
        }

        /// The margin's first place, which is beside the list, and the way on.
        fn margin(&self, at_the_end: bool) -> (*mut u8, isize) {
            unsafe {
                if at_the_end {
                    (self.start.sub(1), -1)
                } else {
                    (self.start.add(self.before.len()), 1)
                }
            }
        }

        fn now(&self) -> &[u8] {
            unsafe { std::slice::from_raw_parts(self.start, self.before.len()) }
        }

        fn margin_kept(&self, at_the_end: bool) -> bool {
            let (margin, sign) = self.margin(at_the_end);
            (0..MARGIN).all(|place| unsafe { *margin.offset(sign * place as isize) == mark(place) })
        }
    }

    /// Makes the call. Where a list that is read, a margin, or a place behind
    /// what is written is not as it was, the error says so; how much should be
    /// written is `written`.
    pub fn run(
        call: &Call,
        at_the_end: bool,
        written: usize,
        meddle: Meddle,
    ) -> Result<Outcome, String> {
        SLOTS.with(|slots| {
            let slots = slots.borrow();
            let mut frame = Frame::new(call, at_the_end, &slots);
            UNDER_WAY.store((call as *const Call).cast_mut(), Ordering::SeqCst);
            unsafe { alarm(PATIENCE) };
            let words = (call.table().call)(&mut frame);
            unsafe { alarm(0) };
            UNDER_WAY.store(std::ptr::null_mut(), Ordering::SeqCst);
            frame.meddle(meddle, at_the_end, written);
            let mut out = Vec::new();
            for (laid, (what, _)) in frame.laid.iter().zip(call.table().arguments) {
                if laid.width == 0 {
                    continue;
                }
                if !laid.margin_kept(at_the_end) {
                    return Err(format!("{what}: a place beside the list was written"));
                }
                let lent_to_write = *what == "out";
                let kept_from = if lent_to_write {
                    written.min(laid.length)
                } else {
                    0
                } * laid.width;
                if laid.now()[kept_from..] != laid.before[kept_from..] {
                    let place = (kept_from..laid.before.len())
                        .find(|at| laid.now()[*at] != laid.before[*at])
                        .map_or(0, |at| at / laid.width);
                    return Err(format!(
                        "{what}: place {place} of {} was written",
                        laid.length
                    ));
                }
                if lent_to_write {
                    out = laid.now()[..kept_from]
                        .chunks_exact(laid.width)
                        .map(|bytes| {
                            let mut word = [0; 8];
                            word[..bytes.len()].copy_from_slice(bytes);
                            u64::from_le_bytes(word)
                        })
                        .collect();
                }
            }
            Ok(Outcome {
                words,
                written: out,
            })
        })
    }

    impl Frame {
        fn meddle(&self, meddle: Meddle, at_the_end: bool, written: usize) {
            match meddle {
                Meddle::Nothing => {}
                Meddle::Write(place, element) => {
                    let laid = &self.laid[place];
                    let outside = element < 0 || element as usize >= laid.length;
                    // The closed page is on one side; the margin on the other.
                    let at = if outside && at_the_end {
                        -1
                    } else if outside {
                        laid.before.len() as isize
                    } else {
                        element * laid.width as isize
                    };
                    unsafe { *laid.start.offset(at) ^= 0x55 };
                }
                Meddle::Unwritten(place) => {
                    let laid = &self.laid[place];
                    if written > 0 && written <= laid.length {
                        let at = (written - 1) * laid.width;
                        for byte in at..at + laid.width {
                            unsafe { *laid.start.add(byte) = laid.before[byte] };
                        }
                    }
                }
            }
        }
    }
}
