//! The library against the judge and the Rust, call by call.
//!
//! - `library-calls N SEED [NAME ..]` compares N random calls, of these functions
//!   alone where some are named;
//! - `library-call LINE` makes the call of a line and compares it;
//! - `library-slips N SEED` counts which slips N calls tell apart;
//! - `library-names` prints the names of the functions;
//! - `fixed-calls` reads a list of calls and prints it with their outcomes anew.
//!
//! The first three need the library: `oracle/calls` builds and runs them.

use crate::abi::{self, Call, Kind, Outcome, FUNCTIONS};
use crate::call_inputs::Inputs;
use crate::call_rules;
#[cfg(calls)]
use crate::call_slips::{self, Slip};
use std::collections::BTreeMap;
use std::fmt::Write;
use std::panic::{catch_unwind, AssertUnwindSafe};

/// How many differences are shown.
#[cfg(calls)]
const SHOWN: u64 = 10;

/// How often a call is drawn again until one is served.
const TRIES: u32 = 60;

const USAGE: &str = "usage:
  oracle/calls [ARCHIVE] N SEED [NAME ..] compare N random calls of the library
  oracle/calls [ARCHIVE] --one LINE       make the call of a line again
  oracle/calls [ARCHIVE] --slips [N SEED] the slips that N calls tell apart";

/// Gives the exit code: 0 all well, 1 a difference, 2 a wrong call.
pub fn main(args: &[String]) -> i32 {
    let words: Vec<&str> = args.iter().map(String::as_str).collect();
    #[cfg(calls)]
    let number = |word: &str| {
        word.parse::<u64>()
            .map_err(|_| format!("not a number: {word}\n{USAGE}"))
    };
    #[cfg(calls)]
    let two = |one: &str, other: &str| {
        number(one).and_then(|one| number(other).map(|other| (one, other)))
    };
    // What the judge says when it falls over is told by the comparison.
    std::panic::set_hook(Box::new(|_| {}));
    let done = match words.as_slice() {
        #[cfg(calls)]
        ["library-calls", count, seed, names @ ..] => two(count, seed).and_then(|(count, seed)| {
            let only = names
                .iter()
                .map(|name| abi::named(name).ok_or(format!("no function is called {name}")));
            Ok(compare(
                count,
                seed,
                only.collect::<Result<Vec<usize>, String>>()?,
            ))
        }),
        #[cfg(calls)]
        ["library-call", "-"] => std::io::read_to_string(std::io::stdin())
            .map_err(|error| format!("standard input: {error}"))
            .and_then(|line| one(&line)),
        #[cfg(calls)]
        ["library-call", line @ ..] => one(&line.join(" ")),
        #[cfg(calls)]
        ["library-slips", count, seed] => two(count, seed).map(|(count, seed)| slips(count, seed)),
        ["library-names"] => {
            FUNCTIONS.iter().for_each(|row| println!("{}", row.name));
            Ok(0)
        }
        ["fixed-calls"] => std::io::read_to_string(std::io::stdin())
            .map_err(|error| format!("standard input: {error}"))
            .and_then(|list| fixed(&list)),
        _ => Err(USAGE.to_string()),
    };
    done.unwrap_or_else(|message| {
        eprintln!("{message}");
        2
    })
}

/// What must come out, or why the oracle does not know.
fn expected(call: &Call) -> Result<Outcome, String> {
    match catch_unwind(AssertUnwindSafe(|| call_rules::expected(call))) {
        Ok(Ok(outcome)) => Ok(outcome),
        Ok(Err(what)) => Err(format!("the judge and the Rust disagree: {what}")),
        Err(fell) => {
            let text = fell.downcast_ref::<String>().cloned();
            let text = text.or_else(|| fell.downcast_ref::<&str>().map(|text| text.to_string()));
            Err(format!(
                "the oracle fell over: {}",
                text.unwrap_or_default()
            ))
        }
    }
}

/// The answer's number; a ground function serves always.
fn answer(call: &Call, outcome: &Outcome) -> u64 {
    if call.table().is_ground() {
        0
    } else {
        outcome.words[0]
    }
}

/// The calls of a seed with what must come out. Of each function every second
/// call at least is served: where that is due, refused ones are drawn again.
struct Stream {
    inputs: Inputs,
    tried: Vec<u64>,
    served: Vec<u64>,
    answers: BTreeMap<(usize, u64), u64>,
    /// The functions that are called; all where there is none.
    only: Vec<usize>,
    /// Calls by what rule 1 met in them, and served ones with a list at its limit.
    lengths: BTreeMap<String, u64>,
    /// Fits that converged and fits that did not: single ones, of baskets, bumped.
    fits: [[u64; 2]; 3],
}

impl Stream {
    fn new(seed: u64) -> Stream {
        Stream {
            inputs: Inputs::new(seed),
            tried: vec![0; FUNCTIONS.len()],
            served: vec![0; FUNCTIONS.len()],
            answers: BTreeMap::new(),
            only: Vec::new(),
            lengths: BTreeMap::new(),
            fits: [[0; 2]; 3],
        }
    }

    /// Counts the served fits, those of baskets and the bumped ones apart.
    fn count_fits(&mut self, call: &Call, outcome: &Outcome) {
        if outcome.words[0] != 0 {
            return;
        }
        let mut at = 0;
        for &(field, count, _) in call.table().fields {
            let words = &outcome.words[at..at + count];
            at += count;
            let (counts, places) = match field {
                "converged" => (&mut self.fits[0], 1),
                "statuses" => (&mut self.fits[1], outcome.words[1] as usize),
                "bumped_statuses" => (&mut self.fits[2], outcome.words[1] as usize),
                _ => continue,
            };
            for word in &words[..places] {
                counts[usize::from(*word == 0)] += 1;
            }
        }
    }

    /// Counts what there is about the lengths of a call's lists.
    fn count_lengths(&mut self, call: &Call, answer: u64) {
        let mut add = |what: String| *self.lengths.entry(what).or_default() += 1;
        let mut paired = true;
        for (places, limit) in call_rules::groups(call.name()) {
            let name = match call.table().arguments[places[0]].0 {
                "times" => "points",
                "payments" => "coupons",
                "normals" => "entries",
                "coefficients" => "terms",
                name => name,
            };
            let longest = places
                .iter()
                .map(|place| call.length(*place))
                .max()
                .unwrap_or(0);
            paired &= places.iter().all(|place| call.length(*place) == longest);
            if longest > *limit && paired {
                add(format!("{longest} {name}"));
            } else if longest == *limit && answer == 0 {
                add(format!("served with {longest} {name}"));
            }
        }
        if !paired {
            add("unpaired lists".to_string());
        }
        let pricer = matches!(call_rules::kind(call.name()), Some(6 | 7));
        if pricer && answer == 0 && call.length(1) == 0 {
            add("swaption values served without pillars".to_string());
        }
        if call.name() == "generate_published" && answer == 0 && call.length(5) == 0 {
            add("published paths served without a grid".to_string());
        }
        if call.name() == "draws" {
            match call.length(1) {
                length @ (0 | 1 | 1023..=1025) => add(format!("lists for {length} draws")),
                1026.. => add("lists for more draws".to_string()),
                _ => {}
            }
        }
        if call_rules::listed(call.name()).is_some() && call.length(5) == 0 {
            match answer {
                0 => add("seeded paths served without a grid".to_string()),
                14 => add("zero seeds without a grid".to_string()),
                _ => {}
            }
        }
        let (room, needed) = match call.name() {
            "transition_variances" => (call.length(5), call.size(3)),
            name if call_rules::is_path(name) => (call.length(7), call.length(5) as u64),
            "piece" => (call.length(2), call_rules::PIECE_BYTES as u64),
            _ => return,
        };
        if call.name() == "transition_variances" && needed > 1024 {
            add("over 1024 steps".to_string());
        } else if (room as u64) < needed {
            add("outputs too short".to_string());
        } else if room as u64 == needed {
            add("outputs just long enough".to_string());
        }
    }

    fn next(&mut self) -> (Call, Result<Outcome, String>) {
        let function = match self.only.as_slice() {
            [] => self.inputs.function(),
            only => only[(self.tried.iter().sum::<u64>() % only.len() as u64) as usize],
        };
        let due = 2 * self.served[function] <= self.tried[function];
        let mut tries = 0;
        loop {
            let call = self.inputs.call(function, due);
            let outcome = expected(&call);
            tries += 1;
            let answer = outcome.as_ref().map(|outcome| answer(&call, outcome));
            if due && tries < TRIES && matches!(answer, Ok(1..)) {
                continue;
            }
            self.tried[function] += 1;
            if let Ok(answer) = answer {
                self.count_lengths(&call, answer);
                if let Ok(outcome) = &outcome {
                    self.count_fits(&call, outcome);
                }
                self.served[function] += u64::from(answer == 0);
                *self.answers.entry((function, answer)).or_default() += 1;
            }
            return (call, outcome);
        }
    }

    /// Functions by answers.
    fn table(&self) -> String {
        let mut text = format!("{:30} |", "call");
        for answer in 0..=15 {
            let head = if answer == 0 {
                "served".to_string()
            } else {
                answer.to_string()
            };
            write!(text, " {head:>7}").unwrap();
        }
        text.push('\n');
        for (function, row) in FUNCTIONS.iter().enumerate() {
            if !self.only.is_empty() && !self.only.contains(&function) {
                continue;
            }
            write!(text, "{:30} |", row.name).unwrap();
            for answer in 0..=15 {
                match self.answers.get(&(function, answer)) {
                    Some(count) => write!(text, " {count:>7}").unwrap(),
                    None if can_give(row.name).contains(&answer) => text += "       0",
                    None => text += "       .",
                }
            }
            text.push('\n');
        }
        text
    }
}

/// The answers that a call can give.
fn can_give(name: &str) -> &'static [u64] {
    match name {
        "B" => &[0, 2, 3, 5, 13],
        "zcb_price_volatility" | "short_rate_variance" => &[0, 2, 3, 5, 6, 13],
        "A" | "zcb_price" | "theta" | "caplet_price" | "floorlet_price" | "bond_put_price"
        | "bond_call_price" => &[0, 1, 2, 3, 4, 5, 6, 8, 13],
        "forward_rate_from_curve" => &[0, 1, 2, 4, 5, 6, 8, 13],
        "d1_d2" | "black_call" | "black_put" | "bachelier_call" => &[0, 2, 5, 6, 13],
        "swap_annuity_from_curve" => &[0, 1, 2, 4, 6, 8, 13],
        // A sigma that passed rule 2 is finite.
        "volatility" | "pillars_reached" => &[0, 1, 2, 4, 5, 6, 7],
        "hull_white_piecewise_variance" => &[0, 1, 2, 4, 5, 6, 13],
        "transition_variances" => &[0, 1, 2, 3, 4, 5, 6, 7, 13],
        "swaption_price" => &[0, 1, 2, 3, 4, 5, 6, 8, 9, 10, 13],
        "payer_swaption_value" | "receiver_swaption_value" => {
            &[0, 1, 2, 3, 4, 5, 6, 7, 8, 9, 10, 11, 13]
        }
        "fit_caplet_black" | "fit_caplet_normal" | "calibrate_to_instruments" => {
            &[0, 1, 2, 3, 4, 5, 6, 8, 9, 12, 13]
        }
        "fit_swaption_black" | "fit_swaption_normal" => &[0, 1, 2, 3, 4, 5, 6, 7, 8, 9, 10, 12, 13],
        "find_critical_rate" => &[0, 1, 2, 9, 10, 13],
        "implicit_critical_rate" => &[0, 1, 2, 9, 10, 11, 13],
        "generate" => &[0, 1, 2, 3, 4, 5, 6, 7, 8, 13],
        "generate_published" => &[0, 1, 2, 3, 4, 5, 6, 7, 8, 13, 15],
        "draws" => &[0, 1, 14],
        "generate_seeded" => &[0, 1, 2, 3, 4, 5, 6, 7, 8, 13, 14],
        "generate_published_seeded" => &[0, 1, 2, 3, 4, 5, 6, 7, 8, 13, 14, 15],
        "piece" => &[0, 1],
        _ => &[0],
    }
}

// ------------------------------------------------------------------- compare

/// What is wrong with an outcome, in words; nothing where it is right.
#[cfg(calls)]
fn difference(call: &Call, right: &Outcome, found: &Result<Outcome, String>) -> Option<String> {
    let found = match found {
        Ok(found) => found,
        Err(what) => return Some(what.clone()),
    };
    let ground = call.table().is_ground();
    let mut at = 0;
    for &(field, count, _) in call.table().fields {
        for place in 0..count {
            let (one, other) = (right.words[at], found.words[at]);
            at += 1;
            if one != other && !(ground && abi::alike(one, other)) {
                let place = if count > 1 {
                    format!(" {place}")
                } else {
                    String::new()
                };
                return Some(format!(
                    "{field}{place}: {one:016x} expected, {other:016x} found"
                ));
            }
        }
    }
    let place =
        (0..right.written.len()).find(|place| right.written[*place] != found.written[*place])?;
    Some(format!(
        "out {place}: {:016x} expected, {:016x} found",
        right.written[place], found.written[place]
    ))
}

#[cfg(calls)]
fn show(call: &Call, right: &Outcome, found: &Result<Outcome, String>, what: &str) {
    println!("{what}");
    println!("  {}", call.text());
    println!("  expected {}", call.outcome_text(right));
    match found {
        Ok(found) => println!("  found    {}", call.outcome_text(found)),
        Err(_) => println!("  found    no outcome that counts"),
    }
}

/// Makes the call with its lists at both sides of a closed page in turn.
#[cfg(calls)]
fn made(call: &Call, right: &Outcome, at_the_end: bool) -> Result<Outcome, String> {
    abi::run(call, at_the_end, right.written.len(), abi::Meddle::Nothing)
}

#[cfg(calls)]
fn compare(count: u64, seed: u64, only: Vec<usize>) -> i32 {
    let mut stream = Stream::new(seed);
    stream.only = only;
    let (mut differ, mut unknown) = (0, 0);
    for index in 0..count {
        let (call, right) = stream.next();
        let right = match right {
            Ok(right) => right,
            Err(what) => {
                unknown += 1;
                if unknown <= SHOWN {
                    println!("call {index} of seed {seed}: {what}\n  {}", call.text());
                }
                continue;
            }
        };
        let found = made(&call, &right, index % 2 == 0);
        if let Some(what) = difference(&call, &right, &found) {
            differ += 1;
            if differ <= SHOWN {
                show(
                    &call,
                    &right,
                    &found,
                    &format!("call {index} of seed {seed}: {what}"),
                );
            }
        }
    }
    print!("{}", stream.table());
    let lengths: Vec<String> = stream
        .lengths
        .iter()
        .map(|(what, count)| format!("{what} {count}"))
        .collect();
    println!("lengths: {}", lengths.join(", "));
    let [single, basket, bumped] = stream.fits;
    println!(
        "fits converged and unconverged: {} and {}, in baskets {} and {}, bumped {} and {}",
        single[0], single[1], basket[0], basket[1], bumped[0], bumped[1]
    );
    let mut wrong = differ + unknown > 0;
    let mut missing = Vec::new();
    for (function, row) in FUNCTIONS.iter().enumerate() {
        if !stream.only.is_empty() && !stream.only.contains(&function) {
            continue;
        }
        if stream.tried[function] == 0 {
            println!("never called: {}", row.name);
            wrong = true;
        } else if stream.served[function] == 0 {
            println!("never served: {}", row.name);
            wrong = true;
        } else if 2 * stream.served[function] < stream.tried[function] {
            println!("served less than every second time: {}", row.name);
            wrong = true;
        }
        for answer in can_give(row.name) {
            if !stream.answers.contains_key(&(function, *answer)) {
                missing.push(format!("{} {answer}", row.name));
            }
        }
        for ((_, answer), _) in stream.answers.range((function, 0)..=(function, 99)) {
            if !can_give(row.name).contains(answer) {
                println!("an answer that cannot be: {} {answer}", row.name);
                wrong = true;
            }
        }
    }
    if !missing.is_empty() {
        println!("answers not seen: {}", missing.join(", "));
    }
    if unknown > 0 {
        println!("{unknown} calls that the oracle cannot judge");
    }
    let tried: u64 = stream.tried.iter().sum();
    let functions = stream.tried.iter().filter(|tried| **tried > 0).count();
    let served: u64 = stream.served.iter().sum();
    println!("{tried} calls of {functions} functions, {served} served, {differ} differ");
    i32::from(wrong)
}

/// A call from its line.
#[cfg(calls)]
fn one(line: &str) -> Result<i32, String> {
    let call = abi::parse(line, &abi::Lists::new())?;
    let right = expected(&call)?;
    let mut wrong = false;
    for at_the_end in [true, false] {
        let found = made(&call, &right, at_the_end);
        let what = difference(&call, &right, &found);
        wrong |= what.is_some();
        if at_the_end || what.is_some() {
            show(
                &call,
                &right,
                &found,
                what.as_deref().unwrap_or("no difference"),
            );
        }
    }
    Ok(i32::from(wrong))
}

// --------------------------------------------------------------------- slips

/// Whether the comparison tells a library behind this slip from a right one by
/// this call.
#[cfg(calls)]
fn tells(call: &Call, right: &Outcome, at_the_end: bool, slip: Slip) -> bool {
    let written = right.written.len();
    let run = |call: &Call, meddle| abi::run(call, at_the_end, written, meddle);
    match slip {
        Slip::Judge(name) => call_slips::judge_differs(call, right, name),
        Slip::Exchanged(..) | Slip::LastDropped(_) | Slip::OneMore(_) => {
            call_slips::passed_on(call, slip).is_some_and(|other| {
                difference(call, right, &run(&other, abi::Meddle::Nothing)).is_some()
            })
        }
        Slip::InputWritten(_)
        | Slip::WrittenOnRefusal
        | Slip::WrittenBehind
        | Slip::WrittenBeside
        | Slip::LastUnwritten => {
            let served = answer(call, right) == 0;
            let meddle = call_slips::meddle(call, written, served, slip);
            meddle != abi::Meddle::Nothing && difference(call, right, &run(call, meddle)).is_some()
        }
        _ => {
            let Ok(found) = run(call, abi::Meddle::Nothing) else {
                return false;
            };
            difference(
                call,
                right,
                &Ok(call_slips::handed_back(call, &found, slip)),
            )
            .is_some()
        }
    }
}

#[cfg(calls)]
fn slips(count: u64, seed: u64) -> i32 {
    let all = call_slips::all();
    let mut told: Vec<Option<u64>> = vec![None; all.len()];
    let mut stream = Stream::new(seed);
    for index in 0..count {
        let (call, Ok(right)) = stream.next() else {
            continue;
        };
        for (place, (function, slip)) in all.iter().enumerate() {
            if *function == call.function && told[place].is_none() {
                let tells = catch_unwind(AssertUnwindSafe(|| {
                    tells(&call, &right, index % 2 == 0, *slip)
                }));
                if tells.unwrap_or(true) {
                    told[place] = Some(index);
                }
            }
        }
    }
    let latest = told
        .iter()
        .zip(&all)
        .filter_map(|(at, slip)| at.map(|at| (at, slip)))
        .max_by_key(|one| one.0);
    if let Some((at, (function, slip))) = latest {
        println!(
            "the last told, by call {at}: {}",
            call_slips::described(*function, *slip)
        );
    }
    let mut left = 0;
    for (place, (function, slip)) in all.iter().enumerate() {
        if told[place].is_none() {
            left += 1;
            println!("not told: {}", call_slips::described(*function, *slip));
        }
    }
    for (function, row) in FUNCTIONS.iter().enumerate() {
        if !all.iter().any(|slip| slip.0 == function) {
            left += 1;
            println!("no slip of {}", row.name);
        }
    }
    println!(
        "{} slips of {} functions, {} told by {count} calls",
        all.len(),
        FUNCTIONS.len(),
        all.len() - left
    );
    i32::from(left > 0)
}

// ------------------------------------------------------------ the fixed lists

/// The calls of a list, each with the outcome that it must have. A list that was made
/// before a function was there goes on declaring those that it declares.
fn fixed(list: &str) -> Result<i32, String> {
    let mut lists = abi::Lists::new();
    let declared: Vec<&str> = list
        .lines()
        .filter_map(|line| line.strip_prefix("function ")?.split(' ').next())
        .collect();
    let mut text = declarations(&declared);
    for line in list.lines() {
        if line.starts_with("function ") {
            continue;
        }
        if line.starts_with('#') || abi::parse_list(line, &mut lists).is_some() {
            text += line;
        } else {
            let call = abi::parse(line, &lists)?;
            let right = expected(&call).map_err(|what| format!("{line}: {what}"))?;
            let asked = line.split(" ->").next().unwrap_or(line);
            write!(text, "{asked} -> {}", call.outcome_text(&right)).unwrap();
        }
        text.push('\n');
    }
    print!("{text}");
    Ok(0)
}

/// What these functions take and give, or all where none is named, for a reader that has
/// no table of them.
fn declarations(named: &[&str]) -> String {
    let mut text = String::new();
    for row in FUNCTIONS {
        if !named.is_empty() && !named.contains(&row.name) {
            continue;
        }
        write!(text, "function {}", row.name).unwrap();
        for (argument, kind) in row.arguments {
            let kind = match kind {
                Kind::Number => "number",
                Kind::Size => "size",
                Kind::Seed => "seed",
                Kind::Floats => "floats",
                Kind::Bools => "bools",
                Kind::Bytes => "bytes",
                Kind::Room => "room",
                Kind::ByteRoom => "byte_room",
            };
            write!(text, " {argument}:{kind}").unwrap();
        }
        text += " ->";
        for (field, count, float) in row.fields {
            let kind = match (*field, float) {
                (_, true) => "f64",
                ("converged", false) => "bool",
                (_, false) => "u64",
            };
            write!(text, " {field}:{kind}:{count}").unwrap();
        }
        text.push('\n');
    }
    text
}
