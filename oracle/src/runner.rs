//! The comparison runner: generated files through a program and the judge.
//!
//! - `generate SEED INDEX [--no-pillars|--month-end|--paths]` writes one run file;
//! - `compare PROGRAM N SEED [--detail] [--no-pillars|--month-end|--paths] [--keep DIR]`
//!   compares a program with the judge on N files, none of which has pillars, or all of
//!   which have curves of month ends, or are about paths, if so asked; a PROGRAM of `-` is
//!   none, and the judge is held to the Rust alone;
//! - `sensitivity N SEED` tells the judge's slips apart from the judge.

use crate::generate::{generate, Files};
use crate::judge;
use crate::slips::{Shows, SHOWS};
use std::collections::{BTreeMap, BTreeSet};
use std::io::{Read, Write};
use std::panic::{catch_unwind, AssertUnwindSafe};
use std::path::{Path, PathBuf};
use std::process::{Child, Command, Stdio};
use std::sync::mpsc;
use std::thread;
use std::time::{Duration, Instant};

/// How long a program may work on one file.
const PATIENCE: Duration = Duration::from_secs(60);

/// How many differences are kept as files.
const KEPT: usize = 10;

const USAGE: &str = "usage:
  oracle generate SEED INDEX [--no-pillars|--month-end|--paths] > FILE
  oracle compare PROGRAM N SEED [--detail] [--no-pillars|--month-end|--paths] [--keep DIR]
  oracle sensitivity N SEED";

/// Runs a subcommand and gives the exit code: 0 all well, 1 a difference,
/// 2 a wrong call.
pub fn main(args: &[String]) -> i32 {
    let words: Vec<&str> = args.iter().map(String::as_str).collect();
    let done = match words.as_slice() {
        ["generate", seed, index] => generate_command(seed, index, Files::All),
        ["generate", seed, index, "--no-pillars"] => generate_command(seed, index, Files::NoPillars),
        ["generate", seed, index, "--month-end"] => generate_command(seed, index, Files::MonthEnds),
        ["generate", seed, index, "--paths"] => generate_command(seed, index, Files::Paths),
        ["compare", program, count, seed, options @ ..] => {
            compare_command(program, count, seed, options)
        }
        ["sensitivity", count, seed] => sensitivity_command(count, seed),
        _ => Err(USAGE.to_string()),
    };
    done.unwrap_or_else(|message| {
        eprintln!("{message}");
        2
    })
}

fn number(word: &str) -> Result<u64, String> {
    word.parse().map_err(|_| format!("not a number: {word}\n{USAGE}"))
}

fn failed(what: &str, path: &Path, error: std::io::Error) -> String {
    format!("{what} {}: {error}", path.display())
}

// ---------------------------------------------------------------------------
// generate
// ---------------------------------------------------------------------------

fn generate_command(seed: &str, index: &str, files: Files) -> Result<i32, String> {
    let (bytes, category) = generate(number(seed)?, number(index)?, files);
    eprintln!("{category}");
    std::io::stdout().write_all(&bytes).map_err(|e| format!("standard output: {e}"))?;
    Ok(0)
}

// ---------------------------------------------------------------------------
// The judge
// ---------------------------------------------------------------------------

/// The judge's outcome, or None if the judge itself fell over.
fn judged(bytes: &[u8], slip: Option<&str>) -> Option<judge::Outcome> {
    catch_unwind(AssertUnwindSafe(|| judge::judge(bytes, slip))).ok()
}

/// The first line in which two texts differ, from 1, with both lines.
fn first_difference(expected: &[u8], found: &[u8]) -> Option<(usize, String, String)> {
    if expected == found {
        return None;
    }
    let expected: Vec<&[u8]> = expected.split(|&c| c == b'\n').collect();
    let found: Vec<&[u8]> = found.split(|&c| c == b'\n').collect();
    let show = |lines: &[&[u8]], i: usize| match lines.get(i) {
        Some(line) => String::from_utf8_lossy(line).into_owned(),
        None => "(nothing)".to_string(),
    };
    let longest = expected.len().max(found.len());
    (0..longest)
        .find(|&i| expected.get(i) != found.get(i))
        .map(|i| (i + 1, show(&expected, i), show(&found, i)))
}

// ---------------------------------------------------------------------------
// Running a program
// ---------------------------------------------------------------------------

/// What a program did with one file.
pub struct Run {
    pub output: Vec<u8>,
    /// Empty if the program ended well and wrote nothing to standard error.
    pub trouble: String,
}

/// Reads a pipe to its end in a thread of its own.
fn reader(mut pipe: impl Read + Send + 'static) -> mpsc::Receiver<Vec<u8>> {
    let (sender, receiver) = mpsc::channel();
    thread::spawn(move || {
        let mut bytes = Vec::new();
        let _ = pipe.read_to_end(&mut bytes);
        let _ = sender.send(bytes);
    });
    receiver
}

/// Waits for the child until the deadline, then ends it.
fn wait(child: &mut Child, deadline: Instant) -> String {
    loop {
        match child.try_wait() {
            Ok(Some(status)) if status.success() => return String::new(),
            Ok(Some(status)) => return format!("ended with {status}"),
            Ok(None) if Instant::now() < deadline => thread::sleep(Duration::from_millis(1)),
            Ok(None) => {
                let _ = child.kill();
                let _ = child.wait();
                return format!("still running after {} s", PATIENCE.as_secs());
            }
            Err(error) => return format!("cannot be waited for: {error}"),
        }
    }
}

/// Feeds a run file to a program through a pipe, in pieces of the given size.
pub fn run_program(program: &str, input: &[u8], piece: usize) -> Result<Run, String> {
    let mut child = Command::new(program)
        .stdin(Stdio::piped())
        .stdout(Stdio::piped())
        .stderr(Stdio::piped())
        .spawn()
        .map_err(|e| failed("cannot run", Path::new(program), e))?;
    let deadline = Instant::now() + PATIENCE;
    let pipes = (child.stdin.take(), child.stdout.take(), child.stderr.take());
    let (Some(mut stdin), Some(stdout), Some(stderr)) = pipes else {
        return Err("no pipes".to_string());
    };
    let data = input.to_vec();
    let writer = thread::spawn(move || {
        for part in data.chunks(piece) {
            // A program may stop reading early; that is its own affair.
            if stdin.write_all(part).is_err() {
                break;
            }
        }
    });
    let (output, errors) = (reader(stdout), reader(stderr));
    let output = output.recv_timeout(PATIENCE).unwrap_or_default();
    let mut trouble = wait(&mut child, deadline);
    let errors = errors.recv_timeout(Duration::from_secs(1)).unwrap_or_default();
    let _ = writer.join();
    if trouble.is_empty() && !errors.is_empty() {
        trouble = format!("standard error: {}", String::from_utf8_lossy(&errors));
    }
    Ok(Run { output, trouble })
}

// ---------------------------------------------------------------------------
// compare
// ---------------------------------------------------------------------------

/// Counts over the files of one comparison.
#[derive(Default)]
struct Tally {
    /// Jobs by kind and answer.
    jobs: BTreeMap<(u64, u32), u64>,
    /// Served fits by kind and convergence.
    fits: BTreeMap<(u64, bool), u64>,
    /// Files and differences by category.
    categories: BTreeMap<&'static str, (u64, u64)>,
    files: u64,
    /// Files whose layout was refused.
    refused: u64,
    unconverged: u64,
    unmoved: u64,
    between: u64,
    overflown: u64,
    differences: u64,
}

impl Tally {
    fn add(&mut self, category: &'static str, outcome: &judge::Outcome, different: bool) {
        self.files += 1;
        self.unconverged += u64::from(outcome.unconverged);
        self.unmoved += u64::from(outcome.unmoved);
        self.between += u64::from(outcome.between);
        self.overflown += u64::from(outcome.overflown);
        self.differences += u64::from(different);
        self.refused += u64::from(outcome.printed == b"refused 1\n");
        for &(kind, answer) in &outcome.jobs {
            *self.jobs.entry((kind, answer)).or_default() += 1;
        }
        for fit in served_fits(&outcome.printed) {
            *self.fits.entry(fit).or_default() += 1;
        }
        let entry = self.categories.entry(category).or_default();
        entry.0 += 1;
        entry.1 += u64::from(different);
    }
}

/// The kinds of the served fits in a printed answer, with their convergence.
fn served_fits(printed: &[u8]) -> Vec<(u64, bool)> {
    let text = String::from_utf8_lossy(printed);
    let mut fits = Vec::new();
    for line in text.lines().skip(1) {
        let fields: Vec<&str> = line.split(' ').collect();
        if let [_, kind @ ("8" | "9" | "10" | "11"), "0", _, note] = fields[..] {
            fits.push((kind.parse().unwrap_or(0), note != "0"));
        }
    }
    fits
}

/// A table of counts: a row a kind, a column an answer.
fn answer_table(jobs: &BTreeMap<(u64, u32), u64>) -> String {
    let answers: BTreeSet<u32> = jobs.keys().map(|k| k.1).collect();
    let kinds: BTreeSet<u64> = jobs.keys().map(|k| k.0).collect();
    let mut text = String::from("kind |");
    for answer in &answers {
        text += &format!(" {answer:>7}");
    }
    text.push('\n');
    text += &"-".repeat(6 + 8 * answers.len());
    text.push('\n');
    for &kind in &kinds {
        text += &format!("{kind:>4} |");
        for &answer in &answers {
            match jobs.get(&(kind, answer)) {
                Some(count) => text += &format!(" {count:>7}"),
                None => text += "       .",
            }
        }
        text.push('\n');
    }
    text
}

/// A table of the fits that got past the rules and lookups: a row a kind.
fn fit_table(tally: &Tally) -> String {
    let mut text = String::from("kind | converged unconverged");
    for answer in 9..=13 {
        text += &format!(" {answer:>8}");
    }
    text += "   worked\n";
    for kind in 8..=11 {
        let served = |state: bool| tally.fits.get(&(kind, state)).copied().unwrap_or(0);
        let refused = |answer: u32| tally.jobs.get(&(kind, answer)).copied().unwrap_or(0);
        text += &format!("{kind:>4} | {:>9} {:>11}", served(true), served(false));
        for answer in 9..=13 {
            text += &format!(" {:>8}", refused(answer));
        }
        let worked = served(true) + served(false) + (9..=13).map(refused).sum::<u64>();
        text += &format!(" {worked:>8}\n");
    }
    text
}

fn print_tally(tally: &Tally, seconds: f64) {
    println!("jobs by kind and answer");
    print!("{}", answer_table(&tally.jobs));
    println!();
    println!("fits past the rules and lookups");
    print!("{}", fit_table(tally));
    println!();
    println!("files by category (files, differences)");
    for (name, (files, differences)) in &tally.categories {
        println!("  {name:28} {files:>7} {differences:>7}");
    }
    println!();
    println!("files {}, layout refused {}", tally.files, tally.refused);
    println!("jobs {}", tally.jobs.values().sum::<u64>());
    println!("unconverged fits {}", tally.unconverged);
    println!("served in kinds 6 and 7 without pillars {}", tally.unmoved);
    println!("served with a factor between curve points {}", tally.between);
    println!("served in kind 13 beside a variance that is not finite {}", tally.overflown);
    let served: u64 = tally.jobs.iter().filter(|((_, answer), _)| *answer == 0).map(|(_, n)| n).sum();
    // Of kind 13 the walk alone is put to the Rust.
    let published = tally.jobs.get(&(13, 0)).copied().unwrap_or(0);
    println!("served and put to the Rust {}", served - published);
    println!("served in kind 13 by document 02 alone {published}");
    println!("refused and not put to it {}", tally.jobs.values().sum::<u64>() - served);
    println!("files per second {:.0}", tally.files as f64 / seconds.max(1e-9));
    println!("differences {}", tally.differences);
}

/// One comparison: the program, the judge's text to hold it to, and where
/// differences are kept.
struct Comparison<'a> {
    program: &'a str,
    detail: bool,
    keep: PathBuf,
    seed: u64,
    files: Files,
}

impl Comparison<'_> {
    /// The bytes that the program should print.
    fn expected<'o>(&self, outcome: &'o judge::Outcome) -> &'o [u8] {
        if self.detail {
            &outcome.detail
        } else {
            &outcome.printed
        }
    }

    /// What is wrong with a run, in words; empty if nothing is.
    fn complaint(&self, expected: &[u8], run: &Run) -> String {
        let mut text = String::new();
        if !run.trouble.is_empty() {
            text += &format!("program: {}\n", run.trouble);
        }
        if let Some((line, expected, found)) = first_difference(expected, &run.output) {
            text += &format!("line {line}\n  expected {expected}\n  found    {found}\n");
        }
        text
    }

    /// Keeps the file, both outputs and a description.
    fn keep(
        &self,
        index: u64,
        category: &str,
        bytes: &[u8],
        expected: &[u8],
        run: &Run,
        complaint: &str,
    ) -> Result<(), String> {
        std::fs::create_dir_all(&self.keep).map_err(|e| failed("cannot make", &self.keep, e))?;
        let mut text = format!("seed {} index {index} {category}\n{complaint}", self.seed);
        if let Some(job) = job_of_difference(expected, &run.output) {
            text += &describe_job(bytes, job);
            text += &self.shortened(index, bytes, job)?;
        }
        let stem = format!("{}-{index}", self.seed);
        write_file(&self.keep.join(format!("{stem}.run")), bytes)?;
        write_file(&self.keep.join(format!("{stem}.expected")), expected)?;
        write_file(&self.keep.join(format!("{stem}.found")), &run.output)?;
        write_file(&self.keep.join(format!("{stem}.txt")), text.as_bytes())?;
        eprintln!("{text}kept as {}/{stem}.*", self.keep.display());
        Ok(())
    }

    /// Tries the differing job alone and keeps that file if it differs too.
    fn shortened(&self, index: u64, bytes: &[u8], job: usize) -> Result<String, String> {
        let Some(short) = only_job(bytes, job) else {
            return Ok(String::new());
        };
        let Some(outcome) = judged(&short, None) else {
            return Ok(String::new());
        };
        let run = run_program(self.program, &short, short.len().max(1))?;
        if self.complaint(self.expected(&outcome), &run).is_empty() {
            return Ok("the job alone shows no difference\n".to_string());
        }
        let path = self.keep.join(format!("{}-{index}.job.run", self.seed));
        write_file(&path, &short)?;
        Ok(format!("the job alone, as {}, differs too\n", path.display()))
    }
}

pub fn write_file(path: &Path, bytes: &[u8]) -> Result<(), String> {
    std::fs::write(path, bytes).map_err(|e| failed("cannot write", path, e))
}

/// The job of the first differing line: the number at the start of that line,
/// or of the nearest line before it that begins with one.
fn job_of_difference(expected: &[u8], found: &[u8]) -> Option<usize> {
    let (line, _, _) = first_difference(expected, found)?;
    let text = String::from_utf8_lossy(expected);
    let lines: Vec<&str> = text.lines().take(line).collect();
    lines.iter().rev().find_map(|line| line.split(' ').next()?.parse().ok())
}

fn word_at(bytes: &[u8], place: usize) -> Option<usize> {
    let word = bytes.get(place..place + 4)?;
    Some(u32::from_le_bytes(word.try_into().ok()?) as usize)
}

/// The 40 bytes of a job.
fn job_record(bytes: &[u8], job: usize) -> Option<&[u8]> {
    let start = word_at(bytes, 40)?.checked_add(job.checked_mul(40)?)?;
    bytes.get(start..start + 40)
}

/// A job's kind and fields in words.
fn describe_job(bytes: &[u8], job: usize) -> String {
    let Some(record) = job_record(bytes, job) else {
        return String::new();
    };
    let mut words = record.chunks_exact(8).map(|w| u64::from_le_bytes(w.try_into().unwrap()));
    let mut text = format!("job {job} kind {}", words.next().unwrap_or(0));
    for word in words {
        text += &format!(", {:e} ({word:016x})", f64::from_bits(word));
    }
    text.push('\n');
    text
}

/// The same file with one job: the table's last entry is moved to it.
fn only_job(bytes: &[u8], job: usize) -> Option<Vec<u8>> {
    job_record(bytes, job)?;
    let start = word_at(bytes, 40)? + 40 * job;
    let mut short = bytes.to_vec();
    short[40..44].copy_from_slice(&(start as u32).to_le_bytes());
    short[44..48].copy_from_slice(&40u32.to_le_bytes());
    Some(short)
}

/// Where the program stands: differences are kept beside it.
fn default_keep() -> PathBuf {
    let beside = std::env::current_exe().ok().and_then(|p| p.parent().map(Path::to_path_buf));
    beside.unwrap_or_default().join("differences")
}

fn compare_command(
    program: &str,
    count: &str,
    seed: &str,
    options: &[&str],
) -> Result<i32, String> {
    let (count, seed) = (number(count)?, number(seed)?);
    let (keep, files) = (default_keep(), Files::All);
    let mut work = Comparison { program, detail: false, keep, seed, files };
    let mut options = options.iter();
    while let Some(&option) = options.next() {
        match (option, options.as_slice()) {
            ("--detail", _) => work.detail = true,
            ("--no-pillars", _) => work.files = Files::NoPillars,
            ("--month-end", _) => work.files = Files::MonthEnds,
            ("--paths", _) => work.files = Files::Paths,
            ("--keep", [folder, ..]) => {
                work.keep = PathBuf::from(folder);
                options.next();
            }
            _ => return Err(USAGE.to_string()),
        }
    }
    let start = Instant::now();
    let mut tally = Tally::default();
    for index in 0..count {
        compare_one(&work, index, &mut tally)?;
        if (index + 1) % 1000 == 0 {
            eprintln!("{} files, {} differences", index + 1, tally.differences);
        }
    }
    print_tally(&tally, start.elapsed().as_secs_f64());
    Ok(i32::from(tally.differences > 0))
}

/// Compares on one file.
fn compare_one(work: &Comparison, index: u64, tally: &mut Tally) -> Result<(), String> {
    let (bytes, category) = generate(work.seed, index, work.files);
    let Some(outcome) = judged(&bytes, None) else {
        eprintln!("seed {} index {index} {category}: the judge itself fell over", work.seed);
        tally.differences += 1;
        return Ok(());
    };
    if work.program == "-" {
        tally.add(category, &outcome, false);
        return Ok(());
    }
    // Now and then the file comes in small pieces.
    let piece = if index % 16 == 15 { 1000 } else { bytes.len().max(1) };
    let run = run_program(work.program, &bytes, piece)?;
    let expected = work.expected(&outcome);
    let complaint = work.complaint(expected, &run);
    if !complaint.is_empty() && tally.differences < KEPT as u64 {
        work.keep(index, category, &bytes, expected, &run, &complaint)?;
    }
    tally.add(category, &outcome, !complaint.is_empty());
    Ok(())
}

// ---------------------------------------------------------------------------
// sensitivity
// ---------------------------------------------------------------------------

/// Where a slip first showed: in what is printed, and in the detail.
#[derive(Clone, Copy, Default)]
struct Shown {
    printed: Option<(u64, &'static str)>,
    detail: Option<(u64, &'static str)>,
}

impl Shown {
    /// Whether a slip that can show did, and one that cannot did not.
    fn as_expected(&self, can: Shows) -> bool {
        match can {
            Shows::Printed => self.printed.is_some(),
            Shows::Detail => self.detail.is_some(),
            Shows::Never => self.printed.is_none() && self.detail.is_none(),
        }
    }

    fn describe(&self) -> (String, &'static str) {
        let place = |(index, category): (u64, &str)| format!("{index} {category}");
        match (self.printed, self.detail) {
            (Some(first), _) => (place(first), "printed"),
            (None, Some(first)) => (place(first), "detail"),
            (None, None) => ("-".to_string(), "none"),
        }
    }
}

/// Runs one slip on one file beside the true outcome.
fn try_slip(
    slip: &str,
    bytes: &[u8],
    truth: &judge::Outcome,
    place: (u64, &'static str),
    shown: &mut Shown,
) {
    let Some(outcome) = judged(bytes, Some(slip)) else {
        eprintln!("slip {slip} fell over at file {}", place.0);
        return;
    };
    if shown.detail.is_none() && outcome.detail != truth.detail {
        shown.detail = Some(place);
    }
    if shown.printed.is_none() && outcome.printed != truth.printed {
        shown.printed = Some(place);
    }
}

fn sensitivity_command(count: &str, seed: &str) -> Result<i32, String> {
    let (count, seed) = (number(count)?, number(seed)?);
    let mut shown = vec![Shown::default(); judge::SLIPS.len()];
    for index in 0..count {
        let left = shown.iter().filter(|s| s.printed.is_none()).count();
        if left == 0 {
            break;
        }
        if index > 0 && index % 1000 == 0 {
            eprintln!("{index} files, {left} slips not yet seen in print");
        }
        let (bytes, category) = generate(seed, index, Files::All);
        let Some(truth) = judged(&bytes, None) else {
            eprintln!("index {index} {category}: the judge itself fell over");
            return Ok(1);
        };
        for (&(slip, _, _), shown) in judge::SLIPS.iter().zip(&mut shown) {
            if shown.printed.is_none() {
                try_slip(slip, &bytes, &truth, (index, category), shown);
            }
        }
    }
    Ok(i32::from(!print_sensitivity(&shown)))
}

/// Prints the table of slips; true if each one is as expected.
fn print_sensitivity(shown: &[Shown]) -> bool {
    let mut well = true;
    println!("{:28} {:36} {:8} {:8}", "slip", "first file", "shown", "can show");
    for (&(slip, can), shown) in SHOWS.iter().zip(shown) {
        let (place, part) = shown.describe();
        let right = shown.as_expected(can);
        let mark = match (right, can, part) {
            (false, ..) => "  <-- not as expected",
            (true, Shows::Detail, "printed") => "  (in print too)",
            _ => "",
        };
        let can = format!("{can:?}").to_lowercase();
        println!("{slip:28} {place:36} {part:8} {can:8}{mark}");
        well &= right;
    }
    let printed = shown.iter().filter(|s| s.printed.is_some()).count();
    let detail = shown.iter().filter(|s| s.printed.is_none() && s.detail.is_some()).count();
    let none = shown.len() - printed - detail;
    println!("{} slips: {printed} printed, {detail} in detail alone, {none} not shown", shown.len());
    well
}
