//! The oracle: what document 01 says the program prints, with the Rust itself
//! as witness. See oracle/README.md.

#[cfg_attr(not(calls), allow(dead_code))]
mod abi;
mod baskets;
#[cfg(plain)]
mod bench;
#[cfg_attr(not(calls), allow(dead_code))]
mod call_compare;
mod call_inputs;
mod call_rules;
#[cfg_attr(not(calls), allow(dead_code))]
mod call_slips;
mod calls;
mod confront;
mod counts;
mod cut;
mod draws;
mod elementary;
mod generate;
mod judge;
mod numbers;
mod runner;
mod shim;
mod slips;

/// Where one body of the Rust looks for its error type.
mod utils {
    pub mod errors {
        pub use crate::shim::QSError;
    }
}

use std::io::{Read, Write};

const USAGE: &str = "\
oracle judge [--detail] [--rust] [--slip NAME] < FILE   what the program prints
oracle slips                                            the names of the slips
oracle call NAME ARGUMENT..                             one call of the Rust
oracle vectors NAME COUNT SEED                          calls with random arguments
oracle calls                                            the names of the calls
oracle counts < FILE                                    what the Rust asks for in each job of kinds 5, 6, 7, 10 and 11
oracle fixed-calls < LIST                               a list of calls of the library with its outcomes anew
";

fn main() {
    let args: Vec<String> = std::env::args().skip(1).collect();
    let code = match args.first().map(String::as_str) {
        Some("judge") => judge_file(&args[1..]),
        Some("slips") => list_slips(),
        Some("call") => calls::call(&args[1..]),
        Some("vectors") => calls::vectors(&args[1..]),
        Some("calls") => calls::list(),
        Some("counts") => counts::main(),
        Some("library-calls" | "library-call" | "library-slips" | "library-names" | "fixed-calls") => {
            call_compare::main(&args)
        }
        #[cfg(plain)]
        Some("bench") => bench::main(false, &args[1..]),
        #[cfg(plain)]
        Some("bench-basket") => bench::main(true, &args[1..]),
        None | Some("help" | "--help") => {
            eprint!("{USAGE}");
            2
        }
        Some(_) => runner::main(&args).code(),
    };
    std::process::exit(code);
}

/// Whatever the runner's main gives, as an exit code.
trait Code {
    fn code(self) -> i32;
}
impl Code for i32 {
    fn code(self) -> i32 {
        self
    }
}
impl Code for () {
    fn code(self) -> i32 {
        0
    }
}

fn judge_file(args: &[String]) -> i32 {
    let mut detail = false;
    let mut rust = false;
    let mut slip = None;
    let mut args = args.iter();
    while let Some(arg) = args.next() {
        match arg.as_str() {
            "--detail" => detail = true,
            "--rust" => rust = true,
            "--slip" => slip = args.next().map(String::as_str),
            _ => {
                eprint!("{USAGE}");
                return 2;
            }
        }
    }
    let mut bytes = Vec::new();
    std::io::stdin().read_to_end(&mut bytes).expect("standard input can be read");
    if rust {
        return what_the_rust_does(&bytes);
    }
    let outcome = judge::judge(&bytes, slip);
    let text = if detail { outcome.detail } else { outcome.printed };
    std::io::stdout().write_all(&text).expect("standard output can be written");
    0
}

/// `judge --rust`: for each job what the Rust returns when it is asked as the
/// job stands, beside document 01's answer. For a fit that is the solver's
/// sigma, its status, and what `calibrate_to_instruments` keeps of it: sigma
/// and diagonal.
fn what_the_rust_does(bytes: &[u8]) -> i32 {
    let Some(run) = judge::read(bytes, slips::Slip::Nothing) else {
        println!("refused 1");
        return 0;
    };
    let outcome = judge::judge(bytes, None);
    std::panic::set_hook(Box::new(|_| {}));
    for (number, job) in run.jobs.iter().enumerate() {
        if job.kind == 13 {
            println!("{number} 13 {} rust has no such path", outcome.jobs[number].1);
            continue;
        }
        let result = std::panic::catch_unwind(|| confront::rust(&run, job));
        let mut text = match result {
            Ok(Ok(values)) => format!("serves{}", words(&values)),
            Ok(Err(error)) => format!("refuses: {error}"),
            Err(_) => "panics".to_string(),
        };
        if let (8..=11, true) = (job.kind, text.starts_with("serves")) {
            text += &confront::rust_fit(&run, job);
        }
        println!("{number} {} {} rust {text}", job.kind, outcome.jobs[number].1);
    }
    0
}

pub fn words(values: &[f64]) -> String {
    values.iter().map(|value| format!(" {:016x}", value.to_bits())).collect()
}

fn list_slips() -> i32 {
    for ((name, text, _), (_, shows)) in slips::SLIPS.iter().zip(slips::SHOWS) {
        let shows = format!("{shows:?}").to_lowercase();
        println!("{name} [{shows}] {text}");
    }
    0
}
