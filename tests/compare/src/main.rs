//! Compares the proved monitor with the second program. Run it from the workspace by
//!
//!     cargo run --profile compare -p compare -- [--seed S] [--calls N] [--program PATH]
//!
//! The profile `compare` is `release` with overflow checks, so that an overflow in the second program is found and not hidden. What is
//! compared: scripts, through `target/bin/run_script` (or PATH) and the second script program; calls through the library, those for whole
//! shared pages and those by virtual address among them, on states of every kind; and histories, whose answers are held against the
//! ledger of demand 3 too. It prints how often each call gave each refusal, and 5 for each reason, and a last line like `1700000 calls,
//! seed 20, 0 differences, 165 cells and 112 of reasons reached`. The exit status is 0 if there was no difference and every refusal and
//! reason that can be given was met, 1 if not, and 2 if the run was asked for wrongly. Where there is a difference it prints the smallest
//! script or state that it finds for it. A run of a few thousand calls is too short to meet every refusal.

#![forbid(unsafe_code)]

use std::env;
use std::path::PathBuf;
use std::process::ExitCode;

use compare::monitor::{Proved, Second};
use compare::program::{built, child, second};
use compare::run::{run, CALLS, SEED};

struct Options {
    seed: u64,
    calls: u64,
    program: PathBuf,
}

fn main() -> ExitCode {
    let options = match options(env::args().skip(1)) {
        Ok(options) => options,
        Err(message) => {
            eprintln!("{message}\nusage: compare [--seed S] [--calls N] [--program PATH]");
            return ExitCode::from(2);
        }
    };
    let proved = |text: &[u8]| child(&options.program, text);
    let run = run(
        [&proved, &second],
        [&Proved, &Second],
        options.seed,
        options.calls,
    );
    print!("{}", run.printed);
    ExitCode::from(u8::from(!run.passed))
}

fn options(mut words: impl Iterator<Item = String>) -> Result<Options, String> {
    let mut options = Options {
        seed: SEED,
        calls: CALLS,
        program: built(),
    };
    while let Some(word) = words.next() {
        let value = words
            .next()
            .ok_or_else(|| format!("{word} needs a value"))?;
        let number = || value.parse().map_err(|_| format!("{value} is no number"));
        match word.as_str() {
            "--seed" => options.seed = number()?,
            "--calls" => options.calls = number()?,
            "--program" => options.program = PathBuf::from(&value),
            _ => return Err(format!("{word} is no option")),
        }
    }
    if !options.program.is_file() {
        return Err(format!(
            "{} is not there: run `./skorbilek build`",
            options.program.display()
        ));
    }
    Ok(options)
}
