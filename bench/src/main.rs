//! Measures the proved library, through its Rust bindings, against an independent implementation in safe Rust.
//!
//! `bench` prints a summary. `bench --write` also rewrites the tables of docs/PERFORMANCE.md and draws docs/performance.svg, from the
//! repository's root. `bench --quick` measures next to nothing and shows in some seconds that all of it runs.
#![deny(unsafe_code)]

mod calls;
mod cases;
mod chart;
mod frames;
mod loops;
mod meter;
mod page_calls;
mod page_tables;
mod pages;
mod random;
mod report;
mod results;
mod scene;
mod slices;
mod told;
mod world;

use std::env;
use std::process::ExitCode;

use meter::Meter;
use results::Results;

fn main() -> ExitCode {
    let arguments: Vec<String> = env::args().skip(1).collect();
    let (quick, write) = match arguments.iter().map(String::as_str).collect::<Vec<_>>()[..] {
        [] => (false, false),
        ["--quick"] => (true, false),
        ["--write"] => (false, true),
        _ => {
            eprintln!("usage: bench [--quick | --write]");
            return ExitCode::from(2);
        }
    };
    let meter = if quick { Meter::quick() } else { Meter::full() };
    let results = Results::measured(&meter);
    print!("{}", report::summary(&meter, &results));
    if write {
        if let Err(error) = report::rewrite(&meter, &results) {
            eprintln!("bench: the documentation was not rewritten: {error}");
            return ExitCode::FAILURE;
        }
    }
    ExitCode::SUCCESS
}
