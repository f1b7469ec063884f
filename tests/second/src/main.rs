//! Runs a script from standard input and prints its answers.

#![forbid(unsafe_code)]

use std::io::{self, BufWriter};

fn main() -> io::Result<()> {
    let output = BufWriter::new(io::stdout().lock());
    second::script::run(io::stdin().lock(), output)
}
