//! What the figures depend on: the machine and the versions.

use std::fs;
use std::process::Command;

/// The compiler that built this program, the kit that built the library, the C library, and the processor.
pub fn facts() -> String {
    let facts = [
        env!("BENCH_RUSTC").to_string(),
        said("rt", "version"),
        said("getconf", "GNU_LIBC_VERSION"),
        processor(),
    ];
    facts.join(", ")
}

/// The first line that a command prints.
fn said(command: &str, argument: &str) -> String {
    let output = Command::new(command).arg(argument).output();
    let printed = output.map(|output| String::from_utf8_lossy(&output.stdout).into_owned());
    let first = printed.unwrap_or_default().lines().next().map(String::from);
    first.unwrap_or_else(|| format!("{command} unknown"))
}

/// The name that the processor gives itself.
fn processor() -> String {
    let known = fs::read_to_string("/proc/cpuinfo").unwrap_or_default();
    let line = known.lines().find(|line| line.starts_with("model name"));
    let name = line.and_then(|line| line.split(": ").nth(1));
    name.unwrap_or("processor unknown").to_string()
}
