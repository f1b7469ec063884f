//! Script programs as functions from bytes to bytes: the built one as a child process, and the second one.

use std::io::{Read, Write};
use std::path::{Path, PathBuf};
use std::process::{Command, Stdio};
use std::thread;

use crate::monitor::attempt;

/// Where the built program is.
pub fn built() -> PathBuf {
    Path::new(env!("CARGO_MANIFEST_DIR")).join("../../target/bin/run_script")
}

/// What the program at this path prints. The text is fed by a thread, so that neither pipe can block the other. An exit status that is
/// not 0 shows as a last line of its own, which no script program prints.
pub fn child(path: &Path, text: &[u8]) -> Vec<u8> {
    let mut child = Command::new(path)
        .stdin(Stdio::piped())
        .stdout(Stdio::piped())
        .spawn()
        .unwrap_or_else(|error| panic!("{} can't be run: {error}", path.display()));
    let mut input = child.stdin.take().expect("standard input is a pipe");
    let mut output = child.stdout.take().expect("standard output is a pipe");
    let mut printed = Vec::new();
    thread::scope(|scope| {
        // a program that ends early does not read all: then it has printed too little, which is seen
        scope.spawn(move || input.write_all(text));
        let read = output.read_to_end(&mut printed);
        read.expect("standard output can be read");
    });
    let status = child.wait().expect("the child can be waited for");
    if !status.success() {
        printed.extend_from_slice(format!("the program ended: {status}\n").as_bytes());
    }
    printed
}

/// What the second program prints. A panic shows as an output that no script program has.
pub fn second(text: &[u8]) -> Vec<u8> {
    let printed = attempt(|| {
        let mut printed = Vec::new();
        second::script::run(text, &mut printed).map(|()| printed)
    });
    match printed {
        Some(Ok(printed)) => printed,
        Some(Err(error)) => format!("the program failed: {error}\n").into_bytes(),
        None => b"the program panicked\n".to_vec(),
    }
}
