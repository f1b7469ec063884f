//! Wrong second programs: the source is copied and edited, and compiled to a program that runs lists of calls.

use std::env;
use std::ffi::OsString;
use std::fs;
use std::path::{Path, PathBuf};
use std::process::Command;

use crate::edit::Edit;

const SOURCE: &str = concat!(env!("CARGO_MANIFEST_DIR"), "/src");
const TEMPORARY: &str = concat!(env!("CARGO_TARGET_TMPDIR"), "/wrong_rules");

/// What follows the text of `lib.rs` in the program: the first argument is how many frames memory has, and each other a list, a call to a
/// line, which gets a line of output.
const MAIN: &str = r#"
extern crate self as second;
mod history;
fn main() {
    let mut arguments = std::env::args().skip(1);
    let frames = arguments.next().unwrap().parse().unwrap();
    for list in arguments {
        println!("{}", history::first_break(frames, list.lines()));
    }
}
"#;

/// A program that was compiled.
pub struct Program(PathBuf);

impl Program {
    /// The second program with these edits, in a folder of this name.
    pub fn build(name: &str, edits: &[Edit]) -> Result<Self, String> {
        let folder = Path::new(TEMPORARY).join(name);
        copy_source(&folder.join("src"));
        for edit in edits {
            let file = folder.join(&edit.file);
            write(&file, &edit.apply(&read(&file))?);
        }
        let root = folder.join("src/main.rs");
        write(&root, &(read(&folder.join("src/lib.rs")) + MAIN));
        write(&folder.join("src/history.rs"), include_str!("history.rs"));
        compile(&root, folder.join("program")).map(Self)
    }

    /// The first break of each list.
    pub fn first_breaks(&self, frames: usize, lists: &[Vec<&str>]) -> Result<Vec<String>, String> {
        let lines = lists.iter().map(|calls| calls.join("\n"));
        let printed = said(Command::new(&self.0).arg(frames.to_string()).args(lines))?;
        let breaks: Vec<String> = printed.lines().map(str::to_owned).collect();
        assert_eq!(breaks.len(), lists.len(), "a line for each list");
        Ok(breaks)
    }
}

/// Copies the source to a folder that has nothing else in it. The folders in it have tests alone.
fn copy_source(folder: &Path) {
    if folder.exists() {
        fs::remove_dir_all(folder).expect("an old copy can be removed");
    }
    fs::create_dir_all(folder).expect("a folder can be made");
    for file in fs::read_dir(SOURCE).expect("the source can be listed") {
        let file = file.expect("the source can be listed");
        if file.path().is_file() {
            write(&folder.join(file.file_name()), &read(&file.path()));
        }
    }
}

/// Compiles without optimisation, which is quicker here; the warnings of an edited program say nothing.
fn compile(root: &Path, program: PathBuf) -> Result<PathBuf, String> {
    let compiler = env::var_os("RUSTC").unwrap_or_else(|| OsString::from("rustc"));
    let options = ["--edition=2021", "--cap-lints=allow", "-Ccodegen-units=1"];
    let mut command = Command::new(compiler);
    command.args(options).arg(root).arg("-o").arg(&program);
    said(&mut command).map(|_| program)
}

/// What a command prints; if it fails, what it prints as errors.
fn said(command: &mut Command) -> Result<String, String> {
    let output = command.output();
    let output = output.unwrap_or_else(|error| panic!("{command:?}: {error}"));
    match output.status.success() {
        true => Ok(String::from_utf8(output.stdout).expect("text is printed")),
        false => Err(String::from_utf8_lossy(&output.stderr).into_owned()),
    }
}

fn read(file: &Path) -> String {
    fs::read_to_string(file).unwrap_or_else(|error| panic!("{}: {error}", file.display()))
}

fn write(file: &Path, text: &str) {
    fs::write(file, text).unwrap_or_else(|error| panic!("{}: {error}", file.display()));
}
