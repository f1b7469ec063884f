//! Finds `libskorbilek_frames.a` as the bindings find `libskorbilek.a`, and tells the program which compiler builds it.

use std::env;
use std::path::PathBuf;
use std::process::Command;

fn main() {
    println!("cargo:rerun-if-env-changed=SKORBILEK_LIB_DIR");
    let folder = match env::var_os("SKORBILEK_LIB_DIR") {
        Some(named) => PathBuf::from(named),
        None => PathBuf::from(env::var_os("CARGO_MANIFEST_DIR").unwrap()).join("../target/lib"),
    };
    let archive = folder.join("libskorbilek_frames.a");
    println!("cargo:rerun-if-changed={}", archive.display());
    if !archive.is_file() {
        panic!(
            "{} is not there: run `./skorbilek bench`, or set SKORBILEK_LIB_DIR to its folder",
            archive.display()
        );
    }
    println!("cargo:rustc-link-search=native={}", folder.display());
    println!("cargo:rustc-link-lib=static=skorbilek_frames");
    println!("cargo:rustc-env=BENCH_RUSTC={}", compiler());
}

/// What the compiler says of itself, up to its version: `rustc 1.95.0`.
fn compiler() -> String {
    let rustc = env::var_os("RUSTC").unwrap_or_else(|| "rustc".into());
    let said = Command::new(rustc).arg("--version").output();
    let said = said.map(|output| String::from_utf8_lossy(&output.stdout).into_owned());
    let words: Vec<String> = said
        .unwrap_or_default()
        .split_whitespace()
        .take(2)
        .map(String::from)
        .collect();
    words.join(" ")
}
