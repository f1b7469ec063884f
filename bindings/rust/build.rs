//! Finds `libskorbilek.a`: in the folder that `SKORBILEK_LIB_DIR` names, or where `./skorbilek build` puts it.

use std::env;
use std::path::PathBuf;

fn main() {
    println!("cargo:rerun-if-env-changed=SKORBILEK_LIB_DIR");
    let folder = match env::var_os("SKORBILEK_LIB_DIR") {
        Some(named) => PathBuf::from(named),
        None => PathBuf::from(env::var_os("CARGO_MANIFEST_DIR").unwrap()).join("../../target/lib"),
    };
    let archive = folder.join("libskorbilek.a");
    println!("cargo:rerun-if-changed={}", archive.display());
    if !archive.is_file() {
        panic!(
            "{} is not there: run `./skorbilek build`, or set SKORBILEK_LIB_DIR to its folder",
            archive.display()
        );
    }
    println!("cargo:rustc-link-search=native={}", folder.display());
    println!("cargo:rustc-link-lib=static=skorbilek");
}
