//! Finds the door: where scripts/door leaves it.

use std::path::PathBuf;
use std::{env, process};

fn main() {
    let here = PathBuf::from(env::var_os("CARGO_MANIFEST_DIR").expect("cargo names the crate's folder"));
    let folder = here.join("../../target/native");
    let archive = folder.join("libdoor.a");
    println!("cargo:rerun-if-changed={}", archive.display());
    if !archive.is_file() {
        eprintln!("quotients: {} is missing: run scripts/door", archive.display());
        process::exit(1);
    }
    println!("cargo:rustc-link-search=native={}", folder.display());
    println!("cargo:rustc-link-lib=static=door");
}
