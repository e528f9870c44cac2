//! Finds the proved library: in the folder that PASUMORIP_LIB names, else where the project's script leaves it.

use std::path::PathBuf;
use std::{env, process};

const ARCHIVE: &str = "libpasumorip.a";

fn main() {
    println!("cargo:rerun-if-env-changed=PASUMORIP_LIB");
    let here = PathBuf::from(env::var_os("CARGO_MANIFEST_DIR").expect("cargo names the crate's folder"));
    let folder = env::var_os("PASUMORIP_LIB").map_or_else(|| here.join("../../target/native"), PathBuf::from);
    let archive = folder.join(ARCHIVE);
    if !archive.is_file() {
        let missing = archive.display();
        eprintln!(
            "pasumorip: {missing} is missing: run scripts/native-lib pasumorip, or set PASUMORIP_LIB to its folder"
        );
        process::exit(1);
    }
    println!("cargo:rerun-if-changed={}", archive.display());
    println!("cargo:rustc-link-search=native={}", folder.display());
    println!("cargo:rustc-link-lib=static=pasumorip");
}
