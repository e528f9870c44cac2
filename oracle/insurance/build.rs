//! Points the crate at the module's text, which is not part of the repository.

use std::path::{Path, PathBuf};
use std::{env, fs};

/// Beside the repository, where the variable INSURANCE_SRC names no other place.
const DEFAULT: &str = "../shared/docs/src/insurance/src/lib.rs";

fn main() {
    println!("cargo::rerun-if-env-changed=INSURANCE_SRC");
    let root = Path::new(env!("CARGO_MANIFEST_DIR")).join("../..");
    let wanted = env::var_os("INSURANCE_SRC").map_or_else(|| PathBuf::from(DEFAULT), PathBuf::from);
    match root.join(&wanted).canonicalize() {
        Ok(source) => point_at(&source),
        Err(_) => println!(
            "cargo::error=no Rust module at {} (seen from the repository's root): set INSURANCE_SRC to insurance/src/lib.rs",
            wanted.display()
        ),
    }
}

/// A module by path, and not `include!`, which refuses the inner attributes of the module's first lines.
fn point_at(source: &Path) {
    println!("cargo::rerun-if-changed={}", source.display());
    let line = format!("#[path = {:?}]\nmod module;\n", source.display().to_string());
    let out = PathBuf::from(env::var_os("OUT_DIR").expect("cargo sets OUT_DIR")).join("module.rs");
    fs::write(out, line).expect("OUT_DIR can be written");
}
