//! What `read` prints of a log, `write` makes into the same log: of every kept one, cut and changed at any byte, in text and in CSV.

use super::{log_of, print};
use std::fs;
use std::path::{Path, PathBuf};

/// Every log of the vectors and the examples.
fn logs() -> Vec<PathBuf> {
    let root = Path::new(env!("CARGO_MANIFEST_DIR")).join("../..");
    let entries = ["vectors", "vectors/lent", "examples"]
        .into_iter()
        .flat_map(|folder| fs::read_dir(root.join(folder)).unwrap_or_else(|error| panic!("{folder}: {error}")));
    let paths = entries.map(|entry| entry.expect("a folder lists its files").path());
    paths.filter(|path| path.extension().is_some_and(|ending| ending == "log")).collect()
}

fn holds(log: &[u8]) -> bool {
    [false, true].into_iter().all(|csv| {
        let mut text = Vec::new();
        print(log, csv, &mut text).expect("memory takes any text");
        log_of(&String::from_utf8(text).expect("lines are text"), csv).as_deref() == Ok(log)
    })
}

#[test]
fn of_every_kept_log() {
    let logs = logs();
    assert!(logs.len() > 30, "{logs:?}");
    for path in logs {
        let log = fs::read(&path).unwrap_or_else(|error| panic!("{}: {error}", path.display()));
        assert!(holds(&log), "{}", path.display());
    }
}

/// Most changes make a record Malformed, or a head wrong.
#[test]
fn of_a_log_cut_or_changed_at_any_byte() {
    let path = Path::new(env!("CARGO_MANIFEST_DIR")).join("../../examples/friday.log");
    let friday = fs::read(path).expect("the sample is there");
    for at in 0..friday.len() {
        assert!(holds(&friday[..at]), "cut at {at}");
        for flip in [0x01, 0x80, 0xff] {
            let mut changed = friday.clone();
            changed[at] ^= flip;
            assert!(holds(&changed), "byte {at} changed by {flip}");
        }
    }
}
