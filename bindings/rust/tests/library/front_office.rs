//! The guide's example of a log written from rows of a database, as it stands there.

use crate::kept;
use pasumorip::log::HEAD_BYTES;
use pasumorip::record::Record;

// The example.
use pasumorip::log::{self, Row};
use pasumorip::record::RECORD_BYTES;
use pasumorip::{Account, Code};

fn log_of(admin: Account, rows: &[Row]) -> Result<Vec<u8>, Code> {
    let mut log = vec![0; log::HEAD_BYTES + RECORD_BYTES * rows.len()];
    let mut at = log::write_head(&mut log, 0, admin)?;
    for row in rows {
        at += log::write_record(&mut log, at, row)?;
    }
    Ok(log)
}
// Its end.

#[test]
fn the_guide_shows_it() {
    let (_, example) = include_str!("front_office.rs").split_once("// The example.\n").expect("it begins");
    let (example, _) = example.split_once("// Its end.\n").expect("it ends");
    let indented = |line: &str| if line.is_empty() { "\n".to_string() } else { format!("    {line}\n") };
    let shown: String = example.lines().map(indented).collect();
    assert!(kept::text(&kept::folder().join("../docs/GUIDE.md")).contains(&shown), "{shown}");
}

#[test]
fn it_writes_the_sample_friday() {
    let friday = kept::read(&kept::folder().join("../examples/friday.log"));
    let records = friday[HEAD_BYTES..].chunks_exact(RECORD_BYTES);
    let records = records.map(|record| Record::from_bytes(record.try_into().expect("48 bytes")));
    let mut rows: Vec<Row> = records.map(|record| record.row().expect("no record has spare bytes")).collect();
    let claim = Row {
        operation: 5,
        pool: 1,
        reply: 0,
        now: 1_763_125_200,
        signer: 50,
        subject: 12,
        other: 31,
        amount: 250_000,
    };
    assert_eq!(rows[8], claim);
    assert_eq!(log_of(Account(1), &rows), Ok(friday));
    assert_eq!(log_of(Account(0), &rows), Err(Code::Malformed));
    rows[8].pool = 257;
    assert_eq!(log_of(Account(1), &rows), Err(Code::Malformed));
}
