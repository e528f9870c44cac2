//! Every kept log, written again by the library to the same bytes.

use crate::kept;
use crate::verdict::{is_malformed, opened_for};
use pasumorip::log::{self, HEAD_BYTES};
use pasumorip::record::{Record, RECORD_BYTES};
use pasumorip::Code;

/// How many heads and records are written, and how many are refused.
#[derive(Debug, Default)]
struct Counts {
    heads: u64,
    no_heads: u64,
    records: u64,
    malformed: u64,
}

/// A log that grows within a buffer of its length, which has other bytes wherever it is not written yet.
struct Grown<'a> {
    log: &'a [u8],
    others: Vec<u8>,
    buffer: Vec<u8>,
}

impl Grown<'_> {
    fn of(log: &[u8]) -> Grown<'_> {
        let others: Vec<u8> = log.iter().map(|byte| !byte).collect();
        Grown { log, buffer: others.clone(), others }
    }

    /// Written up to here, and not beyond.
    fn is_written_to(&self, end: usize) -> bool {
        self.buffer[..end] == self.log[..end] && self.buffer[end..] == self.others[end..]
    }

    fn write_head(&mut self, counts: &mut Counts) {
        let end = self.log.len().min(HEAD_BYTES);
        let admin = opened_for(&self.log[..end]);
        assert_eq!(log::admin(&self.log[..end]), admin);
        match admin {
            Some(admin) => {
                assert_eq!(log::write_head(&mut self.buffer, 0, admin), Ok(HEAD_BYTES));
                counts.heads += 1;
            }
            None => {
                self.put(0, end);
                counts.no_heads += 1;
            }
        }
    }

    fn write_record(&mut self, at: usize, counts: &mut Counts) {
        let record = self.log[at..].first_chunk::<RECORD_BYTES>().expect("48 bytes");
        // A record with spare bytes has no row, and is Malformed.
        let row = Record::from_bytes(record).row();
        let written = row.map_or(Err(Code::Malformed), |row| log::write_record(&mut self.buffer, at, &row));
        if is_malformed(record) {
            assert_eq!(written, Err(Code::Malformed), "{record:?}");
            assert!(self.is_written_to(at), "{record:?}");
            self.put(at, at + RECORD_BYTES);
            counts.malformed += 1;
        } else {
            assert_eq!(written, Ok(RECORD_BYTES), "{record:?}");
            counts.records += 1;
        }
    }

    /// What is no head and no call is put in as it stands.
    fn put(&mut self, at: usize, end: usize) {
        self.buffer[at..end].copy_from_slice(&self.log[at..end]);
    }
}

#[test]
fn every_log_is_written_again() {
    let mut counts = Counts::default();
    for folder in [kept::folder(), kept::folder().join("lent"), kept::folder().join("../examples")] {
        for path in kept::files(&folder, "log") {
            let log = kept::read(&path);
            let mut grown = Grown::of(&log);
            grown.write_head(&mut counts);
            let mut at = log.len().min(HEAD_BYTES);
            while at + RECORD_BYTES <= log.len() {
                assert!(grown.is_written_to(at), "{}, byte {at}", path.display());
                grown.write_record(at, &mut counts);
                at += RECORD_BYTES;
            }
            assert!(grown.is_written_to(at), "{}, byte {at}", path.display());
        }
    }
    let Counts { heads, no_heads, records, malformed } = counts;
    assert!(heads > 30 && no_heads > 5 && records > 3_000 && malformed > 100, "{counts:?}");
}
