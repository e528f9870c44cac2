//! What this crate calls a flaw of a record is what the library calls Malformed.

use crate::kept;
use crate::verdict::is_malformed;
use pasumorip::log::HEAD_BYTES;
use pasumorip::record::{Record, RECORD_BYTES};
use pasumorip::{Call, Code, Flaw, Tables};

fn hold(record: &Record) {
    let bytes = record.to_bytes();
    assert_eq!(Record::from_bytes(&bytes), *record);
    assert_eq!(Flaw::of(record).is_some(), is_malformed(&bytes), "{record:?}: {:?}", Flaw::of(record));
    if let Ok(call) = Call::from_record(record) {
        assert_eq!(call.record(), *record);
    }
}

#[test]
fn of_every_kept_record() {
    for log in kept::files(&kept::folder(), "log") {
        let bytes = kept::read(&log);
        for record in bytes.get(HEAD_BYTES..).unwrap_or(&[]).chunks_exact(RECORD_BYTES) {
            hold(&Record::from_bytes(record.try_into().expect("48 bytes")));
        }
    }
}

/// Every operation, known or not, with each field at each of a few values around its edges.
#[test]
fn of_records_on_each_edge() {
    for operation in 0..=11 {
        for pool in [0, 1, 3, 4, 255] {
            for reply in [0, 2, 3] {
                for numbers in 0..16u64 {
                    let given = |bit: u64| numbers >> bit & 1;
                    let record = Record {
                        operation,
                        pool,
                        reply,
                        signer: given(0),
                        subject: given(1),
                        other: given(2),
                        ..Record::default()
                    };
                    hold(&Record { now: 17_179_869_183 + given(3), ..record });
                    hold(&Record { spare: [0, 0, 0, 0, given(3) as u8], ..record });
                    for amount in [-1, 1, i64::MIN, i64::MAX] {
                        hold(&Record { amount, ..record });
                    }
                }
            }
        }
    }
}

#[test]
fn a_record_of_another_length_is_malformed() {
    let mut tables = Tables::fresh(pasumorip::Rooms::FULL, pasumorip::Account(1)).expect("a fresh set");
    let before = tables.clone();
    for length in [0, 47, 49, 96] {
        let answer = tables.apply_record(&vec![7; length]);
        assert_eq!((answer.code, answer.first, answer.moved().count()), (Code::Malformed, 0, 0));
    }
    assert_eq!(tables, before);
}
