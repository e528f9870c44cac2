//! Rows with every field at its limits, against the library's own verdict on their records.

use super::rule::{self, bytes, Text, DONE, LAST_TIME, MALFORMED};
use super::told;
use crate::verdict;
use pasumorip::log::Row;
use pasumorip::record::{Record, RECORD_BYTES};
use pasumorip::{Account, Code, Flaw, Rooms, Tables};

/// Writes a row and holds it to the verdict on its record, which is the same on a fresh set as on no tables. Whether it is written.
fn hold(fresh: &Tables, row: Row) -> bool {
    let text = Text::Record(row);
    let record: [u8; RECORD_BYTES] = bytes(&text).try_into().expect("48 bytes");
    let malformed = fresh.clone().apply_record(&record).code == Code::Malformed;
    assert_eq!(verdict::is_malformed(&record), malformed, "{row:?}");
    let before = [0xa5; RECORD_BYTES];
    let expected = if malformed { (MALFORMED, before.to_vec()) } else { (DONE, record.to_vec()) };
    assert_eq!(told(&before, 0, &text), expected, "{row:?}");
    assert_eq!(Record::from_bytes(&record).row(), Some(row));
    assert_eq!((rule::is_malformed(&text), Flaw::of_row(&row).is_some()), (malformed, malformed), "{row:?}");
    !malformed
}

fn fresh() -> Tables {
    Tables::fresh(Rooms { stakes: 1, offers: 1 }, Account(1)).expect("a fresh set")
}

/// A field's values in turn, each with all of the fields before it.
fn with<T: Copy>(rows: Vec<Row>, values: &[T], put: fn(&mut Row, T)) -> Vec<Row> {
    let of_row = |row: Row| {
        values.iter().map(move |value| {
            let mut row = row;
            put(&mut row, *value);
            row
        })
    };
    rows.into_iter().flat_map(of_row).collect()
}

fn product(
    operations: &[u64],
    pools: &[u64],
    replies: &[u64],
    times: &[u64],
    numbers: &[u64],
    amounts: &[i64],
) -> Vec<Row> {
    let rows = with(vec![Row::default()], operations, |row, operation| row.operation = operation);
    let rows = with(rows, pools, |row, pool| row.pool = pool);
    let rows = with(rows, replies, |row, reply| row.reply = reply);
    let rows = with(rows, times, |row, now| row.now = now);
    let rows = with(rows, numbers, |row, signer| row.signer = signer);
    let rows = with(rows, numbers, |row, subject| row.subject = subject);
    let rows = with(rows, numbers, |row, other| row.other = other);
    with(rows, amounts, |row, amount| row.amount = amount)
}

const AMOUNTS: [i64; 5] = [i64::MIN, -1, 0, 1, i64::MAX];

#[test]
fn of_known_operations_at_every_limit() {
    let operations: Vec<u64> = (0..=10).collect();
    let times = [0, 1, LAST_TIME, LAST_TIME + 1, u64::MAX];
    let rows = product(&operations, &[0, 1, 3, 4, 255], &[0, 1, 2, 3, 255], &times, &[0, 1, u64::MAX], &AMOUNTS);
    let fresh = fresh();
    let written = rows.iter().filter(|row| hold(&fresh, **row)).count();
    // Three times and two signers each: stake, withdraw, reserve (three pools, two subjects, five amounts), pay (three replies, two
    // others too), claim, rate (three amounts), pause, unpause, payout caller (two subjects).
    assert_eq!(written, 3 * 2 * (3 * (3 * 2 * 5) + 3 * 3 * 4 * 5 + 3 * 4 * 5 + 3 + 1 + 1 + 2));
}

#[test]
fn of_every_byte_as_operation() {
    let operations: Vec<u64> = (0..=255).collect();
    let rows = product(&operations, &[0, 3], &[0, 2], &[LAST_TIME, LAST_TIME + 1], &[0, 1], &AMOUNTS);
    let fresh = fresh();
    assert!(rows.iter().all(|row| !hold(&fresh, *row) || (1..=9).contains(&row.operation)));
}

/// A field that is too wide fits no record. Cut down to a byte, each of these would be a call.
#[test]
fn of_fields_that_fit_no_record() {
    let calls = [
        Row { operation: 1, pool: 1, signer: 7, subject: 7, amount: 5, ..Row::default() },
        Row { operation: 3, pool: 2, reply: 2, signer: 7, subject: 7, other: 8, amount: 5, ..Row::default() },
        Row { operation: 6, pool: 3, signer: 7, amount: 5, ..Row::default() },
        Row { operation: 7, signer: 7, ..Row::default() },
        Row { operation: 9, signer: 7, subject: 7, ..Row::default() },
    ];
    let fresh = fresh();
    for call in calls {
        assert!(hold(&fresh, call), "{call:?}");
        for more in (8..64).map(|bit| 1 << bit).chain([u64::MAX << 8, 0xffff_ff00]) {
            for wide in [
                Row { operation: call.operation + more, ..call },
                Row { pool: call.pool + more, ..call },
                Row { reply: call.reply + more, ..call },
            ] {
                let before = [0xa5; RECORD_BYTES];
                assert_eq!(told(&before, 0, &Text::Record(wide)), (MALFORMED, before.to_vec()), "{wide:?}");
                assert!(Flaw::of_row(&wide).is_some(), "{wide:?}");
            }
        }
    }
}
