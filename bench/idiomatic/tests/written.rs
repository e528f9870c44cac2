//! The idiomatic writer gives the oracle's codes and bytes, on the kept writes and on the records of random logs.

use idiomatic::{Refusal, Row};
use oracle::{parse_writes, random_log, Code, Log, Piece, RecordFields, Rooms, Write};
use std::fs;
use std::path::Path;

fn written(fields: &RecordFields, write: &Write) -> (Code, Vec<u8>) {
    let RecordFields { operation, pool, reply, now, signer, subject, other, amount } = *fields;
    let mut buffer = write.before.clone();
    let row = Row { operation, pool, reply, now, signer, subject, other, amount };
    let code = match row.write(&mut buffer, write.at) {
        Ok(()) => Code::Done,
        Err(Refusal::Malformed) => Code::Malformed,
        Err(Refusal::NoRoom) => Code::TableFull,
    };
    (code, buffer)
}

fn compare(writes: &[Write]) -> usize {
    let of_records = writes.iter().filter_map(|write| match &write.piece {
        Piece::Record(fields) => Some((fields, write)),
        Piece::Head { .. } => None,
    });
    of_records.map(|(fields, write)| assert_eq!(written(fields, write), write.done(), "{write:?}")).count()
}

#[test]
fn kept_writes() {
    let rows = Path::new(env!("CARGO_MANIFEST_DIR")).join("../../vectors/writing.rows");
    let text = fs::read_to_string(rows).expect("the writes are there");
    let records = compare(&parse_writes(&text).expect("they are well written"));
    assert!(records > 200, "{records} records found");
}

#[test]
fn records_of_random_logs() {
    for seed in 0..20 {
        let log = Log::from_bytes(&random_log(seed, 500, Rooms::FULL)).expect("the head is good");
        let rows = log.records.iter().filter_map(RecordFields::of);
        let write = |fields| Write { piece: Piece::Record(fields), at: 3, before: vec![0xa5; 60] };
        compare(&rows.map(write).collect::<Vec<_>>());
    }
}
