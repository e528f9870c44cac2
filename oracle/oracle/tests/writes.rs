//! Writes of heads and records: W-201's sentences in every room, on the limits of every field and over random logs; document 01's sample; texts.

mod support;

use oracle::{
    parse_writes, print_written, random_log, write_log, Code, Log, Operation, Piece, Record, RecordFields, Rooms, Write,
};
use support::{records, LAST_TIME};

const SAMPLE: &str = "stake pool=1 staker=7 amount=2_000_000 signer=7
    withdraw pool=1 staker=7 amount=3_000_000 signer=7
    stake pool=1 staker=8 amount=999_999 signer=8";

/// One of each operation, with every field that it uses at work.
const GOOD: &str = "stake pool=1 staker=7 amount=1 signer=7 now=9
    withdraw pool=0 staker=7 amount=-1 signer=7
    pay pool=2 reply=2 invoice=5 beneficiary=6 amount=1000 signer=2
    reserve pool=3 offer=4 amount=0 signer=2
    claim pool=1 offer=4 lender=6 amount=9223372036854775807 signer=2
    rate pool=3 rate=5 signer=1
    pause signer=1
    unpause signer=18446744073709551615
    payout_caller caller=3 signer=1";

fn fields(record: &Record) -> RecordFields {
    RecordFields::of(record).expect("the spare bytes are 0")
}

fn good() -> Vec<RecordFields> {
    records(GOOD).iter().map(fields).collect()
}

/// The code where there is room.
fn code(fields: RecordFields) -> Code {
    Piece::Record(fields).write(&mut [0; 48], 0)
}

#[test]
fn the_sample_byte_for_byte() {
    let mut pieces = vec![Piece::Head { admin: 1 }];
    pieces.extend(records(SAMPLE).iter().map(|record| Piece::Record(fields(record))));
    let (mut log, mut at) = ([0xa5; 160], 0);
    for piece in &pieces {
        assert_eq!(piece.write(&mut log, at), Code::Done);
        at += piece.bytes().len();
    }
    assert_eq!(pieces[1].write(&mut log, at), Code::TableFull);
    let number = |low: [u8; 3]| [low[0], low[1], low[2], 0, 0, 0, 0, 0];
    let record = |operation: u8, account: u8, amount: [u8; 3]| {
        let account = number([account, 0, 0]);
        [[operation, 1, 0, 0, 0, 0, 0, 0], [0; 8], account, account, [0; 8], number(amount)].concat()
    };
    let wanted = [
        b"POL\x01\0\0\0\0\x01\0\0\0\0\0\0\0".to_vec(),
        record(1, 7, [0x80, 0x84, 0x1e]),
        record(2, 7, [0xc0, 0xc6, 0x2d]),
        record(1, 8, [0x3f, 0x42, 0x0f]),
    ];
    assert_eq!(log.to_vec(), wanted.concat());
    assert_eq!(Ok(log.to_vec()), write_log(&format!("admin 1\n{SAMPLE}")));
}

/// "changing nothing", and where it is done no byte but its own.
#[test]
fn every_room() {
    for (piece, needed) in [(Piece::Head { admin: 1 }, 16), (Piece::Record(good()[2]), 48)] {
        for length in 0..=100 {
            for at in (0..=110).chain([usize::MAX - 47, usize::MAX - 15, usize::MAX]) {
                let before: Vec<u8> = (0..length).collect();
                let (code, after) = Write { piece, at, before: before.clone() }.done();
                if usize::from(length) >= at && usize::from(length) - at >= needed {
                    let wanted = [&before[..at], &piece.bytes(), &before[at + needed..]].concat();
                    assert_eq!((code, after), (Code::Done, wanted), "{length} {at}");
                } else {
                    assert_eq!((code, after), (Code::TableFull, before), "{length} {at}");
                }
            }
        }
    }
}

#[test]
fn every_number_of_an_operation_a_pool_and_a_reply() {
    for number in 0..=600 {
        for fields in good() {
            let changed = [
                RecordFields { operation: number, ..fields },
                RecordFields { pool: number, ..fields },
                RecordFields { reply: number, ..fields },
            ];
            for fields in changed {
                let known = u8::try_from(number).is_ok() && Operation::of(&fields.record().expect("bytes")).is_some();
                assert_eq!(code(fields), if known { Code::Done } else { Code::Malformed }, "{fields:?}");
            }
        }
    }
}

#[test]
fn each_field_on_its_limits() {
    for fields in good() {
        assert_eq!(code(fields), Code::Done, "{fields:?}");
        assert_eq!(code(RecordFields { now: LAST_TIME, ..fields }), Code::Done, "{fields:?}");
        assert_eq!(code(RecordFields { now: LAST_TIME + 1, ..fields }), Code::Malformed, "{fields:?}");
        assert_eq!(code(RecordFields { signer: 0, ..fields }), Code::Malformed, "{fields:?}");
        for subject in [0, 1, u64::MAX] {
            let wanted = matches!(fields.operation, 1..=5 | 9) == (subject != 0);
            assert_eq!(code(RecordFields { subject, ..fields }) == Code::Done, wanted, "{fields:?}");
        }
        for other in [0, 1, u64::MAX] {
            let wanted = matches!(fields.operation, 3 | 5) == (other != 0);
            assert_eq!(code(RecordFields { other, ..fields }) == Code::Done, wanted, "{fields:?}");
        }
        for amount in [i64::MIN, -1, 0, 1, i64::MAX] {
            let wanted = match fields.operation {
                6 => amount >= 0,
                7..=9 => amount == 0,
                _ => true,
            };
            assert_eq!(code(RecordFields { amount, ..fields }) == Code::Done, wanted, "{fields:?}");
        }
    }
    assert_eq!(Piece::Head { admin: 0 }.write(&mut [0; 16], 0), Code::Malformed);
    assert_eq!(Piece::Head { admin: u64::MAX }.write(&mut [0; 16], 0), Code::Done);
}

/// Each bit that a byte has not, so that the number cut down would do.
#[test]
fn wide_fields_are_never_cut_down() {
    for fields in good() {
        for more in (8..64).map(|bit| 1 << bit) {
            assert_eq!(code(RecordFields { operation: fields.operation + more, ..fields }), Code::Malformed);
            assert_eq!(code(RecordFields { pool: fields.pool + more, ..fields }), Code::Malformed);
            assert_eq!(code(RecordFields { reply: fields.reply + more, ..fields }), Code::Malformed);
        }
    }
}

#[test]
fn malformed_comes_before_the_room() {
    let malformed = RecordFields { signer: 0, ..good()[0] };
    for (piece, needed) in [(Piece::Head { admin: 0 }, 16), (Piece::Record(malformed), 48)] {
        for (length, at) in [(0, 0), (needed - 1, 0), (needed, 0), (needed, 1), (needed, usize::MAX)] {
            let before = vec![0xa5; length];
            assert_eq!(Write { piece, at, before: before.clone() }.done(), (Code::Malformed, before));
        }
    }
}

/// "What is written reads back as the same call, and every record read and not Malformed writes back as the same bytes."
#[test]
fn random_logs_are_written_back() {
    let mut written = 0;
    for seed in 0..24 {
        let log = Log::from_bytes(&random_log(seed, 200, Rooms::FULL)).expect("the head is good");
        for record in &log.records {
            let Some(fields) = RecordFields::of(record) else { continue };
            let mut buffer = [0xa5; 48];
            let code = Piece::Record(fields).write(&mut buffer, 0);
            assert_eq!(code == Code::Malformed, Operation::of(record).is_none(), "{record:?}");
            if code == Code::Done {
                assert_eq!((buffer, &Record::from_bytes(&buffer)), (record.to_bytes(), record));
                written += 1;
            }
        }
    }
    assert!(written > 4_000, "{written} were written");
}

#[test]
fn writes_as_text() {
    let text = "# a head\nhead length=16 at=0 admin=1\n
        record length=2 at=18446744073709551615 operation=257 pool=1 reply=2 now=3 signer=4 subject=5 other=6 amount=-7\n";
    let record =
        RecordFields { operation: 257, pool: 1, reply: 2, now: 3, signer: 4, subject: 5, other: 6, amount: -7 };
    let wanted = [
        Write { piece: Piece::Head { admin: 1 }, at: 0, before: (240..=255).rev().collect() },
        Write { piece: Piece::Record(record), at: usize::MAX, before: vec![255, 254] },
    ];
    assert_eq!(parse_writes(text), Ok(wanted.to_vec()));
    let wrong = [
        ("head length=16 at=0", "line 3: head needs admin"),
        ("head at=0 admin=1", "line 3: head needs length"),
        ("head length=16 admin=1", "line 3: head needs at"),
        ("head length=256 at=0 admin=1", "line 3: no number of its kind: 256"),
        ("record length=48 at=0 operation=7", "line 3: record needs pool"),
        ("tail length=48 at=0", "line 3: no write tail"),
    ];
    for (line, error) in wrong {
        assert_eq!(parse_writes(&format!("head length=16 at=0 admin=1\n\n{line}\n")), Err(error.to_string()));
    }
}

#[test]
fn what_writes_leave_as_text() {
    let written = |text: &str| {
        parse_writes(text)
            .expect("the text is well written")
            .iter()
            .map(|w| print_written(&w.done()))
            .collect::<String>()
    };
    assert_eq!(written("head length=18 at=1 admin=258"), "0 ff504f4c01000000000201000000000000ee\n");
    assert_eq!(
        written("head length=2 at=0 admin=1\nhead length=0 at=9 admin=1\nhead length=1 at=0 admin=0"),
        "11 fffe\n11 -\n1 ff\n"
    );
}
