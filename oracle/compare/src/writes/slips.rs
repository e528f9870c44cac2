//! A few rounds find each slip of a writer and meet every case, so that a run without a difference says something.

mod slipped;

use super::aims::round;
use super::cases::Wrote;
use crate::cases::Cases;
use crate::guarded::Guarded;
use oracle::limits::{LAST_TIME, LIMIT};
use oracle::{Code, Piece, RecordFields};
use slipped::{found, head_found, judged_found, record_found, refused_found, writing_found, Writer, SOUND};

#[test]
fn every_case_is_met_by_one_round() {
    for seed in 0..100 {
        let mut cases = Cases::default();
        for write in round(seed) {
            let (code, _) = write.done();
            cases.count(&Wrote { write, code });
        }
        assert_eq!(cases.missed(), None, "seed {seed}");
    }
}

#[test]
fn a_writer_without_a_slip_is_not_found() {
    assert!(!found(SOUND));
}

#[test]
fn a_number_with_its_greatest_byte_first() {
    assert!(head_found(|bytes| bytes[8..].reverse()));
    for at in (8..48).step_by(8) {
        assert!(record_found(|bytes| bytes[at..at + 8].reverse()), "byte {at}");
    }
}

#[test]
fn a_field_in_another_ones_place() {
    for first in 0..3 {
        for second in 0..first {
            assert!(record_found(|bytes| bytes.swap(first, second)), "bytes {first} and {second}");
        }
    }
    for first in (8..48).step_by(8) {
        for second in (8..first).step_by(8) {
            let exchange = |bytes: &mut Vec<u8>| (0..8).for_each(|byte| bytes.swap(first + byte, second + byte));
            assert!(record_found(exchange), "bytes {first} and {second}");
        }
    }
}

/// One that is always 0 set, and any other left 0. A time has no more than 34 bits.
#[test]
fn a_byte_of_another_value() {
    for at in 0..48 {
        let always_0 = (3..8).contains(&at) || (13..16).contains(&at);
        assert!(record_found(|bytes| bytes[at] = always_0.into()), "byte {at}");
    }
}

#[test]
fn a_number_cut_down() {
    assert!(head_found(|bytes| bytes[12..].fill(0)));
    for at in (8..48).step_by(8) {
        assert!(record_found(|bytes| bytes[at + 4..at + 8].fill(0)), "byte {at}");
    }
}

#[test]
fn an_amount_without_its_sign() {
    assert!(record_found(|bytes| {
        let amount = i64::from_le_bytes(bytes[40..].try_into().expect("eight bytes"));
        bytes[40..].copy_from_slice(&amount.unsigned_abs().to_le_bytes());
    }));
}

/// Version 2; its bytes exchanged; another name; a byte set that is to be 0.
#[test]
fn a_head_of_another_kind() {
    assert!(head_found(|bytes| bytes[3] = 2));
    assert!(head_found(|bytes| bytes.swap(3, 4)));
    assert!(head_found(|bytes| bytes[2] = b'l'));
    assert!(head_found(|bytes| bytes[7] = 1));
}

/// In the buffer, and behind its end, where it is in the guard.
#[test]
fn a_byte_beyond() {
    assert!(head_found(|bytes| bytes.push(0)));
    assert!(record_found(|bytes| bytes.push(0)));
    assert!(writing_found(|memory: &mut Guarded<u8>, at, piece| {
        let code = SOUND.write(memory, at, piece);
        if code == 0 && at + piece.bytes().len() == memory.len() {
            memory.put(memory.len(), &[0]);
        }
        code
    }));
}

#[test]
fn a_byte_too_few() {
    assert!(head_found(|bytes| bytes.truncate(15)));
    assert!(record_found(|bytes| bytes.truncate(47)));
}

#[test]
fn the_room_tested_before_the_fields() {
    assert!(found(Writer { room_first: true, ..SOUND }));
}

#[test]
fn a_refusal_that_writes() {
    for count in [1, 16] {
        assert!(found(Writer { when_malformed: count, ..SOUND }), "{count}");
        assert!(found(Writer { when_full: count, ..SOUND }), "{count}");
    }
}

/// A head where 15 bytes are left, and a record where 47 are.
#[test]
fn a_piece_in_part_where_one_byte_is_missing() {
    for left in [15, 47] {
        assert!(writing_found(|memory: &mut Guarded<u8>, at, piece| {
            let code = SOUND.write(memory, at, piece);
            if code == Code::TableFull as u8 && memory.len().saturating_sub(at) == left {
                memory.put(at, &piece.bytes()[..left.min(piece.bytes().len())]);
            }
            code
        }));
    }
}

/// Just enough refused, one too few taken, the place left out, places that go round by a difference and by a sum.
#[test]
fn room_of_another_size() {
    assert!(found(Writer { left: &|length, at| length.saturating_sub(at).saturating_sub(1), ..SOUND }));
    assert!(found(Writer { left: &|length, at| length.saturating_sub(at) + 1, ..SOUND }));
    assert!(found(Writer { left: &|length, _| length, ..SOUND }));
    assert!(found(Writer { left: &usize::wrapping_sub, ..SOUND }));
    let by_sum = |length: usize, at: usize| (0..=48).rev().find(|more| at.wrapping_add(*more) <= length).unwrap_or(0);
    assert!(found(Writer { left: &by_sum, ..SOUND }));
}

#[test]
fn room_for_the_other_piece() {
    assert!(found(Writer { needed: &|_| 48, ..SOUND }));
    assert!(found(Writer { needed: &|_| 16, ..SOUND }));
}

#[test]
fn a_head_of_admin_0() {
    assert!(found(Writer { malformed: &|piece| matches!(piece, Piece::Record(_)) && piece.malformed(), ..SOUND }));
}

/// To a byte, and to half a word.
#[test]
fn a_wide_field_cut_down() {
    for bits in [8, 32] {
        assert!(judged_found(|_| true, |fields| fields.operation %= 1 << bits), "{bits}");
        assert!(judged_found(|_| true, |fields| fields.pool %= 1 << bits), "{bits}");
        assert!(judged_found(|_| true, |fields| fields.reply %= 1 << bits), "{bits}");
    }
}

#[test]
fn a_field_that_is_not_tested() {
    let any = |_: &RecordFields| true;
    assert!(judged_found(any, |fields| fields.now = 0));
    assert!(judged_found(any, |fields| fields.signer = 1));
    assert!(judged_found(any, |fields| fields.pool = fields.pool.min(3)));
    assert!(judged_found(any, |fields| fields.reply = fields.reply.min(2)));
    assert!(judged_found(any, |fields| fields.operation = fields.operation.max(1)));
    assert!(judged_found(any, |fields| fields.operation = fields.operation.min(9)));
}

#[test]
fn a_rate_that_is_not_tested() {
    assert!(judged_found(|fields| fields.operation == 6, |fields| fields.pool = 3));
    assert!(judged_found(|fields| fields.operation == 6, |fields| fields.amount = 0));
}

#[test]
fn a_number_that_is_not_tested() {
    for operation in [1, 2, 3, 4, 5, 9] {
        assert!(judged_found(|fields| fields.operation == operation, |fields| fields.subject = 1), "{operation}");
    }
    for operation in [3, 5] {
        assert!(judged_found(|fields| fields.operation == operation, |fields| fields.other = 1), "{operation}");
    }
}

#[test]
fn an_unused_field_that_is_not_tested() {
    let untested = |operation: u64, judged: fn(&mut RecordFields)| {
        assert!(judged_found(|fields| fields.operation == operation, judged), "{operation}");
    };
    [7, 8, 9].into_iter().for_each(|operation| untested(operation, |fields| fields.pool = 0));
    [1, 2, 4, 5, 6, 7, 8, 9].into_iter().for_each(|operation| untested(operation, |fields| fields.reply = 0));
    [6, 7, 8].into_iter().for_each(|operation| untested(operation, |fields| fields.subject = 0));
    [1, 2, 4, 6, 7, 8, 9].into_iter().for_each(|operation| untested(operation, |fields| fields.other = 0));
    [7, 8, 9].into_iter().for_each(|operation| untested(operation, |fields| fields.amount = 0));
}

/// The last of a range, and what only the books refuse.
#[test]
fn a_call_that_is_refused() {
    assert!(refused_found(|fields| fields.now == LAST_TIME));
    assert!(refused_found(|fields| fields.operation == 9));
    assert!(refused_found(|fields| fields.operation < 6 && fields.pool == 3));
    assert!(refused_found(|fields| fields.reply == 2));
    assert!(refused_found(|fields| fields.operation == 6 && fields.amount == 0));
    assert!(refused_found(|fields| fields.operation < 6 && fields.amount <= 0));
    assert!(refused_found(|fields| i128::from(fields.amount) > LIMIT));
    assert!(refused_found(|fields| fields.operation < 3 && fields.signer != fields.subject));
}
