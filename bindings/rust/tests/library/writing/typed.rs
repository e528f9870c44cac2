//! The crate's own forms of a write say what the words say.

use super::random::any_try;
use super::rule::{Text, DONE};
use super::told;
use crate::numbers::Numbers;
use crate::verdict::opened_for;
use pasumorip::log::{self, HEAD_BYTES};
use pasumorip::record::{Record, RECORD_BYTES};
use pasumorip::{Account, Call, Code};

/// A result as the code and the buffer after it.
fn outcome(written: Result<usize, Code>, bytes: usize, buffer: Vec<u8>) -> (u8, Vec<u8>) {
    assert!(written.is_err() || written == Ok(bytes), "{written:?}");
    (written.err().unwrap_or(Code::Done).number(), buffer)
}

#[test]
fn of_random_writes() {
    let mut numbers = Numbers(202);
    for _ in 0..100_000 {
        let (mut buffer, at, text) = any_try(&mut numbers);
        let expected = told(&buffer, at, &text);
        match text {
            Text::Head(admin) => {
                let written = log::write_head(&mut buffer, at, Account(admin));
                assert_eq!(outcome(written, HEAD_BYTES, buffer), expected, "{text:?} at {at}");
            }
            Text::Record(row) => {
                let written = log::write_record(&mut buffer, at, &row);
                assert_eq!(outcome(written, RECORD_BYTES, buffer), expected, "{text:?} at {at}");
            }
        }
    }
}

/// In a room of its own length a text is refused only as Malformed.
#[test]
fn of_texts_alone() {
    let mut numbers = Numbers(203);
    for _ in 0..100_000 {
        let (_, _, text) = any_try(&mut numbers);
        let alone = match text {
            Text::Head(admin) => log::head(Account(admin)).map(|head| head.to_vec()),
            Text::Record(row) => log::record(&row).map(|record| record.to_vec()),
        };
        let length = if matches!(text, Text::Head(_)) { HEAD_BYTES } else { RECORD_BYTES };
        match told(&vec![0; length], 0, &text) {
            (DONE, bytes) => assert_eq!(alone, Ok(bytes)),
            _ => assert_eq!(alone, Err(Code::Malformed)),
        }
        let (Text::Record(row), Ok(bytes)) = (text, alone) else { continue };
        let bytes: [u8; RECORD_BYTES] = bytes.try_into().expect("48 bytes");
        let call = Call::from_bytes(&bytes).expect("what is written is a call");
        assert_eq!((call.row(), call.to_bytes()), (row, bytes));
        assert_eq!(Record::from_bytes(&bytes).row(), Some(row));
        let mut again = [0; RECORD_BYTES];
        assert_eq!(log::write_call(&mut again, 0, &call), Ok(RECORD_BYTES));
        assert_eq!(again, bytes);
    }
}

#[test]
fn a_head_opens_the_books_of_its_admin() {
    let mut numbers = Numbers(204);
    let hold = |head: &[u8], admin| assert_eq!((log::admin(head), opened_for(head)), (admin, admin), "{head:?}");
    for admin in (0..1_000).map(|_| numbers.word().max(1)).chain([1, 256, 1 << 63, u64::MAX]).map(Account) {
        let head = log::head(admin).expect("an admin is not 0");
        hold(&head, Some(admin));
        hold(&head[..HEAD_BYTES - 1], None);
    }
    for at in 0..8 {
        for flip in 1..=255 {
            let mut changed = log::head(Account(7)).expect("an admin is not 0");
            changed[at] ^= flip;
            hold(&changed, None);
        }
    }
    hold(b"POL\x01\0\0\0\0\0\0\0\0\0\0\0\0", None);
}
