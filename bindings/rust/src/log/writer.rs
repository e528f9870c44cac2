//! The head and the records of a log, written by the library.

use super::{Row, HEAD_BYTES};
use crate::call::Call;
use crate::code::Code;
use crate::face;
use crate::numbers::Account;
use crate::record::RECORD_BYTES;

/// Writes the head of an admin's log into a buffer, from `at` on, and answers its 16 bytes. Admin 0 is refused with [`Code::Malformed`],
/// and else room for fewer than 16 bytes with [`Code::TableFull`]; then the buffer stays as it was.
///
/// ```
/// use pasumorip::{log, Account, Code};
///
/// let mut buffer = [0; 20];
/// assert_eq!(log::write_head(&mut buffer, 4, Account(7)), Ok(16));
/// assert_eq!(log::admin(&buffer[4..]), Some(Account(7)));
/// assert_eq!(log::write_head(&mut buffer, 5, Account(7)), Err(Code::TableFull));
/// assert_eq!(log::write_head(&mut buffer, 5, Account(0)), Err(Code::Malformed));
/// ```
pub fn write_head(buffer: &mut [u8], at: usize, admin: Account) -> Result<usize, Code> {
    Code::told(face::write_head(buffer, at, admin.0).into()).done()?;
    Ok(HEAD_BYTES)
}

/// Writes the record of a row into a buffer, from `at` on, and answers its 48 bytes. It reads back as the same row.
///
/// A row that is no call is refused with [`Code::Malformed`]; [`Flaw::of_row`](crate::Flaw::of_row) says why. No field is cut down: one that
/// is too wide for a record is refused as well. Else room for fewer than 48 bytes is refused with [`Code::TableFull`]; behind the buffer's
/// end there is none. After a refusal the buffer is as it was.
///
/// ```
/// use pasumorip::log::{self, Row};
/// use pasumorip::record::{Record, RECORD_BYTES};
/// use pasumorip::{Account, Code, Flaw};
///
/// let stake = Row { operation: 1, pool: 1, now: 1_763_107_260, signer: 7, subject: 7, amount: 4_000_000, ..Row::default() };
/// let mut buffer = [0; log::HEAD_BYTES + RECORD_BYTES];
/// let mut at = log::write_head(&mut buffer, 0, Account(1))?;
/// at += log::write_record(&mut buffer, at, &stake)?;
/// assert_eq!(at, buffer.len());
///
/// let record = Record::from_bytes(buffer.last_chunk().expect("48 bytes"));
/// assert_eq!(record.row(), Some(stake));
///
/// assert_eq!(log::write_record(&mut buffer, at, &stake), Err(Code::TableFull));
/// let wide = Row { operation: 257, ..stake };
/// assert_eq!(log::write_record(&mut buffer, at, &wide), Err(Code::Malformed));
/// assert_eq!(Flaw::of_row(&wide), Some(Flaw::UnknownOperation(257)));
/// # Ok::<(), Code>(())
/// ```
pub fn write_record(buffer: &mut [u8], at: usize, row: &Row) -> Result<usize, Code> {
    Code::told(face::write_record(buffer, at, *row).into()).done()?;
    Ok(RECORD_BYTES)
}

/// Writes the record of a call, as [`write_record`] does that of a row.
///
/// ```
/// use pasumorip::{log, Account, Call, Code, Operation};
///
/// let pause = Call { now: 0, signer: Account(1), operation: Operation::Pause };
/// let mut buffer = [0; 48];
/// assert_eq!(log::write_call(&mut buffer, 0, &pause), Ok(48));
/// assert_eq!(Call::from_bytes(&buffer), Ok(pause));
/// assert_eq!(log::write_call(&mut buffer, 0, &Call { signer: Account(0), ..pause }), Err(Code::Malformed));
/// ```
pub fn write_call(buffer: &mut [u8], at: usize, call: &Call) -> Result<usize, Code> {
    write_record(buffer, at, &call.row())
}

/// The head of an admin's log, as [`write_head`] writes it. Admin 0 has none, and is refused with [`Code::Malformed`].
///
/// ```
/// use pasumorip::{log, Account, Code};
///
/// let head = log::head(Account(1))?;
/// assert_eq!(&head[..5], b"POL\x01\x00");
/// assert_eq!(log::admin(&head), Some(Account(1)));
/// assert_eq!(log::head(Account(0)), Err(Code::Malformed));
/// # Ok::<(), Code>(())
/// ```
pub fn head(admin: Account) -> Result<[u8; HEAD_BYTES], Code> {
    let mut bytes = [0; HEAD_BYTES];
    write_head(&mut bytes, 0, admin)?;
    Ok(bytes)
}

/// The record of a row, as [`write_record`] writes it. A row that is no call has none, and is refused with [`Code::Malformed`].
pub fn record(row: &Row) -> Result<[u8; RECORD_BYTES], Code> {
    let mut bytes = [0; RECORD_BYTES];
    write_record(&mut bytes, 0, row)?;
    Ok(bytes)
}
