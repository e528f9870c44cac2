//! A log's head and records, read from bytes.

use super::{head, HEAD_BYTES};
use crate::numbers::Account;
use crate::record::RECORD_BYTES;
use std::io::{self, ErrorKind, Read};

/// The admin of a head, the inverse of [`head`]; none where the head is short or wrong, admin 0 included.
pub fn admin(bytes: &[u8]) -> Option<Account> {
    let bytes: [u8; HEAD_BYTES] = bytes.try_into().ok()?;
    let [.., a, b, c, d, e, f, g, h] = bytes;
    let admin = Account(u64::from_le_bytes([a, b, c, d, e, f, g, h]));
    (head(admin) == Ok(bytes)).then_some(admin)
}

/// Reads a log record by record, in the same memory for one of any length.
///
/// ```
/// use pasumorip::log::{self, LogReader};
/// use pasumorip::{Account, Call, Operation};
///
/// let pause = Call { now: 0, signer: Account(1), operation: Operation::Pause };
/// let head = log::head(Account(1)).expect("an admin is not 0");
/// let bytes = [&head[..], &pause.to_bytes(), b"cut"].concat();
/// let mut log = LogReader::open(&bytes[..])?;
/// assert_eq!(log::admin(log.head()), Some(Account(1)));
/// assert_eq!(log.next_record()?, Some(pause.to_bytes()));
/// assert_eq!(log.next_record()?, None);
/// assert_eq!(log.left_over(), b"cut");
/// # Ok::<(), std::io::Error>(())
/// ```
pub struct LogReader<R> {
    input: R,
    head: Vec<u8>,
    left_over: Vec<u8>,
}

impl<R: Read> LogReader<R> {
    /// Reads the head, whatever it is.
    pub fn open(mut input: R) -> io::Result<LogReader<R>> {
        let mut head = vec![0; HEAD_BYTES];
        let length = fill(&mut input, &mut head)?;
        head.truncate(length);
        Ok(LogReader { input, head, left_over: Vec::new() })
    }

    /// The first 16 bytes, or as many as there are.
    pub fn head(&self) -> &[u8] {
        &self.head
    }

    pub fn next_record(&mut self) -> io::Result<Option<[u8; RECORD_BYTES]>> {
        let mut record = [0; RECORD_BYTES];
        let length = fill(&mut self.input, &mut record)?;
        if length == RECORD_BYTES {
            return Ok(Some(record));
        }
        self.left_over = record[..length].to_vec();
        Ok(None)
    }

    /// The bytes behind the last whole record, once there is no next one.
    pub fn left_over(&self) -> &[u8] {
        &self.left_over
    }
}

/// Reads until the buffer is full or the input ends, and answers how much is there.
pub(crate) fn fill(input: &mut impl Read, buffer: &mut [u8]) -> io::Result<usize> {
    let mut length = 0;
    while length < buffer.len() {
        match input.read(&mut buffer[length..]) {
            Ok(0) => break,
            Ok(more) => length += more,
            Err(error) if error.kind() == ErrorKind::Interrupted => (),
            Err(error) => return Err(error),
        }
    }
    Ok(length)
}
