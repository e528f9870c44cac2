//! The log file and the printout of a replay.

use crate::desk::Desk;
use crate::record::Record;
use std::fmt::Write;

const HEAD_LENGTH: usize = 16;
const VERSION: u16 = 1;

pub struct Log {
    pub admin: u64,
    pub records: Vec<Record>,
    pub left_over: Vec<u8>,
}

/// The 16 bytes before the records.
pub fn head(admin: u64) -> [u8; HEAD_LENGTH] {
    let mut bytes = [0; HEAD_LENGTH];
    bytes[..3].copy_from_slice(b"POL");
    bytes[3..5].copy_from_slice(&VERSION.to_le_bytes());
    bytes[8..].copy_from_slice(&admin.to_le_bytes());
    bytes
}

impl Log {
    /// None where the head is short or wrong, admin 0 included.
    pub fn from_bytes(bytes: &[u8]) -> Option<Log> {
        let (start, rest) = bytes.split_at_checked(HEAD_LENGTH)?;
        let admin = u64::from_le_bytes(start[8..].try_into().expect("eight bytes"));
        if admin == 0 || start != head(admin) {
            return None;
        }
        let chunks = rest.chunks_exact(Record::LENGTH);
        let left_over = chunks.remainder().to_vec();
        let records = chunks.map(|chunk| Record::from_bytes(chunk.try_into().expect("48 bytes"))).collect();
        Some(Log { admin, records, left_over })
    }
}

/// Replays the log on the desk, which keeps the tables after it.
pub fn print_replay(log: &Log, desk: &mut Desk) -> String {
    let mut out = format!("POL {VERSION}\n");
    for (index, record) in log.records.iter().enumerate() {
        write!(out, "{} {}", index + 1, desk.call(record)).expect("a string takes any text");
    }
    writeln!(out, "end {} {}", log.records.len(), log.left_over.len()).expect("a string takes any text");
    out
}
