//! A writer in parts, so that a slip takes the place of one, and whether a few rounds find it.

use crate::guarded::Guarded;
use crate::writes::aims::round;
use crate::writes::compare;
use oracle::{Code, Piece, RecordFields};

const SEEDS: u64 = 2;

#[derive(Clone, Copy)]
pub struct Writer<'a> {
    pub malformed: &'a dyn Fn(&Piece) -> bool,
    /// The bytes left, by a buffer's length and a place.
    pub left: &'a dyn Fn(usize, usize) -> usize,
    pub needed: &'a dyn Fn(&Piece) -> usize,
    pub bytes: &'a dyn Fn(&Piece) -> Vec<u8>,
    pub room_first: bool,
    /// How many of the bytes a refusal writes.
    pub when_malformed: usize,
    pub when_full: usize,
}

pub const SOUND: Writer = Writer {
    malformed: &Piece::malformed,
    left: &usize::saturating_sub,
    needed: &|piece| piece.bytes().len(),
    bytes: &Piece::bytes,
    room_first: false,
    when_malformed: 0,
    when_full: 0,
};

impl Writer<'_> {
    pub fn write(&self, memory: &mut Guarded<u8>, at: usize, piece: &Piece) -> u8 {
        let bytes = (self.bytes)(piece);
        let malformed = (self.malformed)(piece);
        let full = (self.left)(memory.len(), at) < (self.needed)(piece);
        let (code, count) = if malformed && !(full && self.room_first) {
            (Code::Malformed, self.when_malformed)
        } else if full {
            (Code::TableFull, self.when_full)
        } else {
            (Code::Done, bytes.len())
        };
        memory.put(at, &bytes[..count]);
        code as u8
    }
}

/// Whether some write is done otherwise than it should be.
pub fn found(writer: Writer) -> bool {
    writing_found(|memory, at, piece| writer.write(memory, at, piece))
}

pub fn writing_found(writer: impl Fn(&mut Guarded<u8>, usize, &Piece) -> u8) -> bool {
    (0..SEEDS).flat_map(round).any(|write| compare(&write, &writer).is_err())
}

/// The same of other bytes of heads.
pub fn head_found(change: impl Fn(&mut Vec<u8>)) -> bool {
    bytes_found(|piece| matches!(piece, Piece::Head { .. }), change)
}

/// The same of other bytes of records.
pub fn record_found(change: impl Fn(&mut Vec<u8>)) -> bool {
    bytes_found(|piece| matches!(piece, Piece::Record(_)), change)
}

fn bytes_found(of: impl Fn(&Piece) -> bool, change: impl Fn(&mut Vec<u8>)) -> bool {
    let changed = |piece: &Piece| {
        let mut bytes = piece.bytes();
        if of(piece) {
            change(&mut bytes);
        }
        bytes
    };
    found(Writer { bytes: &changed, ..SOUND })
}

/// The same where some records are judged by other fields than they have.
pub fn judged_found(of: impl Fn(&RecordFields) -> bool, judged: impl Fn(&mut RecordFields)) -> bool {
    let malformed = |piece: &Piece| match *piece {
        Piece::Record(mut fields) if of(&fields) => {
            judged(&mut fields);
            Piece::Record(fields).malformed()
        }
        other => other.malformed(),
    };
    found(Writer { malformed: &malformed, ..SOUND })
}

/// The same where records are refused too that are not malformed.
pub fn refused_found(refused: impl Fn(&RecordFields) -> bool) -> bool {
    let malformed = |piece: &Piece| piece.malformed() || matches!(piece, Piece::Record(fields) if refused(fields));
    found(Writer { malformed: &malformed, ..SOUND })
}
