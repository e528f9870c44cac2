//! Writes of heads and records, aimed at the limits of every field and at rooms of as many bytes as are needed or one fewer.

mod aims;
mod cases;
#[cfg(test)]
mod slips;

pub use cases::Wrote;

use crate::counts::Counts;
use crate::difference::{same, same_bytes, Difference, Failure};
use crate::guarded::Guarded;
use aims::round;
use oracle::{Code, Log, Piece, Record, RecordFields, Write};
use proved::Row;

/// What is around a lent buffer.
const FILL: u8 = 0xa5;

/// The round of a seed.
pub fn run(seed: u64, counts: &mut Counts) -> Result<(), Box<Failure>> {
    for write in round(seed) {
        let compared = compare(&write, library).and_then(|(code, buffer)| read_again(&write, code, &buffer));
        let code = compared.map_err(|difference| {
            let Write { piece, at, before } = &write;
            let origin = format!("writes of seed {seed}: {piece:?} at {at} of {} bytes", before.len());
            Failure::without_tables(origin, difference)
        })?;
        counts.writes.count(&Wrote { write, code });
    }
    Ok(())
}

fn library(buffer: &mut Guarded<u8>, at: usize, piece: &Piece) -> u8 {
    match *piece {
        Piece::Head { admin } => proved::write_head(buffer, at, admin),
        Piece::Record(fields) => proved::write_record(buffer, at, row(fields)),
    }
}

fn row(fields: RecordFields) -> Row {
    let RecordFields { operation, pool, reply, now, signer, subject, other, amount } = fields;
    Row { operation, pool, reply, now, signer, subject, other, amount }
}

/// Holds a writer's code and all bytes of the buffer to the oracle's, and the guards around it. Answers the code and the buffer.
fn compare(
    write: &Write,
    writer: impl Fn(&mut Guarded<u8>, usize, &Piece) -> u8,
) -> Result<(Code, Guarded<u8>), Difference> {
    let (code, wanted) = write.done();
    let mut buffer = Guarded::new(&write.before, FILL);
    let told = writer(&mut buffer, write.at, &write.piece);
    same("a write's code", code as u8, told)?;
    same_bytes("the buffer after a write", &wanted, &buffer)?;
    same("the guards of a buffer", true, buffer.intact())?;
    Ok((code, buffer))
}

/// "What is written reads back as the same call"; and Malformed is what the library itself finds so, on the smallest fresh set.
fn read_again(write: &Write, code: Code, buffer: &[u8]) -> Result<Code, Difference> {
    let (mut stakes, mut offers, mut books) = ([0; 5], [0; 4], [0; 12]);
    books[8] = 1;
    let tables = [&mut stakes[..], &mut offers, &mut books];
    let written = buffer.get(write.at..).filter(|_| code == Code::Done);
    match write.piece {
        Piece::Head { admin } => {
            if let Some(head) = written.and_then(|written| written.get(..16)) {
                same("a head read again", Some(admin), Log::from_bytes(head).map(|log| log.admin))?;
                same("a head opened", Code::Done as u8, proved::open(tables, head))?;
            }
        }
        Piece::Record(fields) => {
            if let Some(record) = fields.record() {
                let told = proved::apply(tables, &record.to_bytes(), &mut [0; 9]);
                same("whether its record is Malformed", code == Code::Malformed, told == Code::Malformed as u8)?;
            }
            if let Some(record) = written.and_then(|written| written.first_chunk()) {
                same("a record read again", fields.record(), Some(Record::from_bytes(record)))?;
            }
        }
    }
    Ok(code)
}

/// "every record read and not Malformed writes back as the same bytes", and one that is Malformed is refused: a record, and the code of its
/// call. Where spare bytes say something there are no fields for them.
pub fn write_back(record: &Record, code: Code) -> Result<(), Difference> {
    const LENT: std::ops::Range<usize> = 16..64;
    let Some(fields) = RecordFields::of(record) else {
        return Ok(());
    };
    let [mut memory, mut wanted] = [[FILL; 80]; 2];
    let told = proved::write_record(&mut memory[LENT], 0, row(fields));
    if code == Code::Malformed {
        same("the code of a record written back", code as u8, told)?;
    } else {
        same("the code of a record written back", Code::Done as u8, told)?;
        wanted[LENT].copy_from_slice(&record.to_bytes());
    }
    same_bytes("a record written back, with 16 bytes before it", &wanted, &memory)
}
