//! Replay of a log: the printout of all its answers.

use crate::code::Code;
use crate::face;
use crate::log::{fill, HEAD_BYTES, VERSION};
use crate::record::RECORD_BYTES;
use crate::tables::{Rooms, Tables};
use std::io::{self, Read, Write};

/// Records are read and printed in parts, so that a log of any length takes the same memory. The library tests the tables once a part.
const PART_BYTES: usize = 4096 * RECORD_BYTES;
const TEXT_BYTES: usize = 256 * 1024;

/// How a replay ended.
#[derive(Clone, Debug, PartialEq, Eq)]
pub struct Ended {
    /// The records run.
    pub records: u64,
    /// The bytes behind the last whole record.
    pub left_over: usize,
    /// The tables after the last record.
    pub tables: Tables,
}

/// Replays a log on a fresh set of full rooms and writes the printout: the version, a line per record and per transfer, the end. Where the
/// log's head is short or wrong the printout is `bad header`, and there is no end.
///
/// ```
/// use pasumorip::{log, replay, Account, Call, Operation};
///
/// let pause = Call { now: 0, signer: Account(1), operation: Operation::Pause };
/// let mut bytes = log::head(Account(1)).expect("an admin is not 0").to_vec();
/// bytes.extend(pause.to_bytes());
/// let mut printout = Vec::new();
/// let end = replay(&bytes[..], &mut printout)?.expect("the head is good");
/// assert_eq!(printout, b"POL 1\n1 0 0 0\nend 1 0\n");
/// assert!(end.tables.books().expect("a replay keeps tables well formed").settings.paused);
/// # Ok::<(), std::io::Error>(())
/// ```
pub fn replay(log: impl Read, printout: impl Write) -> io::Result<Option<Ended>> {
    replay_watched(log, printout, |_| ())
}

/// As [`replay`], and tells the watcher how many records are run, part by part.
pub fn replay_watched(
    mut log: impl Read,
    mut printout: impl Write,
    mut watch: impl FnMut(u64),
) -> io::Result<Option<Ended>> {
    let mut head = [0; HEAD_BYTES];
    let length = fill(&mut log, &mut head)?;
    let Ok(mut tables) = Tables::open(Rooms::FULL, &head[..length]) else {
        writeln!(printout, "bad header")?;
        return Ok(None);
    };
    writeln!(printout, "POL {VERSION}")?;
    let mut part = vec![0; PART_BYTES];
    let mut text = vec![0; TEXT_BYTES];
    let mut records = 0;
    let left_over = loop {
        let length = fill(&mut log, &mut part)?;
        let left_over = length % RECORD_BYTES;
        run(&mut tables, &part[..length - left_over], &mut records, &mut text, &mut printout)?;
        watch(records);
        if length < PART_BYTES {
            break left_over;
        }
    };
    writeln!(printout, "end {records} {left_over}")?;
    printout.flush()?;
    Ok(Some(Ended { records, left_over, tables }))
}

/// Runs whole records, as many at a time as the text has room for.
fn run(
    tables: &mut Tables,
    mut part: &[u8],
    records: &mut u64,
    text: &mut [u8],
    printout: &mut impl Write,
) -> io::Result<()> {
    while !part.is_empty() {
        let mut progress = [*records, 0, 0];
        let code = Code::told(face::replay(tables.lend(), part, text, &mut progress).into());
        let [run, taken, written] = progress;
        assert!(code == Code::Done && taken > 0, "the library stopped within a log: {code}, {taken} bytes taken");
        *records = run;
        part = &part[taken as usize..];
        printout.write_all(&text[..written as usize])?;
    }
    Ok(())
}
