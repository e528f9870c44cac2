//! Every kept history, replayed and run call by call, gives the kept answers and tables.

use crate::kept;
use pasumorip::log::HEAD_BYTES;
use pasumorip::record::RECORD_BYTES;
use pasumorip::{replay, Rooms, Tables};
use std::io::Read;

#[test]
fn replay_prints_the_kept_answers() {
    for log in kept::files(&kept::folder(), "log") {
        if kept::rooms(&log) != Rooms::FULL {
            continue;
        }
        let mut printout = Vec::new();
        let end = replay(&kept::read(&log)[..], &mut printout).expect("memory takes any text");
        assert_eq!(String::from_utf8_lossy(&printout), kept::text(&log.with_extension("out")), "{}", log.display());
        let Some(end) = end else { continue };
        assert_eq!(end.tables, kept::tables(&log.with_extension("tables")), "{}", log.display());
    }
}

/// Gives out a few bytes at a time, never a whole record.
struct Drops<'a>(&'a [u8]);

impl Read for Drops<'_> {
    fn read(&mut self, buffer: &mut [u8]) -> std::io::Result<usize> {
        let few = buffer.len().min(7);
        self.0.read(&mut buffer[..few])
    }
}

#[test]
fn replay_reads_a_log_longer_than_its_memory_in_drops() {
    let log = kept::read(&kept::folder().join("claim.log"));
    let (head, records) = log.split_at(HEAD_BYTES);
    let times = 40;
    let long = [head, &records.repeat(times), &[1, 2, 3]].concat();
    let mut watched = Vec::new();
    let mut printout = Vec::new();
    let end = pasumorip::replay_watched(Drops(&long), &mut printout, |records| watched.push(records));
    let end = end.expect("memory takes any text").expect("the head is good");
    let count = (records.len() / RECORD_BYTES * times) as u64;
    assert_eq!((end.records, end.left_over), (count, 3));
    assert!(watched.len() > 1 && watched.last() == Some(&count), "{watched:?}");
    let text = String::from_utf8(printout).expect("a printout is text");
    assert!(text.ends_with(&format!("\nend {count} 3\n")));

    let mut tables = Tables::open(Rooms::FULL, head).expect("the head is good");
    let answers = records.repeat(times);
    let answers = answers.chunks_exact(RECORD_BYTES).enumerate();
    let one_by_one: String = answers
        .map(|(index, record)| format!("{} {}", index + 1, kept::printed(&tables.apply_record(record))))
        .collect();
    assert_eq!(text, format!("POL 1\n{one_by_one}end {count} 3\n"));
    assert_eq!(tables, end.tables);
}

#[test]
fn calls_one_by_one_give_the_kept_answers_and_tables() {
    for log in kept::files(&kept::folder(), "log") {
        let bytes = kept::read(&log);
        let opened = bytes.get(..HEAD_BYTES).map(|head| Tables::open(kept::rooms(&log), head));
        let Some(Ok(mut tables)) = opened else {
            assert_eq!(kept::text(&log.with_extension("out")), "bad header\n");
            continue;
        };
        let mut text = "POL 1\n".to_string();
        let records = bytes[HEAD_BYTES..].chunks_exact(RECORD_BYTES);
        let left_over = records.remainder().len();
        let mut count = 0;
        for record in records {
            count += 1;
            text += &format!("{count} {}", kept::printed(&tables.apply_record(record)));
        }
        text += &format!("end {count} {left_over}\n");
        assert_eq!(text, kept::text(&log.with_extension("out")), "{}", log.display());
        assert_eq!(tables, kept::tables(&log.with_extension("tables")), "{}", log.display());
    }
}
