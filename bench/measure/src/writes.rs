//! Records written from rows in memory into one buffer: the library beside an idiomatic writer.

use crate::engines::RECORD;
use crate::logs::Log;
use crate::turns::each;
use idiomatic::{Record, Row};
use std::cell::RefCell;
use std::hint::black_box;

/// So many rows and their records stay in the processor's cache.
const FEW: usize = 1_000;

/// So many rows are written in a turn, the same ones again where there are fewer.
const A_TURN: usize = 1_000_000;

pub fn print(log: &Log, turns: usize) {
    println!("## Writing records from rows in memory\n");
    println!(
        "The rows of the {} log, one after the other into one buffer. A row that is malformed is refused.\n",
        log.name
    );
    println!("| rows | proved, records/s | idiomatic, records/s | proved to idiomatic |\n|---|---:|---:|---:|");
    let rows: Vec<Row> = log.timed.as_chunks().0.iter().map(|bytes| Record::from_bytes(bytes).row()).collect();
    for rows in [&rows[..FEW.min(rows.len())], &rows] {
        let [proved, idiomatic] = per_row(rows, turns);
        let rate = |nanoseconds: f64| format!("{:.0}", 1e9 / nanoseconds);
        println!("| {} | {} | {} | {:.2} |", rows.len(), rate(proved), rate(idiomatic), idiomatic / proved);
    }
    println!();
}

/// Nanoseconds per row of each, once both have written the same.
fn per_row(rows: &[Row], turns: usize) -> [f64; 2] {
    let buffer = RefCell::new(vec![0; rows.len() * RECORD]);
    let write = |writer: Writer| writer(black_box(rows), &mut buffer.borrow_mut());
    let written = |writer: Writer| {
        buffer.borrow_mut().fill(0);
        let end = write(writer);
        buffer.borrow()[..end].to_vec()
    };
    assert!(written(proved) == written(idiomatic), "proved and idiomatic write alike");
    let times = A_TURN.div_ceil(rows.len());
    let works = each(turns, times, [&mut |_| _ = black_box(write(proved)), &mut |_| _ = black_box(write(idiomatic))]);
    works.map(|nanoseconds| nanoseconds / rows.len() as f64)
}

/// Answers how many bytes it wrote.
type Writer = fn(&[Row], &mut [u8]) -> usize;

fn proved(rows: &[Row], buffer: &mut [u8]) -> usize {
    write_each(rows, buffer, |row, buffer, at| {
        let Row { operation, pool, reply, now, signer, subject, other, amount } = *row;
        let row = proved::Row { operation, pool, reply, now, signer, subject, other, amount };
        proved::write_record(buffer, at, row) == 0
    })
}

fn idiomatic(rows: &[Row], buffer: &mut [u8]) -> usize {
    write_each(rows, buffer, |row, buffer, at| row.write(buffer, at).is_ok())
}

fn write_each(rows: &[Row], buffer: &mut [u8], write: impl Fn(&Row, &mut [u8], usize) -> bool) -> usize {
    rows.iter().fold(0, |end, row| if write(row, buffer, end) { end + RECORD } else { end })
}
