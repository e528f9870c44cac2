//! Times the proved replay, the idiomatic engine and the original module in one process, then the writers of records, and prints the report as
//! Markdown.

mod engines;
mod logs;
mod operations;
mod queries;
mod turns;
mod writes;

use engines::{drop_text, fresh, Engine, RECORD};
use logs::{Log, ADMIN};
use std::env;
use std::process::ExitCode;

const USAGE: &str = "usage: measure RECORDS [TURNS]
  RECORDS  records of each log
  TURNS    turns of which the least counts, 5 where none is given";

/// As many records as the original is given of a log.
const ORIGINAL_RECORDS: usize = 20_000;

/// Short runs are more easily disturbed.
const SHORT_TURNS: usize = 3;

const SEED: u64 = 1;

fn main() -> ExitCode {
    let arguments: Vec<String> = env::args().skip(1).collect();
    let numbers: Option<Vec<usize>> = arguments.iter().map(|number| number.parse().ok()).collect();
    let (records, turns) = match numbers.as_deref() {
        Some(&[records]) if records > 0 => (records, 5),
        Some(&[records, turns]) if records > 0 && turns > 0 => (records, turns),
        _ => {
            eprintln!("{USAGE}");
            return ExitCode::FAILURE;
        }
    };
    let of_short = SHORT_TURNS * turns;
    println!(
        "On {}: the least of {turns} turns, of {of_short} where runs are short, the engines taking turns.\n",
        env::consts::ARCH
    );
    replays(records, turns);
    operations(turns);
    queries::print(of_short);
    writes::print(&logs::mixed(records, SEED), of_short);
    ExitCode::SUCCESS
}

fn replays(records: usize, turns: usize) {
    let prefix = records.min(ORIGINAL_RECORDS);
    println!("## Replay of {records} records (the original: of the first {prefix})\n");
    println!("| log | proved, records/s | idiomatic, records/s | original, records/s | proved to idiomatic | proved to original |");
    println!("|---|---:|---:|---:|---:|---:|");
    for log in [logs::mixed(records, SEED), logs::full(records, SEED)] {
        let engines = prepared(&log, prefix);
        let times = turns::per_record(&engines, &[&log.timed, &log.timed, &log.timed[..prefix * RECORD]], turns);
        let [proved, idiomatic, original] = times[..] else { unreachable!("three engines") };
        let rate = |nanoseconds: f64| format!("{:.0}", 1e9 / nanoseconds);
        println!(
            "| {} | {} | {} | {} | {:.2} | {:.1} |",
            log.name,
            rate(proved),
            rate(idiomatic),
            rate(original),
            idiomatic / proved,
            original / proved
        );
    }
    println!();
}

/// The engines after the log's beginning, held to the same text: two on all of it, the original on its part.
fn prepared(log: &Log, prefix: usize) -> [Box<dyn Engine>; 3] {
    let engines = fresh(ADMIN).map(|mut engine| {
        engine.run(&log.before, &mut drop_text);
        engine
    });
    let text = |engine: &dyn Engine, records: &[u8]| {
        let mut all = Vec::new();
        engine.copy().run(records, &mut |part| all.extend_from_slice(part));
        all
    };
    let [proved, idiomatic, original] = [0, 1, 2].map(|at: usize| engines[at].as_ref());
    let whole = text(proved, &log.timed);
    assert!(whole == text(idiomatic, &log.timed), "{}: proved and idiomatic print alike", log.name);
    let part = text(original, &log.timed[..prefix * RECORD]);
    assert!(whole.starts_with(&part), "{}: proved and original print alike", log.name);
    engines
}

fn operations(turns: usize) {
    println!("## One operation, by rows in use: nanoseconds per record, with its text\n");
    println!("All rows are of one pool. Columns: proved / idiomatic / original.\n");
    println!("| operation | {} |", operations::ROWS.map(|rows| format!("{rows} rows")).join(" | "));
    println!("|---|{}", "---:|".repeat(operations::ROWS.len()));
    for operation in &operations::OPERATIONS {
        let cells = operations::ROWS.map(|rows| {
            let times = operations::measure(operation, rows, SHORT_TURNS * turns);
            times.iter().map(|time| format!("{time:.0}")).collect::<Vec<_>>().join(" / ")
        });
        println!("| {} | {} |", operation.name, cells.join(" | "));
    }
    println!();
}
