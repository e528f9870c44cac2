//! `pasumorip write` and `pasumorip read`: logs as lines of named fields, in text and in CSV.

mod csv;
mod entry;
mod fields;
mod lines;
mod order;
#[cfg(test)]
mod round_trips;
mod values;
mod written;

use crate::arguments::Arguments;
use crate::fault::Fault;
use crate::files::{self, Input};
use entry::Entry;
use pasumorip::log::LogReader;
use std::io::{self, BufWriter, IsTerminal, Read, Write};

/// The log of a text or a CSV: written whole, or not at all.
pub fn write(arguments: &Arguments) -> Result<(), Fault> {
    if io::stdout().is_terminal() {
        return Err(Fault::usage("a log is bytes: send it to a file with '> LOG'"));
    }
    let input = Input::open(arguments.file.as_deref())?;
    let name = input.name.clone();
    let log = log_of(&input.text()?, arguments.has("--csv"));
    files::print_bytes(&log.map_err(|error| Fault::input(format!("{name}, {error}")))?)
}

fn log_of(text: &str, csv: bool) -> Result<Vec<u8>, String> {
    let entries = if csv { csv::entries(text) } else { lines::entries(text) };
    let mut log: Option<Vec<u8>> = None;
    for (line, entry) in entries? {
        let bytes = order::may_follow(log.as_deref(), &entry.call).and_then(|()| written::bytes_of(&entry));
        log.get_or_insert_default().extend(bytes.map_err(|error| format!("line {line}: {error}"))?);
    }
    order::whole(log)
}

pub fn read(arguments: &Arguments) -> Result<(), Fault> {
    let input = Input::open(arguments.file.as_deref())?;
    Ok(print(input.reader, arguments.has("--csv"), BufWriter::new(io::stdout().lock()))?)
}

/// The lines of a log, as they come.
fn print(log: impl Read, csv: bool, mut out: impl Write) -> io::Result<()> {
    let mut log = LogReader::open(log)?;
    if csv {
        writeln!(out, "{}", csv::header())?;
    }
    let mut line = 0;
    let mut print = |entry: &Entry| {
        let text = if csv { csv::row(line, entry) } else { lines::line(entry) };
        line += 1;
        writeln!(out, "{text}")
    };
    print(&Entry::of_head(log.head()))?;
    while let Some(record) = log.next_record()? {
        print(&Entry::of_record(&record))?;
    }
    if !log.left_over().is_empty() {
        print(&Entry::of_left_over(log.left_over()))?;
    }
    out.flush()
}
