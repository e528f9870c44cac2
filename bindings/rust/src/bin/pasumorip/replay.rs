//! `pasumorip replay`: the printout of a log's answers.

use crate::arguments::Arguments;
use crate::fault::Fault;
use crate::files::Input;
use pasumorip::log::HEAD_BYTES;
use pasumorip::record::RECORD_BYTES;
use pasumorip::replay_watched;
use std::io::{self, BufWriter, IsTerminal, Write};
use std::time::{Duration, Instant};

pub fn run(arguments: &Arguments) -> Result<(), Fault> {
    let input = Input::open(arguments.file.as_deref())?;
    let mut progress = Progress::of(input.length);
    let mut out = BufWriter::new(io::stdout().lock());
    let end = replay_watched(input.reader, &mut out, |records| progress.show(records));
    progress.clear();
    let end = end?;
    out.flush()?;
    end.map(|_| ()).ok_or_else(|| Fault::no_log(&input.name))
}

/// A line on standard error that says how far a long replay is, where a person can see it.
struct Progress {
    records: Option<u64>,
    told: Option<Instant>,
    shown: bool,
}

const INTERVAL: Duration = Duration::from_millis(500);

impl Progress {
    fn of(length: Option<u64>) -> Progress {
        let records = length.map(|length| length.saturating_sub(HEAD_BYTES as u64) / RECORD_BYTES as u64);
        Progress { records, told: io::stderr().is_terminal().then(Instant::now), shown: false }
    }

    fn show(&mut self, run: u64) {
        match self.told {
            Some(told) if told.elapsed() >= INTERVAL => (),
            _ => return,
        }
        self.told = Some(Instant::now());
        self.shown = true;
        match self.records {
            Some(all) => eprint!("\r{run} of {all} records"),
            None => eprint!("\r{run} records"),
        }
    }

    fn clear(&self) {
        if self.shown {
            eprint!("\r\x1b[K");
        }
    }
}
