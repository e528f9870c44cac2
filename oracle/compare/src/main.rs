//! Compares the proved library with the oracle: after every call the answer, the transfers and all table words.

mod accrued;
mod beginnings;
mod cases;
mod counts;
mod difference;
mod guarded;
mod history;
mod lent;
mod lookups;
mod pair;
mod replayed;
mod short;
mod shrink;
mod words;
mod writes;

use counts::Counts;
use difference::Failure;
use oracle::{count_seed_threads, grouped, share_out};
use std::process::ExitCode;
use std::time::Instant;

const USAGE: &str = "usage: compare CALLS [SEED [THREADS]]
  CALLS    calls in random histories, besides the short inputs
  SEED     the first history's seed, 1 where none is given
  THREADS  as many as there are processors where none is given";

/// Every so many calls of histories one round of lent tables is tried.
const CALLS_PER_LENT_ROUND: u64 = 1_000;

/// And every so many calls one round of accrued queries.
const CALLS_PER_ACCRUED_ROUND: u64 = 2_500;

/// And every so many one round of lookups.
const CALLS_PER_LOOKUPS_ROUND: u64 = 5_000;

/// And every so many one round of writes.
const CALLS_PER_WRITES_ROUND: u64 = 500;

/// A part of the work that stands by itself.
enum Job {
    Beginnings,
    Short { book: usize },
    Lent { seed: u64 },
    Accrued { seed: u64 },
    Lookups { seed: u64 },
    Writes { seed: u64 },
    History { seed: u64, most: usize },
}

impl Job {
    /// Answers how many calls it had.
    fn run(&self, counts: &mut Counts) -> Result<u64, Box<Failure>> {
        let before = counts.calls();
        match *self {
            Job::Beginnings => beginnings::run(counts),
            Job::Short { book } => short::run(book, counts),
            Job::Lent { seed } => lent::run(seed, counts),
            Job::Accrued { seed } => accrued::run(seed, counts),
            Job::Lookups { seed } => lookups::run(seed, counts),
            Job::Writes { seed } => writes::run(seed, counts),
            Job::History { seed, most } => history::run(seed, most, counts),
        }?;
        Ok(counts.calls() - before)
    }
}

/// The jobs of a run, the same for the same arguments, and the seed after the last.
fn jobs(calls: u64, seed: u64) -> (Vec<Job>, u64) {
    let mut jobs = vec![Job::Beginnings];
    jobs.extend((0..short::BOOKS.len()).map(|book| Job::Short { book }));
    let seeds = |rounds: u64| (0..=rounds).map(move |round| seed.wrapping_add(round));
    jobs.extend(seeds(calls / CALLS_PER_LENT_ROUND).map(|seed| Job::Lent { seed }));
    jobs.extend(seeds(calls / CALLS_PER_ACCRUED_ROUND).map(|seed| Job::Accrued { seed }));
    jobs.extend(seeds(calls / CALLS_PER_LOOKUPS_ROUND).map(|seed| Job::Lookups { seed }));
    jobs.extend(seeds(calls / CALLS_PER_WRITES_ROUND).map(|seed| Job::Writes { seed }));
    let (mut left, mut next) = (calls, seed);
    while left > 0 {
        let most = left.min(history::calls(next) as u64);
        jobs.push(Job::History { seed: next, most: most as usize });
        left -= most;
        next = next.wrapping_add(1);
    }
    (jobs, next)
}

fn main() -> ExitCode {
    let Some([calls, seed, threads]) = count_seed_threads() else {
        eprintln!("{USAGE}");
        return ExitCode::FAILURE;
    };
    let started = Instant::now();
    let (jobs, end) = jobs(calls, seed);
    let counts = match run(&jobs, threads, started) {
        Ok(counts) => counts,
        Err(failure) => {
            eprintln!("{failure}");
            return ExitCode::FAILURE;
        }
    };
    let missed = [
        ("accrued query", counts.accrued.missed()),
        ("lookup", counts.lookups.missed()),
        ("write", counts.writes.missed()),
    ];
    for (kind, missed) in missed {
        if let Some(case) = missed {
            eprintln!("compare: there was no {kind} {case}");
            return ExitCode::FAILURE;
        }
    }
    println!(
        "{} calls, of which {} in histories of seeds {seed} to {}; {} s; 0 differences\n\n{counts}",
        grouped(counts.calls()),
        grouped(calls),
        end.wrapping_sub(1),
        started.elapsed().as_secs(),
    );
    ExitCode::SUCCESS
}

fn run(jobs: &[Job], threads: u64, started: Instant) -> Result<Counts, Box<Failure>> {
    let counted = share_out(jobs, threads, Job::run, |calls| {
        let (calls, seconds) = (grouped(calls), started.elapsed().as_secs());
        eprintln!("compare: {calls} calls compared, {seconds} s, 0 differences so far");
    })?;
    let mut sum = Counts::default();
    counted.iter().for_each(|counts| sum.add(counts));
    Ok(sum)
}
