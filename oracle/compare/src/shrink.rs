//! Fewer calls that still show a difference.

use crate::counts::Counts;
use crate::difference::Difference;
use crate::history::finish;
use crate::pair::Pair;
use crate::words::Words;
use oracle::{Record, Rng};

/// How many shorter histories are tried.
const TRIES: usize = 3_000;

/// Cuts the calls after the first difference, then leaves out as many of the others as it can: halves, quarters, single ones.
pub fn fewest(start: &Words, records: Vec<Record>, difference: Difference) -> (Vec<Record>, Difference) {
    let mut least = (records, difference);
    let mut tries = 0;
    let mut width = least.0.len().div_ceil(2);
    while width > 0 {
        let mut at = 0;
        while at < least.0.len() && tries < TRIES {
            tries += 1;
            let mut fewer = least.0.clone();
            fewer.drain(at..(at + width).min(least.0.len()));
            match run(start, &fewer) {
                Err((used, difference)) => {
                    fewer.truncate(used);
                    least = (fewer, difference);
                }
                Ok(()) => at += width,
            }
        }
        width /= 2;
    }
    least
}

/// The first difference, and how many calls lead to it.
fn run(start: &Words, records: &[Record]) -> Result<(), (usize, Difference)> {
    let mut pair = Pair::over(start.clone());
    let mut answers = Vec::new();
    for (index, record) in records.iter().enumerate() {
        answers.push(pair.call(record).map_err(|difference| (index + 1, difference))?);
    }
    if pair.books().is_none() {
        return Ok(());
    }
    let mut counts = Counts::default();
    finish(&mut Rng(0), &mut pair, start, records, &answers, &mut counts)
        .map_err(|difference| (records.len(), difference))
}
