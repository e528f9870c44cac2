//! Lookups of rows, aimed at numbers of used rows that are powers of two or one below, and at rows and the gaps around them.

mod aims;
mod cases;
#[cfg(test)]
mod slips;

pub use aims::{around, few};
pub use cases::Looked;

use crate::counts::Counts;
use crate::difference::Failure;
use crate::pair::Pair;
use aims::{round, Aimed};

/// The round of a seed.
pub fn run(seed: u64, counts: &mut Counts) -> Result<(), Box<Failure>> {
    for Aimed { words, lookups } in round(seed) {
        let mut pair = Pair::over(words);
        for lookup in lookups {
            pair.look_up(lookup, counts).map_err(|difference| {
                let origin = format!("lookups of seed {seed}");
                Box::new(Failure { origin, start: pair.words().clone(), records: vec![], difference })
            })?;
        }
    }
    Ok(())
}
