//! Accrued queries, aimed at the limits of their sums and at single units of yield.

mod aims;
mod cases;
mod plain;
#[cfg(test)]
mod slips;

pub use plain::Accrued;

use crate::counts::Counts;
use crate::difference::Failure;
use crate::pair::Pair;
use crate::words::Words;
use aims::{round, Aimed};

/// The round of a seed.
pub fn run(seed: u64, counts: &mut Counts) -> Result<(), Box<Failure>> {
    for Aimed { tables, queries } in round(seed) {
        let mut pair = Pair::over(Words::of(&tables));
        for query in queries {
            pair.ask(query, counts).map_err(|difference| {
                let origin = format!("accrued queries of seed {seed}");
                Box::new(Failure { origin, start: pair.words().clone(), records: vec![], difference })
            })?;
        }
    }
    Ok(())
}
