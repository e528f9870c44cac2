//! Lookups, one per line: `stake pool=1 account=7`, `offer pool=1 offer=12`; and their answers, alike.

use super::fields::{lines, Fields};
use crate::answer::Code;
use crate::lookup::{lookup_words, Found, Lookup};

pub fn parse_lookups(text: &str) -> Result<Vec<Lookup>, String> {
    lines(text).map(|(at, line)| parse(line).map_err(|error| format!("line {at}: {error}"))).collect()
}

fn parse(line: &str) -> Result<Lookup, String> {
    let fields = Fields::of(line)?;
    match fields.name {
        "stake" => Ok(Lookup::Stake { pool: fields.get("pool")?, account: fields.get("account")? }),
        "offer" => Ok(Lookup::Offer { pool: fields.get("pool")?, offer: fields.get("offer")? }),
        name => Err(format!("no lookup {name}")),
    }
}

/// Code, 1 for a row and 0 for none, its place, how many rows were read.
pub fn print_found(told: &Result<Found, Code>) -> String {
    lookup_words(told).map(|word| word.to_string()).join(" ") + "\n"
}
