//! Questions, one per line: `stake pool=1 account=7`, `accrued pool=1 account=7 now=5`, `pool pool=1`, `count pool=1`,
//! `offer pool=1 offer=12`.

use super::fields::{lines, Fields};
use crate::question::Question;

pub fn parse_questions(text: &str) -> Result<Vec<Question>, String> {
    lines(text).map(|(at, line)| parse(line).map_err(|error| format!("line {at}: {error}"))).collect()
}

fn parse(line: &str) -> Result<Question, String> {
    let fields = Fields::of(line)?;
    let get = |wanted: &str| fields.get(wanted);
    let pool = get("pool")?;
    match fields.name {
        "stake" => Ok(Question::Stake { pool, account: get("account")? }),
        "accrued" => Ok(Question::Accrued { pool, account: get("account")?, now: get("now")? }),
        "pool" => Ok(Question::Pool { pool }),
        "count" => Ok(Question::Count { pool }),
        "offer" => Ok(Question::Offer { pool, offer: get("offer")? }),
        name => Err(format!("no question {name}")),
    }
}
