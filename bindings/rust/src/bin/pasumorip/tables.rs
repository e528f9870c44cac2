//! `pasumorip tables`: the tables after a log.

use crate::arguments::Arguments;
use crate::fault::Fault;
use crate::files::{self, Input};
use pasumorip::{replay, Account, Books, OfferFigures, OfferRow, Pool, PoolFigures, Rooms, Settings, StakeRow};
use std::io;

pub fn run(arguments: &Arguments) -> Result<(), Fault> {
    let input = Input::open(arguments.file.as_deref())?;
    let end = replay(input.reader, io::sink())?.ok_or_else(|| Fault::no_log(&input.name))?;
    let books = end.tables.books().map_err(|code| Fault::input(code.sentence()))?;
    let text = if arguments.has("--csv") { csv(&books) } else { text(&books, end.tables.rooms()) };
    files::print(&text)
}

fn text(books: &Books, rooms: Rooms) -> String {
    let mut text = format!("rooms {} {}\n", rooms.stakes, rooms.offers);
    for StakeRow { pool, account, stake, since, accrual } in &books.stakes {
        text += &format!("stake {} {account} {stake} {since} {accrual}\n", pool.number());
    }
    for OfferRow { pool, offer, figures: OfferFigures { reserved, paid } } in &books.offers {
        text += &format!("offer {} {offer} {reserved} {paid}\n", pool.number());
    }
    let of_pools =
        |figure: fn(&PoolFigures) -> i64| books.pools.each_ref().map(|pool| figure(pool).to_string()).join(" ");
    text += &format!("balances {}\n", of_pools(|pool| pool.balance));
    text += &format!("unpaid {}\n", of_pools(|pool| pool.unpaid));
    let Settings { admin, payout_caller, paused, rate } = books.settings;
    let caller = payout_caller.unwrap_or(Account(0));
    text + &format!("settings {admin} {caller} {} {rate}\n", u8::from(paused))
}

/// A row for each stake, offer and pool, and one for the settings; cells of other kinds of rows are empty.
fn csv(books: &Books) -> String {
    let name = |pool: &Pool| pool.name().to_lowercase();
    let mut text = "kind,pool,account,stake,since,accrual,offer,reserved,paid,balance,unpaid,".to_string();
    text += "admin,payout_caller,paused,rate\n";
    for StakeRow { pool, account, stake, since, accrual } in &books.stakes {
        text += &format!("stake,{},{account},{stake},{since},{accrual},,,,,,,,,\n", name(pool));
    }
    for OfferRow { pool, offer, figures: OfferFigures { reserved, paid } } in &books.offers {
        text += &format!("offer,{},,,,,{offer},{reserved},{paid},,,,,,\n", name(pool));
    }
    for pool in Pool::ALL {
        let PoolFigures { balance, unpaid } = books.pool(pool);
        text += &format!("pool,{},,,,,,,,{balance},{unpaid},,,,\n", name(&pool));
    }
    let Settings { admin, payout_caller, paused, rate } = books.settings;
    let caller = payout_caller.map_or(String::new(), |caller| caller.to_string());
    text + &format!("settings,,,,,,,,,,,{admin},{caller},{paused},{rate}\n")
}
