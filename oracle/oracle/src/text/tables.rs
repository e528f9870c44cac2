//! Tables as text: rooms, used rows in order, balances, unpaid sums, settings; signed where signed.

use super::fields::{lines, numbers};
use crate::tables::{Rooms, Tables};
use std::fmt::Write;

pub fn print_tables(tables: &Tables) -> String {
    let mut text = String::new();
    write(tables, &mut text).expect("a string takes any text");
    text
}

fn write(tables: &Tables, out: &mut String) -> std::fmt::Result {
    let Rooms { stakes, offers } = tables.rooms();
    writeln!(out, "rooms {stakes} {offers}")?;
    // The zero rows behind the last used one go without saying.
    let used = |last: Option<usize>| last.map_or(0, |last| last + 1);
    let stake_rows = used(tables.stakes.iter().rposition(|row| *row != [0; 5]));
    let offer_rows = used(tables.offers.iter().rposition(|row| *row != [0; 4]));
    for [pool, account, stake, since, accrual] in &tables.stakes[..stake_rows] {
        writeln!(out, "stake {pool} {account} {} {since} {}", *stake as i64, *accrual as i64)?;
    }
    for [pool, offer, reserved, paid] in &tables.offers[..offer_rows] {
        writeln!(out, "offer {pool} {offer} {} {}", *reserved as i64, *paid as i64)?;
    }
    let [a, b, c, d] = tables.balances.map(|word| word as i64);
    writeln!(out, "balances {a} {b} {c} {d}")?;
    let [a, b, c, d] = tables.unpaid.map(|word| word as i64);
    writeln!(out, "unpaid {a} {b} {c} {d}")?;
    let [admin, caller, paused, rate] = tables.settings;
    writeln!(out, "settings {admin} {caller} {paused} {rate}")
}

pub fn parse_tables(text: &str) -> Result<Tables, String> {
    let mut tables =
        Tables { stakes: Vec::new(), offers: Vec::new(), balances: [0; 4], unpaid: [0; 4], settings: [0; 4] };
    let mut rooms = Rooms::FULL;
    for (at, line) in lines(text) {
        let words: Vec<&str> = line.split_whitespace().collect();
        parse_line(&words, &mut tables, &mut rooms).map_err(|error| format!("line {at}: {error}"))?;
    }
    if tables.stakes.len() > rooms.stakes || tables.offers.len() > rooms.offers {
        return Err("more rows than rooms".to_string());
    }
    tables.stakes.resize(rooms.stakes, [0; 5]);
    tables.offers.resize(rooms.offers, [0; 4]);
    Ok(tables)
}

/// A word is an unsigned number, or a negative one as its two's complement.
fn words<const N: usize>(figures: &[&str]) -> Result<[u64; N], String> {
    Ok(numbers::<i128, N>(figures)?.map(|figure| figure as u64))
}

fn parse_line(line: &[&str], tables: &mut Tables, rooms: &mut Rooms) -> Result<(), String> {
    match line {
        ["rooms", figures @ ..] => {
            let [stakes, offers] = numbers(figures)?;
            *rooms = Rooms { stakes, offers };
        }
        ["stake", figures @ ..] => tables.stakes.push(words(figures)?),
        ["offer", figures @ ..] => tables.offers.push(words(figures)?),
        ["balances", figures @ ..] => tables.balances = words(figures)?,
        ["unpaid", figures @ ..] => tables.unpaid = words(figures)?,
        ["settings", figures @ ..] => tables.settings = words(figures)?,
        _ => return Err(format!("no such line: {}", line.join(" "))),
    }
    Ok(())
}
