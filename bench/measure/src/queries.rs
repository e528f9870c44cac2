//! What the C face shows of single steps: the table test, and a yield by the queries.

use crate::engines::{drop_text, Engine, Proved};
use crate::logs::{Author, ADMIN, START};
use crate::operations::ROWS;
use crate::turns::{each, once};
use proved::Query;
use std::hint::black_box;

/// Proved tables with so many equal stakes of one pool and half as many offers, and no room that is not needed where `tight`.
fn tables(rows: usize, tight: bool, stake: i64) -> Proved {
    let mut author = Author::new(1);
    (0..rows).for_each(|at| author.stake(1, 1_000 + at as u64, stake));
    (0..rows / 2).for_each(|at| author.reserve(1, 1 + at as u64, 1_000));
    let mut tables = Proved::fresh(ADMIN);
    tables.run(&author.take(), &mut drop_text);
    if tight {
        tables.stakes.truncate(5 * rows);
        tables.offers.truncate(4 * (rows / 2).max(1));
    }
    tables
}

fn ask(tables: &Proved, kind: u64, time: u64) -> u64 {
    let query = Query { kind, pool: 1, number: 1_000, time: black_box(time) };
    let mut answer = [0; 3];
    assert_eq!(proved::query([&tables.stakes, &tables.offers, &tables.books], query, &mut answer), 0);
    answer[1]
}

pub fn print(turns: usize) {
    table_test(turns);
    one_yield(turns);
}

/// A replay of no records is the table test and nothing else.
fn table_test(turns: usize) {
    println!("## Table test, nanoseconds (a replay of no records)\n");
    println!("| rows in use | {} |", ROWS.map(|rows| rows.to_string()).join(" | "));
    println!("|---|{}", "---:|".repeat(ROWS.len()));
    for (name, tight) in [("1,024 and 512 rows lent", false), ("no more rows lent than are in use", true)] {
        let cells = ROWS.map(|rows| {
            let mut tables = tables(rows, tight, 1_000_000_000);
            let time = once(turns, 1_000, || {
                let Proved { stakes, offers, books, .. } = &mut tables;
                assert_eq!(proved::replay([stakes, offers, books], &[], &mut [], &mut [0; 3]), 0);
            });
            format!("{time:.0}")
        });
        println!("| {name} | {} |", cells.join(" | "));
    }
    println!();
}

/// The face has no multiply-and-divide of its own: an accrued query on one row does one more than a stake query. All products here have
/// more than 64 bits, and the seconds elapsed differ from call to call, so that the processor foresees no answer.
fn one_yield(turns: usize) {
    println!("## One multiply-and-divide of a product of two limbs, nanoseconds\n");
    println!("The C face has none of its own: on one row an accrued query computes one yield more than a stake query, and adds it up.");
    println!("`i128` is the same yield as the Rust writes it, less the time of handing over its operands.\n");
    println!(
        "| yield | accrued query | stake query | their difference | `i128` | ratio |\n|---|---:|---:|---:|---:|---:|"
    );
    for (name, principal) in [("below 2^32", 1_000_000_000), ("above 2^32", 1_000_000_000_000_000)] {
        let tables = tables(1, true, principal);
        let operands = |at| black_box([principal.into(), 500i128, elapsed(at).into()]);
        let [accrued, stake, with, without] = each(
            turns,
            200_000,
            [
                &mut |at| _ = black_box(ask(&tables, 2, START + elapsed(at))),
                &mut |_| _ = black_box(ask(&tables, 1, 0)),
                &mut |at| _ = black_box(operands(at).iter().product::<i128>() / 315_360_000_000),
                &mut |at| _ = black_box(operands(at)),
            ],
        );
        let (proved, wide) = (accrued - stake, with - without);
        println!("| {name} | {accrued:.1} | {stake:.1} | {proved:.1} | {wide:.1} | {:.2} |", proved / wide);
    }
    println!();
}

fn elapsed(at: usize) -> u64 {
    100_000_000 + at as u64 * 7_919 % 10_000_000
}
