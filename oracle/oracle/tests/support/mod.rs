//! Calls as text, run on a fresh set or on tables as text.
#![allow(dead_code)] // each test file uses its part

use oracle::{parse_tables, print_replay, print_tables, write_log, Answer, Desk, Engine, Log, Question, Record, Rooms};

pub const LIMIT: i64 = 1_000_000_000_000_000;
pub const LAST_TIME: u64 = 17_179_869_183;

/// The admin is 1, and 2 is the payout caller once hired.
pub const HIRE: &str = "payout_caller caller=2 signer=1\n";

pub fn records(calls: &str) -> Vec<Record> {
    let bytes = write_log(&format!("admin 1\n{calls}")).expect("the calls are well written");
    Log::from_bytes(&bytes).expect("the head is good").records
}

pub fn fresh(rooms: (usize, usize)) -> Desk {
    let (stakes, offers) = rooms;
    Desk::Good(Engine::fresh(1, Rooms { stakes, offers }).expect("admin and rooms are good"))
}

pub fn on(tables: &str) -> Desk {
    Desk::open(parse_tables(tables).expect("the tables are well written"))
}

pub fn run(desk: &mut Desk, calls: &str) -> Vec<Answer> {
    records(calls).iter().map(|record| desk.call(record)).collect()
}

/// The code and the two numbers of each call.
pub fn told(desk: &mut Desk, calls: &str) -> Vec<(u8, i64, i64)> {
    run(desk, calls).iter().map(|answer| (answer.code as u8, answer.first, answer.second)).collect()
}

/// The code of the last call; those before it take effect.
pub fn last_code(desk: &mut Desk, calls: &str) -> u8 {
    let codes: Vec<u8> = run(desk, calls).iter().map(|answer| answer.code as u8).collect();
    let (last, before) = codes.split_last().expect("there is a call");
    assert!(before.iter().all(|code| *code == 0), "{calls}: {codes:?}");
    *last
}

pub fn accrued(desk: &Desk, pool: u64, account: u64, now: u64) -> i64 {
    desk.ask(&Question::Accrued { pool, account, now }).first
}

/// The printed rows of one kind.
pub fn rows(desk: &Desk, kind: &str) -> Vec<String> {
    let text = print_tables(&desk.tables());
    text.lines().filter_map(|line| line.strip_prefix(kind)).map(|row| row.trim().to_string()).collect()
}

pub fn printout(text: &str) -> String {
    let log = Log::from_bytes(&write_log(text).expect("the log is well written")).expect("the head is good");
    print_replay(&log, &mut fresh((1_024, 512)))
}
