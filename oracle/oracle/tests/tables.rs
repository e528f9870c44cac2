//! The tables: when they are well formed, loading and reading out, queries.

mod support;

use oracle::{parse_tables, print_tables, Code, Engine, Question, Rooms, Tables};
use support::{fresh, on, run, HIRE, LIMIT};

const GOOD: &str = "rooms 4 4
stake 0 7 -5 9 0
stake 0 8 5 17179869183 3
stake 1 7 0 0 1000000000000000
offer 2 1 1000000000000000 1
offer 3 1 1 1
balances 0 0 0 0
unpaid 0 0 999999999999999 0
settings 1 18446744073709551615 1 1000000
";

fn tables(text: &str) -> Tables {
    parse_tables(text).expect("the tables are well written")
}

#[test]
fn good_tables_are_loaded_and_read_out() {
    let engine = Engine::load(&tables(GOOD)).expect("the tables are well formed");
    assert_eq!(print_tables(&engine.tables()), GOOD);
}

/// One thing wrong each.
#[test]
fn bad_tables() {
    let wrong = [
        ("rooms 4 4", "rooms 1025 4"),
        ("rooms 4 4", "rooms 4 513"),
        ("stake 0 7 -5 9 0", "stake 0 8 -5 9 0"),
        ("stake 0 7 -5 9 0", "stake 0 9 -5 9 0"),
        ("stake 0 7 -5 9 0", "stake 0 0 -5 9 0"),
        ("stake 0 7 -5 9 0", "stake 0 0 0 0 0\nstake 0 7 -5 9 0"),
        ("stake 0 7 -5 9 0", "stake 0 7 -5 17179869184 0"),
        ("stake 0 7 -5 9 0", "stake 0 6 0 0 0\nstake 0 7 -5 9 0"),
        ("stake 0 7 -5 9 0", "stake 0 7 -4 9 0"),
        ("stake 0 8 5 17179869183 3", "stake 0 8 5 17179869183 -1"),
        ("stake 1 7 0 0 1000000000000000", "stake 1 7 0 0 1000000000000001"),
        ("stake 1 7 0 0 1000000000000000", "stake 1 7 0 1 1000000000000000"),
        ("stake 1 7 0 0 1000000000000000", "stake 4 7 0 0 1000000000000000"),
        ("stake 1 7 0 0 1000000000000000", "stake 0 1 0 0 1"),
        ("offer 2 1 1000000000000000 1", "offer 2 1 1000000000000001 2"),
        ("offer 2 1 1000000000000000 1", "offer 2 0 1000000000000000 1"),
        ("offer 3 1 1 1", "offer 3 1 0 0"),
        ("offer 3 1 1 1", "offer 3 1 1 2"),
        ("offer 3 1 1 1", "offer 4 1 1 1"),
        ("offer 3 1 1 1", "offer 2 1 1 1"),
        ("offer 3 1 1 1", "offer 3 1 -1 -1"),
        ("balances 0 0 0 0", "balances 0 0 0 1"),
        ("unpaid 0 0 999999999999999 0", "unpaid 0 0 999999999999998 0"),
        ("settings 1 ", "settings 0 "),
        (" 1 1000000\n", " 2 1000000\n"),
        (" 1 1000000\n", " 1 1000001\n"),
    ];
    for (good, bad) in wrong {
        let text = GOOD.replacen(good, bad, 1);
        assert_ne!(text, GOOD, "{good} is in the tables");
        assert!(Engine::load(&tables(&text)).is_err(), "{bad}");
    }
    let no_rooms = "rooms 0 1\nsettings 1 0 0 0";
    assert!(Engine::load(&tables(no_rooms)).is_err());
}

#[test]
fn stakes_beyond_their_limit_are_bad_even_where_sums_match() {
    for (stake, good) in [(LIMIT, true), (LIMIT + 1, false), (-LIMIT, true), (-LIMIT - 1, false)] {
        let text = format!("stake 1 7 {stake} 0 0\nbalances 0 {stake} 0 0\nsettings 1 0 0 0");
        assert_eq!(Engine::load(&tables(&text)).is_ok(), good, "{stake}");
    }
}

#[test]
fn a_fresh_set() {
    let code =
        |admin, stakes, offers| Engine::fresh(admin, Rooms { stakes, offers }).map_or_else(|code| code, |_| Code::Done);
    assert_eq!(code(1, 1, 1), Code::Done);
    assert_eq!(code(1, 1_024, 512), Code::Done);
    assert_eq!(code(0, 1, 1), Code::Malformed);
    assert_eq!(code(0, 0, 1), Code::Malformed);
    for (stakes, offers) in [(0, 1), (1, 0), (1_025, 1), (1, 513)] {
        assert_eq!(code(1, stakes, offers), Code::BadTables);
    }
}

fn asked(desk: &oracle::Desk, question: Question) -> (u8, i64, i64) {
    let answer = desk.ask(&question);
    assert!(answer.transfers.is_empty());
    (answer.code as u8, answer.first, answer.second)
}

#[test]
fn queries() {
    let mut desk = fresh((8, 8));
    let calls = "stake pool=1 staker=7 amount=2_000_000 signer=7\nstake pool=3 staker=7 amount=1_000_000 signer=7
        reserve pool=1 offer=4 amount=1000 signer=2\nclaim pool=1 offer=4 lender=6 amount=50 signer=2";
    run(&mut desk, &format!("{HIRE}{calls}"));
    assert_eq!(asked(&desk, Question::Stake { pool: 1, account: 7 }), (0, 1_999_950, 0));
    assert_eq!(asked(&desk, Question::Stake { pool: 0, account: 7 }), (0, 0, 0));
    assert_eq!(asked(&desk, Question::Pool { pool: 1 }), (0, 1_999_950, 700));
    assert_eq!(asked(&desk, Question::Pool { pool: 3 }), (0, 1_000_000, 0));
    assert_eq!(asked(&desk, Question::Count { pool: 1 }), (0, 1, 0));
    assert_eq!(asked(&desk, Question::Count { pool: 3 }), (0, 1, 0));
    assert_eq!(asked(&desk, Question::Offer { pool: 1, offer: 4 }), (0, 750, 50));
    assert_eq!(asked(&desk, Question::Offer { pool: 3, offer: 4 }), (0, 0, 0));
    let later = Question::Accrued { pool: 1, account: 7, now: 31_536_000 };
    assert_eq!(asked(&desk, later), (0, 99_997, 0));
}

#[test]
fn queries_refused() {
    let desk = on(&format!("stake 2 7 {LIMIT} 0 {LIMIT}\nbalances 0 0 {LIMIT} 0\nsettings 1 0 0 0"));
    assert_eq!(asked(&desk, Question::Accrued { pool: 2, account: 7, now: 0 }), (0, LIMIT, 0));
    assert_eq!(asked(&desk, Question::Accrued { pool: 2, account: 7, now: 1 }), (10, 0, 0));
    let malformed = [
        Question::Stake { pool: 4, account: 7 },
        Question::Stake { pool: 2, account: 0 },
        Question::Accrued { pool: 2, account: 7, now: 17_179_869_184 },
        Question::Accrued { pool: 2, account: 0, now: 0 },
        Question::Pool { pool: 4 },
        Question::Count { pool: u64::MAX },
        Question::Offer { pool: 2, offer: 0 },
    ];
    let bad = on("balances 1 0 0 0\nsettings 1 0 0 0");
    for question in malformed {
        assert_eq!(asked(&desk, question.clone()), (1, 0, 0), "{question:?}");
        assert_eq!(asked(&bad, question), (1, 0, 0));
    }
    assert_eq!(asked(&bad, Question::Pool { pool: 0 }), (2, 0, 0));
}
