//! The log file, its text, and random logs.

mod support;

use oracle::{head, random_log, read_log, write_log, Code, Desk, Engine, Log, Rooms};
use support::printout;

#[test]
fn heads() {
    let good = head(1);
    assert!(Log::from_bytes(&good).is_some());
    assert!(Log::from_bytes(&head(0)).is_none());
    assert!(Log::from_bytes(&good[..15]).is_none());
    assert!(Log::from_bytes(&[]).is_none());
    for at in 0..8 {
        let mut wrong = good;
        wrong[at] ^= 1;
        assert!(Log::from_bytes(&wrong).is_none(), "byte {at}");
    }
}

#[test]
fn left_over_bytes_are_counted() {
    assert_eq!(printout("admin 1"), "POL 1\nend 0 0\n");
    assert_eq!(printout("admin 1\ntail 00ff"), "POL 1\nend 0 2\n");
    let almost = "00".repeat(47);
    let text = format!("admin 1\npause signer=1\ntail {almost}");
    assert_eq!(printout(&text), "POL 1\n1 0 0 0\nend 1 47\n");
}

#[test]
fn two_transfers_are_printed_in_order() {
    let text = "admin 1
        stake pool=2 staker=7 amount=1_000_000 signer=7
        withdraw pool=2 staker=7 amount=1_000_000 now=31_536_000 signer=7";
    assert_eq!(printout(text), "POL 1\n1 0 0 0\nin 7 1000000\n2 0 0 0\nout 7 1000000\nout 7 100000\nend 2 0\n");
}

#[test]
fn a_range_is_many_records() {
    let text = "admin 1\nstake pool=0 staker=5..7 amount=1_000_000 signer=5..7";
    assert_eq!(printout(text), "POL 1\n1 0 0 0\nin 5 1000000\n2 0 0 0\nin 6 1000000\n3 0 0 0\nin 7 1000000\nend 3 0\n");
}

const ROOMS: [Rooms; 4] =
    [Rooms { stakes: 1, offers: 1 }, Rooms { stakes: 6, offers: 5 }, Rooms { stakes: 30, offers: 20 }, Rooms::FULL];

fn random_logs() -> impl Iterator<Item = (Rooms, Vec<u8>)> {
    (0..24).map(|seed| {
        let rooms = ROOMS[seed as usize % ROOMS.len()];
        (rooms, random_log(seed, 200, rooms))
    })
}

#[test]
fn text_keeps_every_byte() {
    for (_, bytes) in random_logs() {
        assert_eq!(write_log(&read_log(&bytes)), Ok(bytes));
    }
}

/// Tables stay well formed, a refusal keeps them, and tables read out and loaded again answer as before.
#[test]
fn random_calls_keep_the_tables() {
    for (rooms, bytes) in random_logs() {
        let log = Log::from_bytes(&bytes).expect("the head is good");
        let mut engine = Engine::fresh(log.admin, rooms).expect("admin and rooms are good");
        for record in &log.records {
            let before = engine.tables();
            let answer = engine.call(record);
            let after = engine.tables();
            assert!(after.well_formed(), "{record:?}");
            let mut again = Desk::open(before.clone());
            assert_eq!((again.call(record), again.tables()), (answer.clone(), after.clone()), "{record:?}");
            if answer.code != Code::Done {
                assert_eq!(after, before, "{record:?}");
                assert_eq!((answer.first, answer.second, answer.transfers.len()), (0, 0, 0), "{record:?}");
            }
        }
    }
}

/// Over all seeds every code that a log can show is shown, and most calls take effect.
#[test]
fn random_logs_are_a_good_mix() {
    let mut counts = [0; 12];
    for (rooms, bytes) in random_logs() {
        let log = Log::from_bytes(&bytes).expect("the head is good");
        let mut engine = Engine::fresh(log.admin, rooms).expect("admin and rooms are good");
        for record in &log.records {
            counts[engine.call(record).code as usize] += 1;
        }
    }
    let shown = |code: usize| code == Code::BadTables as usize || counts[code] > 0;
    assert!((0..12).all(shown), "{counts:?}");
    assert!(counts[0] * 2 > counts.iter().sum(), "{counts:?}");
}
