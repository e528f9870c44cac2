//! The idiomatic engine gives the oracle's text and tables, on the kept vectors and on random logs.

use idiomatic::{Engine, Pool};
use oracle::{print_replay, print_tables, random_log, Desk, Log, Rooms, Tables};
use std::fs;
use std::path::Path;

fn replay(log: &Log, rooms: Rooms) -> (String, Tables) {
    let mut engine = Engine::fresh(log.admin, rooms.stakes, rooms.offers);
    let bytes: Vec<u8> = log.records.iter().flat_map(|record| record.to_bytes()).collect();
    let mut text = b"POL 1\n".to_vec();
    let records = engine.replay(&bytes, 0, &mut text);
    text.extend(format!("end {records} {}\n", log.left_over.len()).bytes());
    (String::from_utf8(text).expect("the text is plain"), tables(&engine))
}

fn tables(engine: &Engine) -> Tables {
    let mut stakes = Vec::new();
    let mut offers = Vec::new();
    for (number, pool) in (0..).zip(&engine.pools) {
        stakes.extend(
            pool.stakes.iter().map(|row| [number, row.account, row.stake as u64, row.since, row.accrual as u64]),
        );
        offers.extend(pool.offers.iter().map(|row| [number, row.offer, row.reserved as u64, row.paid as u64]));
    }
    stakes.resize(engine.stake_rooms, [0; 5]);
    offers.resize(engine.offer_rooms, [0; 4]);
    let settings = engine.settings;
    let sums = |sum: fn(&Pool) -> i64| std::array::from_fn(|pool| sum(&engine.pools[pool]) as u64);
    Tables {
        stakes,
        offers,
        balances: sums(|pool| pool.balance),
        unpaid: sums(|pool| pool.unpaid),
        settings: [settings.admin, settings.caller, settings.paused.into(), settings.rate.into()],
    }
}

#[test]
fn kept_vectors() {
    let folder = Path::new(env!("CARGO_MANIFEST_DIR")).join("../../vectors");
    let mut histories = 0;
    for entry in fs::read_dir(folder).expect("the vectors are there") {
        let path = entry.expect("a file").path();
        if path.extension().is_none_or(|ending| ending != "log") {
            continue;
        }
        let read = |ending: &str| fs::read_to_string(path.with_extension(ending)).expect("each log has its texts");
        let Some(log) = Log::from_bytes(&fs::read(&path).expect("the log can be read")) else {
            continue;
        };
        let source = read("txt");
        let rooms = source.lines().find_map(|line| line.strip_prefix("# rooms ")).map_or(Rooms::FULL, |line| {
            let (stakes, offers) = line.split_once(' ').expect("two numbers");
            Rooms { stakes: stakes.parse().expect("a number"), offers: offers.parse().expect("a number") }
        });
        let (text, tables) = replay(&log, rooms);
        assert_eq!(text, read("out"), "{}", path.display());
        assert_eq!(print_tables(&tables), read("tables"), "{}", path.display());
        histories += 1;
    }
    assert!(histories > 20, "{histories} histories found");
}

#[test]
fn random_logs() {
    for seed in 0..60 {
        let rooms = match seed % 4 {
            0 => Rooms { stakes: 3, offers: 2 },
            1 => Rooms { stakes: 16, offers: 8 },
            2 => Rooms { stakes: 100, offers: 60 },
            _ => Rooms::FULL,
        };
        let log = Log::from_bytes(&random_log(1_000 + seed, 500, rooms)).expect("the head is good");
        let mut desk = Desk::Good(oracle::Engine::fresh(log.admin, rooms).expect("admin and rooms are good"));
        let wanted = print_replay(&log, &mut desk);
        let (text, tables) = replay(&log, rooms);
        assert!(text == wanted, "seed {}", 1_000 + seed);
        assert!(tables == desk.tables(), "seed {}", 1_000 + seed);
    }
}
