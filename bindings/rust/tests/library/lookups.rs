//! Lookups against the plain rule: among every number of rows for every row and every gap, and among random rows.

use crate::halving::{digits, find, Found, Key};
use crate::kept;
use crate::numbers::Numbers;
use crate::slips::SLIPS;
use pasumorip::face::{self, Shown};
use pasumorip::limits::{MOST_OFFERS, MOST_STAKES};
use pasumorip::{Account, Call, Code, Lookup, Offer, Operation, Place, Pool, Rooms, Tables};
use std::collections::{BTreeMap, BTreeSet};
use std::mem;

#[derive(Clone, Copy, Debug, PartialEq, Eq, PartialOrd, Ord)]
enum Table {
    Stakes,
    Offers,
}

impl Table {
    const ALL: [Table; 2] = [Table::Stakes, Table::Offers];

    fn most_rows(self) -> usize {
        match self {
            Table::Stakes => MOST_STAKES,
            Table::Offers => MOST_OFFERS,
        }
    }

    /// Tables with these rows in this one, and three in the other.
    fn with(self, keys: &[Key], unused: usize) -> Tables {
        let others = rows(3);
        match self {
            Table::Stakes => tables(keys, &others, unused),
            Table::Offers => tables(&others, keys, unused),
        }
    }

    fn look_up(self, tables: &Tables, (pool, number): Key) -> Result<Lookup, Code> {
        let pool = Pool::ALL[pool as usize];
        match self {
            Table::Stakes => tables.look_up_stake(pool, Account(number)),
            Table::Offers => tables.look_up_offer(pool, Offer(number)),
        }
    }

    fn ask(self, tables: &Tables, (pool, number): Key, answer: &mut [u64]) -> u8 {
        let (stakes, offers, books) = tables.words();
        let tables = Shown { stakes, offers, books };
        match self {
            Table::Stakes => face::look_up_stake(tables, pool, number, answer),
            Table::Offers => face::look_up_offer(tables, pool, number, answer),
        }
    }
}

/// Well-formed tables with these rows and as many unused ones behind them, within the limits of what may be lent.
fn tables(stakes: &[Key], offers: &[Key], unused: usize) -> Tables {
    let mut books = vec![0, 0, 0, 0, 0, 0, 0, 0, 1, 0, 0, 0];
    let (mut stake_words, mut offer_words) = (Vec::new(), Vec::new());
    for &(pool, account) in stakes {
        stake_words.extend([pool, account, 1_000_000, 0, 0]);
        books[pool as usize] += 1_000_000;
    }
    for &(pool, offer) in offers {
        offer_words.extend([pool, offer, 3, 1]);
        books[4 + pool as usize] += 2;
    }
    stake_words.resize(5 * (stakes.len() + unused).clamp(1, MOST_STAKES), 0);
    offer_words.resize(4 * (offers.len() + unused).clamp(1, MOST_OFFERS), 0);
    Tables::from_words(stake_words, offer_words, books)
}

/// As many rows in one to four pools, with numbers before and behind each that none has. Those of a pool lie below those of the pool
/// before it, so that the number alone tells nothing.
fn rows(count: usize) -> Vec<Key> {
    let pools = 1 + count % 4;
    let row = |row| {
        let pool = row * pools / count;
        (pool as u64, (10_000 * (4 - pool) + 3 * row) as u64)
    };
    (0..count).map(row).collect()
}

/// Every row's key, one of every gap, and the ends of every pool.
fn wanted(rows: &[Key]) -> Vec<Key> {
    let before = rows.iter().map(|&(pool, number)| (pool, number - 1));
    let behind = rows.last().map(|&(pool, number)| (pool, number + 1));
    let ends = (0..4).flat_map(|pool| [(pool, 1), (pool, u64::MAX)]);
    rows.iter().copied().chain(before).chain(behind).chain(ends).collect()
}

/// How often each was met: the table, the pool, whether a row has the key, and whether as many rows were read as may be.
type Met = BTreeMap<(Table, u64, bool, bool), u64>;

/// Whether each was met, and at least as often.
fn each_met(met: &Met, often: u64) -> bool {
    met.len() == 2 * 4 * 2 * 2 && met.values().all(|times| *times >= often)
}

fn hold(table: Table, tables: &Tables, rows: &[Key], wanted: &[Key], met: &mut Met) {
    let before = tables.clone();
    let most = digits(rows.len());
    for &key in wanted {
        let plain = find(rows, key);
        let (row, place, reads) = plain.told();
        let expected = Lookup { place: if row { Place::Row(place) } else { Place::Gap(place) }, reads };
        assert_eq!(table.look_up(tables, key), Ok(expected), "{key:?} among {rows:?}");
        // With no row before the place there are as many as may be.
        let within = if place == 0 { reads == most } else { reads <= most };
        assert!(within && is_sound(&plain, rows.len()), "{key:?} among {rows:?}: {plain:?}");
        *met.entry((table, key.0, row, reads == most)).or_default() += 1;
    }
    assert_eq!(*tables, before);
}

/// The rows read are of the table, none is read twice, and what is told rests on them: those at the place and just before it are read,
/// where there are such.
fn is_sound(found: &Found, count: usize) -> bool {
    let mut seen = vec![false; count];
    let once = found.read.iter().all(|row| seen.get_mut(*row).is_some_and(|seen| !mem::replace(seen, true)));
    once && (found.place == count || seen[found.place]) && (found.place == 0 || seen[found.place - 1])
}

#[test]
fn among_every_number_of_rows() {
    let mut met = Met::new();
    for table in Table::ALL {
        for count in 0..=table.most_rows() {
            let rows = rows(count);
            hold(table, &table.with(&rows, count % 3), &rows, &wanted(&rows), &mut met);
        }
    }
    assert!(each_met(&met, 1_000) && met.values().sum::<u64>() > 1_000_000, "{met:#?}");
}

fn any_key(numbers: &mut Numbers) -> Key {
    let all = [1 + numbers.up_to(99), numbers.word().max(1), u64::MAX - numbers.up_to(99)];
    (numbers.up_to(3), numbers.pick(&all))
}

fn any_rows(numbers: &mut Numbers, table: Table) -> Vec<Key> {
    let most = numbers.pick(&[5, 50, table.most_rows() as u64]);
    let keys: BTreeSet<Key> = (0..numbers.up_to(most)).map(|_| any_key(numbers)).collect();
    keys.into_iter().collect()
}

/// A row's key, one beside it, or any.
fn any_wanted(numbers: &mut Numbers, rows: &[Key]) -> Key {
    let any = any_key(numbers);
    let (pool, number) = if rows.is_empty() { any } else { numbers.pick(rows) };
    numbers.pick(&[(pool, number), (pool, number.saturating_sub(1).max(1)), (pool, number.saturating_add(1)), any])
}

#[test]
fn among_random_rows() {
    let mut numbers = Numbers(213);
    let mut met = Met::new();
    for _ in 0..1_000 {
        let rows = Table::ALL.map(|table| any_rows(&mut numbers, table));
        let tables = tables(&rows[0], &rows[1], numbers.up_to(3) as usize);
        for (table, rows) in Table::ALL.into_iter().zip(&rows) {
            let wanted: Vec<Key> = (0..50).map(|_| any_wanted(&mut numbers, rows)).collect();
            hold(table, &tables, rows, &wanted, &mut met);
            hold(table, &tables, rows, &[(0, 1), (3, u64::MAX)], &mut met);
        }
    }
    assert!(each_met(&met, 500), "{met:#?}");
}

#[test]
fn of_figures_by_hand() {
    let told = |table: Table, count, key| table.look_up(&table.with(&rows(count), 0), key);
    let [stakes, offers] = Table::ALL;
    for (table, count, reads) in [
        (stakes, 1, 1),
        (stakes, 2, 2),
        (stakes, 1_023, 10),
        (stakes, 1_024, 11),
        (offers, 1, 1),
        (offers, 2, 2),
        (offers, 511, 9),
        (offers, 512, 10),
    ] {
        assert_eq!(told(table, count, rows(count)[0]), Ok(Lookup { place: Place::Row(0), reads }), "{table:?} {count}");
    }
    for (table, count, reads) in [(stakes, 0, 0), (stakes, 1_024, 10), (offers, 0, 0), (offers, 512, 9)] {
        let behind = Lookup { place: Place::Gap(count), reads };
        assert_eq!(told(table, count, (3, u64::MAX)), Ok(behind), "{table:?} {count}");
    }
}

#[test]
fn a_new_row_stands_where_its_gap_was() {
    let mut numbers = Numbers(214);
    let mut tables = Tables::fresh(Rooms::FULL, Account(1)).expect("a fresh set");
    let payer = Account(50);
    let set = Call { now: 1, signer: Account(1), operation: Operation::PayoutCaller { caller: payer } };
    assert_eq!(tables.apply(&set).code, Code::Done);
    for _ in 0..MOST_OFFERS {
        let key = any_key(&mut numbers);
        let (pool, account, offer) = (Pool::ALL[key.0 as usize], Account(key.1), Offer(key.1));
        let stake = Operation::Stake { pool, staker: account, amount: 1_000_000 };
        let reserve = Operation::Reserve { pool, offer, amount: 100 };
        for (table, signer, operation) in [(Table::Stakes, account, stake), (Table::Offers, payer, reserve)] {
            let place = |tables: &Tables| table.look_up(tables, key).expect("the tables are good").place;
            let (Place::Row(told) | Place::Gap(told)) = place(&tables);
            assert_eq!(tables.apply(&Call { now: 1, signer, operation }).code, Code::Done);
            assert_eq!(place(&tables), Place::Row(told), "{table:?} {key:?}");
        }
    }
}

#[test]
fn slips_of_the_rule_are_told_from_it() {
    for (slip, slipped, fewest) in SLIPS {
        let differs = |count: &usize| {
            let rows = rows(*count);
            wanted(&rows).into_iter().any(|key| slipped(&rows, key).told() != find(&rows, key).told())
        };
        assert_eq!((0..=MOST_STAKES).find(differs), Some(fewest), "{slip}");
    }
}

#[test]
fn no_number_and_bad_tables_are_refused() {
    let good = tables(&rows(5), &rows(3), 1);
    let lent = kept::files(&kept::folder().join("lent"), "lent").into_iter();
    let bad = lent.map(|lent| kept::tables(&lent)).filter(|tables| tables.books() == Err(Code::BadTables));
    let bad: Vec<Tables> = bad.collect();
    assert!(!bad.is_empty());
    for table in Table::ALL {
        for pool in 0..4 {
            assert_eq!(table.look_up(&good, (pool, 0)), Err(Code::Malformed));
            for tables in &bad {
                let before = tables.clone();
                assert_eq!(table.look_up(tables, (pool, 0)), Err(Code::Malformed));
                assert_eq!(table.look_up(tables, (pool, 7)), Err(Code::BadTables));
                assert_eq!(*tables, before);
            }
        }
    }
}

#[test]
fn of_any_words_as_words() {
    const ODD: u64 = 0x5a5a_5a5a_5a5a_5a5a;
    let rows = rows(5);
    let none = Tables::from_words(Vec::new(), Vec::new(), Vec::new());
    for table in Table::ALL {
        let good = table.with(&rows, 1);
        for (tables, key, told) in [
            (&good, rows[0], [0, 1, 0, 3]),
            (&good, rows[4], [0, 1, 4, 3]),
            (&good, (3, u64::MAX), [0, 0, 5, 2]),
            (&good, (4, 7), [1, 0, 0, 0]),
            (&good, (u64::MAX, 7), [1, 0, 0, 0]),
            (&good, (0, 0), [1, 0, 0, 0]),
            (&none, (4, 7), [1, 0, 0, 0]),
            (&none, (0, 0), [1, 0, 0, 0]),
            (&none, (0, 7), [2, 0, 0, 0]),
        ] {
            let before = tables.clone();
            let mut around = [ODD; 6];
            assert_eq!(u64::from(table.ask(tables, key, &mut around[1..5])), told[0], "{key:?}");
            assert_eq!(around, [ODD, told[0], told[1], told[2], told[3], ODD], "{key:?}");
            for length in [0, 3, 5] {
                let mut answer = vec![ODD; length];
                assert_eq!(table.ask(tables, key, &mut answer), Code::Malformed.number(), "{key:?}");
                assert_eq!(answer, vec![ODD; length], "{key:?}");
            }
            assert_eq!(*tables, before);
        }
    }
}
