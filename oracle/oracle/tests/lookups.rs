//! Lookups: W-213's sentences on every key and gap of small tables, its figures, codes and texts.

mod support;

use oracle::{binary_digits, lookup_words, parse_lookups, print_found, Desk, Found, Key, Lookup};
use std::collections::BTreeSet;
use support::{fresh, on, run, HIRE};

/// So many rows, about a quarter of them in each pool, where they have the numbers 2, 4, 6 and on.
fn keys(count: u64) -> Vec<Key> {
    let of_pool = |pool| (pool + 1) * count / 4 - pool * count / 4;
    (0..4).flat_map(|pool| (1..=of_pool(pool)).map(move |at| (pool, 2 * at))).collect()
}

/// Every key, and every gap in front of the rows, between and behind them.
fn wanted(keys: &[Key]) -> impl Iterator<Item = Key> + '_ {
    let around = keys.iter().flat_map(|&(pool, number)| [(pool, number - 1), (pool, number), (pool, number + 1)]);
    around.chain((0..4).flat_map(|pool| [(pool, 1), (pool, u64::MAX)]))
}

/// Every lookup in tables of 0 to 130 rows.
fn each(check: impl Fn(&[Key], Key, Found)) {
    for count in 0..=130 {
        let keys = keys(count);
        assert_eq!(keys.len() as u64, count);
        wanted(&keys).for_each(|wanted| check(&keys, wanted, Found::among(&keys, wanted)));
    }
}

#[test]
fn the_place_is_the_rows_or_where_it_would_be_put_in() {
    each(|keys, wanted, found| match keys.binary_search(&wanted) {
        Ok(place) => assert_eq!((found.row, found.place), (true, place)),
        Err(place) => assert_eq!((found.row, found.place), (false, place)),
    });
}

/// "must read at most the number of binary digits of k, 0 for an empty table"
#[test]
fn at_most_the_binary_digits_are_read() {
    each(|keys, wanted, found| {
        let digits = if keys.is_empty() { 0 } else { format!("{:b}", keys.len()).len() };
        assert_eq!((found.used, binary_digits(found.used)), (keys.len(), digits));
        assert!(found.read.len() <= digits, "{wanted:?} among {}: {:?}", keys.len(), found.read);
    });
}

#[test]
fn each_row_read_is_used_and_none_is_read_twice() {
    each(|keys, _, found| {
        let once: BTreeSet<&usize> = found.read.iter().collect();
        assert_eq!(once.len(), found.read.len());
        assert!(found.read.iter().all(|row| *row < keys.len()));
    });
}

/// No bound is smaller: the first row, and whatever comes before it, needs every digit.
#[test]
fn the_first_row_needs_every_digit() {
    each(|keys, wanted, found| {
        assert!(found.read_all_digits() || wanted > keys[0], "{wanted:?} among {}: {:?}", keys.len(), found.read)
    });
}

/// The rows read tell the place and whether the row is there: no other is looked at, and none again.
#[test]
fn the_rows_read_tell_the_answer() {
    each(|keys, wanted, found| {
        let read = || found.read.iter().copied();
        let behind = read().filter(|row| keys[*row] < wanted).max().map_or(0, |row| row + 1);
        let before = read().filter(|row| keys[*row] >= wanted).min().unwrap_or(keys.len());
        assert_eq!([behind, before], [found.place; 2]);
        assert_eq!(read().any(|row| keys[row] == wanted), found.row);
    });
}

/// A number looked up among 1 to `count` of one pool: whether it is there, its place, the rows read.
fn among(count: u64, number: u64) -> (bool, usize, Vec<usize>) {
    let keys: Vec<Key> = (1..=count).map(|number| (0, number)).collect();
    let Found { row, place, read, .. } = Found::among(&keys, (0, number));
    (row, place, read)
}

#[test]
fn figures_of_1_2_1023_and_1024_rows() {
    assert_eq!([0, 1, 2, 3, 4, 1_023, 1_024].map(binary_digits), [0, 1, 2, 2, 3, 10, 11]);
    assert_eq!(among(1, 1), (true, 0, vec![0]));
    assert_eq!(among(1, 2), (false, 1, vec![0]));
    assert_eq!(among(2, 1), (true, 0, vec![1, 0]));
    assert_eq!(among(2, 2), (true, 1, vec![1, 0]));
    assert_eq!(among(2, 3), (false, 2, vec![1]));
    assert_eq!(among(1_023, 1), (true, 0, vec![511, 255, 127, 63, 31, 15, 7, 3, 1, 0]));
    assert_eq!(among(1_023, 1_024), (false, 1_023, vec![511, 767, 895, 959, 991, 1_007, 1_015, 1_019, 1_021, 1_022]));
    assert_eq!(among(1_024, 1), (true, 0, vec![512, 256, 128, 64, 32, 16, 8, 4, 2, 1, 0]));
    let behind = vec![512, 768, 896, 960, 992, 1_008, 1_016, 1_020, 1_022, 1_023];
    assert_eq!(among(1_024, 1_025), (false, 1_024, behind));
}

fn stake(pool: u64, account: u64) -> Lookup {
    Lookup::Stake { pool, account }
}

fn offer(pool: u64, offer: u64) -> Lookup {
    Lookup::Offer { pool, offer }
}

/// Code, row, place and count.
fn told(desk: &Desk, lookup: Lookup) -> [u64; 4] {
    lookup_words(&desk.look_up(&lookup))
}

/// Rooms that no row uses are none of the rows.
#[test]
fn lookups_after_calls() {
    let mut desk = fresh((1_024, 512));
    assert_eq!([stake(0, 1), offer(3, u64::MAX)].map(|lookup| told(&desk, lookup)), [[0, 0, 0, 0]; 2]);
    let calls = "stake pool=3 staker=5 amount=1_000_000 signer=5\nstake pool=1 staker=7 amount=2_000_000 signer=7
        stake pool=1 staker=8 amount=2_000_000 signer=8\nreserve pool=1 offer=4 amount=1000 signer=2";
    run(&mut desk, &format!("{HIRE}{calls}"));
    assert_eq!(told(&desk, stake(1, 7)), [0, 1, 0, 2]);
    assert_eq!(told(&desk, stake(1, 8)), [0, 1, 1, 2]);
    assert_eq!(told(&desk, stake(1, 9)), [0, 0, 2, 2]);
    assert_eq!(told(&desk, stake(2, 1)), [0, 0, 2, 2]);
    assert_eq!(told(&desk, stake(3, 5)), [0, 1, 2, 2]);
    assert_eq!(told(&desk, stake(3, u64::MAX)), [0, 0, 3, 2]);
    assert_eq!(told(&desk, offer(1, 3)), [0, 0, 0, 1]);
    assert_eq!(told(&desk, offer(1, 4)), [0, 1, 0, 1]);
    assert_eq!(told(&desk, offer(3, 1)), [0, 0, 1, 1]);
}

/// A row that is kept for its accrual alone is a row.
#[test]
fn a_row_without_a_stake_is_found() {
    let desk = on("stake 2 7 0 0 5\nsettings 1 0 0 0");
    assert_eq!(told(&desk, stake(2, 7)), [0, 1, 0, 1]);
}

#[test]
fn lookups_refused() {
    let good = on("settings 1 0 0 0");
    let bad = on("balances 1 0 0 0\nsettings 1 0 0 0");
    for key in [(4, 7), (257, 7), ((1 << 32) + 1, 7), (u64::MAX, 7), (1, 0), (4, 0)] {
        for lookup in [stake(key.0, key.1), offer(key.0, key.1)] {
            assert_eq!([told(&good, lookup), told(&bad, lookup)], [[1, 0, 0, 0]; 2], "{lookup:?}");
        }
    }
    assert_eq!([stake(1, 7), offer(1, 7)].map(|lookup| told(&bad, lookup)), [[2, 0, 0, 0]; 2]);
}

#[test]
fn lookups_as_text() {
    let text = "# nothing but words\nstake pool=1 account=7  # one\n\noffer pool=4 offer=1_000\n";
    assert_eq!(parse_lookups(text), Ok(vec![stake(1, 7), offer(4, 1_000)]));
    let wrong = [
        ("stake pool=1", "line 3: stake needs account"),
        ("stake account=1", "line 3: stake needs pool"),
        ("offer pool=1 account=7", "line 3: offer needs offer"),
        ("stake pool=1 account=-1", "line 3: no number of its kind: -1"),
        ("stake pool=1 7", "line 3: not of the form name=value: 7"),
        ("pool pool=1", "line 3: no lookup pool"),
    ];
    for (line, error) in wrong {
        assert_eq!(parse_lookups(&format!("stake pool=1 account=7\n\n{line}\n")), Err(error.to_string()));
    }
}

#[test]
fn answers_as_text() {
    let desk = on("stake 2 7 0 0 5\nsettings 1 0 0 0");
    let printed = |lookup| print_found(&desk.look_up(&lookup));
    assert_eq!([stake(2, 7), stake(3, 1), offer(3, 0)].map(printed), ["0 1 0 1\n", "0 0 1 1\n", "1 0 0 0\n"]);
}
