//! Fresh sets, heads of logs and risk: what needs no tables, or makes them.

use crate::counts::Counts;
use crate::difference::{same, Difference, Failure};
use crate::guarded::Guarded;
use crate::pair::FILL;
use crate::words::Words;
use oracle::{assess_risk, head, Code, Engine, Log, Rng, Rooms};

pub fn run(counts: &mut Counts) -> Result<(), Box<Failure>> {
    let compared = heads(counts).and_then(|()| rooms(counts)).and_then(|()| risks(counts));
    compared.map_err(|difference| Failure::without_tables("fresh sets, heads and risk".to_string(), difference))
}

/// Compares one fresh set, by the library's own call or over a head, on lent words of these lengths.
fn fresh(lengths: [usize; 3], admin: Result<u64, &[u8]>, counts: &mut Counts) -> Result<(), Difference> {
    let lent = lengths.map(|length| Guarded::new(&vec![FILL; length], FILL));
    let [mut stakes, mut offers, mut books] = lent;
    let (wanted_admin, code) = match admin {
        Ok(admin) => (admin, proved::fresh([&mut stakes, &mut offers, &mut books], admin)),
        Err(head) => {
            let known = if head.len() == 16 { Log::from_bytes(head) } else { None };
            (known.map_or(0, |log| log.admin), proved::open([&mut stakes, &mut offers, &mut books], head))
        }
    };
    let [stake_words, offer_words, book_words] = lengths;
    let whole = stake_words % 5 == 0 && offer_words % 4 == 0 && book_words == 12;
    let engine = match Engine::fresh(wanted_admin, Rooms { stakes: stake_words / 5, offers: offer_words / 4 }) {
        Ok(_) if !whole => Err(Code::BadTables),
        told => told,
    };
    let what = format!("a fresh set of {lengths:?} words, {admin:?}");
    let wanted_code = engine.as_ref().map_or_else(|code| *code, |_| Code::Done);
    same(&what, wanted_code as u8, code)?;
    let wanted = engine.map_or_else(
        |_| Words { stakes: vec![FILL; stake_words], offers: vec![FILL; offer_words], books: vec![FILL; book_words] },
        |engine| Words::of(&engine.tables()),
    );
    let found = Words { stakes: stakes.to_vec(), offers: offers.to_vec(), books: books.to_vec() };
    same(&what, wanted, found)?;
    same("the guards of a fresh set", [true; 3], [stakes.intact(), offers.intact(), books.intact()])?;
    counts.fresh += 1;
    Ok(())
}

/// Heads of every length up to 17, and every single-byte change of a good one.
fn heads(counts: &mut Counts) -> Result<(), Difference> {
    const LENGTHS: [usize; 3] = [10, 8, 12];
    let good = head(1);
    let longer = [&good[..], &[0]].concat();
    for length in 0..=longer.len() {
        fresh(LENGTHS, Err(&longer[..length]), counts)?;
    }
    for at in 0..good.len() {
        for change in 1..=255 {
            let mut changed = good;
            changed[at] ^= change;
            fresh(LENGTHS, Err(&changed), counts)?;
        }
    }
    for admin in [0, 1, 1 << 63, u64::MAX] {
        fresh(LENGTHS, Err(&head(admin)), counts)?;
    }
    Ok(())
}

fn rooms(counts: &mut Counts) -> Result<(), Difference> {
    for stakes in [0, 1, 4, 5, 6, 9, 10, 5_115, 5_120, 5_121, 5_124, 5_125] {
        for offers in [0, 1, 3, 4, 5, 7, 8, 2_044, 2_048, 2_049, 2_052] {
            for books in [0, 1, 11, 12, 13, 24] {
                for admin in [0, 1, u64::MAX] {
                    fresh([stakes, offers, books], Ok(admin), counts)?;
                    fresh([stakes, offers, books], Err(&head(admin)), counts)?;
                }
            }
        }
    }
    Ok(())
}

fn risks(counts: &mut Counts) -> Result<(), Difference> {
    let mut compare = |age, repayments, defaults, amount| {
        counts.risks += 1;
        let what = format!("the risk of {age} {repayments} {defaults} {amount}");
        same(
            &what,
            assess_risk(age, repayments, defaults, amount),
            proved::assess_risk(age, repayments, defaults, amount),
        )
    };
    for age in [0, 1, 2_591_999, 2_592_000, 2_592_001, 1 << 63, u64::MAX] {
        for repayments in [0, 1, 2, u32::MAX - 1, u32::MAX] {
            for defaults in [0, 1, 2, u32::MAX - 1, u32::MAX] {
                for amount in [i64::MIN, -1, 0, 1, 999_999_999, 1_000_000_000, 1_000_000_001, i64::MAX] {
                    compare(age, repayments, defaults, amount)?;
                }
            }
        }
    }
    let mut rng = Rng(0);
    for _ in 0..100_000 {
        let (age, amount) = (rng.word() >> rng.below(64), (rng.word() >> rng.below(64)) as i64);
        let (repayments, defaults) = (rng.word() as u32 >> rng.below(32), rng.word() as u32 >> rng.below(32));
        compare(age, repayments, defaults, amount)?;
    }
    Ok(())
}
