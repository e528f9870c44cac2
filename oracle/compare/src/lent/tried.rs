//! Lent tables of each kind loaded into both sides.

use super::{good, spoil, KINDS};
use crate::counts::Counts;
use crate::difference::{same, Difference, Failure};
use crate::lookups::few;
use crate::pair::Pair;
use crate::replayed;
use crate::shrink::fewest;
use crate::words::Words;
use oracle::{Author, Code, Record, Rng, Rooms};
use proved::Query;

/// A round tries every kind of bad tables once, and some with words changed at random.
pub fn run(seed: u64, counts: &mut Counts) -> Result<(), Box<Failure>> {
    // Lookups have draws of their own, so that a seed stands for the same calls and queries without them.
    let (mut rng, mut seeker) = (Rng(seed), Rng(!seed));
    let full = rng.one_in(8);
    let rooms = match rng.below(8) {
        0 => Rooms::FULL,
        _ => Rooms { stakes: 1 + rng.below(12) as usize, offers: 1 + rng.below(8) as usize },
    };
    let base = Words::of(&good(&mut rng, rooms, full));
    for (name, change) in KINDS {
        let mut words = base.clone();
        change(&mut rng, &mut words);
        assert!(words.tables().is_none_or(|tables| !tables.well_formed()), "'{name}' of seed {seed} is well formed");
        counts.lent(name);
        tried([&mut rng, &mut seeker], words, seed, name, counts)?;
    }
    for _ in 0..KINDS.len() {
        let mut words = base.clone();
        spoil(&mut rng, &mut words);
        let fine = words.tables().is_some_and(|tables| tables.well_formed());
        let name =
            if fine { "words changed at random, well formed" } else { "words changed at random, not well formed" };
        counts.lent(name);
        tried([&mut rng, &mut seeker], words, seed, name, counts)?;
    }
    Ok(())
}

fn tried(
    [rng, seeker]: [&mut Rng; 2],
    words: Words,
    seed: u64,
    name: &str,
    counts: &mut Counts,
) -> Result<(), Box<Failure>> {
    let mut records = Vec::new();
    let mut pair = Pair::over(words.clone());
    calls_and_queries(rng, &mut pair, &mut records, counts)
        .and_then(|()| lookups(seeker, &mut pair, counts))
        .and_then(|()| refusals(&words, pair.books().is_some()))
        .map_err(|difference| {
            let (records, difference) = fewest(&words, records, difference);
            Box::new(Failure {
                origin: format!("lent tables of seed {seed}, {name}"),
                start: words,
                records,
                difference,
            })
        })
}

/// One call of each operation that is well formed, one that is not, and a query of each kind.
fn calls_and_queries(
    rng: &mut Rng,
    pair: &mut Pair,
    records: &mut Vec<Record>,
    counts: &mut Counts,
) -> Result<(), Difference> {
    let subject = |operation| if matches!(operation, 6..=8) { 0 } else { 7 };
    for operation in 0..=9 {
        let record = Record {
            operation,
            pool: if operation == 6 {
                3
            } else if operation > 6 {
                0
            } else {
                rng.below(4) as u8
            },
            reply: if operation == 3 { 2 } else { 0 },
            now: rng.pick(&[0, 1_700_000_000]),
            signer: rng.pick(&[1, 2, 7]),
            subject: subject(operation),
            other: if matches!(operation, 3 | 5) { 9 } else { 0 },
            amount: if operation < 7 { rng.pick(&[1, 1_000_000]) } else { 0 },
            ..Record::default()
        };
        records.push(record.clone());
        let answer = pair.call(&record)?;
        counts.call(&record, &answer);
    }
    for kind in 0..=5 {
        let number = if kind == 3 || kind == 4 { 0 } else { 7 };
        let query = Query { kind, pool: rng.below(5), number, time: 0 };
        pair.ask(query, counts)?;
    }
    if let Some(books) = pair.books() {
        let mut author = Author::new(rng.word(), books.clone());
        for _ in 0..10 {
            let record = author.record();
            records.push(record.clone());
            let answer = pair.call(&record)?;
            counts.call(&record, &answer);
            author.see(pair.books().expect("well formed is kept").clone());
        }
    }
    Ok(())
}

fn lookups(rng: &mut Rng, pair: &mut Pair, counts: &mut Counts) -> Result<(), Difference> {
    few(rng, &pair.tables()).into_iter().try_for_each(|lookup| pair.look_up(lookup, counts))
}

/// Replays and calls that are refused whole: bad tables, and records, answers or progress of another length. Only an answer that has its length
/// is written.
fn refusals(words: &Words, well_formed: bool) -> Result<(), Difference> {
    let record = Record { operation: 7, signer: 1, ..Record::default() }.to_bytes();
    for progress in [&[][..], &[9], &[9, 9], &[9, 9, 9, 9]] {
        replayed::refused(words, &record, progress, Code::Malformed as u8)?;
    }
    if !well_formed {
        for part in [&[][..], &record[..47], &record[..], &[record, record].concat()] {
            replayed::refused(words, part, &[9, 9, 9], Code::BadTables as u8)?;
        }
    }
    let refusal = vec![Code::Malformed as u64, 0, 0, 0, 0, 0, 0, 0, 0];
    for (record_bytes, answer_words) in [(0, 9), (47, 9), (48, 0), (48, 8), (48, 10), (0, 0)] {
        let mut lent = words.clone();
        let mut answer = vec![9; answer_words];
        let Words { stakes, offers, books } = &mut lent;
        let code = proved::apply([stakes, offers, books], &record[..record_bytes], &mut answer);
        same("a call of another length", Code::Malformed as u8, code)?;
        let written = if answer_words == refusal.len() { refusal.clone() } else { vec![9; answer_words] };
        same("what it has written", (words, written), (&lent, answer))?;
    }
    for answer_words in [0, 1, 2, 4, 9] {
        let mut answer = vec![9; answer_words];
        let query = Query { kind: 3, pool: 0, number: 0, time: 0 };
        let code = proved::query([&words.stakes, &words.offers, &words.books], query, &mut answer);
        same("a query of another length", Code::Malformed as u8, code)?;
        same("what it has written", vec![9; answer_words], answer)?;
    }
    for answer_words in [0, 1, 3, 5, 9] {
        for look_up in [proved::look_up_stake, proved::look_up_offer] {
            let mut answer = vec![9; answer_words];
            let code = look_up([&words.stakes, &words.offers, &words.books], 0, 7, &mut answer);
            same("a lookup of another length", Code::Malformed as u8, code)?;
            same("what it has written", vec![9; answer_words], answer)?;
        }
    }
    Ok(())
}
