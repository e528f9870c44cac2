//! Queries and lookups give the kept answers.

use crate::kept;
use pasumorip::face::{self, Shown};
use pasumorip::log::HEAD_BYTES;
use pasumorip::record::RECORD_BYTES;
use pasumorip::{Account, Code, Lookup, Offer, Place, Pool, Tables};
use std::path::Path;

/// A line's name and fields.
struct Question<'a> {
    name: &'a str,
    fields: Vec<(&'a str, u64)>,
}

impl<'a> Question<'a> {
    fn read(line: &'a str) -> Question<'a> {
        let mut words = line.split_whitespace();
        let name = words.next().expect("a question has a name");
        let fields = words
            .map(|word| word.split_once('=').expect("name=value"))
            .map(|(field, value)| (field, value.parse().expect("a number")))
            .collect();
        Question { name, fields }
    }

    fn get(&self, wanted: &str) -> u64 {
        self.fields.iter().find(|(field, _)| *field == wanted).expect("the field is given").1
    }

    /// None where there is no such pool.
    fn pool(&self) -> Option<Pool> {
        u8::try_from(self.get("pool")).ok().and_then(Pool::from_number)
    }
}

/// A query's answer as its code and two numbers. A pool that there is none of cannot be asked for here.
fn told(tables: &Tables, question: &Question) -> Option<String> {
    let pool = question.pool()?;
    let get = |field| question.get(field);
    let answer = match question.name {
        "stake" => tables.stake(pool, Account(get("account"))).map(|stake| (stake, 0)),
        "accrued" => tables.accrued(pool, Account(get("account")), get("now")).map(|accrued| (accrued, 0)),
        "pool" => tables.pool(pool).map(|figures| (figures.balance, figures.unpaid)),
        "count" => tables.stakers_count(pool).map(|count| (count as i64, 0)),
        "offer" => tables.offer(pool, Offer(get("offer"))).map(|figures| (figures.reserved, figures.paid)),
        other => panic!("no question {other}"),
    };
    let (code, (first, second)) = answer.map_or_else(|code| (code, (0, 0)), |numbers| (Code::Done, numbers));
    Some(format!("{} {first} {second}", code.number()))
}

/// A lookup's answer as its code, 1 for a row and 0 for a gap, its place and the rows read.
fn found(tables: &Tables, seek: &Question) -> Option<String> {
    let Some(pool) = seek.pool() else { return Some(found_as_words(tables, seek)) };
    let answer = match seek.name {
        "stake" => tables.look_up_stake(pool, Account(seek.get("account"))),
        "offer" => tables.look_up_offer(pool, Offer(seek.get("offer"))),
        other => panic!("no lookup {other}"),
    };
    Some(match answer {
        Ok(Lookup { place: Place::Row(place), reads }) => format!("0 1 {place} {reads}"),
        Ok(Lookup { place: Place::Gap(place), reads }) => format!("0 0 {place} {reads}"),
        Err(code) => format!("{} 0 0 0", code.number()),
    })
}

fn found_as_words(tables: &Tables, seek: &Question) -> String {
    let (stakes, offers, books) = tables.words();
    let tables = Shown { stakes, offers, books };
    let mut words = [0; 4];
    match seek.name {
        "stake" => face::look_up_stake(tables, seek.get("pool"), seek.get("account"), &mut words),
        "offer" => face::look_up_offer(tables, seek.get("pool"), seek.get("offer"), &mut words),
        other => panic!("no lookup {other}"),
    };
    words.map(|word| word.to_string()).join(" ")
}

/// How a question is put to tables.
type Put = fn(&Tables, &Question) -> Option<String>;

fn compare(tables: &Tables, put: Put, ask: &Path, answers: &Path) {
    let (questions, answers) = (kept::text(ask), kept::text(answers));
    let questions: Vec<&str> = kept::lines(&questions).collect();
    assert_eq!(questions.len(), answers.lines().count());
    for (question, answer) in questions.iter().zip(answers.lines()) {
        if let Some(told) = put(tables, &Question::read(question)) {
            assert_eq!(told, answer, "{question}");
        }
    }
}

/// The tables after a history.
fn after(log: &Path) -> Tables {
    let bytes = kept::read(log);
    let (head, records) = bytes.split_at(HEAD_BYTES);
    let mut tables = Tables::open(kept::rooms(log), head).expect("the head is good");
    for record in records.chunks_exact(RECORD_BYTES) {
        tables.apply_record(record);
    }
    tables
}

fn after_histories(put: Put, asked: &str, answered: &str) {
    for ask in kept::files(&kept::folder(), asked) {
        compare(&after(&ask.with_extension("log")), put, &ask, &ask.with_extension(answered));
    }
}

fn of_lent_tables(put: Put, asked: &str, answered: &str) {
    let folder = kept::folder().join("lent");
    for answers in kept::files(&folder, answered) {
        let tables =
            kept::files(&folder, "tables").into_iter().find(|tables| tables.file_stem() == answers.file_stem());
        let lent = tables.unwrap_or_else(|| folder.join("bad-admin-0.lent"));
        compare(&kept::tables(&lent), put, &folder.join("calls").with_extension(asked), &answers);
    }
}

#[test]
fn questions_after_a_history() {
    after_histories(told, "ask", "told");
}

#[test]
fn questions_to_lent_tables() {
    of_lent_tables(told, "ask", "told");
}

#[test]
fn lookups_after_a_history() {
    after_histories(found, "seek", "found");
}

#[test]
fn lookups_in_lent_tables() {
    of_lent_tables(found, "seek", "found");
}
