//! The oracle and the proved library side by side at the same tables.

use crate::accrued::Accrued;
use crate::counts::Counts;
use crate::difference::{same, same_as_plain, same_words, Difference};
use crate::guarded::Guarded;
use crate::lookups::Looked;
use crate::words::Words;
use crate::writes::write_back;
use oracle::{lookup_words, Answer, Books, Code, Desk, Lookup, Question, Record, Tables, Way};
use proved::Query;

/// What lent memory and its guards hold before a call.
pub const FILL: u64 = 0xa5a5_a5a5_a5a5_a5a5;

#[derive(Clone)]
pub struct Pair {
    desk: Desk,
    /// The oracle's tables as words.
    wanted: Words,
    stakes: Guarded<u64>,
    offers: Guarded<u64>,
    books: Guarded<u64>,
    answer: Guarded<u64>,
}

impl Pair {
    pub fn over(words: Words) -> Pair {
        Pair {
            desk: words.desk(),
            stakes: Guarded::new(&words.stakes, FILL),
            offers: Guarded::new(&words.offers, FILL),
            books: Guarded::new(&words.books, FILL),
            answer: Guarded::new(&[FILL; 9], FILL),
            wanted: words,
        }
    }

    /// None where the tables are not well formed.
    pub fn books(&self) -> Option<&Books> {
        match &self.desk {
            Desk::Good(engine) => Some(engine.books()),
            Desk::Bad(_) => None,
        }
    }

    pub fn tables(&self) -> Tables {
        self.desk.tables()
    }

    pub fn words(&self) -> &Words {
        &self.wanted
    }

    pub fn call(&mut self, record: &Record) -> Result<Answer, Difference> {
        let told = self.desk.call(record);
        // A refused call has left the oracle's tables as they were.
        if told.code == Code::Done {
            self.wanted = Words::of(&self.desk.tables());
        }
        self.answer.fill(FILL);
        let lent = [&mut *self.stakes, &mut *self.offers, &mut *self.books];
        let code = proved::apply(lent, &record.to_bytes(), &mut self.answer);
        same("the answer", &answer_words(&told)[..], &self.answer)?;
        same("the code", told.code as u8, code)?;
        self.same_tables()?;
        write_back(record, told.code)?;
        Ok(told)
    }

    /// Asks both sides and counts it. An accrued query is held to the plain sum too.
    pub fn ask(&mut self, query: Query, counts: &mut Counts) -> Result<(), Difference> {
        let question = question(query);
        let told = question.as_ref().map_or(Answer::refusal(Code::Malformed), |question| self.desk.ask(question));
        let mut answer = Guarded::new(&[FILL; 3], FILL);
        let code = proved::query([&self.stakes, &self.offers, &self.books], query, &mut answer);
        let what = format!("{query:?}");
        same(&what, &answer_words(&told)[..3], &answer)?;
        same(&what, told.code as u8, code)?;
        same("the guards of a query's answer", true, answer.intact())?;
        self.same_tables()?;
        if let Some(accrued) = self.books().zip(question).and_then(|(books, question)| Accrued::of(books, &question)) {
            same_as_plain(&what, accrued.answer(), told.clone())?;
            counts.accrued.count(&accrued);
        }
        counts.query(query.kind, &told);
        Ok(())
    }

    /// Looks a row up on both sides and counts it.
    pub fn look_up(&mut self, lookup: Lookup, counts: &mut Counts) -> Result<(), Difference> {
        let told = self.desk.look_up(&lookup);
        let wanted = lookup_words(&told);
        let mut answer = Guarded::new(&[FILL; 4], FILL);
        let lent = [&*self.stakes, &self.offers, &self.books];
        let code = match lookup {
            Lookup::Stake { pool, account } => proved::look_up_stake(lent, pool, account, &mut answer),
            Lookup::Offer { pool, offer } => proved::look_up_offer(lent, pool, offer, &mut answer),
        };
        let what = format!("{lookup:?}");
        same(&what, &wanted[..], &answer)?;
        same(&what, wanted[0], code.into())?;
        same("the guards of a lookup's answer", true, answer.intact())?;
        self.same_tables()?;
        counts.lookups.count(&Looked { lookup, told });
        Ok(())
    }

    /// Lent memory is as the oracle has it, and nothing around it was touched.
    fn same_tables(&self) -> Result<(), Difference> {
        let intact = [&self.stakes, &self.offers, &self.books, &self.answer].map(|lent| lent.intact());
        same("the guards of stakes, offers, books, answer", [true; 4], intact)?;
        same_words("the stakes", &self.wanted.stakes, &self.stakes)?;
        same_words("the offers", &self.wanted.offers, &self.offers)?;
        same_words("the books", &self.wanted.books, &self.books)
    }
}

/// Nine words: code, two numbers, and for each of two transfers kind, account and amount.
fn answer_words(answer: &Answer) -> [u64; 9] {
    let mut words = [0; 9];
    words[..3].copy_from_slice(&[answer.code as u64, answer.first as u64, answer.second as u64]);
    for (place, way) in words[3..].chunks_exact_mut(3).zip(&answer.transfers) {
        let (kind, account, amount) = match *way {
            Way::In(account, amount) => (1, account, amount),
            Way::Out(account, amount) => (2, account, amount),
        };
        place.copy_from_slice(&[kind, account, amount as u64]);
    }
    words
}

/// None where the kind is unknown or a field that it does not use is not 0.
pub fn question(query: Query) -> Option<Question> {
    let Query { kind, pool, number, time } = query;
    match (kind, number, time) {
        (1, account, 0) => Some(Question::Stake { pool, account }),
        (2, account, now) => Some(Question::Accrued { pool, account, now }),
        (3, 0, 0) => Some(Question::Pool { pool }),
        (4, 0, 0) => Some(Question::Count { pool }),
        (5, offer, 0) => Some(Question::Offer { pool, offer }),
        _ => None,
    }
}
