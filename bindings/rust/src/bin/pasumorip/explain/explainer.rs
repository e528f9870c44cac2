//! Runs a log line by line and says of each what it did.

use super::accrued::Moment;
use super::asked::asked;
use super::effect::{effects, Effect};
use super::refusal::why;
use super::summary::{Standing, Summary, MOST_NAMED};
use crate::dates::utc;
use crate::figures::{grouped, listed};
use pasumorip::limits::LAST_TIME;
use pasumorip::record::{Record, RECORD_BYTES};
use pasumorip::{Account, Answer, Books, Call, Code, Operation, Rooms, Tables};

pub struct Explainer {
    tables: Tables,
    pub books: Books,
    pub summary: Summary,
    /// When accrued yields are asked: the last line that has a time, also where the clock went back.
    pub moment: Option<Moment>,
}

/// A line, explained.
pub struct Explained {
    pub number: u64,
    /// When it was signed and by whom, as far as the record says.
    pub signed: String,
    pub asked: String,
    pub code: Code,
    /// What happened, in sentences.
    pub outcome: String,
    pub effects: Vec<Effect>,
    /// For a refusal, what the lines before it did.
    pub standing: Option<Standing>,
    /// The pools' balances after it.
    pub balances: [i64; 4],
}

impl Explainer {
    /// None where the head is short or wrong.
    pub fn open(head: &[u8]) -> Option<Explainer> {
        let tables = Tables::open(Rooms::FULL, head).ok()?;
        let books = books_of(&tables);
        Some(Explainer { tables, books, summary: Summary::default(), moment: None })
    }

    /// Stakes before, in the summary, are those that stand now.
    pub fn begin_summary(&mut self) {
        self.summary.begin();
    }

    pub fn explain(&mut self, bytes: &[u8; RECORD_BYTES]) -> Explained {
        let record = Record::from_bytes(bytes);
        let call = Call::from_record(&record);
        let words_before = self.tables.clone();
        let answer = self.tables.apply_record(bytes);
        let after = if self.tables == words_before { self.books.clone() } else { books_of(&self.tables) };
        let operation = call.as_ref().ok().map(|call| call.operation);
        let effects = effects(operation, &answer, &self.books, &after);
        let whose = whose_money(&effects);
        let (outcome, standing) = match answer.code {
            Code::Done => (format!("Done{}. {whose}", figures(operation, &answer)), None),
            code => {
                let why = why(code, &call, &self.books, self.tables.rooms());
                (format!("Refused, {code}: {why}. {whose}"), Some(self.summary.standing()))
            }
        };
        let shares_loss = matches!(operation, Some(Operation::Pay { .. } | Operation::Claim { .. }));
        self.summary.add(&effects, shares_loss);
        self.moment = Moment::of(self.summary.lines, record.now).or(self.moment);
        self.books = after;
        Explained {
            number: self.summary.lines,
            signed: signed(&record),
            asked: asked(&record, &call),
            code: answer.code,
            outcome,
            effects,
            standing,
            balances: self.books.pools.map(|pool| pool.balance),
        }
    }

    /// The header and the cells of a row per account and pool.
    pub fn account_rows(&self) -> Vec<Vec<String>> {
        self.summary.account_rows(|account, pool| {
            self.moment.map_or(String::new(), |moment| moment.accrued(&self.tables, pool, account))
        })
    }
}

fn signed(record: &Record) -> String {
    let signer = match record.signer {
        0 => "signed by nobody".to_string(),
        signer => format!("signed by account {signer}"),
    };
    match record.now {
        now @ 0..=LAST_TIME => format!("{}, {signer}", utc(now)),
        now => format!("time {now}, {signer}"),
    }
}

fn books_of(tables: &Tables) -> Books {
    tables.books().expect("tables that began fresh stay well formed")
}

/// What the answer's numbers say.
fn figures(operation: Option<Operation>, answer: &Answer) -> String {
    match operation {
        Some(Operation::Pay { amount, .. }) => format!(", {} is paid", part(answer.first, amount)),
        Some(Operation::Reserve { amount, .. }) => format!(", {} is reserved", part(answer.first, amount)),
        Some(Operation::Claim { amount, .. }) => {
            format!(", {} is paid and cover of {} is left", part(answer.first, amount), grouped(answer.second))
        }
        _ => String::new(),
    }
}

/// How much of what was asked for.
fn part(given: i64, asked: i64) -> String {
    match given {
        0 => "nothing".to_string(),
        _ if given == asked => grouped(given),
        _ => format!("{} of the {}", grouped(given), grouped(asked)),
    }
}

fn whose_money(effects: &[Effect]) -> String {
    let mut accounts: Vec<Account> = effects.iter().filter_map(Effect::whose_money).collect();
    accounts.sort();
    accounts.dedup();
    match accounts[..] {
        [] => "Nobody's money moved.".to_string(),
        [one] => format!("Money of account {one} moved."),
        _ if accounts.len() > MOST_NAMED => format!("Money of {} accounts moved.", accounts.len()),
        _ => {
            let names: Vec<String> = accounts.iter().map(Account::to_string).collect();
            format!("Money of accounts {} moved.", listed(&names))
        }
    }
}
