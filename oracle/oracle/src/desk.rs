//! Calls, queries and lookups on any tables, well formed or not.

use crate::answer::{Answer, Code};
use crate::engine::Engine;
use crate::lookup::{Found, Lookup};
use crate::operation::Operation;
use crate::question::Question;
use crate::record::Record;
use crate::tables::Tables;

/// Tables that are not well formed stay so, since every call on them is refused.
#[derive(Clone)]
pub enum Desk {
    Good(Engine),
    Bad(Tables),
}

impl Desk {
    pub fn open(tables: Tables) -> Desk {
        Engine::load(&tables).map_or(Desk::Bad(tables), Desk::Good)
    }

    pub fn call(&mut self, record: &Record) -> Answer {
        match self {
            Desk::Good(engine) => engine.call(record),
            Desk::Bad(_) if Operation::of(record).is_none() => Answer::refusal(Code::Malformed),
            Desk::Bad(_) => Answer::refusal(Code::BadTables),
        }
    }

    pub fn ask(&self, question: &Question) -> Answer {
        match self {
            Desk::Good(engine) => engine.ask(question),
            Desk::Bad(_) if question.malformed() => Answer::refusal(Code::Malformed),
            Desk::Bad(_) => Answer::refusal(Code::BadTables),
        }
    }

    pub fn look_up(&self, lookup: &Lookup) -> Result<Found, Code> {
        match self {
            _ if lookup.malformed() => Err(Code::Malformed),
            Desk::Good(engine) => Ok(Found::among(&lookup.keys(&engine.tables()), lookup.key())),
            Desk::Bad(_) => Err(Code::BadTables),
        }
    }

    pub fn tables(&self) -> Tables {
        match self {
            Desk::Good(engine) => engine.tables(),
            Desk::Bad(tables) => tables.clone(),
        }
    }
}
