//! The three engines as one kind: records in, text out.

use oracle::Bare;
use std::fmt::Write;
use std::hint::black_box;

pub const RECORD: usize = 48;

/// The text is handed on in parts of at most about this many bytes, as a program writes it out.
const PART: usize = 1 << 20;

/// The most text that a record has.
const RECORD_TEXT: usize = 178;

pub const STAKE_ROWS: usize = 1_024;
pub const OFFER_ROWS: usize = 512;

pub trait Engine {
    fn copy(&self) -> Box<dyn Engine>;
    /// Runs whole records after those before.
    fn run(&mut self, records: &[u8], text: &mut dyn FnMut(&[u8]));
}

/// Fresh sets of the three, with 1,024 and 512 rows.
pub fn fresh(admin: u64) -> [Box<dyn Engine>; 3] {
    [Box::new(Proved::fresh(admin)), Box::new(Idiomatic::fresh(admin)), Box::new(Original::fresh(admin))]
}

/// What a timed run does with the text.
pub fn drop_text(text: &[u8]) {
    black_box(text);
}

#[derive(Clone)]
pub struct Proved {
    pub stakes: Vec<u64>,
    pub offers: Vec<u64>,
    pub books: Vec<u64>,
    text: Vec<u8>,
    number: u64,
}

impl Proved {
    pub fn fresh(admin: u64) -> Proved {
        let mut tables = Proved {
            stakes: vec![0; 5 * STAKE_ROWS],
            offers: vec![0; 4 * OFFER_ROWS],
            books: vec![0; 12],
            text: vec![0; PART],
            number: 0,
        };
        assert_eq!(proved::fresh([&mut tables.stakes, &mut tables.offers, &mut tables.books], admin), 0);
        tables
    }
}

impl Engine for Proved {
    fn copy(&self) -> Box<dyn Engine> {
        Box::new(self.clone())
    }

    fn run(&mut self, mut records: &[u8], text: &mut dyn FnMut(&[u8])) {
        while records.len() >= RECORD {
            let mut progress = [self.number, 0, 0];
            let lent = [&mut self.stakes[..], &mut self.offers[..], &mut self.books[..]];
            assert_eq!(proved::replay(lent, records, &mut self.text, &mut progress), 0);
            let [number, taken, written] = progress;
            self.number = number;
            records = &records[taken as usize..];
            text(&self.text[..written as usize]);
        }
    }
}

#[derive(Clone)]
pub struct Idiomatic {
    engine: idiomatic::Engine,
    text: Vec<u8>,
    number: u64,
}

impl Idiomatic {
    pub fn fresh(admin: u64) -> Idiomatic {
        let engine = idiomatic::Engine::fresh(admin, STAKE_ROWS, OFFER_ROWS);
        Idiomatic { engine, text: Vec::new(), number: 0 }
    }
}

impl Engine for Idiomatic {
    fn copy(&self) -> Box<dyn Engine> {
        // Memory that was written to before, as the others' is.
        let mut text = vec![b' '; PART];
        text.clear();
        Box::new(Idiomatic { text, ..self.clone() })
    }

    fn run(&mut self, records: &[u8], text: &mut dyn FnMut(&[u8])) {
        for part in records.chunks(PART / RECORD_TEXT * RECORD) {
            self.text.clear();
            self.number = self.engine.replay(part, self.number, &mut self.text);
            text(&self.text);
        }
    }
}

#[derive(Clone)]
pub struct Original {
    module: Bare,
    text: String,
    number: u64,
}

impl Original {
    pub fn fresh(admin: u64) -> Original {
        Original { module: Bare::fresh(admin), text: String::new(), number: 0 }
    }
}

impl Engine for Original {
    fn copy(&self) -> Box<dyn Engine> {
        Box::new(self.clone())
    }

    fn run(&mut self, records: &[u8], text: &mut dyn FnMut(&[u8])) {
        self.text.clear();
        for bytes in records.as_chunks::<RECORD>().0 {
            self.number += 1;
            let answer = self.module.call(&oracle::Record::from_bytes(bytes));
            write!(self.text, "{} {answer}", self.number).expect("a string takes any text");
            if self.text.len() > PART - RECORD_TEXT {
                text(self.text.as_bytes());
                self.text.clear();
            }
        }
        text(self.text.as_bytes());
    }
}
