//! What a difference is and how it is shown.

use crate::words::Words;
use oracle::{print_tables, read_log, Record};
use std::fmt::{self, Debug};

/// One comparison that failed: what each of two sides has.
#[derive(Debug)]
pub struct Difference {
    what: String,
    sides: [(&'static str, String); 2],
}

/// Fine where both are equal.
pub fn same<T: PartialEq + Debug>(what: &str, oracle: T, library: T) -> Result<(), Difference> {
    equal(what, ["oracle", "library"], oracle, library)
}

/// Fine where both the oracle and the library, which are known to agree, have the plain sum.
pub fn same_as_plain<T: PartialEq + Debug>(what: &str, plain: T, both: T) -> Result<(), Difference> {
    equal(what, ["plain sum", "oracle and library"], plain, both)
}

fn equal<T: PartialEq + Debug>(what: &str, names: [&'static str; 2], left: T, right: T) -> Result<(), Difference> {
    if left == right {
        return Ok(());
    }
    let sides = [(names[0], format!("{left:?}")), (names[1], format!("{right:?}"))];
    Err(Difference { what: what.to_string(), sides })
}

/// Where two differ first: the shorter one's end, if nowhere before it.
fn first_other<T: PartialEq>(left: &[T], right: &[T]) -> usize {
    left.iter().zip(right).position(|(a, b)| a != b).unwrap_or(left.len().min(right.len()))
}

/// The first word that differs, since whole tables are too long to read.
pub fn same_words(what: &str, oracle: &[u64], library: &[u64]) -> Result<(), Difference> {
    if oracle == library {
        return Ok(());
    }
    let at = first_other(oracle, library);
    let word = |words: &[u64]| words.get(at).map(|word| (*word, *word as i64));
    same(&format!("{what}, word {at} of {}", oracle.len()), word(oracle), word(library))
}

/// The first byte that differs.
pub fn same_bytes(what: &str, oracle: &[u8], library: &[u8]) -> Result<(), Difference> {
    if oracle == library {
        return Ok(());
    }
    let at = first_other(oracle, library);
    same(&format!("{what}, byte {at} of {}", oracle.len()), oracle.get(at), library.get(at))
}

/// The first line that differs.
pub fn same_text(what: &str, oracle: &[u8], library: &[u8]) -> Result<(), Difference> {
    let lines = |text: &[u8]| String::from_utf8_lossy(text).lines().map(str::to_string).collect::<Vec<_>>();
    if oracle == library {
        return Ok(());
    }
    let (oracle, library) = (lines(oracle), lines(library));
    let at = first_other(&oracle, &library);
    same(&format!("{what}, line {}", at + 1), oracle.get(at), library.get(at))
}

impl fmt::Display for Difference {
    fn fmt(&self, f: &mut fmt::Formatter) -> fmt::Result {
        writeln!(f, "in {}", self.what)?;
        let width = self.sides.iter().map(|(name, _)| name.len()).max().unwrap_or(0) + 1;
        self.sides.iter().try_for_each(|(name, has)| writeln!(f, "  {:width$} {has}", format!("{name}:")))
    }
}

/// A difference, and the calls from given tables that lead to it.
pub struct Failure {
    pub origin: String,
    pub start: Words,
    pub records: Vec<Record>,
    pub difference: Difference,
}

impl Failure {
    pub fn without_tables(origin: String, difference: Difference) -> Box<Failure> {
        let start = Words { stakes: vec![], offers: vec![], books: vec![] };
        Box::new(Failure { origin, start, records: vec![], difference })
    }
}

impl fmt::Display for Failure {
    fn fmt(&self, f: &mut fmt::Formatter) -> fmt::Result {
        writeln!(f, "DIFFERENCE ({}) {}", self.origin, self.difference)?;
        let mut log = oracle::head(1).to_vec();
        log.extend(self.records.iter().flat_map(|record| record.to_bytes()));
        let text = read_log(&log);
        writeln!(f, "calls, the fewest found ({}):", self.records.len())?;
        text.lines().skip(1).try_for_each(|line| writeln!(f, "{line}"))?;
        match self.start.tables() {
            Some(tables) => write!(f, "from the tables:\n{}", print_tables(&tables)),
            None => writeln!(f, "from the words: {:?}", self.start),
        }
    }
}
