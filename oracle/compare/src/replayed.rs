//! A history by the library's replay, in parts, against the text of the oracle's answers.

use crate::difference::{same, same_text, same_words, Difference};
use crate::guarded::Guarded;
use crate::pair::FILL;
use crate::words::Words;
use oracle::{Answer, Record, Rng};

/// The room that a record's text may need: the library stops before one where less is left.
const RECORD_TEXT: usize = 178;

/// The most records that may have been run before a part.
const MOST_BEFORE: u64 = 1 << 63;

const TEXT_FILL: u8 = 0xa5;

/// The library's tables and how far it is.
struct Replayed {
    stakes: Guarded<u64>,
    offers: Guarded<u64>,
    books: Guarded<u64>,
    progress: Guarded<u64>,
}

/// Replays `records` from `start`, where the oracle gave `answers` and left `end`. Parts and rooms are random.
pub fn replay(
    rng: &mut Rng,
    start: &Words,
    records: &[Record],
    answers: &[Answer],
    end: &Words,
) -> Result<(), Difference> {
    let before = rng.pick(&[0, 0, 1, 9, 99, 4_294_967_295, MOST_BEFORE - 1_000_000]);
    let lines: Vec<String> =
        answers.iter().zip(before + 1..).map(|(answer, number)| format!("{number} {answer}")).collect();
    let mut log: Vec<u8> = records.iter().flat_map(|record| record.to_bytes()).collect();
    log.resize(log.len() + rng.below(Record::LENGTH as u64) as usize, 0);
    let mut library = Replayed {
        stakes: Guarded::new(&start.stakes, FILL),
        offers: Guarded::new(&start.offers, FILL),
        books: Guarded::new(&start.books, FILL),
        progress: Guarded::new(&[before, FILL, FILL], FILL),
    };
    refused(start, &log, &[MOST_BEFORE + 1, FILL, FILL], 1)?;
    let mut done = 0;
    while done < records.len() {
        let room = rng.pick(&[0, 177, 178, 179, 300, 511, 512, 1_000, 10_000, 300 * records.len()]);
        let handed = match rng.below(3) {
            0 => rng.below(((records.len() - done) * Record::LENGTH) as u64 + 1) as usize,
            _ => log.len() - done * Record::LENGTH,
        };
        let part = &log[done * Record::LENGTH..][..handed];
        let taken = library.part(part, room, &lines[done..])?;
        done += taken;
        same("the records run in all", before + done as u64, library.progress[0])?;
    }
    same_words("the stakes after the replay", &end.stakes, &library.stakes)?;
    same_words("the offers after the replay", &end.offers, &library.offers)?;
    same_words("the books after the replay", &end.books, &library.books)
}

impl Replayed {
    /// One call; answers how many records it took, which is as many as the rooms allow.
    fn part(&mut self, part: &[u8], room: usize, lines: &[String]) -> Result<usize, Difference> {
        let mut text = Guarded::new(&vec![TEXT_FILL; room], TEXT_FILL);
        let lent = [&mut *self.stakes, &mut *self.offers, &mut *self.books];
        let code = proved::replay(lent, part, &mut text, &mut self.progress);
        let mut wanted = String::new();
        let mut taken = 0;
        while taken < part.len() / Record::LENGTH && room - wanted.len() >= RECORD_TEXT {
            wanted += &lines[taken];
            taken += 1;
        }
        let told = (code, self.progress[1], self.progress[2]);
        same(
            "a replay's code, bytes taken, bytes written",
            (0, (taken * Record::LENGTH) as u64, wanted.len() as u64),
            told,
        )?;
        same_text("the text", wanted.as_bytes(), &text[..wanted.len()])?;
        same("text behind the last line", true, text[wanted.len()..].iter().all(|byte| *byte == TEXT_FILL))?;
        let intact = [&self.stakes, &self.offers, &self.books, &self.progress].map(|lent| lent.intact());
        same("the guards of stakes, offers, books, progress", [true; 4], intact)?;
        same("the guards of the text", true, text.intact())?;
        Ok(taken)
    }
}

/// A replay that is refused with this code writes nothing, neither tables nor text nor progress.
pub fn refused(words: &Words, part: &[u8], progress: &[u64], code: u8) -> Result<(), Difference> {
    let mut stakes = Guarded::new(&words.stakes, FILL);
    let mut offers = Guarded::new(&words.offers, FILL);
    let mut books = Guarded::new(&words.books, FILL);
    let mut told = Guarded::new(progress, FILL);
    let mut text = Guarded::new(&[TEXT_FILL; 1_000], TEXT_FILL);
    same("a replay's code", code, proved::replay([&mut stakes, &mut offers, &mut books], part, &mut text, &mut told))?;
    same("progress of a refused replay", progress, &told)?;
    same("text of a refused replay", true, text.iter().all(|byte| *byte == TEXT_FILL))?;
    same_words("stakes of a refused replay", &words.stakes, &stakes)?;
    same_words("offers of a refused replay", &words.offers, &offers)?;
    same_words("books of a refused replay", &words.books, &books)?;
    let intact = [&stakes, &offers, &books, &told].map(|lent| lent.intact());
    same("the guards of stakes, offers, books, progress", [true; 4], intact)?;
    same("the guards of the text", true, text.intact())
}
