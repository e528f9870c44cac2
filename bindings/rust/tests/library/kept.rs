//! The kept histories of vectors/.

use pasumorip::{Answer, Direction, Rooms, Tables};
use std::fs;
use std::path::{Path, PathBuf};

pub fn folder() -> PathBuf {
    Path::new(env!("CARGO_MANIFEST_DIR")).join("../../vectors")
}

/// Every file of a folder with this ending, in order.
pub fn files(folder: &Path, ending: &str) -> Vec<PathBuf> {
    let entries = fs::read_dir(folder).unwrap_or_else(|error| panic!("{}: {error}", folder.display()));
    let paths = entries.map(|entry| entry.expect("a folder lists its files").path());
    let mut paths: Vec<PathBuf> = paths.filter(|path| path.extension().is_some_and(|found| found == ending)).collect();
    assert!(!paths.is_empty(), "{} has no file .{ending}", folder.display());
    paths.sort();
    paths
}

pub fn read(path: &Path) -> Vec<u8> {
    fs::read(path).unwrap_or_else(|error| panic!("{}: {error}", path.display()))
}

pub fn text(path: &Path) -> String {
    String::from_utf8(read(path)).expect("a text is UTF-8")
}

/// Lines with something on them; `#` begins a comment.
pub fn lines(text: &str) -> impl Iterator<Item = &str> {
    text.lines().map(|line| line.split('#').next().unwrap_or("").trim()).filter(|line| !line.is_empty())
}

/// The rooms that a history begins with: those that its text names, or a replay's.
pub fn rooms(log: &Path) -> Rooms {
    let text = text(&log.with_extension("txt"));
    let named = text.lines().find_map(|line| line.strip_prefix("# rooms ").and_then(|rooms| rooms.split_once(' ')));
    named.map_or(Rooms::FULL, |(stakes, offers)| Rooms {
        stakes: stakes.parse().expect("a number of rooms"),
        offers: offers.parse().expect("a number of rooms"),
    })
}

/// Tables from the words that a file *.lent or *.tables lists.
pub fn tables(path: &Path) -> Tables {
    let (mut rooms, mut stakes, mut offers, mut books) = (Rooms::FULL, Vec::new(), Vec::new(), Vec::new());
    for line in lines(&text(path)) {
        let (kind, figures) = line.split_once(' ').expect("a line has a kind and figures");
        let figures = figures.split(' ').map(|figure| figure.parse::<i128>().expect("a figure") as u64);
        match kind {
            "rooms" => {
                let [stakes, offers] = figures.collect::<Vec<_>>()[..] else { panic!("two rooms") };
                rooms = Rooms { stakes: stakes as usize, offers: offers as usize };
            }
            "stake" => stakes.extend(figures),
            "offer" => offers.extend(figures),
            _ => books.extend(figures),
        }
    }
    stakes.resize(5 * rooms.stakes, 0);
    offers.resize(4 * rooms.offers, 0);
    Tables::from_words(stakes, offers, books)
}

/// An answer as a replay prints it behind the record's number.
pub fn printed(answer: &Answer) -> String {
    let mut text = format!("{} {} {}\n", answer.code.number(), answer.first, answer.second);
    for transfer in answer.moved() {
        let direction = if transfer.direction == Direction::In { "in" } else { "out" };
        text += &format!("{direction} {} {}\n", transfer.account, transfer.amount);
    }
    text
}
