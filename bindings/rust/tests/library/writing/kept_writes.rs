//! The kept writes of vectors/: each leaves its buffer as it is kept there.

use super::rule::Text;
use super::told;
use crate::kept;
use pasumorip::log::Row;

/// A write's fields, each a name and a number.
struct Fields<'a>(Vec<(&'a str, i128)>);

impl<'a> Fields<'a> {
    fn read(words: impl Iterator<Item = &'a str>) -> Fields<'a> {
        let field = |word: &'a str| {
            let (name, value) = word.split_once('=').expect("name=value");
            (name, value.parse().expect("a number"))
        };
        Fields(words.map(field).collect())
    }

    fn get<T: TryFrom<i128>>(&self, wanted: &str) -> T {
        let value = self.0.iter().find(|(name, _)| *name == wanted).map(|(_, value)| T::try_from(*value));
        value.and_then(Result::ok).unwrap_or_else(|| panic!("{wanted} is given, within its limits"))
    }

    fn row(&self) -> Row {
        Row {
            operation: self.get("operation"),
            pool: self.get("pool"),
            reply: self.get("reply"),
            now: self.get("now"),
            signer: self.get("signer"),
            subject: self.get("subject"),
            other: self.get("other"),
            amount: self.get("amount"),
        }
    }
}

/// The code, and the bytes of the buffer in hex.
fn written(line: &str) -> String {
    let mut words = line.split_whitespace();
    let kind = words.next().expect("a write has a kind");
    let fields = Fields::read(words);
    let text = match kind {
        "head" => Text::Head(fields.get("admin")),
        "record" => Text::Record(fields.row()),
        other => panic!("no write {other}"),
    };
    let length: usize = fields.get("length");
    let before: Vec<u8> = (0..length).map(|byte| 255 - byte as u8).collect();
    let (code, after) = told(&before, fields.get("at"), &text);
    let hex: String = after.iter().map(|byte| format!("{byte:02x}")).collect();
    format!("{code} {}", if hex.is_empty() { "-" } else { &hex })
}

#[test]
fn writes_leave_what_is_kept() {
    let path = kept::folder().join("writing.rows");
    let (rows, kept) = (kept::text(&path), kept::text(&path.with_extension("written")));
    let rows: Vec<&str> = kept::lines(&rows).collect();
    assert_eq!(rows.len(), kept.lines().count());
    for (row, kept) in rows.into_iter().zip(kept.lines()) {
        assert_eq!(written(row), kept, "{row}");
    }
}
