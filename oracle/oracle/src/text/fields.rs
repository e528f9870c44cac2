//! Lines of `name=value` words.

use std::str::FromStr;

/// Lines with something on them, numbered from 1; `#` begins a comment.
pub fn lines(text: &str) -> impl Iterator<Item = (usize, &str)> {
    text.lines()
        .enumerate()
        .map(|(index, line)| (index + 1, line.split('#').next().unwrap_or("").trim()))
        .filter(|(_, line)| !line.is_empty())
}

/// A number in decimal; underscores may group its digits.
pub fn number<T: FromStr>(text: &str) -> Result<T, String> {
    text.replace('_', "").parse().map_err(|_| format!("no number of its kind: {text}"))
}

pub fn numbers<T: FromStr, const N: usize>(words: &[&str]) -> Result<[T; N], String> {
    let parsed: Vec<T> = words.iter().map(|word| number(word)).collect::<Result<_, _>>()?;
    parsed.try_into().map_err(|found: Vec<T>| format!("{N} numbers wanted, {} found", found.len()))
}

pub fn pair(word: &str) -> Result<(&str, &str), String> {
    word.split_once('=').ok_or_else(|| format!("not of the form name=value: {word}"))
}

/// A line's first word, and its fields.
pub struct Fields<'a> {
    pub name: &'a str,
    fields: Vec<(&'a str, &'a str)>,
}

impl<'a> Fields<'a> {
    pub fn of(line: &'a str) -> Result<Fields<'a>, String> {
        let mut words = line.split_whitespace();
        let name = words.next().unwrap_or("");
        Ok(Fields { name, fields: words.map(pair).collect::<Result<_, _>>()? })
    }

    pub fn get<T: FromStr>(&self, wanted: &str) -> Result<T, String> {
        let found = self.fields.iter().find(|(field, _)| *field == wanted);
        found.map_or(Err(format!("{} needs {wanted}", self.name)), |(_, value)| number(value))
    }
}

pub fn hex(text: &str) -> Result<Vec<u8>, String> {
    let byte = |at: usize| text.get(at..at + 2).and_then(|two| u8::from_str_radix(two, 16).ok());
    (0..text.len()).step_by(2).map(byte).collect::<Option<_>>().ok_or_else(|| format!("not bytes in hex: {text}"))
}

pub fn to_hex(bytes: &[u8]) -> String {
    bytes.iter().map(|byte| format!("{byte:02x}")).collect()
}
