//! A log as text: a line per call, `#` before a comment.

use super::entry::Entry;

pub fn line(entry: &Entry) -> String {
    let fields: String = entry.fields.iter().map(|(name, value)| format!(" {name}={value}")).collect();
    let remark = entry.remark.as_ref().map_or(String::new(), |remark| format!(" # {remark}"));
    format!("{}{fields}{remark}", entry.call)
}

/// The entries with the numbers of their lines.
pub fn entries(text: &str) -> Result<Vec<(usize, Entry)>, String> {
    let mut entries = Vec::new();
    for (index, line) in text.split_inclusive('\n').enumerate() {
        let number = index + 1;
        let content = line.split('#').next().unwrap_or("").trim();
        if content.is_empty() {
            continue;
        }
        // A number cut short is still a number, so only the line's end tells that it is whole.
        if !line.ends_with('\n') {
            return Err(format!("line {number}: the end of the line is expected: the text may be cut"));
        }
        entries.push((number, entry(content).map_err(|error| format!("line {number}: {error}"))?));
    }
    Ok(entries)
}

fn entry(content: &str) -> Result<Entry, String> {
    let mut words = content.split_whitespace();
    let call = words.next().unwrap_or("").to_string();
    let field = |word: &str| {
        let (name, value) = word.split_once('=').ok_or_else(|| format!("{word}: NAME=VALUE is expected"))?;
        Ok((name.to_string(), value.to_string()))
    };
    Ok(Entry { call, fields: words.map(field).collect::<Result<_, String>>()?, remark: None })
}
