//! A log as CSV: a header, and a row per call with an empty cell for each field that the call does not use.

use super::entry::{Entry, BYTES, HEAD};

const LINE: &str = "line";
const CALL: &str = "call";
/// The fields' names.
const FIELDS: [&str; 14] = [
    "admin",
    "pool",
    "reply",
    "staker",
    "invoice",
    "beneficiary",
    "offer",
    "lender",
    "caller",
    "amount",
    "rate",
    "now",
    "signer",
    "bytes",
];

pub fn header() -> String {
    [&[LINE, CALL], &FIELDS[..]].concat().join(",")
}

/// No value of a log has a comma, a quote or the end of a line, so none is quoted.
pub fn row(line: u64, entry: &Entry) -> String {
    let value = |name: &str| entry.fields.iter().find(|(field, _)| field == name).map_or("", |(_, value)| value);
    let cells: String = FIELDS.iter().map(|name| format!(",{}", value(name))).collect();
    format!("{line},{}{cells}", entry.call)
}

/// The entries with the numbers of the lines that their rows begin on.
pub fn entries(text: &str) -> Result<Vec<(usize, Entry)>, String> {
    let mut rows = rows(text)?.into_iter();
    let (_, columns) = rows.next().ok_or_else(|| format!("line 1: a header is expected: {}", header()))?;
    check_columns(&columns).map_err(|error| format!("line 1: {error}"))?;
    let entry = |(index, (line, cells)): (usize, (usize, Vec<String>))| {
        let entry = entry(&columns, cells, index).map_err(|error| format!("line {line}: {error}"))?;
        Ok((line, entry))
    };
    rows.enumerate().map(entry).collect()
}

fn check_columns(columns: &[String]) -> Result<(), String> {
    for (index, column) in columns.iter().enumerate() {
        if !FIELDS.contains(&column.as_str()) && column != LINE && column != CALL {
            return Err(format!("there is no column {column}: {} are expected", header()));
        }
        if columns[..index].contains(column) {
            return Err(format!("the column {column} stands twice"));
        }
    }
    if columns.iter().any(|column| column == CALL) {
        Ok(())
    } else {
        Err(format!("a column {CALL} is expected"))
    }
}

fn entry(columns: &[String], cells: Vec<String>, index: usize) -> Result<Entry, String> {
    if cells.len() != columns.len() {
        return Err(format!("{} cells, and the header has {}", cells.len(), columns.len()));
    }
    let mut entry = Entry { call: String::new(), fields: Vec::new(), remark: None };
    for (column, cell) in columns.iter().zip(cells) {
        match column.as_str() {
            CALL => entry.call = cell,
            LINE if cell != index.to_string() => {
                return Err(format!("{LINE} is {cell}, and {index} is expected: rows are in the log's order, from 0"));
            }
            LINE => (),
            _ if cell.is_empty() => (),
            _ => entry.fields.push((column.clone(), cell)),
        }
    }
    // A log may be cut before its first byte.
    if entry.call == HEAD && entry.fields.is_empty() {
        entry.fields.push((BYTES.to_string(), String::new()));
    }
    Ok(entry)
}

/// The rows' cells, with the number of the line that each begins on.
fn rows(text: &str) -> Result<Vec<(usize, Vec<String>)>, String> {
    let mut rows = Vec::new();
    let mut rest = text;
    let mut line = 1;
    while !rest.is_empty() {
        let begin = line;
        let mut cells = Vec::new();
        loop {
            let (cell, length) = cell(rest).map_err(|error| format!("line {line}: {error}"))?;
            line += cell.matches('\n').count();
            cells.push(cell);
            rest = &rest[length..];
            match rest.strip_prefix(',') {
                Some(behind) => rest = behind,
                None => break,
            }
        }
        let end = rest.strip_prefix("\r\n").or_else(|| rest.strip_prefix('\n'));
        // A number cut short is still a number, so only the line's end tells that it is whole.
        rest = end.ok_or_else(|| format!("line {line}: the end of the line is expected: the CSV may be cut"))?;
        line += 1;
        rows.push((begin, cells));
    }
    Ok(rows)
}

/// The cell at the beginning of a text, and how long it is there.
fn cell(text: &str) -> Result<(String, usize), String> {
    let Some(quoted) = text.strip_prefix('"') else {
        let length = text.find([',', '\r', '\n']).unwrap_or(text.len());
        return match text[..length].contains('"') {
            true => Err(format!("{}: a quote within a cell that does not begin with one", &text[..length])),
            false => Ok((text[..length].to_string(), length)),
        };
    };
    let mut cell = String::new();
    let mut rest = quoted;
    loop {
        let close = rest.find('"').ok_or("a quoted cell without its end: the CSV may be cut")?;
        cell += &rest[..close];
        rest = &rest[close + 1..];
        match rest.strip_prefix('"') {
            Some(behind) => {
                cell.push('"');
                rest = behind;
            }
            None => return Ok((cell, text.len() - rest.len())),
        }
    }
}

#[cfg(test)]
mod tests {
    use super::*;
    use pasumorip::form::FORMS;

    #[test]
    fn every_field_has_a_column() {
        let fields = FORMS.iter().flat_map(|form| form.fields).map(|(name, _)| name);
        assert_eq!(fields.filter(|name| !FIELDS.contains(name)).count(), 0);
    }

    #[test]
    fn cells_are_quoted_or_not() {
        let rows = rows("a,,\"b,\"\"c\nd\"\r\ne\n").map(|rows| rows.into_iter().collect::<Vec<_>>());
        let cells = |cells: &[&str]| cells.iter().map(|cell| cell.to_string()).collect::<Vec<_>>();
        assert_eq!(rows, Ok(vec![(1, cells(&["a", "", "b,\"c\nd"])), (3, cells(&["e"]))]));
    }

    #[test]
    fn what_is_cut_is_told() {
        assert!(rows("a,b").is_err_and(|error| error.starts_with("line 1: the end of the line")));
        assert!(rows("a\n\"b\n").is_err_and(|error| error.starts_with("line 2: a quoted cell without its end")));
        assert!(rows("a\nb\"c\"\n").is_err_and(|error| error.starts_with("line 2: b\"c\"")));
    }
}
