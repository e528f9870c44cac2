//! A log as text: `admin N` or `head HEX`, one line per record, and `tail HEX` for left-over bytes.

use super::fields::{hex, lines, number, pair, to_hex};
use crate::log::{head, Log};
use crate::record::Record;
use std::ops::RangeInclusive;

/// An operation's name and number, whether it uses pool and reply, and what it calls subject, other and amount.
struct Form {
    name: &'static str,
    operation: u8,
    pool: bool,
    reply: bool,
    subject: Option<&'static str>,
    other: Option<&'static str>,
    amount: Option<&'static str>,
}

const fn form(name: &'static str, operation: u8, pool_reply: (bool, bool), words: [Option<&'static str>; 3]) -> Form {
    let [subject, other, amount] = words;
    Form { name, operation, pool: pool_reply.0, reply: pool_reply.1, subject, other, amount }
}

const FORMS: [Form; 9] = [
    form("stake", 1, (true, false), [Some("staker"), None, Some("amount")]),
    form("withdraw", 2, (true, false), [Some("staker"), None, Some("amount")]),
    form("pay", 3, (true, true), [Some("invoice"), Some("beneficiary"), Some("amount")]),
    form("reserve", 4, (true, false), [Some("offer"), None, Some("amount")]),
    form("claim", 5, (true, false), [Some("offer"), Some("lender"), Some("amount")]),
    form("rate", 6, (true, false), [None, None, Some("rate")]),
    form("pause", 7, (false, false), [None, None, None]),
    form("unpause", 8, (false, false), [None, None, None]),
    form("payout_caller", 9, (false, false), [Some("caller"), None, None]),
];

/// Any other operation, so that every record has a line.
const RAW: Form = form("record", 0, (true, true), [Some("subject"), Some("other"), Some("amount")]);

/// The bytes of a log written as text.
pub fn write_log(text: &str) -> Result<Vec<u8>, String> {
    let mut bytes = Vec::new();
    for (at, line) in lines(text) {
        bytes.extend(line_bytes(line).map_err(|error| format!("line {at}: {error}"))?);
    }
    Ok(bytes)
}

fn line_bytes(line: &str) -> Result<Vec<u8>, String> {
    let words: Vec<&str> = line.split_whitespace().collect();
    match words[..] {
        ["admin", admin] => Ok(head(number(admin)?).to_vec()),
        ["head" | "tail", bytes] => hex(bytes),
        [name, ref fields @ ..] => records(name, fields),
        [] => Ok(Vec::new()),
    }
}

/// The records of a line: more than one where a field is a range `low..high`, all ranges of the line running together.
fn records(name: &str, fields: &[&str]) -> Result<Vec<u8>, String> {
    let form = FORMS.iter().chain([&RAW]).find(|form| form.name == name).ok_or(format!("no operation {name}"))?;
    let range = fields.iter().find_map(|field| range_of(field.split_once('=')?.1));
    let count = range.map_or(1, |range| range.count() as u64);
    let mut bytes = Vec::new();
    for step in 0..count {
        let mut record = Record { operation: form.operation, ..Record::default() };
        for field in fields {
            let (field, value) = pair(field)?;
            let value = match range_of(value) {
                Some(range) => (range.start() + step).to_string(),
                None => value.to_string(),
            };
            set(&mut record, form, field, &value)?;
        }
        bytes.extend(record.to_bytes());
    }
    Ok(bytes)
}

fn range_of(value: &str) -> Option<RangeInclusive<u64>> {
    let (low, high) = value.split_once("..")?;
    Some(low.parse().ok()?..=high.parse().ok()?)
}

fn set(record: &mut Record, form: &Form, field: &str, value: &str) -> Result<(), String> {
    let named = |name: Option<&str>, raw: &str| name == Some(field) || raw == field;
    match field {
        "operation" => record.operation = number(value)?,
        "pool" => record.pool = number(value)?,
        "reply" => record.reply = number(value)?,
        "spare" => record.spare = hex(value)?.try_into().map_err(|_| "five spare bytes wanted")?,
        "now" => record.now = number(value)?,
        "signer" => record.signer = number(value)?,
        _ if named(form.subject, "subject") => record.subject = number(value)?,
        _ if named(form.other, "other") => record.other = number(value)?,
        _ if named(form.amount, "amount") => record.amount = number(value)?,
        _ => return Err(format!("{} has no field {field}", form.name)),
    }
    Ok(())
}

/// The text of a log; writing it gives the same bytes.
pub fn read_log(bytes: &[u8]) -> String {
    let Some(log) = Log::from_bytes(bytes) else {
        return format!("head {}\n", to_hex(bytes));
    };
    let mut text = format!("admin {}\n", log.admin);
    for record in &log.records {
        text += &line_of(record);
        text.push('\n');
    }
    if !log.left_over.is_empty() {
        text += &format!("tail {}\n", to_hex(&log.left_over));
    }
    text
}

/// The fields that the operation uses, and any other that is not 0.
fn line_of(record: &Record) -> String {
    let form = FORMS.iter().find(|form| form.operation == record.operation).unwrap_or(&RAW);
    let fields = [
        (form.name == RAW.name, "operation", i128::from(record.operation)),
        (form.pool, "pool", record.pool.into()),
        (form.reply, "reply", record.reply.into()),
        (form.subject.is_some(), form.subject.unwrap_or("subject"), record.subject.into()),
        (form.other.is_some(), form.other.unwrap_or("other"), record.other.into()),
        (form.amount.is_some(), form.amount.unwrap_or("amount"), record.amount.into()),
        (true, "now", record.now.into()),
        (true, "signer", record.signer.into()),
    ];
    let mut line = form.name.to_string();
    for (used, name, value) in fields {
        let unused_operation = name == "operation" && !used;
        if used || (value != 0 && !unused_operation) {
            line += &format!(" {name}={value}");
        }
    }
    if record.spare != [0; 5] {
        line += &format!(" spare={}", to_hex(&record.spare));
    }
    line
}
