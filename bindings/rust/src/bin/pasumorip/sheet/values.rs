//! The value of a field as text, and back.

use pasumorip::form::Slot;
use pasumorip::log::Row;
use pasumorip::record::Record;
use pasumorip::Pool;
use std::fmt::Display;
use std::str::FromStr;

const REPLIES: [&str; 3] = ["not-configured", "not-defaulted", "defaulted"];

fn pools() -> [String; 4] {
    Pool::ALL.map(|pool| pool.name().to_lowercase())
}

/// The value of a used field of a record that is a call.
pub fn value(record: &Record, slot: Slot) -> String {
    match slot {
        Slot::Pool => pools()[usize::from(record.pool)].clone(),
        Slot::Reply => REPLIES[usize::from(record.reply)].to_string(),
        Slot::Subject => record.subject.to_string(),
        Slot::Other => record.other.to_string(),
        Slot::Amount => record.amount.to_string(),
        Slot::Now => record.now.to_string(),
        Slot::Signer => record.signer.to_string(),
    }
}

/// Puts a value into its field of a row.
pub fn put(row: &mut Row, slot: Slot, value: &str) -> Result<(), String> {
    match slot {
        Slot::Pool => row.pool = named(value, &pools().each_ref().map(String::as_str))?,
        Slot::Reply => row.reply = named(value, &REPLIES)?,
        Slot::Subject => row.subject = unsigned(value)?,
        Slot::Other => row.other = unsigned(value)?,
        Slot::Amount => row.amount = number(value, i64::MIN, i64::MAX)?,
        Slot::Now => row.now = unsigned(value)?,
        Slot::Signer => row.signer = unsigned(value)?,
    }
    Ok(())
}

/// A name's place among the names, or the place itself.
fn named(value: &str, names: &[&str]) -> Result<u64, String> {
    let number = names.iter().position(|name| *name == value).or_else(|| value.parse().ok());
    let number = number.filter(|number| *number < names.len()).map(|number| number as u64);
    number.ok_or_else(|| format!("one of {} is expected", names.join(", ")))
}

pub fn unsigned(value: &str) -> Result<u64, String> {
    number(value, u64::MIN, u64::MAX)
}

/// Digits, which underscores may group.
fn number<T: FromStr + Display>(value: &str, least: T, greatest: T) -> Result<T, String> {
    let plain = value.replace('_', "");
    plain.parse().map_err(|_| format!("a whole number from {least} to {greatest} is expected"))
}

pub fn hex(bytes: &[u8]) -> String {
    bytes.iter().map(|byte| format!("{byte:02x}")).collect()
}

pub fn bytes(value: &str) -> Result<Vec<u8>, String> {
    let digit = |byte: u8| char::from(byte).to_digit(16);
    let byte = |pair: &[u8]| match *pair {
        [high, low] => Some((digit(high)? * 16 + digit(low)?) as u8),
        _ => None,
    };
    let bytes = value.as_bytes().chunks(2).map(byte).collect::<Option<_>>();
    bytes.ok_or_else(|| "bytes in hex are expected, two digits each".to_string())
}
