//! The fields that a line has to have, each once and no other.

use super::entry::{Entry, ADMIN, BYTES, HEAD, LEFT_OVER, OPEN, RECORD};
use super::values;
use pasumorip::form::{Form, FORMS};
use pasumorip::log::Row;
use pasumorip::Account;

/// The admin of a head.
pub fn admin(entry: &Entry) -> Result<Account, String> {
    let value = only_field(entry, ADMIN)?;
    values::unsigned(value).map(Account).map_err(|expected| format!("{ADMIN}={value}: {expected}"))
}

/// The bytes of a line that stands as its bytes.
pub fn bytes(entry: &Entry) -> Result<Vec<u8>, String> {
    let value = only_field(entry, BYTES)?;
    values::bytes(value).map_err(|expected| format!("{BYTES}={value}: {expected}"))
}

/// The row of a call, which may still be none that can be written.
pub fn row(entry: &Entry) -> Result<Row, String> {
    let form = Form::named(&entry.call)
        .ok_or_else(|| format!("there is no call {}: {} are expected", entry.call, calls().join(", ")))?;
    let names: Vec<&str> = form.fields.iter().map(|(name, _)| *name).collect();
    let mut row = Row { operation: form.operation.into(), ..Row::default() };
    for ((name, slot), value) in form.fields.iter().zip(values_of(entry, &names)?) {
        values::put(&mut row, *slot, value).map_err(|expected| format!("{name}={value}: {expected}"))?;
    }
    Ok(row)
}

fn calls() -> Vec<&'static str> {
    let named = FORMS.iter().map(|form| form.name);
    [OPEN].into_iter().chain(named).chain([RECORD, HEAD, LEFT_OVER]).collect()
}

fn only_field<'a>(entry: &'a Entry, name: &str) -> Result<&'a str, String> {
    let [value] = values_of(entry, &[name])?[..] else { unreachable!("one value to one name") };
    Ok(value)
}

/// The values of exactly these fields, in this order.
fn values_of<'a>(entry: &'a Entry, names: &[&str]) -> Result<Vec<&'a str>, String> {
    let call = &entry.call;
    for (index, (field, _)) in entry.fields.iter().enumerate() {
        if !names.contains(&field.as_str()) {
            return Err(format!("{call} has no field {field}: {} are expected", names.join(", ")));
        }
        if entry.fields[..index].iter().any(|(earlier, _)| earlier == field) {
            return Err(format!("{field} is given twice"));
        }
    }
    let value = |name: &&str| entry.fields.iter().find(|(field, _)| field == name).map(|(_, value)| value.as_str());
    names.iter().map(|name| value(name).ok_or_else(|| format!("{call} needs {name}=, which is missing"))).collect()
}
