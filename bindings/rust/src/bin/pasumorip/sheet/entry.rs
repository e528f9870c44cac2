//! One line of a log: the name of its call and its fields, each a name and a value in text.

use super::values::{self, hex};
use pasumorip::form::Form;
use pasumorip::log::admin;
use pasumorip::record::{Record, RECORD_BYTES};
use pasumorip::Flaw;

pub const OPEN: &str = "open";
pub const ADMIN: &str = "admin";
/// What has no names stands as bytes.
pub const HEAD: &str = "head";
pub const RECORD: &str = "record";
pub const LEFT_OVER: &str = "left-over";
pub const BYTES: &str = "bytes";

#[derive(Debug, PartialEq, Eq)]
pub struct Entry {
    pub call: String,
    pub fields: Vec<(String, String)>,
    /// Why it stands as bytes.
    pub remark: Option<String>,
}

impl Entry {
    pub fn of_head(head: &[u8]) -> Entry {
        match admin(head) {
            Some(admin) => Entry::new(OPEN, vec![(ADMIN, admin.to_string())]),
            None => Entry::of_bytes(HEAD, head, "no head of a log".to_string()),
        }
    }

    pub fn of_record(bytes: &[u8; RECORD_BYTES]) -> Entry {
        let record = Record::from_bytes(bytes);
        match (Flaw::of(&record), Form::of(record.operation)) {
            (None, Some(form)) => {
                let fields = form.fields.iter().map(|&(name, slot)| (name, values::value(&record, slot)));
                Entry::new(form.name, fields.collect())
            }
            (Some(flaw), _) => Entry::of_bytes(RECORD, bytes, format!("no call: {flaw}")),
            (None, None) => unreachable!("a record of no operation has a flaw"),
        }
    }

    pub fn of_left_over(bytes: &[u8]) -> Entry {
        Entry::of_bytes(LEFT_OVER, bytes, format!("{} of a record's {RECORD_BYTES} bytes", bytes.len()))
    }

    fn new(call: &str, fields: Vec<(&str, String)>) -> Entry {
        let fields = fields.into_iter().map(|(name, value)| (name.to_string(), value)).collect();
        Entry { call: call.to_string(), fields, remark: None }
    }

    fn of_bytes(call: &str, bytes: &[u8], remark: String) -> Entry {
        Entry { remark: Some(remark), ..Entry::new(call, vec![(BYTES, hex(bytes))]) }
    }
}
