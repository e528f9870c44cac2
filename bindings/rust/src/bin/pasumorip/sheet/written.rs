//! A line as it is written into a log: heads and calls by the library, and what is neither as the bytes that the line names.

use super::entry::{Entry, ADMIN, HEAD, LEFT_OVER, OPEN, RECORD};
use super::fields;
use pasumorip::log::{self, HEAD_BYTES};
use pasumorip::record::RECORD_BYTES;
use pasumorip::{Code, Flaw};

pub fn bytes_of(entry: &Entry) -> Result<Vec<u8>, String> {
    match entry.call.as_str() {
        OPEN => {
            let admin = fields::admin(entry)?;
            agreed(log::head(admin), (admin.0 == 0).then_some(Flaw::NoNumber(ADMIN)))
        }
        HEAD | RECORD | LEFT_OVER => {
            let bytes = fields::bytes(entry)?;
            check_length(&entry.call, bytes.len())?;
            Ok(bytes)
        }
        _ => {
            let row = fields::row(entry)?;
            agreed(log::record(&row), Flaw::of_row(&row))
        }
    }
}

/// What the library wrote, or the reason why it refused to. It is the judge, and the flaw only explains: where the two do not agree,
/// nothing is written.
fn agreed<const BYTES: usize>(judged: Result<[u8; BYTES], Code>, flaw: Option<Flaw>) -> Result<Vec<u8>, String> {
    match (judged, flaw) {
        (Ok(bytes), None) => Ok(bytes.to_vec()),
        (Err(Code::Malformed), Some(flaw)) => Err(flaw.to_string()),
        (Ok(_), Some(flaw)) => Err(format!("the library would write it, although {flaw}: one of the two is at fault")),
        (Err(code), _) => Err(format!("the library refuses it, {code}, for a reason that is not known here")),
    }
}

fn check_length(call: &str, length: usize) -> Result<(), String> {
    match call {
        HEAD if length > HEAD_BYTES => Err(format!("{length} bytes, and a head has at most {HEAD_BYTES}")),
        RECORD if length != RECORD_BYTES => Err(format!("{length} bytes, and a record has {RECORD_BYTES}")),
        LEFT_OVER if length == 0 || length >= RECORD_BYTES => {
            Err(format!("{length} bytes, and what is left over has 1 to {}", RECORD_BYTES - 1))
        }
        _ => Ok(()),
    }
}

#[cfg(test)]
mod tests {
    use super::*;

    #[test]
    fn nothing_is_written_where_judge_and_reason_differ() {
        let flaw = Flaw::NoNumber("staker");
        assert_eq!(agreed(Ok([7; 2]), None), Ok(vec![7, 7]));
        assert_eq!(agreed::<2>(Err(Code::Malformed), Some(flaw)), Err("staker is 0, which is no number".to_string()));
        assert!(agreed(Ok([7; 2]), Some(flaw)).is_err_and(|error| error.contains("at fault")));
        for (code, flaw) in [(Code::Malformed, None), (Code::TableFull, None), (Code::TableFull, Some(flaw))] {
            let refused = agreed::<2>(Err(code), flaw);
            assert!(refused.is_err_and(|error| error.contains(&format!("refuses it, {code}, for a reason"))));
        }
    }
}
