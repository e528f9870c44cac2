//! The order of a log's lines: one head, which comes first, and nothing behind what is cut.

use super::entry::{ADMIN, HEAD, OPEN};
use pasumorip::log::HEAD_BYTES;
use pasumorip::record::RECORD_BYTES;

/// Whether a line may come behind those that made this log; there is no log yet before the first one.
pub fn may_follow(log: Option<&[u8]>, call: &str) -> Result<(), String> {
    let is_head = [OPEN, HEAD].contains(&call);
    let Some(log) = log else {
        return if is_head { Ok(()) } else { Err(format!("the head comes first: {OPEN} {ADMIN}=NUMBER is expected")) };
    };
    match log.len().checked_sub(HEAD_BYTES) {
        None => Err("nothing stands behind a head that is cut".to_string()),
        Some(records) if records % RECORD_BYTES != 0 => Err("nothing stands behind left-over bytes".to_string()),
        Some(_) if is_head => Err("a log has one head, and this is a second".to_string()),
        Some(_) => Ok(()),
    }
}

/// The log that the lines made, which has at least its head.
pub fn whole(log: Option<Vec<u8>>) -> Result<Vec<u8>, String> {
    log.ok_or_else(|| format!("line 1: there is no call: {OPEN} {ADMIN}=NUMBER is expected first"))
}
