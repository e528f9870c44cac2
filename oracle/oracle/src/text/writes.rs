//! Writes, one per line: `head length=16 at=0 admin=1`, `record length=64 at=16 operation=1 pool=1 reply=0 now=0 signer=7 subject=7 other=0
//! amount=2000000`; and what they leave, alike.

use super::fields::{lines, to_hex, Fields};
use crate::answer::Code;
use crate::piece::{Piece, RecordFields, Write};

pub fn parse_writes(text: &str) -> Result<Vec<Write>, String> {
    lines(text).map(|(at, line)| parse(line).map_err(|error| format!("line {at}: {error}"))).collect()
}

fn parse(line: &str) -> Result<Write, String> {
    let fields = Fields::of(line)?;
    let piece = match fields.name {
        "head" => Piece::Head { admin: fields.get("admin")? },
        "record" => Piece::Record(RecordFields {
            operation: fields.get("operation")?,
            pool: fields.get("pool")?,
            reply: fields.get("reply")?,
            now: fields.get("now")?,
            signer: fields.get("signer")?,
            subject: fields.get("subject")?,
            other: fields.get("other")?,
            amount: fields.get("amount")?,
        }),
        name => return Err(format!("no write {name}")),
    };
    Ok(Write { piece, at: fields.get("at")?, before: falling(fields.get("length")?) })
}

/// 255, 254 and on, so that each byte of a short buffer tells its place.
fn falling(length: u8) -> Vec<u8> {
    (0..length).map(|place| u8::MAX - place).collect()
}

/// The code, and the buffer's bytes; `-` for none.
pub fn print_written((code, buffer): &(Code, Vec<u8>)) -> String {
    let bytes = if buffer.is_empty() { "-".to_string() } else { to_hex(buffer) };
    format!("{} {bytes}\n", *code as u8)
}
