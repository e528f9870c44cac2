//! Input and output.

use crate::fault::Fault;
use std::fs::{self, File};
use std::io::{self, BufReader, Read, Write};
use std::{process, str};

/// A file, or standard input.
pub struct Input {
    pub name: String,
    /// Its length, where it has one.
    pub length: Option<u64>,
    pub reader: Box<dyn Read>,
}

impl Input {
    pub fn open(file: Option<&str>) -> Result<Input, Fault> {
        let Some(name) = file else {
            return Ok(Input {
                name: "standard input".to_string(),
                length: None,
                reader: Box::new(io::stdin().lock()),
            });
        };
        let opened = File::open(name).and_then(|file| Ok((file.metadata()?, file)));
        let (metadata, file) = opened.map_err(|error| Fault::input(format!("{name}: {error}")))?;
        if metadata.is_dir() {
            return Err(Fault::input(format!("{name} is a folder, and a file is expected")));
        }
        let length = metadata.is_file().then_some(metadata.len());
        Ok(Input { name: name.to_string(), length, reader: Box::new(BufReader::new(file)) })
    }

    /// All of it as text.
    pub fn text(mut self) -> Result<String, Fault> {
        let mut bytes = Vec::new();
        self.reader.read_to_end(&mut bytes).map_err(|error| Fault::input(format!("{}: {error}", self.name)))?;
        // Some editors and spreadsheets put a mark before a text.
        let text = bytes.strip_prefix("\u{feff}".as_bytes()).unwrap_or(&bytes);
        str::from_utf8(text).map(str::to_string).map_err(|error| {
            let line = 1 + text[..error.valid_up_to()].iter().filter(|byte| **byte == b'\n').count();
            Fault::input(format!("{}, line {line}: these bytes are no text (UTF-8 is expected)", self.name))
        })
    }
}

/// Prints what is complete.
pub fn print(text: &str) -> Result<(), Fault> {
    print_bytes(text.as_bytes())
}

pub fn print_bytes(bytes: &[u8]) -> Result<(), Fault> {
    let mut out = io::stdout().lock();
    out.write_all(bytes)?;
    Ok(out.flush()?)
}

/// Writes a file whole: where that fails, an earlier one of its name stays as it was.
pub fn write_whole(name: &str, bytes: &[u8]) -> Result<(), Fault> {
    // A link or a device is written to, and not put aside for a file.
    let is_other = fs::symlink_metadata(name).is_ok_and(|metadata| !metadata.is_file());
    let written = if is_other { fs::write(name, bytes) } else { write_beside(name, bytes) };
    written.map_err(|error| Fault::input(format!("{name}: {error}")))
}

/// Writes a new file beside it, which then takes its name.
fn write_beside(name: &str, bytes: &[u8]) -> io::Result<()> {
    let part = format!("{name}.{}.part", process::id());
    let written = File::create_new(&part)?.write_all(bytes).and_then(|()| fs::rename(&part, name));
    if written.is_err() {
        // The fault that is told is the first one.
        let _ = fs::remove_file(&part);
    }
    written
}
