//! What ends the command early.

use pasumorip::log::HEAD_BYTES;
use std::io;

#[derive(Debug)]
pub enum Fault {
    /// The command is called wrongly.
    Usage(String),
    /// The input is not what is expected, or cannot be read; or the output cannot be written.
    Input(String),
    /// Whoever read the output has gone.
    Closed,
}

impl Fault {
    pub fn usage(message: &str) -> Fault {
        Fault::Usage(format!("{message}; pasumorip --help says more"))
    }

    pub fn input(message: impl Into<String>) -> Fault {
        Fault::Input(message.into())
    }

    /// For a log whose head is short or wrong.
    pub fn no_log(name: &str) -> Fault {
        let head = format!("a head of {HEAD_BYTES} bytes with POL, version 1 and an admin that is not 0");
        Fault::Input(format!("{name} is no log: {head} is expected"))
    }

    pub fn message(&self) -> Option<&str> {
        match self {
            Fault::Usage(message) | Fault::Input(message) => Some(message),
            Fault::Closed => None,
        }
    }

    pub fn status(&self) -> u8 {
        match self {
            Fault::Usage(_) => 2,
            Fault::Input(_) | Fault::Closed => 1,
        }
    }
}

impl From<io::Error> for Fault {
    fn from(error: io::Error) -> Fault {
        match error.kind() {
            io::ErrorKind::BrokenPipe => Fault::Closed,
            _ => Fault::Input(error.to_string()),
        }
    }
}
