//! The desk's command: logs replayed, written, read, explained, and the tables after them.

mod arguments;
mod dates;
mod explain;
mod fault;
mod figures;
mod files;
mod help;
mod replay;
mod sheet;
mod tables;

use arguments::Arguments;
use fault::Fault;
use std::env;
use std::ffi::OsString;
use std::process::ExitCode;

fn main() -> ExitCode {
    let words: Result<Vec<String>, OsString> = env::args_os().skip(1).map(OsString::into_string).collect();
    let done = words.map_err(|word| Fault::usage(&format!("{word:?} is no text"))).and_then(|words| run(&words));
    let Err(fault) = done else {
        return ExitCode::SUCCESS;
    };
    if let Some(message) = fault.message() {
        eprintln!("pasumorip: {message}");
    }
    ExitCode::from(fault.status())
}

fn run(words: &[String]) -> Result<(), Fault> {
    let Some((command, words)) = words.split_first() else {
        return Err(Fault::usage("a command is expected"));
    };
    match (command.as_str(), words) {
        ("--help" | "-h" | "help", _) => files::print(help::ALL),
        ("--version", []) => files::print(concat!("pasumorip ", env!("CARGO_PKG_VERSION"), "\n")),
        (name, words) => {
            let text = help::of(name).ok_or_else(|| Fault::usage(&format!("there is no command {name}")))?;
            if words.iter().any(|word| word == "--help" || word == "-h") {
                return files::print(text);
            }
            match name {
                "replay" => replay::run(&Arguments::read(words, &[], &[])?),
                "write" => sheet::write(&Arguments::read(words, &["--csv"], &[])?),
                "read" => sheet::read(&Arguments::read(words, &["--csv"], &[])?),
                "explain" => explain::run(&Arguments::read(words, &[], &["--line", "--html"])?),
                _ => tables::run(&Arguments::read(words, &["--csv"], &[])?),
            }
        }
    }
}
