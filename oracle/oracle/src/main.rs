//! The oracle's command.

use oracle::{
    parse_lookups, parse_questions, parse_tables, parse_writes, print_found, print_replay, print_tables, print_written,
    random_log, read_log, write_log, Desk, Engine, Log, Rooms,
};
use std::io::{self, Write};
use std::process::ExitCode;
use std::{env, fs};

const USAGE: &str = "usage:
  oracle replay LOG [--rooms S O | --tables FILE]         the answers, as the replay program prints them
  oracle tables LOG [--rooms S O | --tables FILE]         the tables after the log
  oracle ask LOG QUESTIONS [--rooms S O | --tables FILE]  the answers to questions after the log
  oracle find LOG LOOKUPS [--rooms S O | --tables FILE]   the places of rows after the log, and how many rows are read
  oracle random SEED COUNT [--rooms S O]                  a random log
  oracle write TEXT                                       the log of a text
  oracle read LOG                                         the text of a log
  oracle put WRITES                                       what single writes of a head or a record leave";

/// What the options say: rooms for a fresh set, or tables to begin from. The log's admin then counts for nothing.
struct Options {
    rooms: Rooms,
    tables: Option<String>,
}

fn main() -> ExitCode {
    let arguments: Vec<String> = env::args().skip(1).collect();
    let arguments: Vec<&str> = arguments.iter().map(String::as_str).collect();
    match run(&arguments).and_then(|out| io::stdout().write_all(&out).map_err(|error| error.to_string())) {
        Ok(()) => ExitCode::SUCCESS,
        Err(error) => {
            eprintln!("{error}");
            ExitCode::FAILURE
        }
    }
}

fn run(arguments: &[&str]) -> Result<Vec<u8>, String> {
    match arguments {
        ["replay", log, options @ ..] => after(log, options, |printout, _| Ok(printout)),
        ["tables", log, options @ ..] => after(log, options, |_, desk| Ok(print_tables(&desk.tables()))),
        ["ask", log, questions, options @ ..] => after(log, options, |_, desk| {
            let questions = parse_questions(&read_text(questions)?)?;
            Ok(questions.iter().map(|question| desk.ask(question).to_string()).collect())
        }),
        ["find", log, lookups, options @ ..] => after(log, options, |_, desk| {
            let lookups = parse_lookups(&read_text(lookups)?)?;
            Ok(lookups.iter().map(|lookup| print_found(&desk.look_up(lookup))).collect())
        }),
        ["random", seed, count, options @ ..] => {
            let (seed, count) = (parse(seed)?, parse(count)? as usize);
            Ok(random_log(seed, count, read_options(options)?.rooms))
        }
        ["write", text] => write_log(&read_text(text)?),
        ["read", log] => Ok(read_log(&read(log)?).into_bytes()),
        ["put", writes] => {
            let writes = parse_writes(&read_text(writes)?)?;
            Ok(writes.iter().map(|write| print_written(&write.done())).collect::<String>().into_bytes())
        }
        _ => Err(USAGE.to_string()),
    }
}

/// Replays the log and tells what is wanted of it.
fn after(
    log: &str,
    options: &[&str],
    tell: impl Fn(String, &Desk) -> Result<String, String>,
) -> Result<Vec<u8>, String> {
    let options = read_options(options)?;
    let Some(log) = Log::from_bytes(&read(log)?) else {
        return Ok(b"bad header\n".to_vec());
    };
    let mut desk = match options.tables {
        Some(file) => Desk::open(parse_tables(&read_text(&file)?)?),
        None => Desk::Good(Engine::fresh(log.admin, options.rooms).map_err(|code| format!("refused {}", code as u8))?),
    };
    let printout = print_replay(&log, &mut desk);
    tell(printout, &desk).map(String::into_bytes)
}

fn read_options(options: &[&str]) -> Result<Options, String> {
    match options {
        [] => Ok(Options { rooms: Rooms::FULL, tables: None }),
        ["--rooms", stakes, offers] => {
            let rooms = Rooms { stakes: parse(stakes)? as usize, offers: parse(offers)? as usize };
            rooms.lent().then_some(Options { rooms, tables: None }).ok_or("1 to 1024 and 1 to 512 rooms".to_string())
        }
        ["--tables", file] => Ok(Options { rooms: Rooms::FULL, tables: Some(file.to_string()) }),
        _ => Err(USAGE.to_string()),
    }
}

fn parse(number: &str) -> Result<u64, String> {
    number.parse().map_err(|_| format!("no number: {number}"))
}

fn read(path: &str) -> Result<Vec<u8>, String> {
    fs::read(path).map_err(|error| format!("{path}: {error}"))
}

fn read_text(path: &str) -> Result<String, String> {
    fs::read_to_string(path).map_err(|error| format!("{path}: {error}"))
}
