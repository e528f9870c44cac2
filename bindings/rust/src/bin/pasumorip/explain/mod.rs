//! `pasumorip explain`: what each line of a log asked for, what happened, and whose money moved.

mod accrued;
mod asked;
mod chart;
mod effect;
mod explainer;
mod page;
mod refusal;
mod summary;
mod text;

use crate::arguments::Arguments;
use crate::fault::Fault;
use crate::files::{self, Input};
use explainer::Explainer;
use page::Page;
use pasumorip::log::LogReader;
use std::io::{self, BufWriter, Read, Write};

pub fn run(arguments: &Arguments) -> Result<(), Fault> {
    let only = arguments.value("--line").map(line_number).transpose()?;
    let input = Input::open(arguments.file.as_deref())?;
    let mut log = LogReader::open(input.reader)?;
    let mut explainer = Explainer::open(log.head()).ok_or_else(|| Fault::no_log(&input.name))?;
    match (only, arguments.value("--html")) {
        (None, None) => whole(&mut log, &mut explainer),
        (Some(line), None) => one(&mut log, &mut explainer, line),
        (None, Some(file)) => page(&mut log, &mut explainer, file),
        (Some(_), Some(_)) => Err(Fault::usage("--line and --html do not go together")),
    }
}

fn line_number(word: &str) -> Result<u64, Fault> {
    let number = word.parse().ok().filter(|number| *number > 0);
    number.ok_or_else(|| Fault::usage(&format!("--line {word}: the number of a line is expected, from 1")))
}

fn whole(log: &mut LogReader<impl Read>, explainer: &mut Explainer) -> Result<(), Fault> {
    let mut out = BufWriter::new(io::stdout().lock());
    write!(out, "{}", text::opening(explainer))?;
    while let Some(record) = log.next_record()? {
        write!(out, "\n{}", text::line(&explainer.explain(&record)))?;
    }
    write!(out, "{}{}", text::left_over(log.left_over().len()), text::summary(explainer, "all lines"))?;
    Ok(out.flush()?)
}

fn one(log: &mut LogReader<impl Read>, explainer: &mut Explainer, line: u64) -> Result<(), Fault> {
    for before in 0..line {
        let Some(record) = log.next_record()? else {
            return Err(Fault::input(format!("there is no line {line}: the log has {before} lines")));
        };
        if before + 1 == line {
            explainer.begin_summary();
            let explained = explainer.explain(&record);
            let lines = format!("lines 1 to {line}, with their stakes before and after line {line}");
            return files::print(&(text::line(&explained) + &text::summary(explainer, &lines)));
        }
        explainer.explain(&record);
    }
    unreachable!("the line is one of those before the end")
}

fn page(log: &mut LogReader<impl Read>, explainer: &mut Explainer, file: &str) -> Result<(), Fault> {
    let mut page = Page::open(explainer);
    while let Some(record) = log.next_record()? {
        page.add(&explainer.explain(&record));
    }
    files::write_whole(file, page.finish(explainer, log.left_over().len()).as_bytes())
}
