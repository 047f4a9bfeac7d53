//! Reads the hour's table from the file that the last word names, or on standard input
//! (no such word, or `-`), and writes the result text or the E line.  With the word
//! `rewrite`: the table written again, or the E line.
//! With `corners`: the corner sheets of all rows, row 0 first, or the E line;
//! with `corners` and a row's index, the sheet of that row.
//! With `claims` and a file: the published list that the claims in it leave, or the
//! E line.
//! With `rows`: the rows as a semicolon sheet, or the E line; with `fill` and a file,
//! the table with all its rows taken from the sheet in it.
//! With `bound`: the hour's own bound of the rounds; with `margins`: what each row's
//! margin is made of; or the E line.
//! With `why` and a border's index: why it got no more, in words; or the E line.  A border
//! that the table does not have: only a message, and status 2.
//! With `--marks` and a list, numbers with commas between: the result, the bound or the
//! words where only the marked borders rise.  With `--corrections` and a file, each of these
//! of the table that has the rows of that correction sheet.
//! With `day` and files: every line of each hour's answer under the hour's label; with
//! `--sheet` one sheet; with `--expect` and a number only where there are so many files.
//! With `tidy`: the text of a file with what is certain repaired.
//! With `changes` and two tables, or one and `--corrections`: what differs, in words.
//! The status: 0 answered, 1 refused, 2 a misuse, or a file that cannot be read.

#[path = "changes.rs"]
mod changes;
#[path = "day.rs"]
mod day;
#[path = "second.rs"]
mod second;
#[path = "tidy.rs"]
mod tidy;
#[path = "words.rs"]
mod words;

use second::why::NO_BORDER;
use second::why_words::{explained, no_border};
use second::Refusal;
use std::ffi::OsStr;
use std::fs::File;
use std::io::{Read, Write};
use std::os::unix::ffi::{OsStrExt, OsStringExt};
use std::process::ExitCode;
use words::{Asked, Changes, Day, OfTable, Source, Work};

/// More than 65,536 bytes are refused whatever follows, so one byte more than
/// that is enough to read.
fn bytes_of(from: impl Read) -> std::io::Result<Vec<u8>> {
    let mut text = Vec::new();
    let most = second::MOST_BYTES as u64 + 1;
    from.take(most).read_to_end(&mut text)?;
    Ok(text)
}

/// A file's text.
fn text_of(file: &[u8]) -> Result<Vec<u8>, String> {
    let failed = |error| format!("'{}': {error}", file.escape_ascii());
    File::open(OsStr::from_bytes(file)).and_then(bytes_of).map_err(failed)
}

fn text_from(source: &Source) -> Result<Vec<u8>, String> {
    match source {
        Source::StandardInput => bytes_of(std::io::stdin().lock()).map_err(|error| format!("standard input: {error}")),
        Source::File(file) => text_of(file),
    }
}

/// What is printed, and whether all of it is an answer: else something was refused.
type Printed = (Vec<u8>, bool);

/// .. of one table; the correction sheet is empty without a file.
fn of_table(OfTable { work, table, corrections }: OfTable) -> Result<Printed, String> {
    let sheet = corrections.map_or(Ok(Vec::new()), |file| text_of(&file))?;
    let text = text_from(&table)?;
    let read = || second::read_corrected(&text, &sheet, second::ALL_ROOM);
    let answer = match work {
        Work::Answer(marks) => second::answer_by(&text, &sheet, marks.as_deref()),
        Work::Rewrite => second::rewrite_by(&text, &sheet),
        Work::Corners(only) => second::corners_by(&text, &sheet, only),
        Work::Claims(file) => second::claims::published(read(), &text_of(&file)?),
        Work::Rows => second::rows::sheet_of(read()),
        Work::Fill(file) => second::rows::with_sheet(read(), &text_of(&file)?),
        Work::Bound(marks) => second::bound_text(&text, &sheet, marks.as_deref()),
        Work::Margins => second::margins_text(&text, &sheet),
        Work::Why(border, marks) => match explained(&text, &sheet, marks.as_deref(), border) {
            Ok(words) => words,
            Err(Refusal { number: NO_BORDER, place, .. }) => return Err(no_border(border, place)),
            Err(refusal) => second::refusal_text(refusal),
        },
    };
    // no answer but the E line begins so
    let answered = !answer.starts_with(b"E\t");
    Ok((answer, answered))
}

fn or_refused(text: Result<Vec<u8>, Refusal>) -> Printed {
    match text {
        Ok(text) => (text, true),
        Err(refusal) => (second::refusal_text(refusal), false),
    }
}

/// .. of two tables: all files are read first, and the old table is judged by itself.
fn of_two(Changes { old, new, corrections }: Changes) -> Result<Printed, String> {
    let sheet = corrections.map_or(Ok(Vec::new()), |file| text_of(&file))?;
    let old = text_from(&old)?;
    let new = new.map_or(Ok(old.clone()), |new| text_from(&new))?;
    let tables = second::read(&old, second::ALL_ROOM).and_then(|old| {
        let new = second::read_corrected(&new, &sheet, second::ALL_ROOM)?;
        Ok(changes::changes(&old, &new).into_bytes())
    });
    Ok(or_refused(tables))
}

/// .. of a day: the names are judged before any file is read.
fn of_day(Day { names, sheet, expected, marks }: Day) -> Result<Printed, String> {
    if let Some(misuse) = day::misuse(&names, sheet, expected) {
        return Err(format!("day: {misuse}"));
    }
    let mut hours = Vec::new();
    for name in &names {
        let label = day::label_of(name).to_vec();
        let text = text_of(name).map_err(|error| eprintln!("{}: {error}", label.escape_ascii())).ok();
        hours.push(day::Hour { label, text });
    }
    let print = if sheet { day::sheet } else { day::lines };
    Ok(print(&hours, marks.as_deref()))
}

fn main() -> ExitCode {
    let arguments: Vec<Vec<u8>> = std::env::args_os().skip(1).map(OsStringExt::into_vec).collect();
    let Some(asked) = words::asked(&arguments) else {
        eprintln!("{USAGE}");
        return ExitCode::from(2);
    };
    let printed = match asked {
        Asked::OfTable(asked) => of_table(asked),
        Asked::Day(asked) => of_day(asked),
        Asked::Changes(asked) => of_two(asked),
        Asked::Tidy(source) => text_from(&source).map(|text| or_refused(tidy::tidied(&text))),
    };
    let (text, answered) = match printed {
        Ok(printed) => printed,
        Err(error) => {
            eprintln!("{error}");
            return ExitCode::from(2);
        }
    };
    let mut out = std::io::stdout().lock();
    match out.write_all(&text).and_then(|_| out.flush()) {
        Ok(()) if answered => ExitCode::SUCCESS,
        Ok(()) => ExitCode::FAILURE,
        Err(_) => ExitCode::from(2),
    }
}

const USAGE: &str = "arguments: none, \"rewrite\", \"corners\", \"corners\" and a row's index, \"claims\" and a file, \"rows\", \"fill\" and a file, \"bound\", \"margins\", or \"why\" and a border's index; then the table's file, or \"-\", or none; with each also \"--corrections\" and a file; with none, \"bound\" and \"why\" also \"--marks\" and a list; or \"day\" and the hours' files, with \"--sheet\", \"--expect\" and a number, \"--marks\" and a list; or \"tidy\" and a file, or \"-\", or none; or \"changes\" and two tables, or one and \"--corrections\" and a file";
