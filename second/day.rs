//! A day of hours: every line under its hour's label, or one sheet.  Quoted sentences are
//! those of the day's rules.

use crate::second::{self, Border, Outcome, Refusal, Tables, ALL_ROOM, FROM, INTRADAY, NO_HUB, RECEIVING, SENDING, TO};

/// "more than 100 files" are too many for a sheet.
const MOST_OF_A_SHEET: usize = 100;

/// An hour's label, and its text; none where its file cannot be read.
pub struct Hour {
    pub label: Vec<u8>,
    pub text: Option<Vec<u8>>,
}

/// "file name without folder and ending (the ending begins at the last dot, unless that is
/// the first byte)".
pub fn label_of(name: &[u8]) -> &[u8] {
    let folder = name.iter().rposition(|byte| *byte == b'/').map_or(0, |slash| slash + 1);
    let file = &name[folder..];
    match file.iter().rposition(|byte| *byte == b'.') {
        None | Some(0) => file,
        Some(dot) => &file[..dot],
    }
}

/// "a label that is empty or has a control byte (under 32, or 127); with --sheet also a
/// semicolon or a quote"
fn good_label(label: &[u8], sheet: bool) -> bool {
    let bad = |byte: &u8| *byte < 32 || *byte == 127 || sheet && b";\"".contains(byte);
    !label.is_empty() && !label.iter().any(bad)
}

/// What is wrong with the names, "before anything is printed".
pub fn misuse(names: &[Vec<u8>], sheet: bool, expected: Option<usize>) -> Option<String> {
    let shown = |bytes: &[u8]| format!("'{}'", bytes.escape_ascii());
    if names.is_empty() {
        return Some("no file is named".to_string());
    }
    if let Some(expected) = expected.filter(|expected| *expected != names.len()) {
        return Some(format!("{expected} tables were expected, and {} are named", names.len()));
    }
    if names.iter().any(|name| name == b"-") {
        return Some("standard input has no label".to_string());
    }
    if let Some(name) = names.iter().find(|name| !good_label(label_of(name), sheet)) {
        return Some(format!("{} gives no label", shown(name)));
    }
    for (later, name) in names.iter().enumerate() {
        if let Some(earlier) = names[..later].iter().find(|earlier| label_of(earlier) == label_of(name)) {
            return Some(format!("{} and {} have one label", shown(earlier), shown(name)));
        }
    }
    (sheet && names.len() > MOST_OF_A_SHEET).then(|| format!("more than {MOST_OF_A_SHEET} files for one sheet"))
}

fn outcome_of(text: &[u8], marks: Option<&[u64]>) -> Result<(Tables, Outcome), Refusal> {
    const ROOM: usize = usize::MAX;
    let tables = second::read(text, ALL_ROOM)?;
    let outcome = match marks {
        Some(marks) => second::extract_marked(tables.lend(), marks, ROOM, ROOM, ROOM),
        None => second::extract(tables.lend(), ROOM, ROOM, ROOM),
    }?;
    Ok((tables, outcome))
}

/// What is printed, and whether every hour is answered.
pub type Printed = (Vec<u8>, bool);

/// "every line of every hour's answer begins with the hour's label, a tab, then the line as
/// ever (A, M, R or E), hours in the order of the arguments.  X alone behind the label where
/// the file cannot be read."
pub fn lines(hours: &[Hour], marks: Option<&[u64]>) -> Printed {
    let mut out = Vec::new();
    let mut all = true;
    for Hour { label, text } in hours {
        let answer = match text {
            Some(text) => second::answer_by(text, b"", marks),
            None => b"X\n".to_vec(),
        };
        all &= answer.starts_with(b"A");
        for line in answer.split_inclusive(|byte| *byte == b'\n') {
            out.extend_from_slice(label);
            out.push(b'\t');
            out.extend_from_slice(line);
        }
    }
    (out, all)
}

/// A column of the sheet: an hour that is answered, or what stands in every cell of one
/// that is not.
enum Column {
    Answered(Tables, Outcome),
    Not(String),
}

fn column(hour: &Hour, marks: Option<&[u64]>) -> Column {
    let Some(text) = &hour.text else {
        return Column::Not("X".to_string());
    };
    match outcome_of(text, marks) {
        Ok((tables, outcome)) => Column::Answered(tables, outcome),
        Err(Refusal { number, place, byte }) => Column::Not(format!("E {number} {place} {byte}")),
    }
}

/// "A border is named by index, from, to and hubs": all but its LTA.
fn named(border: &Border) -> [i64; 4] {
    [FROM, TO, SENDING, RECEIVING].map(|place| border[place])
}

/// "one line for each border, one column for each hour, whole MW.  Below the labels stand
/// the rounds and the profile of each hour."
pub fn sheet(hours: &[Hour], marks: Option<&[u64]>) -> Printed {
    let columns: Vec<Column> = hours.iter().map(|hour| column(hour, marks)).collect();
    let mut out = b"border;from;to;sending hub;receiving hub".to_vec();
    for hour in hours {
        out.push(b';');
        out.extend_from_slice(&hour.label);
    }
    out.push(b'\n');
    // a line of the sheet: its begin, and a cell of each hour that is answered
    let mut put = |begin: String, cell: &dyn Fn(&Tables, &Outcome) -> String| {
        out.extend(begin.bytes());
        for column in &columns {
            let cell = match column {
                Column::Answered(tables, outcome) => cell(tables, outcome),
                Column::Not(mark) => mark.clone(),
            };
            out.push(b';');
            out.extend(cell.bytes());
        }
        out.push(b'\n');
    };
    put("rounds;;;;".to_string(), &|_, outcome| outcome.rounds.to_string());
    put("profile;;;;".to_string(), &|tables, _| {
        if tables.header.intraday == INTRADAY { "intraday" } else { "day-ahead" }.to_string()
    });
    let borders = |column: &Column| match column {
        Column::Answered(tables, _) => tables.b.clone(),
        Column::Not(_) => Vec::new(),
    };
    let all: Vec<Vec<Border>> = columns.iter().map(borders).collect();
    let most = all.iter().map(Vec::len).max().unwrap_or(0);
    for index in 0..most {
        // "those of the first hour that has it"
        let Some(first) = all.iter().find_map(|borders| borders.get(index)) else { continue };
        let [from, to, sending, receiving] = named(first);
        let hub = |hub: i64| if hub == NO_HUB { String::new() } else { hub.to_string() };
        let begin = format!("{index};{from};{to};{};{}", hub(sending), hub(receiving));
        put(begin, &|tables, outcome| match tables.b.get(index) {
            None => "-".to_string(),
            Some(border) if named(border) == named(first) => outcome.atc[index].to_string(),
            Some(_) => "other".to_string(),
        });
    }
    let answered = columns.iter().all(|column| matches!(column, Column::Answered(..)));
    (out, answered)
}
