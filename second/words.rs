//! The words and options of the program's command line.

/// An argument, and a file's name: bytes, not always a text.
pub type Name = Vec<u8>;

#[derive(Debug, PartialEq, Eq)]
pub enum Work {
    /// with a list of marks, or without one
    Answer(Option<Vec<u64>>),
    Rewrite,
    /// of one row, or of all
    Corners(Option<usize>),
    /// the file of the list
    Claims(Name),
    /// the rows as a sheet
    Rows,
    /// the file of the sheet that the rows are taken from
    Fill(Name),
    /// with a list of marks, or without one
    Bound(Option<Vec<u64>>),
    Margins,
    /// of one border, with a list of marks or without one
    Why(u64, Option<Vec<u64>>),
}

/// Where a text comes from.
#[derive(Clone, Debug, PartialEq, Eq)]
pub enum Source {
    StandardInput,
    File(Name),
}

/// A work on one table.
#[derive(Debug, PartialEq, Eq)]
pub struct OfTable {
    pub work: Work,
    pub table: Source,
    /// the correction sheet's file
    pub corrections: Option<Name>,
}

/// A day: the hours' files.
#[derive(Debug, PartialEq, Eq)]
pub struct Day {
    pub names: Vec<Name>,
    /// as one sheet, or as lines
    pub sheet: bool,
    /// how many files there are to be
    pub expected: Option<usize>,
    pub marks: Option<Vec<u64>>,
}

/// Two tables, or one and its corrected self; with both the sheet corrects the new one.
#[derive(Debug, PartialEq, Eq)]
pub struct Changes {
    pub old: Source,
    pub new: Option<Source>,
    /// the correction sheet's file
    pub corrections: Option<Name>,
}

#[derive(Debug, PartialEq, Eq)]
pub enum Asked {
    OfTable(OfTable),
    Day(Day),
    Tidy(Source),
    Changes(Changes),
}

/// An index: a number as the table writes it.
fn index(argument: &[u8]) -> Option<usize> {
    let digits = argument.iter().all(|byte| byte.is_ascii_digit());
    if argument.is_empty() || !digits || argument.len() > 10 || argument[0] == b'0' && argument.len() > 1 {
        return None;
    }
    Some(argument.iter().fold(0, |number, digit| 10 * number + usize::from(digit - b'0')))
}

/// Numbers with commas between; an empty word is the empty list.
fn list(argument: &[u8]) -> Option<Vec<u64>> {
    if argument.is_empty() {
        return Some(Vec::new());
    }
    argument.split(|byte| *byte == b',').map(|number| index(number).map(|number| number as u64)).collect()
}

/// The options, each given once at most, wherever they stand.
#[derive(Default)]
struct Options {
    marks: Option<Vec<u64>>,
    corrections: Option<Name>,
    sheet: bool,
    expected: Option<usize>,
}

/// The words, and the options taken out of them.  A file whose name begins with a minus
/// is given as ./-name.
fn parted(arguments: &[Name]) -> Option<(Vec<&[u8]>, Options)> {
    let mut words = Vec::new();
    let mut options = Options::default();
    let mut rest = arguments.iter();
    while let Some(argument) = rest.next() {
        match &argument[..] {
            b"--marks" if options.marks.is_none() => options.marks = Some(list(rest.next()?)?),
            b"--corrections" if options.corrections.is_none() => options.corrections = Some(rest.next()?.clone()),
            b"--sheet" if !options.sheet => options.sheet = true,
            b"--expect" if options.expected.is_none() => options.expected = Some(index(rest.next()?)?),
            [b'-', _, ..] => return None,
            word => words.push(word),
        }
    }
    Some((words, options))
}

/// A file's name, or `-`.
fn source(name: &[u8]) -> Source {
    match name {
        b"-" => Source::StandardInput,
        name => Source::File(name.to_vec()),
    }
}

/// The text that the words after the others name: one, or none for standard input.
fn table(words: &[&[u8]]) -> Option<Source> {
    match words {
        [] => Some(Source::StandardInput),
        [name] => Some(source(name)),
        _ => None,
    }
}

/// What is asked for.
pub fn asked(arguments: &[Name]) -> Option<Asked> {
    match parted(arguments)? {
        (words, options) if words.first() == Some(&&b"day"[..]) => day(&words[1..], options).map(Asked::Day),
        // these are of a day only
        (_, Options { sheet: true, .. } | Options { expected: Some(_), .. }) => None,
        (words, options) if words.first() == Some(&&b"tidy"[..]) => tidy(&words[1..], options).map(Asked::Tidy),
        (words, options) if words.first() == Some(&&b"changes"[..]) => changes(&words[1..], options).map(Asked::Changes),
        (words, options) => of_table(&words, options).map(Asked::OfTable),
    }
}

fn day(words: &[&[u8]], options: Options) -> Option<Day> {
    let Options { marks, corrections: None, sheet, expected } = options else {
        return None;
    };
    Some(Day { names: words.iter().map(|name| name.to_vec()).collect(), sheet, expected, marks })
}

fn tidy(words: &[&[u8]], options: Options) -> Option<Source> {
    let Options { marks: None, corrections: None, .. } = options else {
        return None;
    };
    table(words)
}

/// "Without NEW, --corrections FILE must be given"; "OLD or NEW may be `-`, not both".
fn changes(words: &[&[u8]], options: Options) -> Option<Changes> {
    let Options { marks: None, corrections, .. } = options else {
        return None;
    };
    match (words, corrections) {
        ([b"-", b"-"], _) => None,
        ([old, new], corrections) => Some(Changes { old: source(old), new: Some(source(new)), corrections }),
        ([old], Some(sheet)) => Some(Changes { old: source(old), new: None, corrections: Some(sheet) }),
        _ => None,
    }
}

/// A first word that is none of these is the table's name.
fn of_table(words: &[&[u8]], options: Options) -> Option<OfTable> {
    let (work, rest) = match (words, options.marks) {
        ([b"rewrite", rest @ ..], None) => (Work::Rewrite, rest),
        ([b"corners", row, rest @ ..], None) if index(row).is_some() => (Work::Corners(index(row)), rest),
        ([b"corners", rest @ ..], None) => (Work::Corners(None), rest),
        ([b"claims", list, rest @ ..], None) => (Work::Claims(list.to_vec()), rest),
        ([b"rows", rest @ ..], None) => (Work::Rows, rest),
        ([b"fill", sheet, rest @ ..], None) => (Work::Fill(sheet.to_vec()), rest),
        ([b"bound", rest @ ..], marks) => (Work::Bound(marks), rest),
        ([b"margins", rest @ ..], None) => (Work::Margins, rest),
        ([b"why", border, rest @ ..], marks) => (Work::Why(index(border)? as u64, marks), rest),
        ([word, ..], _) if WORDS.contains(word) => return None,
        (rest, marks) => (Work::Answer(marks), rest),
    };
    Some(OfTable { work, table: table(rest)?, corrections: options.corrections })
}

const WORDS: [&[u8]; 8] = [b"rewrite", b"corners", b"claims", b"rows", b"fill", b"bound", b"margins", b"why"];
