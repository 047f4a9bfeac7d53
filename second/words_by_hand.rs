//! The command line by hand.

use crate::second::*;
use crate::words::{asked, Asked, Changes, Day, OfTable, Source, Work};
use crate::{shown, text, HOUR};

/// What is asked for with standard input and no sheet, unless said otherwise.
fn asked_for(arguments: &[&str]) -> Option<Asked> {
    let arguments: Vec<Vec<u8>> = arguments.iter().map(|argument| argument.as_bytes().to_vec()).collect();
    asked(&arguments)
}

fn work(work: Work) -> Option<Asked> {
    Some(Asked::OfTable(OfTable { work, table: Source::StandardInput, corrections: None }))
}

/// A work of the table in this file.
fn of(table: &str, work: Work) -> Option<Asked> {
    Some(Asked::OfTable(OfTable { work, table: Source::File(table.into()), corrections: None }))
}

fn corrected(work: Work) -> Option<Asked> {
    Some(Asked::OfTable(OfTable { work, table: Source::StandardInput, corrections: Some("sheet".into()) }))
}

/// The answer to the worked hour where this list is the option's value.
fn marked_by(list: &str) -> Option<String> {
    let Asked::OfTable(OfTable { work: Work::Answer(Some(marks)), .. }) = asked_for(&["--marks", list])? else {
        panic!("another work than the answer");
    };
    Some(shown(&answer_by(&text(HOUR), &[], Some(&marks))))
}

#[test]
fn lists_of_marks() {
    assert_eq!(asked_for(&["--marks", "0,3,7"]), work(Work::Answer(Some(vec![0, 3, 7]))));
    assert_eq!(asked_for(&["bound", "--marks", "1"]), work(Work::Bound(Some(vec![1]))));
    // an empty list is a list, and so is one of numbers that are no borders
    assert_eq!(marked_by(""), Some("E 13 0 0".to_string()));
    assert_eq!(marked_by("2"), Some("E 13 1 0".to_string()));
    assert_eq!(marked_by("0,9999999999"), Some("E 13 2 0".to_string()));
    for misuse in ["x", ",", "0,", ",0", "0,,1", "00", "01", "+1", "-1", " 0", "0 ", "0, 1", "0;1", "1e0", "12345678901"] {
        assert_eq!(marked_by(misuse), None, "{misuse}");
    }
}

#[test]
fn lists_of_marks_of_any_length() {
    // around 4,096 bytes and far beyond: the length of a list is no fault of its own
    for zeros in [2_047, 2_048, 2_049, 3_000, 20_000] {
        let list = vec!["0"; zeros].join(",");
        assert_eq!(marked_by(&list), Some("E 13 2 0".to_string()), "{zeros}");
        assert_eq!(marked_by(&format!("{list},x")), None, "{zeros}");
        assert_eq!(marked_by(&format!("{list},")), None, "{zeros}");
    }
    // the worked hour has borders 0 and 1
    let rising: Vec<String> = (0..2_000).map(|border| border.to_string()).collect();
    assert_eq!(marked_by(&rising.join(",")), Some("E 13 3 0".to_string()));
    for length in [4_095, 4_096, 4_097, 5_000, 100_000] {
        assert_eq!(marked_by(&"x".repeat(length)), None, "{length}");
        assert_eq!(marked_by(&"0".repeat(length)), None, "{length}");
        assert_eq!(marked_by(&",".repeat(length)), None, "{length}");
    }
}

#[test]
fn options_and_words() {
    assert_eq!(asked_for(&[]), work(Work::Answer(None)));
    assert_eq!(asked_for(&["--corrections", "sheet", "rewrite"]), corrected(Work::Rewrite));
    assert_eq!(asked_for(&["corners", "3", "--corrections", "sheet"]), corrected(Work::Corners(Some(3))));
    assert_eq!(asked_for(&["why", "3"]), work(Work::Why(3, None)));
    let all = ["--corrections", "sheet", "--marks", "0,3", "why", "64"];
    assert_eq!(asked_for(&all), corrected(Work::Why(64, Some(vec![0, 3]))));
    for misuse in [
        &["--marks"][..],
        &["--marks", "0", "--marks", "1"],
        &["--corrections"],
        &["rewrite", "--marks", "0"],
        &["--mark", "0"],
        &["-x"],
        &["rewrite", "a", "b"],
        &["corners", "0", "1", "2"],
        &["corners", "x", "0"],
        &["claims"],
        &["claims", "a", "b", "c"],
        &["rows", "a", "b"],
        &["rows", "--marks", "0"],
        &["fill"],
        &["fill", "a", "b", "c"],
        &["fill", "a", "--marks", "0"],
        &["a", "b"],
        &["why"],
        &["why", "x"],
        &["why", "03"],
        &["why", "0", "1", "2"],
    ] {
        assert_eq!(asked_for(misuse), None, "{misuse:?}");
    }
}

#[test]
fn tables_by_name() {
    assert_eq!(asked_for(&["hour.tsv"]), of("hour.tsv", Work::Answer(None)));
    assert_eq!(asked_for(&["-"]), work(Work::Answer(None)));
    assert_eq!(asked_for(&["./rows"]), of("./rows", Work::Answer(None)));
    assert_eq!(asked_for(&["answer"]), of("answer", Work::Answer(None)));
    assert_eq!(asked_for(&["hour.tsv", "--marks", "1"]), of("hour.tsv", Work::Answer(Some(vec![1]))));
    assert_eq!(asked_for(&["rewrite", "a"]), of("a", Work::Rewrite));
    assert_eq!(asked_for(&["rewrite", "rewrite"]), of("rewrite", Work::Rewrite));
    assert_eq!(asked_for(&["rows", "a"]), of("a", Work::Rows));
    assert_eq!(asked_for(&["rows", "-"]), work(Work::Rows));
    assert_eq!(asked_for(&["fill", "sheet"]), work(Work::Fill(b"sheet".to_vec())));
    assert_eq!(asked_for(&["fill", "sheet", "a"]), of("a", Work::Fill(b"sheet".to_vec())));
    assert_eq!(asked_for(&["claims", "list", "a"]), of("a", Work::Claims(b"list".to_vec())));
    assert_eq!(asked_for(&["bound", "a", "--marks", "0"]), of("a", Work::Bound(Some(vec![0]))));
    assert_eq!(asked_for(&["margins", "a"]), of("a", Work::Margins));
    assert_eq!(asked_for(&["why", "3", "4"]), of("4", Work::Why(3, None)));
    // a number as in a table is a row, and nothing else is
    assert_eq!(asked_for(&["corners", "3"]), work(Work::Corners(Some(3))));
    assert_eq!(asked_for(&["corners", "3", "4"]), of("4", Work::Corners(Some(3))));
    assert_eq!(asked_for(&["corners", "./3"]), of("./3", Work::Corners(None)));
    for name in ["x", "03", "12345678901", "+3", ""] {
        assert_eq!(asked_for(&["corners", name]), of(name, Work::Corners(None)));
    }
}

/// A day of these files, as lines.
fn day(names: &[&str]) -> Day {
    Day { names: names.iter().map(|name| name.as_bytes().to_vec()).collect(), sheet: false, expected: None, marks: None }
}

#[test]
fn days() {
    let two = day(&["a/00.tsv", "01.tsv"]);
    assert_eq!(asked_for(&["day", "a/00.tsv", "01.tsv"]), Some(Asked::Day(two)));
    let sheet = Day { sheet: true, ..day(&["a", "b"]) };
    assert_eq!(asked_for(&["day", "--sheet", "a", "b"]), Some(Asked::Day(sheet)));
    let all = Day { sheet: true, expected: Some(24), marks: Some(vec![1, 0]), ..day(&["day"]) };
    assert_eq!(asked_for(&["day", "--expect", "24", "day", "--marks", "1,0", "--sheet"]), Some(Asked::Day(all)));
    // no file, and standard input, are judged with the names
    assert_eq!(asked_for(&["day"]), Some(Asked::Day(day(&[]))));
    assert_eq!(asked_for(&["day", "-"]), Some(Asked::Day(day(&["-"]))));
    for misuse in [
        &["day", "--corrections", "sheet", "a"][..],
        &["day", "--expect"],
        &["day", "--expect", "x", "a"],
        &["day", "--expect", "01", "a"],
        &["day", "--sheet", "--sheet", "a"],
        &["day", "--expect", "1", "--expect", "1", "a"],
        &["day", "--lines", "a"],
        &["--sheet", "a"],
        &["rows", "--sheet"],
        &["--expect", "1", "a"],
    ] {
        assert_eq!(asked_for(misuse), None, "{misuse:?}");
    }
}

#[test]
fn texts_to_tidy() {
    assert_eq!(asked_for(&["tidy"]), Some(Asked::Tidy(Source::StandardInput)));
    assert_eq!(asked_for(&["tidy", "-"]), Some(Asked::Tidy(Source::StandardInput)));
    assert_eq!(asked_for(&["tidy", "a"]), Some(Asked::Tidy(Source::File(b"a".to_vec()))));
    for misuse in [&["tidy", "a", "b"][..], &["tidy", "--marks", "0"], &["tidy", "--corrections", "a", "b"], &["tidy", "--sheet"]] {
        assert_eq!(asked_for(misuse), None, "{misuse:?}");
    }
}

#[test]
fn two_tables() {
    let file = |name: &str| Source::File(name.as_bytes().to_vec());
    let sheet = Some(b"sheet".to_vec());
    let two = Changes { old: file("a"), new: Some(file("b")), corrections: None };
    assert_eq!(asked_for(&["changes", "a", "b"]), Some(Asked::Changes(two)));
    let corrected = Changes { old: file("a"), new: Some(Source::StandardInput), corrections: sheet.clone() };
    assert_eq!(asked_for(&["changes", "a", "--corrections", "sheet", "-"]), Some(Asked::Changes(corrected)));
    let itself = Changes { old: Source::StandardInput, new: None, corrections: sheet };
    assert_eq!(asked_for(&["--corrections", "sheet", "changes", "-"]), Some(Asked::Changes(itself)));
    for misuse in [
        &["changes"][..],
        &["changes", "a"],
        &["changes", "-", "-"],
        &["changes", "-", "-", "--corrections", "sheet"],
        &["changes", "a", "b", "c"],
        &["changes", "a", "b", "--marks", "0"],
        &["changes", "--corrections", "sheet"],
    ] {
        assert_eq!(asked_for(misuse), None, "{misuse:?}");
    }
}
