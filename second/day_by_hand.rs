//! Days by hand: the cases of the day's rules, with hours whose answers are known.

use crate::day::{label_of, lines, misuse, sheet, Hour};
use crate::{shown, text, HOUR};

/// Border 0 of the worked hour goes from 0 to 1, border 1 from 1 to 2.
const WORKED: &str = "A 0 2599 21 0 / A 1 1800 1 1 / M 0 0 70000000000 20000 / M 1 0 9000000000 0 / M 2 1 12499500000 - / M 3 2 100000000000 - / R 21";
/// One border with an LTA of 100 MW, on which nothing rises.
const FULL: &str = "H 2 1 1 / Z 0 0 / Z 1 0 / B 0 0 1 100 / C 0 10000 0 0 0 0 0 0 20000 0";
/// .. and with a starting margin below 0.
const OVER: &str = "H 2 1 1 / Z 0 0 / Z 1 0 / B 0 0 1 100 / C 0 10000 0 0 0 0 0 1 20000 0";
/// The same of the intraday profile: its border starts at 0, and 10,000 kW of the 20,000 are taken.
const LATER: &str = "H 2 1 1 / Z 0 0 / Z 1 0 / T 0 50000 / T 1 -50000 / B 0 0 1 100 / C 0 10000 0 0 0 0 0 0 20000 0";
/// The same between the same zones by hubs 2 and 3, and a second border.
const CABLE: &str = "H 4 2 2 / Z 0 0 / Z 1 0 / Z 2 0 / Z 3 0 / B 0 0 1 0 2 3 / B 1 0 1 0 / C 0 100000 0 0 0 0 0 0 20000 0 0 0 / C 1 50000 0 0 0 0 0 0 0 0 0 20000";

fn hour(label: &str, table: Option<&str>) -> Hour {
    Hour { label: label.into(), text: table.map(text) }
}

/// Lines as the hours' texts are shown, and whether all are answered.
fn day(hours: &[(&str, Option<&str>)]) -> (String, bool) {
    let hours: Vec<Hour> = hours.iter().map(|(label, table)| hour(label, *table)).collect();
    let (out, all) = lines(&hours, None);
    (shown(&out), all)
}

fn sheet_of(hours: &[(&str, Option<&str>)], marks: Option<&[u64]>) -> (Vec<String>, bool) {
    let hours: Vec<Hour> = hours.iter().map(|(label, table)| hour(label, *table)).collect();
    let (out, all) = sheet(&hours, marks);
    assert_eq!(out.last(), Some(&b'\n'));
    (String::from_utf8(out).unwrap().lines().map(str::to_string).collect(), all)
}

#[test]
fn labels() {
    for (name, label) in [
        ("2026-01-15T05.tsv", "2026-01-15T05"),
        ("old/2026-01-15T05.tsv", "2026-01-15T05"),
        ("/a.b/c.d/e", "e"),
        ("a.tar.gz", "a.tar"),
        (".tsv", ".tsv"),
        ("..tsv", "."),
        ("x/.hour.tsv", ".hour"),
        ("hour.", "hour"),
        ("./-", "-"),
        ("a/", ""),
        ("", ""),
        ("..", "."),
        (".", "."),
        ("T*.tsv", "T*"),
    ] {
        assert_eq!(label_of(name.as_bytes()), label.as_bytes(), "{name}");
    }
}

#[test]
fn names_that_are_a_misuse() {
    let names = |names: &[&str]| -> Vec<Vec<u8>> { names.iter().map(|name| name.as_bytes().to_vec()).collect() };
    let bad = |list: &[&str], sheet: bool| misuse(&names(list), sheet, None).is_some();
    for (list, [as_lines, as_sheet]) in [
        (&["2026-01-15T05.tsv", "old/2026-01-15T05.tsv"][..], [true, true]),
        (&["a.tsv", "b.tsv", "a"], [true, true]),
        (&["a.tsv", "a.tsv"], [true, true]),
        (&[], [true, true]),
        (&["2026-01-15\tT05.tsv"], [true, true]),
        (&["a\n.tsv"], [true, true]),
        (&["a\r"], [true, true]),
        (&["a\x1f"], [true, true]),
        (&["a\x7f.tsv"], [true, true]),
        (&["folder/"], [true, true]),
        (&[""], [true, true]),
        (&["-"], [true, true]),
        (&["a.tsv", "-"], [true, true]),
        (&["a;b.tsv"], [false, true]),
        (&["a\"b.tsv"], [false, true]),
        (&["a.tsv", "b.tsv"], [false, false]),
        (&["a\tb/c.tsv"], [false, false]),
        (&["c.t\tsv"], [false, false]),
        (&["a b.tsv", "a  b.tsv", "ä.tsv"], [false, false]),
        (&["./-"], [false, false]),
    ] {
        assert_eq!([bad(list, false), bad(list, true)], [as_lines, as_sheet], "{list:?}");
    }
    // how many, and how many are expected
    let many: Vec<String> = (0..101).map(|hour| format!("{hour}.tsv")).collect();
    let many: Vec<&str> = many.iter().map(String::as_str).collect();
    assert_eq!([bad(&many, false), bad(&many, true)], [false, true]);
    assert!(!bad(&many[..100], true));
    assert_eq!(misuse(&names(&many[..23]), false, Some(24)).unwrap(), "24 tables were expected, and 23 are named");
    assert_eq!(misuse(&names(&many[..24]), false, Some(24)), None);
    assert!(misuse(&names(&many[..24]), true, Some(0)).is_some());
}

#[test]
fn lines_under_their_label() {
    let (out, all) = day(&[("T05", Some("")), ("T24", None), ("T06", Some(HOUR)), ("T07", Some(OVER)), ("T08", Some(FULL))]);
    let worked = WORKED.split(" / ").map(|line| format!("T06 {line}")).collect::<Vec<String>>().join(" / ");
    assert_eq!(out, format!("T05 E 2 1 0 / T24 X / {worked} / T07 E 7 0 0 / T08 A 0 100 0 0 / T08 M 0 0 2000000000 0 / T08 R 0"));
    assert!(!all);
    assert!(day(&[("a", Some(HOUR)), ("b", Some(FULL))]).1);
    assert!(!day(&[("a", Some(HOUR)), ("b", None)]).1);
    // the same marks for every hour
    let hours = [hour("a", Some(HOUR)), hour("b", Some(FULL))];
    let (out, all) = lines(&hours, Some(&[1]));
    assert!(shown(&out).starts_with("a A 0 100 0 - / a A 1 1800 1 1 / ") && shown(&out).ends_with(" / b E 13 1 0"));
    assert!(!all);
    // over 65,536 bytes
    let long = Hour { label: b"long".to_vec(), text: Some(vec![b'H'; 65_537]) };
    assert_eq!(shown(&lines(&[long], None).0), "long E 1 0 0");
}

#[test]
fn a_day_of_24() {
    let hours: Vec<String> = (0..24).map(|hour| format!("2026-01-15T{hour:02}")).collect();
    let table = |hour: usize| match hour {
        5 => Some("H x"),
        11 => Some(OVER),
        17 => Some(""),
        hour if hour % 2 == 0 => Some(HOUR),
        _ => Some(FULL),
    };
    let hours: Vec<(&str, Option<&str>)> = hours.iter().enumerate().map(|(hour, label)| (&label[..], table(hour))).collect();
    let (out, all) = day(&hours);
    assert!(!all);
    let found: Vec<&str> = out.split(" / ").collect();
    assert_eq!(found.len(), 12 * 7 + 9 * 3 + 3);
    assert_eq!(found[..7].join(" / ").replace("2026-01-15T00 ", ""), WORKED);
    assert_eq!(found.iter().filter(|line| line.contains(" E ")).collect::<Vec<_>>(), [
        &"2026-01-15T05 E 2 1 3", &"2026-01-15T11 E 7 0 0", &"2026-01-15T17 E 2 1 0"
    ]);
    let (sheet, all) = sheet_of(&hours, None);
    assert!(!all);
    assert_eq!(sheet.len(), 5);
    let cells: Vec<Vec<&str>> = sheet.iter().map(|line| line.split(';').collect()).collect();
    assert!(cells.iter().all(|line| line.len() == 29));
    assert_eq!(cells[1][5..13], ["21", "0", "21", "0", "21", "E 2 1 3", "21", "0"]);
    assert_eq!(cells[3][5..13], ["2599", "100", "2599", "100", "2599", "E 2 1 3", "2599", "100"]);
    assert_eq!(cells[4][5..13], ["1800", "-", "1800", "-", "1800", "E 2 1 3", "1800", "-"]);
    assert_eq!([cells[4][5 + 11], cells[2][5 + 17]], ["E 7 0 0", "E 2 1 0"]);
}

#[test]
fn sheets_of_a_day() {
    // missing, and an hour that is answered
    let (out, all) = sheet_of(&[("T24", None), ("T09", None), ("T06", Some(HOUR))], None);
    assert_eq!(out, [
        "border;from;to;sending hub;receiving hub;T24;T09;T06",
        "rounds;;;;;X;X;21",
        "profile;;;;;X;X;day-ahead",
        "0;0;1;;;X;X;2599",
        "1;1;2;;;X;X;1800",
    ]);
    assert!(!all);
    // other borders, hubs and another profile, and an empty table
    let hours = [("h05", Some(FULL)), ("h06", Some(HOUR)), ("h07", Some(CABLE)), ("h08", Some(LATER)), ("h09", Some(""))];
    let (out, all) = sheet_of(&hours, None);
    assert_eq!(out[0], "border;from;to;sending hub;receiving hub;h05;h06;h07;h08;h09");
    assert_eq!(out[2], "profile;;;;;day-ahead;day-ahead;day-ahead;intraday;E 2 1 0");
    assert_eq!(out[3], "0;0;1;;;100;2599;other;50;E 2 1 0");
    // of the first hour that has it
    assert_eq!(out[4], "1;1;2;;;-;1800;other;-;E 2 1 0");
    assert_eq!((out.len(), all), (5, false));
    // hubs are shown, and compared: the cable's own border first
    let (out, all) = sheet_of(&[("c", Some(CABLE)), ("w", Some(HOUR)), ("d", Some(CABLE))], None);
    assert!(out[3].starts_with("0;0;1;2;3;"));
    let cells: Vec<&str> = out[3].split(';').collect();
    assert_eq!((cells[6], cells[5] == cells[7]), ("other", true));
    assert!(out[4].starts_with("1;0;1;;;"));
    assert!(all);
    // no hour is answered: no border is known
    let (out, all) = sheet_of(&[("T05", Some("H x")), ("T17", Some(""))], None);
    assert_eq!(out, [
        "border;from;to;sending hub;receiving hub;T05;T17",
        "rounds;;;;;E 2 1 3;E 2 1 0",
        "profile;;;;;E 2 1 3;E 2 1 0",
    ]);
    assert!(!all);
    // marks
    let (out, all) = sheet_of(&[("a", Some(HOUR)), ("b", Some(FULL))], Some(&[1]));
    assert_eq!(out[1..], ["rounds;;;;;1;E 13 1 0", "profile;;;;;day-ahead;E 13 1 0", "0;0;1;;;100;E 13 1 0", "1;1;2;;;1800;E 13 1 0"]);
    assert!(!all);
    assert!(sheet_of(&[("a", Some(HOUR)), ("b", Some(FULL))], None).1);
}
