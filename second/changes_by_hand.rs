//! What differs between two tables, by hand.

use crate::changes::changes;
use crate::second::*;
use crate::{hour_with, table, text, ALL, HOUR};

/// What differs between the worked hour and a table.
fn from_hour(new: &[u8]) -> String {
    changes(&table(HOUR), &read(new, ALL).expect("a good table"))
}

/// The worked hour with a line replaced, and back.
fn line(number: usize, by: &str) -> [String; 2] {
    let new = read(&hour_with(number, by), ALL).expect("a good table");
    [changes(&table(HOUR), &new), changes(&new, &table(HOUR))]
}

#[test]
fn one_field() {
    assert_eq!(from_hour(&text(HOUR)), "");
    for (number, by, there, back) in [
        (2, "Z 0 400000", "line 2, Z 0, net position: 500000 becomes 400000", "line 2, Z 0, net position: 400000 becomes 500000"),
        (4, "Z 2 0", "line 4, Z 2, net position: -300000 becomes 0", "line 4, Z 2, net position: 0 becomes -300000"),
        (5, "B 0 2 1 100", "line 5, B 0, from: 0 becomes 2", "line 5, B 0, from: 2 becomes 0"),
        (6, "B 1 1 0 200", "line 6, B 1, to: 2 becomes 0", "line 6, B 1, to: 0 becomes 2"),
        (6, "B 1 1 2 250", "line 6, B 1, LTA: 200 becomes 250", "line 6, B 1, LTA: 250 becomes 200"),
        (5, "B 0 0 1 100 2 0", "line 5, B 0, hubs: none becomes 2 0", "line 5, B 0, hubs: 2 0 becomes none"),
        (1, "H 3 2 4 6000", "line 1, default of R: none becomes 6000", "line 1, default of R: 6000 becomes none"),
        (7, "C 0 1000001 200000 200000 150000 7000 0 80000 30000 10000 0", "line 7, C 0, Fmax: 1000000 becomes 1000001", "line 7, C 0, Fmax: 1000001 becomes 1000000"),
        (7, "C 0 1000000 210000 200000 150000 7000 0 80000 30000 10000 0", "line 7, C 0, FRM: 200000 becomes 210000", "line 7, C 0, FRM: 210000 becomes 200000"),
        (7, "C 0 1000000 200000 -1 150000 7000 0 80000 30000 10000 0", "line 7, C 0, Fref: 200000 becomes -1", "line 7, C 0, Fref: -1 becomes 200000"),
        (7, "C 0 1000000 200000 200000 -1 7000 0 80000 30000 10000 0", "line 7, C 0, F0all: 150000 becomes -1", "line 7, C 0, F0all: -1 becomes 150000"),
        (7, "C 0 1000000 200000 200000 150000 - 0 80000 30000 10000 0", "line 7, C 0, R: 7000 becomes -", "line 7, C 0, R: - becomes 7000"),
        (10, "C 3 1000000 0 130000 0 7000 5 0 20000 0 -10000", "line 10, C 3, CVA: 0 becomes 5", "line 10, C 3, CVA: 5 becomes 0"),
        (10, "C 3 1000000 0 130000 0 7000 0 5 20000 0 -10000", "line 10, C 3, IVA: 0 becomes 5", "line 10, C 3, IVA: 5 becomes 0"),
        (10, "C 3 1000000 0 130000 0 7000 0 0 20000 0 -1", "line 10, C 3, factor of zone 2: -10000 becomes -1", "line 10, C 3, factor of zone 2: -1 becomes -10000"),
    ] {
        assert_eq!(line(number, by), [format!("{there}\n"), format!("{back}\n")]);
    }
    // hubs in another order, and a default that was written
    let [one, other] = ["2 0", "0 2"].map(|hubs| read(&hour_with(5, &format!("B 0 0 1 100 {hubs}")), ALL).unwrap());
    assert_eq!(changes(&one, &other), "line 5, B 0, hubs: 2 0 becomes 0 2\n");
    let [one, other] = ["6000", "7000"].map(|share| read(&hour_with(1, &format!("H 3 2 4 {share}")), ALL).unwrap());
    assert_eq!(changes(&one, &other), "line 1, default of R: 6000 becomes 7000\n");
}

/// The worked hour's lines, as they are shown.
fn lines() -> Vec<&'static str> {
    HOUR.lines().map(str::trim).filter(|line| !line.is_empty()).collect()
}

fn both_ways(old: &[&str], new: &[&str]) -> [String; 2] {
    let [old, new] = [old, new].map(|lines| read(&text(&lines.join(" / ")), ALL).expect("a good table"));
    [changes(&old, &new), changes(&new, &old)]
}

#[test]
fn lines_of_one_table_alone() {
    let hour = lines();
    // a row more
    let mut more = hour.clone();
    more[0] = "H 3 2 5";
    more.push("C 4 9 0 0 0 - 0 0 0 0 0");
    assert_eq!(both_ways(&hour, &more), [
        "line 1, rows: 4 becomes 5\nline 11, C 4: new\n",
        "line 1, rows: 5 becomes 4\nline 11 before, C 4: gone\n",
    ]);
    // a border more: the rows' lines are later by one
    let mut more = hour.clone();
    more[0] = "H 3 3 4";
    more.insert(6, "B 2 2 0 7 0 1");
    more[7] = "C 0 1000000 210000 200000 150000 7000 0 80000 30000 10000 0";
    assert_eq!(both_ways(&hour, &more), [
        "line 1, borders: 2 becomes 3\nline 7, B 2: new\nline 8, C 0, FRM: 200000 becomes 210000\n",
        "line 1, borders: 3 becomes 2\nline 7 before, B 2: gone\nline 7, C 0, FRM: 210000 becomes 200000\n",
    ]);
    // T lines in one only
    let mut later = hour.clone();
    later.splice(4..4, ["T 0 5", "T 1 0", "T 2 -5"]);
    assert_eq!(both_ways(&hour, &later), ["line 5, T: new\n", "line 5 before, T: gone\n"]);
    let mut other = later.clone();
    other[4] = "T 0 6";
    other[6] = "T 2 -6";
    assert_eq!(both_ways(&later, &other)[0], "line 5, T 0, net position: 5 becomes 6\nline 7, T 2, net position: -5 becomes -6\n");
    // a zone more, in tables with T lines: what is common is compared
    let zone = |lines: &[&str]| -> Vec<String> {
        let with = |line: &&str| match line.split(' ').next() {
            Some("H") => vec!["H 4 2 4".to_string()],
            Some("C") => vec![format!("{line} 77")],
            Some("Z" | "T") if line.contains(" 2 ") => vec![line.to_string(), format!("{} 3 0", &line[..1])],
            _ => vec![line.to_string()],
        };
        lines.iter().flat_map(with).collect()
    };
    let more = zone(&other);
    let more: Vec<&str> = more.iter().map(String::as_str).collect();
    assert_eq!(both_ways(&later, &more), [
        "line 1, zones: 3 becomes 4\nline 5, Z 3: new\nline 6, T 0, net position: 5 becomes 6\nline 8, T 2, net position: -5 becomes -6\nline 9, T 3: new\n",
        "line 1, zones: 4 becomes 3\nline 5 before, Z 3: gone\nline 5, T 0, net position: 6 becomes 5\nline 7, T 2, net position: -6 becomes -5\nline 9 before, T 3: gone\n",
    ]);
    // .. and in one of two with T lines: once, whatever the zones
    assert_eq!(both_ways(&hour, &more)[0], "line 1, zones: 3 becomes 4\nline 5, Z 3: new\nline 6, T: new\n");
}

#[test]
fn of_a_corrected_table() {
    let day = table(HOUR);
    for sheet in [
        &text("C 1 100000 10000 15000 0 - 40000 0 5000 4000 0")[..],
        b"1;100.000;10.000;15.000;0.000;-;40.000;0.000;0.05000;0.04000;0.00000\n",
    ] {
        let merged = read_corrected(&text(HOUR), sheet, ALL).unwrap();
        assert_eq!(
            changes(&day, &merged),
            "line 8, C 1, R: 7000 becomes -\nline 8, C 1, CVA: 0 becomes 40000\nline 8, C 1, factor of zone 1: 5000 becomes 4000\n"
        );
    }
}
