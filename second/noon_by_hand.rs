//! Correction sheets of semicolon rows by hand.

use crate::second::*;
use crate::{hour_with, shown, table, text, ALL, HOUR, HOUR_GIVES};

/// The rows of the worked hour.
const ROWS: [&str; 4] = [
    "0;1000.000;200.000;200.000;150.000;7000;0.000;80.000;0.30000;0.10000;0.00000\n",
    "1;100.000;10.000;15.000;0.000;7000;0.000;0.000;0.05000;0.05000;0.00000\n",
    "2;100.000;0.000;0.000;0.000;0;0.000;0.000;0.04999;0.00000;0.00000\n",
    "3;1000.000;0.000;130.000;0.000;7000;0.000;0.000;0.20000;0.00000;-0.10000\n",
];

#[test]
fn rows_that_change_nothing() {
    let hour = text(HOUR);
    for rows in [&[0, 1, 2, 3][..], &[0], &[3], &[1, 2], &[0, 3]] {
        let sheet: String = rows.iter().map(|row| ROWS[*row]).collect();
        assert_eq!(read_corrected(&hour, sheet.as_bytes(), ALL), Ok(table(HOUR)));
        assert_eq!(answer_corrected(&hour, sheet.as_bytes()), text(HOUR_GIVES));
        assert_eq!(rewrite_by(&hour, sheet.as_bytes()), hour);
    }
}

#[test]
fn worked_hour_corrected_by_rows() {
    // the same as with a C line: CVA of 40 MW on row 1
    let hour = text(HOUR);
    let sheet = b"1;100.000;10.000;15.000;0.000;7000;40.000;0.000;0.05000;0.05000;0.00000\n";
    let gives = "A 0 2999 22 0 / A 1 1000 1 1 / M 0 0 70000000000 20000 / M 1 0 5000000000 0 / M 2 1 12499500000 - / M 3 2 100000000000 - / R 22";
    assert_eq!(shown(&answer_corrected(&hour, sheet)), gives);
    assert_eq!(rewrite_by(&hour, sheet), hour_with(8, "C 1 100000 10000 15000 0 7000 40000 0 5000 5000 0"));
    // "-" takes the day's default, and is written "-" again: Fmax 100 MW, 8000 or 7000
    for (h, ram) in [("H 2 1 1 8000", 8_000_000_000i64), ("H 2 1 1", 7_000_000_000)] {
        let day = text(&format!("{h} / Z 0 0 / Z 1 0 / B 0 0 1 0 / C 0 100000 90000 0 0 0 0 0 20000 0"));
        let sheet = b"0;100.000;90.000;0.000;0.000;-;0.000;0.000;0.20000;0.00000\n";
        assert!(shown(&answer_corrected(&day, sheet)).contains(&format!("/ M 0 0 {ram} 0 /")));
        assert!(shown(&rewrite_by(&day, sheet)).ends_with("C 0 100000 90000 0 0 - 0 0 20000 0"));
    }
}

/// The refusal of the worked hour with a sheet: number, line, byte.
fn refused(sheet: &str) -> Option<(u32, usize, usize)> {
    let hour = text(HOUR);
    let refusal = read_corrected(&hour, sheet.as_bytes(), ALL).err()?;
    assert_eq!(answer_corrected(&hour, sheet.as_bytes()), refusal_text(refusal));
    assert_eq!(rewrite_corrected(&hour, sheet.as_bytes(), 0), Err(refusal));
    // before room for the tables
    assert_eq!(read_corrected(&hour, sheet.as_bytes(), [0; 5]), Err(refusal));
    Some((refusal.number, refusal.place, refusal.byte))
}

#[test]
fn bad_rows_by_hand() {
    let good = "1;0.009;0.005;0.000;0.000;-;0.000;0.000;0.00000;0.20000;0.00000";
    assert_eq!(refused(&format!("{good}\n")), None);
    let rest = "0.009;0.005;0.000;0.000;-;0.000;0.000;0.00000;0.20000;0.00000";
    for (line, byte) in [
        // an index that is not above the one before, or not in the table
        (format!("1;{rest}"), 1), (format!("0;{rest}"), 1), (format!("4;{rest}"), 1), (format!("9999999999;{rest}"), 1),
        (format!("4294967298;{rest}"), 1), ("1".into(), 1), ("1;x".into(), 1),
        // form
        (format!("12345678901;{rest}"), 11), (format!("02;{rest}"), 2), (format!("-2;{rest}"), 1), (format!(";{rest}"), 1),
        ("x".into(), 1), (format!("2x;{rest}"), 2), ("".into(), 1), ("2".into(), 0), (format!("2;{rest};0.00000"), 0),
        (format!("2;{rest};"), 0), ("2;0.009;0.005".into(), 0), ("2;0.009;0.00;".into(), 13), ("2;9".into(), 4), ("2;9;".into(), 4),
        ("2;0.009;0,005".into(), 10), (format!("2;{rest}\r"), 64),
        // a C line is a row of wrong form
        ("C\t2\t9\t5\t0\t0\t-\t0\t0\t0\t20000\t0".into(), 1), (format!("C;2;{rest}"), 1),
        // value
        ("2;0.000;0.000;0.000;0.000;-;0.000;0.000;0.00000;0.20000;0.00000".into(), 3),
        ("2;0.009;0.010;0.000;0.000;-;0.000;0.000;0.00000;0.20000;0.00000".into(), 9),
        ("2;0.009;0.005;0.000;0.000;10001;0.000;0.000;0.00000;0.20000;0.00000".into(), 27),
        ("2;0.009;0.005;0.000;0.000;-;0.000;0.000;0.00000;0.20000;1.00001".into(), 57),
        // form before value, the index before both
        ("2;0.000;0.000;0.000;0.000;-;0.000;0.000;0.00000;0.20000;x".into(), 57), ("1;0.000;x".into(), 1),
    ] {
        let sheet = format!("{good}\n{line}\n");
        assert_eq!(refused(&sheet), Some((10, 2, byte)), "{line}");
        // what follows is not looked at
        assert_eq!(refused(&format!("{sheet}x")), Some((10, 2, byte)), "{line}");
    }
    // no LF at the end, something after the last row
    let all = ROWS.concat();
    assert_eq!(refused(&all[..all.len() - 1]), Some((10, 4, 0)));
    assert_eq!(refused(&format!("{all}\n")), Some((10, 5, 1)));
    assert_eq!(refused(&format!("{all}4")), Some((10, 5, 0)));
    assert_eq!(refused(&format!("{all}x")), Some((10, 5, 1)));
    assert_eq!(refused(&format!("{all}4;{rest}\n")), Some((10, 5, 1)));
    // powers in kW, and factors without a point
    assert_eq!(refused("0;1000000;200000;200000;150000;7000;0;80000;30000;10000;0\n"), Some((10, 1, 10)));
}

#[test]
fn the_first_byte_decides() {
    let own = String::from_utf8(text(HOUR)).unwrap();
    let own: Vec<&str> = own.split_inclusive('\n').filter(|line| line.starts_with('C')).collect();
    assert_eq!(own.len(), 4);
    assert_eq!(refused(&own.concat()), None);
    // a row of the other kind is a fault of form at its line
    assert_eq!(refused(&[own[0], ROWS[1]].concat()), Some((10, 2, 0)));
    assert_eq!(refused(&[ROWS[0], own[1]].concat()), Some((10, 2, 1)));
    assert_eq!(refused(&[ROWS[0], ROWS[1], own[2], own[3]].concat()), Some((10, 3, 1)));
    // without a digit at the begin, C lines: a wrong letter
    for first in ["\u{feff}", " ", "-", "\"", "\n", ";", "/", ":", "c"] {
        assert_eq!(refused(&[first, ROWS[0]].concat()), Some((10, 1, 0)), "{first}");
    }
    for digit in 0..10 {
        assert_eq!(refused(&format!("{digit}x")), Some((10, 1, 2)));
    }
    // too long, before all of this
    assert_eq!(refused(&"0".repeat(65_536)), Some((10, 1, 2)));
    assert_eq!(refused(&"0".repeat(65_537)), Some((1, 0, 0)));
}
