//! Texts tidied by hand.

use crate::second::rows::sheet_of;
use crate::second::*;
use crate::tidy::tidied;
use crate::{table, text, HOUR};

/// What a text becomes; given again it stays.
fn tidy(given: &[u8]) -> Vec<u8> {
    let found = tidied(given).expect("a text that is not too long");
    assert_eq!(tidied(&found), Ok(found.clone()), "twice: {}", given.escape_ascii());
    assert!(found.len() <= 2 * given.len() + 1);
    found
}

fn becomes(pairs: &[(&[u8], &[u8])]) {
    for (given, wanted) in pairs {
        let found = tidy(given);
        assert_eq!(found.escape_ascii().to_string(), wanted.escape_ascii().to_string(), "{}", given.escape_ascii());
    }
}

/// The rows of the worked hour.
fn worked_sheet() -> Vec<u8> {
    sheet_of(Ok(table(HOUR)))
}

#[test]
fn good_texts_stay() {
    let hour = text(HOUR);
    assert_eq!(tidy(&hour), hour);
    assert_eq!(tidy(&worked_sheet()), worked_sheet());
    let lines: Vec<&[u8]> = hour.split_inclusive(|byte| *byte == b'\n').collect();
    let corrections = lines[7..].concat();
    assert_eq!(tidy(&corrections), corrections);
    assert_eq!(tidy(b""), b"");
    let intraday = text("H 2 1 1 70 / Z 0 -1 / Z 1 10 / T 0 0 / T 1 0 / B 0 1 0 9 / C 0 1000 10 8 0 - 0 0 0 5000");
    assert_eq!(tidy(&intraday), intraday);
}

#[test]
fn spoilt_as_spreadsheets_do() {
    let sheet = String::from_utf8(worked_sheet()).unwrap();
    let rows: Vec<&str> = sheet.lines().collect();
    let spoilt: Vec<String> = vec![
        format!("\u{feff}{sheet}"),
        sheet.replace('\n', "\r\n"),
        sheet.trim_end().to_string(),
        sheet.replace(';', "\";\"").replace('\n', "\"\n").lines().map(|line| format!("\"{line}\n")).collect(),
        sheet.replace(';', " ;  ").replace('\n', "   \n"),
        format!("{sheet};;;;;;;;;;\n"),
        format!("{sheet}\r\n \r\n;;\r\n"),
        rows.iter().map(|row| row.split(';').map(trimmed).collect::<Vec<String>>().join(";") + "\n").collect(),
        rows.iter().map(|row| row.split(';').map(|f| format!(" \" {} \" ", trimmed(f))).collect::<Vec<String>>().join(";") + " \r\n").collect(),
    ];
    for given in spoilt {
        assert_eq!(tidy(given.as_bytes()), sheet.as_bytes(), "{given}");
    }
    let hour = String::from_utf8(text(HOUR)).unwrap();
    for given in [
        format!("\u{feff} \u{feff}{hour}\t\t\t\n\n"),
        hour.replace('\n', " \r\n"),
        hour.replace('\t', "\"\t\"").lines().map(|line| format!("\"{line}\"\r\n")).collect(),
        hour.trim_end().to_string(),
    ] {
        assert_eq!(tidy(given.as_bytes()), hour.as_bytes(), "{given}");
    }
}

/// A number with a point, its last zeros taken off but for one decimal.
fn trimmed(field: &str) -> String {
    let Some((whole, part)) = field.split_once('.') else { return field.to_string() };
    let part = part.trim_end_matches('0');
    format!("{whole}.{}", if part.is_empty() { "0" } else { part })
}

#[test]
fn begins_and_ends() {
    becomes(&[
        (b"\xEF\xBB\xBFa", b"a\n"),
        (b"\xEF\xBB\xBF\xEF\xBB\xBF a", b"a\n"),
        (b"  \xEF\xBB\xBF \xEF\xBB\xBFa", b"a\n"),
        (b"\xEF\xBBa", b"\xEF\xBBa\n"),
        (b"\xEF\xBB\xBF", b""),
        (b"   ", b""),
        (b"\r", b""),
        (b"\n", b""),
        (b"\n\n\r\n", b""),
        (b";\t;\n\t\n", b""),
        // a BOM further down stays, and so does one behind a quote
        (b"a\n\xEF\xBB\xBFb\n", b"a\n\xEF\xBB\xBFb\n"),
        (b"\n\xEF\xBB\xBFb\n", b"\n\xEF\xBB\xBFb\n"),
        (b"\"\xEF\xBB\xBFb\"", b"\"\xEF\xBB\xBFb\"\n"),
        (b"a", b"a\n"),
        (b"a\n", b"a\n"),
        (b"a\n\n", b"a\n"),
        (b"a\n\nb\n\n", b"a\n\nb\n"),
        (b"\na", b"\na\n"),
        (b";\na;\n;\n", b";\na;\n"),
        (b"a\r\r \r\n", b"a\n"),
        (b"a \r;b\r", b"a \r;b\n"),
        (b"\ra", b"\ra\n"),
        (b"a\n\x00", b"a\n\x00\n"),
        (b"\xFF\xFEH\x00\t\x00", b"\xFF\xFEH\x00\t\x00\n"),
    ]);
}

#[test]
fn quotes_and_blanks() {
    becomes(&[
        (b" a b ; c\t d ", b"a b;c\td\n"),
        (b"\"a\"", b"a\n"),
        (b" \" a \" ;x", b"a;x\n"),
        (b"\"\";\"\"\tx", b";\tx\n"),
        (b"\" \";x", b";x\n"),
        (b"\"", b"\"\n"),
        (b"\"\"\"\"", b"\"\"\"\"\n"),
        (b"\"a\"\"b\"", b"\"a\"\"b\"\n"),
        (b"\"a;b\"", b"\"a;b\"\n"),
        (b"\"a", b"\"a\n"),
        (b"a\"", b"a\"\n"),
        (b"'a'", b"'a'\n"),
        (b"\"a\x7f\"", b"\"a\x7f\"\n"),
        (b"\"a~\"", b"a~\n"),
        (b"\"a\r\";b", b"\"a\r\";b\n"),
        (b"\"\xC3\xA4\"", b"\"\xC3\xA4\"\n"),
        (b"x;\"\"\r\n\"\";\"\" \r\n", b"x;\n"),
        (b"\"0\";\"1.2\"", b"0;1.200\n"),
    ]);
}

#[test]
fn trimmed_decimals() {
    becomes(&[
        (b"0;1.2;1.2;1.2;1.2;1.2;1.2;1.2;1.2;1.2;1.2", b"0;1.200;1.200;1.200;1.200;1.2;1.200;1.200;1.20000;1.20000;1.20000\n"),
        (b"1.2;1.2", b"1.2;1.200\n"),
        (b"1.2", b"1.2\n"),
        (b"0\t1.2", b"0\t1.2\n"),
        (b"0;1.2\t3.4", b"0;1.2\t3.4\n"),
        (b"0;1;1.;.1;-;;-1.5;-.5;-1.;--1.5;1.2.3", b"0;1;1.;.1;-;;-1.500;-.5;-1.;--1.5;1.2.3\n"),
        (b"0;1.1234;1.123;1.12;01.5;5;x1.5;+1.5;1,5;1.5e3", b"0;1.1234;1.123;1.120;01.500;5;x1.5;+1.5;1,5;1.5e3\n"),
        (b";;;;;;;;0.1;-0.12345;0.123456;0.1 ", b";;;;;;;;0.10000;-0.12345;0.123456;0.10000\n"),
        (b"0; \"1.2\" ", b"0;1.200\n"),
        (b"0;1. 2;1 .2", b"0;1. 2;1 .2\n"),
        (b"0;-0.0", b"0;-0.000\n"),
        // a power with thousands is a number with three decimals: it stays
        (b"0;1.200", b"0;1.200\n"),
    ]);
}

#[test]
fn lengths() {
    // 16,382 factors: each is twice as long, and so is the text and one byte but for the first eight
    let most: Vec<u8> = [&b";;;;;;;;"[..], &b"0.1;".repeat(16_382)].concat();
    assert_eq!(most.len(), 65_536);
    assert_eq!(tidy_long(&most).len(), 8 + 16_382 * 8 + 1);
    assert_eq!(tidied(&[&most[..], b"1"].concat()), Err(Refusal { number: 1, place: 0, byte: 0 }));
    assert_eq!(tidied(&[b'\n'; 65_536]), Ok(vec![]));
    assert!(tidied(&[b'\n'; 65_537]).is_err());
}

fn tidy_long(given: &[u8]) -> Vec<u8> {
    tidied(given).expect("a text that is not too long")
}
