//! Semicolon sheets: made from a table's text, and every way to have one wrong.
#![allow(dead_code)]

use crate::damage::{self, lines_of, parts_of};
use crate::dice::Dice;
use crate::second::Tables;

/// The number with a point before its last digits.
fn with_point(number: &str, decimals: usize) -> String {
    let (sign, digits) = match number.strip_prefix('-') {
        Some(digits) => ("-", digits),
        None => ("", number),
    };
    let digits = format!("{digits:0>width$}", width = decimals + 1);
    let (whole, rest) = digits.split_at(digits.len() - decimals);
    format!("{sign}{whole}.{rest}")
}

/// The sheet of a table's rows, by its C lines: a point put into each number but the
/// index and R.
pub fn sheet(t: &Tables) -> Vec<u8> {
    let text = String::from_utf8(damage::plain_text(t)).expect("plain text");
    let mut sheet = String::new();
    for line in text.lines().filter_map(|line| line.strip_prefix("C\t")) {
        let put = |(place, field): (usize, &str)| match place {
            0 | 5 => field.to_string(),
            1..=7 => with_point(field, 3),
            _ => with_point(field, 5),
        };
        sheet += &line.split('\t').enumerate().map(put).collect::<Vec<String>>().join(";");
        sheet += "\n";
    }
    sheet.into_bytes()
}

pub fn fields_of(line: &[u8]) -> Vec<Vec<u8>> {
    parts_of(line, b';')
}

pub fn line_from(fields: &[Vec<u8>]) -> Vec<u8> {
    let mut line = fields.join(&b';');
    line.push(b'\n');
    line
}

/// The byte of the line, from 1, at which a field starts.
pub fn start_of(fields: &[Vec<u8>], place: usize) -> usize {
    1 + fields[..place].iter().map(|field| field.len() + 1).sum::<usize>()
}

/// The kinds of a row's fields.
#[derive(Clone, Copy, Debug, PartialEq, Eq)]
pub enum Kind {
    Index,
    /// Fmax, FRM, CVA, IVA
    Power,
    /// Fref, F0all
    Flow,
    R,
    Factor,
}

fn some_field(d: &mut Dice, kind: Kind, fields: usize) -> usize {
    match kind {
        Kind::Index => 0,
        Kind::Power => d.of(&[1, 2, 6, 7]),
        Kind::Flow => d.of(&[3, 4]),
        Kind::R => 5,
        Kind::Factor => 8 + d.below(fields - 8),
    }
}

/// A field's text, the refusal of the line, and how many bytes of the field come
/// before the one to blame.
pub type Way = (Kind, &'static str, u32, usize);

pub const WAYS: [Way; 110] = [
    (Kind::Index, "", 2, 0),
    (Kind::Index, "-1", 2, 0),
    (Kind::Index, "00", 2, 1),
    (Kind::Index, "0.000", 2, 1),
    (Kind::Index, "9x", 2, 1),
    (Kind::Index, "201", 2, 0),
    (Kind::Index, "9999999999", 2, 0),
    (Kind::Index, "12345678901", 2, 10),
    (Kind::Index, "C", 2, 0),
    (Kind::Index, "\"0\"", 2, 0),
    (Kind::Power, "", 2, 0),
    (Kind::Power, "1", 2, 1),
    (Kind::Power, "1000", 2, 4),
    (Kind::Power, "1.", 2, 2),
    (Kind::Power, "1.0", 2, 3),
    (Kind::Power, "1.00", 2, 4),
    (Kind::Power, "1.0000", 2, 5),
    (Kind::Power, "1.00000", 2, 5),
    (Kind::Power, ".500", 2, 0),
    (Kind::Power, ".", 2, 0),
    (Kind::Power, "1,000", 2, 1),
    (Kind::Power, "1,000.000", 2, 1),
    (Kind::Power, "1.000,000", 2, 5),
    (Kind::Power, "1.000.000", 2, 5),
    (Kind::Power, "1 000.000", 2, 1),
    (Kind::Power, "1'000.000", 2, 1),
    (Kind::Power, "01.000", 2, 1),
    (Kind::Power, "00.000", 2, 1),
    (Kind::Power, "+1.000", 2, 0),
    (Kind::Power, " 1.000", 2, 0),
    (Kind::Power, "1.000 ", 2, 5),
    (Kind::Power, "1.000\r", 2, 5),
    (Kind::Power, "1.0e3", 2, 3),
    (Kind::Power, "1e3", 2, 1),
    (Kind::Power, "0x1.000", 2, 1),
    (Kind::Power, "1.-00", 2, 2),
    (Kind::Power, "-1.000", 2, 0),
    (Kind::Power, "-0.000", 2, 0),
    (Kind::Power, "-", 2, 0),
    (Kind::Power, "12345678.000", 2, 7),
    (Kind::Power, "12345678", 2, 7),
    (Kind::Power, "00000001.000", 2, 1),
    (Kind::Power, "1234567.000", 3, 0),
    (Kind::Power, "9999999.999", 3, 0),
    (Kind::Power, "10000.001", 3, 0),
    (Kind::Power, "4294967.296", 3, 0),
    (Kind::Power, "9999999.9990", 2, 11),
    (Kind::Power, "1;000", 2, 1),
    (Kind::Power, "\t1.000", 2, 0),
    (Kind::Flow, "", 2, 0),
    (Kind::Flow, "-", 2, 1),
    (Kind::Flow, "--1.000", 2, 1),
    (Kind::Flow, "-+1.000", 2, 1),
    (Kind::Flow, "-0.000", 2, 5),
    (Kind::Flow, "-0.0000", 2, 5),
    (Kind::Flow, "-0.00", 2, 5),
    (Kind::Flow, "-0", 2, 2),
    (Kind::Flow, "-0.001", 0, 0),
    (Kind::Flow, "-0.010", 0, 0),
    (Kind::Flow, "0.000", 0, 0),
    (Kind::Flow, "-01.000", 2, 2),
    (Kind::Flow, "-00.001", 2, 2),
    (Kind::Flow, "-.500", 2, 1),
    (Kind::Flow, "-1,500", 2, 2),
    (Kind::Flow, "-1.500-", 2, 6),
    (Kind::Flow, "1.500-", 2, 5),
    (Kind::Flow, "-12345678.000", 2, 8),
    (Kind::Flow, "-1234567.890", 3, 0),
    (Kind::Flow, "-9999999.999", 3, 0),
    (Kind::Flow, "-20000.000", 0, 0),
    (Kind::Flow, "20000.000", 0, 0),
    (Kind::Flow, "-20000.001", 3, 0),
    (Kind::Flow, "20000.001", 3, 0),
    (Kind::Flow, "\u{2212}1.000", 2, 0),
    (Kind::Flow, "(1.000)", 2, 0),
    (Kind::Flow, "1.0", 2, 3),
    (Kind::R, "", 2, 0),
    (Kind::R, "-", 0, 0),
    (Kind::R, "0", 0, 0),
    (Kind::R, "10000", 0, 0),
    (Kind::R, "10001", 3, 0),
    (Kind::R, "9999999999", 3, 0),
    (Kind::R, "12345678901", 2, 10),
    (Kind::R, "-5", 2, 1),
    (Kind::R, "--", 2, 1),
    (Kind::R, "0.7", 2, 1),
    (Kind::R, "7000.000", 2, 4),
    (Kind::R, "07000", 2, 1),
    (Kind::R, "70%", 2, 2),
    (Kind::Factor, "", 2, 0),
    (Kind::Factor, "0.1", 2, 3),
    (Kind::Factor, "0.1000", 2, 6),
    (Kind::Factor, "0.100000", 2, 7),
    (Kind::Factor, "0,10000", 2, 1),
    (Kind::Factor, ".10000", 2, 0),
    (Kind::Factor, "00.10000", 2, 1),
    (Kind::Factor, "10%", 2, 2),
    (Kind::Factor, "1e-1", 2, 1),
    (Kind::Factor, "-0.00000", 2, 7),
    (Kind::Factor, "-0.000000", 2, 7),
    (Kind::Factor, "-0.00001", 0, 0),
    (Kind::Factor, "-00.00001", 2, 2),
    (Kind::Factor, "-", 2, 1),
    (Kind::Factor, "100000.00000", 2, 5),
    (Kind::Factor, "12345.00000", 3, 0),
    (Kind::Factor, "-99999.99999", 3, 0),
    (Kind::Factor, "1.00001", 3, 0),
    (Kind::Factor, "-1.00001", 3, 0),
    (Kind::Factor, "1.00000", 0, 0),
    (Kind::Factor, "-1.00000", 0, 0),
];

/// A sheet, and what the rules refuse it for: number, line, byte.
pub type Wrong = (Vec<u8>, (u32, usize, usize));

/// One field of one row in a way.
pub fn in_a_field(d: &mut Dice, sheet: &[u8], (kind, by, number, before): Way) -> Wrong {
    let mut lines = lines_of(sheet);
    let line = d.below(lines.len());
    let mut fields = fields_of(&lines[line]);
    let field = some_field(d, kind, fields.len());
    fields[field] = by.as_bytes().to_vec();
    let byte = start_of(&fields, field) + before;
    lines[line] = line_from(&fields);
    let refused = if number == 0 { (0, 0, 0) } else { (number, line + 1, byte) };
    (lines.concat(), refused)
}

/// The ways to have lines wrong.
pub const LINE_WAYS: [&str; 27] = [
    "as they are",
    "empty sheet",
    "a BOM",
    "CR LF in one line",
    "CR LF in every line",
    "no last LF",
    "without the last line",
    "without the first line",
    "a line too many",
    "a byte too many",
    "an LF too many",
    "an empty line before",
    "an empty line within",
    "two lines in another order",
    "a line twice",
    "tabs for semicolons",
    "commas for semicolons",
    "a letter before",
    "a field too many",
    "a semicolon at the end",
    "a field too few",
    "cut off in a number",
    "cut off after the index",
    "FRM above Fmax",
    "Fmax zero",
    "out of range, then malformed",
    "out of range twice",
];

pub fn in_a_line(d: &mut Dice, sheet: &[u8], way: &str) -> Wrong {
    let mut lines = lines_of(sheet);
    let rows = lines.len();
    let line = d.below(rows);
    let index = line.to_string().len();
    let mut fields = fields_of(&lines[line]);
    let last = fields.len() - 1;
    let mut refused = (2, line + 1, 0);
    match way {
        "as they are" => refused = (0, 0, 0),
        "empty sheet" => return (vec![], (2, 1, 0)),
        "a BOM" => return ([b"\xEF\xBB\xBF", sheet].concat(), (2, 1, 1)),
        "CR LF in one line" => {
            refused.2 = lines[line].len();
            fields[last].push(b'\r');
        }
        "CR LF in every line" => {
            let first = lines[0].len();
            for line in &mut lines {
                line.insert(line.len() - 1, b'\r');
            }
            return (lines.concat(), (2, 1, first));
        }
        "no last LF" => return (sheet[..sheet.len() - 1].to_vec(), (2, rows, 0)),
        "without the last line" => {
            lines.pop();
            return (lines.concat(), (2, rows, 0));
        }
        "without the first line" => {
            lines.remove(0);
            // the next has another index, if there is one
            return (lines.concat(), (2, 1, if rows > 1 { 1 } else { 0 }));
        }
        "a line too many" => {
            let mut more = fields_of(&lines[rows - 1]);
            more[0] = rows.to_string().into_bytes();
            lines.push(line_from(&more));
            return (lines.concat(), (2, rows + 1, 0));
        }
        "a byte too many" => return ([sheet, b"0"].concat(), (2, rows + 1, 0)),
        "an LF too many" => return ([sheet, b"\n"].concat(), (2, rows + 1, 0)),
        // the index is a field that ends too soon, at the LF
        "an empty line before" => return ([b"\n", sheet].concat(), (2, 1, 1)),
        "an empty line within" => {
            lines.insert(line, b"\n".to_vec());
            return (lines.concat(), (2, line + 1, 1));
        }
        "two lines in another order" => {
            let other = (line + 1) % rows;
            lines.swap(line, other);
            let place = line.min(other) + 1;
            return (lines.concat(), if rows > 1 { (2, place, 1) } else { (0, 0, 0) });
        }
        "a line twice" => {
            let again = lines[line].clone();
            lines.insert(line, again);
            let after = if line + 1 == rows { 0 } else { 1 };
            return (lines.concat(), (2, line + 2, after));
        }
        "tabs for semicolons" | "commas for semicolons" => {
            let by = if way == "tabs for semicolons" { b'\t' } else { b',' };
            lines[line].iter_mut().filter(|byte| **byte == b';').for_each(|byte| *byte = by);
            return (lines.concat(), (2, line + 1, index + 1));
        }
        "a letter before" => {
            fields.insert(0, b"C".to_vec());
            refused.2 = 1;
        }
        "a field too many" => {
            let more = fields[last].clone();
            fields.push(more);
        }
        "a semicolon at the end" => fields.push(vec![]),
        "a field too few" => {
            fields.pop();
        }
        "cut off in a number" => {
            // no byte stands where the sheet ends; in R the point is a byte too many
            let place = 1 + d.below(last);
            let part = d.of(&["", "1", "1.", "1.0"]);
            let byte = if place == 5 && part.contains('.') { start_of(&fields, 5) + 1 } else { 0 };
            let mut cut = lines[..line].concat();
            cut.extend(fields[..place].join(&b';'));
            cut.push(b';');
            cut.extend(part.bytes());
            return (cut, (2, line + 1, byte));
        }
        "cut off after the index" => {
            let mut cut = lines[..line].concat();
            cut.extend(&fields[0]);
            return (cut, refused);
        }
        "FRM above Fmax" => {
            fields[1] = b"0.999".to_vec();
            fields[2] = b"1.000".to_vec();
            refused = (3, line + 1, start_of(&fields, 2));
        }
        "Fmax zero" => {
            fields[1] = b"0.000".to_vec();
            refused = (3, line + 1, start_of(&fields, 1));
        }
        "out of range, then malformed" => {
            fields[1] = b"10000.001".to_vec();
            fields[last] = b"0.1".to_vec();
            refused.2 = start_of(&fields, last) + 3;
        }
        _ => {
            fields[3] = b"20000.001".to_vec();
            fields[last] = b"1.00001".to_vec();
            refused = (3, line + 1, start_of(&fields, 3));
        }
    }
    lines[line] = line_from(&fields);
    (lines.concat(), refused)
}

// ---------------------------------------------------------- damaged sheets

const BYTES: &[u8] = b"0123456789-.;,\t\n \r+C'e\x00\x80\xff/:";

/// Some of its fields, bytes and lines changed.
pub fn damaged(d: &mut Dice, sheet: &mut Vec<u8>) {
    for _ in 0..d.of(&[1, 1, 1, 2, 3]) {
        let at = d.below(sheet.len().max(1));
        let byte = d.of(BYTES);
        let mut lines = lines_of(sheet);
        match d.below(12) {
            0..=5 if !lines.is_empty() => {
                let line = d.below(lines.len());
                let mut fields = fields_of(&lines[line]);
                let field = d.below(fields.len());
                let (_, by, ..) = d.of(&WAYS);
                fields[field] = by.as_bytes().to_vec();
                lines[line] = line_from(&fields);
                *sheet = lines.concat();
            }
            6 if at < sheet.len() => sheet[at] = byte,
            7 => sheet.insert(at, byte),
            8 if at < sheet.len() => {
                sheet.remove(at);
            }
            9 => sheet.truncate(at),
            10 if !lines.is_empty() => {
                let line = d.below(lines.len());
                let other = d.below(lines.len());
                lines.swap(line, other);
                *sheet = lines.concat();
            }
            _ => {
                let way = d.of(&LINE_WAYS);
                if !lines.is_empty() && lines.iter().all(|line| fields_of(line).len() > 9) {
                    *sheet = in_a_line(d, sheet, way).0;
                }
            }
        }
    }
}
