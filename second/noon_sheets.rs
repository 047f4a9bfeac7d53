//! Correction sheets of semicolon rows: made from a table's text, and every way to have
//! one wrong, sheets of both kinds of line among them.

use crate::damage::{self, lines_of};
use crate::dice::Dice;
use crate::row_sheets::{self, fields_of, line_from, start_of, Way};
use crate::second::{Refusal, Tables, NO_BYTE};
use crate::sheets;

/// The semicolon rows of these rows.
pub fn sheet_of(t: &Tables, rows: &[usize]) -> Vec<u8> {
    let lines = lines_of(&row_sheets::sheet(t));
    rows.iter().flat_map(|row| lines[*row].clone()).collect()
}

/// A sheet, and what the rules refuse it for; none where it is taken.
pub type Noon = (Vec<u8>, Option<Refusal>);

fn refused(place: usize, byte: usize) -> Option<Refusal> {
    Some(Refusal { number: 10, place, byte })
}

/// One field of one row in a way of the rows' own sheet.  Where no digit is left at the
/// sheet's begin its lines are to be C lines, and the first is none.
pub fn in_a_field(d: &mut Dice, sheet: &[u8], way: Way) -> Noon {
    let (wrong, (number, line, byte)) = row_sheets::in_a_field(d, sheet, way);
    let wanted = match wrong.first() {
        Some(first) if !first.is_ascii_digit() => refused(1, NO_BYTE),
        _ if number == 0 => None,
        _ => refused(line, byte),
    };
    (wrong, wanted)
}

/// The ways to have lines wrong, and some that are good.
pub const LINE_WAYS: [&str; 44] = [
    "as they are",
    "an empty sheet",
    "a line left out",
    "a BOM",
    "a blank before",
    "a minus before",
    "the byte below 0 first",
    "the byte above 9 first",
    "a digit alone",
    "CR LF in one line",
    "CR LF in every line",
    "no last LF",
    "the index of the line before",
    "an index below the one before",
    "no such row",
    "a row far beyond",
    "a row over 32 bits",
    "eleven digits",
    "a leading zero",
    "an empty index",
    "an index and a form",
    "two lines in another order",
    "a line twice",
    "a row after the last",
    "a digit after the last",
    "a byte after the last",
    "an LF after the last",
    "an empty line before",
    "an empty line within",
    "tabs for semicolons",
    "commas for semicolons",
    "a letter before",
    "a C line first",
    "a C line within",
    "a semicolon row among C lines",
    "a field too many",
    "a semicolon at the end",
    "a field too few",
    "cut off in a number",
    "cut off after the index",
    "FRM above Fmax",
    "Fmax zero",
    "out of range, then malformed",
    "out of range twice",
];

/// A sheet of some rows of the table, of which there are three or more.
pub fn in_a_line(d: &mut Dice, t: &Tables, way: &str) -> Noon {
    let all: Vec<usize> = (0..t.header.rows).collect();
    let ends = ["a row after the last", "a digit after the last", "a byte after the last", "an LF after the last"];
    let mut rows = if ends.contains(&way) { all } else { sheets::some_rows(d, t.header.rows) };
    // two lines at least
    if rows.len() == 1 {
        rows = if rows[0] > 0 { vec![0, rows[0]] } else { vec![0, t.header.rows - 1] };
    }
    let sheet = sheet_of(t, &rows);
    let mut lines = lines_of(&sheet);
    let own = |row: usize| sheets::sheet_of(t, &[row]);
    let count = rows.len();
    let line = d.below(count);
    // a line that has one before it
    let later = 1 + d.below(count - 1);
    let mut fields = fields_of(&lines[line]);
    let last = fields.len() - 1;
    let byte = match way {
        "as they are" => return (sheet, None),
        "an empty sheet" => return (vec![], None),
        "a line left out" => {
            lines.remove(line);
            return (lines.concat(), None);
        }
        // a sheet that does not begin with a digit is one of C lines
        "a BOM" => return ([b"\xEF\xBB\xBF", &sheet[..]].concat(), refused(1, NO_BYTE)),
        "a blank before" => return ([b" ", &sheet[..]].concat(), refused(1, NO_BYTE)),
        "a minus before" => return ([b"-", &sheet[..]].concat(), refused(1, NO_BYTE)),
        "the byte below 0 first" => return ([b"/", &sheet[1..]].concat(), refused(1, NO_BYTE)),
        "the byte above 9 first" => return ([b":", &sheet[1..]].concat(), refused(1, NO_BYTE)),
        "an empty line before" => return ([b"\n", &sheet[..]].concat(), refused(1, NO_BYTE)),
        "a digit alone" => return (d.of(&["0", "9", "5"]).into(), refused(1, NO_BYTE)),
        "CR LF in one line" => {
            fields[last].push(b'\r');
            lines[line].len()
        }
        "CR LF in every line" => {
            let first = lines[0].len();
            lines.iter_mut().for_each(|line| line.insert(line.len() - 1, b'\r'));
            return (lines.concat(), refused(1, first));
        }
        "no last LF" => return (sheet[..sheet.len() - 1].to_vec(), refused(count, NO_BYTE)),
        "the index of the line before" | "an index below the one before" | "an index and a form" => {
            let before = rows[later - 1];
            let index = if way == "an index below the one before" { d.below(before + 1) } else { before };
            let mut fields = fields_of(&lines[later]);
            fields[0] = index.to_string().into_bytes();
            if way == "an index and a form" {
                fields[last] = b"x".to_vec();
            }
            lines[later] = line_from(&fields);
            return (lines.concat(), refused(later + 1, 1));
        }
        "no such row" => {
            fields[0] = t.header.rows.to_string().into_bytes();
            1
        }
        "a row far beyond" => {
            fields[0] = b"9999999999".to_vec();
            1
        }
        "a row over 32 bits" => {
            fields[0] = (rows[line] as u64 + (1 << 32)).to_string().into_bytes();
            1
        }
        "eleven digits" => {
            fields[0] = b"10000000000".to_vec();
            11
        }
        "a leading zero" => {
            fields[0].insert(0, b'0');
            2
        }
        "an empty index" => {
            let mut fields = fields_of(&lines[later]);
            fields[0] = vec![];
            lines[later] = line_from(&fields);
            return (lines.concat(), refused(later + 1, 1));
        }
        "two lines in another order" => {
            lines.swap(later - 1, later);
            return (lines.concat(), refused(later + 1, 1));
        }
        "a line twice" => {
            lines.insert(line, lines[line].clone());
            return (lines.concat(), refused(line + 2, 1));
        }
        "a row after the last" => {
            let mut more = fields_of(&lines[count - 1]);
            more[0] = count.to_string().into_bytes();
            return ([sheet, line_from(&more)].concat(), refused(count + 1, 1));
        }
        // the text ends there: no byte to blame
        "a digit after the last" => return ([&sheet[..], b"0"].concat(), refused(count + 1, NO_BYTE)),
        "a byte after the last" => return ([&sheet[..], &[d.of(b";xC\t\r ")]].concat(), refused(count + 1, 1)),
        // the index is a field that ends too soon, at the LF
        "an LF after the last" => return ([&sheet[..], b"\n"].concat(), refused(count + 1, 1)),
        "an empty line within" => {
            lines.insert(later, b"\n".to_vec());
            return (lines.concat(), refused(later + 1, 1));
        }
        "tabs for semicolons" | "commas for semicolons" => {
            let by = if way == "tabs for semicolons" { b'\t' } else { b',' };
            lines[line].iter_mut().filter(|byte| **byte == b';').for_each(|byte| *byte = by);
            return (lines.concat(), refused(line + 1, fields[0].len() + 1));
        }
        "a letter before" => {
            lines[later] = [b"C;", &lines[later][..]].concat();
            return (lines.concat(), refused(later + 1, 1));
        }
        "a C line first" => {
            lines[0] = own(rows[0]);
            return (lines.concat(), refused(2, NO_BYTE));
        }
        "a C line within" => {
            lines[later] = own(rows[later]);
            return (lines.concat(), refused(later + 1, 1));
        }
        "a semicolon row among C lines" => {
            for (place, row) in rows.iter().enumerate().filter(|(place, _)| *place != later) {
                lines[place] = own(*row);
            }
            return (lines.concat(), refused(later + 1, NO_BYTE));
        }
        "a field too many" => {
            fields.push(fields[last].clone());
            NO_BYTE
        }
        "a semicolon at the end" => {
            fields.push(vec![]);
            NO_BYTE
        }
        "a field too few" => {
            fields.pop();
            NO_BYTE
        }
        "cut off in a number" => {
            // no byte stands where the sheet ends; in R the point is a byte too many
            let place = 1 + d.below(last);
            let part = d.of(&["", "1", "1.", "1.0"]);
            let byte = if place == 5 && part.contains('.') { start_of(&fields, 5) + 1 } else { NO_BYTE };
            let mut cut = lines[..line].concat();
            cut.extend(fields[..place].join(&b';'));
            cut.push(b';');
            cut.extend(part.bytes());
            return (cut, refused(line + 1, byte));
        }
        "cut off after the index" => {
            let mut cut = lines[..line].concat();
            cut.extend(&fields[0]);
            return (cut, refused(line + 1, NO_BYTE));
        }
        "FRM above Fmax" => {
            fields[1] = b"0.999".to_vec();
            fields[2] = b"1.000".to_vec();
            start_of(&fields, 2)
        }
        "Fmax zero" => {
            fields[1] = b"0.000".to_vec();
            start_of(&fields, 1)
        }
        "out of range, then malformed" => {
            fields[1] = b"10000.001".to_vec();
            fields[last] = b"0.1".to_vec();
            start_of(&fields, last) + 3
        }
        _ => {
            fields[3] = b"20000.001".to_vec();
            fields[last] = b"1.00001".to_vec();
            start_of(&fields, 3)
        }
    };
    lines[line] = line_from(&fields);
    (lines.concat(), refused(line + 1, byte))
}

/// A correction sheet of semicolon rows for `damage::day_text`.
pub const SMALL: &[u8] = b"1;0.090;0.005;-0.001;0.020;-;0.000;0.003;0.20000;-0.00007\n3;0.100;0.000;0.000;-0.009;7000;0.010;0.000;0.00000;0.09000\n";

/// Every byte and every field of it.
pub fn places() -> Vec<damage::Place> {
    damage::places_in(0, SMALL, &damage::SHEET_FIELDS)
}
