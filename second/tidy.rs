//! What is certain of a text, repaired.  Quoted sentences are those of the definition.

use crate::second::{Refusal, MOST_BYTES, NO_BYTE};

const BOM: &[u8] = b"\xEF\xBB\xBF";
const POWER_DECIMALS: usize = 3;
const FACTOR_DECIMALS: usize = 5;

/// "A text of more than 65,536 bytes is refused: E 1 0 0".
pub fn tidied(text: &[u8]) -> Result<Vec<u8>, Refusal> {
    if text.len() > MOST_BYTES {
        return Err(Refusal { number: 1, place: 0, byte: NO_BYTE });
    }
    let mut lines: Vec<Vec<u8>> = lines_of(without_begin(text)).into_iter().map(tidied_line).collect();
    // "Lines at the text's end that then hold no byte but tabs and semicolons are dropped"
    while lines.last().is_some_and(|line| line.iter().all(|byte| parts(*byte))) {
        lines.pop();
    }
    // "Every line that is left ends with one LF"
    lines.iter_mut().for_each(|line| line.push(b'\n'));
    Ok(lines.concat())
}

/// "every leading EF BB BF or blank (32) is dropped as long as the text begins with one"
fn without_begin(mut text: &[u8]) -> &[u8] {
    while let Some(rest) = text.strip_prefix(BOM).or_else(|| text.strip_prefix(b" ")) {
        text = rest;
    }
    text
}

/// "A line is what stands before an LF, or the rest of the text behind the last LF where
/// that is not empty."
fn lines_of(text: &[u8]) -> Vec<&[u8]> {
    let mut lines: Vec<&[u8]> = text.split(|byte| *byte == b'\n').collect();
    if lines.last() == Some(&&b""[..]) {
        lines.pop();
    }
    lines
}

/// What parts fields: "tab (9) and semicolon (59)".
fn parts(byte: u8) -> bool {
    byte == 9 || byte == 59
}

fn tidied_line(line: &[u8]) -> Vec<u8> {
    // "In each line the run of CR (13) and blanks at its end is dropped."
    let end = line.iter().rposition(|byte| *byte != 13 && *byte != 32).map_or(0, |last| last + 1);
    let line = &line[..end];
    // "only in a line with a semicolon and no tab"
    let decimals = line.contains(&b';') && !line.contains(&b'\t');
    let mut out = Vec::new();
    let mut rest = line;
    for place in 0.. {
        let length = rest.iter().position(|byte| parts(*byte)).unwrap_or(rest.len());
        let field = without_quotes(&rest[..length]);
        out.extend_from_slice(field);
        if decimals {
            out.resize(out.len() + zeros(field, place), b'0');
        }
        let Some(part) = rest.get(length) else { break };
        out.push(*part);
        rest = &rest[length + 1..];
    }
    out
}

fn without_blanks(mut field: &[u8]) -> &[u8] {
    while let [b' ', rest @ ..] | [rest @ .., b' '] = field {
        field = rest;
    }
    field
}

/// "the blanks at both ends are dropped.  Where what is left has two bytes at least, begins
/// and ends with a quote (34), and between the two has only bytes 32..126 other than a
/// quote, the two quotes go, and then the blanks at both ends of what was between them."
fn without_quotes(field: &[u8]) -> &[u8] {
    match without_blanks(field) {
        [34, within @ .., 34] if within.iter().all(|byte| (32..=126).contains(byte) && *byte != 34) => without_blanks(within),
        field => field,
    }
}

/// How many zeros a field gets: "k = 1, 2, 3, 4, 6, 7 is a power (three decimals), k >= 8 a
/// factor (five decimals); 0 and 5 (index, R) are neither".
fn zeros(field: &[u8], place: usize) -> usize {
    let due = match place {
        0 | 5 => return 0,
        1..=7 => POWER_DECIMALS,
        _ => FACTOR_DECIMALS,
    };
    // "[-] digits . digits, with one digit at least on both sides of the point"
    let number = field.strip_prefix(b"-").unwrap_or(field);
    let sides: Vec<&[u8]> = number.split(|byte| *byte == b'.').collect();
    match sides[..] {
        [whole, part] if digits(whole) && digits(part) => due.saturating_sub(part.len()),
        _ => 0,
    }
}

fn digits(bytes: &[u8]) -> bool {
    !bytes.is_empty() && bytes.iter().all(u8::is_ascii_digit)
}
