//! The planners' semicolon sheet (02, E11), read into C records and written from
//! them.  Quoted sentences are those of the request.

use super::{fault_c, fault_h, judge_room, judged, number_of, or_e_line, r_field, refuse, row_of, table_text};
use super::{Column, Field, Form, Header, Lines, Refusal, Tables, LINE_H, MOST_BYTES, NO_BYTE, R};

/// "ten at most in all"
const MOST_DIGITS: usize = 10;
/// "power in MW with exactly three decimals, factors with exactly five"
const POWER_DECIMALS: usize = 3;
const FACTOR_DECIMALS: usize = 5;

/// How a field of the sheet is written.
enum Cell {
    /// as in a C line
    Plain(Column),
    Decimal { signed: bool, decimals: usize },
}

/// "a minus where negative, one digit or more before the point"; "No zero leads but
/// a single one before the point, and zero has no minus."  The number without its
/// point, or how many bytes of the field could begin a good one.
fn decimal(field: &[u8], signed: bool, decimals: usize) -> Result<i64, usize> {
    let digit = |at: usize| field.get(at).filter(|byte| byte.is_ascii_digit()).map(|byte| i64::from(*byte - b'0'));
    let first = usize::from(signed && field.first() == Some(&b'-'));
    let mut number = 0;
    let mut at = first;
    while let Some(value) = digit(at) {
        let leading_zero = at == first + 1 && field[first] == b'0';
        if leading_zero || at - first == MOST_DIGITS - decimals {
            return Err(at);
        }
        number = 10 * number + value;
        at += 1;
    }
    if at == first || field.get(at) != Some(&b'.') {
        return Err(at);
    }
    at += 1;
    for _ in 0..decimals {
        let Some(value) = digit(at) else {
            return Err(at);
        };
        number = 10 * number + value;
        at += 1;
    }
    // another last decimal would do
    if number == 0 && first > 0 {
        return Err(at - 1);
    }
    if at < field.len() {
        return Err(at);
    }
    Ok(if first > 0 { -number } else { number })
}

/// The number of a field, or the byte of the line that is to blame; `cut` as in a C
/// line.
fn value_of(field: &Field, cell: &Cell, cut: bool) -> Result<i64, usize> {
    match *cell {
        Cell::Plain(column) => number_of(field, column, cut),
        Cell::Decimal { signed, decimals } => match decimal(field.bytes, signed, decimals) {
            Err(at) if cut && at == field.bytes.len() => Err(NO_BYTE),
            other => other.map_err(|at| field.start + at),
        },
    }
}

/// "Field order is that of the C line without the letter; R stays in
/// ten-thousandths."
fn cells(index: Column, zones: usize) -> Vec<Cell> {
    let power = |signed: bool| Cell::Decimal { signed, decimals: POWER_DECIMALS };
    let mut cells = vec![Cell::Plain(index)];
    cells.extend([power(false), power(false), power(true), power(true)]);
    cells.extend([Cell::Plain(Column::DashOrUnsigned), power(false), power(false)]);
    cells.extend((0..zones).map(|_| Cell::Decimal { signed: true, decimals: FACTOR_DECIMALS }));
    cells
}

/// "fields parted by semicolons", "one LF after each" row; "2 and 3 as for a C line".
/// The row, and the form without its index.
fn form_row(line: &[u8], index: Column, zones: usize) -> Result<(usize, Form), usize> {
    let (body, ended) = match line.split_last() {
        Some((b'\n', body)) => (body, true),
        _ => (line, false),
    };
    let cells = cells(index, zones);
    let fields: Vec<&[u8]> = body.split(|byte| *byte == b';').collect();
    let mut row = 0;
    let mut form = Form { values: Vec::new(), starts: Vec::new() };
    let mut start = 1;
    for (place, bytes) in fields.iter().enumerate() {
        // a semicolon where the LF belongs
        let Some(cell) = cells.get(place) else {
            return Err(NO_BYTE);
        };
        let last = place + 1 == fields.len();
        let value = value_of(&Field { bytes, start }, cell, last && !ended)?;
        if place > 0 {
            form.values.push(value);
            form.starts.push(start);
        } else {
            row = value as usize;
        }
        start += bytes.len() + 1;
    }
    // the LF where a semicolon belongs, or no LF at all
    if !ended || fields.len() != cells.len() {
        return Err(NO_BYTE);
    }
    Ok((row, form))
}

/// "Which one it is is seen from the sheet's first byte: a digit (48..57) means semicolon
/// rows; any other byte, or an empty sheet, means C lines".
pub(super) fn begins(sheet: &[u8]) -> bool {
    matches!(sheet, [48..=57, ..])
}

/// A line of a correction sheet of semicolon rows: "not all rows need stand there: indices
/// rise, each is below the table's rows".  Its index is one of the rows from `from` on.
pub(super) fn form_correction(line: &[u8], from: usize, header: Header) -> Result<(usize, Form), usize> {
    form_row(line, Column::OneOf { from, below: header.rows }, header.zones)
}

/// "The sheet holds all rows of the table's header, in index order, one LF after
/// each."
fn sheet_rows(sheet: &[u8], header: Header) -> Result<(Vec<[i64; 7]>, Vec<i64>), Refusal> {
    let mut lines = Lines { text: sheet, start: 0, number: 1 };
    let (mut c, mut f) = (Vec::new(), Vec::new());
    for index in 0..header.rows {
        let (number, line) = lines.next()?;
        let form = form_row(line, Column::Index(index), header.zones).map(|(_, form)| form);
        let values = judged(number, form, |v| fault_c(&row_of(v), &v[7..]))?;
        c.push(row_of(&values));
        f.extend(&values[7..]);
    }
    lines.end()?;
    Ok((c, f))
}

/// "1 for a sheet over 65,536 bytes"
fn judge_length(sheet: &[u8]) -> Result<(), Refusal> {
    if sheet.len() > MOST_BYTES {
        return refuse(1, 0);
    }
    Ok(())
}

fn judge_header(header: Header) -> Result<(), Refusal> {
    if fault_h(&header).is_some() {
        return refuse(3, LINE_H);
    }
    Ok(())
}

/// The items of C and of factors, C first.
fn judge_lengths(header: Header, lent: [usize; 2]) -> Result<(), Refusal> {
    judge_room(lent[0], header.rows)?;
    judge_room(lent[1], header.rows * header.zones)
}

/// C records and factors of a sheet; `room`: the items of both.  1, the header, the
/// lines, "then 8".
pub fn read_rows(header: Header, sheet: &[u8], room: [usize; 2]) -> Result<(Vec<[i64; 7]>, Vec<i64>), Refusal> {
    judge_length(sheet)?;
    judge_header(header)?;
    let rows = sheet_rows(sheet, header)?;
    judge_lengths(header, room)?;
    Ok(rows)
}

/// With a minus where negative, and so many decimals.
fn decimal_text(number: i64, decimals: usize) -> String {
    let one = 10_i64.pow(decimals as u32);
    let sign = if number < 0 { "-" } else { "" };
    let number = number.abs();
    format!("{sign}{}.{:0decimals$}", number / one, number % one)
}

fn row_text(index: usize, record: &[i64; 7], factors: &[i64]) -> String {
    let mut fields = vec![index.to_string()];
    for (place, value) in record.iter().enumerate() {
        fields.push(if place == R { r_field(*value) } else { decimal_text(*value, POWER_DECIMALS) });
    }
    fields.extend(factors.iter().map(|factor| decimal_text(*factor, FACTOR_DECIMALS)));
    fields.join(";") + "\n"
}

/// The rows as a sheet.
fn sheet_text(header: Header, c: &[[i64; 7]], f: &[i64]) -> Vec<u8> {
    let rows = c.iter().zip(f.chunks(header.zones)).enumerate();
    rows.map(|(index, (record, factors))| row_text(index, record, factors)).collect::<String>().into_bytes()
}

/// The sheet of lent rows: the header, lengths, records (3, the sheet's line), room in
/// bytes.
pub fn write_rows(header: Header, c: &[[i64; 7]], f: &[i64], room: usize) -> Result<Vec<u8>, Refusal> {
    judge_header(header)?;
    judge_lengths(header, [c.len(), f.len()])?;
    let c = &c[..header.rows];
    let f = &f[..header.rows * header.zones];
    for (index, (record, factors)) in c.iter().zip(f.chunks(header.zones)).enumerate() {
        if fault_c(record, factors).is_some() {
            return refuse(3, index + 1);
        }
    }
    let text = sheet_text(header, c, f);
    judge_room(room, text.len())?;
    Ok(text)
}

/// The rows of a table that was read as a sheet, or the E line.
pub fn sheet_of(read: Result<Tables, Refusal>) -> Vec<u8> {
    or_e_line(read.map(|tables| sheet_text(tables.header, &tables.c, &tables.f)))
}

/// The table that was read with all its rows taken from the sheet, or the E line.
pub fn with_sheet(read: Result<Tables, Refusal>, sheet: &[u8]) -> Vec<u8> {
    or_e_line(judge_length(sheet).and_then(|()| {
        let mut tables = read?;
        (tables.c, tables.f) = sheet_rows(sheet, tables.header)?;
        Ok(table_text(&tables))
    }))
}
