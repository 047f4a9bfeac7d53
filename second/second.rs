//! Reference calculator: from one hour's table to row margins, row states and
//! fallback capacities (ATCs).  Written from the exact rules alone, in the
//! plainest form, to be compared with another program.  Quoted sentences in
//! the comments are those of the rules.
//!
//! All margin arithmetic is in i128 grains.
#![allow(dead_code)]

#[path = "claims.rs"]
pub mod claims;
#[path = "rows.rs"]
pub mod rows;
#[path = "why.rs"]
pub mod why;
#[path = "why_words.rs"]
pub mod why_words;

/// "1 | more than 65,536 bytes"
pub const MOST_BYTES: usize = 65_536;
/// "a kW is 100,000 grains"
pub const GRAINS_PER_KW: i128 = 100_000;
/// LTA is given in MW, exchanges are in kW.
pub const KW_PER_MW: i128 = 1_000;
/// How a record holds R where "-" was written.
pub const R_DASH: i64 = -1;
/// "\"-\" is allowed in R only and means 7000.", "H lines without it keep 7000"
pub const R_DASH_MEANS: i64 = 7_000;
/// How a header holds that no default of R was written.
pub const NO_SHARE: i64 = -1;
/// "largest zone factor less smallest is under 5000"
pub const SPREAD_KEPT: i64 = 5_000;
/// "zones 2..16, borders 1..40, rows 1..200", and "Raise borders from 40 to 64."
pub const MOST_ZONES: usize = 16;
pub const MOST_BORDERS: usize = 64;
pub const MOST_ROWS: usize = 200;
/// "Document 01's largest round number, 3,840, becomes 6,144"
pub const MOST_ROUNDS: u64 = 6_144;
/// "In this profile ... the largest round number is 6,272 at 64 borders."
pub const MOST_ROUNDS_INTRADAY: u64 = 6_272;
/// How "the header record says whether T is there".
pub const NO_T: u64 = 0;
pub const INTRADAY: u64 = 1;

/// Places of the values in a B record; the hubs are NO_HUB both where none are
/// written.
pub type Border = [i64; 5];
pub const FROM: usize = 0;
pub const TO: usize = 1;
pub const LTA: usize = 2;
pub const SENDING: usize = 3;
pub const RECEIVING: usize = 4;
pub const NO_HUB: i64 = -1;

pub const fn without_hubs(from: i64, to: i64, lta: i64) -> Border {
    [from, to, lta, NO_HUB, NO_HUB]
}

// Places of the values in a C record.
const FMAX: usize = 0;
const FRM: usize = 1;
const FREF: usize = 2;
const F0ALL: usize = 3;
const R: usize = 4;
const CVA: usize = 5;
const IVA: usize = 6;

#[derive(Clone, Copy, Debug, PartialEq, Eq)]
pub struct Header {
    pub zones: usize,
    pub borders: usize,
    pub rows: usize,
    /// "the default and whether it was written": what "-" takes, or NO_SHARE
    pub share: i64,
    /// INTRADAY where the T lines are there, else NO_T
    pub intraday: u64,
}

#[derive(Clone, Debug, PartialEq, Eq)]
pub struct Tables {
    pub header: Header,
    /// reference net positions, kW
    pub z: Vec<i64>,
    /// allocated net positions, kW: none, or one for each zone
    pub t: Vec<i64>,
    /// from, to, LTA in MW, sending hub, receiving hub
    pub b: Vec<Border>,
    /// Fmax, FRM, Fref, F0all, R (-1 where "-" was written), CVA, IVA
    pub c: Vec<[i64; 7]>,
    /// "Row i's stretch starts at item i x zones."
    pub f: Vec<i64>,
}

/// Tables as they are lent to a call: each may be longer than its header says, or
/// too short.
#[derive(Clone, Copy)]
pub struct Lent<'a> {
    pub header: Header,
    pub z: &'a [i64],
    pub t: &'a [i64],
    pub b: &'a [Border],
    pub c: &'a [[i64; 7]],
    pub f: &'a [i64],
}

impl Tables {
    pub fn lend(&self) -> Lent<'_> {
        Lent { header: self.header, z: &self.z, t: &self.t, b: &self.b, c: &self.c, f: &self.f }
    }
}

#[derive(Clone, Copy, Debug, PartialEq, Eq)]
pub struct Refusal {
    pub number: u32,
    pub place: usize,
    /// the first byte in the line, from 1, "that no good number could have
    /// there", or NO_BYTE
    pub byte: usize,
}

/// "0 where no byte is to blame"
pub const NO_BYTE: usize = 0;

fn refuse<T>(number: u32, place: usize) -> Result<T, Refusal> {
    Err(Refusal { number, place, byte: NO_BYTE })
}

// ---------------------------------------------------------------------------
// Lines of the text
// ---------------------------------------------------------------------------

/// The piece of the text that holds the line starting at `start`, its LF
/// included; without LF only where the text ends first.  None at the text's end.
fn line_at(text: &[u8], start: usize) -> Option<&[u8]> {
    if start >= text.len() {
        return None;
    }
    let mut end = start;
    while end < text.len() {
        end += 1;
        if text[end - 1] == b'\n' {
            break;
        }
    }
    Some(&text[start..end])
}

/// A field, and the byte of the line, from 1, at which it starts.
struct Field<'a> {
    bytes: &'a [u8],
    start: usize,
}

/// "Lines end in one LF, fields are parted by one tab."  The letter is the first
/// field; two tabs together give an empty one, which no form takes.  And whether
/// the LF is there.
fn fields_of(line: &[u8]) -> (Vec<Field<'_>>, bool) {
    let (body, ended) = match line.split_last() {
        Some((b'\n', body)) => (body, true),
        _ => (line, false),
    };
    let mut fields = Vec::new();
    let mut start = 1;
    for bytes in body.split(|byte| *byte == b'\t') {
        fields.push(Field { bytes, start });
        start += bytes.len() + 1;
    }
    (fields, ended)
}

// Each reader of a number gives the number, or how many bytes of the field could
// begin a good one: the next byte is to blame, and it is the byte after the
// field where the field ends too soon.

/// "Numbers are decimal, 1 to 10 digits, no leading zero except "0" itself"
fn unsigned(field: &[u8]) -> Result<i64, usize> {
    let mut value: i64 = 0;
    for (at, byte) in field.iter().enumerate() {
        if !byte.is_ascii_digit() {
            return Err(at);
        }
        if at == 1 && field[0] == b'0' {
            return Err(at);
        }
        if at == 10 {
            return Err(at);
        }
        value = value * 10 + i64::from(*byte - b'0');
    }
    if field.is_empty() {
        return Err(0);
    }
    Ok(value)
}

/// "a minus only before a nonzero signed field"
fn signed(field: &[u8]) -> Result<i64, usize> {
    match field.split_first() {
        Some((b'-', digits)) => {
            if digits.first() == Some(&b'0') {
                return Err(1);
            }
            match unsigned(digits) {
                Ok(value) => Ok(-value),
                Err(at) => Err(1 + at),
            }
        }
        _ => unsigned(field),
    }
}

/// ""-" is allowed in R only"
fn dash_or_unsigned(field: &[u8]) -> Result<i64, usize> {
    if field == b"-" {
        return Ok(R_DASH);
    }
    if field.first() == Some(&b'-') {
        return Err(1);
    }
    unsigned(field)
}

/// How a field is written.
#[derive(Clone, Copy)]
enum Column {
    /// an unsigned number, this one
    Index(usize),
    /// an unsigned number of these: a row that a correction may be of
    OneOf { from: usize, below: usize },
    Unsigned,
    Signed,
    DashOrUnsigned,
}

/// The number of a field, or the byte of the line that is to blame.  `cut`: the
/// text ends after this field, without LF.
fn number_of(field: &Field, column: Column, cut: bool) -> Result<i64, usize> {
    let read = match column {
        Column::Index(_) | Column::OneOf { .. } | Column::Unsigned => unsigned(field.bytes),
        Column::Signed => signed(field.bytes),
        Column::DashOrUnsigned => dash_or_unsigned(field.bytes),
    };
    let number = match read {
        Ok(number) => number,
        // no byte stands where the text ends
        Err(at) if cut && at == field.bytes.len() => return Err(NO_BYTE),
        Err(at) => return Err(field.start + at),
    };
    let wrong_index = match column {
        Column::Index(due) => number != due as i64,
        Column::OneOf { from, below } => !(from as i64..below as i64).contains(&number),
        _ => false,
    };
    // "a wrong index" names "the field's first byte"; a line cut off there names none
    if wrong_index {
        return Err(if cut { NO_BYTE } else { field.start });
    }
    Ok(number)
}

/// A line of right form: its numbers after the index, and the byte at which each
/// starts.
struct Form {
    values: Vec<i64>,
    starts: Vec<usize>,
}

/// "Letter first, then fields from the left; a wrong letter or field count ...
/// 0".  The line has as many values after its index as one of the counts says.
/// The byte to blame where its form is wrong.
fn form_of(line: &[u8], letter: &[u8], columns: &[Column], counts: &[usize]) -> Result<Form, usize> {
    let (fields, ended) = fields_of(line);
    if fields[0].bytes != letter {
        return Err(NO_BYTE);
    }
    let mut form = Form { values: Vec::new(), starts: Vec::new() };
    for (place, field) in fields[1..].iter().enumerate() {
        // a tab where the LF belongs
        let Some(column) = columns.get(place) else {
            return Err(NO_BYTE);
        };
        let last = place + 2 == fields.len();
        let number = number_of(field, *column, last && !ended)?;
        if !matches!(column, Column::Index(_)) {
            form.values.push(number);
            form.starts.push(field.start);
        }
    }
    // the LF where a tab belongs, or no LF at all
    if !ended || !counts.contains(&form.values.len()) {
        return Err(NO_BYTE);
    }
    Ok(form)
}

/// "H | zones, borders, rows"; "may carry a fourth field"
fn form_h(line: &[u8]) -> Result<Form, usize> {
    form_of(line, b"H", &[Column::Unsigned; 4], &[3, 4])
}

fn header_of(values: &[i64]) -> Header {
    // ten digits fit in a usize
    Header {
        zones: values[0] as usize,
        borders: values[1] as usize,
        rows: values[2] as usize,
        share: values.get(3).copied().unwrap_or(NO_SHARE),
        intraday: NO_T,
    }
}

/// "Z | index, reference net position"
fn form_z(line: &[u8], index: usize) -> Result<Form, usize> {
    form_of(line, b"Z", &[Column::Index(index), Column::Signed], &[1])
}

/// "`T`, index, allocated net position"
fn form_t(line: &[u8], index: usize) -> Result<Form, usize> {
    form_of(line, b"T", &[Column::Index(index), Column::Signed], &[1])
}

/// "B | index, from zone, to zone, LTA"; "may carry two more fields, sending hub
/// and receiving hub"
fn form_b(line: &[u8], index: usize) -> Result<Form, usize> {
    let mut columns = vec![Column::Index(index)];
    columns.extend([Column::Unsigned; 5]);
    form_of(line, b"B", &columns, &[3, 5])
}

fn border_of(values: &[i64]) -> Border {
    let mut record = without_hubs(0, 0, 0);
    record[..values.len()].copy_from_slice(values);
    record
}

/// "C | index, Fmax, FRM, Fref, F0all, R or "-", CVA, IVA, then one factor per zone"
fn columns_c(index: Column, zones: usize) -> Vec<Column> {
    let mut columns = vec![index];
    columns.extend([Column::Unsigned, Column::Unsigned, Column::Signed, Column::Signed]);
    columns.extend([Column::DashOrUnsigned, Column::Unsigned, Column::Unsigned]);
    columns.extend(vec![Column::Signed; zones]);
    columns
}

fn form_c(line: &[u8], index: usize, zones: usize) -> Result<Form, usize> {
    form_of(line, b"C", &columns_c(Column::Index(index), zones), &[7 + zones])
}

/// A line of a correction sheet: a C line whose index is one of the rows from `from`
/// on.  The row, and the form without its index.
fn form_correction(line: &[u8], from: usize, header: Header) -> Result<(usize, Form), usize> {
    let index = Column::OneOf { from, below: header.rows };
    let mut form = form_of(line, b"C", &columns_c(index, header.zones), &[8 + header.zones])?;
    form.starts.remove(0);
    Ok((form.values.remove(0) as usize, form))
}

fn row_of(values: &[i64]) -> [i64; 7] {
    std::array::from_fn(|place| values[place])
}

// ---------------------------------------------------------------------------
// Ranges
// ---------------------------------------------------------------------------

// Each gives the place of the first value, from the left, that is out of range,
// "the later of two in conflict".  The index of a line is no value.

fn within(value: i64, low: i64, high: i64) -> bool {
    low <= value && value <= high
}

fn first_bad(good: &[bool]) -> Option<usize> {
    good.iter().position(|good| !good)
}

fn fault_h(header: &Header) -> Option<usize> {
    first_bad(&[
        (2..=MOST_ZONES).contains(&header.zones),
        (1..=MOST_BORDERS).contains(&header.borders),
        (1..=MOST_ROWS).contains(&header.rows),
        good_share(header.share),
        header.intraday == NO_T || header.intraday == INTRADAY,
    ])
}

/// "a fourth field, 0..10000"
fn good_share(share: i64) -> bool {
    share == NO_SHARE || within(share, 0, 10_000)
}

/// "kW, -100000000..100000000"
fn fault_z(position: i64) -> Option<usize> {
    first_bad(&[within(position, -100_000_000, 100_000_000)])
}

/// "allocated net position in kW, same range as Z"; "3 at the last T line where
/// the sum isn't zero and that line is otherwise good".  `t`: the positions up to
/// the one that is judged.
fn fault_t(t: &[i64], zones: usize) -> Option<usize> {
    let fault = fault_z(t[t.len() - 1]);
    if fault.is_some() || t.len() < zones {
        return fault;
    }
    first_bad(&[t.iter().sum::<i64>() == 0])
}

/// "from zone, to zone (both exist, not equal), LTA in MW 0..10000"; "3 also for a
/// hub that doesn't exist or for two equal hubs".  A hub may be the border's own
/// from or to.
fn fault_b(record: &Border, zones: usize) -> Option<usize> {
    let [from, to, lta, sending, receiving] = *record;
    let last = zones as i64 - 1;
    let no_hubs = sending == NO_HUB && receiving == NO_HUB;
    first_bad(&[
        within(from, 0, last),
        within(to, 0, last) && from != to,
        within(lta, 0, 10_000),
        no_hubs || within(sending, 0, last),
        no_hubs || within(receiving, 0, last) && sending != receiving,
    ])
}

/// "Fmax kW 1..10000000, FRM kW 0..Fmax, Fref kW -20000000..20000000, F0all kW
/// same range, R 0..10000 (ten-thousandths) or "-", CVA kW 0..10000000, IVA kW
/// same, then one factor per zone, -100000..100000"
fn fault_c(record: &[i64; 7], factors: &[i64]) -> Option<usize> {
    let mut good = vec![
        within(record[FMAX], 1, 10_000_000),
        within(record[FRM], 0, record[FMAX]),
        within(record[FREF], -20_000_000, 20_000_000),
        within(record[F0ALL], -20_000_000, 20_000_000),
        record[R] == R_DASH || within(record[R], 0, 10_000),
        within(record[CVA], 0, 10_000_000),
        within(record[IVA], 0, 10_000_000),
    ];
    good.extend(factors.iter().map(|factor| within(*factor, -100_000, 100_000)));
    first_bad(&good)
}

// ---------------------------------------------------------------------------
// The line a record has
// ---------------------------------------------------------------------------

const LINE_H: usize = 1;

fn line_z(index: usize) -> usize {
    2 + index
}

fn line_t(header: Header, index: usize) -> usize {
    2 + header.zones + index
}

fn line_b(header: Header, index: usize) -> usize {
    2 + header.zones + allocated(header) + index
}

fn line_c(header: Header, index: usize) -> usize {
    2 + header.zones + allocated(header) + header.borders + index
}

/// How many T lines or records there are: "no T line, or one for each zone".
pub fn allocated(header: Header) -> usize {
    if header.intraday == INTRADAY {
        header.zones
    } else {
        0
    }
}

// ---------------------------------------------------------------------------
// Judging steps shared by reading and by calls on lent tables
// ---------------------------------------------------------------------------

/// "4 compares from, to and hubs"
fn same_border(one: &Border, other: &Border) -> bool {
    [FROM, TO, SENDING, RECEIVING].iter().all(|place| one[*place] == other[*place])
}

/// "4 | same from and to as an earlier border | first such border's index"
fn judge_twice(b: &[Border]) -> Result<(), Refusal> {
    for later in 0..b.len() {
        for earlier in 0..later {
            if same_border(&b[earlier], &b[later]) {
                return refuse(4, later);
            }
        }
    }
    Ok(())
}

/// "8 | a lent buffer is too short | items needed in the first short one", "in
/// the order Z, B, C, factors", and "8 looks at T after Z"
fn judge_lengths(header: Header, lent: [usize; 5]) -> Result<(), Refusal> {
    let needed = [
        header.zones,
        allocated(header),
        header.borders,
        header.rows,
        header.rows * header.zones,
    ];
    for kind in 0..5 {
        if lent[kind] < needed[kind] {
            return refuse(8, needed[kind]);
        }
    }
    Ok(())
}

/// Room for one result: 8 with the items needed.
fn judge_room(room: usize, needed: usize) -> Result<(), Refusal> {
    if room < needed {
        return refuse(8, needed);
    }
    Ok(())
}

// ---------------------------------------------------------------------------
// Reading
// ---------------------------------------------------------------------------

/// Hands out the lines of a text one after another with their numbers.
struct Lines<'a> {
    text: &'a [u8],
    start: usize,
    /// number of the line to come, from 1
    number: usize,
}

impl<'a> Lines<'a> {
    /// The next line, or refusal 2 at its number where it is missing.
    fn next(&mut self) -> Result<(usize, &'a [u8]), Refusal> {
        match line_at(self.text, self.start) {
            None => refuse(2, self.number),
            Some(line) => {
                let number = self.number;
                self.start += line.len();
                self.number += 1;
                Ok((number, line))
            }
        }
    }

    /// Whether the next line has this letter.
    fn begins(&self, letter: u8) -> bool {
        self.text.get(self.start) == Some(&letter)
    }

    /// Whether anything follows.
    fn more(&self) -> bool {
        self.start < self.text.len()
    }

    /// "Nothing follows."  Anything there is an extra line: 2.
    fn end(&self) -> Result<(), Refusal> {
        if self.more() {
            return refuse(2, self.number);
        }
        Ok(())
    }
}

/// "lines are judged one by one, form before range": the values of the line.
/// "Range faults ... name the field's first byte".
fn judged(
    number: usize,
    form: Result<Form, usize>,
    fault: impl Fn(&[i64]) -> Option<usize>,
) -> Result<Vec<i64>, Refusal> {
    match form {
        Err(byte) => Err(Refusal { number: 2, place: number, byte }),
        Ok(form) => match fault(&form.values) {
            Some(place) => Err(Refusal { number: 3, place: number, byte: form.starts[place] }),
            None => Ok(form.values),
        },
    }
}

/// "Order: one H line, then all Z, B, C lines, each kind by index from 0.
/// Nothing follows."  T lines "follow the Z lines".
fn read_lines(text: &[u8]) -> Result<Tables, Refusal> {
    let mut lines = Lines { text, start: 0, number: 1 };

    let (number, line) = lines.next()?;
    let header = header_of(&judged(number, form_h(line), |v| fault_h(&header_of(v)))?);
    let mut tables = Tables {
        header,
        z: Vec::new(),
        t: Vec::new(),
        b: Vec::new(),
        c: Vec::new(),
        f: Vec::new(),
    };
    for index in 0..header.zones {
        let (number, line) = lines.next()?;
        tables.z.extend(judged(number, form_z(line, index), |v| fault_z(v[0]))?);
    }
    // "A text has no T line, or one for each zone, and then it is of this profile."
    if lines.begins(b'T') {
        tables.header.intraday = INTRADAY;
    }
    for index in 0..allocated(tables.header) {
        let (number, line) = lines.next()?;
        let before = tables.t.clone();
        let fault = |v: &[i64]| fault_t(&[&before[..], v].concat(), header.zones);
        tables.t.extend(judged(number, form_t(line, index), fault)?);
    }
    for index in 0..header.borders {
        let (number, line) = lines.next()?;
        let values = judged(number, form_b(line, index), |v| fault_b(&border_of(v), header.zones))?;
        tables.b.push(border_of(&values));
    }
    for index in 0..header.rows {
        let (number, line) = lines.next()?;
        let form = form_c(line, index, header.zones);
        let values = judged(number, form, |v| fault_c(&row_of(v), &v[7..]))?;
        tables.c.push(row_of(&values));
        tables.f.extend(&values[7..]);
    }
    lines.end()?;
    Ok(tables)
}

/// Takes over the rows of a correction sheet: "For each row the line handed on is the
/// piece of the sheet that holds it, or else the piece of the day's text."  "The sheet
/// has C lines with rising indices, nothing else."  "10, a sheet line of wrong form or
/// value, or with an index not above the one before or not in the table, place the
/// sheet line".  "All lines of one sheet are of one kind": C lines, or the planners'
/// semicolon rows.
fn correct(tables: &mut Tables, sheet: &[u8]) -> Result<(), Refusal> {
    let header = tables.header;
    let mut lines = Lines { text: sheet, start: 0, number: 1 };
    let form_of_line = if rows::begins(sheet) { rows::form_correction } else { form_correction };
    // the least index that the next line may have
    let mut from = 0;
    while lines.more() {
        let (number, line) = lines.next()?;
        let refused = |byte| Refusal { number: 10, place: number, byte };
        let (row, form) = form_of_line(line, from, header).map_err(refused)?;
        let (record, factors) = (row_of(&form.values), &form.values[7..]);
        if let Some(place) = fault_c(&record, factors) {
            return Err(refused(form.starts[place]));
        }
        tables.c[row] = record;
        tables.f[row * header.zones..(row + 1) * header.zones].copy_from_slice(factors);
        from = row + 1;
    }
    Ok(())
}

/// "Reading judges 1 to 4 and then 8."  `room` is the number of items in the
/// lent Z, T, B, C and factor buffers.  "An empty sheet changes nothing."
pub fn read(text: &[u8], room: [usize; 5]) -> Result<Tables, Refusal> {
    read_corrected(text, b"", room)
}

/// Reading with a correction sheet: "1 also for a sheet of more than 65,536 bytes",
/// 10 "after 4 of the day's text and before 8".
pub fn read_corrected(text: &[u8], sheet: &[u8], room: [usize; 5]) -> Result<Tables, Refusal> {
    if text.len() > MOST_BYTES || sheet.len() > MOST_BYTES {
        return refuse(1, 0);
    }
    let mut tables = read_lines(text)?;
    judge_twice(&tables.b)?;
    correct(&mut tables, sheet)?;
    judge_lengths(tables.header, room)?;
    Ok(tables)
}

// ---------------------------------------------------------------------------
// Calls on lent tables
// ---------------------------------------------------------------------------

/// "A call on lent tables judges the header (3, line 1), then lengths (8)".  The
/// result is the front part of each lent table, its values not yet judged.
fn front_of(lent: Lent) -> Result<Tables, Refusal> {
    let Lent { header, z, t, b, c, f } = lent;
    if fault_h(&header).is_some() {
        return refuse(3, LINE_H);
    }
    judge_lengths(header, [z.len(), t.len(), b.len(), c.len(), f.len()])?;
    Ok(Tables {
        header,
        z: z[..header.zones].to_vec(),
        t: t[..allocated(header)].to_vec(),
        b: b[..header.borders].to_vec(),
        c: c[..header.rows].to_vec(),
        f: f[..header.rows * header.zones].to_vec(),
    })
}

/// "then 3 and 4 with the line the record would have"
fn judge_values(tables: &Tables) -> Result<(), Refusal> {
    judge_records(tables)?;
    judge_twice(&tables.b)
}

/// What every call on lent tables judges.
pub fn judge(lent: Lent) -> Result<Tables, Refusal> {
    let tables = front_of(lent)?;
    judge_values(&tables)?;
    Ok(tables)
}

/// The records by their line: 3 where one is out of range; no byte, "lent tables,
/// 0".
fn judge_records(tables: &Tables) -> Result<(), Refusal> {
    let header = tables.header;
    for index in 0..header.zones {
        if fault_z(tables.z[index]).is_some() {
            return refuse(3, line_z(index));
        }
    }
    for index in 0..allocated(header) {
        if fault_t(&tables.t[..=index], header.zones).is_some() {
            return refuse(3, line_t(header, index));
        }
    }
    for index in 0..header.borders {
        if fault_b(&tables.b[index], header.zones).is_some() {
            return refuse(3, line_b(header, index));
        }
    }
    for index in 0..header.rows {
        if fault_c(&tables.c[index], factors_of(tables, index)).is_some() {
            return refuse(3, line_c(header, index));
        }
    }
    Ok(())
}

/// "Row i's stretch starts at item i x zones."
fn factors_of(tables: &Tables, row: usize) -> &[i64] {
    let zones = tables.header.zones;
    &tables.f[row * zones..row * zones + zones]
}

// ---------------------------------------------------------------------------
// Writing
// ---------------------------------------------------------------------------

/// One line: the letter, then the fields, parted by tabs, ended by LF.
fn push_line(out: &mut Vec<u8>, letter: &str, fields: &[String]) {
    out.extend_from_slice(letter.as_bytes());
    for field in fields {
        out.push(b'\t');
        out.extend_from_slice(field.as_bytes());
    }
    out.push(b'\n');
}

/// "The table remembers that "-" was written, so writing gives "-" again."
fn r_field(r: i64) -> String {
    if r == R_DASH {
        "-".to_string()
    } else {
        r.to_string()
    }
}

fn table_text(tables: &Tables) -> Vec<u8> {
    let header = tables.header;
    let mut out = Vec::new();
    let mut fields = vec![header.zones.to_string(), header.borders.to_string(), header.rows.to_string()];
    // "a fourth field of 7000 is written again as such"
    if header.share != NO_SHARE {
        fields.push(header.share.to_string());
    }
    push_line(&mut out, "H", &fields);
    for (index, position) in tables.z.iter().enumerate() {
        push_line(&mut out, "Z", &[index.to_string(), position.to_string()]);
    }
    for (index, position) in tables.t.iter().enumerate() {
        push_line(&mut out, "T", &[index.to_string(), position.to_string()]);
    }
    for (index, record) in tables.b.iter().enumerate() {
        let mut fields = vec![index.to_string()];
        let written = if record[SENDING] == NO_HUB { &record[..SENDING] } else { &record[..] };
        fields.extend(written.iter().map(|value| value.to_string()));
        push_line(&mut out, "B", &fields);
    }
    for (index, record) in tables.c.iter().enumerate() {
        let mut fields = vec![index.to_string()];
        for place in 0..7 {
            if place == R {
                fields.push(r_field(record[R]));
            } else {
                fields.push(record[place].to_string());
            }
        }
        for factor in factors_of(tables, index) {
            fields.push(factor.to_string());
        }
        push_line(&mut out, "C", &fields);
    }
    out
}

/// The table as text from lent tables; "for text the items are bytes".
pub fn write(lent: Lent, room: usize) -> Result<Vec<u8>, Refusal> {
    let tables = judge(lent)?;
    let text = table_text(&tables);
    judge_room(room, text.len())?;
    Ok(text)
}

// ---------------------------------------------------------------------------
// Margin of a row
// ---------------------------------------------------------------------------

/// The named values of one row, in grains.
#[derive(Clone, Debug, PartialEq, Eq)]
pub struct Margin {
    pub f0core: i128,
    pub fuaf: i128,
    pub base: i128,
    pub amr: i128,
    pub s: i128,
    pub lta_margin: i128,
    pub ram: i128,
}

fn grains(kw: i64) -> i128 {
    i128::from(kw) * GRAINS_PER_KW
}

/// "from factor less to factor"; with hubs "from - sending hub + receiving hub -
/// to"
fn signed_factor(factors: &[i64], border: &Border) -> i128 {
    let of = |place: usize| i128::from(factors[border[place] as usize]);
    if border[SENDING] == NO_HUB {
        of(FROM) - of(TO)
    } else {
        of(FROM) - of(SENDING) + of(RECEIVING) - of(TO)
    }
}

/// "Border factor p = factor of the from zone less that of the to zone where
/// this is positive, else 0."  With hubs "p is its positive part" too.
pub fn border_factor(factors: &[i64], border: &Border) -> i128 {
    let d = signed_factor(factors, border);
    if d > 0 {
        d
    } else {
        0
    }
}

/// The whole LTA of a border in kW.
fn lta_kw(border: &Border) -> i128 {
    i128::from(border[LTA]) * KW_PER_MW
}

/// "It equals the sum of p times LTA."
pub fn s_by_sum(factors: &[i64], borders: &[Border]) -> i128 {
    let mut sum = 0;
    for border in borders {
        sum += border_factor(factors, border) * lta_kw(border);
    }
    sum
}

/// "A corner uses each border at 0 or at its whole LTA. S is the largest sum of
/// (from factor less to factor) times exchange over all corners."
pub fn s_by_corners(factors: &[i64], borders: &[Border]) -> i128 {
    let mut largest: Option<i128> = None;
    for corner in 0u32..(1u32 << borders.len()) {
        let mut sum = 0;
        for (index, border) in borders.iter().enumerate() {
            let exchange = if corner & (1 << index) != 0 { lta_kw(border) } else { 0 };
            sum += signed_factor(factors, border) * exchange;
        }
        largest = match largest {
            Some(so_far) if so_far >= sum => Some(so_far),
            _ => Some(sum),
        };
    }
    largest.expect("there is at least the corner with every border at 0")
}

fn s_of(factors: &[i64], borders: &[Border]) -> i128 {
    let s = s_by_sum(factors, borders);
    if cfg!(debug_assertions) && borders.len() <= 12 {
        assert_eq!(s, s_by_corners(factors, borders), "S both ways");
    }
    s
}

/// The default in force: what "-" means.
pub fn default_of(header: &Header) -> i64 {
    if header.share == NO_SHARE {
        R_DASH_MEANS
    } else {
        header.share
    }
}

/// R in ten-thousandths.
fn r_of(header: &Header, record: &[i64; 7]) -> i128 {
    if record[R] == R_DASH {
        i128::from(default_of(header))
    } else {
        i128::from(record[R])
    }
}

/// The list under "Margin of a row", in its order.
pub fn margin_of(tables: &Tables, row: usize) -> Margin {
    let record = &tables.c[row];
    let factors = factors_of(tables, row);
    let fmax = grains(record[FMAX]);
    let frm = grains(record[FRM]);
    let fref = grains(record[FREF]);
    let f0all = grains(record[F0ALL]);
    let cva = grains(record[CVA]);
    let iva = grains(record[IVA]);

    // "F0core = Fref less the sum of factor times net position."
    let mut sum = 0;
    for zone in 0..tables.header.zones {
        sum += i128::from(factors[zone]) * i128::from(tables.z[zone]);
    }
    let f0core = fref - sum;
    // "Fuaf = F0core - F0all."
    let fuaf = f0core - f0all;
    // "Base = Fmax - FRM - F0core."
    let base = fmax - frm - f0core;
    // "AMR = the largest of R x Fmax / 10000 - Fuaf - Base, Fmax / 5 - Base, and
    // 0. In grains both products are whole."
    let r = r_of(&tables.header, record);
    assert_eq!(r * fmax % 10_000, 0);
    assert_eq!(fmax % 5, 0);
    let by_r = r * fmax / 10_000 - fuaf - base;
    let by_fifth = fmax / 5 - base;
    let amr = by_r.max(by_fifth).max(0);
    let s = s_of(factors, &tables.b);
    // "LTA margin = the larger of F0core + S + FRM - AMR - Fmax and 0."
    let lta_margin = (f0core + s + frm - amr - fmax).max(0);
    // "RAM = Base + AMR + LTA margin - CVA - IVA. It may be negative."
    let ram = base + amr + lta_margin - cva - iva;

    let margin = Margin { f0core, fuaf, base, amr, s, lta_margin, ram };
    if cfg!(debug_assertions) {
        check_size(&margin);
    }
    margin
}

/// "Each value named in this list stays under 2^48 grains in magnitude"
fn check_size(m: &Margin) {
    for value in [m.f0core, m.fuaf, m.base, m.amr, m.s, m.lta_margin, m.ram] {
        assert!(-(1i128 << 48) < value && value < (1i128 << 48), "2^48");
    }
}

// ---------------------------------------------------------------------------
// Row states
// ---------------------------------------------------------------------------

/// "largest zone factor less smallest"
fn spread(factors: &[i64]) -> i64 {
    let mut largest = factors[0];
    let mut smallest = factors[0];
    for factor in factors {
        if *factor > largest {
            largest = *factor;
        }
        if *factor < smallest {
            smallest = *factor;
        }
    }
    largest - smallest
}

/// "another row's factors differ from this row's by one and the same number in
/// every zone"
fn parallel(one: &[i64], other: &[i64]) -> bool {
    let number = other[0] - one[0];
    for zone in 0..one.len() {
        if other[zone] - one[zone] != number {
            return false;
        }
    }
    true
}

/// The state of each row from the RAM of every row.
fn states_of(tables: &Tables, margins: &[Margin]) -> Vec<u8> {
    let mut states = Vec::new();
    for row in 0..tables.header.rows {
        states.push(state_of(tables, margins, row));
    }
    states
}

fn state_of(tables: &Tables, margins: &[Margin], row: usize) -> u8 {
    let own = factors_of(tables, row);
    // "1: largest zone factor less smallest is under 5000."
    if spread(own) < SPREAD_KEPT {
        return 1;
    }
    // "2: not state 1, and another row's factors differ ... while that row's RAM
    // is lower, or equal with a lower index."
    for other in 0..tables.header.rows {
        if other == row || !parallel(own, factors_of(tables, other)) {
            continue;
        }
        if margins[other].ram < margins[row].ram {
            return 2;
        }
        if margins[other].ram == margins[row].ram && other < row {
            return 2;
        }
    }
    // "0: kept, all others."
    0
}

// ---------------------------------------------------------------------------
// Extraction
// ---------------------------------------------------------------------------

#[derive(Clone, Debug, PartialEq, Eq)]
pub struct RowOut {
    pub state: u8,
    /// RAM in grains
    pub ram: i128,
    /// margin left in grains, None where the state isn't 0
    pub left: Option<i128>,
}

#[derive(Clone, Debug, PartialEq, Eq)]
pub struct Outcome {
    /// ATC of each border in whole MW
    pub atc: Vec<u64>,
    /// "the last round that raised it (0 if none)"
    pub last: Vec<u64>,
    /// the row that stopped it; "An unmarked border has last round 0 and "-" for E7's
    /// stopping row."
    pub stop: Vec<Option<usize>>,
    pub rows: Vec<RowOut>,
    /// rounds counted
    pub rounds: u64,
    /// p of each row and border, row i's from item i x borders on, border after
    /// border; 0 where the row is not kept
    pub p: Vec<u64>,
    /// final exchange of each border in kW
    pub kw: Vec<u64>,
    /// N: the largest n of a kept row
    pub n_most: usize,
    /// L: the least number with each marked border's raise alone under 2^L
    pub l_bits: u32,
    /// the sharp bound of the rounds
    pub sharp: u64,
    /// Divisions done in the rounds, the last round, which raises nothing and
    /// is not counted, included: for each border and each kept row with p > 0
    /// one by n and one by p, so two for each such pair in each round.
    pub divisions: u64,
}

/// "RAM less the sum of factor times T"
pub fn remainder_of(tables: &Tables, row: usize, ram: i128) -> i128 {
    let mut sum = 0;
    for (factor, position) in factors_of(tables, row).iter().zip(&tables.t) {
        sum += i128::from(*factor) * i128::from(*position);
    }
    ram - sum
}

/// "A row's margin starts at RAM - S."  Intraday it is the remainder, "taken as 0
/// where negative".
fn starting_margin(tables: &Tables, row: usize, margin: &Margin) -> i128 {
    if tables.header.intraday == INTRADAY {
        remainder_of(tables, row, margin.ram).max(0)
    } else {
        margin.ram - margin.s
    }
}

/// "Each border starts at its LTA."  Intraday "every border starts at 0 kW".
fn starting_kw(header: &Header, border: &Border) -> i128 {
    if header.intraday == INTRADAY {
        0
    } else {
        lta_kw(border)
    }
}

/// "Keep, per kept row, the factors p of all borders side by side, laid out
/// border after border"; "rows x borders items, zero for rows not kept".
fn p_table(tables: &Tables, states: &[u8]) -> Vec<u64> {
    let mut table = Vec::new();
    for row in 0..tables.header.rows {
        for border in &tables.b {
            let p = if states[row] == 0 { border_factor(factors_of(tables, row), border) } else { 0 };
            table.push(p as u64);
        }
    }
    table
}

/// A kept row as the rounds see it.
struct Kept {
    /// index of the row in the table
    row: usize,
    /// p of each marked border on this row, 0 of the others
    p: Vec<i128>,
    /// "n is the count of borders with p > 0 on that row, and never changes."; "n
    /// counts marked borders alone"
    n: i128,
    margin: i128,
}

/// Whether each border is marked: "A list of marked borders".  "13, no mark, a mark
/// beyond the borders or a mark twice, place the first such position in the list,
/// from 1 (0 for an empty list)".
fn marked_by(marks: &[u64], borders: usize) -> Result<Vec<bool>, Refusal> {
    if marks.is_empty() {
        return refuse(13, 0);
    }
    let mut marked = vec![false; borders];
    for (place, mark) in marks.iter().enumerate() {
        if *mark >= borders as u64 || marks[..place].contains(mark) {
            return refuse(13, place + 1);
        }
        marked[*mark as usize] = true;
    }
    Ok(marked)
}

/// Which borders rise: those of the list, or without a list all of them.
fn rising(marks: Option<&[u64]>, borders: usize) -> Result<Vec<bool>, Refusal> {
    match marks {
        Some(marks) => marked_by(marks, borders),
        None => Ok(vec![true; borders]),
    }
}

/// The rows of state 0, each with its starting margin.  p is read from the table of
/// p only.
fn kept_rows(
    tables: &Tables,
    margins: &[Margin],
    states: &[u8],
    p_table: &[u64],
    marked: &[bool],
) -> Vec<Kept> {
    let borders = tables.header.borders;
    let mut kept = Vec::new();
    for row in 0..tables.header.rows {
        // "Only state 0 rows take part."
        if states[row] != 0 {
            continue;
        }
        let own = &p_table[row * borders..(row + 1) * borders];
        let of_marked = |(p, marked): (&u64, &bool)| if *marked { i128::from(*p) } else { 0 };
        let p: Vec<i128> = own.iter().zip(marked).map(of_marked).collect();
        let n = p.iter().filter(|p| **p > 0).count() as i128;
        let margin = starting_margin(tables, row, &margins[row]);
        kept.push(Kept { row, p, n, margin });
    }
    kept
}

/// "5 | no row of state 0 | 0"
fn judge_any_kept(kept: &[Kept]) -> Result<(), Refusal> {
    if kept.is_empty() {
        return refuse(5, 0);
    }
    Ok(())
}

/// "6 | a border with p > 0 on no kept row | first such border's index"; "6 looks at
/// marked borders only"
fn judge_borders_limited(kept: &[Kept], marked: &[bool]) -> Result<(), Refusal> {
    for border in 0..marked.len() {
        if marked[border] && !kept.iter().any(|row| row.p[border] > 0) {
            return refuse(6, border);
        }
    }
    Ok(())
}

/// "7 | a kept row's starting margin is below 0 | first such row's index";
/// intraday none is
fn judge_starting_margins(kept: &[Kept]) -> Result<(), Refusal> {
    for row in kept {
        if row.margin < 0 {
            return refuse(7, row.row);
        }
    }
    Ok(())
}

/// Division downwards of numbers that are not negative.
fn floor_div(value: i128, by: i128) -> i128 {
    assert!(value >= 0 && by > 0);
    value / by
}

fn smaller(so_far: Option<i128>, value: i128) -> Option<i128> {
    match so_far {
        Some(least) if least <= value => Some(least),
        _ => Some(value),
    }
}

/// "for each border, over the kept rows with p > 0, take the smallest of
/// floor(floor(margin / n) / p), in kW"
fn raise_of(kept: &[Kept], border: usize, divisions: &mut u64) -> i128 {
    let mut least = None;
    for row in kept {
        if row.p[border] > 0 {
            let share = floor_div(row.margin, row.n);
            let raise = floor_div(share, row.p[border]);
            *divisions += 2;
            least = smaller(least, raise);
        }
    }
    least.expect("each marked border has p > 0 on a kept row")
}

/// "the first kept row with p > 0 whose equal share at the end is under one kW for
/// it"
fn stopping_row(kept: &[Kept], border: usize) -> usize {
    let under_one_kw = |row: &&Kept| {
        let p = row.p[border];
        p > 0 && floor_div(floor_div(row.margin, row.n), p) == 0
    };
    kept.iter().find(under_one_kw).expect("such a row always exists").row
}

/// "a border's raise alone is the smallest floor(margin / p) at the start"
fn raise_alone(kept: &[Kept], border: usize) -> i128 {
    let mut least = None;
    for row in kept {
        if row.p[border] > 0 {
            least = smaller(least, floor_div(row.margin, row.p[border]));
        }
    }
    least.expect("each marked border has p > 0 on a kept row")
}

/// "L is the least number with each such raise under 2^L"; "N and L counted over the
/// marked borders"
fn l_of(kept: &[Kept], marked: &[bool]) -> u32 {
    let mut l = 0;
    for border in 0..marked.len() {
        while marked[border] && raise_alone(kept, border) >= 1i128 << l {
            l += 1;
        }
    }
    l
}

/// How often u can lose its N-th part, rounded up, until it is 0.
pub fn steps(n: i128, mut u: i128) -> u64 {
    let mut count = 0;
    while u > 0 {
        u -= floor_div(u + n - 1, n);
        count += 1;
    }
    count
}

/// The smallest over the kept rows with p > 0 of floor(margin / p) less the row's other
/// sharers; 0 where a row's share is under one kW for the border.
fn reach_of(kept: &[Kept], border: usize) -> i128 {
    let mut least = None;
    for row in kept {
        if row.p[border] > 0 {
            let reach = floor_div(row.margin, row.p[border]) - (row.n - 1);
            least = smaller(least, reach.max(0));
        }
    }
    least.expect("each marked border has p > 0 on a kept row")
}

/// The sharp bound of the rounds: `steps` of N and of the largest reach of a border that
/// may rise.
fn sharp_of(kept: &[Kept], marked: &[bool]) -> u64 {
    let mut u = 0;
    for border in 0..marked.len() {
        if marked[border] {
            u = u.max(reach_of(kept, border));
        }
    }
    steps(n_of(kept), u)
}

/// The most borders that one kept row shares among.
fn n_of(kept: &[Kept]) -> i128 {
    kept.iter().map(|row| row.n).max().expect("there is a kept row")
}

/// What the rounds start from.
struct Start {
    /// which borders rise
    marked: Vec<bool>,
    margins: Vec<Margin>,
    states: Vec<u8>,
    p: Vec<u64>,
    kept: Vec<Kept>,
}

/// Where the rounds start, after the tables are judged: 13, "after 4 and 10 and before
/// 5", then 5, 6, 7.
fn start_of(tables: &Tables, marks: Option<&[u64]>) -> Result<Start, Refusal> {
    let borders = tables.header.borders;
    let marked = rising(marks, borders)?;
    let margins: Vec<Margin> = (0..tables.header.rows).map(|row| margin_of(tables, row)).collect();
    let states = states_of(tables, &margins);
    let p = p_table(tables, &states);
    let kept = kept_rows(tables, &margins, &states, &p, &marked);
    judge_any_kept(&kept)?;
    judge_borders_limited(&kept, &marked)?;
    judge_starting_margins(&kept)?;
    Ok(Start { marked, margins, states, p, kept })
}

/// The extraction after the tables are judged.
fn work(tables: &Tables, marks: Option<&[u64]>) -> Result<Outcome, Refusal> {
    let borders = tables.header.borders;
    let Start { marked, margins, states, p, mut kept } = start_of(tables, marks)?;
    let n_most = n_of(&kept);
    let l_bits = l_of(&kept, &marked);
    let sharp = sharp_of(&kept, &marked);

    let mut kw: Vec<i128> = tables.b.iter().map(|border| starting_kw(&tables.header, border)).collect();
    let mut rounds: u64 = 0;
    let mut last: Vec<u64> = vec![0; borders];
    let mut divisions: u64 = 0;
    loop {
        // "All raises are found from the margins at the start of the round."  "only
        // they rise", the marked ones
        let mut raise = |border| if marked[border] { raise_of(&kept, border, &mut divisions) } else { 0 };
        let raises: Vec<i128> = (0..borders).map(&mut raise).collect();
        // "A round that raises nothing ends the work and is not counted."
        if raises.iter().all(|raise| *raise == 0) {
            break;
        }
        // "Then every border rises, and every row loses the sum of p times raise."
        for border in 0..borders {
            kw[border] += raises[border];
            if raises[border] > 0 {
                last[border] = rounds + 1;
            }
        }
        for row in kept.iter_mut() {
            let mut loss = 0;
            for border in 0..borders {
                loss += row.p[border] * raises[border];
            }
            row.margin -= loss;
        }
        rounds += 1;
    }

    let stop = (0..borders).map(|border| marked[border].then(|| stopping_row(&kept, border))).collect();
    let rows = row_outcomes(&margins, &states, &kept);
    let outcome = Outcome {
        // "ATC = kW value floored to whole MW, once, at the end."
        atc: kw.iter().map(|kw| floor_div(*kw, KW_PER_MW) as u64).collect(),
        last,
        stop,
        rows,
        rounds,
        p,
        kw: kw.iter().map(|kw| *kw as u64).collect(),
        n_most: n_most as usize,
        l_bits,
        sharp,
        divisions,
    };
    if cfg!(debug_assertions) {
        check_outcome(tables, &marked, &kept, &outcome);
    }
    Ok(outcome)
}

fn row_outcomes(margins: &[Margin], states: &[u8], kept: &[Kept]) -> Vec<RowOut> {
    let mut rows = Vec::new();
    for row in 0..margins.len() {
        let left = kept.iter().find(|kept| kept.row == row).map(|kept| kept.margin);
        rows.push(RowOut { state: states[row], ram: margins[row].ram, left });
    }
    rows
}

/// What the rules promise of a result.
fn check_outcome(tables: &Tables, marked: &[bool], kept: &[Kept], outcome: &Outcome) {
    let intraday = tables.header.intraday == INTRADAY;
    // "rounds are at most 2 x N x L, so at most" the largest round number
    let bound = 2 * outcome.n_most as u64 * u64::from(outcome.l_bits);
    assert!(outcome.rounds <= outcome.sharp && outcome.sharp <= bound);
    assert!(outcome.rounds <= if intraday { MOST_ROUNDS_INTRADAY } else { MOST_ROUNDS });
    for row in kept {
        // the largest load of the row: each relieving border at 0
        let mut load = 0;
        for (border, kw) in tables.b.iter().zip(&outcome.kw) {
            load += border_factor(factors_of(tables, row.row), border) * i128::from(*kw);
        }
        let ram = outcome.rows[row.row].ram;
        let whole = if intraday { remainder_of(tables, row.row, ram).max(0) } else { ram };
        // "starting margins stay under 2^49 grains"
        assert!(row.margin >= 0 && whole < 1 << 49);
        assert_eq!(whole - load, row.margin);
    }
    for border in 0..tables.header.borders {
        let risen = i128::from(outcome.kw[border]) - starting_kw(&tables.header, &tables.b[border]);
        assert!(risen >= 0);
        // "the others stay where they start"
        assert!(marked[border] || risen == 0);
        assert_eq!(outcome.last[border] > 0, risen > 0);
        assert_eq!(outcome.atc[border], outcome.kw[border] / 1_000);
    }
    // a counted round raises something
    assert_eq!(outcome.last.iter().max(), Some(&outcome.rounds));
}

/// The tables judged, then 5, 6 and 7; "last comes room for results (8)",
/// "border results before row results".  The table of p is "lent, rows x borders
/// items"; "8 looks at it after factors", so before the records.
pub fn extract(lent: Lent, room_p: usize, room_borders: usize, room_rows: usize) -> Result<Outcome, Refusal> {
    extract_by(lent, None, room_p, room_borders, room_rows)
}

/// The extraction where only the marked borders rise.
pub fn extract_marked(
    lent: Lent,
    marks: &[u64],
    room_p: usize,
    room_borders: usize,
    room_rows: usize,
) -> Result<Outcome, Refusal> {
    extract_by(lent, Some(marks), room_p, room_borders, room_rows)
}

fn extract_by(
    lent: Lent,
    marks: Option<&[u64]>,
    room_p: usize,
    room_borders: usize,
    room_rows: usize,
) -> Result<Outcome, Refusal> {
    let header = lent.header;
    let tables = front_of(lent)?;
    judge_room(room_p, header.rows * header.borders)?;
    judge_values(&tables)?;
    let outcome = work(&tables, marks)?;
    judge_room(room_borders, header.borders)?;
    judge_room(room_rows, header.rows)?;
    Ok(outcome)
}

// ---------------------------------------------------------------------------
// Result text
// ---------------------------------------------------------------------------

/// "`A`, border index, ATC in MW, for each border. `M`, row index, state, RAM in
/// grains, margin left in grains or "-" where the state isn't 0, for each row.
/// `R`, rounds."  Last round and stopping row stand "after the ATC"; "-" where the
/// border is not marked.
fn outcome_text(outcome: &Outcome) -> Vec<u8> {
    let mut out = Vec::new();
    for (index, atc) in outcome.atc.iter().enumerate() {
        let last = outcome.last[index].to_string();
        let stop = match outcome.stop[index] {
            Some(row) => row.to_string(),
            None => "-".to_string(),
        };
        push_line(&mut out, "A", &[index.to_string(), atc.to_string(), last, stop]);
    }
    for (index, row) in outcome.rows.iter().enumerate() {
        let left = match row.left {
            Some(margin) => margin.to_string(),
            None => "-".to_string(),
        };
        push_line(
            &mut out,
            "M",
            &[index.to_string(), row.state.to_string(), row.ram.to_string(), left],
        );
    }
    push_line(&mut out, "R", &[outcome.rounds.to_string()]);
    out
}

/// "result text is made from the tables"; its room is in bytes.
pub fn result_text(lent: Lent, room: usize) -> Result<Vec<u8>, Refusal> {
    result_text_by(lent, None, room)
}

/// The result text where only the marked borders rise.
pub fn result_text_marked(lent: Lent, marks: &[u64], room: usize) -> Result<Vec<u8>, Refusal> {
    result_text_by(lent, Some(marks), room)
}

fn result_text_by(lent: Lent, marks: Option<&[u64]>, room: usize) -> Result<Vec<u8>, Refusal> {
    let tables = judge(lent)?;
    let outcome = work(&tables, marks)?;
    let text = outcome_text(&outcome);
    judge_room(room, text.len())?;
    Ok(text)
}

/// "one line `E`, number, place"; "the `E` line gains a third field: that byte"
pub fn refusal_text(refusal: Refusal) -> Vec<u8> {
    let mut out = Vec::new();
    let Refusal { number, place, byte } = refusal;
    push_line(&mut out, "E", &[number.to_string(), place.to_string(), byte.to_string()]);
    out
}

pub const ALL_ROOM: [usize; 5] = [usize::MAX; 5];

/// "The program reads the table on standard input and writes this, or one line
/// `E`".
pub fn answer(text: &[u8]) -> Vec<u8> {
    answer_by(text, b"", None)
}

/// The answer where only the marked borders rise.
pub fn answer_marked(text: &[u8], marks: &[u64]) -> Vec<u8> {
    answer_by(text, b"", Some(marks))
}

/// The answer of the merged table: "Demands 2 and 3 then read of the merged table."
pub fn answer_corrected(text: &[u8], sheet: &[u8]) -> Vec<u8> {
    answer_by(text, sheet, None)
}

pub fn answer_by(text: &[u8], sheet: &[u8], marks: Option<&[u64]>) -> Vec<u8> {
    let tables = read_corrected(text, sheet, ALL_ROOM);
    or_e_line(tables.and_then(|tables| result_text_by(tables.lend(), marks, usize::MAX)))
}

/// The merged table's text; the room is in bytes.
pub fn rewrite_corrected(text: &[u8], sheet: &[u8], room: usize) -> Result<Vec<u8>, Refusal> {
    let tables = read_corrected(text, sheet, ALL_ROOM)?;
    write(tables.lend(), room)
}

/// The table read and written again, or the E line.
pub fn rewrite(text: &[u8]) -> Vec<u8> {
    rewrite_by(text, b"")
}

pub fn rewrite_by(text: &[u8], sheet: &[u8]) -> Vec<u8> {
    or_e_line(rewrite_corrected(text, sheet, usize::MAX))
}

fn or_e_line(result: Result<Vec<u8>, Refusal>) -> Vec<u8> {
    match result {
        Ok(text) => text,
        Err(refusal) => refusal_text(refusal),
    }
}

// ---------------------------------------------------------------------------
// The hour's own bound
// ---------------------------------------------------------------------------

/// "rounds are at most 2 x N x L", and at most the sharp bound
#[derive(Clone, Copy, Debug, PartialEq, Eq)]
pub struct Bound {
    /// N
    pub sharers: u64,
    /// L
    pub bits: u64,
    /// 2 x N x L
    pub rounds: u64,
    /// the sharp bound
    pub sharp: u64,
}

/// The bound of a table, without its rounds; what the extraction refuses has none.
pub fn bound(lent: Lent) -> Result<Bound, Refusal> {
    bound_by(lent, None)
}

/// The bound where only the marked borders rise: "N and L counted over the marked
/// borders", and so is the sharp bound.
pub fn bound_marked(lent: Lent, marks: &[u64]) -> Result<Bound, Refusal> {
    bound_by(lent, Some(marks))
}

fn bound_by(lent: Lent, marks: Option<&[u64]>) -> Result<Bound, Refusal> {
    let tables = judge(lent)?;
    let start = start_of(&tables, marks)?;
    let sharers = n_of(&start.kept) as u64;
    let bits = u64::from(l_of(&start.kept, &start.marked));
    let sharp = sharp_of(&start.kept, &start.marked);
    Ok(Bound { sharers, bits, rounds: 2 * sharers * bits, sharp })
}

/// One line `U`, N, L, 2 N L, the sharp bound, or the E line.
pub fn bound_text(text: &[u8], sheet: &[u8], marks: Option<&[u64]>) -> Vec<u8> {
    let tables = read_corrected(text, sheet, ALL_ROOM);
    or_e_line(tables.and_then(|tables| bound_by(tables.lend(), marks)).map(|bound| {
        let mut out = Vec::new();
        let Bound { sharers, bits, rounds, sharp } = bound;
        push_line(&mut out, "U", &[sharers, bits, rounds, sharp].map(|number| number.to_string()));
        out
    }))
}

// ---------------------------------------------------------------------------
// What a margin is made of
// ---------------------------------------------------------------------------

/// State, n, F0core, Fuaf, Base, AMR, S, LTA margin, CVA, IVA, RAM, starting margin.
pub type Parts = [i64; 12];

/// The named values of a row, whatever its state, over all borders.
fn parts_of(tables: &Tables, margins: &[Margin], row: usize) -> Parts {
    let m = &margins[row];
    let loads = |border: &&Border| border_factor(factors_of(tables, row), border) > 0;
    let n = tables.b.iter().filter(loads).count() as i128;
    let state = i128::from(state_of(tables, margins, row));
    let [cva, iva] = [CVA, IVA].map(|place| grains(tables.c[row][place]));
    let start = starting_margin(tables, row, m);
    [state, n, m.f0core, m.fuaf, m.base, m.amr, m.s, m.lta_margin, cva, iva, m.ram, start].map(|value| value as i64)
}

/// One record for each row.  5, 6 and 7 are the extraction's; last comes the room, in
/// records.
pub fn margins(lent: Lent, room: usize) -> Result<Vec<Parts>, Refusal> {
    let tables = judge(lent)?;
    let rows = 0..tables.header.rows;
    judge_room(room, rows.len())?;
    let margins: Vec<Margin> = rows.clone().map(|row| margin_of(&tables, row)).collect();
    Ok(rows.map(|row| parts_of(&tables, &margins, row)).collect())
}

/// A line `V`, index and the twelve numbers for each row, or the E line.
pub fn margins_text(text: &[u8], sheet: &[u8]) -> Vec<u8> {
    let tables = read_corrected(text, sheet, ALL_ROOM);
    or_e_line(tables.and_then(|tables| margins(tables.lend(), usize::MAX)).map(|all| {
        let mut out = Vec::new();
        for (index, parts) in all.iter().enumerate() {
            let mut fields = vec![index.to_string()];
            fields.extend(parts.map(|number| number.to_string()));
            push_line(&mut out, "V", &fields);
        }
        out
    }))
}

// ---------------------------------------------------------------------------
// Corner sheet
// ---------------------------------------------------------------------------

/// "For a table with at most 12 borders"
pub const MOST_CORNER_BORDERS: usize = 12;

/// "9, more than 12 borders, place the border count, or else no such row, place
/// its index"
fn judge_sheet(header: Header, row: usize) -> Result<(), Refusal> {
    if header.borders > MOST_CORNER_BORDERS {
        return refuse(9, header.borders);
    }
    if row >= header.rows {
        return refuse(9, row);
    }
    Ok(())
}

/// "border b is used when bit b of the corner's number is set"
fn uses(corner: usize, border: usize) -> bool {
    corner >> border & 1 == 1
}

/// "signed flow as summed for S, in grains": each used border at its whole LTA,
/// the others at 0.
fn corner_flow(factors: &[i64], borders: &[Border], corner: usize) -> i128 {
    let mut sum = 0;
    for (index, border) in borders.iter().enumerate() {
        if uses(corner, index) {
            sum += signed_factor(factors, border) * lta_kw(border);
        }
    }
    sum
}

/// "every corner, each once", "numbers rising from 0"
fn flows_of(tables: &Tables, row: usize) -> Vec<i128> {
    let corners = 1 << tables.header.borders;
    (0..corners).map(|corner| corner_flow(factors_of(tables, row), &tables.b, corner)).collect()
}

/// "A line is `K`, row, corner number, signed flow"
fn sheet_text(tables: &Tables, row: usize) -> Vec<u8> {
    let mut out = Vec::new();
    for (corner, flow) in flows_of(tables, row).iter().enumerate() {
        push_line(&mut out, "K", &[row.to_string(), corner.to_string(), flow.to_string()]);
    }
    out
}

/// One row's flows.  The tables judged, then 9, "after 4 and before the room for
/// results"; the room is in numbers.  5, 6 and 7 are the extraction's.
pub fn corner_flows(lent: Lent, row: usize, room: usize) -> Result<Vec<i128>, Refusal> {
    let tables = judge(lent)?;
    judge_sheet(tables.header, row)?;
    let flows = flows_of(&tables, row);
    judge_room(room, flows.len())?;
    Ok(flows)
}

/// One row's sheet as text; the room is in bytes.
pub fn corner_text(lent: Lent, row: usize, room: usize) -> Result<Vec<u8>, Refusal> {
    let tables = judge(lent)?;
    judge_sheet(tables.header, row)?;
    let text = sheet_text(&tables, row);
    judge_room(room, text.len())?;
    Ok(text)
}

/// The sheet of one row of a text, or of all rows, row 0 first; or the E line.
pub fn corners(text: &[u8], only: Option<usize>) -> Vec<u8> {
    corners_by(text, b"", only)
}

pub fn corners_by(text: &[u8], sheet: &[u8], only: Option<usize>) -> Vec<u8> {
    let tables = match read_corrected(text, sheet, ALL_ROOM) {
        Ok(tables) => tables,
        Err(refusal) => return refusal_text(refusal),
    };
    let rows = match only {
        Some(row) => vec![row],
        None => (0..tables.header.rows).collect(),
    };
    let mut sheets = Vec::new();
    for row in rows {
        if let Err(refusal) = judge_sheet(tables.header, row) {
            return refusal_text(refusal);
        }
        sheets.extend(sheet_text(&tables, row));
    }
    sheets
}
