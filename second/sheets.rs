//! Correction sheets: the day's own lines, other rows, every damage of a sheet, and
//! each way to have a line of it wrong.

use crate::dice::Dice;
use crate::lent::{needed, short, with_extra, Counts, Lent};
use crate::second::{self, Refusal, Tables, MOST_BYTES, NO_BYTE, R_DASH};
use crate::{damage, e_number, make, Comparison};

pub const ALL_ROOM: Counts = [usize::MAX; 5];

impl Comparison {
    // ---------------------------------------------------------- the calls

    pub fn read_corrected(&mut self, d: &mut Dice, text: &[u8], sheet: &[u8], room: Counts) -> Result<Tables, Refusal> {
        self.read_by(d, text, Some(sheet), room)
    }

    /// `answer` is the reference's answer to both texts.
    fn answer_corrected(&mut self, d: &mut Dice, text: &[u8], sheet: &[u8], answer: &[u8], room: usize) {
        let call = "keravnoth_answer_corrected";
        let mut lent_text = Lent::holding(d, text, text.len());
        let mut lent_sheet = Lent::holding(d, sheet, sheet.len());
        let mut out = Lent::room(d, room);
        let found = self.bridge.answer_corrected(&mut lent_text.whole, &mut lent_sheet.whole, &mut out.whole);
        let shown = || with_sheet(text, Some(sheet));
        let found = self.said(call, found, &shown);
        let fault = lent_text.fault("text", &[]).or_else(|| lent_sheet.fault("sheet", &[]));
        self.answer_call(call, found, &out, answer, fault, &shown);
    }

    fn rewrite_corrected(&mut self, d: &mut Dice, text: &[u8], sheet: &[u8], room: usize) -> Result<Vec<u8>, Refusal> {
        let reference = second::rewrite_corrected(text, sheet, room);
        let call = "keravnoth_rewrite_corrected";
        let mut lent_text = Lent::holding(d, text, text.len());
        let mut lent_sheet = Lent::holding(d, sheet, sheet.len());
        let mut out = Lent::room(d, room);
        let found = self.bridge.rewrite_corrected(&mut lent_text.whole, &mut lent_sheet.whole, &mut out.whole);
        let shown = || with_sheet(text, Some(sheet));
        let found = self.said(call, found, &shown);
        let fault = lent_text.fault("text", &[]).or_else(|| lent_sheet.fault("sheet", &[]));
        self.text_call(call, found, &out, &reference, fault, &shown);
        reference
    }

    /// The three calls, with room enough.
    pub fn by_sheet(&mut self, d: &mut Dice, text: &[u8], sheet: &[u8]) -> Merged {
        let whole = second::read_corrected(text, sheet, ALL_ROOM);
        let room = match &whole {
            Ok(merged) => with_extra(d, needed(merged.header)),
            Err(_) => [d.below(9); 5],
        };
        let tables = self.read_corrected(d, text, sheet, room);
        let answer = second::answer_corrected(text, sheet);
        let room = answer.len() + d.below(4);
        self.answer_corrected(d, text, sheet, &answer, room);
        let room = second::rewrite_corrected(text, sheet, usize::MAX).map_or(9, |text| text.len());
        let more = d.below(4);
        let written = self.rewrite_corrected(d, text, sheet, room + more);
        Merged { tables, answer, written }
    }

    // -------------------------------------------------------- good sheets

    /// A sheet that changes nothing, one that changes some rows, the latter also with
    /// short room and damaged.  `answer` is that of the table.
    pub fn corrected(&mut self, d: &mut Dice, t: &Tables, answer: &[u8]) {
        let text = damage::plain_text(t);
        // only a border given twice is refused
        let twice = second::read(&text, ALL_ROOM).is_err();

        let rows = some_rows(d, t.header.rows);
        let (name, rows) = match d.below(3) {
            0 => ("none", vec![]),
            1 => ("all own lines", (0..t.header.rows).collect()),
            _ => ("some own lines", rows),
        };
        let found = self.by_sheet(d, &text, &sheet_of(t, &rows));
        self.is_merged(name, t, &text, &found, t, answer);
        if !twice {
            self.see(&format!("sheet, {name}"));
        }

        let (merged, rows) = other_rows(d, t);
        let sheet = sheet_of(&merged, &rows);
        let merged_text = damage::plain_text(&merged);
        let merged_answer = second::answer(&merged_text);
        let found = self.by_sheet(d, &text, &sheet);
        self.is_merged("other rows", t, &text, &found, &merged, &merged_answer);
        if !twice {
            self.see_merged(t, &merged, &rows, answer, &merged_answer);
            // the merged table's text reads back
            let room = needed(merged.header);
            if self.read(d, &merged_text, room).as_ref() != Ok(&merged) {
                self.fail("keravnoth_read", "the merged table does not read back", &merged_text);
            }
        }
        self.short_sheet(d, &text, &sheet, &merged_answer);

        let mut bad = sheet;
        damage::damage(d, &mut bad, t.header.zones);
        let found = self.by_sheet(d, &text, &bad);
        self.see_sheet_byte(&bad, found.tables.err());
    }

    /// By the rules: the merged table, its answer and its text; or, where the day's
    /// text has a border twice, 4.
    pub fn is_merged(&mut self, name: &str, t: &Tables, text: &[u8], found: &Merged, merged: &Tables, answer: &[u8]) {
        let good = match second::read(text, ALL_ROOM) {
            Ok(_) => {
                found.tables.as_ref() == Ok(merged)
                    && found.answer == answer
                    && found.written == Ok(damage::plain_text(merged))
            }
            Err(refusal) => {
                refusal.number == 4
                    && found.tables == Err(refusal)
                    && found.answer == second::refusal_text(refusal)
                    && found.written == Err(refusal)
            }
        };
        if !good {
            let details = format!("a sheet, {name}: not the merged table, but {:?}", found.tables);
            self.fail("keravnoth_read_corrected", &details, &damage::plain_text(t));
        }
    }

    fn see_merged(&mut self, t: &Tables, merged: &Tables, rows: &[usize], before: &[u8], after: &[u8]) {
        self.see(match rows.len() {
            1 => "sheet, one row",
            some if some == t.header.rows => "sheet, every row",
            _ => "sheet, some rows",
        });
        if rows.len() == second::MOST_ROWS {
            self.see("sheet, 200 rows");
        }
        if rows[0] > 0 {
            self.see("sheet, not the first row");
        }
        if rows.windows(2).any(|pair| pair[0] + 1 < pair[1]) {
            self.see("sheet, a gap");
        }
        let dash = |row: &&usize| merged.c[**row][4] == R_DASH;
        if rows.iter().any(|row| dash(&row)) {
            self.see("sheet, R \"-\"");
        }
        if t.header.share != second::NO_SHARE && rows.iter().any(|row| dash(&row)) {
            self.see("sheet, R \"-\" with a default");
        }
        let [before, after] = [before, after].map(|answer| e_number(answer).unwrap_or(0));
        if before != after {
            self.see(&format!("sheet, {before} to {after}"));
            if after > 0 {
                self.see(&format!("sheet causes {after}"));
            }
            if before > 0 {
                self.see(&format!("sheet cures {before}"));
            }
        }
    }

    /// Room that is too short, for the tables and for text.
    pub fn short_sheet(&mut self, d: &mut Dice, text: &[u8], sheet: &[u8], answer: &[u8]) {
        if let Ok(merged) = second::read_corrected(text, sheet, ALL_ROOM) {
            let mut room = needed(merged.header);
            let kind = d.below(room.len());
            room[kind] = short(d, room[kind]);
            let _ = self.read_corrected(d, text, sheet, room);
        }
        let room = second::rewrite_corrected(text, sheet, usize::MAX).map_or(9, |text| text.len());
        let room = short(d, room);
        let _ = self.rewrite_corrected(d, text, sheet, room);
        let answer = if second::read(text, ALL_ROOM).is_ok() { answer.to_vec() } else { second::answer(text) };
        let room = short(d, answer.len());
        self.answer_corrected(d, text, sheet, &answer, room);
    }

    // --------------------------------------------------------- bad sheets

    /// A bad sheet, each way in turn: alone, and with each fault that comes before or
    /// after it.
    pub fn bad_sheets(&mut self, number: u64) {
        self.kind = "table with a bad sheet";
        self.number = number;
        let mut dice = Dice::for_case(self.seed, 10, number);
        let d = &mut dice;
        let mut t = make::of_borders(d, 2);
        while t.header.rows < 3 {
            t = make::of_borders(d, 2);
        }
        let text = damage::plain_text(&t);
        let bad = bad_sheet(d, &t, number % BAD_SHEETS);
        let wanted = Refusal { number: 10, place: bad.place, byte: bad.byte };
        let found = self.by_sheet(d, &text, &bad.sheet);
        let said = second::refusal_text(wanted);
        if found.tables != Err(wanted) || found.answer != said || found.written != Err(wanted) {
            let details = format!("sheet, {}: {:?}, by the rules {wanted:?}", bad.name, found.tables);
            self.fail("keravnoth_read_corrected", &details, &with_sheet(&text, Some(&bad.sheet)));
        }
        self.see(&format!("bad sheet, {}", bad.name));
        self.see_sheet_byte(&bad.sheet, Some(wanted));
        if let Some(number) = e_number(&second::answer(&text)) {
            self.see(&format!("10 before {number}"));
        }
        // whatever the room
        let room = needed(t.header).map(|items| short(d, items));
        if self.read_corrected(d, &text, &bad.sheet, room) != Err(wanted) {
            self.fail("keravnoth_read_corrected", "10 does not come before 8", &with_sheet(&text, Some(&bad.sheet)));
        }
        let _ = self.rewrite_corrected(d, &text, &bad.sheet, 0);

        // what comes before a bad sheet
        let (name, text, wanted) = bad_day(&t, number / BAD_SHEETS);
        let found = self.by_sheet(d, &text, &bad.sheet);
        if found.tables != Err(wanted) {
            let details = format!("{name}: {:?}, by the rules {wanted:?}", found.tables);
            self.fail("keravnoth_read_corrected", &details, &with_sheet(&text, Some(&bad.sheet)));
        }
        self.see(&format!("{name} before 10"));
        // a sheet that is too long comes before all of these
        let mut long = bad.sheet;
        let length = MOST_BYTES + d.of(&[1, 1, 2, 500]);
        long.resize(length, d.of(b"\nC0\t"));
        let found = self.by_sheet(d, &text, &long);
        let wanted = Refusal { number: 1, place: 0, byte: NO_BYTE };
        if found.tables != Err(wanted) {
            let details = format!("a sheet of {length} bytes: {:?}", found.tables);
            self.fail("keravnoth_read_corrected", &details, &text);
        }
        self.see(&format!("a long sheet before {name}"));

        // one byte less is looked at
        if d.one_in(4) {
            let mut most = sheet_of(&t, &(0..t.header.rows).collect::<Vec<usize>>());
            most.resize(MOST_BYTES, b'\n');
            let text = damage::plain_text(&t);
            let wanted = Refusal { number: 10, place: t.header.rows + 1, byte: NO_BYTE };
            if self.by_sheet(d, &text, &most).tables != Err(wanted) {
                self.fail("keravnoth_read_corrected", "a sheet of 65,536 bytes", &text);
            }
            self.see("sheet of 65,536 bytes");
        }
    }

    /// A day's text that is bad somewhere, with a sheet that is bad or not.
    pub fn corrected_text(&mut self, d: &mut Dice, text: &[u8], t: &Tables) {
        let (merged, rows) = other_rows(d, t);
        let mut sheet = sheet_of(&merged, &rows);
        if d.one_in(2) {
            damage::damage(d, &mut sheet, t.header.zones);
        }
        let found = self.by_sheet(d, text, &sheet);
        if let Err(refusal) = found.tables {
            self.see(&format!("damaged text and sheet, {}", refusal.number));
        }
    }

    /// A small sheet damaged at one place, in every way: reading of each, and for most
    /// the answer and the merged text too.
    pub fn each_sheet_damage(&mut self, number: usize) {
        self.kind = "place of a small sheet";
        self.number = number as u64;
        let mut dice = Dice::for_case(self.seed, 11, number as u64);
        let d = &mut dice;
        let day = damage::day_text();
        let damaged = damage::each_sheet_damage(&self.sheet_places[number]);
        for (sheet, whole) in damaged {
            let reading = if whole {
                self.by_sheet(d, &day, &sheet).tables
            } else {
                self.read_corrected(d, &day, &sheet, [10; 5])
            };
            self.see_sheet_byte(&sheet, reading.err());
        }
    }

    /// Whether a byte of the sheet was named; it lies in that line.
    fn see_sheet_byte(&mut self, sheet: &[u8], refusal: Option<Refusal>) {
        let Some(Refusal { number: 10, place, byte }) = refusal else { return };
        let line = sheet.split_inclusive(|byte| *byte == b'\n').nth(place - 1).unwrap_or(b"");
        if byte > line.len() {
            self.fail("keravnoth_read_corrected", &format!("byte {byte} of a line of {}", line.len()), sheet);
        }
        self.see(match byte {
            NO_BYTE => "10 without a byte",
            3 => "10 at the index",
            _ => match line[byte - 1] {
                b'\t' => "10 at a tab",
                b'\n' => "10 at an LF",
                _ => "10 at a byte",
            },
        });
    }
}

/// What the three calls gave.
pub struct Merged {
    pub tables: Result<Tables, Refusal>,
    answer: Vec<u8>,
    written: Result<Vec<u8>, Refusal>,
}

/// What is shown of two texts.
pub fn with_sheet(text: &[u8], sheet: Option<&[u8]>) -> Vec<u8> {
    match sheet {
        Some(sheet) => [text, b"(correction sheet)\n", sheet].concat(),
        None => text.to_vec(),
    }
}

/// Some rows, one at least, rising.
pub fn some_rows(d: &mut Dice, rows: usize) -> Vec<usize> {
    let one = d.below(rows);
    let part = d.of(&[1, 2, 3, rows + 1]);
    (0..rows).filter(|row| *row == one || d.one_in(part)).collect()
}

/// The C lines of these rows.
pub fn sheet_of(t: &Tables, rows: &[usize]) -> Vec<u8> {
    let lines = damage::lines_of(&damage::plain_text(t));
    let first = lines.len() - t.header.rows;
    rows.iter().flat_map(|row| lines[first + row].clone()).collect()
}

/// The table with other rows in some places, and which those are.
pub fn other_rows(d: &mut Dice, t: &Tables) -> (Tables, Vec<usize>) {
    let zones = t.header.zones;
    let mut merged = t.clone();
    let kind = d.below(8);
    // all rows without CVA and IVA have no margin below 0
    let rows = if kind == 0 { (0..t.header.rows).collect() } else { some_rows(d, t.header.rows) };
    for row in &rows {
        let own = &mut merged.f[row * zones..(row + 1) * zones];
        match kind {
            0 | 1 => merged.c[*row][5..].copy_from_slice(&[0, 0]),
            2 => merged.c[*row][5 + d.below(2)] = 10_000_000,
            3 => own.fill(d.within(-100_000, 100_000)),
            4 => merged.c[*row][4] = if merged.c[*row][4] == R_DASH { d.within(0, 10_000) } else { R_DASH },
            5 => {
                // the factors turned round
                for factor in own {
                    *factor = -*factor;
                }
            }
            _ => {
                let (record, factors) = make::row(d, zones);
                merged.c[*row] = record;
                own.copy_from_slice(&factors);
            }
        }
    }
    (merged, rows)
}

/// A day's text that is refused, in turn: its name and refusal.
pub fn bad_day(t: &Tables, way: u64) -> (&'static str, Vec<u8>, Refusal) {
    let refused = |number, place, byte| Refusal { number, place, byte };
    let text = damage::plain_text(t);
    let mut lines = damage::lines_of(&text);
    let last = lines.len();
    match way % 5 {
        0 => ("a long text", vec![b'\n'; MOST_BYTES + 1], refused(1, 0, NO_BYTE)),
        1 => ("2", text[..text.len() - 1].to_vec(), refused(2, last, NO_BYTE)),
        2 => {
            let mut fields = damage::fields_of(&lines[last - 1]);
            fields[2] = b"0".to_vec();
            lines[last - 1] = damage::line_from(&fields);
            let index = fields[1].len();
            ("3", lines.concat(), refused(3, last, 4 + index))
        }
        3 => {
            let mut twice = t.clone();
            twice.b[1] = twice.b[0];
            ("4", damage::plain_text(&twice), refused(4, 1, NO_BYTE))
        }
        _ => ("an empty text", vec![], refused(2, 1, NO_BYTE)),
    }
}

/// A sheet with a faulty line: its name, that line, from 1, and the byte to blame.
pub struct BadSheet {
    pub name: &'static str,
    pub sheet: Vec<u8>,
    pub place: usize,
    pub byte: usize,
}

/// How many ways there are to have one.
pub const BAD_SHEETS: u64 = 30;

/// For a table of three rows or more.
pub fn bad_sheet(d: &mut Dice, t: &Tables, way: u64) -> BadSheet {
    let rows = t.header.rows;
    let own: Vec<Vec<u8>> = (0..rows).map(|row| sheet_of(t, &[row])).collect();
    // good lines of the rows before this one, so it is the line number less 1 too
    let row = if way == 1 { rows - 1 } else { 1 + d.below(rows - 1) };
    let mut fields = damage::fields_of(&own[row]);
    let starts: Vec<usize> = (0..fields.len()).map(|at| 1 + fields[..at].iter().map(|f| f.len() + 1).sum::<usize>()).collect();
    let last = fields.len() - 1;
    let over = |field: &[u8]| (String::from_utf8_lossy(field).parse::<i64>().unwrap() + 1).to_string().into_bytes();
    let (above, below) = (rows.to_string().into_bytes(), (row as u64 + (1 << 32)).to_string().into_bytes());
    // the whole line instead of its fields, and whether the sheet ends there
    let mut line: Option<Vec<u8>> = None;
    let mut end = false;
    let mut put = |at: usize, field: &[u8]| fields[at] = field.to_vec();
    let (name, byte) = match way {
        0 => {
            put(1, (row - 1).to_string().as_bytes());
            ("the index of the line before", 3)
        }
        1 => {
            put(1, (row - 2).to_string().as_bytes());
            ("an index below the one before", 3)
        }
        2 => {
            put(1, &above);
            ("no such row", 3)
        }
        3 => {
            put(1, b"9999999999");
            ("a row far beyond", 3)
        }
        4 => {
            put(1, &below);
            ("a row over 32 bits", 3)
        }
        5 => {
            put(1, b"10000000000");
            ("eleven digits", 13)
        }
        6 => {
            put(1, format!("0{row}").as_bytes());
            ("a leading zero", 4)
        }
        7 => {
            put(1, b"-1");
            ("a minus", 3)
        }
        8 => {
            put(1, b"");
            ("an empty index", 3)
        }
        9 => {
            line = Some(b"\n".to_vec());
            ("an empty line", NO_BYTE)
        }
        10 => {
            put(0, d.of(&["Z", "B", "H", "T", "A", "K"]).as_bytes());
            ("another letter", NO_BYTE)
        }
        11 => {
            put(0, b"c");
            ("a small letter", NO_BYTE)
        }
        12 => {
            line = Some(damage::lines_of(&damage::plain_text(t))[0].clone());
            ("the H line", NO_BYTE)
        }
        13 => {
            let mut short = own[row].clone();
            short.pop();
            line = Some(short);
            end = true;
            ("no LF", NO_BYTE)
        }
        14 => {
            fields.pop();
            ("a field too few", NO_BYTE)
        }
        15 => {
            fields.push(b"0".to_vec());
            ("a field too many", NO_BYTE)
        }
        16 => {
            put(2, b"0");
            ("Fmax 0", starts[2])
        }
        17 => {
            let more = over(&damage::fields_of(&own[row])[2]);
            put(3, &more);
            ("FRM above Fmax", starts[3])
        }
        18 => {
            put(6, b"10001");
            ("R 10001", starts[6])
        }
        19 => {
            put(6, b"-5");
            ("R -5", starts[6] + 1)
        }
        20 => {
            put(7, b"-");
            ("\"-\" in CVA", starts[7])
        }
        21 => {
            put(last, b"100001");
            ("a factor out of range", starts[last])
        }
        22 => {
            put(last, b"-0");
            ("a factor -0", starts[last] + 1)
        }
        23 => {
            put(last, b"5\r");
            ("a CR", starts[last] + 1)
        }
        24 => {
            put(4, b"1 2");
            ("a blank", starts[4] + 1)
        }
        25 => {
            // form before value: the factor is further right
            put(2, b"0");
            let moved = fields[2].len() as i64 - (starts[3] - starts[2] - 1) as i64;
            fields[last] = b"x".to_vec();
            ("a value and a form", (starts[last] as i64 + moved) as usize)
        }
        26 => {
            // the index is furthest left
            put(1, (row - 1).to_string().as_bytes());
            fields[last] = b"x".to_vec();
            ("an index and a form", 3)
        }
        _ => {
            let more: &[u8] = match way {
                27 => b"\n",
                28 => b"C",
                _ => b"C\t0\t1\t0\t0\t0\t0\t0\t0\n",
            };
            let name = ["an LF after the last row", "a byte after the last row", "a line after the last row"][way as usize - 27];
            let byte = if way == 29 { 3 } else { NO_BYTE };
            return BadSheet { name, sheet: [own.concat(), more.to_vec()].concat(), place: rows + 1, byte };
        }
    };
    let mut sheet = own[..row].concat();
    sheet.extend(line.unwrap_or_else(|| damage::line_from(&fields)));
    // what follows it is not looked at
    if !end && d.one_in(2) {
        sheet.extend(own[row..].concat());
    }
    BadSheet { name, sheet, place: row + 1, byte }
}
