//! The semicolon sheet: the two calls, each held against the second program; round
//! trips both ways; sheets wrong in every way.

use crate::calls::Judged;
use crate::damage::{self, SHEET_FIELDS};
use crate::dice::Dice;
use crate::lent::{short, Lent};
use crate::second::rows;
use crate::second::{Header, Refusal, Tables, MOST_BYTES, NO_BYTE, NO_SHARE, NO_T};
use crate::{make, refused_at, row_sheets, Comparison, NO_REFUSAL};

/// C records, and the factors of all rows.
type Rows = (Vec<[i64; 7]>, Vec<i64>);

/// Small sheets, and the zones of the table that each is of.
const SMALL_SHEETS: [(usize, &str); 3] = [
    (2, "0;0.090;0.005;-0.001;0.020;-;0.000;0.003;0.20000;-0.00007\n"),
    (3, "0;10.000;0.000;0.000;-9.000;7000;1.000;0.000;0.00000;-0.90000;1.00000\n1;0.007;0.007;0.000;0.000;0;0.000;0.000;-0.05000;0.00000;0.00001\n"),
    (2, "0;10000.000;10000.000;-20000.000;20000.000;10000;0.000;0.100;-1.00000;0.00010\n"),
];

impl Comparison {
    // ----------------------------------------------------------- the calls

    fn read_rows(&mut self, d: &mut Dice, header: Header, sheet: &[u8], room: [usize; 2]) -> Result<Rows, Refusal> {
        let reference = rows::read_rows(header, sheet, room);
        let mut lent = Lent::holding(d, sheet, sheet.len());
        let mut c = Lent::room(d, room[0]);
        let mut f = Lent::room(d, room[1]);
        let found = self.bridge.read_rows(words(header), &mut lent.whole, &mut c.whole, &mut f.whole);
        let found = self.said("keravnoth_read_rows", found, &|| sheet.to_vec());
        let none = (vec![], vec![]);
        let (Refusal { number, place, byte }, wanted_rows) = match &reference {
            Ok(rows) => (NO_REFUSAL, rows),
            Err(refusal) => (*refusal, &none),
        };
        let wanted = Judged { number: number.into(), place, byte };
        self.count("read rows", number);
        if found != wanted {
            let details = format!("library {found:?}\nreference {wanted:?}\n{header:?}, room {room:?}");
            self.fail("keravnoth_read_rows", &details, sheet);
        }
        let fault = c
            .fault("c", &wanted_rows.0)
            .or_else(|| f.fault("f", &wanted_rows.1))
            .or_else(|| lent.fault("sheet", &[]));
        if let Some(fault) = fault {
            let details = format!("{fault}\nboth answer {wanted:?}\n{header:?}, room {room:?}");
            self.fail("keravnoth_read_rows", &details, sheet);
        }
        self.see_row_byte(sheet, reference.as_ref().err());
        reference
    }

    /// `counts`: the items lent of c and of f.
    fn write_rows(&mut self, d: &mut Dice, t: &Tables, counts: [usize; 2], room: usize) -> Result<Vec<u8>, Refusal> {
        let mut c = Lent::holding(d, &t.c, counts[0]);
        let mut f = Lent::holding(d, &t.f, counts[1]);
        let reference = rows::write_rows(t.header, c.part(), f.part(), room);
        let mut out = Lent::room(d, room);
        let found = self.bridge.write_rows(words(t.header), &mut c.whole, &mut f.whole, &mut out.whole);
        let shown = || {
            let mut shown = damage::plain_text(t);
            shown.extend(format!("(intraday {}, items lent of c, f: {counts:?})\n", t.header.intraday).into_bytes());
            shown
        };
        let found = self.said("keravnoth_write_rows", found, &shown);
        let fault = c.fault("c", &[]).or_else(|| f.fault("f", &[]));
        self.text_call("keravnoth_write_rows", found, &out, &reference, fault, &shown);
        reference
    }

    /// Whether a byte was named, in which kind of field; it lies in that line.
    fn see_row_byte(&mut self, sheet: &[u8], refusal: Option<&Refusal>) {
        let Some(Refusal { number: number @ (2 | 3), place, byte }) = refusal else { return };
        let line = sheet.split_inclusive(|byte| *byte == b'\n').nth(place - 1).unwrap_or(b"");
        if *byte > line.len() {
            self.fail("keravnoth_read_rows", &format!("byte {byte} of a line of {}", line.len()), sheet);
        }
        if *byte == NO_BYTE {
            self.see(&format!("row sheet, {number} without a byte"));
            return;
        }
        let kind = match line[..byte - 1].iter().filter(|byte| **byte == b';').count() {
            0 => "index",
            5 => "R",
            3 | 4 => "flow",
            1..=7 => "power",
            _ => "factor",
        };
        let at = match line[byte - 1] {
            b';' => "a semicolon",
            b'\n' => "an LF",
            _ => "a byte",
        };
        self.see(&format!("row sheet, {number}, {at} in {kind}"));
    }

    // ----------------------------------------------------------- the cases

    /// The rows of a table as a sheet and back, with room that is too short, and with
    /// what is judged before and after.
    pub fn rows_of(&mut self, d: &mut Dice, t: &Tables) {
        let h = t.header;
        let needed = [h.rows, h.rows * h.zones];
        let more = [d.below(3), d.below(3)];
        let enough = [needed[0] + more[0], needed[1] + more[1]];
        let sheet = row_sheets::sheet(t);
        let written = self.write_rows(d, t, enough, sheet.len() + more[0]);
        let read = self.read_rows(d, h, &sheet, enough);
        if written.as_ref() != Ok(&sheet) || read.as_ref() != Ok(&(t.c.clone(), t.f.clone())) {
            let details = format!("another sheet, or other rows: {:?}, {:?}", written.err(), read.err());
            self.fail("keravnoth_write_rows", &details, &damage::plain_text(t));
        }
        self.see("rows, both ways");
        if h.rows == crate::second::MOST_ROWS {
            self.see("rows, both ways, most rows");
        }

        // room, and lent tables that are too short
        let room = short(d, sheet.len());
        let _ = self.write_rows(d, t, enough, room);
        for [c, f] in [[true, false], [false, true], [true, true]] {
            let counts = [if c { short(d, needed[0]) } else { enough[0] }, if f { short(d, needed[1]) } else { enough[1] }];
            let found = [self.read_rows(d, h, &sheet, counts).err(), self.write_rows(d, t, counts, 0).err()];
            let wanted = refused_at(8, if c { needed[0] } else { needed[1] });
            if found != [wanted; 2] {
                self.fail("keravnoth_read_rows", &format!("too short {counts:?}: {found:?}"), &sheet);
            }
            self.see(if c { "rows, c too short" } else { "rows, f too short" });
        }

        // a bad header, a bad record, and what comes first
        let mut bad = t.clone();
        let mut counts = enough;
        let mut room = sheet.len();
        let with = 1 + d.below(15);
        if with & 1 != 0 && d.one_in(2) {
            damage::damage_header(d, &mut bad.header);
        }
        if with & 2 != 0 {
            for _ in 0..2 {
                damage::damage_record(d, &mut bad);
            }
        }
        if with & 4 != 0 && d.one_in(2) {
            let kind = d.below(2);
            counts[kind] = short(d, needed[kind]);
        }
        if with & 8 != 0 && d.one_in(2) {
            room = d.below(40);
        }
        let mut other = sheet.clone();
        if with & 2 != 0 {
            row_sheets::damaged(d, &mut other);
        }
        if let Err(refusal) = self.write_rows(d, &bad, counts, room) {
            let line = if refusal.number == 3 && refusal.place > 1 { ", line 2 or later" } else { "" };
            self.see(&format!("bad rows, {}{line}", refusal.number));
        }
        if let Err(refusal) = self.read_rows(d, bad.header, &other, counts) {
            self.see(&format!("bad row sheet, {}", refusal.number));
        }
        if d.one_in(40) {
            self.long_sheets(d, &bad, &sheet, counts);
        }
    }

    /// Sheets as long as they may be, and longer.
    fn long_sheets(&mut self, d: &mut Dice, t: &Tables, sheet: &[u8], counts: [usize; 2]) {
        for bytes in [MOST_BYTES, MOST_BYTES + 1] {
            let mut long = sheet.to_vec();
            long.resize(bytes, b'\n');
            let found = self.read_rows(d, t.header, &long, counts).err();
            if (found == refused_at(1, 0)) != (bytes > MOST_BYTES) {
                self.fail("keravnoth_read_rows", &format!("{bytes} bytes: {found:?}"), sheet);
            }
            self.see(&format!("row sheet of {bytes} bytes"));
        }
    }

    /// Each way to have a field or a line wrong in turn, held against the rules.
    pub fn row_sheets(&mut self, number: u64) {
        self.kind = "sheet of rows";
        self.number = number;
        let mut dice = Dice::for_case(self.seed, 22, number);
        let d = &mut dice;
        let t = make::of_borders(d, 1);
        let h = t.header;
        let sheet = row_sheets::sheet(&t);
        let way = row_sheets::WAYS[(number % row_sheets::WAYS.len() as u64) as usize];
        let wrong = row_sheets::in_a_field(d, &sheet, way);
        let (kind, by, ..) = way;
        self.wrong_sheet(d, h, &format!("{kind:?} {by:?}"), wrong);
        let way = row_sheets::LINE_WAYS[(number % row_sheets::LINE_WAYS.len() as u64) as usize];
        let wrong = row_sheets::in_a_line(d, &sheet, way);
        self.wrong_sheet(d, h, way, wrong);
    }

    fn wrong_sheet(&mut self, d: &mut Dice, h: Header, name: &str, wrong: row_sheets::Wrong) {
        let (sheet, (number, place, byte)) = wrong;
        let wanted = (number > 0).then_some(Refusal { number, place, byte });
        // room comes after the lines
        let counts = if number > 0 && d.one_in(2) { [d.below(h.rows), 0] } else { [h.rows, h.rows * h.zones] };
        let found = self.read_rows(d, h, &sheet, counts);
        if found.as_ref().err() != wanted.as_ref() {
            let details = format!("row sheet, {name}: {:?}, by the rules {wanted:?}", found.err());
            self.fail("keravnoth_read_rows", &details, &sheet);
        }
        self.see(&format!("row sheet, {name}"));
        self.written_again(d, h, &sheet, found);
    }

    /// A sheet that is taken is written again as it was.
    fn written_again(&mut self, d: &mut Dice, h: Header, sheet: &[u8], found: Result<Rows, Refusal>) {
        let Ok((c, f)) = found else { return };
        let counts = [c.len(), f.len()];
        let t = Tables { header: h, z: vec![], t: vec![], b: vec![], c, f };
        if self.write_rows(d, &t, counts, sheet.len()).as_deref() != Ok(sheet) {
            self.fail("keravnoth_write_rows", "a sheet read and written again is another", sheet);
        }
    }

    /// A damaged sheet of any table.
    pub fn damaged_sheet(&mut self, d: &mut Dice, t: &Tables) {
        let h = t.header;
        let mut sheet = row_sheets::sheet(t);
        row_sheets::damaged(d, &mut sheet);
        let found = self.read_rows(d, h, &sheet, [h.rows, h.rows * h.zones]);
        self.see(if found.is_ok() { "damaged row sheet, taken" } else { "damaged row sheet, refused" });
        self.written_again(d, h, &sheet, found);
    }

    /// A small sheet damaged at one place, in every way.
    pub fn each_row_damage(&mut self, number: usize) {
        self.kind = "place of a small row sheet";
        self.number = number as u64;
        let mut dice = Dice::for_case(self.seed, 23, number as u64);
        let d = &mut dice;
        let (sheet, place) = &self.row_places[number];
        let (zones, text) = SMALL_SHEETS[*sheet];
        let damaged = damage::each_damage_of(text.as_bytes(), place, &SHEET_FIELDS);
        let rows = text.lines().count();
        let header = Header { zones, borders: 1, rows, share: NO_SHARE, intraday: NO_T };
        for (sheet, whole) in damaged {
            let found = self.read_rows(d, header, &sheet, [2, 6]);
            if whole {
                self.written_again(d, header, &sheet, found);
            }
        }
    }
}

/// The header as a request has it.
fn words(h: Header) -> [u64; 5] {
    [h.zones as u64, h.borders as u64, h.rows as u64, h.share as u64, h.intraday]
}

/// Where the small sheets are damaged: which one, and the place.
pub fn row_places() -> Vec<(usize, damage::Place)> {
    let of = |(number, (_, text)): (usize, (usize, &str))| {
        let places = damage::places_in(number, text.as_bytes(), &SHEET_FIELDS);
        places.into_iter().map(move |place| (number, place)).collect::<Vec<(usize, damage::Place)>>()
    };
    SMALL_SHEETS.into_iter().enumerate().flat_map(of).collect()
}

/// Cases that a run of the default size reaches at least so often.
pub fn wanted() -> Vec<(String, u64)> {
    let mut list: Vec<(String, u64)> = Vec::new();
    let mut add = |name: &str, count: u64| list.push((name.to_string(), count));
    for number in [0, 2, 3, 8] {
        add(&format!("read rows {number}"), 200);
    }
    add("read rows 1", 100);
    for number in [0, 3, 8] {
        add(&format!("keravnoth_write_rows {number}"), 200);
    }
    add("rows, both ways", 10_000);
    add("rows, both ways, most rows", 20);
    add("rows, c too short", 1_000);
    add("rows, f too short", 1_000);
    for name in ["3", "3, line 2 or later", "8"] {
        add(&format!("bad rows, {name}"), 200);
    }
    for number in [2, 3, 8] {
        add(&format!("bad row sheet, {number}"), 200);
    }
    for bytes in [MOST_BYTES, MOST_BYTES + 1] {
        add(&format!("row sheet of {bytes} bytes"), 50);
    }
    for (kind, by, ..) in row_sheets::WAYS {
        add(&format!("row sheet, {kind:?} {by:?}"), 15);
    }
    for way in row_sheets::LINE_WAYS {
        add(&format!("row sheet, {way}"), 50);
    }
    add("damaged row sheet, taken", 500);
    add("damaged row sheet, refused", 1_000);
    add("row sheet, 2 without a byte", 500);
    for kind in ["index", "power", "flow", "R", "factor"] {
        add(&format!("row sheet, 2, a byte in {kind}"), 200);
        if kind != "factor" {
            add(&format!("row sheet, 2, a semicolon in {kind}"), 100);
        }
        if kind != "index" {
            add(&format!("row sheet, 3, a byte in {kind}"), 100);
        }
    }
    add("row sheet, 2, an LF in factor", 100);
    list
}
