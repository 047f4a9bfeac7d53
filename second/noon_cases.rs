//! Correction sheets of semicolon rows: the calls with a sheet, where it is of this kind.

use crate::damage::{self, SHEET_FIELDS};
use crate::dice::Dice;
use crate::lent::{needed, short};
use crate::second::{self, Refusal, Tables, MOST_BYTES, NO_BYTE, NO_SHARE, R_DASH};
use crate::sheets::{self, bad_day, other_rows, some_rows, with_sheet, ALL_ROOM};
use crate::{e_number, make, noon_sheets, row_sheets, Comparison};

const CALL: &str = "keravnoth_read_corrected";

impl Comparison {
    /// A sheet that changes nothing, one that changes some rows, the latter also with
    /// short room, damaged, and with lines of both kinds.  `answer` is that of the table.
    pub fn noon(&mut self, t: &Tables, answer: &[u8]) {
        let mut dice = Dice::for_case(self.seed, 28, self.number);
        let d = &mut dice;
        let text = damage::plain_text(t);
        // only a border given twice is refused
        let twice = second::read(&text, ALL_ROOM).is_err();

        let (name, rows) = match d.below(2) {
            0 => ("all own rows", (0..t.header.rows).collect()),
            _ => ("some own rows", some_rows(d, t.header.rows)),
        };
        let found = self.by_sheet(d, &text, &noon_sheets::sheet_of(t, &rows));
        self.is_merged(name, t, &text, &found, t, answer);
        if !twice {
            self.see(&format!("noon, {name}"));
        }

        let (merged, rows) = other_rows(d, t);
        let sheet = noon_sheets::sheet_of(&merged, &rows);
        let merged_answer = second::answer(&damage::plain_text(&merged));
        let found = self.by_sheet(d, &text, &sheet);
        self.is_merged("other semicolon rows", t, &text, &found, &merged, &merged_answer);
        if !twice {
            self.see_noon(t, &merged, &rows, [answer, &merged_answer]);
        }
        self.short_sheet(d, &text, &sheet, &merged_answer);

        let mut bad = sheet.clone();
        row_sheets::damaged(d, &mut bad);
        let found = self.by_sheet(d, &text, &bad);
        self.see(if found.tables.is_ok() { "noon, damaged and taken" } else { "noon, damaged and refused" });
        self.see_noon_byte(&bad, found.tables.err());
        if rows.len() > 1 {
            self.mixed(d, &text, [&sheet, &sheets::sheet_of(&merged, &rows)], twice);
        }
    }

    /// The same rows, some lines of the other kind: the first of these is at fault.
    fn mixed(&mut self, d: &mut Dice, text: &[u8], kinds: [&[u8]; 2], twice: bool) {
        let [semicolons, tabs] = kinds.map(damage::lines_of);
        let first = d.below(2);
        let other = 1 + d.below(tabs.len() - 1);
        let line = |place: usize| match place {
            place if place < other => first,
            place if place == other => 1 - first,
            _ => d.below(2),
        };
        let chosen: Vec<usize> = (0..tabs.len()).map(line).collect();
        let sheet: Vec<u8> = chosen.iter().enumerate().flat_map(|(place, kind)| [&semicolons, &tabs][*kind][place].clone()).collect();
        let found = self.by_sheet(d, text, &sheet);
        // a C line's letter stands where the index belongs; the letter of a row of the other kind is wrong
        let byte = if first == 0 { 1 } else { NO_BYTE };
        let wanted = Refusal { number: 10, place: other + 1, byte };
        if !twice && found.tables != Err(wanted) {
            let details = format!("both kinds of line: {:?}, by the rules {wanted:?}", found.tables);
            self.fail(CALL, &details, &with_sheet(text, Some(&sheet)));
        }
        self.see(["noon, a C line among the rows", "noon, a row among the C lines"][first]);
    }

    fn see_noon(&mut self, t: &Tables, merged: &Tables, rows: &[usize], answers: [&[u8]; 2]) {
        self.see(match rows.len() {
            1 => "noon, one row",
            some if some == t.header.rows => "noon, every row",
            _ => "noon, some rows",
        });
        if rows[0] > 0 {
            self.see("noon, not the first row");
        }
        if rows.windows(2).any(|pair| pair[0] + 1 < pair[1]) {
            self.see("noon, a gap");
        }
        self.see(&format!("noon, first digit {}", rows[0].to_string().as_bytes()[0] - b'0'));
        if rows.iter().any(|row| merged.c[*row][4] == R_DASH) {
            self.see(if t.header.share == NO_SHARE { "noon, R \"-\"" } else { "noon, R \"-\" with a default" });
        }
        let [before, after] = answers.map(|answer| e_number(answer).unwrap_or(0));
        if before != after && after > 0 {
            self.see(&format!("noon causes {after}"));
        }
        if before != after && before > 0 {
            self.see(&format!("noon cures {before}"));
        }
    }

    /// Each way to have a field or a line wrong in turn, held against the rules; then with
    /// each fault that comes before it, and as long as it may be.
    pub fn noon_tables(&mut self, number: u64) {
        self.kind = "table with a bad sheet of semicolon rows";
        self.number = number;
        let mut dice = Dice::for_case(self.seed, 29, number);
        let d = &mut dice;
        let mut t = make::of_borders(d, 2);
        while t.header.rows < 3 {
            t = make::of_borders(d, 2);
        }
        let way = row_sheets::WAYS[(number % row_sheets::WAYS.len() as u64) as usize];
        let rows = some_rows(d, t.header.rows);
        let wrong = noon_sheets::in_a_field(d, &noon_sheets::sheet_of(&t, &rows), way);
        let (kind, by, ..) = way;
        self.noon_way(d, &t, &format!("{kind:?} {by:?}"), wrong);
        let ways = noon_sheets::LINE_WAYS.len() as u64;
        let way = noon_sheets::LINE_WAYS[(number % ways) as usize];
        let wrong = noon_sheets::in_a_line(d, &t, way);
        self.noon_way(d, &t, way, wrong.clone());
        let (sheet, Some(_)) = wrong else { return };

        // what comes before a bad sheet
        let (name, text, wanted) = bad_day(&t, number / ways);
        let found = self.by_sheet(d, &text, &sheet);
        if found.tables != Err(wanted) {
            let details = format!("{name}: {:?}, by the rules {wanted:?}", found.tables);
            self.fail(CALL, &details, &with_sheet(&text, Some(&sheet)));
        }
        self.see(&format!("{name} before 10 of semicolon rows"));

        // as long as it may be, and longer
        let whole = row_sheets::sheet(&t);
        for length in [MOST_BYTES, MOST_BYTES + 1] {
            let mut long = whole.clone();
            long.resize(length, b'\n');
            let text = damage::plain_text(&t);
            let wanted = match length {
                MOST_BYTES => Refusal { number: 10, place: t.header.rows + 1, byte: 1 },
                _ => Refusal { number: 1, place: 0, byte: NO_BYTE },
            };
            if self.by_sheet(d, &text, &long).tables != Err(wanted) {
                self.fail(CALL, &format!("a sheet of {length} bytes of semicolon rows"), &text);
            }
            self.see(&format!("noon, sheet of {length} bytes"));
        }
    }

    fn noon_way(&mut self, d: &mut Dice, t: &Tables, name: &str, (sheet, wanted): noon_sheets::Noon) {
        let text = damage::plain_text(t);
        let found = self.by_sheet(d, &text, &sheet);
        let refused = found.tables.as_ref().err();
        if refused != wanted.as_ref() {
            let details = format!("semicolon rows, {name}: {refused:?}, by the rules {wanted:?}");
            self.fail(CALL, &details, &with_sheet(&text, Some(&sheet)));
        }
        self.see(&format!("noon, {name}"));
        self.see_noon_byte(&sheet, wanted);
        let Some(wanted) = wanted else { return };
        if let Some(number) = e_number(&second::answer(&text)) {
            self.see(&format!("10 of semicolon rows before {number}"));
        }
        // whatever the room
        let room = needed(t.header).map(|items| short(d, items));
        if self.read_corrected(d, &text, &sheet, room) != Err(wanted) {
            self.fail(CALL, "10 of semicolon rows does not come before 8", &with_sheet(&text, Some(&sheet)));
        }
    }

    /// The small sheet damaged at one place, in every way.
    pub fn each_noon_damage(&mut self, number: usize) {
        self.kind = "place of a small sheet of semicolon rows";
        self.number = number as u64;
        let mut dice = Dice::for_case(self.seed, 30, number as u64);
        let d = &mut dice;
        let day = damage::day_text();
        let damaged = damage::each_damage_of(noon_sheets::SMALL, &self.noon_places[number], &SHEET_FIELDS);
        for (sheet, whole) in damaged {
            let reading = if whole {
                self.by_sheet(d, &day, &sheet).tables
            } else {
                self.read_corrected(d, &day, &sheet, [10; 5])
            };
            self.see_noon_byte(&sheet, reading.err());
        }
    }

    /// Whether a byte of the sheet was named; it lies in that line.
    fn see_noon_byte(&mut self, sheet: &[u8], refusal: Option<Refusal>) {
        let Some(Refusal { number: 10, place, byte }) = refusal else { return };
        let line = sheet.split_inclusive(|byte| *byte == b'\n').nth(place - 1).unwrap_or(b"");
        if byte > line.len() {
            self.fail(CALL, &format!("byte {byte} of a line of {}", line.len()), sheet);
        }
        let of_rows = sheet.first().is_some_and(u8::is_ascii_digit);
        self.see(match byte {
            NO_BYTE if !of_rows => "noon, no digit first",
            NO_BYTE => "noon, 10 without a byte",
            1 => "noon, 10 at the index",
            _ => match line[byte - 1] {
                b';' => "noon, 10 at a semicolon",
                b'\n' => "noon, 10 at an LF",
                _ => "noon, 10 at a byte",
            },
        });
    }
}

/// Cases that a run of the default size reaches at least so often.
pub fn wanted() -> Vec<(String, u64)> {
    let mut list: Vec<(String, u64)> = Vec::new();
    let mut add = |name: &str, count: u64| list.push((name.to_string(), count));
    for name in ["all own rows", "some own rows", "one row", "some rows", "every row", "not the first row", "a gap"] {
        add(&format!("noon, {name}"), 200);
    }
    for name in ["R \"-\"", "R \"-\" with a default", "damaged and taken", "damaged and refused"] {
        add(&format!("noon, {name}"), 200);
    }
    for name in ["a C line among the rows", "a row among the C lines"] {
        add(&format!("noon, {name}"), 500);
    }
    for digit in 0..10 {
        add(&format!("noon, first digit {digit}"), 10);
    }
    for number in [5, 6, 7] {
        add(&format!("noon causes {number}"), 50);
        add(&format!("noon cures {number}"), 50);
        add(&format!("10 of semicolon rows before {number}"), 100);
    }
    for name in ["a long text", "2", "3", "4", "an empty text"] {
        add(&format!("{name} before 10 of semicolon rows"), 100);
    }
    for bytes in [MOST_BYTES, MOST_BYTES + 1] {
        add(&format!("noon, sheet of {bytes} bytes"), 500);
    }
    for (kind, by, ..) in row_sheets::WAYS {
        add(&format!("noon, {kind:?} {by:?}"), 7);
    }
    for way in noon_sheets::LINE_WAYS {
        add(&format!("noon, {way}"), 30);
    }
    for name in ["10 without a byte", "10 at the index", "10 at a semicolon", "10 at an LF", "10 at a byte", "no digit first"] {
        add(&format!("noon, {name}"), 100);
    }
    list
}
