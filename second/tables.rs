//! A table made from the seed, with every call on it, and a damaged text.

use crate::dice::Dice;
use crate::lent::{needed, short, with_extra, Counts, LentTables, KINDS};
use crate::second::{self, Refusal, Tables, MOST_BORDERS, MOST_ROWS};
use crate::{damage, make, Comparison};

impl Comparison {
    pub fn table(&mut self, number: u64) {
        self.kind = "table";
        self.number = number;
        let mut dice = Dice::for_case(self.seed, 1, number);
        let d = &mut dice;
        let (t, aim) = make::table(d);
        let h = t.header;
        let text = damage::plain_text(&t);
        let needed = needed(h);
        let heavy = h.borders * h.rows > 1_500;
        self.see(&format!("aim {aim:?}"));
        self.sizes(h);

        // reading, and the answer from text to text
        let room = with_extra(d, needed);
        let reading = self.read(d, &text, room);
        self.see_40("read", h, room);
        let answer = second::answer(&text);
        let room = answer.len() + d.below(4);
        self.answer(d, &text, &answer, room);

        // the same on lent tables
        let counts = with_extra(d, needed);
        let mut l = LentTables::new(d, &t, counts);
        let room = text.len() + d.below(4);
        let written = self.write(d, &mut l, room);
        self.see_40("lent", h, counts);
        let room = [h.rows * h.borders + d.below(3), h.borders + d.below(3), h.rows + d.below(3)];
        let outcome = self.extract(d, &mut l, room);
        let bound = self.bound(d, &mut l, None);
        self.bounds(&t, None, bound, &outcome);
        let result_room = answer.len() + d.below(4);
        let result = self.result_text(d, &mut l, result_room);

        // round trips: the library's own bytes and numbers are those of the
        // reference by now, so the reference's say it for both
        match &reading {
            Ok(read_tables) => {
                self.see("round trip");
                if *read_tables != t {
                    self.fail("keravnoth_read", "a table written and read again is another", &text);
                }
                if written.as_ref() != Ok(&text) {
                    self.fail("keravnoth_write", "a text read and written again is another", &text);
                }
            }
            Err(refusal) => {
                if refusal.number != 4 {
                    self.fail("keravnoth_read", "a table within its ranges is refused", &text);
                }
            }
        }
        match &outcome {
            Ok(outcome) => {
                self.accepted += 1;
                self.features(&t, outcome);
                // the answer from the text is the result text of the tables
                if result.as_ref() != Ok(&answer) {
                    self.fail("keravnoth_answer", "the answer is not the result text", &text);
                }
            }
            Err(refusal) => {
                if refusal.number == 7 && t.c.iter().all(|r| r[5] == 0 && r[6] == 0) {
                    self.fail("keravnoth_extract", "refusal 7 without CVA and IVA", &text);
                }
            }
        }

        if !heavy || d.one_in(4) {
            self.defaults(d, &t, &outcome, &answer);
            self.shortening(d, &t, None);
            self.claims_at_random(d, &t);
            self.rows_of(d, &t);
            self.damaged_sheet(d, &t);
        }
        if !heavy && d.one_in(2) || d.one_in(8) {
            self.marked(d, &t, &outcome, &answer);
        }
        if !heavy && d.one_in(2) || d.one_in(8) {
            self.corrected(d, &t, &answer);
        }
        // dice of its own, so that the draws of the other cases stay
        if !heavy && number % 2 == 0 || number % 8 == 0 {
            self.noon(&t, &answer);
        }
        if !heavy && d.one_in(2) || d.one_in(8) {
            self.known(d, &t, &outcome);
        }

        // a sheet doubles with each border: large ones mostly by `sheet_table`
        let one_in = match h.borders {
            6..=8 => 4,
            9..=second::MOST_CORNER_BORDERS => 40,
            _ => 1,
        };
        if d.one_in(one_in) {
            self.sheet(d, &mut l);
        }

        // room that is too short
        self.short_reading(d, &text, needed);
        self.short_answer(d, &text, &answer);
        let room = match d.below(3) {
            0 => 0,
            1 => d.below(text.len()),
            _ => text.len() - 1,
        };
        let _ = self.write(d, &mut l, room);
        if !heavy || d.one_in(4) {
            let p = h.rows * h.borders + d.below(2);
            let room = match d.below(4) {
                0 => [p, h.borders - 1, h.rows],
                1 => [p, h.borders, h.rows - 1],
                2 => [p, h.borders - 1, h.rows - 1],
                _ => [p, d.below(h.borders + 1), d.below(h.rows + 1)],
            };
            let _ = self.extract(d, &mut l, room);
            self.short_p(d, &t, needed);
            let room = match d.below(3) {
                0 => 0,
                1 => d.below(answer.len()),
                _ => answer.len() - 1,
            };
            let _ = self.result_text(d, &mut l, room);
        }

        // lent tables that are too short, records and headers that are bad
        let times = if heavy { 1 } else { 3 };
        for _ in 0..times {
            self.bad_tables(d, &t, needed);
        }
    }

    fn short_reading(&mut self, d: &mut Dice, text: &[u8], needed: Counts) {
        let mut room = needed;
        match d.below(4) {
            0 => room = [0; 5],
            1 => room = room.map(|items| d.below(items + 2)),
            _ => {
                // one, and sometimes a second
                for _ in 0..d.of(&[1, 1, 2]) {
                    let kind = d.below(KINDS.len());
                    room[kind] = room[kind].saturating_sub(1);
                }
            }
        }
        self.see_short("read", needed, room);
        // reading judges the text first, whatever the room
        let _ = self.read(d, text, room);
    }

    fn short_answer(&mut self, d: &mut Dice, text: &[u8], answer: &[u8]) {
        let room = match d.below(3) {
            0 => 0,
            1 => d.below(answer.len()),
            _ => answer.len() - 1,
        };
        self.answer(d, text, answer, room);
    }

    /// A short table of p, alone and with one of each kind of fault beside it.
    fn short_p(&mut self, d: &mut Dice, t: &Tables, needed: Counts) {
        let mut bad = t.clone();
        let mut counts = with_extra(d, needed);
        let mut room = [0, t.header.borders, t.header.rows];
        match d.below(8) {
            0 => damage::damage_header(d, &mut bad.header),
            1..=3 => {
                let kind = d.below(KINDS.len());
                counts[kind] = short(d, needed[kind]);
            }
            4 | 5 => damage::damage_record(d, &mut bad),
            6 => room[1 + d.below(2)] -= 1,
            _ => {}
        }
        let h = t.header;
        room[0] = short(d, h.rows * h.borders);
        let mut l = LentTables::new(d, &bad, counts);
        let _ = self.extract(d, &mut l, room);
    }

    /// Bad records, a bad header, short tables, short room: some of them.
    pub fn bad_tables(&mut self, d: &mut Dice, t: &Tables, needed: Counts) {
        let mut bad = t.clone();
        let mut counts = with_extra(d, needed);
        let with = 1 + d.below(15);
        if with & 1 != 0 {
            for _ in 0..1 + d.below(2) {
                damage::damage_record(d, &mut bad);
            }
        }
        if with & 2 != 0 && d.one_in(2) {
            damage::damage_header(d, &mut bad.header);
        }
        if with & 4 != 0 && d.one_in(2) {
            match d.below(6) {
                0 => counts = [0; 5],
                1 => counts = counts.map(|items| d.below(items + 1)),
                2 | 3 => {
                    for kind in 0..KINDS.len() {
                        if d.one_in(2) {
                            counts[kind] = needed[kind].saturating_sub(1);
                        }
                    }
                }
                _ => {
                    let kind = d.below(KINDS.len());
                    counts[kind] = needed[kind].saturating_sub(1);
                }
            }
        }
        let short_room = with & 8 != 0 && d.one_in(2);
        let h = bad.header;
        let mut l = LentTables::new(d, &bad, counts);
        self.see_short("lent", needed, counts);

        let length = if short_room { d.below(60) } else { 40_000 };
        match d.below(5) {
            0 => {
                // a buffer of 40,000 marks is dear: the exact length where it is known
                let length = if short_room {
                    length
                } else {
                    match second::write(l.part(), usize::MAX) {
                        Ok(text) => text.len() + d.below(3),
                        Err(_) => d.below(60),
                    }
                };
                let written = self.write(d, &mut l, length);
                self.see_bad(&bad, written.err());
            }
            1 => {
                let [borders, rows] = [h.borders.min(MOST_BORDERS), h.rows.min(MOST_ROWS)];
                let p = if d.one_in(4) { short(d, borders * rows) } else { borders * rows };
                let room = if short_room { [p, d.below(3), d.below(3)] } else { [p, borders, rows] };
                let outcome = self.extract(d, &mut l, room);
                self.see_bad(&bad, outcome.err());
            }
            2 => {
                let row = if d.one_in(3) { no_row(d, h.rows) } else { d.below(h.rows) };
                let room = if short_room { d.below(3) } else { 1 << h.borders.min(8) };
                let flows = self.corner_flows(d, &mut l, row, room);
                self.see_bad(&bad, flows.err());
            }
            3 => {
                let row = if d.one_in(3) { no_row(d, h.rows) } else { d.below(h.rows) };
                let room = if short_room { length } else { 30 << h.borders.min(8) };
                let text = self.corner_text(d, &mut l, row, room);
                self.see_bad(&bad, text.err());
            }
            _ => {
                let length = if short_room { length } else { 90 + 30 * (h.borders.min(MOST_BORDERS) + h.rows.min(MOST_ROWS)) };
                let result = self.result_text(d, &mut l, length);
                self.see_bad(&bad, result.err());
            }
        }
    }

    /// Both calls for a row of the table, for a row that is none, and with room
    /// that is too short.
    pub fn sheet(&mut self, d: &mut Dice, l: &mut LentTables) {
        let h = l.header;
        let row = d.below(h.rows);
        let whole = second::corner_text(l.part(), row, usize::MAX);
        // where it is refused, room that would do for a few corners
        let bytes = whole.as_ref().map_or(60, |text| text.len());
        let corners = if whole.is_ok() { 1 << h.borders } else { 4 };
        let more = d.below(3);
        let flows = self.corner_flows(d, l, row, corners + more);
        let text = self.corner_text(d, l, row, bytes + more);
        if let (Ok(flows), Ok(text)) = (&flows, &text) {
            let lines = text.iter().filter(|byte| **byte == b'\n').count();
            if lines != flows.len() {
                self.fail("keravnoth_corner_text", "not one line for each flow", &l.shown());
            }
        }
        if d.one_in(2) {
            let room = short(d, corners);
            let _ = self.corner_flows(d, l, row, room);
        } else {
            let room = short(d, bytes);
            let _ = self.corner_text(d, l, row, room);
        }
        if d.one_in(2) {
            let row = no_row(d, h.rows);
            let room = if d.one_in(2) { 0 } else { corners };
            if d.one_in(2) {
                let _ = self.corner_flows(d, l, row, room);
            } else {
                let _ = self.corner_text(d, l, row, room);
            }
        }
    }

    pub fn text(&mut self, number: u64) {
        self.kind = "damaged text";
        self.number = number;
        self.texts += 1;
        let mut dice = Dice::for_case(self.seed, 2, number);
        let d = &mut dice;
        // full-size texts are dear here: one in ten of them is taken
        let mut t = make::table(d).0;
        while t.header.rows > 40 && !d.one_in(10) {
            t = make::table(d).0;
        }
        let mut text = damage::plain_text(&t);
        damage::damage(d, &mut text, t.header.zones);
        match text.len() {
            65_536 => self.see("text of 65,536 bytes"),
            65_537 => self.see("text of 65,537 bytes"),
            0 => self.see("empty text"),
            _ => {}
        }
        let reference = second::read(&text, [usize::MAX; 5]);
        let h = match &reference {
            Ok(tables) => tables.header,
            Err(_) => t.header,
        };
        let needed = needed(h);
        let room = match d.below(4) {
            0 => [0; 5],
            1 => needed.map(|items| d.below(items + 2)),
            _ => with_extra(d, needed),
        };
        let reading = self.read(d, &text, room);
        if let Err(Refusal { number: number @ (2 | 3), place, .. }) = reading {
            self.see_line(&t, number, place);
        }
        self.see_byte(&text, reading.err());
        let answer = second::answer(&text);
        let short = d.one_in(8);
        let room = if short { d.below(answer.len()) } else { answer.len() + d.below(4) };
        self.answer(d, &text, &answer, room);
        if d.one_in(4) {
            self.marked_text(d, &text, h.borders);
        }
        if d.one_in(4) {
            self.corrected_text(d, &text, &t);
        }
        if let Ok(tables) = &reference {
            self.see("damaged text that is taken");
            let counts = with_extra(d, needed);
            let mut l = LentTables::new(d, tables, counts);
            let written = self.write(d, &mut l, text.len());
            if written.as_ref() != Ok(&text) {
                self.fail("keravnoth_write", "a text read and written again is another", &text);
            }
        }
    }
}

/// An index that is not below the number of rows: next to it, far off, or an
/// index that is below it once cut to fewer bits.
fn no_row(d: &mut Dice, rows: usize) -> usize {
    let some = d.below(rows);
    let row = match d.below(8) {
        0..=2 => rows,
        3 => rows.saturating_add(1 + d.below(300)),
        4 => some.wrapping_add(256),
        5 => some.wrapping_add(1 << 32),
        6 => some.wrapping_add(1 << 63),
        _ => usize::MAX,
    };
    row.max(rows)
}
