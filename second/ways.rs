//! Tables and texts for one request each: every way to write a thing, good or bad,
//! in turn, held against the rules too; small texts damaged at every place; the
//! stored hours.

use crate::dice::Dice;
use crate::lent::{needed, short, with_extra, Counts, LentTables};
use crate::second::{self, Refusal, Tables, R_DASH, RECEIVING, SENDING};
use crate::{damage, make, refused_at, Comparison};

/// The borders of a table made for the corner sheet run from 1 to this: some above
/// the 12 that a sheet may have.
const SHEET_BORDERS: u64 = 16;
/// The stored hours, all of them: those that the bench runs on are held against the
/// second program too.
pub const HOURS: [&[u8]; 14] = [
    include_bytes!("../hours/worked.tsv"),
    include_bytes!("../hours/planner.tsv"),
    include_bytes!("../hours/sheet.tsv"),
    include_bytes!("../hours/cable.tsv"),
    include_bytes!("../hours/trajectory.tsv"),
    include_bytes!("../hours/trajectory-replaced.tsv"),
    include_bytes!("../hours/intraday.tsv"),
    include_bytes!("../hours/plain.tsv"),
    include_bytes!("../hours/busy.tsv"),
    include_bytes!("../hours/worst.tsv"),
    include_bytes!("../hours/busy64.tsv"),
    include_bytes!("../hours/worst64.tsv"),
    include_bytes!("../hours/late.tsv"),
    include_bytes!("../hours/slowest.tsv"),
];

impl Comparison {
    // -------------------------------------------------------- corner sheet

    /// A table made for the corner sheet: each number of borders in turn.
    pub fn sheet_table(&mut self, number: u64) {
        self.kind = "sheet table";
        self.number = number;
        let mut dice = Dice::for_case(self.seed, 3, number);
        let d = &mut dice;
        let borders = 1 + number % SHEET_BORDERS;
        let t = make::of_borders(d, borders as usize);
        let h = t.header;
        let needed = needed(h);
        let counts = with_extra(d, needed);
        let mut l = LentTables::new(d, &t, counts);
        self.sheet(d, &mut l);
        self.bad_tables(d, &t, needed);
    }

    // ---------------------------------------------------------------- hubs

    /// Hubs of one border as text and as a record, each way in turn, and two
    /// borders apart by their hubs or by nothing.
    pub fn hub_tables(&mut self, number: u64) {
        self.kind = "hub table";
        self.number = number;
        let mut dice = Dice::for_case(self.seed, 4, number);
        let d = &mut dice;
        let borders = 1 + d.below(4);
        let t = make::of_borders(d, borders);
        let zones = t.header.zones as i64;
        let border = d.below(t.header.borders);
        let way = damage::hub_text(d, zones, &t.b[border], number % damage::HUB_TEXTS);
        let text = damage::with_hub_text(&t, border, &way.fields);
        let reading = self.reading_and_answer(d, &text);
        // a good line may still give a border twice
        let line = 2 + t.header.zones + second::allocated(t.header) + border;
        let number_found = reading.err().map_or((0, line), |refusal| (refusal.number, refusal.place));
        if number_found != (way.number, line) && (way.number != 0 || number_found.0 != 4) {
            let details = format!("hubs {}: refusal {number_found:?}, by the rules {}", way.name, way.number);
            self.fail("keravnoth_read", &details, &text);
        }
        self.see(&format!("hubs as text, {}", way.name));

        let way = damage::hub_record(d, zones, &t.b[border], number % damage::HUB_RECORDS);
        let mut lent = t.clone();
        lent.b[border][SENDING] = way.hubs[0];
        lent.b[border][RECEIVING] = way.hubs[1];
        let found = self.any_call(d, &lent, needed(lent.header));
        if way.refused != (found == refused_at(3, line)) {
            let details = format!("hubs {}: {found:?}, by the rules refused: {}", way.name, way.refused);
            self.fail("a call on lent tables", &details, &damage::plain_text(&lent));
        }
        self.see(&format!("lent hubs, {}", way.name));

        let mut twins = make::of_borders(d, 2);
        if twins.header.zones > 2 {
            let way = (number % damage::TWINS.len() as u64) as usize;
            let (name, twice) = damage::TWINS[way];
            damage::twins(d, &mut twins, way);
            let text = damage::plain_text(&twins);
            let reading = self.reading_and_answer(d, &text).err();
            let found = self.any_call(d, &twins, needed(twins.header));
            let given_twice = refused_at(4, 1);
            if twice != (reading == given_twice) || twice != (found == given_twice) {
                let details = format!("twins, {name}: {reading:?}, {found:?}, by the rules 4: {twice}");
                self.fail("a call", &details, &text);
            }
            self.see(&format!("twins, {name}"));
        }
    }

    // ---------------------------------------------------- the default of R

    /// The default of R as text and in a lent header, each way in turn.
    pub fn share_tables(&mut self, number: u64) {
        self.kind = "share table";
        self.number = number;
        let mut dice = Dice::for_case(self.seed, 5, number);
        let d = &mut dice;
        let borders = 1 + d.below(4);
        let mut t = make::of_borders(d, borders);
        if d.one_in(2) {
            let row = d.below(t.header.rows);
            t.c[row][4] = R_DASH;
        }
        let way = (number % damage::SHARE_TEXTS.len() as u64) as usize;
        let (name, fields, wanted) = damage::SHARE_TEXTS[way];
        let text = damage::with_share_text(&t, fields);
        let found = self.reading_and_answer(d, &text).err().map_or((0, 1), |refusal| (refusal.number, refusal.place));
        if found != (wanted, 1) {
            let details = format!("default of R {name}: refusal {found:?}, by the rules {wanted}");
            self.fail("keravnoth_read", &details, &text);
        }
        self.see(&format!("share as text, {name}"));

        let way = (number % damage::SHARES.len() as u64) as usize;
        let (share, refused) = damage::SHARES[way];
        let needed = needed(t.header);
        t.header.share = share;
        // the header comes before lengths
        let counts = if refused && d.one_in(2) { needed.map(|items| short(d, items)) } else { needed };
        let found = self.any_call(d, &t, counts);
        if refused != (found == refused_at(3, 1)) {
            let details = format!("default of R {share}: {found:?}, by the rules refused: {refused}");
            self.fail("a call on lent tables", &details, &damage::plain_text(&t));
        }
        self.see(&format!("lent share {share}"));
    }

    // -------------------------------------------------- intraday remainder

    /// T as text and as lent, and what a lent header says of it, each way in turn.
    pub fn t_tables(&mut self, number: u64) {
        self.kind = "T table";
        self.number = number;
        let mut dice = Dice::for_case(self.seed, 8, number);
        let d = &mut dice;
        let borders = 1 + d.below(4);
        let t = make::intraday(d, borders);
        let h = t.header;
        let (text, (name, wanted, line, byte)) = damage::t_text(&t, number % damage::T_TEXTS);
        let found = self.reading_and_answer(d, &text).err();
        let wanted = (wanted > 0).then_some(Refusal { number: wanted, place: 2 + h.zones + line, byte });
        if found != wanted {
            let details = format!("T {name}: {found:?}, by the rules {wanted:?}");
            self.fail("keravnoth_read", &details, &text);
        }
        self.see(&format!("T as text, {name}"));

        let (said, refused) = damage::PROFILES[(number % damage::PROFILES.len() as u64) as usize];
        let mut lent = t.clone();
        lent.header.intraday = said;
        // the header comes before lengths
        let counts = if refused && d.one_in(2) { needed(h).map(|items| short(d, items)) } else { needed(h) };
        let found = self.any_call(d, &lent, counts);
        if refused != (found == refused_at(3, 1)) {
            let details = format!("lent header says {said} of T: {found:?}, by the rules refused: {refused}");
            self.fail("a call on lent tables", &details, &damage::plain_text(&lent));
        }
        self.see(&format!("lent header says {said} of T"));

        // without it T is not needed and not looked at
        let mut lent = t.clone();
        lent.header.intraday = second::NO_T;
        lent.t = (0..d.below(4)).map(|_| d.next() as i64).collect();
        let mut counts = needed(h);
        counts[1] = lent.t.len();
        let found = self.any_call(d, &lent, counts);
        if found.is_some_and(|refusal| matches!(refusal.number, 3 | 8)) {
            self.fail("a call on lent tables", &format!("T that is not there: {found:?}"), &damage::plain_text(&lent));
        }
        self.see(if found.is_some() { "T not there, refused later" } else { "T not there, taken" });

        // the sum, at the last record's line
        let mut lent = t.clone();
        let zone = d.below(h.zones);
        lent.t[zone] += if lent.t[zone] > 0 { -1 } else { 1 };
        let found = self.any_call(d, &lent, needed(h));
        if found != refused_at(3, 1 + 2 * h.zones) {
            self.fail("a call on lent tables", &format!("T that sums to 1 or -1: {found:?}"), &damage::plain_text(&lent));
        }
        self.see("lent T off by one");
    }

    // ----------------------------------------------------- calls in common

    /// One of the calls on lent tables, with room enough for results: its refusal.
    fn any_call(&mut self, d: &mut Dice, t: &Tables, counts: Counts) -> Option<Refusal> {
        let h = t.header;
        let mut l = LentTables::new(d, t, counts);
        let row = d.below(h.rows);
        match d.below(5) {
            0 => {
                let room = second::write(t.lend(), usize::MAX).map_or(9, |text| text.len());
                self.write(d, &mut l, room).err()
            }
            1 => self.extract(d, &mut l, [h.rows * h.borders, h.borders, h.rows]).err(),
            2 => {
                let room = second::result_text(t.lend(), usize::MAX).map_or(9, |text| text.len());
                self.result_text(d, &mut l, room).err()
            }
            3 => self.corner_flows(d, &mut l, row, 1 << h.borders).err(),
            _ => {
                let room = second::corner_text(t.lend(), row, usize::MAX).map_or(9, |text| text.len());
                self.corner_text(d, &mut l, row, room).err()
            }
        }
    }

    /// Reading and the answer, each with room enough.
    fn reading_and_answer(&mut self, d: &mut Dice, text: &[u8]) -> Result<Tables, Refusal> {
        let room = match second::read(text, [usize::MAX; 5]) {
            Ok(t) => with_extra(d, needed(t.header)),
            Err(_) => [8; 5],
        };
        let answer = second::answer(text);
        self.answer(d, text, &answer, answer.len());
        let reading = self.read(d, text, room);
        if let Ok(t) = &reading {
            let mut l = LentTables::new(d, t, needed(t.header));
            let written = self.write(d, &mut l, text.len());
            if written.as_deref() != Ok(text) {
                self.fail("keravnoth_write", "a text read and written again is another", text);
            }
        }
        reading
    }

    // --------------------------------------------------- which byte is bad

    /// A small text damaged at one place, in every way: reading of each, and for
    /// most the answer too.
    pub fn each_damage(&mut self, number: usize) {
        self.kind = "place of a small text";
        self.number = number as u64;
        let mut dice = Dice::for_case(self.seed, 7, number as u64);
        let d = &mut dice;
        let damaged = damage::each_damage(&self.places[number]);
        for (text, whole) in damaged {
            let reading = self.read(d, &text, [8; 5]);
            if whole {
                let answer = second::answer(&text);
                self.answer(d, &text, &answer, answer.len());
            }
            self.see_byte(&text, reading.err());
        }
    }

    // -------------------------------------------------------- stored hours

    /// A stored hour: its text, and its tables lent, each call with room enough.
    pub fn hour(&mut self, number: usize) {
        self.kind = "stored hour";
        self.number = number as u64;
        let mut dice = Dice::for_case(self.seed, 6, number as u64);
        let d = &mut dice;
        let text = HOURS[number];
        let Ok(t) = self.reading_and_answer(d, text) else {
            self.fail("keravnoth_read", "a stored hour is refused", text);
        };
        let h = t.header;
        let mut l = LentTables::new(d, &t, needed(h));
        let outcome = self.extract(d, &mut l, [h.rows * h.borders, h.borders, h.rows]);
        let bound = self.bound(d, &mut l, None);
        self.bounds(&t, None, bound, &outcome);
        self.claims_at_random(d, &t);
        self.rows_of(d, &t);
        let answer = second::answer(text);
        let result = self.result_text(d, &mut l, answer.len());
        if outcome.is_err() || result.as_ref() != Ok(&answer) {
            self.fail("keravnoth_extract", "a stored hour has no result, or another text", text);
        }
        for _ in 0..4 {
            let border = d.below(h.borders) as u64;
            let _ = self.why(d, &mut l, None, border, [h.rows * h.borders, h.borders, h.rows]);
        }
    }
}
