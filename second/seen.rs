//! Which cases were reached, and which must be.

use crate::dice::Dice;
use crate::lent::{needed, Counts, LentTables, KINDS};
use crate::second::{self, Border, Header, Outcome, Refusal, Tables};
use crate::second::{INTRADAY, LTA, MOST_BORDERS, MOST_ROWS, MOST_ZONES, NO_BYTE, NO_HUB, NO_SHARE, RECEIVING, SENDING};
use crate::{claim_cases, damage, extracted, make, marks, noon_cases, row_cases, sheets, why_cases, Comparison, TABLES, TEXTS};

impl Comparison {
    /// A refusal has left p as it was (the call has compared it).  Which one it
    /// was; where p is short, what it came before or after.
    pub fn see_p(&mut self, l: &LentTables, marks: Option<&[u64]>, room: [usize; 3], refusal: Refusal) {
        let h = l.header;
        let whole = extracted(l, marks, [usize::MAX, usize::MAX, usize::MAX]);
        if room[0] >= h.rows.saturating_mul(h.borders) {
            // with enough room all over, the same refusal, or none
            match whole.err().map(|refusal| refusal.number) {
                Some(number) => self.see(&format!("p stays on {number}")),
                None => self.see("p stays on 8 of results"),
            }
            return;
        }
        let (lengths, needed) = (l.counts(), needed(h));
        let first = (0..KINDS.len()).find(|kind| lengths[*kind] < needed[*kind]);
        match (refusal.number, first, whole.err()) {
            (3, ..) => self.see("p short after the header"),
            (_, Some(kind), _) => self.see(&format!("p short after {}", KINDS[kind])),
            (_, None, Some(later)) => self.see(&format!("p short before {}", later.number)),
            (_, None, None) if room[1] < h.borders || room[2] < h.rows => self.see("p short before results"),
            _ => self.see("p short alone"),
        }
    }

    /// Which refusal it was, and which later one it came before.
    pub fn see_corner_refusal(&mut self, call: &str, l: &LentTables, row: usize, refusal: Refusal, room: usize) {
        let h = l.header;
        let nine = h.borders > second::MOST_CORNER_BORDERS || row >= h.rows;
        if second::judge(l.part()).is_err() {
            if nine {
                self.see(&format!("corner {call}, {} before 9", refusal.number));
            }
            return;
        }
        if !nine {
            self.see(&format!("corner {call}, no room"));
            return;
        }
        if h.borders > second::MOST_CORNER_BORDERS {
            self.see(&format!("corner {call}, 9 for borders"));
            if row >= h.rows {
                self.see(&format!("corner {call}, 9 for borders before the row"));
            }
            if h.borders == second::MOST_CORNER_BORDERS + 1 {
                self.see(&format!("corner {call}, 9 for 13 borders"));
            }
            if h.borders == MOST_BORDERS {
                self.see(&format!("corner {call}, 9 for most borders"));
            }
        } else {
            self.see(&format!("corner {call}, 9 for the row"));
            if room < 1 << h.borders {
                self.see(&format!("corner {call}, 9 before the room"));
            }
        }
    }

    /// Whether a byte was named, in which kind of line; it lies in that line.
    pub fn see_byte(&mut self, text: &[u8], refusal: Option<Refusal>) {
        let Some(Refusal { number: number @ (2 | 3), place, byte }) = refusal else { return };
        let line = text.split_inclusive(|byte| *byte == b'\n').nth(place - 1).unwrap_or(b"");
        if byte > line.len() {
            self.fail("keravnoth_read", &format!("byte {byte} of a line of {}", line.len()), text);
        }
        if byte == NO_BYTE {
            self.see(&format!("{number} without a byte"));
            return;
        }
        let at = match (number, line[byte - 1]) {
            (3, _) => "out of range",
            (_, b'\t') => "a tab",
            (_, b'\n') => "an LF",
            _ => "a byte",
        };
        self.see(&format!("{at} in {}", line[..1].escape_ascii()));
    }

    /// Lent tables of exactly 40 records of b for 40 borders, which was the most
    /// once.
    pub fn see_40(&mut self, call: &str, h: Header, counts: Counts) {
        if h.borders == 40 {
            self.see(&format!("{call}, 40 borders"));
            if counts[2] == 40 {
                self.see(&format!("{call}, 40 borders in 40 records"));
            }
        }
    }

    /// Which lent buffer is the first short one.
    pub fn see_short(&mut self, call: &str, needed: Counts, counts: Counts) {
        for (kind, name) in KINDS.into_iter().enumerate() {
            if counts[kind] < needed[kind] {
                self.see(&format!("{call} short {name}"));
                return;
            }
        }
    }

    /// Which kind of record was refused.
    pub fn see_bad(&mut self, bad: &Tables, refusal: Option<Refusal>) {
        let Some(Refusal { number: 3, place, .. }) = refusal else { return };
        self.see(&format!("lent 3 {}", kind_of_line(bad.header, place)));
    }

    /// Which kind of line was refused, as the undamaged text has it.
    pub fn see_line(&mut self, t: &Tables, number: u32, place: usize) {
        self.see(&format!("text {number} at line {}", kind_of_line(t.header, place)));
    }

    pub fn see_shortened(&mut self, name: &str, h: Header, outcome: &Result<Outcome, Refusal>) {
        let number = outcome.as_ref().err().map_or(0, |refusal| refusal.number);
        self.see(&format!("{name}, {number}"));
        if number == 0 && h.intraday == INTRADAY {
            self.see(&format!("{name}, intraday"));
        }
    }

    pub fn sizes(&mut self, h: Header) {
        if h.zones == MOST_ZONES {
            self.see("most zones");
        }
        if h.borders == MOST_BORDERS {
            self.see("most borders");
        }
        if h.rows == MOST_ROWS {
            self.see("most rows");
        }
        if full(h) {
            self.see("full size");
        }
        if (h.zones, h.borders, h.rows) == (2, 1, 1) {
            self.see("least size");
        }
    }

    /// What an accepted table shows.
    pub fn features(&mut self, t: &Tables, o: &Outcome) {
        self.most_rounds = self.most_rounds.max(o.rounds);
        let h = t.header;
        if full(h) {
            self.see("accepted, full size");
        }
        if h.borders == MOST_BORDERS {
            self.see("accepted, most borders");
        }
        match o.rounds {
            0 => self.see("accepted, no round"),
            1..=9 => self.see("accepted, rounds 1 to 9"),
            10..=99 => self.see("accepted, rounds 10 to 99"),
            100..=499 => self.see("accepted, rounds 100 to 499"),
            500..=999 => self.see("accepted, rounds 500 to 999"),
            1000..=1499 => self.see("accepted, rounds 1000 to 1499"),
            _ => self.see("accepted, rounds from 1500"),
        }
        if o.rows.iter().any(|row| row.state == 1) {
            self.see("accepted, a row of state 1");
        }
        if o.rows.iter().any(|row| row.state == 2) {
            self.see("accepted, a row of state 2");
        }
        if t.c.iter().any(|r| r[4] == -1) {
            self.see("accepted, R \"-\"");
            if h.share != NO_SHARE {
                self.see("accepted, R \"-\" with a default");
            }
            if h.rows <= 40 && default_tells(t) {
                self.see("accepted, a default that tells");
            }
        }
        if h.share != NO_SHARE {
            self.see("accepted, a default");
        }
        if h.share == 7_000 {
            self.see("accepted, a default of 7000");
        }
        if t.c.iter().zip(&o.rows).any(|(r, row)| row.state == 0 && r[5] + r[6] > 0) {
            self.see("accepted, CVA or IVA on a kept row");
        }
        if o.rows.iter().any(|row| row.ram < 0) {
            self.see("accepted, a RAM below 0");
        }
        if t.b.iter().any(|b| b[LTA] > 0) {
            self.see("accepted, an LTA");
        }
        let hubs = t.b.iter().filter(|b| b[SENDING] != NO_HUB).count();
        if hubs > 0 {
            self.see("accepted, hubs");
        }
        if hubs > 0 && hubs < h.borders {
            self.see("accepted, some borders with hubs");
        }
        if t.b.iter().any(|b| b[..LTA].contains(&b[SENDING]) || b[..LTA].contains(&b[RECEIVING])) {
            self.see("accepted, a hub that is from or to");
        }
        if o.p.iter().any(|p| *p > 200_000) {
            self.see("accepted, p over 200000");
        }
        if t.b.iter().enumerate().any(|(i, b)| t.b[..i].iter().any(|other| other[..LTA] == b[..LTA])) {
            self.see("accepted, borders apart by hubs alone");
        }
        if o.atc.iter().any(|atc| *atc > u64::from(u32::MAX)) {
            self.see("accepted, an ATC over 32 bits");
        }
        if h.intraday == INTRADAY {
            self.remainders(t, o);
        }
        self.stops(t, o);
        let zones = h.zones;
        for row in 0..h.rows {
            let own = &t.f[row * zones..(row + 1) * zones];
            let spread = own.iter().max().unwrap() - own.iter().min().unwrap();
            if spread == 5_000 {
                self.see("accepted, spread 5000");
            }
            if spread == 4_999 {
                self.see("accepted, spread 4999");
            }
            if o.rows[row].state != 2 || h.rows > 40 {
                continue;
            }
            // an equal RAM at a lower index and no lower RAM, or a lower RAM at a higher index
            let parallel = |other: &usize| {
                let by = t.f[other * zones] - own[0];
                (0..zones).all(|zone| t.f[other * zones + zone] - own[zone] == by)
            };
            let ram = o.rows[row].ram;
            let others: Vec<usize> = (0..h.rows).filter(|other| *other != row && parallel(other)).collect();
            if others.iter().all(|other| o.rows[*other].ram >= ram) {
                self.see("accepted, state 2 by a tie");
            }
            if others.iter().all(|other| *other > row) {
                self.see("accepted, state 2 by a later row");
            }
            if others.iter().any(|other| t.f[other * zones] != own[0]) {
                self.see("accepted, state 2 with factors moved");
            }
        }
        let kept: Vec<usize> = (0..h.rows).filter(|row| o.rows[*row].state == 0).collect();
        let loads = |row: usize, b: &Border| make::signed_factor(&t.f[row * zones..], b) > 0;
        if kept.iter().any(|row| !t.b.iter().any(|b| loads(*row, b))) {
            self.see("accepted, a kept row that no border loads");
        }
    }

    /// What stopped the borders of an accepted table.
    fn stops(&mut self, t: &Tables, o: &Outcome) {
        let borders = t.header.borders;
        for border in 0..borders {
            let loads = |row: usize| o.p[row * borders + border] > 0;
            let Some(stop) = o.stop[border] else { continue };
            if (0..stop).any(|row| o.rows[row].state != 0) {
                self.see("stopped by a row after one not kept");
            }
            if (0..stop).any(|row| o.rows[row].state == 0 && !loads(row)) {
                self.see("stopped by a row after one that it does not load");
            }
            if (0..stop).any(loads) {
                self.see("stopped by a row after one with a share");
            }
            let left = o.rows[stop].left.unwrap_or(0);
            let p = i128::from(o.p[stop * borders + border]);
            self.see(match left {
                0 => "stopped by a row with nothing left",
                _ if left < p => "stopped by a row with less than one kW left",
                _ => "stopped by a row with less than one kW for each",
            });
            self.see(match o.last[border] {
                0 if o.rounds == 0 => "never raised, nor any",
                0 => "never raised, others are",
                last if last < o.rounds => "raised, others longer",
                _ => "raised to the end",
            });
        }
    }

    /// What an accepted table of the intraday profile shows.
    fn remainders(&mut self, t: &Tables, o: &Outcome) {
        self.see("intraday");
        if t.t.iter().all(|position| *position == 0) {
            self.see("intraday, nothing allocated");
        }
        if t.b.iter().any(|b| b[LTA] > 0) {
            self.see("intraday, an LTA");
        }
        if t.b.iter().any(|b| b[SENDING] != NO_HUB) {
            self.see("intraday, hubs");
        }
        if o.rounds > 0 {
            self.see("intraday, a round");
        }
        if o.rounds >= 1_000 {
            self.see("intraday, 1000 rounds");
        }
        for (row, out) in o.rows.iter().enumerate().filter(|(_, out)| out.state == 0) {
            let remainder = second::remainder_of(t, row, out.ram);
            let name = match remainder {
                ..=-1 => "below 0",
                0 => "0",
                1..=99_999 => "under one kW",
                _ if remainder < 1 << 48 => "above 0",
                _ => "over 2^48",
            };
            self.see(&format!("intraday, a remainder {name}"));
            if out.ram < second::margin_of(t, row).s {
                self.see("intraday, where 7 would be given");
            }
            let loads = |border: usize| o.p[row * t.header.borders + border] > 0;
            if remainder < 0 && o.rounds > 0 && (0..t.header.borders).any(loads) {
                self.see("intraday, a remainder below 0 stops one border and not all");
            }
        }
    }
}

/// Another default of R gives another RAM.
fn default_tells(t: &Tables) -> bool {
    let mut other = t.clone();
    other.header.share = if second::default_of(&t.header) < 5_000 { 10_000 } else { 0 };
    (0..t.header.rows).any(|row| second::margin_of(t, row) != second::margin_of(&other, row))
}

/// The largest table.
pub fn full(h: Header) -> bool {
    (h.zones, h.borders, h.rows) == (MOST_ZONES, MOST_BORDERS, MOST_ROWS)
}

/// The kind of the line at a place of a text with this header.
fn kind_of_line(h: Header, place: usize) -> &'static str {
    let mut last = 0;
    for (kind, lines) in [("H", 1), ("Z", h.zones), ("T", second::allocated(h)), ("B", h.borders), ("C", h.rows)] {
        last += lines;
        if place <= last {
            return kind;
        }
    }
    "after the last"
}

/// Cases that a run of the default size reaches at least so often.
pub fn wanted() -> Vec<(String, u64)> {
    let mut list: Vec<(String, u64)> = Vec::new();
    let mut add = |name: &str, count: u64| list.push((name.to_string(), count));
    for (call, numbers) in [
        ("keravnoth_read", &[0u32, 1, 2, 3, 4, 8][..]),
        ("keravnoth_write", &[0, 3, 4, 8]),
        ("keravnoth_extract", &[0, 3, 4, 5, 6, 7, 8]),
        ("keravnoth_result_text", &[0, 3, 4, 5, 6, 7, 8]),
        ("keravnoth_answer", &[0, 8]),
        ("keravnoth_corner_flows", &[0, 3, 4, 8, 9]),
        ("keravnoth_corner_text", &[0, 3, 4, 8, 9]),
        ("keravnoth_extract_marked", &[0, 3, 4, 5, 6, 7, 8, 13]),
        ("keravnoth_result_text_marked", &[0, 3, 4, 5, 6, 7, 8, 13]),
        ("keravnoth_answer_marked", &[0, 8]),
        ("keravnoth_read_corrected", &[0, 1, 2, 3, 4, 8, 10]),
        ("keravnoth_answer_corrected", &[0, 8]),
        ("keravnoth_rewrite_corrected", &[0, 1, 2, 3, 4, 8, 10]),
        ("keravnoth_bound", &[0, 3, 4, 5, 6, 7, 8]),
        ("keravnoth_bound_marked", &[0, 3, 4, 5, 6, 7, 8, 13]),
        ("keravnoth_margins", &[0, 3, 4, 8]),
        ("keravnoth_why", &[0, 3, 4, 5, 6, 7, 8, 14]),
        ("keravnoth_why_marked", &[0, 3, 4, 5, 6, 7, 8, 13, 14]),
    ] {
        for number in numbers {
            add(&format!("{call} {number}"), 100);
        }
    }
    for number in 1..=7 {
        add(&format!("keravnoth_answer E {number}"), 100);
        add(&format!("keravnoth_answer_marked E {number}"), 20);
        add(&format!("keravnoth_answer_corrected E {number}"), 100);
    }
    add("keravnoth_answer_corrected E 10", 1_000);
    for name in [
        "none",
        "all own lines",
        "some own lines",
        "one row",
        "some rows",
        "every row",
        "not the first row",
        "a gap",
        "R \"-\"",
        "R \"-\" with a default",
    ] {
        add(&format!("sheet, {name}"), 200);
    }
    add("sheet, 200 rows", 1);
    add("sheet of 65,536 bytes", 200);
    for number in [5, 6, 7] {
        add(&format!("sheet causes {number}"), 50);
        add(&format!("sheet cures {number}"), 50);
        add(&format!("10 before {number}"), 100);
    }
    for name in ["a long text", "2", "3", "4", "an empty text"] {
        add(&format!("{name} before 10"), 200);
        add(&format!("a long sheet before {name}"), 200);
    }
    for number in [1, 2, 3, 4, 10] {
        add(&format!("damaged text and sheet, {number}"), 20);
    }
    let mut few = Dice::new(0);
    let mut three = make::of_borders(&mut few, 2);
    while three.header.rows < 3 {
        three = make::of_borders(&mut few, 2);
    }
    for way in 0..sheets::BAD_SHEETS {
        add(&format!("bad sheet, {}", sheets::bad_sheet(&mut few, &three, way).name), 70);
    }
    for name in ["without a byte", "at the index", "at a tab", "at an LF", "at a byte"] {
        add(&format!("10 {name}"), 100);
    }
    add("keravnoth_answer_marked E 13", 100);
    for number in [0, 4, 5, 6, 7] {
        add(&format!("all marked, {number}"), 100);
    }
    for name in [
        "one",
        "some",
        "all but one",
        "where all would be refused with 6",
        "a kept row that no marked border loads",
        "an unmarked border above 0",
        "intraday",
        "an ATC above the ordinary one",
        "fewer rounds than with all",
        "another row stops a border",
    ] {
        add(&format!("marked, {name}"), 100);
    }
    for number in [5, 6, 7] {
        add(&format!("13 before {number}"), 100);
    }
    add("13 before room for results", 200);
    for number in [3, 4, 8] {
        add(&format!("{number} before 13"), 50);
    }
    for number in [1, 2, 3, 4] {
        add(&format!("text {number} before 13"), 20);
    }
    for name in ["L 0", "intraday", "over 1000", "smaller with marks", "rounds over a tenth of it", "as many as with marks"] {
        add(&format!("bound, {name}"), 100);
    }
    for name in [" 0", ", as many rounds", ", between the two", ", smaller with marks"] {
        add(&format!("sharp bound{name}"), 500);
    }
    add("sharp bound 0, L above 0", 200);
    add("few kW, as many rounds", 200);
    add("few kW, fewer rounds", 200);
    for number in [0, 5, 6, 7] {
        add(&format!("margins, extraction {number}"), 200);
    }
    for name in [
        "state 0",
        "state 1",
        "state 2",
        "intraday",
        "a start below 0",
        "a start of 0",
        "an AMR",
        "an LTA margin",
        "CVA or IVA",
        "n 0",
        "longer room",
        "no room",
    ] {
        add(&format!("margins, {name}"), 200);
    }
    for number in [3, 4, 8] {
        add(&format!("bound, {number} before 13"), 50);
        add(&format!("margins, {number} before the room"), 50);
    }
    for way in 0..marks::BAD_LISTS {
        let name = marks::bad_list(&mut Dice::new(0), 5, way).name;
        add(&format!("bound, bad marks, {name}"), 100);
        add(&format!("bad marks, {name}"), 100);
    }
    for kind in ["H", "Z", "T", "B", "C"] {
        add(&format!("lent 3 {kind}"), 200);
        add(&format!("text 2 at line {kind}"), 100);
        add(&format!("text 3 at line {kind}"), 100);
    }
    add("text 2 at line after the last", 100);
    for name in KINDS {
        add(&format!("read short {name}"), 200);
        add(&format!("lent short {name}"), 200);
    }
    for number in [3, 4, 5, 6, 7, 13] {
        add(&format!("p stays on {number}"), 100);
        add(&format!("p short before {number}"), 100);
    }
    add("p stays on 8", 100);
    add("p stays on 8 of results", 1_000);
    add("p short after the header", 100);
    for name in KINDS {
        add(&format!("p short after {name}"), 100);
    }
    add("p short before results", 200);
    add("p short alone", 500);
    add("p longer than needed", 1_000);
    add("p of a row not kept", 1_000);
    add("round trip", 10_000);
    add("most zones", 50);
    add("most borders", 50);
    add("most rows", 40);
    add("full size", 10);
    for call in ["read", "lent"] {
        add(&format!("{call}, 40 borders"), 30);
        add(&format!("{call}, 40 borders in 40 records"), 15);
    }
    add("least size", 20);
    add("accepted, full size", 5);
    add("accepted, most borders", 20);
    add("accepted, no round", 200);
    add("accepted, rounds 1 to 9", 500);
    add("accepted, rounds 10 to 99", 500);
    add("accepted, rounds 100 to 499", 50);
    add("accepted, rounds 500 to 999", 10);
    add("accepted, rounds 1000 to 1499", 10);
    add("accepted, rounds from 1500", 10);
    add("accepted, a row of state 1", 500);
    add("accepted, a row of state 2", 500);
    add("accepted, state 2 by a tie", 200);
    add("accepted, state 2 by a later row", 200);
    add("accepted, state 2 with factors moved", 200);
    add("accepted, R \"-\"", 500);
    add("accepted, CVA or IVA on a kept row", 200);
    add("accepted, a RAM below 0", 10);
    add("accepted, an LTA", 500);
    add("accepted, an ATC over 32 bits", 50);
    add("accepted, spread 5000", 200);
    add("accepted, spread 4999", 200);
    add("accepted, a kept row that no border loads", 50);
    add("accepted, hubs", 2_000);
    add("accepted, some borders with hubs", 1_000);
    add("accepted, a hub that is from or to", 1_000);
    add("accepted, p over 200000", 200);
    add("accepted, borders apart by hubs alone", 500);
    let mut d = Dice::new(0);
    for way in 0..damage::HUB_TEXTS {
        let name = damage::hub_text(&mut d, 3, &second::without_hubs(0, 1, 0), way).name;
        add(&format!("hubs as text, {name}"), 100);
    }
    for way in 0..damage::HUB_RECORDS {
        let name = damage::hub_record(&mut d, 3, &second::without_hubs(0, 1, 0), way).name;
        add(&format!("lent hubs, {name}"), 100);
    }
    for (name, _) in damage::TWINS {
        add(&format!("twins, {name}"), 100);
    }
    for (name, count) in [
        ("", 2_000),
        (", nothing allocated", 100),
        (", an LTA", 1_000),
        (", hubs", 500),
        (", a round", 1_000),
        (", 1000 rounds", 10),
        (", a remainder below 0", 500),
        (", a remainder 0", 20),
        (", a remainder under one kW", 200),
        (", a remainder above 0", 1_000),
        (", a remainder over 2^48", 3),
        (", where 7 would be given", 200),
        (", a remainder below 0 stops one border and not all", 100),
    ] {
        add(&format!("intraday{name}"), count);
    }
    for (name, count) in [("without the rows of state 2", 100), ("in another order", 200), ("over states 0 and 2", 200)] {
        for with in ["", ", marked"] {
            for number in [0, 5, 6, 7] {
                // a table whose rows are all under 5% has none of state 2
                if number != 5 || name != "without the rows of state 2" {
                    add(&format!("{name}{with}, {number}"), if with.is_empty() { count } else { count / 5 });
                }
            }
            add(&format!("{name}{with}, intraday"), if with.is_empty() { count } else { count / 5 });
        }
    }
    add("in another order, another row of a class is kept", 200);
    for name in [
        "stopped by a row after one not kept",
        "stopped by a row after one that it does not load",
        "stopped by a row after one with a share",
        "stopped by a row with nothing left",
        "stopped by a row with less than one kW left",
        "stopped by a row with less than one kW for each",
        "never raised, nor any",
        "never raised, others are",
        "raised, others longer",
        "raised to the end",
    ] {
        add(name, 1_000);
    }
    for (said, _) in damage::PROFILES {
        add(&format!("lent header says {said} of T"), 100);
    }
    add("T not there, taken", 500);
    add("T not there, refused later", 200);
    add("lent T off by one", 1_000);
    let small = make::intraday(&mut d, 1);
    for way in 0..damage::T_TEXTS {
        let (name, ..) = damage::t_text(&small, way).1;
        add(&format!("T as text, {name}"), 100);
    }
    add("accepted, a default", 2_000);
    add("accepted, a default of 7000", 500);
    add("accepted, R \"-\" with a default", 1_000);
    add("accepted, a default that tells", 500);
    add("any default without \"-\"", 1_000);
    add("7000 written", 500);
    add("\"-\" replaced by 7000", 1_000);
    add("\"-\" replaced by the default", 1_000);
    for (name, ..) in damage::SHARE_TEXTS {
        add(&format!("share as text, {name}"), 100);
    }
    for (share, _) in damage::SHARES {
        add(&format!("lent share {share}"), 100);
    }
    add("2 without a byte", 1_000);
    for letter in ["H", "Z", "T", "B", "C"] {
        for at in ["a byte", "a tab", "an LF", "out of range"] {
            add(&format!("{at} in {letter}"), 50);
        }
    }
    add("text of 65,536 bytes", 20);
    add("text of 65,537 bytes", 20);
    add("empty text", 10);
    add("damaged text that is taken", 500);
    for borders in 1..=second::MOST_CORNER_BORDERS {
        let count = if borders <= 8 { 100 } else { 40 };
        add(&format!("sheet flows of {borders} borders"), count);
        add(&format!("sheet text of {borders} borders"), count);
    }
    add("sheet with a flow below 0", 1_000);
    add("sheet whose largest flow is within", 1_000);
    add("sheet text over 65,536 bytes", 25);
    for call in ["flows", "text"] {
        add(&format!("corner {call}, 9 for borders"), 200);
        add(&format!("corner {call}, 9 for 13 borders"), 40);
        add(&format!("corner {call}, 9 for most borders"), 20);
        add(&format!("corner {call}, 9 for borders before the row"), 100);
        add(&format!("corner {call}, 9 for the row"), 1_000);
        add(&format!("corner {call}, 9 before the room"), 500);
        add(&format!("corner {call}, no room"), 1_000);
        for number in [3, 4, 8] {
            add(&format!("corner {call}, {number} before 9"), 100);
        }
    }
    list.extend(claim_cases::wanted());
    list.extend(row_cases::wanted());
    list.extend(noon_cases::wanted());
    list.extend(why_cases::wanted());
    list
}

/// What a run of this size is to reach of a number for the default size; at
/// least once whatever the size, so a very small run fails here by rights.
pub fn share_of(count: u64, size: u64) -> u64 {
    (count * size / (TABLES + TEXTS)).clamp(1, count)
}
