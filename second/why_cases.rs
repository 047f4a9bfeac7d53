//! Why a border got no more: the reasons of a border of any table, without marks and with
//! some, each refusal, and borders that are none.

use crate::calls::Explained;
use crate::dice::Dice;
use crate::lent::{needed, short, with_extra, Lent, LentTables, KINDS};
use crate::marks::{bad_list, rising, some_marks, BAD_LISTS};
use crate::second::why::{self, Reasons, NO_BORDER};
use crate::second::{self, Refusal, Tables, INTRADAY, NO_BYTE};
use crate::{damage, make, with_marks, Comparison, NO_REFUSAL};

impl Comparison {
    // ----------------------------------------------------------- the call

    /// `room`: the items of p, ends and rows.
    pub fn why(
        &mut self,
        d: &mut Dice,
        l: &mut LentTables,
        marks: Option<&[u64]>,
        border: u64,
        room: [usize; 3],
    ) -> Result<Reasons, Refusal> {
        let call = if marks.is_some() { "keravnoth_why_marked" } else { "keravnoth_why" };
        let reference = why::why(l.part(), marks, border, room);
        let mut p = Lent::room(d, room[0]);
        let mut ends = Lent::room(d, room[1]);
        let mut rows = Lent::room(d, room[2]);
        let mut lent_marks = marks.map(|marks| Lent::holding(d, marks, marks.len()));
        let given = lent_marks.as_mut().map(|lent| &mut lent.whole[..]);
        let found = self.bridge.why(l.lend(), given, border, &mut p.whole, &mut ends.whole, &mut rows.whole);
        let shown = || {
            let mut shown = with_marks(l.shown(), marks);
            shown.extend(format!("(border {border}, room {room:?})\n").into_bytes());
            shown
        };
        let found = self.said(call, found, &shown);
        let (mut wanted_p, mut wanted_ends, mut wanted_rows): (&[u64], &[[i64; 2]], &[[i64; 3]]) = (&[], &[], &[]);
        let mut wanted = Explained { number: 0, place: 0, byte: NO_BYTE, rounds: 0, last: 0, named: 0, ended: 0 };
        let refusal = match &reference {
            Ok(reasons) => {
                let row = |row: Option<usize>| row.map_or(-1, |row| row as i64);
                (wanted_p, wanted_ends, wanted_rows) = (&reasons.p, &reasons.ends, &reasons.rows);
                (wanted.rounds, wanted.last) = (reasons.rounds, reasons.last);
                (wanted.named, wanted.ended) = (row(reasons.named), row(reasons.ended));
                NO_REFUSAL
            }
            Err(refusal) => *refusal,
        };
        (wanted.number, wanted.place, wanted.byte) = (refusal.number.into(), refusal.place, refusal.byte);
        self.count(call, refusal.number);
        if found != wanted {
            self.fail(call, &format!("library {found:?}\nreference {wanted:?}"), &shown());
        }
        let fault = p
            .fault("p", wanted_p)
            .or_else(|| ends.fault("ends", wanted_ends))
            .or_else(|| rows.fault("rows", wanted_rows))
            .or_else(|| lent_marks.and_then(|lent| lent.fault("marks", &[])))
            .or_else(|| l.fault());
        if let Some(fault) = fault {
            self.fail(call, &format!("{fault}\nboth answer {wanted:?}"), &shown());
        }
        if reference.is_ok() {
            let own = Own { found, p: p.part(), ends: ends.part(), rows: rows.part() };
            if let Some(fault) = own.fault(l, &rising(marks, l.header.borders), border as usize) {
                self.fail(call, &fault, &shown());
            }
            let h = l.header;
            if room[0] > h.rows * h.borders && room[1] > h.borders && room[2] > h.rows {
                self.see("why, longer room");
            }
        }
        reference
    }

    // -------------------------------------------------------- any table

    /// A table of any kind: a border without marks, one where some are marked, and short
    /// room.
    pub fn why_table(&mut self, number: u64) {
        self.kind = "table for the reasons";
        self.number = number;
        let mut dice = Dice::for_case(self.seed, 26, number);
        let d = &mut dice;
        let t = match number % 4 {
            0 => make::few_kw(d),
            1 => {
                let borders = 1 + d.below(8);
                make::of_borders(d, borders)
            }
            _ => make::table(d).0,
        };
        let h = t.header;
        let counts = with_extra(d, needed(h));
        let mut l = LentTables::new(d, &t, counts);
        let whole = [h.rows * h.borders, h.borders, h.rows];
        let more = 1 + d.below(2);
        let room = if d.one_in(2) { whole } else { whole.map(|items| items + more) };
        let border = d.below(h.borders) as u64;
        let found = self.why(d, &mut l, None, border, room);
        self.see_reasons(&t, &found);
        let marks = some_marks(d, &t);
        // mostly one that is marked
        let border = if d.one_in(4) { border } else { marks[d.below(marks.len())] };
        let found = self.why(d, &mut l, Some(&marks), border, room);
        self.see_reasons(&t, &found);

        let buffer = d.below(3);
        let mut room = whole;
        room[buffer] = short(d, whole[buffer]);
        if d.one_in(4) {
            room[2] = short(d, whole[2]);
        }
        let marks = d.one_in(2).then_some(&marks[..]);
        let found = self.why(d, &mut l, marks, border, room);
        if found.is_err_and(|refusal| (refusal.number, refusal.place) == (8, whole[buffer])) {
            self.see(&format!("why, no room for {}", ["p", "borders", "rows"][buffer]));
        }
    }

    fn see_reasons(&mut self, t: &Tables, found: &Result<Reasons, Refusal>) {
        let Ok(reasons) = found else { return };
        let Some(ended) = reasons.ended else {
            return self.see("why, not marked");
        };
        self.see(if reasons.named == Some(ended) { "why, the named row ended it" } else { "why, another row ended it" });
        self.see(match reasons.last {
            0 if reasons.rounds == 0 => "why, no round at all",
            0 => "why, no round raised it",
            last if last == reasons.rounds => "why, raised until the last round",
            _ => "why, raised in some rounds",
        });
        if t.header.intraday == INTRADAY {
            self.see("why, intraday");
        }
        let holding = reasons.rows.iter().filter(|row| row[2] == 0).count();
        self.see(if holding > 1 { "why, some rows hold it" } else { "why, one row holds it" });
        let behind = reasons.rows.iter().any(|row| row[2] > 0);
        self.see(if behind { "why, a row behind" } else { "why, no row behind" });
        if reasons.rows[ended][1] > 0 {
            self.see("why, something is left");
        }
    }

    // ------------------------------------------------- borders that are none

    /// A border that is none, each way in turn: alone, and with each fault that comes
    /// before or after it.
    pub fn no_borders(&mut self, number: u64) {
        self.kind = "table without the border";
        self.number = number;
        let mut dice = Dice::for_case(self.seed, 27, number);
        let d = &mut dice;
        let borders = 1 + d.below(6);
        let t = make::of_borders(d, borders);
        let h = t.header;
        let some = d.below(h.borders) as u64;
        let way = (number % NO_BORDERS.len() as u64) as usize;
        let border = match way {
            0 => h.borders as u64,
            1 => h.borders as u64 + 1 + some,
            2 => u64::MAX - some,
            _ => some + (1 << [6, 8, 16, 32, 63][way - 3]),
        };
        let marks = some_marks(d, &t);
        let wanted = Err(Refusal { number: NO_BORDER, place: h.borders, byte: NO_BYTE });
        let mut l = LentTables::new(d, &t, needed(h));
        let whole = [h.rows * h.borders, h.borders, h.rows];
        // whatever the extraction would say of the table, and whatever the room
        let short_room = [whole[0], d.below(h.borders), d.below(h.rows)];
        for (marks, room) in [(None, whole), (Some(&marks[..]), whole), (None, short_room)] {
            let found = self.why(d, &mut l, marks, border, room);
            if found != wanted {
                let details = format!("border {border} of {}, {}: {found:?}", h.borders, NO_BORDERS[way]);
                self.fail("keravnoth_why", &details, &with_marks(l.shown(), marks));
            }
        }
        self.see(&format!("no border, {}", NO_BORDERS[way]));
        if let Err(later) = second::extract(l.part(), usize::MAX, usize::MAX, usize::MAX) {
            self.see(&format!("14 before {}", later.number));
        }

        // what comes before it
        let bad = bad_list(d, h.borders as u64, number % BAD_LISTS);
        let found = self.why(d, &mut l, Some(&bad.marks), border, whole);
        if found != Err(Refusal { number: 13, place: bad.place, byte: NO_BYTE }) {
            self.fail("keravnoth_why_marked", &format!("13 does not come before 14: {found:?}"), &l.shown());
        }
        self.see("13 before 14");
        let mut before = t.clone();
        let mut counts = needed(h);
        let mut room = whole;
        match d.below(8) {
            0 => damage::damage_header(d, &mut before.header),
            1 | 2 => {
                let kind = d.below(KINDS.len());
                counts[kind] = short(d, counts[kind]);
            }
            3 | 4 => room[0] = short(d, room[0]),
            5 if h.borders > 1 => before.b[1] = before.b[0],
            _ => damage::damage_record(d, &mut before),
        }
        let mut l = LentTables::new(d, &before, counts);
        let marks = d.one_in(2).then_some(&marks[..]);
        let border = if d.one_in(4) { some } else { border };
        if let Err(refusal) = self.why(d, &mut l, marks, border, room) {
            if border != some && refusal.number != NO_BORDER {
                self.see(&format!("{} before 14", refusal.number));
            }
        }
    }
}

/// The ways to name a border that is none.
const NO_BORDERS: [&str; 8] = [
    "the one after the last",
    "a little beyond",
    "far beyond",
    "beyond by 6 bits",
    "beyond by 8 bits",
    "beyond by 16 bits",
    "beyond by 32 bits",
    "beyond by 63 bits",
];

/// What the library says of a border, and leaves.
struct Own<'a> {
    found: Explained,
    p: &'a [u64],
    ends: &'a [[i64; 2]],
    rows: &'a [[i64; 3]],
}

impl Own<'_> {
    /// None where the numbers bear each other out: the row that ended the rise holds the
    /// border at the end, and no row before the named one does; n, and what each row
    /// allows, are by p and what is left; each kept row's starting margin is p times what
    /// each border rose by, and what is left.
    fn fault(&self, l: &LentTables, rising: &[bool], border: usize) -> Option<String> {
        let h = l.header;
        let Explained { rounds, last, named, ended, .. } = self.found;
        let parts = second::margins(l.part(), h.rows).expect("an accepted table");
        let holding = (0..h.rows).find(|row| self.rows[*row][2] == 0).map_or(-1, |row| row as i64);
        let holds = ended < 0 || self.rows[ended as usize][2] == 0;
        if named != holding || !holds || rising[border] != (ended >= 0) || last > rounds || last > 0 && !rising[border] {
            return Some(format!("the rows do not bear {:?} out", self.found));
        }
        for row in 0..h.rows {
            let [n, left, allowed] = self.rows[row];
            let p = &self.p[row * h.borders..(row + 1) * h.borders];
            let sharers = p.iter().zip(rising).filter(|(p, rising)| **p > 0 && **rising).count() as i64;
            let own = p[border] as i64;
            let wanted = if rising[border] && own > 0 { left / n / own } else { -1 };
            let used = |(p, [from, to]): (&u64, &[i64; 2])| *p as i64 * (to - from);
            let start: i64 = p.iter().zip(self.ends).map(used).sum::<i64>() + left;
            let good = match parts[row][0] {
                0 => (n, allowed, start) == (sharers, wanted, parts[row][11]),
                _ => self.rows[row] == [0, -1, -1],
            };
            if !good {
                return Some(format!("row {row}: {:?} do not add up", self.rows[row]));
            }
        }
        None
    }
}

/// What must be seen.
pub fn wanted() -> Vec<(String, u64)> {
    let mut list = Vec::new();
    for name in [
        "longer room",
        "no room for p",
        "no room for borders",
        "no room for rows",
        "not marked",
        "the named row ended it",
        "another row ended it",
        "no round at all",
        "no round raised it",
        "raised until the last round",
        "raised in some rounds",
        "intraday",
        "one row holds it",
        "some rows hold it",
        "a row behind",
        "no row behind",
        "something is left",
    ] {
        list.push((format!("why, {name}"), 100));
    }
    for name in NO_BORDERS {
        list.push((format!("no border, {name}"), 100));
    }
    for number in [5, 6, 7] {
        list.push((format!("14 before {number}"), 100));
    }
    list.push(("13 before 14".to_string(), 500));
    for number in [3, 4, 8] {
        list.push((format!("{number} before 14"), 50));
    }
    list
}
