//! Marked borders: lists of marks, all borders, some of them, and each way to have a
//! list wrong.

use crate::dice::Dice;
use crate::lent::{needed, short, with_extra, Lent, LentTables, KINDS};
use crate::second::{self, Outcome, Refusal, Tables, INTRADAY, LTA};
use crate::{damage, e_number, make, with_marks, Comparison};

impl Comparison {
    // ---------------------------------------------------------- the calls

    fn extract_marked(
        &mut self,
        d: &mut Dice,
        l: &mut LentTables,
        marks: &[u64],
        room: [usize; 3],
    ) -> Result<Outcome, Refusal> {
        self.extract_by(d, l, Some(marks), room)
    }

    fn result_text_marked(
        &mut self,
        d: &mut Dice,
        l: &mut LentTables,
        marks: &[u64],
        room: usize,
    ) -> Result<Vec<u8>, Refusal> {
        let reference = second::result_text_marked(l.part(), marks, room);
        let call = "keravnoth_result_text_marked";
        let mut lent_marks = Lent::holding(d, marks, marks.len());
        let mut out = Lent::room(d, room);
        let found = self.bridge.result_text_marked(l.lend(), &mut lent_marks.whole, &mut out.whole);
        let shown = || with_marks(l.shown(), Some(marks));
        let found = self.said(call, found, &shown);
        let fault = lent_marks.fault("marks", &[]).or_else(|| l.fault());
        self.text_call(call, found, &out, &reference, fault, &shown);
        reference
    }

    /// `answer` is the reference's answer to the text.
    fn answer_marked(&mut self, d: &mut Dice, text: &[u8], marks: &[u64], answer: &[u8], room: usize) {
        let call = "keravnoth_answer_marked";
        let mut lent_text = Lent::holding(d, text, text.len());
        let mut lent_marks = Lent::holding(d, marks, marks.len());
        let mut out = Lent::room(d, room);
        let found = self.bridge.answer_marked(&mut lent_text.whole, &mut lent_marks.whole, &mut out.whole);
        let shown = || with_marks(text.to_vec(), Some(marks));
        let found = self.said(call, found, &shown);
        let fault = lent_text.fault("text", &[]).or_else(|| lent_marks.fault("marks", &[]));
        self.answer_call(call, found, &out, answer, fault, &shown);
    }

    // --------------------------------------------------------- good lists

    /// All borders marked, in any order, give the ordinary answer; and some of them,
    /// with room enough and too short.
    pub fn marked(&mut self, d: &mut Dice, t: &Tables, outcome: &Result<Outcome, Refusal>, answer: &[u8]) {
        let all = in_any_order(d, t.header.borders);
        let found = self.by_marks(d, t, &all);
        if found != (outcome.clone(), answer.to_vec()) {
            let details = format!("all borders marked, {all:?}: another result\nbefore {outcome:?}\nafter {found:?}");
            self.fail("keravnoth_extract_marked", &details, &damage::plain_text(t));
        }
        self.see(&format!("all marked, {}", number_of(outcome)));

        let some = some_marks(d, t);
        let (found, answer) = self.by_marks(d, t, &some);
        if let Ok(found) = &found {
            self.see_marked(t, &some, found, outcome);
        }
        if d.one_in(3) {
            self.shortening(d, t, Some(&some));
        }
        self.short_marked(d, t, &some, &answer);
    }

    /// The three calls with this list, with room enough: what the extraction gives,
    /// and the answer.
    fn by_marks(&mut self, d: &mut Dice, t: &Tables, marks: &[u64]) -> (Result<Outcome, Refusal>, Vec<u8>) {
        let h = t.header;
        let text = damage::plain_text(t);
        let answer = second::answer_marked(&text, marks);
        let counts = with_extra(d, needed(h));
        let mut l = LentTables::new(d, t, counts);
        let room = [h.rows * h.borders + d.below(3), h.borders + d.below(3), h.rows + d.below(3)];
        let outcome = self.extract_marked(d, &mut l, marks, room);
        let room = answer.len() + d.below(4);
        let result = self.result_text_marked(d, &mut l, marks, room);
        let room = answer.len() + d.below(4);
        self.answer_marked(d, &text, marks, &answer, room);
        if outcome.is_ok() && result.as_ref() != Ok(&answer) {
            self.fail("keravnoth_answer_marked", "the answer is not the result text", &text);
        }
        (outcome, answer)
    }

    /// Room that is too short, of p or of results.
    fn short_marked(&mut self, d: &mut Dice, t: &Tables, marks: &[u64], answer: &[u8]) {
        let h = t.header;
        let mut l = LentTables::new(d, t, needed(h));
        let p = h.rows * h.borders;
        let room = match d.below(4) {
            0 => [p, h.borders - 1, h.rows],
            1 => [p, h.borders, h.rows - 1],
            2 => [short(d, p), h.borders, h.rows],
            _ => [p + d.below(2), d.below(h.borders + 1), d.below(h.rows + 1)],
        };
        let _ = self.extract_marked(d, &mut l, marks, room);
        let room = short(d, answer.len());
        let _ = self.result_text_marked(d, &mut l, marks, room);
        let room = short(d, answer.len());
        self.answer_marked(d, &damage::plain_text(t), marks, answer, room);
    }

    /// What an accepted list of some borders shows, held against the ordinary answer.
    fn see_marked(&mut self, t: &Tables, marks: &[u64], found: &Outcome, ordinary: &Result<Outcome, Refusal>) {
        let h = t.header;
        let rising = rising(Some(marks), h.borders);
        if marks.len() < h.borders {
            self.see(match marks.len() {
                1 => "marked, one",
                some if some + 1 == h.borders => "marked, all but one",
                _ => "marked, some",
            });
        }
        if number_of(ordinary) == 6 {
            self.see("marked, where all would be refused with 6");
        }
        let loads = |row: usize, border: usize| found.p[row * h.borders + border] > 0;
        let unloaded = |row: usize| {
            found.rows[row].state == 0
                && (0..h.borders).any(|border| loads(row, border))
                && (0..h.borders).all(|border| !rising[border] || !loads(row, border))
        };
        if (0..h.rows).any(unloaded) {
            self.see("marked, a kept row that no marked border loads");
        }
        let above = |border: usize| h.intraday != INTRADAY && t.b[border][LTA] > 0 && !rising[border];
        if (0..h.borders).any(above) {
            self.see("marked, an unmarked border above 0");
        }
        if h.intraday == INTRADAY && marks.len() < h.borders {
            self.see("marked, intraday");
        }
        let Ok(ordinary) = ordinary else { return };
        if found.atc.iter().zip(&ordinary.atc).any(|(found, ordinary)| found > ordinary) {
            self.see("marked, an ATC above the ordinary one");
        }
        if found.rounds < ordinary.rounds {
            self.see("marked, fewer rounds than with all");
        }
        if (0..h.borders).any(|border| rising[border] && found.stop[border] != ordinary.stop[border]) {
            self.see("marked, another row stops a border");
        }
    }

    // ---------------------------------------------------------- bad lists

    /// A bad list, each way in turn: alone, and with each fault that comes before or
    /// after it.
    pub fn mark_tables(&mut self, number: u64) {
        self.kind = "table with bad marks";
        self.number = number;
        let mut dice = Dice::for_case(self.seed, 9, number);
        let d = &mut dice;
        let borders = 1 + d.below(6);
        let t = make::of_borders(d, borders);
        let h = t.header;
        let bad = bad_list(d, h.borders as u64, number % BAD_LISTS);
        let wanted = Refusal { number: 13, place: bad.place, byte: second::NO_BYTE };
        let (outcome, answer) = self.by_marks(d, &t, &bad.marks);
        if outcome != Err(wanted) || answer != second::refusal_text(wanted) {
            let details = format!("marks {:?}, {}: {outcome:?}, by the rules {wanted:?}", bad.marks, bad.name);
            self.fail("keravnoth_extract_marked", &details, &damage::plain_text(&t));
        }
        self.see(&format!("bad marks, {}", bad.name));
        let mut l = LentTables::new(d, &t, needed(h));
        // whatever the extraction would say of the table, and whatever the room
        if let Err(later) = second::extract(l.part(), usize::MAX, usize::MAX, usize::MAX) {
            self.see(&format!("13 before {}", later.number));
        }
        let room = [h.rows * h.borders, d.below(h.borders), d.below(h.rows + 1)];
        if self.extract_marked(d, &mut l, &bad.marks, room) != Err(wanted) {
            self.fail("keravnoth_extract_marked", "13 does not come before room for results", &l.shown());
        }
        self.see("13 before room for results");
        let _ = self.result_text_marked(d, &mut l, &bad.marks, 0);

        // what comes before it
        let mut before = t.clone();
        let mut counts = needed(h);
        let mut p = h.rows * h.borders;
        match d.below(8) {
            0 => damage::damage_header(d, &mut before.header),
            1 | 2 => {
                let kind = d.below(KINDS.len());
                counts[kind] = short(d, counts[kind]);
            }
            3 | 4 => p = short(d, p),
            _ => damage::damage_record(d, &mut before),
        }
        let mut l = LentTables::new(d, &before, counts);
        let marks = if d.one_in(4) { some_marks(d, &t) } else { bad.marks };
        let room = [p, h.borders, h.rows];
        let found = if d.one_in(2) {
            self.extract_marked(d, &mut l, &marks, room).err()
        } else {
            let room = second::result_text_marked(l.part(), &marks, usize::MAX).map_or(9, |text| text.len());
            self.result_text_marked(d, &mut l, &marks, room).err()
        };
        if let Some(refusal) = found {
            if marks_are_bad(&marks, h.borders) && refusal.number != 13 {
                self.see(&format!("{} before 13", refusal.number));
            }
        }
    }

    /// A text that is bad somewhere, with a list that is bad or not.
    pub fn marked_text(&mut self, d: &mut Dice, text: &[u8], borders: usize) {
        let marks = match d.below(3) {
            0 => in_any_order(d, borders),
            _ => {
                let way = d.below(BAD_LISTS as usize) as u64;
                bad_list(d, borders as u64, way).marks
            }
        };
        let answer = second::answer_marked(text, &marks);
        self.answer_marked(d, text, &marks, &answer, answer.len());
        if let (Some(number @ 1..=4), true) = (e_number(&answer), marks_are_bad(&marks, borders)) {
            self.see(&format!("text {number} before 13"));
        }
    }
}

/// Which borders rise: those of the list, or without a list all of them.
pub fn rising(marks: Option<&[u64]>, borders: usize) -> Vec<bool> {
    (0..borders as u64).map(|border| marks.is_none_or(|marks| marks.contains(&border))).collect()
}

pub fn number_of(outcome: &Result<Outcome, Refusal>) -> u32 {
    outcome.as_ref().err().map_or(0, |refusal| refusal.number)
}

fn marks_are_bad(marks: &[u64], borders: usize) -> bool {
    let bad = |at: usize| marks[at] >= borders as u64 || marks[..at].contains(&marks[at]);
    marks.is_empty() || (0..marks.len()).any(bad)
}

/// Every border once.
pub fn in_any_order(d: &mut Dice, borders: usize) -> Vec<u64> {
    let mut all: Vec<u64> = (0..borders as u64).collect();
    for at in (1..all.len()).rev() {
        all.swap(at, d.below(at + 1));
    }
    all
}

/// Some borders, one at least; often only such as load a row of 5% or more, so that
/// none of them is unlimited.
pub fn some_marks(d: &mut Dice, t: &Tables) -> Vec<u64> {
    let h = t.header;
    let mut marks = in_any_order(d, h.borders);
    if d.one_in(2) {
        let wide = |own: &[i64]| own.iter().max().unwrap() - own.iter().min().unwrap() >= 5_000;
        let rows: Vec<&[i64]> = t.f.chunks(h.zones).filter(|own| wide(own)).collect();
        let limited = |mark: &u64| rows.iter().any(|own| make::signed_factor(own, &t.b[*mark as usize]) > 0);
        let first = marks[0];
        marks.retain(limited);
        if marks.is_empty() {
            marks.push(first);
        }
    }
    let count = match d.below(4) {
        0 => 1,
        1 => marks.len().max(2) - 1,
        2 => marks.len(),
        _ => 1 + d.below(marks.len()),
    };
    marks.truncate(count);
    marks
}

/// A list with a fault: its name, and the position that is to be named.
pub struct BadList {
    pub name: &'static str,
    pub marks: Vec<u64>,
    pub place: usize,
}

/// How many ways there are to have one.
pub const BAD_LISTS: u64 = 18;

pub fn bad_list(d: &mut Dice, borders: u64, way: u64) -> BadList {
    let all = in_any_order(d, borders as usize);
    let some = d.below(borders as usize) as u64;
    // good marks in front of the fault
    let front = all[..d.below(all.len())].to_vec();
    let at = front.len() + 1;
    let then = |more: &[u64]| [&front, more].concat();
    let (name, marks, place) = match way {
        0 => ("none", vec![], 0),
        1 => ("the border after the last", then(&[borders]), at),
        2 => ("the border after the last, alone", vec![borders], 1),
        3 => ("far beyond", then(&[d.of(&[u64::MAX, u64::MAX - some, 1 << 63])]), at),
        4 => ("beyond by 8 bits", then(&[some + (1 << 8)]), at),
        5 => ("beyond by 16 bits", then(&[some + (1 << 16)]), at),
        6 => ("beyond by 32 bits", then(&[some + (1 << 32)]), at),
        7 => ("beyond by 63 bits", then(&[some + (1 << 63)]), at),
        8 => ("beyond by 6 bits", then(&[some + 64]), at),
        9 => ("beyond, then good ones", [&[borders][..], &all].concat(), 1),
        10 => ("twice, one behind the other", vec![some, some], 2),
        11 => ("the first again at the end", [&all[..], &[all[0]]].concat(), all.len() + 1),
        12 => ("the last again at the end", [&all[..], &[all[all.len() - 1]]].concat(), all.len() + 1),
        13 => ("all, then one beyond", [&all[..], &[borders]].concat(), all.len() + 1),
        14 => ("twice, then beyond", vec![some, some, borders], 2),
        15 => ("beyond, then twice", vec![borders, some, some], 1),
        16 => ("beyond twice", [&all[..], &[borders + 1, borders + 1]].concat(), all.len() + 1),
        _ => {
            // far more than there are borders
            let more: Vec<u64> = (0..60 + d.below(200)).map(|_| d.below(borders as usize) as u64).collect();
            ("far too many", [&all[..], &more].concat(), all.len() + 1)
        }
    };
    BadList { name, marks, place }
}
