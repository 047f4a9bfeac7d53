//! What is known before the rounds run: the hour's own bound, and what each row's
//! margin is made of.

use crate::calls::{Bounded, Judged};
use crate::dice::Dice;
use crate::lent::{needed, remainder, short, signed_factor, with_extra, Lent, LentTables, KINDS};
use crate::marks::{bad_list, in_any_order, number_of, some_marks, BAD_LISTS};
use crate::second::{self, Bound, Outcome, Parts, Refusal, Tables, INTRADAY, LTA, R_DASH};
use crate::{damage, make, with_marks, Comparison, NO_REFUSAL};

impl Comparison {
    // ---------------------------------------------------------- the calls

    pub fn bound(&mut self, d: &mut Dice, l: &mut LentTables, marks: Option<&[u64]>) -> Result<Bound, Refusal> {
        let (call, reference) = match marks {
            Some(marks) => ("keravnoth_bound_marked", second::bound_marked(l.part(), marks)),
            None => ("keravnoth_bound", second::bound(l.part())),
        };
        let mut lent_marks = marks.map(|marks| Lent::holding(d, marks, marks.len()));
        let given = lent_marks.as_mut().map(|lent| &mut lent.whole[..]);
        let found = self.bridge.bound(l.lend(), given);
        let shown = || with_marks(l.shown(), marks);
        let found = self.said(call, found, &shown);
        let none = Bound { sharers: 0, bits: 0, rounds: 0, sharp: 0 };
        let (Refusal { number, place, byte }, bound) = match reference {
            Ok(bound) => (NO_REFUSAL, bound),
            Err(refusal) => (refusal, none),
        };
        let Bound { sharers, bits, rounds, sharp } = bound;
        let wanted = Bounded { number: number.into(), place, byte, sharers, bits, rounds, sharp };
        self.count(call, number);
        if found != wanted {
            self.fail(call, &format!("library {found:?}\nreference {wanted:?}"), &shown());
        }
        let fault = lent_marks.and_then(|lent| lent.fault("marks", &[])).or_else(|| l.fault());
        if let Some(fault) = fault {
            self.fail(call, &format!("{fault}\nboth answer {wanted:?}"), &shown());
        }
        reference
    }

    fn margins(&mut self, d: &mut Dice, l: &mut LentTables, room: usize) -> Result<Vec<Parts>, Refusal> {
        let call = "keravnoth_margins";
        let reference = second::margins(l.part(), room);
        let mut parts = Lent::room(d, room);
        let found = self.bridge.margins(l.lend(), &mut parts.whole);
        let found = self.said(call, found, &|| l.shown());
        let (Refusal { number, place, byte }, wanted_parts): (Refusal, &[Parts]) = match &reference {
            Ok(parts) => (NO_REFUSAL, parts),
            Err(refusal) => (*refusal, &[]),
        };
        let wanted = Judged { number: number.into(), place, byte };
        self.count(call, number);
        if found != wanted {
            let details = format!("library {found:?}\nreference {wanted:?}\nroom {room}");
            self.fail(call, &details, &l.shown());
        }
        let fault = parts.fault("parts", wanted_parts).or_else(|| l.fault());
        if let Some(fault) = fault {
            self.fail(call, &format!("{fault}\nboth answer {wanted:?}\nroom {room}"), &l.shown());
        }
        if let Ok(rows) = &reference {
            self.adds_up(l, &parts.part()[..rows.len()]);
            if room > rows.len() {
                self.see("margins, longer room");
            }
        }
        reference
    }

    // -------------------------------------------------------- good tables

    /// The bound without marks, with all and with some, each held against the rounds;
    /// the margins, with room enough and too short.
    pub fn known(&mut self, d: &mut Dice, t: &Tables, outcome: &Result<Outcome, Refusal>) {
        let h = t.header;
        let counts = with_extra(d, needed(h));
        let mut l = LentTables::new(d, t, counts);
        let ordinary = self.bound(d, &mut l, None);
        self.bounds(t, None, ordinary, outcome);
        let all = in_any_order(d, h.borders);
        let with_all = self.bound(d, &mut l, Some(&all));
        self.bounds(t, Some(&all), with_all, outcome);
        let some = some_marks(d, t);
        let marked = second::extract_marked(t.lend(), &some, usize::MAX, usize::MAX, usize::MAX);
        let with_some = self.bound(d, &mut l, Some(&some));
        self.bounds(t, Some(&some), with_some, &marked);
        if let (Ok(ordinary), Ok(with_some)) = (&ordinary, &with_some) {
            if some.len() < h.borders {
                let less = with_some.rounds < ordinary.rounds;
                self.see(if less { "bound, smaller with marks" } else { "bound, as many as with marks" });
                if with_some.sharp < ordinary.sharp {
                    self.see("sharp bound, smaller with marks");
                }
            }
        }

        let room = h.rows + d.below(3);
        let parts = self.margins(d, &mut l, room);
        if let Ok(parts) = &parts {
            self.see(&format!("margins, extraction {}", number_of(outcome)));
            // the extraction has the same states and RAMs, and starts where they end
            if let Ok(outcome) = outcome {
                let same = |(parts, out): (&Parts, &second::RowOut)| {
                    (parts[0], i128::from(parts[10])) == (i64::from(out.state), out.ram)
                };
                if !parts.iter().zip(&outcome.rows).all(same) {
                    self.fail("keravnoth_margins", "not the states and RAMs of the result", &l.shown());
                }
            }
        }
        let room = short(d, h.rows);
        if self.margins(d, &mut l, room).is_err_and(|refusal| refusal.number == 8) {
            self.see("margins, no room");
        }
    }

    /// The bound is refused as the extraction is, or the rounds are at most as many, by the
    /// sharp bound, which is at most 2 N L.
    pub fn bounds(
        &mut self,
        t: &Tables,
        marks: Option<&[u64]>,
        bound: Result<Bound, Refusal>,
        outcome: &Result<Outcome, Refusal>,
    ) {
        let good = match (&bound, outcome) {
            (Ok(bound), Ok(outcome)) => {
                bound.rounds == 2 * bound.sharers * bound.bits
                    && outcome.rounds <= bound.sharp
                    && bound.sharp <= bound.rounds
                    && bound.sharers == outcome.n_most as u64
                    && bound.bits == u64::from(outcome.l_bits)
            }
            (Err(bound), Err(outcome)) => bound == outcome,
            _ => false,
        };
        if !good {
            let details = format!("bound {bound:?}, extraction {outcome:?}");
            self.fail("keravnoth_bound", &details, &with_marks(damage::plain_text(t), marks));
        }
        let (Ok(bound), Ok(outcome)) = (bound, outcome) else { return };
        if bound.bits == 0 {
            self.see("bound, L 0");
        }
        if t.header.intraday == INTRADAY {
            self.see("bound, intraday");
        }
        if bound.rounds > 1_000 {
            self.see("bound, over 1000");
        }
        if outcome.rounds * 10 > bound.rounds {
            self.see("bound, rounds over a tenth of it");
        }
        self.see(match bound.sharp {
            0 => "sharp bound 0",
            sharp if sharp == outcome.rounds => "sharp bound, as many rounds",
            _ => "sharp bound, between the two",
        });
        if bound.sharp == 0 && bound.bits > 0 {
            self.see("sharp bound 0, L above 0");
        }
    }

    /// The library's own numbers: each is what the others and the tables make of it.
    fn adds_up(&mut self, l: &LentTables, parts: &[Parts]) {
        let h = l.header;
        for (row, parts) in parts.iter().enumerate() {
            let [fmax, frm, _, f0all, r, cva, iva] = l.c.part()[row].map(|kw| i128::from(kw) * 100_000);
            let [state, n, f0core, fuaf, base, amr, s, lta, own_cva, own_iva, ram, start] = parts.map(i128::from);
            let p: Vec<i128> = (0..h.borders).map(|border| i128::from(signed_factor(l, row, border).max(0))).collect();
            let used: i128 = p.iter().zip(l.b.part()).map(|(p, b)| p * i128::from(b[LTA]) * 1_000).sum();
            let r = match l.c.part()[row][4] {
                R_DASH => i128::from(second::default_of(&h)),
                _ => r / 100_000,
            };
            // RAM is the largest of four, less CVA and IVA
            let largest = base.max(fmax / 10_000 * r - fuaf).max(fmax / 5).max(s);
            let from = remainder(l, row, parts[10]).map_or(ram - s, |remainder| remainder.max(0));
            let good = (0..=2).contains(&state)
                && n == p.iter().filter(|p| **p > 0).count() as i128
                && fuaf == f0core - f0all
                && base == fmax - frm - f0core
                && amr >= 0
                && s == used
                && lta >= 0
                && (own_cva, own_iva) == (cva, iva)
                && ram == base + amr + lta - cva - iva
                && ram == largest - cva - iva
                && start == from;
            if !good {
                self.fail("keravnoth_margins", &format!("row {row}: {parts:?} do not add up"), &l.shown());
            }
            self.see(&format!("margins, state {state}"));
            if h.intraday == INTRADAY {
                self.see("margins, intraday");
            }
            for (name, seen) in [
                ("a start below 0", start < 0),
                ("a start of 0", start == 0),
                ("an AMR", amr > 0),
                ("an LTA margin", lta > 0),
                ("CVA or IVA", cva + iva > 0),
                ("n 0", n == 0),
            ] {
                if seen {
                    self.see(&format!("margins, {name}"));
                }
            }
        }
    }

    /// A table of a few kW, for which each kW of the sharp bound tells.
    pub fn few_kw(&mut self, number: u64) {
        self.kind = "table of a few kW";
        self.number = number;
        let mut dice = Dice::for_case(self.seed, 25, number);
        let d = &mut dice;
        let t = make::few_kw(d);
        let h = t.header;
        let mut l = LentTables::new(d, &t, needed(h));
        let outcome = self.extract(d, &mut l, [h.rows * h.borders, h.borders, h.rows]);
        self.known(d, &t, &outcome);
        if let Ok(outcome) = outcome {
            self.see(if outcome.sharp == outcome.rounds { "few kW, as many rounds" } else { "few kW, fewer rounds" });
        }
    }

    // ---------------------------------------------------------- bad tables

    /// A bad list of marks, each way in turn, alone and with what comes before it; bad
    /// tables and short ones for all three calls.
    pub fn known_tables(&mut self, number: u64) {
        self.kind = "table for the bound";
        self.number = number;
        let mut dice = Dice::for_case(self.seed, 12, number);
        let d = &mut dice;
        let borders = 1 + d.below(6);
        let t = make::of_borders(d, borders);
        let h = t.header;
        let bad = bad_list(d, h.borders as u64, number % BAD_LISTS);
        let mut l = LentTables::new(d, &t, needed(h));
        let wanted = Refusal { number: 13, place: bad.place, byte: second::NO_BYTE };
        let found = self.bound(d, &mut l, Some(&bad.marks));
        if found != Err(wanted) {
            let details = format!("marks {:?}, {}: {found:?}, by the rules {wanted:?}", bad.marks, bad.name);
            self.fail("keravnoth_bound_marked", &details, &l.shown());
        }
        self.see(&format!("bound, bad marks, {}", bad.name));

        let mut before = t.clone();
        let mut counts = needed(h);
        match d.below(8) {
            0 => damage::damage_header(d, &mut before.header),
            1..=3 => {
                let kind = d.below(KINDS.len());
                counts[kind] = short(d, counts[kind]);
            }
            4 if h.borders > 1 => before.b[1] = before.b[0],
            _ => damage::damage_record(d, &mut before),
        }
        let mut l = LentTables::new(d, &before, counts);
        let _ = self.bound(d, &mut l, None);
        let found = self.bound(d, &mut l, Some(&bad.marks));
        if let Err(Refusal { number: number @ (3 | 4 | 8), .. }) = found {
            self.see(&format!("bound, {number} before 13"));
        }
        let room = if d.one_in(2) { short(d, h.rows) } else { h.rows };
        let found = self.margins(d, &mut l, room);
        if let (Err(refusal), true) = (found, room < h.rows) {
            // the room's own refusal is one of these where nothing else is wrong
            if second::judge(l.part()).is_err() {
                self.see(&format!("margins, {} before the room", refusal.number));
            }
        }
    }
}
