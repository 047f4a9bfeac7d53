//! What is promised of an answer, checked by the calculator's own numbers and not
//! only by the reference's: factors by border, corners, demand 3, the row that
//! stopped a border, the default of R, shortening.

use crate::calls::Extracted;
use crate::dice::Dice;
use crate::lent::{needed, remainder, signed_factor, LentTables};
use crate::marks::rising;
use crate::second::{self, Outcome, Refusal, Tables};
use crate::second::{INTRADAY, LTA, NO_SHARE, R_DASH};
use crate::{damage, make, Comparison};

/// No table at all has more rounds, nor one with T lines; the documents' own numbers,
/// 6,144 and 6,272, are larger.
const MOST_ROUNDS: u64 = 1_852;
const MOST_ROUNDS_INTRADAY: u64 = 1_910;

impl Comparison {
    // --------------------------------------------------- factors by border

    /// The library's own p at every row and border is what the zone factors
    /// give, 0 on rows not kept; and it accounts for each kept row's margin.
    pub fn p_is_p(&mut self, l: &LentTables, p: &[u64], left: &[[i64; 3]], outcome: &Outcome) {
        let borders = l.header.borders;
        for row in 0..l.header.rows {
            let [state, ram, margin] = left[row];
            let mut load: i128 = 0;
            for border in 0..borders {
                let found = p[row * borders + border];
                let own = if state == 0 { signed_factor(l, row, border).max(0) as u64 } else { 0 };
                if found != own {
                    let details = format!("row {row}, border {border}: p is {found}, by the zone factors {own}");
                    self.fail("keravnoth_extract", &details, &l.shown());
                }
                load += i128::from(found) * i128::from(outcome.kw[border]);
            }
            let whole = remainder(l, row, ram).map_or(i128::from(ram), |remainder| remainder.max(0));
            if state == 0 && whole - load != i128::from(margin) {
                let details = format!("row {row}: {whole} less p times exchange is not the margin left, {margin}");
                self.fail("keravnoth_extract", &details, &l.shown());
            }
        }
        if p.len() > l.header.rows * borders {
            self.see("p longer than needed");
        }
        if outcome.rows.iter().any(|row| row.state != 0) {
            self.see("p of a row not kept");
        }
    }

    // -------------------------------------------------------- corner sheet

    /// The largest of the library's own flows is the sum of p times LTA.
    pub fn largest_is_s(&mut self, l: &LentTables, row: usize, flows: &[i64]) {
        self.corners += flows.len() as u64;
        let mut s: i128 = 0;
        for border in 0..l.header.borders {
            let p = signed_factor(l, row, border).max(0);
            s += i128::from(p) * i128::from(l.b.part()[border][LTA]) * 1_000;
        }
        let largest = flows.iter().max().map(|flow| i128::from(*flow));
        if largest != Some(s) {
            let details = format!("row {row}: the largest flow is {largest:?}, S is {s}");
            self.fail("keravnoth_corner_flows", &details, &l.shown());
        }
        self.see(&format!("sheet flows of {} borders", l.header.borders));
        if flows.iter().any(|flow| *flow < 0) {
            self.see("sheet with a flow below 0");
        }
        let at = flows.iter().position(|flow| i128::from(*flow) == s);
        if at.is_some_and(|at| 0 < at && at + 1 < flows.len()) {
            self.see("sheet whose largest flow is within");
        }
    }

    // ------------------------------------------------------------ demand 3

    /// Exchanges up to the library's own ATCs load no kept row beyond its RAM, or,
    /// intraday, beyond its remainder, and one without remainder not at all.
    pub fn demand_3(
        &mut self,
        d: &mut Dice,
        l: &LentTables,
        atc: &[[i64; 3]],
        left: &[[i64; 3]],
    ) {
        let borders = l.header.borders;
        let tops: Vec<i64> = (0..borders).map(|border| atc[border][0] * 1_000).collect();
        self.within_margins(l, left, &tops);
        for border in 0..borders {
            let mut alone = vec![0; borders];
            alone[border] = tops[border];
            self.within_margins(l, left, &alone);
        }
        for _ in 0..4 {
            let exchanges: Vec<i64> = tops
                .iter()
                .map(|top| match d.below(4) {
                    0 => 0,
                    1 => *top,
                    _ => d.within(0, *top),
                })
                .collect();
            self.within_margins(l, left, &exchanges);
        }
        // for one row: the borders that load it at the top, the others at 0
        for _ in 0..4 {
            let row = d.below(l.header.rows);
            let exchanges: Vec<i64> = (0..borders)
                .map(|border| if signed_factor(l, row, border) > 0 { tops[border] } else { 0 })
                .collect();
            self.within_margins(l, left, &exchanges);
        }
    }

    /// The library's own rounds are at most the sharp bound, and that at most 2 N L, over
    /// the borders that rise, by its own p and RAM.
    pub fn bound_holds(
        &mut self,
        l: &LentTables,
        rising: &[bool],
        found: Extracted,
        p: &[u64],
        left: &[[i64; 3]],
        outcome: &Outcome,
    ) {
        let h = l.header;
        let (mut n_most, mut l_bits) = (0, 0);
        let mut alone: Vec<Option<i128>> = vec![None; h.borders];
        let mut reach = alone.clone();
        for row in (0..h.rows).filter(|row| left[*row][0] == 0) {
            let own = &p[row * h.borders..(row + 1) * h.borders];
            let used: i128 = own.iter().zip(l.b.part()).map(|(p, b)| i128::from(*p) * i128::from(b[LTA]) * 1_000).sum();
            let ram = i128::from(left[row][1]);
            let margin = remainder(l, row, left[row][1]).map_or(ram - used, |remainder| remainder.max(0));
            let sharers: Vec<usize> = (0..h.borders).filter(|border| rising[*border] && own[*border] > 0).collect();
            n_most = n_most.max(sharers.len());
            for border in &sharers {
                let raise = margin / i128::from(own[*border]);
                let least = |so_far: Option<i128>, value: i128| Some(so_far.map_or(value, |least| least.min(value)));
                alone[*border] = least(alone[*border], raise);
                // from the row's first share of one kW for each on, so many kW
                reach[*border] = least(reach[*border], (raise + 1 - sharers.len() as i128).max(0));
            }
        }
        while alone.iter().flatten().any(|raise| *raise >= 1 << l_bits) {
            l_bits += 1;
        }
        if (n_most, l_bits) != (outcome.n_most, outcome.l_bits) {
            let details = format!("N {n_most}, L {l_bits}; reference N {}, L {}", outcome.n_most, outcome.l_bits);
            self.fail("keravnoth_extract", &details, &l.shown());
        }
        // u less its N-th part, rounded up, is N - 1 of N parts of u, rounded down
        let (mut u, mut sharp) = (reach.into_iter().flatten().max().unwrap_or(0), 0);
        while u > 0 {
            u = u * (n_most as i128 - 1) / n_most as i128;
            sharp += 1;
        }
        let bound = 2 * n_most as u64 * u64::from(l_bits);
        let most = if h.intraday == INTRADAY { MOST_ROUNDS_INTRADAY } else { MOST_ROUNDS };
        if found.rounds > sharp || sharp > bound || found.rounds > most || sharp != outcome.sharp {
            let details = format!(
                "{} rounds, sharp bound {sharp}, 2 N L = {bound}, at most {most}; reference's sharp bound {}",
                found.rounds, outcome.sharp
            );
            self.fail("keravnoth_extract", &details, &l.shown());
        }
    }

    fn within_margins(&mut self, l: &LentTables, left: &[[i64; 3]], exchanges: &[i64]) {
        self.exchanges += 1;
        for row in 0..l.header.rows {
            let [state, ram, _] = left[row];
            if state != 0 {
                continue;
            }
            let mut load: i128 = 0;
            for (border, exchange) in exchanges.iter().enumerate() {
                load += i128::from(signed_factor(l, row, border)) * i128::from(*exchange);
            }
            // "bring no kept row with a remainder above or at 0 over RAM, and add no load
            // to any kept row whose remainder was negative"
            let most = remainder(l, row, ram).map_or(i128::from(ram), |remainder| remainder.max(0));
            if load > most {
                let details = format!("exchanges {exchanges:?} kW load row {row} with {load} grains, at most {most}");
                self.fail("keravnoth_extract", &details, &l.shown());
            }
        }
    }

    // ------------------------------------------ which row stopped a border

    /// By the library's own numbers: the row named for a border that rises is kept,
    /// has p > 0 and a share under one kW, and none before it is so; the other borders
    /// have none and never rose; some border rose in the last round, none after it.
    pub fn stopped(
        &mut self,
        l: &LentTables,
        rising: &[bool],
        found: Extracted,
        p: &[u64],
        atc: &[[i64; 3]],
        left: &[[i64; 3]],
    ) {
        let h = l.header;
        let stops = |row: usize, border: usize| {
            let own = &p[row * h.borders..(row + 1) * h.borders];
            let n = own.iter().zip(rising).filter(|(p, rising)| **p > 0 && **rising).count() as i64;
            left[row][0] == 0 && own[border] > 0 && left[row][2] / n / own[border] as i64 == 0
        };
        for border in 0..h.borders {
            let [mw, last, row] = atc[border];
            if !rising[border] && [last, row] != [0, -1] {
                let details = format!("border {border} does not rise, and has last round {last}, row {row}");
                self.fail("keravnoth_extract", &details, &l.shown());
            }
            let first = (0..h.rows).find(|row| rising[border] && stops(*row, border));
            if rising[border] && first.is_none_or(|first| row != first as i64) {
                let details = format!("border {border}: row {row}, by the margins left {first:?}");
                self.fail("keravnoth_extract", &details, &l.shown());
            }
            let start = if h.intraday == INTRADAY { 0 } else { l.b.part()[border][LTA] };
            if last == 0 && mw != start {
                let details = format!("border {border} is at {mw}, not at {start}, and never rose");
                self.fail("keravnoth_extract", &details, &l.shown());
            }
        }
        let last = (0..h.borders).map(|border| atc[border][1] as u64).max();
        if last != Some(found.rounds) {
            let details = format!("the last round that raised a border is {last:?} of {}", found.rounds);
            self.fail("keravnoth_extract", &details, &l.shown());
        }
    }

    // ---------------------------------------------------- the default of R

    /// Every "-" replaced by the default in force changes no result, nor does
    /// writing the default where none was written; where no row has "-", any
    /// default gives the same.
    pub fn defaults(&mut self, d: &mut Dice, t: &Tables, outcome: &Result<Outcome, Refusal>, answer: &[u8]) {
        let mut other = t.clone();
        let dashes = t.c.iter().filter(|record| record[4] == R_DASH).count();
        let name = if dashes == 0 {
            other.header.share = d.of(&[NO_SHARE, 0, 7_000, 10_000]);
            "any default without \"-\""
        } else if t.header.share == NO_SHARE && d.one_in(3) {
            other.header.share = 7_000;
            "7000 written"
        } else {
            let default = second::default_of(&t.header);
            for record in other.c.iter_mut().filter(|record| record[4] == R_DASH) {
                record[4] = default;
            }
            if t.header.share == NO_SHARE {
                "\"-\" replaced by 7000"
            } else {
                "\"-\" replaced by the default"
            }
        };
        let h = other.header;
        let mut l = LentTables::new(d, &other, needed(h));
        let found = self.extract(d, &mut l, [h.rows * h.borders, h.borders, h.rows]);
        let text = damage::plain_text(&other);
        let found_answer = second::answer(&text);
        self.answer(d, &text, &found_answer, found_answer.len());
        if found != *outcome || found_answer != answer {
            let details = format!("{name}: another result\nbefore {outcome:?}\nafter {found:?}");
            self.fail("keravnoth_extract", &details, &damage::plain_text(t));
        }
        self.see(name);
    }

    // -------------------------------------------- shortening costs nothing

    /// The table without its rows of state 2, and with its rows in another order,
    /// gives the same ATCs and rounds, or the same refusal number; so does the
    /// extraction over all rows of states 0 and 2.  With a list of marks, or without.
    pub fn shortening(&mut self, d: &mut Dice, t: &Tables, marks: Option<&[u64]>) {
        let h = t.header;
        let with = if marks.is_some() { ", marked" } else { "" };
        let whole = self.of_rows(d, t, &(0..h.rows).collect::<Vec<usize>>(), marks);
        self.over_states_0_and_2(&format!("over states 0 and 2{with}"), t, &rising(marks, h.borders), &whole);

        let rows: Vec<usize> = (0..h.rows).filter(|row| !state_2(t, *row)).collect();
        if rows.len() < h.rows {
            let short = self.of_rows(d, t, &rows, marks);
            self.same_result(&format!("without the rows of state 2{with}"), t, &whole, &short);
            if let (Ok(whole), Ok(short)) = (&whole, &short) {
                // the rows that are left are those that took part, numbered anew
                let left = short.rows.iter().zip(&rows).all(|(out, row)| *out == whole.rows[*row]);
                let stop = (0..h.borders).all(|border| short.stop[border].map(|row| rows[row]) == whole.stop[border]);
                if !left || !stop {
                    self.fail("keravnoth_extract", "without the rows of state 2: other margins or rows", &damage::plain_text(t));
                }
            }
        }

        let mut rows: Vec<usize> = (0..h.rows).collect();
        for at in (1..rows.len()).rev() {
            rows.swap(at, d.below(at + 1));
        }
        let other = self.of_rows(d, t, &rows, marks);
        self.same_result(&format!("in another order{with}"), t, &whole, &other);
        if let (Ok(whole), Ok(other)) = (&whole, &other) {
            if (0..h.rows).any(|row| other.rows[row].state != whole.rows[rows[row]].state) {
                self.see("in another order, another row of a class is kept");
            }
        }
    }

    /// The extraction of the table that has these rows of this one, in this order.
    fn of_rows(
        &mut self,
        d: &mut Dice,
        t: &Tables,
        rows: &[usize],
        marks: Option<&[u64]>,
    ) -> Result<Outcome, Refusal> {
        let zones = t.header.zones;
        let mut part = t.clone();
        part.header.rows = rows.len();
        part.c = rows.iter().map(|row| t.c[*row]).collect();
        part.f = rows.iter().flat_map(|row| &t.f[row * zones..(row + 1) * zones]).copied().collect();
        let h = part.header;
        let mut l = LentTables::new(d, &part, needed(h));
        self.extract_by(d, &mut l, marks, [h.rows * h.borders, h.borders, h.rows])
    }

    /// The same ATCs, rounds and last rounds, or the same refusal number.
    fn same_result(
        &mut self,
        name: &str,
        t: &Tables,
        before: &Result<Outcome, Refusal>,
        after: &Result<Outcome, Refusal>,
    ) {
        let same = match (before, after) {
            (Ok(before), Ok(after)) => {
                (&before.atc, before.rounds, &before.last) == (&after.atc, after.rounds, &after.last)
            }
            (Err(before), Err(after)) => before.number == after.number,
            _ => false,
        };
        if !same {
            let details = format!("{name}: another result\nbefore {before:?}\nafter {after:?}");
            self.fail("keravnoth_extract", &details, &damage::plain_text(t));
        }
        self.see_shortened(name, t.header, before);
    }

    /// By the rules alone, over every row that is not of state 1, whatever is
    /// parallel to it.
    fn over_states_0_and_2(
        &mut self,
        name: &str,
        t: &Tables,
        rising: &[bool],
        outcome: &Result<Outcome, Refusal>,
    ) {
        let wanted = match outcome {
            Ok(outcome) => Ok((outcome.atc.clone(), outcome.rounds)),
            Err(refusal) => Err(refusal.number),
        };
        if matches!(wanted, Err(4)) {
            return;
        }
        let found = over_wide_rows(t, rising);
        if found != wanted {
            let details = format!("over states 0 and 2: {found:?}, over state 0 {wanted:?}");
            self.fail("keravnoth_extract", &details, &damage::plain_text(t));
        }
        self.see_shortened(name, t.header, outcome);
    }
}

/// Another row has the same factors but for one number in every zone, and a lower
/// RAM, or the same and a lower index; and the row is not of state 1.
fn state_2(t: &Tables, row: usize) -> bool {
    let zones = t.header.zones;
    let own = factors(t, row);
    let ram = second::margin_of(t, row).ram;
    wide(own)
        && (0..t.header.rows).filter(|other| *other != row).any(|other| {
            let like = factors(t, other);
            let parallel = (0..zones).all(|zone| like[zone] - own[zone] == like[0] - own[0]);
            parallel && (second::margin_of(t, other).ram, other) < (ram, row)
        })
}

pub fn factors(t: &Tables, row: usize) -> &[i64] {
    &t.f[row * t.header.zones..(row + 1) * t.header.zones]
}

/// Not of state 1.
fn wide(factors: &[i64]) -> bool {
    factors.iter().max().unwrap() - factors.iter().min().unwrap() >= 5_000
}

/// ATCs and rounds, or the refusal number, where every row of states 0 and 2 takes
/// part and these borders rise.
fn over_wide_rows(t: &Tables, rising: &[bool]) -> Result<(Vec<u64>, u64), u32> {
    let h = t.header;
    let rows: Vec<usize> = (0..h.rows).filter(|row| wide(factors(t, *row))).collect();
    let p = |row: usize, border: usize| i128::from(make::signed_factor(factors(t, row), &t.b[border]).max(0));
    let mut margins: Vec<i128> = rows
        .iter()
        .map(|row| {
            let margin = second::margin_of(t, *row);
            match h.intraday {
                INTRADAY => second::remainder_of(t, *row, margin.ram).max(0),
                _ => margin.ram - margin.s,
            }
        })
        .collect();
    if rows.is_empty() {
        return Err(5);
    }
    if (0..h.borders).any(|border| rising[border] && rows.iter().all(|row| p(*row, border) == 0)) {
        return Err(6);
    }
    if margins.iter().any(|margin| *margin < 0) {
        return Err(7);
    }
    // p of every border that rises, and n, row by row
    let share = |row: usize, border: usize| if rising[border] { p(row, border) } else { 0 };
    let shares: Vec<Vec<i128>> =
        rows.iter().map(|row| (0..h.borders).map(|border| share(*row, border)).collect()).collect();
    let n: Vec<i128> = shares.iter().map(|p| p.iter().filter(|p| **p > 0).count() as i128).collect();
    let start = |border: usize| if h.intraday == INTRADAY { 0 } else { i128::from(t.b[border][LTA]) * 1_000 };
    let mut kw: Vec<i128> = (0..h.borders).map(start).collect();
    let mut rounds = 0;
    loop {
        let raise = |border: usize| {
            let loaded = (0..rows.len()).filter(|row| shares[*row][border] > 0);
            loaded.map(|row| margins[row] / n[row] / shares[row][border]).min().unwrap_or(0)
        };
        let raises: Vec<i128> = (0..h.borders).map(raise).collect();
        if raises.iter().all(|raise| *raise == 0) {
            break;
        }
        for (kw, raise) in kw.iter_mut().zip(&raises) {
            *kw += raise;
        }
        for (margin, p) in margins.iter_mut().zip(&shares) {
            *margin -= p.iter().zip(&raises).map(|(p, raise)| p * raise).sum::<i128>();
        }
        rounds += 1;
    }
    Ok((kw.iter().map(|kw| (kw / 1_000) as u64).collect(), rounds))
}
