//! The moves of slowest.rs: each changes a table in one place or a few, within the ranges of the rules.

use crate::dice::Dice;
use crate::second::{without_hubs, Header, Tables, MOST_BORDERS, MOST_ROWS, MOST_ZONES, NO_HUB, NO_SHARE, NO_T};
use std::ops::Range;

pub type Move = fn(&mut Dice, &mut Tables);
pub const MOVES: [(&str, Move); 10] = [
    ("a factor", change_factor),
    ("a row's factors", shift_row),
    ("a row once more", copy_row),
    ("two rows", swap_rows),
    ("a border", change_border),
    ("a value", change_value),
    ("margins", change_margins),
    ("a position", change_position),
    ("an allocated position", change_allocated),
    ("size", grow),
];

const FMAX: usize = 0;
const FRM: usize = 1;
const FREF: usize = 2;
const CVA: usize = 5;
const IVA: usize = 6;
const C_RANGES: [(i64, i64); 7] =
    [(1, 10_000_000), (0, 10_000_000), (-20_000_000, 20_000_000), (-20_000_000, 20_000_000), (-1, 10_000), (0, 10_000_000), (0, 10_000_000)];
const POSITION_MOST: i64 = 100_000_000;
const FACTOR_MOST: i64 = 100_000;
const LTA_MOST: i64 = 10_000;

/// An end of the range, or a value near the old one, by a power of ten.
fn near(d: &mut Dice, was: i64, (low, high): (i64, i64)) -> i64 {
    let by = 10i64.pow(d.below(9) as u32);
    match d.below(8) {
        0 => low,
        1 => high,
        _ => (was + d.within(-by, by)).clamp(low, high),
    }
}

/// A row, or the rows from one to another, or all up to one.
pub fn stretch(d: &mut Dice, rows: usize) -> Range<usize> {
    let (one, other) = (d.below(rows), d.below(rows));
    match d.below(3) {
        0 => one..one + 1,
        1 => one.min(other)..one.max(other) + 1,
        _ => 0..one + 1,
    }
}

/// Takes so many kW off a row's margin, or gives them, as far as CVA, IVA and Fref go.
fn take(c: &mut [i64; 7], mut kw: i64) {
    for place in [CVA, IVA, FREF] {
        let (low, high) = C_RANGES[place];
        let part = kw.clamp(low - c[place], high - c[place]);
        c[place] += part;
        kw -= part;
    }
}

/// Takes off the margins of some rows what the rounds left to them, `left` in grains.
pub fn take_left(t: &mut Tables, left: &[u64], rows: Range<usize>) {
    for i in rows {
        take(&mut t.c[i], (left[i] / 100_000) as i64);
    }
}

/// Near what it was, or near that of another zone.
fn change_factor(d: &mut Dice, t: &mut Tables) {
    let Header { zones, rows, .. } = t.header;
    let own = d.below(rows) * zones;
    let (zone, other) = (d.below(zones), d.below(zones));
    let like = if d.one_in(2) { zone } else { other };
    t.f[own + zone] = near(d, t.f[own + like], (-FACTOR_MOST, FACTOR_MOST));
}

/// All by the same number: that changes the row's margin alone.
fn shift_row(d: &mut Dice, t: &mut Tables) {
    let zones = t.header.zones;
    let own = d.below(t.header.rows) * zones;
    let by = near(d, 0, (-1_000, 1_000));
    for factor in &mut t.f[own..own + zones] {
        *factor = (*factor + by).clamp(-FACTOR_MOST, FACTOR_MOST);
    }
}

/// In the place of another, with one factor a little changed, so that both are kept.
fn copy_row(d: &mut Dice, t: &mut Tables) {
    let Header { zones, rows, .. } = t.header;
    let (from, to) = (d.below(rows), d.below(rows));
    t.c[to] = t.c[from];
    t.f.copy_within(from * zones..(from + 1) * zones, to * zones);
    let factor = &mut t.f[to * zones + d.below(zones)];
    *factor = (*factor + d.within(-3, 3)).clamp(-FACTOR_MOST, FACTOR_MOST);
}

fn swap_rows(d: &mut Dice, t: &mut Tables) {
    let Header { zones, rows, .. } = t.header;
    let (one, other) = (d.below(rows), d.below(rows));
    t.c.swap(one, other);
    (0..zones).for_each(|zone| t.f.swap(one * zones + zone, other * zones + zone));
}

/// A zone or a hub of it, its hubs given or taken away, or its LTA.
fn change_border(d: &mut Dice, t: &mut Tables) {
    let zones = t.header.zones;
    let border = &mut t.b[d.below(t.header.borders)];
    match d.below(8) {
        0 => *border = without_hubs(border[0], border[1], border[2]),
        1 => *border = [border[0], border[1], border[2], d.below(zones) as i64, d.below(zones) as i64],
        2 => border[2] = near(d, border[2], (0, LTA_MOST)),
        _ => {
            let place = if border[3] == NO_HUB { d.of(&[0, 1]) } else { d.of(&[0, 1, 3, 4]) };
            border[place] = d.below(zones) as i64;
        }
    }
}

fn change_value(d: &mut Dice, t: &mut Tables) {
    let c = &mut t.c[d.below(t.header.rows)];
    let place = d.below(C_RANGES.len());
    c[place] = near(d, c[place], C_RANGES[place]);
    c[FRM] = c[FRM].min(c[FMAX]);
}

fn change_margins(d: &mut Dice, t: &mut Tables) {
    let rows = stretch(d, t.header.rows);
    let most = 10i64.pow(d.below(5) as u32);
    let kw = d.within(-most, most);
    t.c[rows].iter_mut().for_each(|c| take(c, kw));
}

fn change_position(d: &mut Dice, t: &mut Tables) {
    let zone = d.below(t.header.zones);
    t.z[zone] = near(d, t.z[zone], (-POSITION_MOST, POSITION_MOST));
}

/// From one zone to another. A table keeps its profile: without T lines a reference position moves instead.
fn change_allocated(d: &mut Dice, t: &mut Tables) {
    if t.t.is_empty() {
        return change_position(d, t);
    }
    let (one, other) = (d.below(t.t.len()), d.below(t.t.len()));
    let by = near(d, t.t[one], (-POSITION_MOST, POSITION_MOST)) - t.t[one];
    t.t[one] += by;
    t.t[other] -= by;
}

/// One more border or row, nearly like another, where there is room.
fn grow(d: &mut Dice, t: &mut Tables) {
    let Header { zones, borders, rows, .. } = t.header;
    if d.one_in(2) && borders < MOST_BORDERS {
        t.b.push(t.b[d.below(borders)]);
        t.header.borders += 1;
        change_border(d, t);
    } else if rows < MOST_ROWS {
        t.c.push(t.c[rows - 1]);
        t.f.extend_from_within((rows - 1) * zones..);
        t.header.rows += 1;
        copy_row(d, t);
    }
}

/// A table of the largest size.
pub fn random(d: &mut Dice) -> Tables {
    let header = Header { zones: MOST_ZONES, borders: MOST_BORDERS, rows: MOST_ROWS, share: NO_SHARE, intraday: NO_T };
    let z = (0..MOST_ZONES).map(|_| d.within(-POSITION_MOST, POSITION_MOST)).collect();
    let pairs = (0..MOST_ZONES).flat_map(|from| (0..from).map(move |to| (from, to)));
    let mut b: Vec<_> = pairs.map(|(from, to)| without_hubs(from as i64, to as i64, 0)).collect();
    while b.len() > MOST_BORDERS {
        b.swap_remove(d.below(b.len()));
    }
    let c = (0..MOST_ROWS).map(|_| [d.within(1, 10_000_000), 0, 0, 0, 7_000, 0, 0]).collect();
    let f = (0..MOST_ROWS * MOST_ZONES).map(|_| d.within(-FACTOR_MOST, FACTOR_MOST)).collect();
    Tables { header, z, t: vec![], b, c, f }
}
