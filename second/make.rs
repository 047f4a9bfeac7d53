//! Tables made at random, within the ranges of the rules: every size, values
//! at the ends of their ranges, parallel rows, rows around the 5% threshold,
//! and tables that the extraction turns away.
#![allow(dead_code)]

use crate::dice::Dice;
use crate::second::{margin_of, remainder_of, without_hubs, Border, Header, Tables};
use crate::second::{INTRADAY, LTA, MOST_BORDERS, NO_HUB, NO_SHARE, NO_T};

/// What a table is made to show.  What it gives in the end is judged by the
/// reference, not by this name.
#[derive(Clone, Copy, Debug, PartialEq, Eq)]
pub enum Aim {
    /// each border limited by a kept row, no CVA or IVA
    Taken,
    /// CVA and IVA eat a row's starting margin to the last whole kW
    Eaten,
    /// one kW more than that
    Overeaten,
    /// CVA and IVA at random
    Lifted,
    /// no care taken that each border is limited
    Free,
    /// rows under 5%, a few just at it
    Narrow,
    /// one border given twice
    Twice,
    /// one border takes a small share of a wide row, the others stand still
    Slow,
}

/// How values are drawn.
#[derive(Clone, Copy, PartialEq, Eq)]
enum Style {
    /// near zero
    Near,
    /// anywhere in the range
    Any,
    /// at the ends of the range or next to them
    Ends,
    /// few different values, so that ties are many
    Few,
    /// another of these for each value
    Mixed,
}

fn value(d: &mut Dice, style: Style, low: i64, high: i64, near: i64) -> i64 {
    match style {
        Style::Near => d.within(low.max(-near), high.min(near).max(low)),
        Style::Any => d.within(low, high),
        Style::Ends => {
            let middle = d.within(low, high);
            let zero = 0i64.clamp(low, high);
            d.of(&[low, low, (low + 1).min(high), middle, zero, (high - 1).max(low), high, high])
        }
        Style::Few => {
            let some = d.of(&[0, near / 2, near]);
            some.clamp(low, high)
        }
        Style::Mixed => {
            let style = d.of(&[Style::Near, Style::Any, Style::Ends, Style::Few]);
            value(d, style, low, high, near)
        }
    }
}

fn sizes(d: &mut Dice) -> Header {
    let most = MOST_BORDERS as i64;
    let (zones, borders, rows) = match d.below(1000) {
        0..=549 => (d.within(2, 4), d.within(1, 4), d.within(1, 5)),
        550..=899 => (d.within(2, 8), d.within(1, 10), d.within(1, 16)),
        900..=979 => (d.within(2, 16), d.within(1, most), d.within(1, 40)),
        // one size at its end, the others small
        980..=982 => (16, d.within(1, 4), d.within(1, 5)),
        983..=985 => (d.within(9, 16), most, d.within(1, 6)),
        // what was the most once
        986..=987 => (d.within(7, 16), 40, d.within(1, 6)),
        988..=991 => (d.within(2, 4), d.within(1, 4), 200),
        992..=996 => (d.within(2, 16), d.within(1, most), d.within(1, 200)),
        997 => (16, 40, 200),
        _ => (16, most, 200),
    };
    of_size(zones as usize, borders as usize, rows as usize)
}

/// The header of a table of this size; `ordinary` and `slow` draw the rest of it.
fn of_size(zones: usize, borders: usize, rows: usize) -> Header {
    Header { zones, borders, rows, share: NO_SHARE, intraday: NO_T }
}

fn profile(d: &mut Dice) -> u64 {
    if d.one_in(3) {
        INTRADAY
    } else {
        NO_T
    }
}

/// The default of R: often not written, often one that tells.
fn share(d: &mut Dice) -> i64 {
    match d.below(8) {
        0..=3 => NO_SHARE,
        4 => 7_000,
        5 => d.of(&[0, 1, 6_999, 7_001, 9_999, 10_000]),
        _ => d.within(0, 10_000),
    }
}

fn net_positions(d: &mut Dice, style: Style, zones: usize) -> Vec<i64> {
    let mut z: Vec<i64> =
        (0..zones).map(|_| value(d, style, -100_000_000, 100_000_000, 3_000)).collect();
    // positions that sum to zero: moving all factors of a row leaves its RAM
    if d.one_in(2) {
        for zone in 1..zones {
            let rest = (-z[..zone].iter().sum::<i64>()).clamp(-100_000_000, 100_000_000);
            if zone == zones - 1 {
                z[zone] = rest;
            }
        }
    }
    z
}

/// Allocated positions: they sum to zero, being moved from one zone to another.
fn allocated(d: &mut Dice, style: Style, zones: usize) -> Vec<i64> {
    let mut t = vec![0; zones];
    let style = match d.below(8) {
        0 => return t,
        1..=4 => Style::Near,
        _ => style,
    };
    for _ in 0..d.of(&[1, 1, zones, 2 * zones]) {
        let [one, other] = pair(d, zones).map(|zone| zone as usize);
        let most = (100_000_000 - t[one]).min(100_000_000 + t[other]);
        let some = value(d, style, 0, most, 3_000);
        t[one] += some;
        t[other] -= some;
    }
    t
}

/// Which borders of a table have hubs.
#[derive(Clone, Copy, PartialEq, Eq)]
enum Hubs {
    None,
    Some,
    All,
}

/// How many borders there can be, no two the same.
fn most_borders(hubs: Hubs, zones: usize) -> usize {
    let pairs = zones * (zones - 1);
    match hubs {
        Hubs::None => pairs,
        Hubs::Some => pairs * (1 + pairs),
        Hubs::All => pairs * pairs,
    }
}

/// Two zones that are not equal.
fn pair(d: &mut Dice, zones: usize) -> [i64; 2] {
    let one = d.below(zones);
    let other = (one + 1 + d.below(zones - 1)) % zones;
    [one as i64, other as i64]
}

/// From, to and hubs are those of both.
pub fn same(one: &Border, other: &Border) -> bool {
    one[..LTA] == other[..LTA] && one[LTA + 1..] == other[LTA + 1..]
}

fn borders(d: &mut Dice, style: Style, hubs: Hubs, zones: usize, count: usize) -> Vec<Border> {
    let small = d.one_in(2);
    let mut b: Vec<Border> = Vec::new();
    while b.len() < count {
        let lta = if small { d.within(0, 20) } else { value(d, style, 0, 10_000, 100) };
        let [from, to] = pair(d, zones);
        let mut border = without_hubs(from, to, lta);
        if hubs == Hubs::All || hubs == Hubs::Some && d.one_in(2) {
            let [sending, receiving] = pair(d, zones);
            border = [from, to, lta, sending, receiving];
        }
        // often one that is apart from another only by its hubs, or only by their order
        if hubs != Hubs::None && !b.is_empty() && d.one_in(3) {
            let [from, to, _, sending, receiving] = b[d.below(b.len())];
            let apart = if d.one_in(2) { [receiving, sending] } else { [border[3], border[4]] };
            border = [from, to, lta, apart[0], apart[1]];
        }
        // its hubs undo such a border: no row limits it
        let undone = border[..LTA] == border[LTA + 1..];
        if !b.iter().any(|other| same(other, &border)) && (!undone || d.one_in(8)) {
            b.push(border);
        }
    }
    b
}

/// A row's record without CVA and IVA.
fn record(d: &mut Dice, style: Style) -> [i64; 7] {
    let fmax = value(d, style, 1, 10_000_000, 400_000);
    let frm = match d.below(4) {
        0 => 0,
        1 => fmax,
        _ => value(d, style, 0, fmax, 20_000),
    };
    let fref = value(d, style, -20_000_000, 20_000_000, 50_000);
    let f0all = value(d, style, -20_000_000, 20_000_000, 50_000);
    let r = match d.below(4) {
        0 => -1,
        1 => d.of(&[0, 1, 7_000, 9_999, 10_000]),
        _ => value(d, style, 0, 10_000, 3_000),
    };
    [fmax, frm, fref, f0all, r, 0, 0]
}

fn moved(values: &[i64], by: i64) -> Vec<i64> {
    values.iter().map(|value| value + by).collect()
}

/// A number that moves every value within -100000..100000.
fn a_move(d: &mut Dice, values: &[i64]) -> i64 {
    let low = -100_000 - values.iter().min().unwrap();
    let high = 100_000 - values.iter().max().unwrap();
    match d.below(4) {
        0 => 0i64.clamp(low, high),
        1 => d.of(&[low, high]),
        _ => d.within(low, high),
    }
}

/// The factors of one row.
fn factors(d: &mut Dice, zones: usize, narrow: bool) -> Vec<i64> {
    let kind = if narrow { d.of(&[2, 3, 3, 3, 3, 6]) } else { d.of(&[0, 0, 1, 1, 1, 2, 3, 4, 5, 5, 6, 7]) };
    match kind {
        0 => (0..zones).map(|_| d.within(-100_000, 100_000)).collect(),
        1 => (0..zones).map(|_| d.within(-20_000, 20_000)).collect(),
        2 => {
            // largest less smallest is exactly the spread
            let spread = if narrow { d.of(&[4_998, 4_999, 4_999, 4_999]) } else { d.of(&[4_999, 5_000, 5_000, 5_001]) };
            let mut f: Vec<i64> = (0..zones).map(|_| d.within(0, spread)).collect();
            let top = d.below(zones);
            let bottom = (top + 1 + d.below(zones - 1)) % zones;
            f[top] = spread;
            f[bottom] = 0;
            let by = a_move(d, &f);
            moved(&f, by)
        }
        3 => {
            let f: Vec<i64> = (0..zones).map(|_| d.within(0, 4_999)).collect();
            let by = a_move(d, &f);
            moved(&f, by)
        }
        4 => (0..zones).map(|_| d.of(&[-100_000, -99_999, -1, 0, 1, 99_999, 100_000])).collect(),
        5 => {
            // small differences, and one zone far off
            let mut f: Vec<i64> = (0..zones).map(|_| d.within(0, 3)).collect();
            f[d.below(zones)] = d.of(&[-6_000, 5_000, 5_003, 9_000]);
            let by = a_move(d, &f);
            moved(&f, by)
        }
        6 => vec![d.within(-100_000, 100_000); zones],
        _ => (0..zones).map(|_| d.of(&[-5_000, 0, 5_000, 10_000])).collect(),
    }
}

fn spread(f: &[i64]) -> i64 {
    f.iter().max().unwrap() - f.iter().min().unwrap()
}

/// Sees to it, as far as it goes, that each border has p > 0 on a row of 5% or
/// more.
fn limit_borders(d: &mut Dice, t: &mut Tables) {
    let zones = t.header.zones;
    let rows = t.header.rows;
    if spread(&t.f[..zones]) < 5_000 {
        for zone in 0..zones {
            t.f[zone] = d.within(-30_000, 30_000);
        }
    }
    if rows >= 2 {
        let last = (rows - 1) * zones;
        for zone in 0..zones {
            t.f[last + zone] = -t.f[zone];
        }
        return;
    }
    for index in 0..t.b.len() {
        let [from, to, lta, sending, receiving] = t.b[index];
        let back = [to, from, lta, receiving, sending];
        let given = t.b.iter().any(|other| same(other, &back));
        if signed_factor(&t.f, &t.b[index]) < 0 && !given {
            t.b[index] = back;
        }
    }
}

/// The signed factor of a border on the row whose factors stand in front.
pub fn signed_factor(f: &[i64], border: &Border) -> i64 {
    let [from, to, _, sending, receiving] = *border;
    let hubs = if sending == NO_HUB { 0 } else { f[receiving as usize] - f[sending as usize] };
    f[from as usize] - f[to as usize] + hubs
}

/// Row `row`'s CVA and IVA so that its starting margin is under one kW, or (by
/// `more`) just below zero.  Left as it is where they cannot be that large, or
/// where it is below zero without them.
fn eat(d: &mut Dice, t: &mut Tables, row: usize, more: i64) {
    t.c[row][5] = 0;
    t.c[row][6] = 0;
    let m = margin_of(t, row);
    let start = if t.header.intraday == INTRADAY { remainder_of(t, row, m.ram) } else { m.ram - m.s };
    let whole = (start / 100_000) as i64 + more;
    if start < 0 || whole > 20_000_000 {
        return;
    }
    let low = (whole - 10_000_000).max(0);
    let cva = d.within(low, whole.min(10_000_000));
    t.c[row][5] = cva;
    t.c[row][6] = whole - cva;
}

fn lift(d: &mut Dice, t: &mut Tables, style: Style) {
    let small = d.one_in(2);
    for row in 0..t.header.rows {
        for place in [5, 6] {
            t.c[row][place] = match d.below(3) {
                0 => 0,
                _ if small => d.within(0, 100),
                _ => value(d, style, 0, 10_000_000, 2_000),
            };
        }
    }
}

fn ordinary(d: &mut Dice, aim: Aim, sizes: Header) -> Tables {
    let mut header = sizes;
    if aim == Aim::Twice && header.borders < 2 {
        header.borders = 2;
    }
    let style = d.of(&[Style::Near, Style::Near, Style::Any, Style::Ends, Style::Few, Style::Mixed]);
    let hubs = d.of(&[Hubs::None, Hubs::None, Hubs::None, Hubs::Some, Hubs::Some, Hubs::All]);
    header.borders = header.borders.min(most_borders(hubs, header.zones));
    header.share = share(d);
    header.intraday = profile(d);
    let z = net_positions(d, style, header.zones);
    let t = if header.intraday == INTRADAY { allocated(d, style, header.zones) } else { vec![] };
    let b = borders(d, style, hubs, header.zones, header.borders);
    let parallel = d.of(&[0, 2, 4, 8]);
    let mut c: Vec<[i64; 7]> = Vec::new();
    let mut f: Vec<i64> = Vec::new();
    for row in 0..header.rows {
        if row > 0 && parallel > 0 && d.one_in(parallel) {
            let like = d.below(row);
            let own = f[like * header.zones..(like + 1) * header.zones].to_vec();
            let by = if d.one_in(2) { 0 } else { a_move(d, &own) };
            f.extend(moved(&own, by));
            c.push(match d.below(3) {
                0 => record(d, style),
                1 => c[like],
                _ => {
                    let mut next = c[like];
                    next[0] = (next[0] + d.within(-1, 1)).clamp(next[1].max(1), 10_000_000);
                    next
                }
            });
        } else {
            f.extend(factors(d, header.zones, aim == Aim::Narrow));
            c.push(record(d, style));
        }
    }
    let mut t = Tables { header, z, t, b, c, f };
    match aim {
        Aim::Free | Aim::Narrow | Aim::Slow => {
            if d.one_in(2) {
                lift(d, &mut t, style);
            }
        }
        Aim::Taken => limit_borders(d, &mut t),
        Aim::Twice => {
            let later = 1 + d.below(header.borders - 1);
            let earlier = d.below(later);
            let lta = t.b[later][LTA];
            t.b[later] = t.b[earlier];
            t.b[later][LTA] = lta;
        }
        Aim::Lifted => {
            limit_borders(d, &mut t);
            lift(d, &mut t, style);
        }
        Aim::Eaten | Aim::Overeaten => {
            limit_borders(d, &mut t);
            let one = d.below(header.rows);
            for row in 0..header.rows {
                if row == one || d.one_in(4) {
                    let more = if aim == Aim::Overeaten && (row == one || d.one_in(2)) { 1 } else { 0 };
                    eat(d, &mut t, row, more);
                }
            }
        }
    }
    t
}

/// A wide row shared by all borders and with a large margin, of which border 0
/// takes p; the others are stopped at once by a second row.
fn slow(d: &mut Dice) -> Tables {
    let most = d.one_in(3);
    let zones = if most { 16 } else { 4 + 2 * d.below(7) };
    let half = zones / 2;
    let hubs = d.one_in(3);
    let borders = if most { MOST_BORDERS - d.below(5) } else { 2 + d.below((half * half).min(MOST_BORDERS - 1)) };
    let more_rows = d.below(3);
    let header = Header { share: share(d), intraday: profile(d), ..of_size(zones, borders, 2 + more_rows) };
    let position = if most { 100_000_000 } else { d.of(&[1, 1_000, 1_000_000, 100_000_000]) };
    let across = |position: i64| -> Vec<i64> {
        (0..zones).map(|zone| if zone < half { position } else { -position }).collect()
    };
    let z = across(position);
    // with the net positions the second row stops the others all the more; against
    // them the first has the most there can be
    let part = d.of(&[0, 0, 1, position / 2, -position]);
    let t = if header.intraday == INTRADAY { across(part) } else { vec![] };
    let mut pairs: Vec<(usize, usize)> =
        (0..half * half).map(|k| (k / half, half + k % half)).collect();
    // with hubs the factors add up to the same or to twice as much, and border 0 is as it was
    let near = |d: &mut Dice| pair(d, half);
    let back = |d: &mut Dice| [(half + d.below(half)) as i64, d.below(half) as i64];
    let mut b = vec![without_hubs(0, 1, 0)];
    if hubs && half > 3 {
        b[0] = [0, 1, 0, 2, 3];
    }
    while b.len() < borders {
        let (from, to) = pairs.swap_remove(d.below(pairs.len()));
        let [sending, receiving] = match d.below(3) {
            0 if hubs => near(d),
            1 if hubs => back(d),
            _ => [NO_HUB, NO_HUB],
        };
        b.push([from as i64, to as i64, 0, sending, receiving]);
    }
    let small = d.of(&[1, 1, 2, 7, 1_000]);
    let mut f: Vec<i64> = Vec::new();
    // the wide row
    f.extend((0..zones).map(|zone| match zone {
        1 => 100_000 - small,
        _ if zone < half => 100_000,
        _ => -100_000,
    }));
    // the row that stops the others
    f.extend((0..zones).map(|zone| if zone < half { 5_000 } else { 0 }));
    let mut c = vec![[10_000_000, 0, -20_000_000, 20_000_000, 10_000, 0, 0], [1, 1, 0, -20_000_000, 0, 0, 0]];
    for _ in 0..more_rows {
        f.extend((0..zones).map(|zone| match zone {
            0 => 90_000,
            1 => 90_000 - d.within(0, 1),
            _ if zone < half => d.within(10_000, 90_000),
            _ => d.within(-90_000, -10_000),
        }));
        c.push([10_000_000, 0, -20_000_000, 20_000_000, -1, 0, 0]);
    }
    let mut t = Tables { header, z, t, b, c, f };
    // the second row's flow so that next to nothing is left of it
    let m = margin_of(&t, 1);
    let flow = (-m.f0core / 100_000) as i64;
    t.c[1][2] = flow.clamp(-20_000_000, 20_000_000);
    eat(d, &mut t, 1, 0);
    t
}

pub fn table(d: &mut Dice) -> (Tables, Aim) {
    let aim = match d.below(100) {
        0..=46 => Aim::Taken,
        47..=54 => Aim::Eaten,
        55..=61 => Aim::Overeaten,
        62..=70 => Aim::Lifted,
        71..=81 => Aim::Free,
        82..=89 => Aim::Narrow,
        90..=96 => Aim::Twice,
        _ => Aim::Slow,
    };
    let t = match aim {
        Aim::Slow => slow(d),
        _ => {
            let header = sizes(d);
            ordinary(d, aim, header)
        }
    };
    (t, aim)
}

/// Another row of a table of so many zones: its record and its factors.
pub fn row(d: &mut Dice, zones: usize) -> ([i64; 7], Vec<i64>) {
    let style = d.of(&[Style::Near, Style::Near, Style::Any, Style::Ends, Style::Few, Style::Mixed]);
    let mut record = record(d, style);
    if d.one_in(3) {
        record[5] = value(d, style, 0, 10_000_000, 2_000);
        record[6] = value(d, style, 0, 10_000_000, 2_000);
    }
    let narrow = d.one_in(4);
    (record, factors(d, zones, narrow))
}

/// A small table of so many borders, for the corner sheet and for hubs: often one
/// that the extraction turns away.
pub fn of_borders(d: &mut Dice, borders: usize) -> Tables {
    let mut least = 2;
    while least * (least - 1) < borders {
        least += 1;
    }
    let zones = d.of(&[least, least, least + 1, least + 4, 16]);
    let rows = 1 + d.below(5);
    let aim = d.of(&[Aim::Taken, Aim::Taken, Aim::Free, Aim::Free, Aim::Narrow, Aim::Lifted, Aim::Overeaten]);
    ordinary(d, aim, of_size(zones, borders, rows))
}

/// A table whose rows have a few kW for each of their sharers, so that one kW or one
/// sharer more or less tells in the bound of the rounds.  Row 0 is loaded by every border.
pub fn few_kw(d: &mut Dice) -> Tables {
    let borders = 2 + d.below(7);
    let rows = 1 + d.below(4);
    let mut f = Vec::new();
    for row in 0..rows {
        let from = d.of(&[50_000, 100_000]);
        f.push(from);
        for _ in 0..borders {
            let to = d.of(&[from, from, 0, 25_000, -50_000, from - 1]);
            f.push(if row == 0 { to.min(from - 5_000) } else { to });
        }
    }
    let record = |d: &mut Dice| {
        let fmax = d.of(&[1, 2, 3, 5, 8, 13, 40]);
        [fmax, 0, 0, 0, 0, d.of(&[0, 0, 0, 1]), 0]
    };
    let zones = borders + 1;
    let header = Header { intraday: profile(d), ..of_size(zones, borders, rows) };
    Tables {
        header,
        z: vec![0; zones],
        t: vec![0; if header.intraday == INTRADAY { zones } else { 0 }],
        b: (1..zones).map(|to| without_hubs(0, to as i64, 0)).collect(),
        c: (0..rows).map(|_| record(d)).collect(),
        f,
    }
}

/// A table as `of_borders` makes it, of the intraday profile.
pub fn intraday(d: &mut Dice, borders: usize) -> Tables {
    let mut t = of_borders(d, borders);
    if t.header.intraday == NO_T {
        t.header.intraday = INTRADAY;
        t.t = allocated(d, Style::Near, t.header.zones);
    }
    t
}
