//! What is not rounds, as the extraction had it before document 02's E4, in plain Rust: S summed three times a row, a
//! border record judged again wherever it is read, the row and the border of a cell found by division, rooms for the
//! largest table. Kept to be measured beside the library, and so not made better; what later requests ask of a table, hubs,
//! 64 borders and a default of R, it can answer, so that all designs answer the same hours.

pub const BORDERS_MOST: usize = 64;
pub const ROWS_MOST: usize = 200;

/// Number and place.
pub type Refusal = (u32, usize);

/// A table as it is lent: the header, then Z, B, C and factors.
#[derive(Clone, Copy)]
pub struct Lent<'a> {
    pub zones: usize,
    pub borders: usize,
    pub rows: usize,
    /// the default of R, -1 where it is not written
    pub share: i64,
    pub z: &'a [i64],
    pub b: &'a [[i64; 5]],
    pub c: &'a [[i64; 7]],
    pub f: &'a [i64],
}

/// What the rounds start from.
pub struct Room {
    pub rams: [i64; ROWS_MOST],
    pub states: [u64; ROWS_MOST],
    /// p of row i and border k at item i x borders + k, 0 where the row takes no part
    pub p: [u64; ROWS_MOST * BORDERS_MOST],
    pub margins: [u64; ROWS_MOST],
}

impl Room {
    pub fn new() -> Room {
        Room { rams: [0; ROWS_MOST], states: [0; ROWS_MOST], p: [0; ROWS_MOST * BORDERS_MOST], margins: [0; ROWS_MOST] }
    }
}

impl<'a> Lent<'a> {
    fn row_factors(&self, i: usize) -> &'a [i64] {
        &self.f[i * self.zones..(i + 1) * self.zones]
    }
}

// ---- judging: 3, 8, 3, 4

struct Border {
    from: usize,
    to: usize,
    lta: u64,
    /// sending and receiving
    hubs: Option<(usize, usize)>,
}

fn border_of(zones: usize, [from, to, lta, sending, receiving]: [i64; 5]) -> Option<Border> {
    let exists = |zone: i64| zone >= 0 && (zone as u64) < zones as u64;
    let without = (sending == -1) & (receiving == -1);
    let hubs_fit = without | (exists(sending) & exists(receiving) & (sending != receiving));
    let fits = exists(from) & exists(to) & (from != to) & (0..=10_000).contains(&lta) & hubs_fit;
    let hubs = (!without).then_some((sending as usize, receiving as usize));
    fits.then_some(Border { from: from as usize, to: to as usize, lta: lta as u64, hubs })
}

fn row_fits([fmax, frm, fref, f0all, r, cva, iva]: [i64; 7]) -> bool {
    (1..=10_000_000).contains(&fmax)
        & (0..=fmax).contains(&frm)
        & (-20_000_000..=20_000_000).contains(&fref)
        & (-20_000_000..=20_000_000).contains(&f0all)
        & (-1..=10_000).contains(&r)
        & (0..=10_000_000).contains(&cva)
        & (0..=10_000_000).contains(&iva)
}

fn judge(t: &Lent) -> Result<(), Refusal> {
    let Lent { zones, borders, rows, share, z, b, c, f } = *t;
    let counts_fit = (2..=16).contains(&zones) & (1..=BORDERS_MOST).contains(&borders) & (1..=ROWS_MOST).contains(&rows);
    if !(counts_fit & (-1..=10_000).contains(&share)) {
        return Err((3, 1));
    }
    for (lent, needed) in [(z.len(), zones), (b.len(), borders), (c.len(), rows), (f.len(), rows * zones)] {
        if lent < needed {
            return Err((8, needed));
        }
    }
    if let Some(i) = z[..zones].iter().position(|net| !(-100_000_000..=100_000_000).contains(net)) {
        return Err((3, 2 + i));
    }
    if let Some(k) = b[..borders].iter().position(|record| border_of(zones, *record).is_none()) {
        return Err((3, 2 + zones + k));
    }
    let row_good = |i: usize| row_fits(c[i]) && t.row_factors(i).iter().all(|x| (-100_000..=100_000).contains(x));
    if let Some(i) = (0..rows).find(|i| !row_good(*i)) {
        return Err((3, 2 + zones + borders + i));
    }
    let same = |one: &[i64; 5], other: &[i64; 5]| (one[0] == other[0]) & (one[1] == other[1]) & (one[3] == other[3]) & (one[4] == other[4]);
    let twice = |k: usize| b[..k].iter().any(|earlier| same(earlier, &b[k]));
    match (0..borders).find(|k| twice(*k)) {
        Some(k) => Err((4, k)),
        None => Ok(()),
    }
}

// ---- margins, in grains

fn p_of(factors: &[i64], border: &Border) -> u64 {
    let at_hubs = border.hubs.map_or(0, |(sending, receiving)| factors[receiving] - factors[sending]);
    (factors[border.from] - factors[border.to] + at_hubs).max(0) as u64
}

fn s_of(factors: &[i64], b: &[[i64; 5]]) -> u64 {
    let load = |record: &[i64; 5]| border_of(factors.len(), *record).map_or(0, |border| p_of(factors, &border) * border.lta * 1_000);
    b.iter().map(load).sum()
}

fn ram_of([fmax, frm, fref, f0all, r, cva, iva]: [i64; 7], default: i64, factors: &[i64], z: &[i64], s: u64) -> i64 {
    let flow: i64 = factors.iter().zip(z).map(|(factor, net)| factor * net).sum();
    let f0core = fref * 100_000 - flow;
    let fuaf = f0core - f0all * 100_000;
    let base = (fmax - frm) * 100_000 - f0core;
    let r = if r < 0 { default } else { r };
    let amr = (r * fmax * 10 - fuaf - base).max(fmax * 20_000 - base).max(0);
    let lta_margin = (s as i64 - base - amr).max(0);
    base + amr + lta_margin - (cva + iva) * 100_000
}

fn fill_rams(t: &Lent, rams: &mut [i64]) {
    let default = if t.share < 0 { 7_000 } else { t.share };
    for i in 0..t.rows {
        let factors = t.row_factors(i);
        rams[i] = ram_of(t.c[i], default, factors, t.z, s_of(factors, t.b));
    }
}

// ---- states

fn spread_small(factors: &[i64]) -> bool {
    let (mut high, mut low) = (factors[0], factors[0]);
    for factor in &factors[1..] {
        high = high.max(*factor);
        low = low.min(*factor);
    }
    high - low < 5_000
}

fn shifted(fs: &[i64], gs: &[i64]) -> bool {
    let by = fs[0] - gs[0];
    fs.iter().zip(gs).all(|(f, g)| f - g == by)
}

fn stands_for(t: &Lent, rams: &[i64], j: usize, i: usize) -> bool {
    let below = rams[j] < rams[i] || (rams[j] == rams[i] && j < i);
    below && shifted(t.row_factors(j), t.row_factors(i))
}

fn fill_states(t: &Lent, rams: &[i64], states: &mut [u64]) {
    for i in 0..t.rows {
        states[i] = if spread_small(t.row_factors(i)) {
            1
        } else if (0..t.rows).any(|j| stands_for(t, rams, j, i)) {
            2
        } else {
            0
        };
    }
}

// ---- what the rounds start from: 5, 6, 7

fn grid_p(t: &Lent, states: &[u64], i: usize, k: usize) -> u64 {
    if states[i] != 0 {
        return 0;
    }
    border_of(t.zones, t.b[k]).map_or(0, |border| p_of(t.row_factors(i), &border))
}

fn fill_grid(t: &Lent, states: &[u64], p: &mut [u64]) {
    for cell in 0..t.rows * t.borders {
        p[cell] = grid_p(t, states, cell / t.borders, cell % t.borders);
    }
}

fn start_at(t: &Lent, rams: &[i64], i: usize) -> i64 {
    rams[i] - s_of(t.row_factors(i), t.b) as i64
}

fn fill_margins(t: &Lent, rams: &[i64], states: &[u64], margins: &mut [u64]) {
    for i in 0..t.rows {
        margins[i] = if states[i] == 0 { start_at(t, rams, i).max(0) as u64 } else { 0 };
    }
}

fn judge_start(t: &Lent, rams: &[i64], states: &[u64], p: &[u64]) -> Result<(), Refusal> {
    if !states.contains(&0) {
        return Err((5, 0));
    }
    if let Some(k) = (0..t.borders).find(|k| (0..t.rows).all(|i| p[i * t.borders + k] == 0)) {
        return Err((6, k));
    }
    match (0..t.rows).find(|i| (states[*i] == 0) & (start_at(t, rams, *i) < 0)) {
        Some(i) => Err((7, i)),
        None => Ok(()),
    }
}

/// All that is judged and filled before the first round, room for results last.
pub fn prepare(lent: &Lent, room: &mut Room, atcs: usize, lefts: usize) -> Result<(), Refusal> {
    judge(lent)?;
    let Lent { zones, borders, rows, share, z, b, c, f } = *lent;
    let t = &Lent { zones, borders, rows, share, z: &z[..zones], b: &b[..borders], c: &c[..rows], f: &f[..rows * zones] };
    let (rams, states) = (&mut room.rams[..rows], &mut room.states[..rows]);
    fill_rams(t, rams);
    fill_states(t, rams, states);
    fill_grid(t, states, &mut room.p[..rows * borders]);
    fill_margins(t, rams, states, &mut room.margins[..rows]);
    judge_start(t, rams, states, &room.p[..rows * borders])?;
    if atcs < borders {
        return Err((8, borders));
    }
    if lefts < rows {
        return Err((8, rows));
    }
    Ok(())
}
