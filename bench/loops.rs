//! The rounds of four designs in plain Rust, and the whole call around them as it stood before document 02's E4 (old.rs).

use crate::old::{prepare, Lent, Refusal, Room, BORDERS_MOST, ROWS_MOST};

/// What the rounds work on. A design leaves the exchanges in `x` and the margins left, and answers the rounds.
pub struct Work<'a> {
    pub borders: usize,
    /// row after row; a row that takes no part has 0 at every border
    pub p: &'a [u64],
    /// how many borders have p > 0, a row
    pub ns: &'a [u64],
    /// grains, a row
    pub margins: &'a mut [u64],
    /// kW, a border
    pub x: &'a mut [u64],
}

impl Work<'_> {
    /// Every border rises, and every row loses the sum of p times raise.
    fn raise(&mut self, raises: &[u64]) {
        for (margin, row) in self.margins.iter_mut().zip(self.p.chunks_exact(self.borders)) {
            *margin -= row.iter().zip(raises).map(|(p, raise)| p * raise).sum::<u64>();
        }
        for (x, raise) in self.x.iter_mut().zip(raises) {
            *x += raise;
        }
    }
}

/// The whole call with the rounds of a design, which keeps no last rounds and no stopping rows. Nothing but the rounds differs from design to design.
pub fn extract(t: &Lent, atc: &mut [[i64; 3]], left: &mut [[i64; 3]], rounds: impl Fn(&mut Work) -> u64) -> Result<u64, Refusal> {
    let mut room = Room::new();
    prepare(t, &mut room, atc.len(), left.len())?;
    let (rows, borders) = (t.rows, t.borders);
    let (p, margins) = (&room.p[..rows * borders], &mut room.margins[..rows]);
    let mut ns = [0; ROWS_MOST];
    for (n, row) in ns.iter_mut().zip(p.chunks_exact(borders)) {
        *n = row.iter().filter(|p| **p > 0).count() as u64;
    }
    let mut x = [0; BORDERS_MOST];
    for (x, border) in x.iter_mut().zip(&t.b[..borders]) {
        *x = border[2] as u64 * 1_000;
    }
    let done = rounds(&mut Work { borders, p, ns: &ns[..rows], margins, x: &mut x[..borders] });
    for (atc, x) in atc.iter_mut().zip(&x[..borders]) {
        atc[0] = (x / 1_000) as i64;
    }
    for i in 0..rows {
        let margin_left = if room.states[i] == 0 { room.margins[i] as i64 } else { -1 };
        left[i] = [room.states[i] as i64, room.rams[i], margin_left];
    }
    Ok(done)
}

/// The rounds before E4: border by border, and each of a border's rows divides its margin by n and its share by p.
pub fn old_rounds(w: &mut Work) -> u64 {
    let mut raises = [0; BORDERS_MOST];
    let raises = &mut raises[..w.borders];
    let mut done = 0;
    loop {
        for (b, raise) in raises.iter_mut().enumerate() {
            let mut least = None;
            for ((row, margin), n) in w.p.chunks_exact(w.borders).zip(&*w.margins).zip(w.ns) {
                if row[b] > 0 {
                    let share = margin / n / row[b];
                    least = Some(least.map_or(share, |least: u64| least.min(share)));
                }
            }
            *raise = least.unwrap_or(0);
        }
        if raises.iter().all(|raise| *raise == 0) {
            return done;
        }
        w.raise(raises);
        done += 1;
    }
}

/// E4's letter and nothing beyond it: row by row, the margin divided by n once a row and round, factors of zero skipped.
pub fn letter_rounds(w: &mut Work) -> u64 {
    let mut raises = [0; BORDERS_MOST];
    let raises = &mut raises[..w.borders];
    let mut done = 0;
    loop {
        raises.fill(u64::MAX);
        for ((row, margin), n) in w.p.chunks_exact(w.borders).zip(&*w.margins).zip(w.ns) {
            if *n == 0 {
                continue;
            }
            let share = margin / n;
            for (raise, p) in raises.iter_mut().zip(row) {
                if *p > 0 {
                    *raise = (*raise).min(share / p);
                }
            }
        }
        if raises.iter().all(|raise| *raise == 0) {
            return done;
        }
        w.raise(raises);
        done += 1;
    }
}

/// A border's cap once a row's share is known: divided only where a product shows that the cap is too high.
fn tighten(p: u64, share: u64, cap: u64) -> u64 {
    if cap < 1 << 44 && p < 1 << 20 {
        return if cap * p <= share { cap } else { share / p };
    }
    if p == 0 { cap } else { cap.min(share / p) }
}

fn lower_caps(row: &[u64], share: u64, rising: &[usize], caps: &mut [u64]) {
    for b in rising {
        caps[*b] = tighten(row[*b], share, caps[*b]);
    }
}

/// What a row loses by the exchanges `x`, and the most that one border would take of it by its cap.
fn row_loads(row: &[u64], x: &[u64], caps: &[u64], rising: &[usize]) -> (u64, u64) {
    let (mut loss, mut most) = (0, 0);
    for b in rising {
        loss += row[*b] * x[*b];
        most = most.max(row[*b] * caps[*b]);
    }
    (loss, most)
}

/// Every row loses the sum of p times what was gained.
fn settle(w: &mut Work, gained: &[u64], rising: &[usize], told: &mut impl Told) {
    for (margin, row) in w.margins.iter_mut().zip(w.p.chunks_exact(w.borders)) {
        *margin -= row_loads(row, gained, gained, rising).0;
        told.step(Step::Sorted, rising.len());
    }
}

/// What a stretch of `told_rounds` does: a row of the first round, a row where a block of rounds begins or the work ends, two near rows set side by side, a
/// row in a round, once more where it is tight, and what a round does besides.
#[derive(Clone, Copy)]
pub enum Step {
    Begun,
    Sorted,
    Compared,
    Walked,
    Lowered,
    Rose,
}

/// Is told of each stretch, with the borders that it looks at. `()` makes nothing of it, and then it costs nothing.
pub trait Told {
    fn step(&mut self, step: Step, borders: usize);
}

impl Told for () {
    fn step(&mut self, _: Step, _: usize) {}
}

/// The library's rounds in plain Rust.
pub fn new_rounds(w: &mut Work) -> u64 {
    told_rounds(w, &mut ())
}

/// Whether row `i` never tightens a cap below row `t`: it has no less margin, no larger n, and no larger p at a border that rises.
fn yields(w: &Work, rising: &[usize], t: usize, i: usize, told: &mut impl Told) -> bool {
    told.step(Step::Compared, 0);
    let p = |row: usize, b: usize| w.p[row * w.borders + b];
    w.margins[t] <= w.margins[i] && w.ns[i] <= w.ns[t] && rising.iter().all(|b| p(i, *b) <= p(t, *b))
}

/// The rounds of the next block, as a power of 2: about as many as were done.
fn block_bits(done: u64) -> u32 {
    match done {
        0..8 => 2,
        8..16 => 3,
        16..32 => 4,
        32..64 => 5,
        64..128 => 6,
        _ => 7,
    }
}

/// The last raise caps the next one, only borders that still rise are raised and looked at, a row divides only where a product shows that a cap is above
/// its share, rows far from that rest for a block of rounds, and of near rows those that yield to the first of them rest too.
pub fn told_rounds(w: &mut Work, told: &mut impl Told) -> u64 {
    let mut caps = [0; BORDERS_MOST];
    let mut gained = [0; BORDERS_MOST];
    let mut rising: [usize; BORDERS_MOST] = std::array::from_fn(|b| b);
    let mut near = [0; ROWS_MOST];
    let (caps, gained) = (&mut caps[..w.borders], &mut gained[..w.borders]);
    let (mut live, mut count, mut wait, mut done) = (w.borders, 0, 0, 0);
    for (b, cap) in caps.iter_mut().enumerate() {
        let first = w.p.chunks_exact(w.borders).position(|row| row[b] > 0);
        *cap = first.map_or(0, |i| w.margins[i]);
    }
    for ((row, margin), n) in w.p.chunks_exact(w.borders).zip(&*w.margins).zip(w.ns) {
        let share = if *n == 0 { 0 } else { margin / n };
        lower_caps(row, share, &rising[..live], caps);
        told.step(Step::Begun, live);
    }
    loop {
        if wait == 0 {
            settle(w, gained, &rising[..live], told);
            gained.fill(0);
            let mut kept = 0;
            for j in 0..live {
                rising[kept] = rising[j];
                kept += usize::from(caps[rising[j]] > 0);
            }
            live = kept;
            count = 0;
            let bits = block_bits(done);
            for (i, row) in w.p.chunks_exact(w.borders).enumerate() {
                let (loss, most) = row_loads(row, caps, caps, &rising[..live]);
                told.step(Step::Sorted, live);
                if (w.margins[i] - most * w.ns[i]) >> bits >= loss {
                    continue;
                }
                if count > 0 && yields(w, &rising[..live], near[0], i, told) {
                    continue;
                }
                let place = if count > 0 && yields(w, &rising[..live], i, near[0], told) { 0 } else { count };
                near[place] = i;
                count += usize::from(place == count);
            }
            wait = 1 << bits;
        }
        if rising[..live].iter().all(|b| caps[*b] == 0) {
            settle(w, gained, &rising[..live], told);
            return done;
        }
        done += 1;
        for b in &rising[..live] {
            gained[*b] += caps[*b];
            w.x[*b] += caps[*b];
        }
        for i in &near[..count] {
            let row = &w.p[i * w.borders..(i + 1) * w.borders];
            let (loss, most) = row_loads(row, gained, caps, &rising[..live]);
            let margin = w.margins[*i] - loss;
            told.step(Step::Walked, live);
            if margin < most * w.ns[*i] {
                lower_caps(row, margin / w.ns[*i], &rising[..live], caps);
                told.step(Step::Lowered, live);
            }
        }
        told.step(Step::Rose, live);
        wait -= 1;
    }
}

/// The loop in f64, which ends where the sum of the changes is under 1 kW (source document 000, Article 23(5)(b)vi).
pub fn float_rounds(w: &mut Work) -> u64 {
    let p: Vec<f64> = w.p.iter().map(|p| *p as f64 / 100_000.0).collect();
    let mut margins: Vec<f64> = w.margins.iter().map(|grains| *grains as f64 / 100_000.0).collect();
    let mut x: Vec<f64> = w.x.iter().map(|kw| *kw as f64).collect();
    let mut raises = vec![0.0; w.borders];
    let mut done = 0;
    loop {
        for (b, raise) in raises.iter_mut().enumerate() {
            *raise = f64::INFINITY;
            for ((row, margin), n) in p.chunks_exact(w.borders).zip(&margins).zip(w.ns) {
                if row[b] > 0.0 {
                    *raise = raise.min(margin.max(0.0) / *n as f64 / row[b]);
                }
            }
        }
        for (margin, row) in margins.iter_mut().zip(p.chunks_exact(w.borders)) {
            *margin -= row.iter().zip(&raises).map(|(p, raise)| p * raise).sum::<f64>();
        }
        for (x, raise) in x.iter_mut().zip(&raises) {
            *x += raise;
        }
        done += 1;
        if raises.iter().sum::<f64>() < 1.0 {
            break;
        }
    }
    for (kw, x) in w.x.iter_mut().zip(&x) {
        *kw = *x as u64;
    }
    for (grains, margin) in w.margins.iter_mut().zip(&margins) {
        *grains = (margin * 100_000.0) as u64;
    }
    done
}
