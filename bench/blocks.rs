//! A start for slowest.rs: an hour in which nearly every border rises and nearly every row is tight in nearly every round.
//!
//! Rounds are many where a border alone takes the n-th part of a row's margin, and n is large. So each border has rows of its own: there its p is large, and p of
//! most of the others is one or two hundred-thousandths, so that they count for n and take next to nothing. The rest have no p there. Such rows exist where no
//! border's factor is a sum of those of others; hubs let a border add two zones and take off two, and 64 such sums can be had of which some 13 have no p on a row.

use crate::second::{self, Border, Header, Tables, MOST_BORDERS, MOST_ROWS, MOST_ZONES, NO_SHARE, NO_T};

/// Three blocks of six zones each, the last zone of one being the first of the next.
const BLOCKS: usize = 3;
const SIX: usize = 6;

/// The two zones of a block that a border adds, and the two that it takes off.
type Ends = [usize; 4];

/// Borders with a zone that counts twice. The first block has all four, the others the first three.
const TWICE: [Ends; 4] = [[1, 5, 4, 4], [2, 2, 1, 5], [2, 4, 5, 5], [1, 1, 2, 4]];

/// Of a block's first three zones and its second three: one and one less the other two of the second three; two of the first three less the third of
/// them and one of the second; and some of `TWICE`.
fn ends_of_block(k: usize) -> Vec<Ends> {
    let others = |zone: usize| [zone / 3 * 3 + (zone + 1) % 3, zone / 3 * 3 + (zone + 2) % 3];
    let mut all = Vec::new();
    for a in 0..3 {
        for b in 3..SIX {
            let ([a1, a2], [b1, b2]) = (others(a), others(b));
            all.push([a, b, b1, b2]);
            all.push([a1, a2, a, b]);
        }
    }
    all.extend(&TWICE[..if k == 0 { 4 } else { 3 }]);
    all
}

fn along(ends: &Ends, y: &[i64]) -> i64 {
    y[ends[0]] + y[ends[1]] - y[ends[2]] - y[ends[3]]
}

/// The factors of a border's rows, in steps: those that give it the largest n for what it shares with. The borders of the other blocks count for n.
fn steps_for(own: &Ends, block: &[Ends]) -> [i64; SIX] {
    let mut best = ([0; SIX], 0.0);
    for number in 0..4usize.pow(SIX as u32) {
        let y: [i64; SIX] = std::array::from_fn(|zone| (number / 4usize.pow(zone as u32) % 4) as i64);
        let ps = block.iter().map(|ends| along(ends, &y));
        let n = MOST_BORDERS - ps.clone().filter(|p| *p < 0).count();
        let load: i64 = ps.map(|p| p.max(0)).sum();
        let part = n as f64 * along(own, &y) as f64 / load.max(1) as f64;
        if part > best.1 {
            best = (y, part);
        }
    }
    best.0
}

/// Factors: the steps within the block, wide enough that the row is kept; and a little more for the first three zones of each block than for the other three,
/// so that each border has p there.
fn factors(k: usize, y: &[i64; SIX], little: [i64; BLOCKS]) -> Vec<i64> {
    let first = k * (SIX - 1);
    let high = y.iter().max().expect("a zone");
    let all: i64 = little.iter().sum();
    let wide = (second::SPREAD_KEPT + all) / (high - y.iter().min().expect("a zone")) + 1;
    let of = |zone: usize| {
        let step = y[zone.clamp(first, first + SIX - 1) - first] - high;
        let down: i64 = little[..(zone + 2) / (SIX - 1)].iter().sum();
        100_000 + step * wide - down
    };
    (0..MOST_ZONES).map(of).collect()
}

pub fn blocks() -> Tables {
    let mut b: Vec<Border> = Vec::new();
    let mut own: Vec<(usize, [i64; SIX])> = Vec::new();
    for k in 0..BLOCKS {
        let ends = ends_of_block(k);
        for border in &ends {
            let [from, receiving, sending, to] = border.map(|zone| (k * (SIX - 1) + zone) as i64);
            b.push([from, to, 0, sending, receiving]);
            own.push((k, steps_for(border, &ends)));
        }
    }
    let header = Header { zones: MOST_ZONES, borders: b.len(), rows: MOST_ROWS, share: NO_SHARE, intraday: NO_T };
    // The more the others take of a row, the later it is tight. Such rows come first, so that the rows of a border tighten its cap one after the other.
    let little = |i: usize| std::array::from_fn(|k| if k < (MOST_ROWS - 1 - i) / own.len() { 2 } else { 1 });
    let f = (0..MOST_ROWS).flat_map(|i| factors(own[i % own.len()].0, &own[i % own.len()].1, little(i))).collect();
    let c = vec![[10_000_000, 0, -20_000_000, 0, 0, 0, 0]; MOST_ROWS];
    let mut t = Tables { header, z: vec![100_000_000; MOST_ZONES], t: vec![], b, c, f };
    even(&mut t);
    t
}

/// The rows of a border get margins that last equally long: what the borders take together, were all to rise by the same. All factors of a row fall by the same.
fn even(t: &mut Tables) {
    let Header { zones, borders, rows, .. } = t.header;
    let parts = second::margins(t.lend(), usize::MAX).expect("a good table");
    let start = |i: usize| i128::from(parts[i][11]);
    let taken: Vec<i128> = t.f.chunks_exact(zones).map(|own| t.b.iter().map(|border| second::border_factor(own, border)).sum()).collect();
    let rise = |b: usize| (b..rows).step_by(borders).map(|i| start(i) / taken[i]).min().expect("a row");
    let all: i128 = t.z.iter().map(|kw| i128::from(*kw)).sum();
    for (i, own) in t.f.chunks_exact_mut(zones).enumerate() {
        let down = ((start(i) - rise(i % borders) * taken[i]) / all) as i64;
        own.iter_mut().for_each(|factor| *factor -= down);
    }
}
