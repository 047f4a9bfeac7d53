//! Makes the example hours of hours/ from fixed seeds; running it again gives
//! the same files.
//!
//! `hours/make` builds and runs it.
//! Arguments: the directory to write to (hours); `search` instead looks for the
//! busy hour of 64 borders again, for a minute or so, and writes nothing.

#[path = "../second/dice.rs"]
mod dice;
#[path = "../second/second.rs"]
mod second;

use dice::Dice;
use second::{without_hubs, Border, Header, Outcome, Tables, NO_SHARE, NO_T};

const FULL: Header = Header { zones: 16, borders: 40, rows: 200, share: NO_SHARE, intraday: NO_T };

const SEED_PLAIN: u64 = 1;
const PLAIN: Kind = Kind { header: FULL, one_way: false, reach: 0, lta_step: 0, cable: false, steepest: 25_000, tight: 0 };
/// Seeds looked at for the busy hour.
const SEEDS_BUSY: std::ops::Range<u64> = 1_000..1_060;
/// The largest table since borders grew from 40 to 64; the seed of its busy hour,
/// the one of the most rounds among the seeds that `search` looks at.
const FULL_64: Header = Header { borders: 64, ..FULL };
const SEED_BUSY_64: u64 = 103_053;
const SEEDS_BUSY_64: std::ops::Range<u64> = 100_000..110_000;
/// Steps of the search for the worst hour.
const SEED_WORST: u64 = 5;
const STEPS_WORST: u64 = 1_000;

/// The hour that the rules check whole.
const WORKED: &str = "H 3 2 4
Z 0 500000
Z 1 -200000
Z 2 -300000
B 0 0 1 100
B 1 1 2 200
C 0 1000000 200000 200000 150000 7000 0 80000 30000 10000 0
C 1 100000 10000 15000 0 7000 0 0 5000 5000 0
C 2 100000 0 0 0 0 0 0 4999 0 0
C 3 1000000 0 130000 0 7000 0 0 20000 0 -10000
";

/// A small hour for the corner sheet, made by hand: borders that load a row and
/// borders that relieve it, so that the largest corner of each row is neither the
/// first nor the last.
const PLANNER: &str = "H 4 5 3
Z 0 900000
Z 1 -350000
Z 2 250000
Z 3 -800000
B 0 0 1 300
B 1 1 0 150
B 2 1 2 200
B 3 2 3 250
B 4 3 0 100
C 0 1200000 120000 260000 90000 7000 0 50000 25000 5000 -8000 0
C 1 800000 80000 -140000 -60000 - 0 0 -6000 12000 0 9000
C 2 950000 95000 310000 120000 7000 20000 0 0 -4000 -15000 -22000
";

/// A small hour with a cable, made by hand: zones 0 and 1, joined by a cable, whose
/// hubs are zones 2 and 3, and by lines; a row that the cable loads less than the
/// lines do, and one at each converter.
const CABLE: &str = "H 4 2 3
Z 0 200000
Z 1 -200000
Z 2 -50000
Z 3 50000
B 0 0 1 100 2 3
B 1 0 1 50
C 0 1000000 50000 100000 20000 7000 0 1000 30000 10000 24000 12000
C 1 200000 10000 30000 0 - 0 0 0 6000 4000 20000
C 2 50000 0 0 0 7000 0 0 1000 0 6000 0
";

/// A small hour with a default of R of its own, made by hand: rows that take it,
/// and one that has its own R.
const TRAJECTORY: &str = "H 3 2 4 4500
Z 0 300000
Z 1 -100000
Z 2 -200000
B 0 0 1 50
B 1 1 2 80
C 0 1000000 600000 100000 50000 - 0 0 30000 10000 0
C 1 800000 500000 0 0 7000 0 0 5000 20000 -5000
C 2 500000 300000 20000 10000 - 10000 0 12000 0 -8000
C 3 100000 20000 5000 0 - 0 0 3000 0 0
";

/// A small hour after the coupling, made by hand: a row that the allocated positions
/// load beyond its RAM, one that they relieve, and one that two borders share.
const INTRADAY: &str = "H 3 3 4
Z 0 400000
Z 1 100000
Z 2 -500000
T 0 600000
T 1 200000
T 2 -800000
B 0 0 1 100
B 1 1 2 200
B 2 2 1 50
C 0 500000 50000 100000 10000 7000 0 0 20000 0 0
C 1 100000 10000 45000 0 7000 0 30000 5000 15000 0
C 2 200000 20000 -20000 0 - 0 0 0 0 10000
C 3 600000 60000 60000 10000 7000 0 0 10000 0 -10000
";

/// A small hour for claims of an outside solver, made by hand: row 3 is rows 0 and 1
/// together, and twice row 4 is row 0 and three times row 2, each but for one number
/// in every zone; row 5 is not kept.
const CLAIMS: &str = "H 3 2 6
Z 0 300000
Z 1 -100000
Z 2 -200000
B 0 0 1 100
B 1 1 2 50
C 0 300000 30000 60000 20000 7000 0 0 30000 10000 0
C 1 200000 20000 -10000 0 7000 0 0 0 20000 -5000
C 2 250000 25000 20000 5000 7000 0 10000 -10000 5000 15000
C 3 700000 70000 90000 10000 7000 0 0 32000 32000 -3000
C 4 500000 50000 -30000 0 7000 5000 0 500 13000 23000
C 5 100000 10000 5000 0 7000 0 0 3000 0 0
";

/// Claims on rows 3 and 4 of the hour for claims.
const CLAIMS_LIST: &str = "Q 3 1 0 1 1 1
Q 4 2 0 1 2 3
";

fn extract(t: &Tables) -> Option<Outcome> {
    second::extract(t.lend(), usize::MAX, usize::MAX, usize::MAX).ok()
}

/// A row as the quick rounds see it: the borders that load it, each with its p.
struct Loaded {
    p: Vec<(usize, u64)>,
    margin: u64,
}

/// The rounds of a table, quickly, for the searches; 0 where it is refused.  Row by
/// row, factors of zero left out; a raise never grows, so the last one stands
/// where the row's share is not smaller.  A row of state 2 is looked at too: it
/// has the factors of a kept row and no less margin, so it changes nothing.
fn quick_rounds(t: &Tables) -> u64 {
    let zones = t.header.zones;
    let mut rows = Vec::new();
    for (row, factors) in t.f.chunks_exact(zones).enumerate() {
        let spread = factors.iter().max().expect("a zone") - factors.iter().min().expect("a zone");
        if spread < second::SPREAD_KEPT {
            continue;
        }
        let p_of = |(k, border)| (k, second::border_factor(factors, border) as u64);
        let p: Vec<(usize, u64)> = t.b.iter().enumerate().map(p_of).filter(|(_, p)| *p > 0).collect();
        let m = second::margin_of(t, row);
        match u64::try_from(m.ram - m.s) {
            Ok(margin) if !p.is_empty() => rows.push(Loaded { p, margin }),
            Ok(_) => {}
            Err(_) => return 0,
        }
    }
    let mut raises = vec![u64::MAX; t.header.borders];
    let mut rounds = 0;
    loop {
        for Loaded { p, margin } in &rows {
            let share = margin / p.len() as u64;
            for (k, p) in p {
                let raise = &mut raises[*k];
                if raise.checked_mul(*p).map_or(true, |load| load > share) {
                    *raise = share / p;
                }
            }
        }
        if raises.contains(&u64::MAX) || raises.iter().all(|raise| *raise == 0) {
            return rounds;
        }
        for Loaded { p, margin } in &mut rows {
            *margin -= p.iter().map(|(k, p)| p * raises[*k]).sum::<u64>();
        }
        rounds += 1;
    }
}

// ------------------------------------------------------------ a plausible hour

/// Which hour of the plausible kind is made.
#[derive(Clone, Copy)]
struct Kind {
    header: Header,
    /// power runs one way through the zones: borders, positions and factors
    one_way: bool,
    /// how far down a border of such an hour reaches at most, and the step of its
    /// LTA in MW
    reach: usize,
    lta_step: i64,
    /// the last two zones are the hubs of a cable, used both ways (one-way hours)
    cable: bool,
    steepest: i64,
    /// how many of the rows have little room
    tight: usize,
}

/// The zones that the cable joins, and what it can carry, in kW.
const CABLE_ENDS: [usize; 2] = [2, 10];
const CABLE_RATING: i64 = 1_000_000;

impl Kind {
    /// The zones that are no hubs.
    fn places(&self) -> usize {
        self.header.zones - if self.cable { 2 } else { 0 }
    }
}

/// Borders from a zone to one further down, no border back; then the cable, there
/// and back.
fn one_way_borders(d: &mut Dice, kind: &Kind) -> Vec<Border> {
    let mut b: Vec<Border> = Vec::new();
    let places = kind.places();
    while b.len() < kind.header.borders - if kind.cable { 2 } else { 0 } {
        let from = d.below(places - 1);
        let to = (from + 1 + d.below(kind.reach)).min(places - 1);
        if !b.iter().any(|r| r[0] == from as i64 && r[1] == to as i64) {
            b.push(without_hubs(from as i64, to as i64, kind.lta_step * d.within(0, 6)));
        }
    }
    if kind.cable {
        let [one, other] = CABLE_ENDS.map(|zone| zone as i64);
        let [at_one, at_other] = [places as i64, places as i64 + 1];
        b.push([one, other, 300, at_one, at_other]);
        b.push([other, one, 200, at_other, at_one]);
    }
    b
}

/// Zones on a map: a ring with a few links across it; each border both ways.
fn plausible_borders(d: &mut Dice) -> Vec<Border> {
    let mut links: Vec<(usize, usize)> = (0..FULL.zones).map(|z| (z, (z + 1) % FULL.zones)).collect();
    while links.len() < FULL.borders / 2 {
        let one = d.below(FULL.zones);
        let other = (one + d.of(&[4, 5, 6, 8])) % FULL.zones;
        if !links.contains(&(one, other)) && !links.contains(&(other, one)) {
            links.push((one, other));
        }
    }
    let mut b = Vec::new();
    for (one, other) in links {
        b.push(without_hubs(one as i64, other as i64, 50 * d.within(0, 12)));
        b.push(without_hubs(other as i64, one as i64, 50 * d.within(0, 12)));
    }
    b
}

fn plausible_positions(d: &mut Dice, places: usize) -> Vec<i64> {
    let mut z: Vec<i64> = (0..places).map(|_| d.within(-5_000_000, 5_000_000)).collect();
    let sum: i64 = z[1..].iter().sum();
    z[0] = -sum;
    z
}

/// Factors of a line across the way: falling from zone to zone, most of all at
/// zone `at`.  A hub has nearly the factor of the zone where it stands.
fn one_way_factors(d: &mut Dice, kind: &Kind) -> Vec<i64> {
    let at = 1 + d.below(kind.places() - 1);
    let steep = d.within(5_500, kind.steepest);
    let mut now = steep / 2;
    let mut own: Vec<i64> = (0..kind.places())
        .map(|zone| {
            now -= if zone == at { steep } else { d.within(0, 60) };
            now
        })
        .collect();
    if kind.cable {
        for zone in CABLE_ENDS {
            own.push(own[zone] + d.within(-400, 400));
        }
    }
    own
}

/// The cable's own row, one way or the other: nothing else loads it.
fn rating_factors(kind: &Kind, back: bool) -> Vec<i64> {
    let mut own = vec![0; kind.places()];
    own.extend(if back { [50_000, -50_000] } else { [-50_000, 50_000] });
    own
}

/// Factors of a line near zone `at`: large there, smaller further round the
/// ring, with the other sign on the line's other side.
fn plausible_factors(d: &mut Dice, steepest: i64) -> Vec<i64> {
    let at = d.below(FULL.zones);
    let steep = d.within(1_500, steepest);
    (0..FULL.zones)
        .map(|zone| {
            let away = (zone + FULL.zones - at) % FULL.zones;
            let (side, far) = if away < FULL.zones / 2 { (1, away + 1) } else { (-1, FULL.zones - away) };
            side * steep / far as i64 + d.within(-900, 900)
        })
        .collect()
}

fn plausible(seed: u64, kind: Kind) -> Tables {
    let mut dice = Dice::new(seed);
    let d = &mut dice;
    let Header { zones, rows, .. } = kind.header;
    let mut z = plausible_positions(d, kind.places());
    if kind.one_way {
        z.sort();
        z.reverse();
    }
    if kind.cable {
        z.extend([-400_000, 400_000]);
    }
    let b = if kind.one_way { one_way_borders(d, &kind) } else { plausible_borders(d) };
    let mut c = Vec::new();
    let mut f: Vec<i64> = Vec::new();
    for row in 0..rows {
        if kind.cable && row >= rows - 2 {
            let back = row == rows - 1;
            f.extend(rating_factors(&kind, back));
            c.push([CABLE_RATING, 0, if back { -400_000 } else { 400_000 }, 0, 0, 0, 0]);
            continue;
        }
        let own = if row % 25 == 24 {
            // the same line after another outage: factors moved by one number
            let like = f[(row - 3) * zones..(row - 2) * zones].to_vec();
            let by = d.within(-300, 300);
            like.iter().map(|factor| factor + by).collect()
        } else if kind.one_way {
            one_way_factors(d, &kind)
        } else {
            plausible_factors(d, kind.steepest)
        };
        let fmax = 1_000 * d.within(400, 2_500);
        let load: i64 = own.iter().zip(&z).map(|(factor, position)| factor * position / 100_000).sum();
        let f0all = fmax * d.within(-15, 15) / 100;
        let fref = (load + f0all + fmax * d.within(-10, 10) / 100).clamp(-20_000_000, 20_000_000);
        let r = if d.one_in(3) { -1 } else { d.of(&[2_000, 5_000, 7_000, 7_000, 7_000]) };
        f.extend(own);
        c.push([fmax, fmax * d.within(5, 15) / 100, fref, f0all, r, 0, 0]);
    }
    let mut t = Tables { header: kind.header, z, t: vec![], b, c, f };
    // a few rows with a validation cut, never more than the row has to spare
    for row in 0..rows {
        let m = second::margin_of(&t, row);
        let spare = ((m.ram - m.s) / 100_000) as i64;
        if row < kind.tight {
            let left = spare.min(d.within(0, 400));
            t.c[row][6] = (spare - left).clamp(0, 10_000_000);
        } else if row % 10 == 3 {
            t.c[row][6] = spare.min(1_000 * d.within(0, 60));
        } else if row % 40 == 7 {
            t.c[row][5] = spare.min(1_000 * d.within(0, 30));
        }
    }
    t
}

/// A one-way hour of a seed.
fn busy_of(seed: u64) -> Tables {
    let mut d = Dice::new(!seed);
    let (steepest, tight) = (d.of(&[8_000, 15_000, 25_000]), d.of(&[0, 5, 10, 20]));
    plausible(seed, Kind { header: FULL, one_way: true, reach: 5, lta_step: 50, cable: false, steepest, tight })
}

/// A one-way hour of a seed, of 64 borders, a cable among them.
fn busy_64_of(seed: u64) -> Tables {
    let mut d = Dice::new(!seed);
    let (steepest, tight) = (d.of(&[8_000, 15_000, 25_000]), d.of(&[0, 5, 10, 20]));
    plausible(seed, Kind { header: FULL_64, one_way: true, reach: 8, lta_step: 20, cable: true, steepest, tight })
}

/// The seed of the most rounds among a number of seeds, the first of equals.
fn busiest(seeds: std::ops::Range<u64>, of: fn(u64) -> Tables) -> (u64, u64) {
    let judged = seeds.map(|seed| (quick_rounds(&of(seed)), seed));
    judged.reduce(|best, next| if next.0 > best.0 { next } else { best }).expect("a seed")
}

// --------------------------------------------------------------- the worst hour

/// What the search may change of the worst hour.
#[derive(Clone, Debug)]
struct Shape {
    /// p of border 0 on the wide rows
    small: i64,
    /// net position of the first half of the zones, the other half less that
    position: i64,
    /// flow without exchange and its total on the wide rows, and R
    fref: i64,
    f0all: i64,
    r: i64,
    fmax: i64,
    frm: i64,
    /// wide rows lose up to so much of a factor, so that no two are parallel
    loss: i64,
    /// LTA of every border
    lta: i64,
}

/// Border 0 runs between two zones of nearly equal factors, all other borders
/// from the first half of the zones to the second half.  The wide rows are
/// loaded by every border (n is all of them) and have a large margin; the last row
/// is loaded by every border but border 0 and has none, so the others never rise
/// and border 0 takes an n-th of what is left in each round.
fn worst_of(s: &Shape, header: Header) -> Tables {
    let mut d = Dice::new(SEED_WORST);
    let rows = header.rows;
    let half = FULL.zones / 2;
    let z = (0..FULL.zones).map(|zone| if zone < half { s.position } else { -s.position }).collect();
    let mut b = vec![without_hubs(0, 1, s.lta)];
    for k in 0..header.borders - 1 {
        let (from, to) = (k % half, half + (k / half + k % half) % half);
        b.push(without_hubs(from as i64, to as i64, s.lta));
    }
    let mut c = Vec::new();
    let mut f: Vec<i64> = Vec::new();
    for row in 0..rows - 1 {
        let loss: Vec<i64> = (0..FULL.zones).map(|_| d.within(0, s.loss)).collect();
        for zone in 0..FULL.zones {
            // row 0 loses nothing; no row loses anything in zones 0 and 1
            let lost = if row == 0 || zone < 2 { 0 } else { loss[zone] };
            f.push(match zone {
                1 => 100_000 - s.small,
                _ if zone < half => 100_000 - lost,
                _ => -100_000 + lost,
            });
        }
        c.push([s.fmax, s.frm, s.fref, s.f0all, s.r, 0, 0]);
    }
    f.extend((0..FULL.zones).map(|zone| if zone < half { 5_000 } else { 0 }));
    c.push([1, 1, 0, -20_000_000, 0, 0, 0]);
    let mut t = Tables { header, z, t: vec![], b, c, f };
    // the last row: the flow that leaves next to nothing, and the rest by CVA and IVA
    let last = rows - 1;
    let m = second::margin_of(&t, last);
    t.c[last][2] = (-m.f0core / 100_000).clamp(-20_000_000, 20_000_000) as i64;
    let m = second::margin_of(&t, last);
    let spare = ((m.ram - m.s) / 100_000) as i64;
    t.c[last][5] = spare.clamp(0, 10_000_000);
    t.c[last][6] = (spare - t.c[last][5]).clamp(0, 10_000_000);
    t
}

/// A bounded search: one value of the shape changed at a time, kept where the
/// rounds do not fall.  It starts far from the ends of the ranges.
fn worst(header: Header) -> Tables {
    let mut d = Dice::new(SEED_WORST);
    let mut shape = Shape {
        small: 500,
        position: 1_000_000,
        fref: 0,
        f0all: 0,
        r: 7_000,
        fmax: 1_000_000,
        frm: 100_000,
        loss: 500,
        lta: 100,
    };
    // more wide rows cost time, not rounds, so the search has three rows; judged
    // on the rounds and, where these are equal, on the raise of border 0 alone
    let few = Header { rows: 3, ..header };
    let judged = |t: &Tables| (quick_rounds(t), alone(t));
    let mut most = judged(&worst_of(&shape, few));
    for _ in 0..STEPS_WORST {
        let mut next = shape.clone();
        let near = |d: &mut Dice, was: i64, low: i64, high: i64| match d.below(4) {
            0 => low,
            1 => high,
            _ => (was + d.within(-(high - low) / 8, (high - low) / 8)).clamp(low, high),
        };
        match d.below(9) {
            0 => next.small = near(&mut d, next.small, 1, 1_000),
            1 => next.position = near(&mut d, next.position, 0, 100_000_000),
            2 => next.fref = near(&mut d, next.fref, -20_000_000, 20_000_000),
            3 => next.f0all = near(&mut d, next.f0all, -20_000_000, 20_000_000),
            4 => next.r = near(&mut d, next.r, 0, 10_000),
            5 => next.fmax = near(&mut d, next.fmax, 1_000, 10_000_000),
            6 => next.frm = near(&mut d, next.frm, 0, next.fmax),
            7 => next.loss = near(&mut d, next.loss, 1, 1_000),
            _ => next.lta = near(&mut d, next.lta, 0, 200),
        }
        next.frm = next.frm.min(next.fmax);
        let now = judged(&worst_of(&next, few));
        if now >= most {
            most = now;
            shape = next;
        }
    }
    println!("worst of {} borders: the search ended at {} rounds with {shape:?}", header.borders, most.0);
    worst_of(&shape, header)
}

/// The margin of row 0, as far as border 0 could take it alone.
fn alone(t: &Tables) -> i128 {
    let m = second::margin_of(t, 0);
    (m.ram - m.s) / second::border_factor(&t.f[..FULL.zones], &t.b[0]).max(1)
}

/// The largest A below, without T lines: p 1, each zone at its ends but the one that
/// makes p 1 (hubs change nothing: four ends sum to an even number of 100,000), Fref,
/// F0all, Fmax and R at their ends.
const START_MOST: i128 = 165_000_000_000_000 - 100_000_000;

/// With T lines at their ends, too, it is 1.6 x 10^14 less 10^8 more.  S is not taken off
/// here, and may be the larger part: p 1 of one border and p 400,000, by hubs, of the
/// others, at the highest LTA.
fn start_most_intraday(borders: i128) -> i128 {
    let s = ((borders - 1) * 400_000 + 1) * 10_000_000;
    START_MOST.max(s) + 160_000_000_000_000 - 100_000_000
}

/// No table of so many borders has more rounds than this.  Raises never grow, so
/// the border that rises last rises in every round: by R in a round, and by U from
/// that round to the end.  The row that sets R has A = floor(margin / p) and shares
/// among k borders, so R is floor(A / k).  It loses R or more of A in each round and
/// has k or more of it in the last, so A is at least U + k - 1, and R at least U / k
/// rounded up; so at least U / m rounded up, m being the most borders that a row of
/// this border shares among.  U thus loses an m-th of itself, rounded up, in each
/// round, and starts at A - (m - 1) of that row at most.  Where a border rises alone
/// against a row of m, A - (m - 1) does just that.
/// Of 64 borders it is proved: crates/worst.
fn ceiling(borders: i128, start: i128) -> u64 {
    let alone = |m: i128| {
        let mut a = start;
        let mut rounds = 0;
        while a / m > 0 {
            a -= a / m;
            rounds += 1;
        }
        rounds
    };
    (1..=borders).map(alone).max().expect("a border")
}

/// The most rounds with T lines: border 0 rises alone, as in the worst hour.  Here S is
/// not taken off RAM, and is the largest of RAM's values: of border 0, p 1, and of 63
/// borders with hubs, p 400,000, all at the highest LTA.  Row 0 has that RAM, and T at
/// its ends relieves it.  Each other border is stopped by the row of the zone that it
/// leads to, which has no margin left.
fn late() -> Tables {
    let header = Header { rows: 9, intraday: second::INTRADAY, ..FULL_64 };
    let half = header.zones / 2;
    let ends = |zone: usize, first: i64| if zone < half { first } else { -first };
    // the zones with the factor 100,000, of which zone 1 has one less
    let high = |k: usize| [0, 2, 3, 4, 5, 6, 7][k % 7];
    let low = |k: usize| (half + k % half) as i64;
    let mut b = vec![without_hubs(0, 1, 10_000)];
    for k in 0..header.borders - 1 {
        // the hubs are the zones after to and after from; once every pair was there, those after these
        let (step, to) = (1 + k / (7 * half), k / 7);
        b.push([high(k), low(to), 10_000, low(to + step), high(k + step)]);
    }
    let mut c = vec![[1, 0, 0, 0, 0, 0, 0]];
    let mut f: Vec<i64> = (0..header.zones).map(|zone| ends(zone, 100_000) - i64::from(zone == 1)).collect();
    for stopped in half..header.zones {
        c.push([1, 0, 0, 0, 0, 10_000_000, 10_000_000]);
        f.extend((0..header.zones).map(|zone| if zone == stopped { -5_000 } else { 0 }));
    }
    let t = (0..header.zones).map(|zone| ends(zone, -100_000_000)).collect();
    Tables { header, z: vec![0; header.zones], t, b, c, f }
}

/// The longest corner sheet: 12 borders at the highest LTA, from zones at one end
/// of the factors to zones at the other, the ends changing places from row to row
/// so that the extraction accepts the table.
fn longest_sheet() -> Tables {
    let header = Header { borders: 12, ..FULL };
    let b = (0..12).map(|i| without_hubs(i % 8, 8 + i / 8, 10_000)).collect();
    let c = vec![[10_000_000, 0, 0, 0, -1, 0, 0]; header.rows];
    let end = |row: usize, zone: usize| if (zone < 8) == (row % 2 == 0) { -100_000 } else { 100_000 };
    let f = (0..header.rows).flat_map(|row| (0..header.zones).map(move |zone| end(row, zone))).collect();
    Tables { header, z: vec![0; header.zones], t: vec![], b, c, f }
}

// ------------------------------------------------------------------------ main

fn put(directory: &str, name: &str, from: &str, t: &Tables) {
    let text = second::write(t.lend(), usize::MAX).expect("a good table");
    let o = extract(t).expect("an accepted table");
    let path = format!("{directory}/{name}.tsv");
    std::fs::write(&path, &text).expect("written");
    let states = |state: u8| o.rows.iter().filter(|row| row.state == state).count();
    let bound = 2 * o.n_most as u64 * u64::from(o.l_bits);
    println!(
        "{path}: {from}; {} bytes, rounds {}, N {}, L {}, bound 2 N L {bound}, rows of state 0, 1, 2: {}, {}, {}, ATC sum {} MW",
        text.len(),
        o.rounds,
        o.n_most,
        o.l_bits,
        states(0),
        states(1),
        states(2),
        o.atc.iter().sum::<u64>()
    );
}

fn main() {
    let directory = std::env::args().nth(1).unwrap_or_else(|| "hours".to_string());
    if directory == "search" {
        let (most, seed) = busiest(SEEDS_BUSY_64, busy_64_of);
        println!("busy, 64 borders: seed {seed}, {most} rounds, the most of seeds {SEEDS_BUSY_64:?}");
        return;
    }
    std::fs::create_dir_all(&directory).expect("a directory");
    let worked = second::read(WORKED.replace(' ', "\t").as_bytes(), [usize::MAX; 5]).expect("the worked hour");
    put(&directory, "worked", "the hour of the rules", &worked);
    let planner = second::read(PLANNER.replace(' ', "\t").as_bytes(), [usize::MAX; 5]).expect("the small hour");
    put(&directory, "planner", "a small hour for the corner sheet", &planner);
    let cable = second::read(CABLE.replace(' ', "\t").as_bytes(), [usize::MAX; 5]).expect("the hour with a cable");
    put(&directory, "cable", "a small hour with a cable", &cable);
    let trajectory = second::read(TRAJECTORY.replace(' ', "\t").as_bytes(), [usize::MAX; 5]).expect("the hour with a default");
    put(&directory, "trajectory", "a small hour with a default of R", &trajectory);
    let mut replaced = trajectory.clone();
    for row in replaced.c.iter_mut().filter(|row| row[4] == second::R_DASH) {
        row[4] = trajectory.header.share;
    }
    put(&directory, "trajectory-replaced", "the same with the default in each of these rows", &replaced);
    let intraday = second::read(INTRADAY.replace(' ', "\t").as_bytes(), [usize::MAX; 5]).expect("the intraday hour");
    put(&directory, "intraday", "a small hour after the coupling", &intraday);
    let claims = second::read(CLAIMS.replace(' ', "\t").as_bytes(), [usize::MAX; 5]).expect("the hour with claims");
    put(&directory, "claims", "a small hour for two claims", &claims);
    std::fs::write(format!("{directory}/claims.txt"), CLAIMS_LIST.replace(' ', "\t")).expect("written");
    put(&directory, "sheet", "the longest corner sheet", &longest_sheet());
    put(&directory, "plain", &format!("seed {SEED_PLAIN}"), &plausible(SEED_PLAIN, PLAIN));
    let (_, seed) = busiest(SEEDS_BUSY, busy_of);
    put(&directory, "busy", &format!("seed {seed}, the most of seeds {SEEDS_BUSY:?}"), &busy_of(seed));
    put(&directory, "busy64", &format!("seed {SEED_BUSY_64}, the most of seeds {SEEDS_BUSY_64:?}"), &busy_64_of(SEED_BUSY_64));
    for (name, header) in [("worst", FULL), ("worst64", FULL_64)] {
        put(&directory, name, &format!("seed {SEED_WORST}, {STEPS_WORST} steps"), &worst(header));
        let borders = header.borders as i128;
        let [plain, intraday] = [START_MOST, start_most_intraday(borders)].map(|start| ceiling(borders, start));
        println!("no table of {borders} borders has more than {plain} rounds, or {intraday} with T lines");
    }
    put(&directory, "late", "the most rounds with T lines", &late());
}
