//! Looks for the hour on which the whole call takes most instructions: a hill climb over tables. Each step changes the best table so far (moves.rs); what
//! comes out is kept where the extraction accepts it and it costs more. The cost is a guide: the instructions of the rounds, reckoned from their steps in plain
//! Rust (loops.rs), which `bench/run whole` then counts.
//!
//!   slowest SEED STEPS OUT STARTS..   climbs from each start, so many steps, and writes the slowest hour of all to OUT
//!
//! A start is an hour's file, `blocks` (blocks.rs), or `random`.

mod blocks;
#[path = "../second/dice.rs"]
mod dice;
#[allow(dead_code)]
mod loops;
mod moves;
#[allow(dead_code)]
mod old;
#[path = "../second/second.rs"]
mod second;

use dice::Dice;
use loops::{told_rounds, Step, Told, Work};
use second::{Header, Tables};

/// Places in what the second program says of a row.
const STATE: usize = 0;
const START: usize = 11;

#[derive(Default)]
struct Guide {
    instructions: u64,
}

impl Told for Guide {
    /// As compiled for x86-64: what a stretch costs by itself, and for each border that it looks at. On the hour that this program found the sum is within
    /// 3% of what is counted; on the others it leaves out what the table's size alone costs.
    fn step(&mut self, step: Step, borders: usize) {
        let (own, each) = match step {
            Step::Begun => (20, 15),
            Step::Sorted => (14, 8),
            Step::Compared => (16, 0),
            Step::Walked => (25, 13),
            Step::Lowered => (20, 18),
            Step::Rose => (60, 16),
        };
        self.instructions += own + each * borders as u64;
    }
}

/// A table that the extraction accepts.
struct Judged {
    tables: Tables,
    cost: u64,
    rounds: u64,
    /// what the rounds leave to each row, in grains
    left: Vec<u64>,
}

fn judged(tables: Tables) -> Option<Judged> {
    let Header { zones, borders, .. } = tables.header;
    let parts = second::margins(tables.lend(), usize::MAX).ok()?;
    let mut p = Vec::new();
    let mut margins = Vec::new();
    for (factors, parts) in tables.f.chunks_exact(zones).zip(&parts) {
        let kept = parts[STATE] == 0;
        p.extend(tables.b.iter().map(|border| if kept { second::border_factor(factors, border) as u64 } else { 0 }));
        // 7
        margins.push(if kept { u64::try_from(parts[START]).ok()? } else { 0 });
    }
    // 6, and with it 5
    if (0..borders).any(|b| p.iter().skip(b).step_by(borders).all(|p| *p == 0)) {
        return None;
    }
    let ns: Vec<u64> = p.chunks_exact(borders).map(|row| row.iter().filter(|p| **p > 0).count() as u64).collect();
    let mut guide = Guide::default();
    let mut work = Work { borders, p: &p, ns: &ns, margins: &mut margins, x: &mut vec![0; borders] };
    let rounds = told_rounds(&mut work, &mut guide);
    Some(Judged { tables, cost: guide.instructions, rounds, left: margins })
}

/// One step: a move or two, or rows lose what they have left. Half of the tables that moved lose it too, in all rows, for a row with nothing to spare at the
/// end is tight in every round.
fn step(d: &mut Dice, best: &Judged) -> Option<(&'static str, Judged)> {
    let mut t = best.tables.clone();
    let rows = t.header.rows;
    if d.one_in(8) {
        let some = if d.one_in(2) { 0..rows } else { moves::stretch(d, rows) };
        moves::take_left(&mut t, &best.left, some);
        return Some(("what was left", judged(t)?));
    }
    let (name, change) = d.of(&moves::MOVES);
    change(d, &mut t);
    if d.one_in(4) {
        change(d, &mut t);
    }
    let mut now = judged(t)?;
    if d.one_in(2) {
        let rows = now.tables.header.rows;
        moves::take_left(&mut now.tables, &now.left, 0..rows);
        now = judged(now.tables)?;
    }
    Some((name, now))
}

fn climb(seed: u64, steps: u64, start: &str) -> Judged {
    let mut d = Dice::new(seed);
    let tables = match start {
        "blocks" => blocks::blocks(),
        "random" => moves::random(&mut d),
        path => second::read(&std::fs::read(path).expect(path), second::ALL_ROOM).expect("a good table"),
    };
    let mut best = judged(tables).expect("accepted");
    println!("{start}, seed {seed}: {} by the guide, {} rounds", best.cost, best.rounds);
    for number in 1..=steps {
        if let Some((change, now)) = step(&mut d, &best).filter(|(_, now)| now.cost > best.cost) {
            println!("  step {number}, {change}: {}, {} rounds", now.cost, now.rounds);
            best = now;
        }
    }
    best
}

fn main() {
    let arguments: Vec<String> = std::env::args().skip(1).collect();
    let [seed, steps, out, starts @ ..] = &arguments[..] else { panic!("slowest SEED STEPS OUT STARTS..") };
    let (seed, steps) = (seed.parse().expect("a seed"), steps.parse().expect("a number of steps"));
    let best = starts.iter().map(|start| climb(seed, steps, start)).max_by_key(|judged| judged.cost).expect("a start");
    std::fs::write(out, second::write(best.tables.lend(), usize::MAX).expect("a good table")).expect("written");
    println!("{out}: {} by the guide, {} rounds", best.cost, best.rounds);
}
