//! Measures the calculator on the hours of hours/: designs of the extraction side by side, what is not rounds, and text.
//!
//!   bench [SECONDS [HOURS..]]   the designs take turns; processor time, over SECONDS (3) for each hour
//!   bench names                 the designs
//!   bench once DESIGN HOUR      one call of a design, inside the function `measured`: for a tool that counts

mod calls;
mod loops;
mod old;
#[path = "../second/second.rs"]
mod second;

use old::Lent;
use second::{Header, Tables};
use std::hint::black_box;
use std::time::{Duration, Instant};

const HOURS: [&str; 6] =
    ["hours/worked.tsv", "hours/plain.tsv", "hours/busy.tsv", "hours/worst.tsv", "hours/busy64.tsv", "hours/worst64.tsv"];

// ---- the designs

/// No factor is so large.
const UNFILLED: u64 = 7_000_000;
/// No result is this.
const UNSAID: i64 = -7;

struct Hour {
    text: Vec<u8>,
    tables: Tables,
    /// The same tables, each border one that could take no less alone than the one before: the bound then looks at most rows.
    ascending: Tables,
}

impl Hour {
    fn lent(&self) -> Lent<'_> {
        lent(&self.tables)
    }
}

fn lent(tables: &Tables) -> Lent<'_> {
    let Tables { header, z, b, c, f, .. } = tables;
    Lent { zones: header.zones, borders: header.borders, rows: header.rows, share: header.share, z, b, c, f }
}

fn ascending(tables: &Tables) -> Tables {
    let Header { borders, rows, .. } = tables.header;
    let mut room = old::Room::new();
    old::prepare(&lent(tables), &mut room, borders, rows).expect("accepted");
    let alone = |b: usize| (0..rows).filter_map(|i| room.margins[i].checked_div(room.p[i * borders + b])).min();
    let mut order: Vec<usize> = (0..borders).collect();
    order.sort_by_key(|b| alone(*b));
    Tables { b: order.iter().map(|b| tables.b[*b]).collect(), ..tables.clone() }
}

/// What a design writes to: each has its own.
struct Room {
    /// the factors by border: the library and the second program fill it, the other designs have their own
    p: Vec<u64>,
    /// ATC, last round and stopping row: the library and the second program say all three, the other designs the ATC alone
    atc: Vec<[i64; 3]>,
    left: Vec<[i64; 3]>,
    tables: Tables,
    out: Vec<u8>,
}

impl Room {
    fn for_hour(hour: &Hour) -> Room {
        let mut tables = hour.tables.clone();
        tables.z.fill(UNSAID);
        tables.t.fill(UNSAID);
        tables.b.fill([UNSAID; 5]);
        tables.c.fill([UNSAID; 7]);
        tables.f.fill(UNSAID);
        let header = tables.header;
        let p = vec![UNFILLED; header.rows * header.borders];
        Room { p, atc: vec![[UNSAID; 3]; header.borders], left: vec![[UNSAID; 3]; header.rows], tables, out: vec![0; 65_536] }
    }

    fn same(&self, other: &Room) -> bool {
        let unfilled = |room: &Room| room.p.iter().all(|p| *p == UNFILLED);
        let same_p = self.p == other.p || unfilled(self) || unfilled(other);
        let same_item = |(one, two): (&i64, &i64)| one == two || *one == UNSAID || *two == UNSAID;
        let same_record = |(one, two): (&[i64; 3], &[i64; 3])| one[0] == two[0] && one.iter().zip(two).all(same_item);
        let same_atc = self.atc.iter().zip(&other.atc).all(same_record);
        same_p && same_atc && self.left == other.left && self.tables == other.tables && self.out == other.out
    }
}

/// The library's `extract` through its C interface.
fn proved(hour: &Hour, room: &mut Room) -> u64 {
    calls::extract(&hour.tables, &mut room.p, &mut room.atc, &mut room.left).rounds
}

/// The extraction as it stood before E4.
fn old_shape(hour: &Hour, room: &mut Room) -> u64 {
    loops::extract(&hour.lent(), &mut room.atc, &mut room.left, loops::old_rounds).expect("accepted")
}

/// The old shape, its rounds by E4's letter.
fn letter(hour: &Hour, room: &mut Room) -> u64 {
    loops::extract(&hour.lent(), &mut room.atc, &mut room.left, loops::letter_rounds).expect("accepted")
}

/// The old shape with the library's rounds.
fn new_rounds(hour: &Hour, room: &mut Room) -> u64 {
    loops::extract(&hour.lent(), &mut room.atc, &mut room.left, loops::new_rounds).expect("accepted")
}

/// The second program, in 128-bit numbers.
fn second_program(hour: &Hour, room: &mut Room) -> u64 {
    let outcome = second::extract(hour.tables.lend(), room.p.len(), room.atc.len(), room.left.len()).expect("accepted");
    room.p.copy_from_slice(&outcome.p);
    for (border, mw) in outcome.atc.iter().enumerate() {
        room.atc[border] = [*mw as i64, outcome.last[border] as i64, outcome.stop[border].map_or(-1, |row| row as i64)];
    }
    for (left, row) in room.left.iter_mut().zip(&outcome.rows) {
        *left = [i64::from(row.state), row.ram as i64, row.left.map_or(-1, |margin| margin as i64)];
    }
    outcome.rounds
}

/// The old shape, its rounds in floating point.
fn float_loop(hour: &Hour, room: &mut Room) -> u64 {
    loops::extract(&hour.lent(), &mut room.atc, &mut room.left, loops::float_rounds).expect("accepted")
}

/// The library's `extract` refused for want of one row result. Room for results is judged last, right before the rounds: so
/// this is what is not rounds.
fn proved_short(hour: &Hour, room: &mut Room) -> u64 {
    let short = room.left.len() - 1;
    calls::extract(&hour.tables, &mut room.p, &mut room.atc, &mut room.left[..short]).place as u64
}

/// The old shape refused at the same place.
fn old_short(hour: &Hour, room: &mut Room) -> u64 {
    let short = room.left.len() - 1;
    let refused = loops::extract(&hour.lent(), &mut room.atc, &mut room.left[..short], loops::old_rounds);
    refused.expect_err("one record short").1 as u64
}

/// The library's `bound`: 2 x N x L, known before the first round.
fn proved_bound(hour: &Hour, _: &mut Room) -> u64 {
    calls::bound(&hour.tables).rounds
}

/// The library's `bound` where the borders stand in the order that costs most.
fn proved_bound_ascending(hour: &Hour, _: &mut Room) -> u64 {
    calls::bound(&hour.ascending).rounds
}

/// The library's `read`: text to tables.
fn proved_read(hour: &Hour, room: &mut Room) -> u64 {
    calls::read(&hour.text, &mut room.tables).rows as u64
}

/// The library's `result_text`: tables to the result's text.
fn proved_result_text(hour: &Hour, room: &mut Room) -> u64 {
    calls::result_text(&hour.tables, &mut room.out).bytes as u64
}

/// The library's `answer`: text to the result's text.
fn proved_answer(hour: &Hour, room: &mut Room) -> u64 {
    calls::answer(&hour.text, &mut room.out).bytes as u64
}

/// The library's `write`: tables to their text.
fn proved_write(hour: &Hour, room: &mut Room) -> u64 {
    calls::write(&hour.tables, &mut room.out).bytes as u64
}

fn keep(text: Vec<u8>, room: &mut Room) -> u64 {
    room.out[..text.len()].copy_from_slice(&text);
    text.len() as u64
}

/// The second program's bound.
fn second_bound(hour: &Hour, _: &mut Room) -> u64 {
    second::bound(hour.tables.lend()).expect("accepted").rounds
}

/// The second program's reading.
fn second_read(hour: &Hour, room: &mut Room) -> u64 {
    room.tables = second::read(&hour.text, [usize::MAX; 5]).expect("a good table");
    room.tables.c.len() as u64
}

/// The second program's result text.
fn second_result_text(hour: &Hour, room: &mut Room) -> u64 {
    keep(second::result_text(hour.tables.lend(), room.out.len()).expect("accepted"), room)
}

/// The second program from text to text.
fn second_answer(hour: &Hour, room: &mut Room) -> u64 {
    keep(second::answer(&hour.text), room)
}

/// The second program's writing.
fn second_write(hour: &Hour, room: &mut Room) -> u64 {
    keep(second::write(hour.tables.lend(), room.out.len()).expect("a good table"), room)
}

/// What a call answers: the rounds, the items that it wants, or the rows or bytes of its text.
type Call = fn(&Hour, &mut Room) -> u64;

/// Designs of one piece of work. The first is the library's; the second is what each of them is measured against.
struct Work {
    name: &'static str,
    designs: &'static [(&'static str, Call)],
}

/// The one design whose results may differ.
const FLOAT: &str = "float loop";

const WORKS: [Work; 7] = [
    Work {
        name: "extract",
        designs: &[
            ("proved", proved),
            ("old shape", old_shape),
            ("E4's letter", letter),
            ("new rounds in plain Rust", new_rounds),
            ("second program", second_program),
            (FLOAT, float_loop),
        ],
    },
    Work { name: "not rounds", designs: &[("proved", proved_short), ("old shape", old_short)] },
    Work { name: "bound", designs: &[("proved", proved_bound), ("second program", second_bound), ("proved, ascending", proved_bound_ascending)] },
    Work { name: "read", designs: &[("proved", proved_read), ("second program", second_read)] },
    Work { name: "result_text", designs: &[("proved", proved_result_text), ("second program", second_result_text)] },
    Work { name: "answer", designs: &[("proved", proved_answer), ("second program", second_answer)] },
    Work { name: "write", designs: &[("proved", proved_write), ("second program", second_write)] },
];

/// The name of each design, with its work, and its call.
fn designs() -> Vec<(String, Call)> {
    let named = |work: &Work| work.designs.iter().map(|(name, call)| (format!("{}: {name}", work.name), *call)).collect::<Vec<_>>();
    WORKS.iter().flat_map(named).collect()
}

// ---- time

/// The processor time of this thread in microseconds: what others do on the machine meanwhile does not count.
fn processor_time() -> f64 {
    #[repr(C)]
    struct Time {
        seconds: i64,
        nanoseconds: i64,
    }
    extern "C" {
        fn clock_gettime(clock: i32, time: *mut Time) -> i32;
    }
    const THREAD: i32 = 3;
    let mut time = Time { seconds: 0, nanoseconds: 0 };
    let answer = unsafe { clock_gettime(THREAD, &mut time) };
    assert_eq!(answer, 0, "the clock");
    time.seconds as f64 * 1e6 + time.nanoseconds as f64 / 1e3
}

/// The processor time of one call, in microseconds, over `batch` calls.
fn timed(batch: u32, call: Call, hour: &Hour, room: &mut Room) -> f64 {
    let start = processor_time();
    for _ in 0..batch {
        black_box(call(black_box(hour), room));
    }
    (processor_time() - start) / f64::from(batch)
}

/// The median, and the least: far apart where others kept the machine busy.
fn median_and_least(mut times: Vec<f64>) -> [f64; 2] {
    times.sort_by(f64::total_cmp);
    [times[times.len() / 2], times[0]]
}

/// The turns, and the median and the least time of each call over them. A short call is timed in batches of about a millisecond.
fn take_turns(calls: &[(String, Call)], hour: &Hour, rooms: &mut [Room], budget: Duration) -> (usize, Vec<[f64; 2]>) {
    const TURNS_LEAST: usize = 15;
    let mut batches = Vec::new();
    for ((_, call), room) in calls.iter().zip(&mut *rooms) {
        batches.push((1_000.0 / timed(2, *call, hour, room).max(0.1)) as u32 + 1);
    }
    let mut times = vec![Vec::new(); calls.len()];
    let begin = Instant::now();
    while times[0].len() < TURNS_LEAST || begin.elapsed() < budget {
        for (at, (_, call)) in calls.iter().enumerate() {
            times[at].push(timed(batches[at], *call, hour, &mut rooms[at]));
        }
    }
    (times[0].len(), times.into_iter().map(median_and_least).collect())
}

/// The designs of a work agree with the library's, and the library's text with the hour.
fn compare(path: &str, hour: &Hour, said: &[u64], rooms: &[Room]) {
    let mut first = 0;
    for Work { name: work, designs } in WORKS {
        for (at, (name, _)) in (first..).zip(designs) {
            let same = said[at] == said[first] && rooms[at].same(&rooms[first]);
            assert!(same || *name == FLOAT, "{path}: {work}: {name} differs");
        }
        match work {
            "read" => assert!(rooms[first].tables == hour.tables, "{path}: another table is read"),
            "write" => assert!(rooms[first].out[..said[first] as usize] == hour.text, "{path}: another text is written"),
            _ => {}
        }
        first += designs.len();
    }
}

fn measure(path: &str, budget: Duration) {
    let hour = hour_of(path);
    let calls = designs();
    let mut rooms: Vec<Room> = calls.iter().map(|_| Room::for_hour(&hour)).collect();
    let said: Vec<u64> = calls.iter().zip(&mut rooms).map(|((_, call), room)| call(&hour, room)).collect();
    compare(path, &hour, &said, &rooms);
    let (turns, times) = take_turns(&calls, &hour, &mut rooms, budget);

    let Lent { zones, borders, rows, .. } = hour.lent();
    println!("{path}: {zones} zones, {borders} borders, {rows} rows, {} bytes; {turns} turns", hour.text.len());
    println!("  {:38} {:>10} {:>8} {:>10} {:>8} {:>8}", "", "median us", "faster", "least us", "faster", "said");
    let mut first = 0;
    for Work { designs, .. } in WORKS {
        let base = times[first + 1];
        for at in first..first + designs.len() {
            let [median, least] = times[at];
            let faster = [base[0] / median, base[1] / least];
            println!("  {:38} {median:10.2} {:8.2} {least:10.2} {:8.2} {:8}", calls[at].0, faster[0], faster[1], said[at]);
        }
        first += designs.len();
    }
    let float = calls.iter().position(|(name, _)| name.ends_with(FLOAT)).expect("a float loop");
    let off = rooms[float].atc.iter().zip(&rooms[0].atc).map(|(x, y)| (x[0] - y[0]).abs());
    let differ = off.clone().filter(|mw| *mw > 0).count();
    println!("  the float loop differs on {differ} of {borders} borders, by {} MW at most\n", off.max().unwrap());
}

// ---- counting

/// One call. A tool that counts looks for this name.
#[no_mangle]
#[inline(never)]
fn measured(call: Call, hour: &Hour, room: &mut Room) -> u64 {
    black_box(call(black_box(hour), room))
}

fn once(design: &str, path: &str) -> ! {
    extern "C" {
        fn _exit(status: i32) -> !;
    }
    let (_, call) = designs().into_iter().find(|(name, _)| name == design).expect("a design");
    let hour = hour_of(path);
    measured(call, &hour, &mut Room::for_hour(&hour));
    // At once: on Arm valgrind does not see that the function has ended, and would count what comes after it.
    unsafe { _exit(0) }
}

fn hour_of(path: &str) -> Hour {
    let text = std::fs::read(path).unwrap_or_else(|error| panic!("{path}: {error}"));
    let tables = second::read(&text, [usize::MAX; 5]).expect("a good table");
    // The old shape knows no T lines: such an hour is only counted.
    let ascending = if tables.t.is_empty() { ascending(&tables) } else { tables.clone() };
    Hour { text, tables, ascending }
}

fn main() {
    let arguments: Vec<String> = std::env::args().skip(1).collect();
    let arguments: Vec<&str> = arguments.iter().map(String::as_str).collect();
    match arguments[..] {
        ["names"] => designs().iter().for_each(|(name, _)| println!("{name}")),
        ["once", name, path] => once(name, path),
        _ => {
            let seconds = arguments.first().map_or(3.0, |text| text.parse().expect("seconds for each hour"));
            let hours = if arguments.len() > 1 { &arguments[1..] } else { &HOURS };
            hours.iter().for_each(|path| measure(path, Duration::from_secs_f64(seconds)));
        }
    }
}
