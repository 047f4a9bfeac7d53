//! Makes tables and edited ones, and what differs between them in words, for a comparison
//! with the calculator.
//!
//! edits FOLDER SEED COUNT TABLE..: each table with each other; each field of each small
//! table by itself; and COUNT times some edits at random, of values and of lines, with a
//! correction sheet for some.  Into the folder, for number N: old/N, new/N or none,
//! sheet/N or none, and wanted/N, the words or the E line.
//! edits check FOLDER: of how many pairs of the folder something else is said here; status 1
//! where there is one.

#[path = "changes.rs"]
mod changes;
#[path = "dice.rs"]
mod dice;
#[path = "second.rs"]
mod second;

use changes::changes;
use dice::Dice;
use second::rows::sheet_of;
use second::{read, read_corrected, refusal_text, write, Tables, ALL_ROOM, INTRADAY, NO_HUB, NO_SHARE, NO_T, R_DASH};
use std::path::{Path, PathBuf};

/// Of a table of at most so many bytes each field is edited.
const SMALL: usize = 3_000;

struct Case {
    old: Vec<u8>,
    new: Option<Vec<u8>>,
    sheet: Option<Vec<u8>>,
}

/// The old table is judged first, by itself.
fn wanted(case: &Case) -> Vec<u8> {
    let new = case.new.as_ref().unwrap_or(&case.old);
    let both = read(&case.old, ALL_ROOM).and_then(|old| {
        let new = read_corrected(new, case.sheet.as_deref().unwrap_or(b""), ALL_ROOM)?;
        Ok((old, new))
    });
    both.map_or_else(refusal_text, |(old, new)| changes(&old, &new).into_bytes())
}

fn lines_of(text: &[u8]) -> Vec<Vec<u8>> {
    text.split_inclusive(|byte| *byte == b'\n').map(<[u8]>::to_vec).collect()
}

/// Values for a field, in the order in which they are tried.
fn values(field: &str) -> Vec<String> {
    match field.parse::<i64>() {
        Ok(number) => [number + 1, number - 1, 0, 1, 2].iter().filter(|value| **value != number).map(i64::to_string).chain(["-".to_string()]).collect(),
        Err(_) => vec!["7000".to_string(), "0".to_string()],
    }
}

/// The text with each field of each line replaced: by the first value with which it is still
/// a table, and then one line is said of it; or by the first.
fn each_field(text: &[u8]) -> Vec<Case> {
    let mut cases = Vec::new();
    let lines = lines_of(text);
    for (number, line) in lines.iter().enumerate() {
        let body = String::from_utf8(line[..line.len() - 1].to_vec()).expect("plain text");
        let fields: Vec<&str> = body.split('\t').collect();
        for place in 1..fields.len() {
            let with = |value: &String| {
                let mut fields = fields.clone();
                fields[place] = value;
                let mut lines = lines.clone();
                lines[number] = (fields.join("\t") + "\n").into_bytes();
                lines.concat()
            };
            let all: Vec<Vec<u8>> = values(fields[place]).iter().map(with).collect();
            let good = all.iter().find(|text| read(text, ALL_ROOM).is_ok());
            let case = Case { old: text.to_vec(), new: Some(good.unwrap_or(&all[0]).clone()), sheet: None };
            if good.is_some() {
                let said = String::from_utf8(wanted(&case)).expect("plain text");
                assert!(said.starts_with(&format!("line {}, ", number + 1)) && said.lines().count() == 1, "{said}");
            }
            cases.push(case);
        }
    }
    cases
}

/// One edit of a table: of a value, or of a line or a column.
fn edit(d: &mut Dice, t: &mut Tables) {
    let zones = t.header.zones;
    let row = d.below(t.c.len());
    let border = d.below(t.b.len());
    let zone = d.below(zones);
    let by = d.of(&[-1, 1, -1_000, 1_000, 7]);
    match d.below(16) {
        0 => t.z[zone] += by,
        1 => t.b[border][d.below(3)] += by,
        2 | 3 => t.c[row][d.below(7)] += by,
        4 | 5 => t.f[row * zones + zone] += by,
        6 => t.c[row][4] = if t.c[row][4] == R_DASH { 7_000 } else { R_DASH },
        7 => t.header.share = d.of(&[NO_SHARE, 0, 6_000, 7_000, 10_000]),
        8 => {
            let hubs = if t.b[border][3] == NO_HUB { [zone as i64, (zone as i64 + 1) % zones as i64] } else { [NO_HUB; 2] };
            t.b[border][3..].copy_from_slice(&hubs);
        }
        9 => {
            // T positions that sum to zero, or none
            t.header.intraday = if t.t.is_empty() { INTRADAY } else { NO_T };
            t.t = if t.t.is_empty() { vec![0; zones] } else { vec![] };
        }
        10 if !t.t.is_empty() => {
            t.t[zone] += by;
            t.t[(zone + 1) % zones] -= by;
        }
        11 => {
            // a row twice
            let factors = t.f[row * zones..(row + 1) * zones].to_vec();
            t.f.extend(factors);
            t.c.push(t.c[row]);
        }
        12 if t.c.len() > 1 => {
            t.c.pop();
            t.f.truncate(t.c.len() * zones);
        }
        13 => {
            let mut turned = t.b[border];
            turned.swap(0, 1);
            t.b.push(turned);
        }
        14 if t.b.len() > 1 => {
            t.b.pop();
        }
        15 => {
            // a zone more, or one less
            let more = zones <= 2 || d.one_in(2);
            let rows: Vec<Vec<i64>> = t.f.chunks(zones).map(|factors| if more { [factors, &[by]].concat() } else { factors[..zones - 1].to_vec() }).collect();
            t.f = rows.concat();
            let size = if more { zones + 1 } else { zones - 1 };
            t.z.resize(size, 5);
            if !t.t.is_empty() {
                t.t.resize(size, 0);
            }
        }
        _ => {}
    }
    t.header.zones = t.z.len();
    t.header.borders = t.b.len();
    t.header.rows = t.c.len();
}

/// A table with some edits; none where no table is left.
fn edited(d: &mut Dice, t: &Tables) -> Option<Tables> {
    let mut t = t.clone();
    for _ in 0..d.of(&[0, 1, 1, 2, 3, 8]) {
        edit(d, &mut t);
    }
    write(t.lend(), usize::MAX).is_ok().then_some(t)
}

/// Some rows of a table as a correction sheet of either kind.
fn sheet(d: &mut Dice, t: &Tables) -> Vec<u8> {
    let text = write(t.lend(), usize::MAX).expect("a table");
    let lines = if d.one_in(2) { lines_of(&sheet_of(Ok(t.clone()))) } else { lines_of(&text)[lines_of(&text).len() - t.c.len()..].to_vec() };
    lines.into_iter().filter(|_| d.one_in(2)).flatten().collect()
}

fn at_random(d: &mut Dice, tables: &[Tables]) -> Option<Case> {
    let at = d.below(tables.len());
    let text = |t: &Tables| write(t.lend(), usize::MAX).expect("a table");
    let old = edited(d, &tables[at])?;
    let new = edited(d, &old)?;
    let case = match d.below(6) {
        0 => Case { old: text(&old), new: None, sheet: Some(sheet(d, &new)) },
        1 => {
            let later = edited(d, &new)?;
            Case { old: text(&old), new: Some(text(&new)), sheet: Some(sheet(d, &later)) }
        }
        2 => {
            // one of them no table any more
            let mut texts = [text(&old), text(&new)];
            let cut = d.below(2);
            let length = d.below(texts[cut].len());
            texts[cut].truncate(length);
            let [old, new] = texts;
            Case { old, new: Some(new), sheet: None }
        }
        _ => Case { old: text(&old), new: Some(text(&new)), sheet: None },
    };
    Some(case)
}

/// The pairs of a folder of which something else is said than is wanted, and all of them.
fn differing(folder: &str) -> [usize; 2] {
    let mut counts = [0; 2];
    for file in std::fs::read_dir(Path::new(folder).join("wanted")).expect(folder) {
        let file = file.expect(folder).path();
        let of = |kind: &str| std::fs::read(Path::new(folder).join(kind).join(file.file_name().expect("a name"))).ok();
        let case = Case { old: of("old").expect(folder), new: of("new"), sheet: of("sheet") };
        counts[0] += usize::from(Some(wanted(&case)) != of("wanted"));
        counts[1] += 1;
    }
    counts
}

fn number(argument: &str) -> u64 {
    let read = match argument.strip_prefix("0x") {
        Some(hex) => u64::from_str_radix(hex, 16),
        None => argument.parse(),
    };
    read.expect("a number")
}

fn main() {
    let arguments: Vec<String> = std::env::args().skip(1).collect();
    if let [check, folder] = &arguments[..] {
        assert_eq!(check, "check");
        let [differ, all] = differing(folder);
        println!("of {differ} of {all} pairs something else is said");
        std::process::exit(i32::from(differ > 0));
    }
    let [folder, seed, count, files @ ..] = &arguments[..] else {
        eprintln!("arguments: a folder, a seed, how many edits at random, tables; or \"check\" and a folder");
        std::process::exit(2);
    };
    let mut dice = Dice::new(number(seed));
    let d = &mut dice;
    let texts: Vec<Vec<u8>> = files.iter().map(|file| std::fs::read(file).expect(file)).collect();
    let mut cases: Vec<Case> = Vec::new();
    for old in &texts {
        cases.extend(texts.iter().map(|new| Case { old: old.clone(), new: Some(new.clone()), sheet: None }));
    }
    let good: Vec<Tables> = texts.iter().filter(|text| text.len() < SMALL).filter_map(|text| read(text, ALL_ROOM).ok()).collect();
    cases.extend(good.iter().flat_map(|t| each_field(&write(t.lend(), usize::MAX).expect("a table"))));
    for _ in 0..number(count) {
        cases.extend(at_random(d, &good));
    }
    let mut said = 0;
    for (number, case) in cases.iter().enumerate() {
        let wanted = wanted(case);
        said += wanted.iter().filter(|byte| **byte == b'\n').count();
        let file = |kind: &str| -> PathBuf { Path::new(folder).join(kind).join(format!("{number:05}")) };
        let put = |kind: &str, bytes: &[u8]| std::fs::write(file(kind), bytes).unwrap_or_else(|error| panic!("{kind}: {error}"));
        put("old", &case.old);
        put("wanted", &wanted);
        case.new.iter().for_each(|new| put("new", new));
        case.sheet.iter().for_each(|sheet| put("sheet", sheet));
    }
    println!("{} pairs of tables of the seed {seed}, {said} lines in words", cases.len());
}
