//! What differs between two tables, in words: one line for each field.  Quoted sentences are
//! those of the word's rules.

use crate::second::{Tables, NO_HUB, NO_SHARE, R_DASH};

/// A line of a table: its number, its name ("C 0"), and its fields by name.
struct Line {
    number: usize,
    name: String,
    fields: Vec<(String, String)>,
}

/// "H, Z, T, B, C": the lines of each kind.
type Kinds = [Vec<Line>; 5];

const T: usize = 2;

/// "C: Fmax, FRM, Fref, F0all, R ("-" as written), CVA, IVA"
const OF_A_ROW: [&str; 7] = ["Fmax", "FRM", "Fref", "F0all", "R", "CVA", "IVA"];

fn field(name: &str, value: impl ToString) -> (String, String) {
    (name.to_string(), value.to_string())
}

/// "default of R: none becomes 6000"
fn share(share: i64) -> String {
    if share == NO_SHARE {
        "none".to_string()
    } else {
        share.to_string()
    }
}

/// "hubs ("none", or both numbers)"
fn hubs(sending: i64, receiving: i64) -> String {
    if [sending, receiving] == [NO_HUB; 2] {
        "none".to_string()
    } else {
        format!("{sending} {receiving}")
    }
}

fn row_fields(record: &[i64; 7], factors: &[i64]) -> Vec<(String, String)> {
    let mut fields: Vec<(String, String)> = Vec::new();
    for (name, number) in OF_A_ROW.iter().zip(record) {
        // of Fref and F0all that number is a value
        let dash = *name == "R" && *number == R_DASH;
        fields.push(field(name, if dash { "-".to_string() } else { number.to_string() }));
    }
    for (zone, factor) in factors.iter().enumerate() {
        fields.push(field(&format!("factor of zone {zone}"), factor));
    }
    fields
}

fn kinds_of(t: &Tables) -> Kinds {
    let h = t.header;
    let header = vec![field("zones", h.zones), field("borders", h.borders), field("rows", h.rows), field("default of R", share(h.share))];
    let net = |net: &i64| vec![field("net position", net)];
    let border = |b: &[i64; 5]| vec![field("from", b[0]), field("to", b[1]), field("LTA", b[2]), field("hubs", hubs(b[3], b[4]))];
    let row = |(record, factors): (&[i64; 7], &[i64])| row_fields(record, factors);
    let fields: [(&str, Vec<Vec<(String, String)>>); 5] = [
        ("H", vec![header]),
        ("Z", t.z.iter().map(net).collect()),
        ("T", t.t.iter().map(net).collect()),
        ("B", t.b.iter().map(border).collect()),
        ("C", t.c.iter().zip(t.f.chunks(h.zones)).map(row).collect()),
    ];
    let mut number = 0;
    fields.map(|(letter, lines)| {
        let mut kind = Vec::new();
        for (index, fields) in lines.into_iter().enumerate() {
            number += 1;
            let name = if letter == "H" { String::new() } else { format!("{letter} {index}") };
            kind.push(Line { number, name, fields });
        }
        kind
    })
}

/// "One line for each field that differs, in the order of the lines of NEW, H, Z, T, B, C and
/// fields from the left".  A line of one table alone is new, or gone.
pub fn changes(old: &Tables, new: &Tables) -> String {
    let mut out = String::new();
    for (kind, (old, new)) in kinds_of(old).iter().zip(&kinds_of(new)).enumerate() {
        // "T lines there in one only: .. once"
        match (&old[..], &new[..]) {
            ([], [first, ..]) if kind == T => out += &format!("line {}, T: new\n", first.number),
            ([first, ..], []) if kind == T => out += &format!("line {} before, T: gone\n", first.number),
            _ => {
                for (old, new) in old.iter().zip(new) {
                    out += &between(old, new);
                }
                for line in &new[old.len().min(new.len())..] {
                    out += &format!("line {}, {}: new\n", line.number, line.name);
                }
                // "line is the line in NEW (for what is gone: the line in OLD ..)"
                for line in &old[new.len().min(old.len())..] {
                    out += &format!("line {} before, {}: gone\n", line.number, line.name);
                }
            }
        }
    }
    out
}

/// The fields of a line that both have: of a row those of "the common zones".
fn between(old: &Line, new: &Line) -> String {
    let mut out = String::new();
    for ((name, before), (_, after)) in old.fields.iter().zip(&new.fields) {
        if before != after {
            let of = if new.name.is_empty() { String::new() } else { format!("{}, ", new.name) };
            out += &format!("line {}, {of}{name}: {before} becomes {after}\n", new.number);
        }
    }
    out
}
