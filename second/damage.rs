//! Good texts and good lent tables made bad, in a few places.
#![allow(dead_code)]

use crate::dice::Dice;
use crate::second::{allocated, Border, Header, Tables};
use crate::second::{INTRADAY, LTA, MOST_BORDERS, NO_HUB, NO_SHARE, NO_T, RECEIVING, SENDING};

/// The table as text, without judging it: any number as it is.
pub fn plain_text(t: &Tables) -> Vec<u8> {
    let h = t.header;
    let mut s = format!("H\t{}\t{}\t{}", h.zones, h.borders, h.rows);
    if h.share != NO_SHARE {
        s += &format!("\t{}", h.share);
    }
    s += "\n";
    for (i, position) in t.z.iter().enumerate() {
        s += &format!("Z\t{i}\t{position}\n");
    }
    for (i, position) in t.t.iter().enumerate() {
        s += &format!("T\t{i}\t{position}\n");
    }
    for (i, [from, to, lta, sending, receiving]) in t.b.iter().enumerate() {
        s += &format!("B\t{i}\t{from}\t{to}\t{lta}");
        if [*sending, *receiving] != [NO_HUB, NO_HUB] {
            s += &format!("\t{sending}\t{receiving}");
        }
        s += "\n";
    }
    for (i, [fmax, frm, fref, f0all, r, cva, iva]) in t.c.iter().enumerate() {
        let r = if *r == -1 { "-".to_string() } else { r.to_string() };
        s += &format!("C\t{i}\t{fmax}\t{frm}\t{fref}\t{f0all}\t{r}\t{cva}\t{iva}");
        let stretch = t.f.iter().skip(i.saturating_mul(h.zones)).take(h.zones);
        for factor in stretch {
            s += &format!("\t{factor}");
        }
        s += "\n";
    }
    s.into_bytes()
}

// ------------------------------------------------------------ damaged texts

pub fn lines_of(text: &[u8]) -> Vec<Vec<u8>> {
    text.split_inclusive(|byte| *byte == b'\n').map(|line| line.to_vec()).collect()
}

pub fn fields_of(line: &[u8]) -> Vec<Vec<u8>> {
    parts_of(line, b'\t')
}

/// The fields that a byte parts.
pub fn parts_of(line: &[u8], by: u8) -> Vec<Vec<u8>> {
    let body = line.strip_suffix(b"\n").unwrap_or(line);
    body.split(|byte| *byte == by).map(|field| field.to_vec()).collect()
}

pub fn line_from(fields: &[Vec<u8>]) -> Vec<u8> {
    let mut line = fields.join(&b'\t');
    line.push(b'\n');
    line
}

/// The ends of the range of a field and the numbers next to them.
fn ends(d: &mut Dice, letter: &[u8], place: usize, fields: &[Vec<u8>], zones: i64) -> i64 {
    let fmax = fields.get(2).and_then(|f| std::str::from_utf8(f).ok()).and_then(|s| s.parse().ok());
    let fmax: i64 = fmax.unwrap_or(1);
    let (low, high) = match (letter, place) {
        (b"H", 1) => (2, 16),
        (b"H", 2) => (1, MOST_BORDERS as i64),
        (b"H", 3) => (1, 200),
        (b"H", 4) => (0, 10_000),
        (b"Z" | b"T", 2) => (-100_000_000, 100_000_000),
        (b"B", 2 | 3 | 5 | 6) => (0, zones - 1),
        (b"B", 4) => (0, 10_000),
        (b"C", 2) => (1, 10_000_000),
        (b"C", 3) => (0, fmax),
        (b"C", 4 | 5) => (-20_000_000, 20_000_000),
        (b"C", 6) => (0, 10_000),
        (b"C", 7 | 8) => (0, 10_000_000),
        (b"C", place) if place >= 9 => (-100_000, 100_000),
        _ => (0, 3),
    };
    d.of(&[low - 1, low, low + 1, high - 1, high, high + 1])
}

/// Numbers that are out of range nearly everywhere, and numbers that wrap.
const FAR: [&str; 14] = [
    "9999999999",
    "-9999999999",
    "4294967296",
    "4294967297",
    "4294967295",
    "2147483648",
    "-2147483648",
    "-2147483649",
    "1000000000",
    "10000001",
    "-100000001",
    "100001",
    "-100001",
    "10001",
];

/// Numbers of 11 digits and more; the last ones wrap in 64 bits.
const LONG: [&str; 10] = [
    "10000000000",
    "99999999999",
    "00000000000",
    "00000000001",
    "-10000000000",
    "-99999999999",
    "18446744073709551616",
    "18446744073709551617",
    "-18446744073709551615",
    "340282366920938463463374607431768211457",
];

const BYTES: &[u8] = b"0123456789-\t\n \r+.,HZBCAERhzbc_e\x00\x0b\x80\xff/:";

/// A place in a line with at least two fields: line, field.
fn some_field(d: &mut Dice, lines: &[Vec<u8>]) -> Option<(usize, usize)> {
    for _ in 0..8 {
        let line = d.below(lines.len());
        let fields = fields_of(&lines[line]);
        if fields.len() > 1 {
            let field = 1 + d.below(fields.len() - 1);
            return Some((line, field));
        }
    }
    None
}

fn in_a_field(d: &mut Dice, text: &mut Vec<u8>, zones: i64) {
    let mut lines = lines_of(text);
    if lines.is_empty() {
        return;
    }
    let Some((mut line, mut field)) = some_field(d, &lines) else { return };
    // in one of eight: the header or the last line
    if d.one_in(8) {
        line = d.of(&[0, lines.len() - 1]);
        let count = fields_of(&lines[line]).len();
        if count < 2 {
            return;
        }
        field = 1 + d.below(count - 1);
    }
    let mut fields = fields_of(&lines[line]);
    let letter = fields[0].clone();
    match d.below(19) {
        0..=5 => {
            let end = ends(d, &letter, field, &fields, zones);
            fields[field] = end.to_string().into_bytes();
        }
        6 => fields[field] = d.of(&FAR).as_bytes().to_vec(),
        7 => fields[field] = d.of(&LONG).as_bytes().to_vec(),
        8 => {
            // a leading zero, after a minus if there is one
            let at = usize::from(fields[field].first() == Some(&b'-'));
            fields[field].insert(at, b'0');
        }
        9 => fields[field].insert(0, b'-'),
        10 | 11 => fields[field] = d.of(&["-", "-0"]).as_bytes().to_vec(),
        12 | 13 => {
            const ODD: [&str; 11] =
                ["", "00", "+5", "-5", "--5", "5-", " 5", "5 ", "0x1", "1e3", "7.0"];
            fields[field] = d.of(&ODD).as_bytes().to_vec();
        }
        14 => {
            fields.remove(field);
        }
        15 => {
            let more = d.of(&["0", "1", "-", "", "7000"]).as_bytes().to_vec();
            fields.insert(field, more);
        }
        16 => {
            let other = 1 + d.below(fields.len() - 1);
            fields.swap(field, other);
        }
        17 => {
            // from equal to to, FRM equal to Fmax, and so on
            if field + 1 < fields.len() {
                fields[field + 1] = fields[field].clone();
            }
        }
        _ => {
            const LETTERS: [&str; 10] = ["H", "Z", "T", "B", "C", "", "c", "CC", "A", "-"];
            fields[0] = d.of(&LETTERS).as_bytes().to_vec();
        }
    }
    lines[line] = line_from(&fields);
    *text = lines.concat();
}

/// Another ending of a B line: hubs more or fewer, other ones, in other order.
fn in_the_hubs(d: &mut Dice, text: &mut Vec<u8>, zones: i64) {
    let mut lines = lines_of(text);
    let borders: Vec<usize> = (0..lines.len()).filter(|line| lines[*line].starts_with(b"B\t")).collect();
    if borders.is_empty() {
        return;
    }
    let line = d.of(&borders);
    let mut fields = fields_of(&lines[line]);
    let some = |d: &mut Dice| d.within(0, zones - 1).to_string().into_bytes();
    match d.below(8) {
        0 => fields.truncate(5),
        1 => fields.truncate(6),
        2 => fields.push(some(d)),
        3 => fields.extend([some(d), some(d)]),
        4 if fields.len() == 7 => fields.swap(5, 6),
        5 if fields.len() == 7 => fields[6] = fields[5].clone(),
        6 if fields.len() == 7 => {
            let own = 2 + d.below(2);
            fields[5 + d.below(2)] = fields[own].clone();
        }
        _ => {
            // another line's from, to and hubs, with this line's index
            let like = fields_of(&lines[d.of(&borders)]);
            let index = fields[1].clone();
            fields = like;
            if fields.len() > 1 {
                fields[1] = index;
            }
        }
    }
    lines[line] = line_from(&fields);
    *text = lines.concat();
}

// --------------------------------------------- every damage of a small text

/// Small texts, with and without hubs, a default of R and T lines; tabs are shown as
/// blanks, each LF as a slash.
const SMALL: [&str; 6] = [
    "H 3 2 1/Z 0 0/Z 1 -70/Z 2 5/B 0 0 1 100/B 1 1 2 0/C 0 90 5 -1 20 - 0 3 20000 0 -7/",
    "H 3 1 2/Z 0 10/Z 1 0/Z 2 -3/B 0 0 1 10 2 0/C 0 100 0 0 -9 7000 10 0 0 -9 20000/C 1 7 7 0 0 - 0 0 -5000 0 1/",
    "H 2 1 1 70/Z 0 -1/Z 1 10/B 0 1 0 9/C 0 1000 10 8 0 10 0 0 0 5000/",
    "H 4 2 1 10000/Z 0 1/Z 1 0/Z 2 0/Z 3 -10/B 0 0 3 0 1 2/B 1 0 3 10 2 1/C 0 10 1 0 0 0 0 0 900 0 20 -9000/",
    "H 2 1 1/Z 0 5/Z 1 0/T 0 -10/T 1 10/B 0 0 1 9/C 0 1000 10 8 0 - 0 0 0 -5000/",
    "H 3 1 1 7000/Z 0 0/Z 1 0/Z 2 0/T 0 0/T 1 100/T 2 -100/B 0 0 1 9 2 1/C 0 1000 0 0 0 - 0 0 0 9000 0/",
];

/// Bytes that tell: digits, what parts fields, letters, and some that are none of
/// these.
const TELLING: &[u8] = b"0159-\t\n \r+.,;HZBCTx\x00\xff/:";

/// What parts the fields of a text, and fields to put into it: those that tell, and a
/// few of them.
pub struct Fields {
    by: u8,
    telling: &'static [&'static str],
    few: &'static [&'static str],
}

/// The fields of a table, of a correction sheet, and of a list of claims.
pub const TABLE_FIELDS: Fields = Fields { by: b'\t', telling: &TELLING_FIELDS, few: &FEW_FIELDS };
/// The fields of a semicolon sheet.
pub const SHEET_FIELDS: Fields = Fields { by: b';', telling: &TELLING_DECIMALS, few: &FEW_DECIMALS };

/// Fields that tell where a number goes wrong, good ones among them.
const TELLING_FIELDS: [&str; 20] = [
    "", "-", "0", "-0", "00", "01", "-01", "-5", "--5", "5-", "+5", " 5", "5 ", "5\r", "x", "1234567890", "12345678901",
    "-1234567890", "-12345678901", "1234567890x",
];

/// A few such fields, for two fields of a line at once.
const FEW_FIELDS: [&str; 6] = ["", "-", "7", "01", "9999999999", "5x"];

/// Fields that tell where a number with a point goes wrong.
const TELLING_DECIMALS: [&str; 27] = [
    "", "-", "0", "1", "-1", "0.", ".0", "0.0", "0.000", "-0.000", "-0.001", "00.000", "01.000", "-01.000", "0.00000",
    "-0.00000", "-0.00001", "1.0000", "0.000000", "1,000", "1.000,5", "1 000.000", "5.000\r", "1234567.890",
    "12345678.901", "12345.67890", "123456.78901",
];
const FEW_DECIMALS: [&str; 7] = ["", "-", "7", "7.000", "0.70000", "9999999.999", "1,000"];

fn small_text(number: usize) -> Vec<u8> {
    as_text(SMALL[number])
}

pub fn as_text(shown: &str) -> Vec<u8> {
    shown.replace(' ', "\t").replace('/', "\n").into_bytes()
}

/// Where a small text is damaged.
pub enum Place {
    /// its text, and a byte of it (the one past the last too)
    Byte(usize, usize),
    /// its text, a line, and a field of it (the one past the last too)
    Field(usize, usize, usize),
}

/// Every byte and every field of every small text.
pub fn places() -> Vec<Place> {
    (0..SMALL.len()).flat_map(|number| places_in(number, &small_text(number), &TABLE_FIELDS)).collect()
}

/// Every byte and every field of a text.
pub fn places_in(number: usize, text: &[u8], parted: &Fields) -> Vec<Place> {
    let mut all: Vec<Place> = (0..=text.len()).map(|at| Place::Byte(number, at)).collect();
    for (line, bytes) in lines_of(text).iter().enumerate() {
        all.extend((0..=parts_of(bytes, parted.by).len()).map(|field| Place::Field(number, line, field)));
    }
    all
}

/// The text damaged there in every way, each with whether its answer is asked
/// for too.
pub fn each_damage(place: &Place) -> Vec<(Vec<u8>, bool)> {
    let (Place::Byte(number, ..) | Place::Field(number, ..)) = *place;
    each_damage_of(&small_text(number), place, &TABLE_FIELDS)
}

/// A text damaged at a place in every way, each with whether its answer is asked for too.
pub fn each_damage_of(text: &[u8], place: &Place, parted: &Fields) -> Vec<(Vec<u8>, bool)> {
    match *place {
        Place::Byte(_, at) => each_byte(text, at),
        Place::Field(_, line, field) => each_field(text, line, field, parted),
    }
}

/// A day's text of five rows, shown as the small texts are, and a correction sheet for
/// it.
const DAY: &str = "H 2 1 5 6000/Z 0 0/Z 1 0/B 0 0 1 0/C 0 9 0 0 0 - 0 0 5000 0/C 1 9 0 0 0 1 0 0 0 0/C 2 9 0 0 0 2 0 0 0 0/C 3 9 0 0 0 3 0 0 7000 0/C 4 9 0 0 0 4 0 0 0 0/";
const SHEET: &str = "C 1 90 5 -1 20 - 0 3 20000 -7/C 3 100 0 0 -9 7000 10 0 0 9000/";

pub fn day_text() -> Vec<u8> {
    as_text(DAY)
}

/// Every byte and every field of the sheet.
pub fn sheet_places() -> Vec<Place> {
    places_in(0, &as_text(SHEET), &TABLE_FIELDS)
}

/// The sheet damaged there in every way, each with whether the answer is asked for
/// too.
pub fn each_sheet_damage(place: &Place) -> Vec<(Vec<u8>, bool)> {
    each_damage_of(&as_text(SHEET), place, &TABLE_FIELDS)
}

/// The byte there replaced by each of the 256, taken out, doubled, each telling
/// one put before it, and the text cut off before it, or with a telling one for
/// all that follows.
fn each_byte(text: &[u8], at: usize) -> Vec<(Vec<u8>, bool)> {
    let with = |middle: &[u8], from: usize| [&text[..at], middle, &text[from..]].concat();
    let mut all = vec![(text[..at].to_vec(), true)];
    for byte in TELLING {
        all.push((with(&[*byte], at), true));
        all.push((with(&[*byte], text.len()), false));
    }
    if at < text.len() {
        all.push((with(&[], at + 1), true));
        all.push((with(&[text[at], text[at]], at + 1), true));
        for byte in 0..=255 {
            all.push((with(&[byte], at + 1), TELLING.contains(&byte)));
        }
    }
    all
}

/// The field there replaced by each telling one, alone and with another field of
/// the line replaced by one of a few; with the LF and, for the last line, without;
/// and the text cut off after a telling one.
fn each_field(text: &[u8], line: usize, field: usize, parted: &Fields) -> Vec<(Vec<u8>, bool)> {
    let lines = lines_of(text);
    let own = parts_of(&lines[line], parted.by);
    let mut all = Vec::new();
    let mut cuts = Vec::new();
    let mut put = |fields: &[Vec<u8>], whole: bool| {
        let mut damaged = lines.clone();
        damaged[line] = fields.join(&parted.by);
        damaged[line].push(b'\n');
        all.push((damaged.concat(), whole));
        if line + 1 == lines.len() {
            damaged[line].pop();
            all.push((damaged.concat(), whole));
        }
    };
    let replaced = |fields: &[Vec<u8>], field: usize, by: &str| {
        let mut fields = fields.to_vec();
        if field == fields.len() {
            fields.push(vec![]);
        }
        fields[field] = by.as_bytes().to_vec();
        fields
    };
    for by in parted.telling {
        put(&replaced(&own, field, by), true);
        let mut cut = lines[..line].concat();
        cut.extend(replaced(&own, field, by)[..=field].join(&parted.by));
        cuts.push((cut, false));
    }
    for by in parted.few {
        let one = replaced(&own, field, by);
        for other in (field + 1)..=one.len() {
            for by in parted.few {
                put(&replaced(&one, other, by), false);
            }
        }
    }
    all.extend(cuts);
    all
}

/// A way to write the default of R: its name, the fields after the rows, and the
/// refusal of the line, 0 where it is good.
pub const SHARE_TEXTS: [(&str, &str, u32); 18] = [
    ("none", "", 0),
    ("0", "\t0", 0),
    ("7000", "\t7000", 0),
    ("6999", "\t6999", 0),
    ("10000", "\t10000", 0),
    ("10001", "\t10001", 3),
    ("over 16 bits", "\t72536", 3),
    ("over 32 bits", "\t4294974296", 3),
    ("ten digits", "\t9999999999", 3),
    ("eleven digits", "\t10000000000", 2),
    ("\"-\"", "\t-", 2),
    ("-1", "\t-1", 2),
    ("-0", "\t-0", 2),
    ("empty", "\t", 2),
    ("a leading zero", "\t07000", 2),
    ("two", "\t7000\t7000", 2),
    ("two, out of range", "\t10001\t7000", 2),
    ("a blank after it", "\t7000 ", 2),
];

/// The table's text with another ending of the H line.
pub fn with_share_text(t: &Tables, fields: &str) -> Vec<u8> {
    let h = t.header;
    let mut lines = lines_of(&plain_text(t));
    lines[0] = format!("H\t{}\t{}\t{}{fields}\n", h.zones, h.borders, h.rows).into_bytes();
    lines.concat()
}

/// The default of R in a lent header, and whether it is refused.
pub const SHARES: [(i64, bool); 16] = [
    (-1, false),
    (0, false),
    (1, false),
    (7_000, false),
    (9_999, false),
    (10_000, false),
    (10_001, true),
    (-2, true),
    (-7_000, true),
    (i64::MIN, true),
    (i64::MAX, true),
    ((1 << 32) - 1, true),
    ((1 << 32) + 7_000, true),
    ((1 << 16) - 1, true),
    (-(1 << 32) - 1, true),
    (i64::MIN + 7_000, true),
];

/// A way to write a B line's hubs: its name, the fields after LTA, and the
/// refusal of the line, 0 where it is good.
pub struct HubText {
    pub name: &'static str,
    pub fields: String,
    pub number: u32,
}

/// How many such ways there are.
pub const HUB_TEXTS: u64 = 18;

pub fn hub_text(d: &mut Dice, zones: i64, border: &Border, way: u64) -> HubText {
    let [from, to, ..] = *border;
    let one = d.within(0, zones - 1);
    let other = (one + d.within(1, zones - 1)) % zones;
    let beside = |zone: i64| (zone + 1) % zones;
    let (name, hubs, number) = match way {
        0 => ("none", String::new(), 0),
        1 => ("two", format!("\t{one}\t{other}"), 0),
        2 => ("one only", format!("\t{one}"), 2),
        3 => ("three", format!("\t{one}\t{other}\t{one}"), 2),
        4 => ("second empty", format!("\t{one}\t"), 2),
        5 => ("first empty", format!("\t\t{other}"), 2),
        6 => ("both -1", "\t-1\t-1".to_string(), 2),
        7 => ("both \"-\"", "\t-\t-".to_string(), 2),
        8 => ("a leading zero", format!("\t{one}\t0{other}"), 2),
        9 => ("sending no zone", format!("\t{zones}\t{other}"), 3),
        10 => ("receiving no zone", format!("\t{one}\t{zones}"), 3),
        11 => ("sending over 32 bits", format!("\t{}\t{other}", one + (1 << 32)), 3),
        12 => ("equal", format!("\t{one}\t{one}"), 3),
        13 => ("equal, no zone", "\t9999999999\t9999999999".to_string(), 3),
        14 => ("sending is from", format!("\t{from}\t{}", beside(from)), 0),
        15 => ("receiving is to", format!("\t{}\t{to}", beside(to)), 0),
        16 => ("from and to", format!("\t{from}\t{to}"), 0),
        _ => ("to and from", format!("\t{to}\t{from}"), 0),
    };
    HubText { name, fields: hubs, number }
}

/// The table's text with another ending of one B line.
pub fn with_hub_text(t: &Tables, border: usize, fields: &str) -> Vec<u8> {
    let mut lines = lines_of(&plain_text(t));
    let line = 1 + t.header.zones + allocated(t.header) + border;
    let mut own = fields_of(&lines[line]);
    own.truncate(5);
    let last = own.len() - 1;
    own[last].extend(fields.bytes());
    lines[line] = line_from(&own);
    lines.concat()
}

/// Hubs of a lent record: their name, both numbers, and whether it is refused.
pub struct HubRecord {
    pub name: &'static str,
    pub hubs: [i64; 2],
    pub refused: bool,
}

/// How many such there are.
pub const HUB_RECORDS: u64 = 19;

pub fn hub_record(d: &mut Dice, zones: i64, border: &Border, way: u64) -> HubRecord {
    let [from, to, ..] = *border;
    let one = d.within(0, zones - 1);
    let other = (one + d.within(1, zones - 1)) % zones;
    let (name, hubs, refused) = match way {
        0 => ("none", [-1, -1], false),
        1 => ("two", [one, other], false),
        2 => ("sending -1", [-1, other], true),
        3 => ("receiving -1", [one, -1], true),
        4 => ("sending -2", [-2, other], true),
        5 => ("receiving -2", [one, -2], true),
        6 => ("both -2", [-2, -2], true),
        7 => ("-2 and -1", [-2, -1], true),
        8 => ("-1 and -2", [-1, -2], true),
        9 => ("-2 and -3", [-2, -3], true),
        10 => ("equal", [one, one], true),
        11 => ("sending no zone", [zones, other], true),
        12 => ("receiving no zone", [one, zones], true),
        13 => ("sending over 32 bits", [one + (1 << 32), other], true),
        14 => ("receiving over 32 bits", [one, other | 1 << 40], true),
        15 => ("both over 32 bits and -1", [(1 << 32) - 1, (1 << 32) - 1], true),
        16 => ("at the ends", d.of(&[[i64::MIN, i64::MAX], [i64::MIN, other], [one, i64::MAX], [i64::MAX, i64::MIN]]), true),
        17 => ("from and to", [from, to], false),
        _ => ("to and from", [to, from], false),
    };
    HubRecord { name, hubs, refused }
}

/// Two borders with the same from and to: how their hubs differ, and whether the
/// later is given twice.
pub const TWINS: [(&str, bool); 8] = [
    ("no hubs", true),
    ("the same hubs", true),
    ("hubs swapped", false),
    ("hubs, then none", false),
    ("none, then hubs", false),
    ("another sending", false),
    ("another receiving", false),
    ("back, hubs swapped", false),
];

/// Makes border 1 a twin of border 0 in a way of TWINS; there are three zones or
/// more.
pub fn twins(d: &mut Dice, t: &mut Tables, way: usize) {
    let zones = t.header.zones as i64;
    let one = d.within(0, zones - 1);
    let other = (one + d.within(1, zones - 1)) % zones;
    let third = (0..zones).find(|zone| *zone != one && *zone != other).expect("a third zone");
    let [from, to, first, ..] = t.b[0];
    let lta = if d.one_in(2) { first } else { t.b[1][LTA] };
    let (earlier, later) = match way {
        0 => ([-1, -1], [-1, -1]),
        1 => ([one, other], [one, other]),
        2 | 7 => ([one, other], [other, one]),
        3 => ([one, other], [-1, -1]),
        4 => ([-1, -1], [one, other]),
        5 => ([one, other], [third, other]),
        _ => ([one, other], [one, third]),
    };
    t.b[0] = [from, to, first, earlier[0], earlier[1]];
    t.b[1] = [from, to, lta, later[0], later[1]];
    if way == 7 {
        t.b[1].swap(0, 1);
    }
}

fn in_the_lines(d: &mut Dice, text: &mut Vec<u8>) {
    let mut lines = lines_of(text);
    if lines.is_empty() {
        return;
    }
    let one = d.below(lines.len());
    match d.below(6) {
        0 => {
            lines.remove(one);
        }
        1 => lines.insert(one, lines[one].clone()),
        2 => {
            let other = d.below(lines.len());
            lines.swap(one, other);
        }
        3 => {
            let other = (one + 1) % lines.len();
            lines.swap(one, other);
        }
        4 => lines.insert(one, b"\n".to_vec()),
        _ => {
            // CR before LF
            let at = lines[one].len().saturating_sub(1);
            lines[one].insert(at, b'\r');
        }
    }
    *text = lines.concat();
}

fn at_the_end(d: &mut Dice, text: &mut Vec<u8>) {
    match d.below(6) {
        0 | 1 => {
            text.pop();
        }
        2 => text.push(d.of(BYTES)),
        3 => text.push(b'\n'),
        4 => {
            let lines = lines_of(text);
            if let Some(last) = lines.last() {
                let more = last.clone();
                text.extend(more);
            }
        }
        _ => {
            let keep = d.below(text.len() + 1);
            text.truncate(keep);
        }
    }
}

fn in_a_byte(d: &mut Dice, text: &mut Vec<u8>) {
    if text.is_empty() {
        return;
    }
    let at = d.below(text.len());
    match d.below(3) {
        0 => text[at] = d.of(BYTES),
        1 => {
            text.remove(at);
        }
        _ => text.insert(at, d.of(BYTES)),
    }
}

/// A text of a length at or just beyond the most that is read.
fn long(d: &mut Dice, text: &mut Vec<u8>) {
    let length = d.of(&[65_535, 65_536, 65_536, 65_537, 65_537, 65_537, 65_538, 66_000, 131_072]);
    match d.below(6) {
        0 => text.resize(length, b'\n'),
        1 => text.resize(length, d.of(BYTES)),
        2 => {
            // a field of very many digits
            let at = 1 + d.below(text.len());
            let more = length.saturating_sub(text.len());
            let digits = vec![d.of(b"0123456789"); more];
            text.splice(at..at, digits);
        }
        3 => {
            let mut extra = 0;
            while text.len() < length {
                text.extend(format!("C\t{extra}\t1\t0\t0\t0\t-\t0\t0\t0\t0\n").into_bytes());
                extra += 1;
            }
            text.truncate(length);
        }
        4 => {
            text.clear();
            text.resize(length, b'\n');
        }
        _ => {
            text.clear();
            for _ in 0..length {
                text.push(d.of(BYTES));
            }
        }
    }
}

/// Damages a good text in one to three places.
pub fn damage(d: &mut Dice, text: &mut Vec<u8>, zones: usize) {
    if d.one_in(50) {
        long(d, text);
        return;
    }
    if d.one_in(400) {
        text.clear();
        return;
    }
    let places = d.of(&[1, 1, 1, 2, 2, 3]);
    for _ in 0..places {
        match d.below(13) {
            0..=2 => in_a_byte(d, text),
            3..=4 => in_the_lines(d, text),
            5 => at_the_end(d, text),
            6 => in_the_hubs(d, text, zones as i64),
            _ => in_a_field(d, text, zones as i64),
        }
    }
}

// ------------------------------------------------------ damaged lent tables

/// A value for a record: out of range, at an end, or one that wraps.
fn odd(d: &mut Dice, was: i64, low: i64, high: i64) -> i64 {
    match d.below(12) {
        0 => i64::MIN,
        1 => i64::MAX,
        2 => d.of(&[-1, -2, -3]),
        3 | 4 => low - 1,
        5 | 6 => high + 1,
        7 => low,
        8 => high,
        9 => was.wrapping_add(1 << 32),
        10 => was.wrapping_sub(1 << 32),
        _ => d.of(&[i64::MIN + 1, i64::MAX - 1, was ^ (1 << 63), 1 << 31, -(1 << 31), 1 << 32]),
    }
}

/// One value of one record changed.
pub fn damage_record(d: &mut Dice, t: &mut Tables) {
    let h = t.header;
    match d.below(13) {
        0 | 1 => {
            let i = d.below(t.z.len());
            t.z[i] = odd(d, t.z[i], -100_000_000, 100_000_000);
        }
        10..=12 if !t.t.is_empty() => in_the_t(d, &mut t.t),
        2..=4 => {
            let i = d.below(t.b.len());
            let place = d.below(5);
            let last = h.zones as i64 - 1;
            let high = if place == LTA { 10_000 } else { last };
            t.b[i][place] = match d.below(6) {
                0 if place < LTA => t.b[i][1 - place],
                0 if place > LTA => t.b[i][SENDING + RECEIVING - place],
                1 if place > LTA => NO_HUB,
                _ => odd(d, t.b[i][place], 0, high),
            };
        }
        5..=7 => {
            let i = d.below(t.c.len());
            let place = d.below(7);
            let (low, high) = match place {
                0 => (1, 10_000_000),
                1 => (0, t.c[i][0].clamp(0, 10_000_000)),
                2 | 3 => (-20_000_000, 20_000_000),
                4 => (-1, 10_000),
                _ => (0, 10_000_000),
            };
            t.c[i][place] = odd(d, t.c[i][place], low, high);
        }
        8 => {
            let i = d.below(t.f.len());
            t.f[i] = odd(d, t.f[i], -100_000, 100_000);
        }
        _ => {
            if t.b.len() > 1 {
                let later = 1 + d.below(t.b.len() - 1);
                let earlier = d.below(later);
                let lta = t.b[later][LTA];
                t.b[later] = t.b[earlier];
                t.b[later][LTA] = lta;
            }
        }
    }
}

/// One position changed, or two so that they still sum to zero.
fn in_the_t(d: &mut Dice, t: &mut [i64]) {
    let i = d.below(t.len());
    let was = t[i];
    t[i] = match d.below(4) {
        0 => was + 1,
        1 => was - 1,
        _ => odd(d, was, -100_000_000, 100_000_000),
    };
    if d.one_in(3) {
        let other = (i + 1 + d.below(t.len() - 1)) % t.len();
        t[other] = t[other].wrapping_sub(t[i].wrapping_sub(was));
    }
}

/// What a lent header says of T, and whether it is refused.
pub const PROFILES: [(u64, bool); 10] = [
    (0, false),
    (1, false),
    (2, true),
    (3, true),
    (255, true),
    (256, true),
    (1 << 32, true),
    ((1 << 32) + 1, true),
    (1 << 63, true),
    (u64::MAX, true),
];

/// A way to have T lines wrong: its name, and the refusal's number, line counted
/// from the first T line's, and byte.
pub type Wrong = (&'static str, u32, usize, usize);

/// How many such ways there are, for a table of `zones` zones.
pub const T_TEXTS: u64 = 16;

/// The table's text with the T lines changed in a way; the table is of the
/// intraday profile and has three zones or more.
pub fn t_text(t: &Tables, way: u64) -> (Vec<u8>, Wrong) {
    let zones = t.header.zones;
    let mut lines = lines_of(&plain_text(t));
    // where the T lines begin, and the line after them
    let (first, after) = (1 + zones, 1 + 2 * zones);
    // the first byte of the last position
    let last = format!("T\t{}\t", zones - 1).len() + 1;
    let with = |index: usize, value: &str| format!("T\t{index}\t{value}\n").into_bytes();
    let less: i64 = -t.t[..zones - 1].iter().sum::<i64>();
    let wrong = match way {
        0 => ("as they are", 0, 0, 0),
        1 => {
            lines.drain(first..after);
            ("none", 0, 0, 0)
        }
        2 => {
            lines.remove(first);
            ("without the first", 2, 0, 3)
        }
        3 => {
            lines.remove(after - 1);
            ("without the last", 2, zones - 1, 0)
        }
        4 => {
            lines.insert(after, with(zones, "0"));
            ("one too many", 2, zones, 0)
        }
        5 => {
            lines.insert(after + t.header.borders, with(0, "0"));
            ("one after B", 2, zones + t.header.borders, 0)
        }
        6 => {
            lines.push(with(0, "0"));
            ("one after C", 2, zones + t.header.borders + t.header.rows, 0)
        }
        7 => {
            lines[after - 1] = with(zones - 1, &(less + 1).to_string());
            ("sum 1", 3, zones - 1, last)
        }
        8 => {
            lines[after - 1] = with(zones - 1, &(less - 1).to_string());
            ("sum -1", 3, zones - 1, last)
        }
        9 => {
            lines[first] = with(0, &(t.t[0] + if t.t[0] > 0 { -1 } else { 1 }).to_string());
            ("sum by the first", 3, zones - 1, last)
        }
        10 => {
            lines[first] = with(0, "100000001");
            ("first out of range", 3, 0, 5)
        }
        11 => {
            lines[after - 1] = with(zones - 1, "-100000001");
            ("last out of range", 3, zones - 1, last)
        }
        12 => {
            lines[after - 1] = with(zones - 1, "-0");
            ("last malformed", 2, zones - 1, last + 1)
        }
        13 => {
            lines[first] = with(0, "-0");
            lines[after - 1] = with(zones - 1, "9");
            ("first malformed", 2, 0, 6)
        }
        14 => {
            lines.swap(first, first + 1);
            ("in another order", 2, 0, 3)
        }
        _ => {
            lines[after - 1] = with(zones - 1, &(less + 1).to_string());
            lines[after] = b"B\n".to_vec();
            ("sum before a bad B line", 3, zones - 1, last)
        }
    };
    (lines.concat(), wrong)
}

/// A header that is out of range, or in range but not that of the tables.
pub fn damage_header(d: &mut Dice, header: &mut Header) {
    let place = d.below(5);
    if place == 4 {
        header.intraday = match d.below(4) {
            0 if header.intraday == NO_T => INTRADAY,
            0 => NO_T,
            _ => d.of(&PROFILES).0,
        };
        return;
    }
    if place == 3 {
        header.share = odd(d, header.share, NO_SHARE, 10_000);
        return;
    }
    let (was, low, high) = match place {
        0 => (header.zones, 2, 16),
        1 => (header.borders, 1, MOST_BORDERS),
        _ => (header.rows, 1, 200),
    };
    let now = match d.below(12) {
        0 => 0,
        1 => low - 1,
        2 => low,
        3 => high,
        4 => high + 1,
        5 => d.of(&[usize::MAX, 40, 41]),
        6 => usize::MAX - was,
        7 => was.wrapping_add(1 << 32),
        8 => was.wrapping_add(1 << 63),
        9 => was + 1,
        10 => was - 1,
        _ => was + 256,
    };
    match place {
        0 => header.zones = now,
        1 => header.borders = now,
        _ => header.rows = now,
    }
}
