//! Lists of claims: true ones, on tables made for them, every way to have one wrong,
//! and lists at random.
#![allow(dead_code)]

use crate::dice::Dice;
use crate::promises::factors;
use crate::second::claims::{ClaimRecord, CLAIM_ITEMS, MOST_PAIRS};
use crate::second::{self, Header, Tables, INTRADAY, MOST_ROWS, NO_SHARE, NO_T};

/// A claim as the solver means it: row, D, and each cited row with its multiplier.
#[derive(Clone, Debug)]
pub struct Claim {
    pub row: i64,
    pub denominator: i64,
    pub pairs: Vec<(i64, i64)>,
}

impl Claim {
    /// As a lent record, with numbers behind the pairs that nobody may look at.
    pub fn record(&self, d: &mut Dice) -> ClaimRecord {
        let mut record: ClaimRecord = [0; CLAIM_ITEMS];
        let any = d.next() as i64;
        let spare = d.of(&[0, 1, self.row, -1, i64::MIN, any]);
        record.fill(spare);
        [record[0], record[1], record[2]] = [self.row, self.denominator, self.pairs.len() as i64];
        for (place, (cited, multiplier)) in self.pairs.iter().take(MOST_PAIRS).enumerate() {
            record[3 + 2 * place] = *cited;
            record[4 + 2 * place] = *multiplier;
        }
        record
    }

    /// As a line, whatever the numbers are.
    pub fn line(&self) -> String {
        let mut line = format!("Q\t{}\t{}", self.row, self.denominator);
        for (cited, multiplier) in &self.pairs {
            line += &format!("\t{cited}\t{multiplier}");
        }
        line + "\n"
    }
}

pub fn records(d: &mut Dice, claims: &[Claim]) -> Vec<ClaimRecord> {
    claims.iter().map(|claim| claim.record(d)).collect()
}

pub fn text(claims: &[Claim]) -> Vec<u8> {
    claims.iter().map(Claim::line).collect::<String>().into_bytes()
}

/// By the rules alone: state 0.
pub fn kept(t: &Tables, row: usize) -> bool {
    let spread = |own: &[i64]| own.iter().max().unwrap() - own.iter().min().unwrap();
    let own = factors(t, row);
    let ram = second::margin_of(t, row).ram;
    let beaten = |other: usize| {
        let like = factors(t, other);
        let parallel = (0..own.len()).all(|zone| like[zone] - own[zone] == like[0] - own[0]);
        other != row && parallel && (second::margin_of(t, other).ram, other) < (ram, row)
    };
    spread(own) >= 5_000 && !(0..t.header.rows).any(beaten)
}

// ------------------------------------------------------------ true lists

/// A table with a true list of claims.
pub struct Made {
    pub t: Tables,
    pub claims: Vec<Claim>,
    /// how far each claim's RAMs stay under D times its row's RAM
    pub slack: Vec<i128>,
    /// a row under 5%, and one of state 2
    pub narrow: i64,
    pub parallel: i64,
    /// small numbers and few zones
    pub small: bool,
}

/// A row while the table is made: its factors, and its RAM in kW but for what the
/// net positions put on it.
#[derive(Clone)]
struct Row {
    factors: Vec<i64>,
    kw: i64,
}

fn spread(f: &[i64]) -> i64 {
    f.iter().max().unwrap() - f.iter().min().unwrap()
}

/// A row that is the cited rows' by a claim; none where its factors do not come out
/// within their range.  `sum`: that of the net positions.  Its RAM is the lowest
/// that the claim bears, or, by `spare`, some kW more.
fn claimed(d: &mut Dice, cited: &[Row], unit: i64, sum: i64, spare: i64) -> Option<(Row, Claim, i128)> {
    let denominator = match d.below(4) {
        0 => 1,
        1 => unit,
        2 => d.of(&[2, 3, 7, 999, 1_000]),
        _ => d.within(1, 1_000),
    };
    // so many times each multiplier makes whole factors
    let (mut divisor, mut rest) = (denominator, unit);
    while rest != 0 {
        (divisor, rest) = (rest, divisor % rest);
    }
    let step = denominator / divisor;
    let most = (1_000 / step).min(2 * denominator / step).max(1);
    let mut rows: Vec<usize> = (0..cited.len()).collect();
    for at in (1..rows.len()).rev() {
        rows.swap(at, d.below(at + 1));
    }
    rows.truncate(1 + d.below(rows.len().min(MOST_PAIRS)));
    let pairs: Vec<(i64, i64)> = rows.iter().map(|row| (*row as i64, step * d.within(1, most))).collect();
    let zones = cited[0].factors.len();
    let summed = |zone: usize| -> i64 { pairs.iter().map(|(row, m)| m * cited[*row as usize].factors[zone]).sum() };
    let whole: Vec<i64> = (0..zones).map(|zone| summed(zone) / denominator).collect();
    let kw: i64 = pairs.iter().map(|(row, m)| m * cited[*row as usize].kw).sum();
    let (mut by, mut own) = (kw.rem_euclid(denominator), kw.div_euclid(denominator));
    // what the move of the factors brings must make good what the kW lack
    let shift = match sum {
        1 => {
            if d.one_in(2) {
                (by, own) = (by - denominator, own + 1);
            }
            (100_000 * by).div_euclid(denominator) + i64::from((100_000 * by).rem_euclid(denominator) != 0)
        }
        _ => {
            if by > 0 {
                (by, own) = (by - denominator, own + 1);
            }
            let far = d.within(-30_000, 30_000);
            d.of(&[0, 0, 1, -1, far])
        }
    };
    let factors: Vec<i64> = whole.iter().map(|factor| factor + shift).collect();
    let fits = factors.iter().all(|factor| (-100_000..=100_000).contains(factor)) && spread(&factors) >= 5_000;
    let slack = i128::from(denominator) * i128::from(shift * sum + 100_000 * spare) - 100_000 * i128::from(by);
    // with another sum a move may take more than it brings
    let own = if slack < 0 { own + 1 } else { own };
    let slack = if slack < 0 { slack + 100_000 * i128::from(denominator) } else { slack };
    let claim = Claim { row: 0, denominator, pairs };
    (fits && slack >= 0).then_some((Row { factors, kw: own + spare }, claim, slack))
}

/// Rows of this table are such that RAM is Fmax less CVA and IVA, in kW, and what
/// the net positions put on the row.
fn record(d: &mut Dice, kw: i64, small: bool) -> [i64; 7] {
    let most = if small { kw.max(1) } else { kw.max(0) + 1_000 };
    let fmax = if d.one_in(2) { most } else { most + d.within(0, 50) };
    let off = fmax - kw;
    let cva = if d.one_in(2) { off } else { d.within(0, off) };
    [fmax, 0, 0, 0, d.of(&[-1, 0, 7_000, 10_000]), cva, off - cva]
}

fn one_table(d: &mut Dice) -> Option<Made> {
    let small = d.one_in(2);
    let zones = if small { 2 + d.below(3) } else { 2 + d.below(7) };
    let many = !small && d.one_in(4);
    let unit = d.of(&[1, 1, 2, 3, 6, 7, 60, 100, 840, 999, 1_000]);
    let sum = if small { 0 } else { d.of(&[0, 1, 1, 2]) };
    let cited: Vec<Row> = (0..if many { 16 + d.below(4) } else { 1 + d.below(4) })
        .map(|_| {
            let factors = (0..zones).map(|_| unit * d.within(-40_000 / unit, 40_000 / unit)).collect();
            let kw = if small { d.within(-3, 20) } else { d.within(-500, 100_000) };
            Row { factors, kw }
        })
        .collect();
    let mut rows = cited.clone();
    let mut claims = Vec::new();
    let mut slack = Vec::new();
    for _ in 0..8 * d.within(1, 4) {
        let spare = d.of(&[0, 0, 0, 1, 5]);
        if let Some((row, mut claim, own)) = claimed(d, &cited, unit, sum, spare) {
            claim.row = rows.len() as i64;
            rows.push(row);
            claims.push(claim);
            slack.push(own);
        }
    }
    let narrow = rows.len();
    rows.push(Row { factors: (0..zones).map(|_| d.within(0, 4_999)).collect(), kw: d.within(1, 50) });
    let parallel = rows.len();
    rows.push(Row { kw: cited[0].kw + 3, ..cited[0].clone() });

    // the rows in any order
    let mut order: Vec<usize> = (0..rows.len()).collect();
    for at in (1..order.len()).rev() {
        order.swap(at, d.below(at + 1));
    }
    let place = |row: usize| order.iter().position(|other| *other == row).expect("a row") as i64;
    for claim in &mut claims {
        claim.row = place(claim.row as usize);
        for (cited, _) in &mut claim.pairs {
            *cited = place(*cited as usize);
        }
    }
    let mut z = vec![0; zones];
    if !small {
        z = (0..zones).map(|_| d.within(-3, 3)).collect();
        z[0] += sum - z.iter().sum::<i64>();
    }
    let intraday = d.of(&[NO_T, NO_T, INTRADAY]);
    let header = Header { zones, borders: 1, rows: rows.len(), share: d.of(&[NO_SHARE, 0, 10_000]), intraday };
    let t = Tables {
        header,
        z,
        t: vec![0; if intraday == INTRADAY { zones } else { 0 }],
        b: vec![second::without_hubs(0, 1, 0)],
        c: order.iter().map(|row| record(d, rows[*row].kw, small)).collect(),
        f: order.iter().flat_map(|row| rows[*row].factors.clone()).collect(),
    };
    let (narrow, parallel) = (place(narrow), place(parallel));
    // rows that say the same as another are not kept
    let holds = |claim: &Claim| {
        kept(&t, claim.row as usize) && claim.pairs.iter().all(|(cited, _)| kept(&t, *cited as usize))
    };
    let (claims, slack): (Vec<Claim>, Vec<i128>) = claims.into_iter().zip(slack).filter(|(claim, _)| holds(claim)).unzip();
    let good = !claims.is_empty() && !kept(&t, parallel as usize);
    good.then_some(Made { t, claims, slack, narrow, parallel, small })
}

pub fn made(d: &mut Dice) -> Made {
    loop {
        if let Some(made) = one_table(d) {
            return made;
        }
    }
}

// ----------------------------------------------------------- wrong lists

/// A list in a way, as lent records and as text; which claim is to be refused, with
/// which number.
pub struct List {
    pub records: Vec<ClaimRecord>,
    pub text: Vec<u8>,
    pub refused: Option<(u32, usize)>,
}

/// The ways to have a claim, as record and as text.
pub const WAYS: [&str; 44] = [
    "as they are",
    "in another order",
    "none",
    "no such row",
    "row -1",
    "row over 8 bits",
    "row over 32 bits",
    "row under 5%",
    "row of state 2",
    "D 0",
    "D 1001",
    "D -1",
    "D over 32 bits",
    "17 pairs",
    "multiplier 0",
    "multiplier 1001",
    "multiplier -1",
    "multiplier over 32 bits",
    "cites no row",
    "cites -1",
    "cites a row over 8 bits",
    "cites a row over 32 bits",
    "cites a row under 5%",
    "cites a row of state 2",
    "cites its own row",
    "cites a row twice",
    "cites a row claimed before",
    "cites a row claimed after",
    "cites a row that a bad claim names",
    "cites a row that a claim of 17 pairs names",
    "cites a row that a claim of many pairs names",
    "claimed again",
    "claimed again by many",
    "D 1 more",
    "a multiplier 1 more",
    "no pair",
    "a pair left out",
    "a kept row too many",
    "RAM 1 kW too low",
    "RAM some grains too low",
    "a factor 1 more",
    "12 before 11",
    "11 before 12",
    "11 and 12",
];

/// The first claim that cites the row.
fn first_citing(claims: &[Claim], row: i64) -> Option<usize> {
    claims.iter().position(|claim| claim.pairs.iter().any(|(cited, _)| *cited == row))
}

/// A claim of right numbers but for how many there are.
fn too_many_pairs(row: i64, pairs: usize) -> Claim {
    Claim { row, denominator: 1, pairs: vec![(0, 1); pairs] }
}

/// The list in this way, and the table that it is about; none where the table does
/// not allow it.
pub fn in_a_way(d: &mut Dice, made: &Made, way: &str) -> Option<(Tables, List)> {
    let mut t = made.t.clone();
    let mut claims = made.claims.clone();
    let at = d.below(claims.len());
    let last = claims.len() - 1;
    let rows = t.header.rows as i64;
    let pair = d.below(claims[at].pairs.len());
    let other_kept = (0..rows).find(|row| {
        let named = claims.iter().any(|claim| claim.row == *row);
        let cited = claims[at].pairs.iter().any(|(cited, _)| cited == row);
        !named && !cited && kept(&t, *row as usize)
    });
    let mut refused = Some((11, at));
    let claim = &mut claims[at];
    match way {
        "as they are" => refused = None,
        "in another order" => {
            claims.rotate_left(at);
            claims.reverse();
            refused = None;
        }
        "none" => {
            claims.clear();
            refused = None;
        }
        "no such row" => claim.row = rows,
        "row -1" => claim.row = -1,
        "row over 8 bits" => claim.row += 256,
        "row over 32 bits" => claim.row += 1 << 32,
        "row under 5%" => claim.row = made.narrow,
        "row of state 2" => claim.row = made.parallel,
        "D 0" => claim.denominator = 0,
        "D 1001" => claim.denominator = 1_001,
        "D -1" => claim.denominator = -1,
        "D over 32 bits" => claim.denominator += 1 << 32,
        "17 pairs" => {
            while claim.pairs.len() < MOST_PAIRS + 1 {
                claim.pairs.push(claim.pairs[0]);
            }
        }
        "multiplier 0" => claim.pairs[pair].1 = 0,
        "multiplier 1001" => claim.pairs[pair].1 = 1_001,
        "multiplier -1" => claim.pairs[pair].1 = -1,
        "multiplier over 32 bits" => claim.pairs[pair].1 += 1 << 32,
        "cites no row" => claim.pairs[pair].0 = rows,
        "cites -1" => claim.pairs[pair].0 = -1,
        "cites a row over 8 bits" => claim.pairs[pair].0 += 256,
        "cites a row over 32 bits" => claim.pairs[pair].0 += 1 << 32,
        "cites a row under 5%" => claim.pairs[pair].0 = made.narrow,
        "cites a row of state 2" => claim.pairs[pair].0 = made.parallel,
        "cites its own row" => claim.pairs[pair].0 = claim.row,
        "cites a row twice" => {
            if claim.pairs.len() == MOST_PAIRS {
                claim.pairs.pop();
            }
            let again = claim.pairs[d.below(claim.pairs.len())];
            claim.pairs.push((again.0, d.within(1, 1_000)));
        }
        "cites a row claimed before" => {
            if at == 0 {
                return None;
            }
            claims[at].pairs[pair].0 = claims[d.below(at)].row;
        }
        "cites a row claimed after" => {
            if at == last {
                return None;
            }
            claims[at].pairs[pair].0 = claims[at + 1 + d.below(last - at)].row;
        }
        "cites a row that a bad claim names"
        | "cites a row that a claim of 17 pairs names"
        | "cites a row that a claim of many pairs names" => {
            let cited = claim.pairs[pair].0;
            refused = Some((11, first_citing(&claims, cited)?));
            let bad = match way {
                "cites a row that a bad claim names" => {
                    Claim { row: cited, denominator: d.of(&[0, 1_001]), pairs: vec![] }
                }
                "cites a row that a claim of 17 pairs names" => too_many_pairs(cited, MOST_PAIRS + 1),
                _ => too_many_pairs(cited, d.of(&[18, 32, 40, 255, 256, 257, 3_000])),
            };
            claims.push(bad);
        }
        "claimed again" => {
            let again = claims[at].clone();
            claims.push(again);
            refused = Some((11, last + 1));
        }
        "claimed again by many" => {
            let again = claims[at].clone();
            claims.resize(250, again);
            refused = Some((11, last + 1));
        }
        "D 1 more" => {
            claim.denominator += if claim.denominator == 1_000 { -1 } else { 1 };
            refused = Some((12, at));
        }
        "a multiplier 1 more" => {
            claim.pairs[pair].1 += if claim.pairs[pair].1 == 1_000 { -1 } else { 1 };
            refused = Some((12, at));
        }
        "no pair" => {
            claim.pairs.clear();
            refused = Some((12, at));
        }
        "a pair left out" => {
            claim.pairs.remove(pair);
            refused = Some((12, at));
        }
        "a kept row too many" => {
            if claim.pairs.len() == MOST_PAIRS {
                return None;
            }
            claim.pairs.push((other_kept?, d.of(&[1, 1_000])));
            refused = Some((12, at));
        }
        "RAM 1 kW too low" => {
            let spare = made.slack[at] / (100_000 * i128::from(claim.denominator));
            t.c[claim.row as usize][6] += spare as i64 + 1;
            refused = Some((12, at));
        }
        "RAM some grains too low" => {
            // every factor one lower: what the net positions put on it falls by their sum
            if t.z.iter().sum::<i64>() != 1 || made.slack[at] >= i128::from(claim.denominator) {
                return None;
            }
            let zones = t.header.zones;
            let start = claim.row as usize * zones;
            if t.f[start..start + zones].contains(&-100_000) {
                return None;
            }
            t.f[start..start + zones].iter_mut().for_each(|factor| *factor -= 1);
            refused = Some((12, at));
        }
        "a factor 1 more" => {
            let zones = t.header.zones;
            let start = claim.row as usize * zones;
            let own = &mut t.f[start..start + zones];
            let largest = own.iter_mut().max().filter(|factor| **factor < 100_000)?;
            *largest += 1;
            refused = Some((12, at));
        }
        "12 before 11" | "11 before 12" => {
            if at == last {
                return None;
            }
            let (first, second) = if way == "12 before 11" { (at, last) } else { (last, at) };
            claims[first].denominator += if claims[first].denominator == 1_000 { -1 } else { 1 };
            claims[second].pairs[0].1 = 0;
            refused = Some((if way == "12 before 11" { 12 } else { 11 }, at));
        }
        _ => {
            claim.denominator += if claim.denominator == 1_000 { -1 } else { 1 };
            claim.pairs[pair].1 = 0;
        }
    }
    // a table that was changed may have other rows of state 0
    let same = (0..t.header.rows).all(|row| kept(&t, row) == kept(&made.t, row));
    let list = List { records: records(d, &claims), text: text(&claims), refused };
    same.then_some((t, list))
}

/// The ways to write a list as text; each LF is shown as a slash, each tab as a
/// blank; & stands for the claim of the list, # for what follows its letter, $ for a
/// row that it cites, ^ for 17 pairs and % for 3,000.
pub const TEXT_WAYS: [(&str, &str, Option<usize>); 45] = [
    ("empty", "", None),
    ("as it is", "&/", None),
    ("no LF", "&", Some(0)),
    ("an empty line before", "/&/", Some(0)),
    ("an empty line after", "&//", Some(1)),
    ("a letter of a table", "C#/", Some(0)),
    ("a small letter", "q#/", Some(0)),
    ("no letter", "#/", Some(0)),
    ("two letters", "QQ#/", Some(0)),
    ("a letter alone", "Q/", Some(0)),
    ("a letter alone, cut off", "Q", Some(0)),
    ("a tab for a row", "Q /", Some(0)),
    ("no D", "Q 0/", Some(0)),
    ("an empty D", "Q 0 /", Some(0)),
    ("a tab at the end", "& /", Some(0)),
    ("a pair without multiplier", "& 0/", Some(0)),
    ("a pair without multiplier after two", "& 0 1 2/", Some(0)),
    ("a CR", "&\r/", Some(0)),
    ("a CR alone", "\r/", Some(0)),
    ("a BOM", "\u{feff}&/", Some(0)),
    ("a NUL", "&\0/", Some(0)),
    ("a leading zero", "Q 00 1/", Some(0)),
    ("a minus zero", "Q -0 1/", Some(0)),
    ("eleven digits", "Q 0 10000000000/", Some(0)),
    ("ten digits", "Q 0 9999999999/", Some(0)),
    ("a row of ten digits", "Q 9999999999 1/", Some(0)),
    ("a plus", "Q 0 +1/", Some(0)),
    ("a decimal", "Q 0 1.0/", Some(0)),
    ("a dash", "Q 0 -/", Some(0)),
    ("17 pairs", "Q 0 1 1 1 2 1 3 1 4 1 5 1 6 1 7 1 8 1 9 1 10 1 11 1 12 1 13 1 14 1 15 1 16 1 17 1/", Some(0)),
    ("a bad line that would name a cited row", "&/Q $ -1/", Some(1)),
    ("a line cut off that would name a cited row", "&/Q $ 1", Some(1)),
    ("a bad letter that would name a cited row", "&/D $ 1/", Some(1)),
    ("a line that names a cited row", "&/Q $ 0/", Some(0)),
    ("a line of 17 pairs that names a cited row", "&/Q $ 1^/", Some(0)),
    ("a line of 17 pairs before it that names a cited row", "Q $ 1^/&/", Some(0)),
    ("a line of 17 pairs that names another row", "&/Q 9999 1^/", Some(1)),
    ("17 pairs and half a pair that would name a cited row", "&/Q $ 1^ 0/", Some(1)),
    ("17 pairs and a bad number that would name a cited row", "&/Q $ 1^ 0 01/", Some(1)),
    ("17 pairs and a tab that would name a cited row", "&/Q $ 1^ /", Some(1)),
    ("17 pairs cut off that would name a cited row", "&/Q $ 1^", Some(1)),
    ("a line of 3000 pairs that names a cited row", "&/Q $ 1%/", Some(0)),
    ("3000 pairs and a minus that would name a cited row", "&/Q $ 1% 0 -1/", Some(1)),
    ("3000 pairs cut off that would name a cited row", "&/Q $ 1%", Some(1)),
    ("twice", "&/&/", Some(1)),
];

/// The text of a way, for a claim of a true list.
pub fn in_a_text(claim: &Claim, shown: &str) -> Vec<u8> {
    let line = claim.line();
    let line = line.strip_suffix('\n').expect("an LF");
    let tail = line.strip_prefix('Q').expect("a Q");
    let cited = claim.pairs[0].0.to_string();
    let pairs = |count: usize| " 0 1".repeat(count);
    let text = shown.replace('^', &pairs(MOST_PAIRS + 1)).replace('%', &pairs(3_000));
    let text = text.replace(' ', "\t").replace('/', "\n");
    text.replace('&', line).replace('#', tail).replace('$', &cited).into_bytes()
}

/// A true claim, lines like this one, and as the line of this number, from 1, one that
/// names a row that the claim cites; then one more.
pub fn long_text(claim: &Claim, between: &str, lines: usize) -> Vec<u8> {
    let mut text = claim.line();
    text += &between.repeat(lines - 2);
    text += &format!("Q\t{}\t1\n", claim.pairs[0].0);
    text += "Q\n";
    text.into_bytes()
}

/// A list that is nothing but long: bad lines after a true claim, so many bytes.
pub fn of_bytes(claim: &Claim, bytes: usize) -> Vec<u8> {
    let mut text = claim.line().into_bytes();
    text.resize(bytes, b'\n');
    text
}

// ------------------------------------------------------------ long lists

/// More claims than a table can have rows: the true ones, in any order, and then bad
/// ones.  None of these bears itself out; each names a row: one that is not there, one
/// not kept, one that is claimed already, or, where `named`, at one place a row that a
/// true claim cites.  The second number: which claim is to be refused (11).
pub fn long_list(d: &mut Dice, made: &Made, claims: usize, named: bool) -> (Vec<Claim>, usize) {
    let mut list = made.claims.clone();
    list.rotate_left(d.below(made.claims.len()));
    let rows = made.t.header.rows as i64;
    while list.len() < claims {
        let known = d.of(&made.claims.iter().map(|claim| claim.row).collect::<Vec<i64>>());
        let row = d.of(&[rows, 9_999, made.narrow, made.parallel, known]);
        list.push(bad_claim(d, row));
    }
    let mut refused = made.claims.len();
    if named {
        let citing = d.below(refused);
        let (cited, _) = d.of(&list[citing].pairs);
        let at = if d.one_in(2) { claims - 1 } else { d.within(refused as i64, claims as i64 - 1) as usize };
        list[at] = bad_claim(d, cited);
        refused = first_citing(&list, cited).expect("a true claim cites it");
    }
    (list, refused)
}

/// A claim of right form, by itself or by its row, its pairs or D at fault; nothing but
/// its row is named.
fn bad_claim(d: &mut Dice, row: i64) -> Claim {
    match d.below(4) {
        0 => Claim { row, denominator: 0, pairs: vec![] },
        1 => Claim { row, denominator: 1_001, pairs: vec![(row, 1)] },
        2 => Claim { row, denominator: 1, pairs: vec![(row, 1)] },
        _ => too_many_pairs(row, d.of(&[17, 18, 40])),
    }
}

// ------------------------------------------------------- lists at random

/// More claims than there can be rows, some of more pairs than a claim may have.
pub fn many_at_random(d: &mut Dice, t: &Tables) -> Vec<Claim> {
    let claims = MOST_ROWS + 1 + d.below(100);
    let mut list = at_random(d, t, claims);
    for claim in &mut list {
        if d.one_in(4) {
            claim.pairs.resize(d.of(&[MOST_PAIRS + 1, 18, 40]), (0, 1));
        }
    }
    list
}

/// So many claims about any table: mostly of kept rows, mostly in range, seldom true.
pub fn at_random(d: &mut Dice, t: &Tables, claims: usize) -> Vec<Claim> {
    let rows = t.header.rows;
    let all: Vec<i64> = (0..rows as i64).collect();
    let good: Vec<i64> = if rows <= 40 { all.iter().copied().filter(|row| kept(t, *row as usize)).collect() } else { vec![] };
    let some = |d: &mut Dice| if good.is_empty() || d.one_in(8) { d.of(&all) } else { d.of(&good) };
    let number = |d: &mut Dice| {
        let some = d.within(1, 1_000);
        if d.one_in(12) { d.of(&[0, 1_001]) } else { d.of(&[1, 1, 2, 1_000, some]) }
    };
    (0..claims)
        .map(|_| {
            let row = some(d);
            let denominator = number(d);
            let mut pairs: Vec<(i64, i64)> = Vec::new();
            for _ in 0..d.of(&[0, 1, 1, 2, 3, MOST_PAIRS, MOST_PAIRS + 1]) {
                let cited = some(d);
                if (cited != row && pairs.iter().all(|(other, _)| *other != cited)) || d.one_in(40) {
                    pairs.push((cited, number(d)));
                }
            }
            Claim { row, denominator, pairs }
        })
        .collect()
}
