//! Claims by hand (02, E10).

use crate::second::claims::{judge_claims, published, published_text, ClaimRecord, CLAIM_ITEMS};
use crate::second::*;
use crate::{e, hour_with, read_refusal, shown, table, text, ALL, HOUR};

/// No net positions, no rights: RAM is Fmax.  Rows 0 and 1 added up are twice row 2,
/// half of row 0 is row 3; row 4 is under 5%, row 5 says the same as row 1 at a
/// higher RAM.
const ROWS: &str = "H 3 1 6 / Z 0 0 / Z 1 0 / Z 2 0 / B 0 0 1 0
C 0 100 0 0 0 0 0 0 20000 0 0
C 1 200 0 0 0 0 0 0 0 20000 0
C 2 150 0 0 0 0 0 0 10000 10000 0
C 3 50 0 0 0 0 0 0 10007 7 7
C 4 9 0 0 0 0 0 0 4999 0 0
C 5 201 0 0 0 0 0 0 5 20005 5";

fn rows() -> Tables {
    table(&ROWS.replace('\n', " / "))
}

/// Row, D, then each cited row and its multiplier.
fn claim(numbers: &[i64]) -> ClaimRecord {
    let mut record = [0; CLAIM_ITEMS];
    record[..2].copy_from_slice(&numbers[..2]);
    record[2] = (numbers.len() as i64 - 2) / 2;
    record[3..1 + numbers.len()].copy_from_slice(&numbers[2..]);
    record
}

fn judged(t: &Tables, claims: &[&[i64]]) -> Result<(), Refusal> {
    let records: Vec<ClaimRecord> = claims.iter().map(|numbers| claim(numbers)).collect();
    judge_claims(t.lend(), &records)
}

/// The published list for a list's text.
fn list(t: &Tables, lines: &str) -> String {
    shown(&published(Ok(t.clone()), &text(lines)))
}

const TRUE_2: &[i64] = &[2, 2, 0, 1, 1, 1];
const TRUE_3: &[i64] = &[3, 2, 0, 1];

#[test]
fn claims_of_the_worked_hour() {
    let t = table(HOUR);
    assert_eq!(shown(&published(Ok(t.clone()), b"")), "D 0 70000000000 / D 1 9000000000");
    assert_eq!(judged(&t, &[]), Ok(()));
    // six times 5000 5000 0 less 30000 10000 0 is 0 20000 0
    assert_eq!(list(&t, "Q 0 1 1 6"), "E 12 0 0");
    // row 2 is under 5%, row 3 says the same as row 0
    assert_eq!(list(&t, "Q 2 1 0 1"), "E 11 0 0");
    assert_eq!(list(&t, "Q 3 1 0 1"), "E 11 0 0");
    assert_eq!(list(&t, "Q 0 1 3 1"), "E 11 0 0");
}

#[test]
fn claims_by_hand() {
    let t = rows();
    assert_eq!(list(&t, "Q 2 2 0 1 1 1"), "D 0 10000000 / D 1 20000000 / D 3 5000000");
    assert_eq!(list(&t, "Q 3 2 0 1 / Q 2 2 1 1 0 1"), "D 0 10000000 / D 1 20000000");
    assert_eq!(list(&t, "Q 3 1000 0 500"), "D 0 10000000 / D 1 20000000 / D 2 15000000");
    assert_eq!(judged(&t, &[TRUE_2, TRUE_3]), Ok(()));
    assert_eq!(judged(&t, &[TRUE_3, TRUE_2]), Ok(()));
    // row 2 with 149 kW: 300 is over 298; with 151 there is some to spare
    let mut other = t.clone();
    other.c[2][0] = 149;
    assert_eq!(judged(&other, &[TRUE_2]), e(12, 0));
    assert_eq!(judged(&other, &[TRUE_3, TRUE_2]), e(12, 1));
    other.c[2][0] = 151;
    assert_eq!(judged(&other, &[TRUE_2]), Ok(()));
    // every factor of row 2 higher by 7: still one and the same number in each zone
    other.c[2][0] = 150;
    other.f[6..9].iter_mut().for_each(|factor| *factor += 7);
    assert_eq!(judged(&other, &[TRUE_2]), Ok(()));
    // in one zone only
    other.f[8] += 1;
    assert_eq!(judged(&other, &[TRUE_2]), e(12, 0));
}

#[test]
fn rams_are_signed() {
    // CVA takes more than there is: rows 0 and 3 have -10 and -5, so twice -5 bears -10
    let mut t = rows();
    t.c[0][5] = 110;
    t.c[3][5] = 55;
    assert_eq!(judged(&t, &[TRUE_3]), Ok(()));
    assert_eq!(list(&t, "Q 3 2 0 1"), "D 0 -1000000 / D 1 20000000 / D 2 15000000");
    t.c[3][5] = 56;
    assert_eq!(judged(&t, &[TRUE_3]), e(12, 0));
    // 7 is given for such a table, but not here
    assert_eq!(extract(t.lend(), 99, 99, 99), e(7, 0));
}

#[test]
fn rams_in_grains() {
    // z sums to 1, so a move of row 1's factors by one brings one grain.  Row 0 has 1 kW,
    // row 1 is two thirds of it: 66667 x 3 = 200001, 66666 x 3 = 199998
    let t = |by: i64| {
        let factors = [6_000 + by, by, by].map(|factor| factor.to_string()).join(" ");
        table(&format!(
            "H 3 1 2 / Z 0 0 / Z 1 0 / Z 2 1 / B 0 0 1 0 / C 0 4 0 0 0 0 3 0 9000 0 0 / C 1 4 0 0 0 0 4 0 {factors}"
        ))
    };
    assert_eq!(margin_of(&t(66_667), 0).ram, 100_000);
    assert_eq!(margin_of(&t(66_667), 1).ram, 66_667);
    assert_eq!(judged(&t(66_667), &[&[1, 3, 0, 2]]), Ok(()));
    assert_eq!(judged(&t(66_666), &[&[1, 3, 0, 2]]), e(12, 0));
}

#[test]
fn malformed_claims() {
    let t = rows();
    for wrong in [
        &[6, 2, 0, 1][..],
        &[-1, 2, 0, 1],
        &[4, 2, 0, 1],
        &[5, 2, 0, 1],
        &[3 + (1 << 32), 2, 0, 1],
        &[3, 0, 0, 1],
        &[3, 1_001, 0, 1],
        &[3, -2, 0, 1],
        &[3, 2, 0, 0],
        &[3, 2, 0, 1_001],
        &[3, 2, 0, -1],
        &[3, 2, 6, 1],
        &[3, 2, -1, 1],
        &[3, 2, 4, 1],
        &[3, 2, 5, 1],
        &[3, 2, 3, 1],
        &[3, 2, 0, 1, 0, 1],
        &[3, 2, 2, 1],
    ] {
        assert_eq!(judged(&t, &[TRUE_2, wrong]), e(11, 1), "{wrong:?}");
    }
    // the number of pairs
    for count in [-1, 17, i64::MIN, i64::MAX, 1 << 32] {
        let mut record = claim(TRUE_3);
        record[2] = count;
        assert_eq!(judge_claims(t.lend(), &[record]), e(11, 0));
    }
    // what stands behind the pairs is not looked at
    let mut record = claim(TRUE_3);
    record[5..].fill(-9);
    assert_eq!(judge_claims(t.lend(), &[record]), Ok(()));
    // no pair: never borne out
    assert_eq!(judged(&t, &[&[3, 1]]), e(12, 0));
}

#[test]
fn which_claim_is_at_fault() {
    let t = rows();
    // of two on one row the later
    assert_eq!(judged(&t, &[TRUE_3, TRUE_2, TRUE_3]), e(11, 2));
    // the one that cites, wherever the other stands, also where the other is bad
    assert_eq!(judged(&t, &[&[2, 2, 3, 1], TRUE_3]), e(11, 0));
    assert_eq!(judged(&t, &[TRUE_3, &[2, 2, 3, 1]]), e(11, 1));
    assert_eq!(judged(&t, &[TRUE_3, &[0, 0]]), e(11, 0));
    assert_eq!(list(&t, "Q 3 2 0 1 / Q 0 0"), "E 11 0 0");
    // a line of wrong form names no row
    assert_eq!(list(&t, "Q 3 2 0 1 / Q 0 x"), "E 11 1 0");
    assert_eq!(list(&t, "Q 3 2 0 1 / Q 0 -1"), "E 11 1 0");
    assert_eq!(list(&t, "Q 3 2 0 1 / Q 0"), "E 11 1 0");
    // the first faulty claim decides, form before truth in each
    assert_eq!(judged(&t, &[&[2, 1, 0, 1], &[3, 0]]), e(12, 0));
    assert_eq!(judged(&t, &[&[3, 0], &[2, 1, 0, 1]]), e(11, 0));
    assert_eq!(judged(&t, &[&[2, 0, 0, 1]]), e(11, 0));
}

#[test]
fn lists_as_text() {
    let t = rows();
    let of = |list: &[u8]| shown(&published(Ok(t.clone()), list));
    let good = "D 0 10000000 / D 1 20000000 / D 2 15000000";
    assert_eq!(of(b"Q\t3\t2\t0\t1\n"), good);
    for (list, place) in [
        (&b"Q\t3\t2\t0\t1"[..], 0),
        (b"\n", 0),
        (b"Q\t3\t2\t0\t1\n\n", 1),
        (b"\nQ\t3\t2\t0\t1\n", 0),
        (b"C\t3\t2\t0\t1\n", 0),
        (b"Q\n", 0),
        (b"Q\t3\n", 0),
        (b"Q\t3\t2\t0\n", 0),
        (b"Q\t3\t2\t0\t\n", 0),
        (b"Q\t3\t2\t0\t1\t\n", 0),
        (b"Q\t3\t2\t0\t1\r\n", 0),
        (b"\xEF\xBB\xBFQ\t3\t2\t0\t1\n", 0),
        (b"Q\t3\t02\t0\t1\n", 0),
        (b"Q 3 2 0 1\n", 0),
        (b"Q\t3\t2\t0\t10000000001\n", 0),
    ] {
        assert_eq!(of(list), format!("E 11 {place} 0"), "{}", list.escape_ascii());
    }
}

/// A list's text: each line so many times; tabs are shown as blanks.
fn lines(claims: &[(String, usize)]) -> String {
    claims.iter().map(|(line, times)| format!("{}\n", line.replace(' ', "\t")).repeat(*times)).collect()
}

fn line(text: &str) -> (String, usize) {
    (text.to_string(), 1)
}

#[test]
fn what_a_line_names() {
    let t = rows();
    let of = |list: &[u8]| shown(&published(Ok(t.clone()), list));
    // claim 0 cites row 0: it is at fault where the second line names that row, and else
    // the second line is
    let second = |named: &str| {
        let text = format!("Q 3 2 0 1\n{named}").replace(' ', "\t");
        of(text.as_bytes())
    };
    let pairs = |count: usize| " 1 1".repeat(count);
    for named in [
        "Q 0 1\n".to_string(),
        "Q 0 0\n".to_string(),
        "Q 0 5000\n".to_string(),
        "Q 0 9999999999\n".to_string(),
        "Q 0 1 1 0\n".to_string(),
        "Q 0 1 9 1\n".to_string(),
        "Q 0 1 1 1 1 1\n".to_string(),
        format!("Q 0 1{}\n", pairs(16)),
        format!("Q 0 1{}\n", pairs(17)),
        format!("Q 0 1{}\n", pairs(18)),
        format!("Q 0 1{}\n", pairs(3_000)),
        format!("Q 0 1{} 4 9999999999\n", pairs(16)),
    ] {
        assert_eq!(second(&named), "E 11 0 0", "{named}");
    }
    for named in [
        "Q 0\n".to_string(),
        "Q 0 1".to_string(),
        "Q 0 x\n".to_string(),
        "Q 0 -1\n".to_string(),
        "Q 0 01\n".to_string(),
        "Q 00 1\n".to_string(),
        "Q -0 1\n".to_string(),
        "Q 0 12345678901\n".to_string(),
        "Q 0 1 1\n".to_string(),
        "Q 0 1 \n".to_string(),
        "Q  0 1\n".to_string(),
        "P 0 1\n".to_string(),
        "\n".to_string(),
        "Q 200 1\n".to_string(),
        format!("Q 0 1{} 1\n", pairs(17)),
        format!("Q 0 1{} 1 01\n", pairs(16)),
        format!("Q 0 1{} 1 01\n", pairs(17)),
        format!("Q 0 1{}", pairs(17)),
        format!("Q 0 1{} \n", pairs(17)),
        format!("Q 0 1{} 1 -1\n", pairs(3_000)),
        // more pairs than a claim may have, but of another row
        format!("Q 4 1{}\n", pairs(17)),
    ] {
        assert_eq!(second(&named), "E 11 1 0", "{named}");
    }
    // a record names its row whatever its number of pairs is
    for count in [17, 18, 1_000, -1, i64::MIN, i64::MAX, 1 << 32] {
        let mut record = claim(&[0, 1]);
        record[2] = count;
        assert_eq!(judge_claims(t.lend(), &[claim(TRUE_3), record]), e(11, 0), "{count}");
        record[0] = 4;
        assert_eq!(judge_claims(t.lend(), &[claim(TRUE_3), record]), e(11, 1), "{count}");
    }
}

#[test]
fn lists_of_many_lines() {
    let t = rows();
    let of = |claims: &[(String, usize)]| shown(&published(Ok(t.clone()), lines(claims).as_bytes()));
    let first = line("Q 3 2 0 1");
    // what stands between names no row, or one that nobody cites
    for between in ["Q", "Q 9 1", "Q 3 2 0 1", "Q 4 1", ""] {
        for count in [0, 1, 198, 199, 200, 201, 254, 255, 256, 1_000, 5_000] {
            let many = (between.to_string(), count);
            assert_eq!(of(&[first.clone(), many.clone(), line("Q 0 1")]), "E 11 0 0", "{count} {between}");
            assert_eq!(of(&[first.clone(), many, line("Q 0")]), "E 11 1 0", "{count} {between}");
        }
    }
    // the very last line that a text can have
    let most = (65_536 - "Q 3 2 0 1 Q 0 1 ".len()) / 2;
    assert_eq!(of(&[first.clone(), ("Q".to_string(), most), line("Q 0 1")]), "E 11 0 0");
    assert_eq!(of(&[first.clone(), ("Q".to_string(), most + 1), line("Q 0 1")]), "E 1 0 0");
    // the same as records
    for count in [0, 198, 199, 200, 255, 256, 1_000] {
        let mut records = vec![claim(TRUE_3)];
        records.resize(1 + count, claim(&[9, 1]));
        records.push(claim(&[0, 1]));
        assert_eq!(judge_claims(t.lend(), &records), e(11, 0), "{count}");
        records.pop();
        assert_eq!(judge_claims(t.lend(), &records), if count == 0 { Ok(()) } else { e(11, 1) }, "{count}");
    }
}

#[test]
fn the_lists_of_the_stored_hour() {
    let t = read(include_bytes!("../hours/claims.tsv"), ALL).unwrap();
    let of = |claims: &[(String, usize)]| shown(&published(Ok(t.clone()), lines(claims).as_bytes()));
    let first = line("Q 3 1 0 1 1 1");
    let many = ("Q 9 1".to_string(), 199);
    assert_eq!(of(&[first.clone(), many.clone(), line("Q 0 1")]), "E 11 0 0");
    assert_eq!(of(&[first.clone(), many.clone(), line("Q 0")]), "E 11 1 0");
    let mut records = vec![claim(&[9, 1]); 201];
    (records[0], records[200]) = (claim(&[3, 1, 0, 1, 1, 1]), claim(&[0, 1]));
    assert_eq!(judge_claims(t.lend(), &records), e(11, 0));

    // row 2 is at most what rows 0 and 1 let through, and the second claim names row 1
    let t = table("H 2 1 3 / Z 0 0 / Z 1 0 / B 0 0 1 0 / C 0 1000 0 0 0 0 0 0 6000 0 / C 1 2000 0 0 0 0 0 0 12001 0 / C 2 3000 0 0 0 0 0 0 18001 0");
    let of = |claims: &[(String, usize)]| shown(&published(Ok(t.clone()), lines(claims).as_bytes()));
    let first = line("Q 2 1 0 1 1 1");
    let named = |count: usize| line(&format!("Q 1 1{}", " 0 1".repeat(count)));
    let half = line(&format!("{} 0", named(17).0));
    assert_eq!(of(&[first.clone(), named(17)]), "E 11 0 0");
    assert_eq!(of(&[first.clone(), half]), "E 11 1 0");
    assert_eq!(of(&[first]), "D 0 100000000 / D 1 200000000");
    let mut record = claim(&[1, 1]);
    record[3..].copy_from_slice(&[0, 1].repeat(16));
    record[2] = 17;
    assert_eq!(judge_claims(t.lend(), &[claim(&[2, 1, 0, 1, 1, 1]), record]), e(11, 0));
}

#[test]
fn order_of_refusals_of_claims() {
    let t = rows();
    let list = text("Q 3 2 0 1");
    let wrong = text("Q 3 3 0 1");
    // 1, the tables, the claims, room
    let long = vec![b'Q'; 65_537];
    let mut bad = t.clone();
    bad.header.zones = 17;
    assert_eq!(published_text(bad.lend(), &long, 0), e(1, 0));
    assert_eq!(published_text(bad.lend(), &wrong, 0), e(3, 1));
    let mut bad = t.clone();
    bad.z.pop();
    bad.c[0][0] = 0;
    assert_eq!(published_text(bad.lend(), &wrong, 0), e(8, 3));
    bad.z.push(0);
    assert_eq!(published_text(bad.lend(), &wrong, 0), e(3, 6));
    let mut bad = t.clone();
    bad.header.borders = 2;
    bad.b.push(bad.b[0]);
    assert_eq!(published_text(bad.lend(), &wrong, 0), e(4, 1));
    assert_eq!(judge_claims(bad.lend(), &[claim(&[9, 9])]), e(4, 1));
    assert_eq!(published_text(t.lend(), &wrong, 0), e(12, 0));
    let needed = "D 0 10000000 D 1 20000000 D 2 15000000 ".len();
    assert_eq!(published_text(t.lend(), &list, needed - 1), e(8, needed));
    assert!(published_text(t.lend(), &list, needed).is_ok());
    assert_eq!(published_text(t.lend(), &long[1..], 0), e(11, 0));
    // a table of rows under 5% only: 5 is not judged, and nothing is left to publish
    let narrow = table("H 2 1 1 / Z 0 0 / Z 1 0 / B 0 0 1 0 / C 0 9 0 0 0 0 0 0 4999 0");
    assert_eq!(published_text(narrow.lend(), b"", 0), Ok(vec![]));
    assert_eq!(extract(narrow.lend(), 9, 9, 9), e(5, 0));
    // from text: a list that is too long goes before the lines of the table
    let damaged = hour_with(2, "Z 0 x");
    assert_eq!(read_refusal(&damaged), Some((2, 2)));
    assert_eq!(shown(&published(read(&damaged, ALL), &long)), "E 1 0 0");
    assert_eq!(shown(&published(read(&damaged, ALL), &wrong)), "E 2 2 5");
    assert_eq!(shown(&published(read(&long, ALL), &wrong)), "E 1 0 0");
    // a correction line before claims, and claims of the merged table
    let hour = text(HOUR);
    assert_eq!(shown(&published(read_corrected(&hour, b"x\n", ALL), &wrong)), "E 10 1 0");
    assert_eq!(shown(&published(read_corrected(&damaged, b"x\n", ALL), &wrong)), "E 2 2 5");
    let lower = text("C 3 1000000 0 130000 0 0 0 900000 20000 0 -10000");
    assert_eq!(shown(&published(read_corrected(&hour, &lower, ALL), b"")), "D 1 9000000000 / D 3 10000000000");
}
