//! Tests of the reference calculator: `rustc --edition 2021 --test selftest.rs`.

#[path = "changes.rs"]
mod changes;
#[path = "changes_by_hand.rs"]
mod changes_by_hand;
#[path = "claims_by_hand.rs"]
mod claims_by_hand;
#[path = "day.rs"]
mod day;
#[path = "day_by_hand.rs"]
mod day_by_hand;
#[path = "noon_by_hand.rs"]
mod noon_by_hand;
#[path = "rows_by_hand.rs"]
mod rows_by_hand;
#[path = "second.rs"]
mod second;
#[path = "tidy.rs"]
mod tidy;
#[path = "tidy_by_hand.rs"]
mod tidy_by_hand;
#[path = "why_by_hand.rs"]
mod why_by_hand;
#[path = "words.rs"]
mod words;
#[path = "words_by_hand.rs"]
mod words_by_hand;

use second::*;

const ALL: [usize; 5] = [usize::MAX; 5];

/// Tabs are shown as blanks, LF as " / " or as itself.
fn text(shown: &str) -> Vec<u8> {
    let mut lines = shown.replace(" / ", "\n").trim().to_string();
    lines.push('\n');
    lines.replace(' ', "\t").into_bytes()
}

fn shown(bytes: &[u8]) -> String {
    String::from_utf8(bytes.to_vec()).unwrap().replace('\t', " ").trim_end().replace('\n', " / ")
}

fn table(shown: &str) -> Tables {
    read(&text(shown), ALL).expect("a good table")
}

fn out(t: &Tables) -> Result<Outcome, Refusal> {
    extract(t.lend(), usize::MAX, usize::MAX, usize::MAX)
}

/// The extraction where only the marked borders rise.
fn marked(t: &Tables, marks: &[u64]) -> Result<Outcome, Refusal> {
    extract_marked(t.lend(), marks, usize::MAX, usize::MAX, usize::MAX)
}

/// Lent tables without an item.
fn nothing(header: Header) -> Lent<'static> {
    Lent { header, z: &[], t: &[], b: &[], c: &[], f: &[] }
}

/// A refusal that no byte is to blame for.
fn e<T>(number: u32, place: usize) -> Result<T, Refusal> {
    Err(Refusal { number, place, byte: NO_BYTE })
}

/// The number and place of reading's refusal.
fn read_refusal(bytes: &[u8]) -> Option<(u32, usize)> {
    read(bytes, ALL).err().map(|refusal| (refusal.number, refusal.place))
}

const HOUR: &str = "H 3 2 4
Z 0 500000
Z 1 -200000
Z 2 -300000
B 0 0 1 100
B 1 1 2 200
C 0 1000000 200000 200000 150000 7000 0 80000 30000 10000 0
C 1 100000 10000 15000 0 7000 0 0 5000 5000 0
C 2 100000 0 0 0 0 0 0 4999 0 0
C 3 1000000 0 130000 0 7000 0 0 20000 0 -10000";

const HOUR_GIVES: &str = "A 0 2599 21 0
A 1 1800 1 1
M 0 0 70000000000 20000
M 1 0 9000000000 0
M 2 1 12499500000 -
M 3 2 100000000000 -
R 21";

/// The hour with line `number` (from 1) replaced.
fn hour_with(number: usize, line: &str) -> Vec<u8> {
    let mut lines: Vec<&str> = HOUR.lines().collect();
    lines[number - 1] = line;
    text(&lines.join("\n"))
}

// ---------------------------------------------------------------- worked hour

#[test]
fn worked_hour_byte_for_byte() {
    assert_eq!(answer(&text(HOUR)), text(HOUR_GIVES));
    let t = table(HOUR);
    let o = out(&t).unwrap();
    assert_eq!(o.n_most, 2);
    assert_eq!(o.l_bits, 22);
    assert_eq!(2 * o.n_most as u64 * o.l_bits as u64, 88);
    assert_eq!(o.kw[0], 2_599_999);
    assert_eq!(o.rounds, 21);
    // pairs with p > 0: row 0 both borders, row 1 border 1; 22 rounds done
    assert_eq!(o.divisions, 2 * 3 * 22);
}

#[test]
fn worked_hour_named_values_by_hand() {
    let t = table(HOUR);
    // row 0: factor sum 30000 x 500000 - 10000 x 200000 = 130000 kW
    let m = margin_of(&t, 0);
    let kw = |v: i128| v * 100_000;
    assert_eq!(m.f0core, kw(70_000));
    assert_eq!(m.fuaf, kw(-80_000));
    assert_eq!(m.base, kw(730_000));
    // 700000 + 80000 - 730000 = 50000
    assert_eq!(m.amr, kw(50_000));
    assert_eq!(m.s, kw(40_000));
    assert_eq!(m.lta_margin, 0);
    assert_eq!(m.ram, kw(700_000));
}

#[test]
fn worked_hour_written_again() {
    assert_eq!(rewrite(&text(HOUR)), text(HOUR));
    let dash = hour_with(8, "C 1 100000 10000 15000 0 - 0 0 5000 5000 0");
    assert_eq!(rewrite(&dash), dash);
    assert_eq!(read(&dash, ALL).unwrap().c[1][4], -1);
    // "-" means 7000
    assert_eq!(answer(&dash), text(HOUR_GIVES));
}

#[test]
fn hours_that_show_two_slips() {
    assert_eq!(
        shown(&answer(&text(
            "H 2 2 2 / Z 0 0 / Z 1 0 / B 0 0 1 0 / B 1 1 0 0 / C 0 100000 0 0 0 0 0 0 20000 0 / C 1 100000 0 0 0 0 0 0 0 20000"
        ))),
        "A 0 500 1 0 / A 1 500 1 1 / M 0 0 10000000000 0 / M 1 0 10000000000 0 / R 1"
    );
    assert_eq!(
        shown(&answer(&text(
            "H 3 2 1 / Z 0 0 / Z 1 0 / Z 2 0 / B 0 0 1 0 / B 1 0 2 0 / C 0 100000 0 0 0 0 0 0 20000 0 0"
        ))),
        "A 0 250 1 0 / A 1 250 1 0 / M 0 0 10000000000 0 / R 1"
    );
}

// --------------------------------------------------------------- edge figures

fn one_row(row: &str) -> Vec<u8> {
    text(&format!("H 2 1 1 / Z 0 0 / Z 1 0 / B 0 0 1 0 / C 0 {row}"))
}

#[test]
fn spread_5000_is_kept_4999_is_not() {
    let kept = answer(&one_row("100000 0 0 0 0 0 0 5000 0"));
    assert_eq!(shown(&kept), "A 0 2000 1 0 / M 0 0 10000000000 0 / R 1");
    assert_eq!(shown(&answer(&one_row("100000 0 0 0 0 0 0 4999 0"))), "E 5 0 0");
    // the spread counts every zone, also one in no border
    let t = text("H 3 1 2 / Z 0 0 / Z 1 0 / Z 2 0 / B 0 0 1 0 / C 0 1 0 0 0 0 0 0 5000 4999 0 / C 1 1 0 0 0 0 0 0 4999 4998 0");
    let o = out(&read(&t, ALL).unwrap()).unwrap();
    assert_eq!(o.rows[0].state, 0);
    assert_eq!(o.rows[1].state, 1);
}

#[test]
fn amr_at_the_floor_of_r() {
    let m = |frm: &str| {
        let t = read(&one_row(&format!("100000 {frm} 0 0 7000 0 0 20000 0")), ALL).unwrap();
        margin_of(&t, 0)
    };
    assert_eq!(m("30000").amr, 0);
    assert_eq!(m("30000").s, 0);
    assert_eq!(m("30001").amr, 100_000);
}

#[test]
fn amr_at_a_fifth() {
    let t = read(&one_row("100000 90000 0 0 0 0 0 20000 0"), ALL).unwrap();
    let m = margin_of(&t, 0);
    assert_eq!(m.base, 10_000 * 100_000);
    assert_eq!(m.amr, 10_000 * 100_000);
    assert_eq!(m.ram, 20_000 * 100_000);
}

#[test]
fn lta_margin_lifts_ram_to_s() {
    let hour = |iva: &str| {
        text(&format!(
            "H 2 1 1 / Z 0 0 / Z 1 0 / B 0 0 1 100 / C 0 10000 0 0 0 0 0 {iva} 20000 0"
        ))
    };
    assert_eq!(shown(&answer(&hour("0"))), "A 0 100 0 0 / M 0 0 2000000000 0 / R 0");
    let o = out(&read(&hour("0"), ALL).unwrap()).unwrap();
    assert_eq!((o.rounds, o.atc[0], o.rows[0].ram), (0, 100, 20_000 * 100_000));
    assert_eq!(o.l_bits, 0);
    assert_eq!(shown(&answer(&hour("1"))), "E 7 0 0");
    // a table that extraction refuses can still be written
    assert_eq!(rewrite(&hour("1")), hour("1"));
}

#[test]
fn two_equal_rows() {
    let o = out(&table(
        "H 2 1 2 / Z 0 0 / Z 1 0 / B 0 0 1 0 / C 0 100 0 0 0 0 0 0 5000 0 / C 1 100 0 0 0 0 0 0 5000 0",
    ))
    .unwrap();
    assert_eq!((o.rows[0].state, o.rows[1].state), (0, 2));
    assert_eq!(o.rows[1].left, None);
    // a lower RAM later wins over an earlier index; factors moved by one number
    let o = out(&table(
        "H 2 1 2 / Z 0 0 / Z 1 0 / B 0 0 1 0 / C 0 101 0 0 0 0 0 0 5000 0 / C 1 100 0 0 0 0 0 0 4000 -1000",
    ))
    .unwrap();
    assert_eq!((o.rows[0].state, o.rows[1].state), (2, 0));
}

#[test]
fn margin_three_p_shared_by_two() {
    // p 100000 on both borders, margin 3 kW = 3 p
    let o = out(&table(
        "H 3 2 1 / Z 0 0 / Z 1 0 / Z 2 0 / B 0 0 1 0 / B 1 0 2 0 / C 0 3 0 0 0 0 0 0 100000 0 0",
    ))
    .unwrap();
    assert_eq!(o.kw, vec![1, 1]);
    assert_eq!(o.rounds, 1);
    assert_eq!(o.rows[0].left, Some(100_000));
    assert_eq!(o.atc, vec![0, 0]);
}

#[test]
fn most_borders_in_one_round() {
    // one row that 64 borders load by 200000 each, margin 64 MW: a share of 1 MW, so
    // 500 kW each
    let mut t = read(&sized(16, 64, 1), ALL).unwrap();
    t.f = (0..16).map(|zone| if zone < 8 { 100_000 } else { -100_000 }).collect();
    for (index, border) in t.b.iter_mut().enumerate() {
        *border = without_hubs(index as i64 / 8, 8 + index as i64 % 8, 0);
    }
    t.c[0] = [64_000, 0, 0, 0, 0, 0, 0];
    let o = out(&t).unwrap();
    assert_eq!((o.n_most, o.rounds, o.rows[0].left), (64, 1, Some(0)));
    assert!(o.kw.iter().all(|kw| *kw == 500));
    // one kW less: 999 kW and a bit are shared, 499 kW each, then what is left
    t.c[0][0] = 63_999;
    let o = out(&t).unwrap();
    // 63999 kW less 64 x 499 x 2 kW leave 127 kW, under 64 x 2
    assert_eq!((o.rounds, o.kw[63], o.rows[0].left), (1, 499, Some(127 * 100_000)));
}

#[test]
fn border_given_twice() {
    let hour = |second: &str| {
        text(&format!(
            "H 2 2 2 / Z 0 0 / Z 1 0 / B 0 0 1 0 / B 1 {second} / C 0 100 0 0 0 0 0 0 20000 0 / C 1 100 0 0 0 0 0 0 0 20000"
        ))
    };
    assert_eq!(shown(&answer(&hour("0 1 5"))), "E 4 1 0");
    assert_eq!(read_refusal(&hour("1 0 5")), None);
    // the first such border is the later one, by index
    let t = text("H 3 4 1 / Z 0 0 / Z 1 0 / Z 2 0 / B 0 0 1 0 / B 1 1 2 0 / B 2 1 2 3 / B 3 0 1 0 / C 0 1 0 0 0 0 0 0 0 0 0");
    assert_eq!(read_refusal(&t), Some((4, 2)));
    // a bad C line comes before 4
    let t = text("H 2 2 1 / Z 0 0 / Z 1 0 / B 0 0 1 0 / B 1 0 1 0 / C 0 0 0 0 0 0 0 0 0 0");
    assert_eq!(read_refusal(&t), Some((3, 6)));
}

#[test]
fn border_that_no_kept_row_limits() {
    assert_eq!(
        shown(&answer(&text("H 2 1 1 / Z 0 0 / Z 1 0 / B 0 1 0 0 / C 0 100 0 0 0 0 0 0 20000 0"))),
        "E 6 0 0"
    );
    // limited only by a row that is not kept
    assert_eq!(
        shown(&answer(&text(
            "H 2 2 2 / Z 0 0 / Z 1 0 / B 0 0 1 0 / B 1 1 0 0 / C 0 100 0 0 0 0 0 0 20000 0 / C 1 100 0 0 0 0 0 0 0 4999"
        ))),
        "E 6 1 0"
    );
}

#[test]
fn empty_text_and_minus_zero() {
    assert_eq!(shown(&answer(b"")), "E 2 1 0");
    assert_eq!(read_refusal(&hour_with(2, "Z 0 -0")), Some((2, 2)));
    assert_eq!(read_refusal(&hour_with(7, "C 0 1000000 200000 -0 150000 7000 0 80000 30000 10000 0")), Some((2, 7)));
    assert_eq!(read_refusal(&hour_with(7, "C 0 1000000 200000 0 150000 7000 0 80000 30000 10000 -0")), Some((2, 7)));
}

/// A table of the given size with all kinds of lines good.
fn sized(zones: usize, borders: usize, rows: usize) -> Vec<u8> {
    let mut s = format!("H {zones} {borders} {rows}");
    for i in 0..zones {
        s += &format!("\nZ {i} 0");
    }
    let mut made = 0;
    'all: for a in 0..zones {
        for b in 0..zones {
            if a != b {
                if made == borders {
                    break 'all;
                }
                s += &format!("\nB {made} {a} {b} 0");
                made += 1;
            }
        }
    }
    for i in 0..rows {
        s += &format!("\nC {i} 100 0 0 0 - 0 0");
        for k in 0..zones {
            s += if (i + k) % 2 == 0 { " 100000" } else { " -100000" };
        }
    }
    text(&s)
}

#[test]
fn sizes() {
    assert_eq!(read_refusal(&sized(16, 64, 200)), None);
    assert_eq!(read_refusal(&sized(16, 41, 200)), None);
    assert_eq!(read_refusal(&sized(2, 1, 1)), None);
    assert_eq!(read_refusal(&sized(17, 64, 200)), Some((3, 1)));
    assert_eq!(read_refusal(&sized(16, 65, 200)), Some((3, 1)));
    assert_eq!(read_refusal(&sized(16, 64, 201)), Some((3, 1)));
    assert_eq!(read_refusal(&text("H 1 1 1")), Some((3, 1)));
    assert_eq!(read_refusal(&text("H 2 0 1")), Some((3, 1)));
    assert_eq!(read_refusal(&text("H 2 1 0")), Some((3, 1)));
    assert_eq!(rewrite(&sized(16, 64, 200)), sized(16, 64, 200));
}

#[test]
fn lent_tables_of_40_are_enough_for_40() {
    let all = |borders| sized(16, borders, 1);
    assert!(read(&all(40), [16, 0, 40, 1, 16]).is_ok());
    assert_eq!(read(&all(40), [16, 0, 39, 1, 16]), e(8, 40));
    assert_eq!(read(&all(64), [16, 0, 63, 1, 16]), e(8, 64));
    let t = read(&all(40), ALL).unwrap();
    assert_eq!(t.b.len(), 40);
    assert!(write(t.lend(), usize::MAX).is_ok());
    // factors 100000 and -100000 in turn: border 1, from 0 to 2, loads no row, and 6
    // comes before the room for results
    let with = |p, atc| extract(t.lend(), p, atc, 1);
    assert_eq!((with(39, 40).err(), with(40, 39).err()), (e::<()>(8, 40).err(), e::<()>(6, 1).err()));
}

#[test]
fn stored_texts_of_40_borders_mean_the_same() {
    for (bytes, rounds, sum) in [
        (&include_bytes!("../hours/plain.tsv")[..], 231, 17_194),
        (include_bytes!("../hours/busy.tsv"), 429, 23_473),
        (include_bytes!("../hours/worst.tsv"), 1_171, 164_075_599_999),
    ] {
        let t = read(bytes, [16, 0, 40, 200, 3_200]).unwrap();
        assert_eq!((t.header.zones, t.header.borders, t.header.rows), (16, 40, 200));
        assert_eq!(rewrite(bytes), bytes);
        let o = out(&t).unwrap();
        assert_eq!((o.rounds, o.atc.iter().sum::<u64>()), (rounds, sum));
    }
}

/// Every field of every line as long as it can be.
fn longest() -> Tables {
    let mut t = read(&sized(16, 64, 200), ALL).unwrap();
    t.header.share = 10_000;
    t.z = vec![-100_000_000; 16];
    for (index, border) in t.b.iter_mut().enumerate() {
        let index = index as i64;
        // two of the six zones of two digits, and other two
        *border = [10 + index % 6, 10 + (index + 1) % 6, 10_000, 10 + index / 6 % 6, 10 + (index / 6 + 1 + index / 36) % 6];
    }
    t.c = vec![[10_000_000, 10_000_000, -20_000_000, -20_000_000, 10_000, 10_000_000, 10_000_000]; 200];
    t.f = vec![-100_000; 3_200];
    t
}

#[test]
fn longest_text() {
    let t = longest();
    let bytes = write(t.lend(), usize::MAX).unwrap();
    // H 18; Z 10 of 15 and 6 of 16; B 10 of 22 and 54 of 23; C 10 of 194, 90 of 195
    // and 100 of 196
    let by_hand = 18 + (150 + 96) + (220 + 1_242) + (1_940 + 17_550 + 19_600);
    assert_eq!((bytes.len(), by_hand), (40_816, 40_816));
    assert!(bytes.len() <= MOST_BYTES);
    assert_eq!(read(&bytes, ALL), Ok(t.clone()));
    // T: 16 of 14, and one more for each of 8 minus signs and 6 indices of two digits
    let mut t = t;
    t.header.intraday = INTRADAY;
    t.t = (0..16).map(|zone| if zone % 2 == 0 { -100_000_000 } else { 100_000_000 }).collect();
    let bytes = write(t.lend(), usize::MAX).unwrap();
    assert_eq!(bytes.len(), by_hand + 16 * 14 + 8 + 6);
    assert_eq!(read(&bytes, ALL), Ok(t));
}

// ------------------------------------------------------------------- refusals

#[test]
fn refusal_1() {
    let mut t = text(HOUR);
    t.resize(65_536, b'x');
    assert_eq!(read_refusal(&t), Some((2, 11)));
    t.push(b'x');
    assert_eq!(read_refusal(&t), Some((1, 0)));
    assert_eq!(read(&vec![0u8; 70_000], [0; 5]), e(1, 0));
}

#[test]
fn refusal_2_form() {
    // each faulty Z line 1 (line 3)
    for line in [
        "z 1 0", "ZZ 1 0", "B 1 0", "H 1 0", " 1 0", "Z 0 0", "Z 2 0", "Z 01 0", "Z -1 0", "Z 1", "Z 1 0 0", "Z",
        "Z 1 00", "Z 1 01", "Z 1 +5", "Z 1 --5", "Z 1 -", "Z 1 -0", "Z 1 -05", "Z 1 5-", "Z 1 10000000000",
        "Z 1 -10000000000", "Z 1 x", "Z 1 1.0", "Z 1 5\r", "Z  1 0", "Z 1 0 ", " Z 1 0", "",
    ] {
        assert_eq!(read_refusal(&hour_with(3, line)), Some((2, 3)), "{line}");
    }
    for line in [
        "B 0 -1 1 100", "B 0 0 -1 100", "B 0 0 1 -100", "B 0 0 1", "B 0 0 1 100 0", "B 1 0 1 100", "B 0 - 1 100",
        "B 0 0 1 -", "B 0 0 1 100 2 0 1", "B 0 0 1 100 -1 -1", "B 0 0 1 100 - -", "B 0 0 1 100 2 -", "B 0 0 1 100 02 0",
        "B 0 0 1 100 2 ", "B 0 0 1 100  2", "B 0 0 1 100 ", "B 0 9 9 99999 2",
    ] {
        assert_eq!(read_refusal(&hour_with(5, line)), Some((2, 5)), "{line}");
    }
    for line in [
        "C 0 -1000000 200000 200000 150000 7000 0 80000 30000 10000 0",
        "C 0 1000000 -200000 200000 150000 7000 0 80000 30000 10000 0",
        "C 0 1000000 200000 - 150000 7000 0 80000 30000 10000 0",
        "C 0 1000000 200000 200000 - 7000 0 80000 30000 10000 0",
        "C 0 1000000 200000 200000 150000 -7000 0 80000 30000 10000 0",
        "C 0 1000000 200000 200000 150000 -- 0 80000 30000 10000 0",
        "C 0 1000000 200000 200000 150000 7000 -1 80000 30000 10000 0",
        "C 0 1000000 200000 200000 150000 7000 - 80000 30000 10000 0",
        "C 0 1000000 200000 200000 150000 7000 0 - 30000 10000 0",
        "C 0 1000000 200000 200000 150000 7000 0 80000 30000 10000",
        "C 0 1000000 200000 200000 150000 7000 0 80000 30000 10000 0 0",
        "C 0 1000000 200000 200000 150000 7000 0 80000 30000 10000 -",
        "C 1 1000000 200000 200000 150000 7000 0 80000 30000 10000 0",
    ] {
        assert_eq!(read_refusal(&hour_with(7, line)), Some((2, 7)), "{line}");
    }
    for line in [
        "H 3 2", "H 3 2 4 0 0", "H 3 2 -4", "H 03 2 4", "H 3 2 -", "h 3 2 4", "Z 3 2 4", "H 3 2 4 -", "H 3 2 4 -1",
        "H 3 2 4 ", "H 3 2 4 07000", "H 3 2 4 7000 ", "H 3 2 4 x", "H 3 2 4 10000000000", "H 17 2 4 -", "H 3 2 4 10001 0",
    ] {
        assert_eq!(read_refusal(&hour_with(1, line)), Some((2, 1)), "{line}");
    }
    // a blank is no tab
    assert_eq!(read_refusal(b"H 3 2 4\n"), Some((2, 1)));
    assert_eq!(read_refusal(b"\xff"), Some((2, 1)));
    assert_eq!(read_refusal(b"\n"), Some((2, 1)));
}

#[test]
fn refusal_2_places() {
    let whole = text(HOUR);
    // missing lines: the next line's number; no LF: that line
    let ends: Vec<usize> = whole.iter().enumerate().filter(|(_, b)| **b == b'\n').map(|(i, _)| i).collect();
    for (line, end) in ends.iter().enumerate() {
        assert_eq!(read_refusal(&whole[..*end]), Some((2, line + 1)), "no LF");
        if line + 1 < ends.len() {
            assert_eq!(read_refusal(&whole[..*end + 1]), Some((2, line + 2)), "missing");
        }
    }
    // anything after the last line
    for more in [&b"\n"[..], b"x", b"R\t1\n", b"\0", b"C\t4\n"] {
        let mut t = whole.clone();
        t.extend_from_slice(more);
        assert_eq!(read_refusal(&t), Some((2, 11)));
    }
    // out of range and no LF: 2
    assert_eq!(read_refusal(b"H\t17\t1\t1"), Some((2, 1)));
    // out of range in a line before a malformed one: 3 there
    let mut t = hour_with(2, "Z 0 100000001");
    t.extend_from_slice(b"x");
    assert_eq!(read_refusal(&t), Some((3, 2)));
    // H out of range, nothing further is judged
    assert_eq!(read_refusal(b"H\t17\t1\t1\nrubbish"), Some((3, 1)));
}

#[test]
fn refusal_3_each_range() {
    // (line number, start of the line, values that pass, values that don't)
    let z = |v: &str| hour_with(2, &format!("Z 0 {v}"));
    for v in ["100000000", "-100000000", "0"] {
        assert_eq!(read_refusal(&z(v)), None);
    }
    for v in ["100000001", "-100000001", "9999999999", "-9999999999"] {
        assert_eq!(read_refusal(&z(v)), Some((3, 2)));
    }
    let b = |v: &str| hour_with(5, &format!("B 0 {v}"));
    for v in ["0 1 0", "0 1 10000", "2 0 5", "0 2 5"] {
        assert_eq!(read_refusal(&b(v)), None);
    }
    for v in ["0 1 10001", "0 0 5", "3 0 5", "0 3 5", "9999999999 0 5", "9999999999 9999999999 5"] {
        assert_eq!(read_refusal(&b(v)), Some((3, 5)));
    }
    let c = |place: usize, v: &str| {
        let mut fields = vec!["10000000", "0", "0", "0", "0", "0", "0", "0", "0", "0"];
        fields[place] = v;
        hour_with(7, &format!("C 0 {}", fields.join(" ")))
    };
    for (place, good, bad) in [
        (0, vec!["1", "10000000"], vec!["0", "10000001", "9999999999"]),
        (1, vec!["0", "10000000"], vec!["10000001"]),
        (2, vec!["-20000000", "20000000"], vec!["-20000001", "20000001"]),
        (3, vec!["-20000000", "20000000"], vec!["-20000001", "20000001"]),
        (4, vec!["0", "10000", "-"], vec!["10001", "9999999999"]),
        (5, vec!["0", "10000000"], vec!["10000001"]),
        (6, vec!["0", "10000000"], vec!["10000001"]),
        (7, vec!["-100000", "100000"], vec!["-100001", "100001"]),
        (8, vec!["-100000", "100000"], vec!["-100001", "100001"]),
        (9, vec!["-100000", "100000"], vec!["-100001", "100001"]),
    ] {
        for v in good {
            assert_eq!(read_refusal(&c(place, v)), None, "{place} {v}");
        }
        for v in bad {
            assert_eq!(read_refusal(&c(place, v)), Some((3, 7)), "{place} {v}");
        }
    }
    // FRM up to Fmax of its own row
    assert_eq!(read_refusal(&hour_with(7, "C 0 500 500 0 0 0 0 0 0 0 0")), None);
    assert_eq!(read_refusal(&hour_with(7, "C 0 500 501 0 0 0 0 0 0 0 0")), Some((3, 7)));
    // form before range in one line
    assert_eq!(read_refusal(&hour_with(7, "C 0 0 500 0 0 0 0 0 0 0 -0")), Some((2, 7)));
    assert_eq!(read_refusal(&hour_with(7, "C 0 0 500 0 0 0 0 0 0 0")), Some((2, 7)));
}

#[test]
fn refusal_7_looks_at_kept_rows_only() {
    let hour = |row1: &str| {
        text(&format!(
            "H 2 1 3 / Z 0 0 / Z 1 0 / B 0 0 1 1 / C 0 100000 0 0 0 0 0 0 20000 0 / C 1 {row1} / C 2 100000 0 0 0 0 0 0 30000 0"
        ))
    };
    // state 1 with a negative margin: no matter
    assert_eq!(answer(&hour("1 0 0 0 0 9 0 4999 0"))[0], b'A');
    assert_eq!(shown(&answer(&hour("1 0 0 0 0 9 0 9000 0"))), "E 7 1 0");
    // a kept row with no border of p > 0 counts too, and keeps its margin
    assert_eq!(shown(&answer(&hour("1 0 0 0 0 9 0 0 9000"))), "E 7 1 0");
    let o = out(&read(&hour("9 0 0 0 0 9 0 0 9000"), ALL).unwrap()).unwrap();
    assert_eq!(o.rows[1], RowOut { state: 0, ram: 0, left: Some(0) });
    let o = out(&read(&hour("10 0 0 0 0 9 0 0 9000"), ALL).unwrap()).unwrap();
    assert_eq!(o.rows[1].left, Some(100_000));
    // 6 before 7
    assert_eq!(
        shown(&answer(&text("H 2 1 1 / Z 0 0 / Z 1 0 / B 0 1 0 0 / C 0 100 0 0 0 0 200 0 20000 0"))),
        "E 6 0 0"
    );
}

#[test]
fn refusal_8_reading() {
    let t = text(HOUR);
    assert!(read(&t, [3, 0, 2, 4, 12]).is_ok());
    assert_eq!(read(&t, [2, 0, 2, 4, 12]), e(8, 3));
    assert_eq!(read(&t, [2, 0, 0, 0, 0]), e(8, 3));
    assert_eq!(read(&t, [3, 0, 1, 0, 0]), e(8, 2));
    assert_eq!(read(&t, [3, 0, 2, 3, 0]), e(8, 4));
    assert_eq!(read(&t, [3, 0, 2, 4, 11]), e(8, 12));
    // 2, 3 and 4 before 8
    assert_eq!(read(&hour_with(10, "C 3"), [0; 5]), e(2, 10));
    assert_eq!(read(&hour_with(2, "Z 0 100000001"), [0; 5]), Err(Refusal { number: 3, place: 2, byte: 5 }));
    assert_eq!(read(&hour_with(6, "B 1 0 1 0"), [0; 5]), e(4, 1));
}

#[test]
fn lent_tables() {
    let t = table(HOUR);
    let j = |t: &Tables| judge(t.lend());
    assert_eq!(j(&t), Ok(t.clone()));
    // longer lent tables: the front part
    let mut long = t.clone();
    long.z.push(i64::MIN);
    long.b.push([9, 9, 9, 9, 9]);
    long.c.push([-5; 7]);
    long.f.push(i64::MAX);
    assert_eq!(j(&long), Ok(t.clone()));
    // the header first
    for header in [
        Header { zones: 17, ..t.header },
        Header { zones: 1, ..t.header },
        Header { borders: 0, ..t.header },
        Header { borders: 65, ..t.header },
        Header { rows: 0, ..t.header },
        Header { rows: usize::MAX, ..t.header },
        Header { share: -2, ..t.header },
        Header { share: 10_001, ..t.header },
        Header { share: i64::MIN, ..t.header },
        Header { share: i64::MAX, ..t.header },
        Header { share: (1 << 32) + 7_000, ..t.header },
        Header { intraday: 2, ..t.header },
        Header { intraday: u64::MAX, ..t.header },
        Header { intraday: 1 << 32, ..t.header },
        Header { intraday: (1 << 32) + 1, ..t.header },
    ] {
        assert_eq!(judge(nothing(header)), e(3, 1));
    }
    // lengths before values
    let bad_z = [i64::MAX; 3];
    assert_eq!(judge(Lent { z: &bad_z[..2], ..nothing(t.header) }), e(8, 3));
    assert_eq!(judge(Lent { z: &bad_z, b: &t.b[..1], ..nothing(t.header) }), e(8, 2));
    assert_eq!(judge(Lent { z: &bad_z, b: &t.b, c: &t.c[..3], ..nothing(t.header) }), e(8, 4));
    assert_eq!(judge(Lent { z: &bad_z, f: &t.f[..11], ..t.lend() }), e(8, 12));
    assert_eq!(judge(Lent { z: &bad_z, ..t.lend() }), e(3, 2));
    // records by their line
    let mut one = t.clone();
    one.z[2] = -100_000_001;
    assert_eq!(j(&one), e(3, 4));
    for [from, to, lta] in [[-1, 0, 0], [0, -1, 0], [0, 3, 0], [1, 1, 0], [0, 1, -1], [0, 1, 10_001], [i64::MIN, i64::MAX, 0]] {
        let mut one = t.clone();
        let record = without_hubs(from, to, lta);
        one.b[1] = record;
        assert_eq!(j(&one), e(3, 6), "{record:?}");
    }
    for (place, values) in [
        (0, vec![0, -1, 10_000_001, i64::MIN]),
        (1, vec![-1, 1_000_001]),
        (2, vec![20_000_001, i64::MIN]),
        (3, vec![-20_000_001]),
        (4, vec![-2, 10_001, i64::MIN]),
        (5, vec![-1, 10_000_001]),
        (6, vec![-1, 10_000_001]),
    ] {
        for value in values {
            let mut one = t.clone();
            one.c[3][place] = value;
            assert_eq!(j(&one), e(3, 10), "{place} {value}");
        }
    }
    for item in 0..12 {
        let mut one = t.clone();
        one.f[item] = -100_001;
        assert_eq!(j(&one), e(3, 7 + item / 3));
    }
    // 4 last
    let mut one = t.clone();
    one.b[1] = without_hubs(0, 1, 3);
    assert_eq!(j(&one), e(4, 1));
    one.f[11] = 100_001;
    assert_eq!(j(&one), e(3, 10));
}

#[test]
fn room_for_results() {
    let t = table(HOUR);
    let x = |t: &Tables, b, r| extract(t.lend(), 8, b, r).map(|_| ());
    assert_eq!(x(&t, 2, 4), Ok(()));
    assert_eq!(x(&t, 1, 0), e(8, 2));
    assert_eq!(x(&t, 2, 3), e(8, 4));
    let size = text(HOUR_GIVES).len();
    let rt = |t: &Tables, room| result_text(t.lend(), room);
    assert_eq!(rt(&t, size), Ok(text(HOUR_GIVES)));
    assert_eq!(rt(&t, size - 1), e(8, size));
    let size = text(HOUR).len();
    let w = |t: &Tables, room| write(t.lend(), room);
    assert_eq!(w(&t, size), Ok(text(HOUR)));
    assert_eq!(w(&t, size - 1), e(8, size));
    assert_eq!(w(&t, 0), e(8, size));
    // 5, 6 and 7 before the room for results
    let mut five = t.clone();
    five.f = vec![0; 12];
    assert_eq!((x(&five, 0, 0), rt(&five, 0).map(|_| ())), (e(5, 0), e(5, 0)));
    let mut six = t.clone();
    six.b[1] = without_hubs(2, 1, 0);
    assert_eq!((x(&six, 0, 0), rt(&six, 0).map(|_| ())), (e(6, 1), e(6, 1)));
    let mut seven = t.clone();
    seven.c[1][6] = 10_000_000;
    assert_eq!((x(&seven, 0, 0), rt(&seven, 0).map(|_| ())), (e(7, 1), e(7, 1)));
    assert!(w(&seven, usize::MAX).is_ok());
}

// ---------------------------------------------------------- which byte is bad

/// A table of three zones, two borders and two rows, with line `number` (from 1)
/// put as it is, its LF too.
fn small_with(number: usize, line: &[u8]) -> Vec<u8> {
    let good = "H 3 2 2 / Z 0 0 / Z 1 0 / Z 2 0 / B 0 0 1 5 / B 1 1 2 5 / C 0 9 5 0 0 - 0 0 20000 0 0 / C 1 9 5 0 0 - 0 0 0 20000 0";
    let good = text(good);
    let mut lines: Vec<&[u8]> = good.split_inclusive(|byte| *byte == b'\n').collect();
    lines[number - 1] = line;
    lines.concat()
}

/// The byte of reading's refusal, which has this number and is at this line.
fn byte_at(number: u32, place: usize, bytes: &[u8]) -> usize {
    let refusal = read(bytes, ALL).expect_err("a refusal");
    assert_eq!((refusal.number, refusal.place), (number, place), "{}", bytes.escape_ascii());
    refusal.byte
}

#[test]
fn bytes_by_hand() {
    // (line, as it stands with blanks for tabs and _ for a blank, number, byte);
    // the LF is put after it
    let lines: &[(usize, &str, u32, usize)] = &[
        // Z 1: byte 1 is the letter, 3 the index, 5 the position's first
        (3, "Z 1 +5", 2, 5),
        (3, "Z 1 5_", 2, 6),
        (3, "Z 1 1-", 2, 6),
        (3, "Z 1 5\r", 2, 6),
        (3, "Z 1 01", 2, 6),
        (3, "Z 1 00", 2, 6),
        (3, "Z 1 -0", 2, 6),
        (3, "Z 1 -01", 2, 6),
        (3, "Z 1 --5", 2, 6),
        (3, "Z 1 -x", 2, 6),
        (3, "Z 1 10000000000", 2, 15),
        (3, "Z 1 -10000000000", 2, 16),
        (3, "Z 1 12345678901x", 2, 15),
        (3, "Z 1 1234567890x", 2, 15),
        // a field that ends too soon: the LF, or the tab
        (3, "Z 1 ", 2, 5),
        (3, "Z 1 -", 2, 6),
        (3, "Z  5", 2, 3),
        (3, "Z  ", 2, 3),
        (3, "Z ", 2, 3),
        // the index: its form before its value, its value before what follows
        (3, "Z 0 5", 2, 3),
        (3, "Z 10 5", 2, 3),
        (3, "Z 10", 2, 3),
        (3, "Z 9999999999 x", 2, 3),
        (3, "Z 0x 5", 2, 4),
        (3, "Z 1x 5", 2, 4),
        (3, "Z 01 5", 2, 4),
        (3, "Z -1 5", 2, 3),
        (3, "Z - 5", 2, 3),
        (3, "Z 10000000000 5", 2, 13),
        (3, "Z 2 x", 2, 3),
        (3, "Z 0 5 5", 2, 3),
        // letter, count
        (3, "z 1 x", 2, 0),
        (3, "B 0 x", 2, 0),
        (3, "ZZ 1 x", 2, 0),
        (3, "Z1 x", 2, 0),
        (3, "_Z 1 x", 2, 0),
        (3, "Z", 2, 0),
        (3, "", 2, 0),
        (3, "Z 1", 2, 0),
        (3, "Z 1 5 5", 2, 0),
        (3, "Z 1 5 ", 2, 0),
        (3, "Z 1 5 x", 2, 0),
        (3, "Z 1 999999999 5", 2, 0),
        (3, "Z 1 x 5", 2, 5),
        // range
        (3, "Z 1 100000001", 3, 5),
        (3, "Z 1 -9999999999", 3, 5),
        // H has no index
        (1, "H 17 2 2", 3, 3),
        (1, "H 1 0 0", 3, 3),
        (1, "H 3 65 2", 3, 5),
        (1, "H 16 65 201", 3, 6),
        (1, "H 3 2 201", 3, 7),
        (1, "H 3 2 2 10001", 3, 9),
        (1, "H 3 2 0 10001", 3, 7),
        (1, "H x 2 2", 2, 3),
        (1, "H -3 2 2", 2, 3),
        (1, "H 3 2 2 -", 2, 9),
        (1, "H 3 2 2 -1", 2, 9),
        (1, "H 3 2 2 ", 2, 9),
        (1, "H 3 2 2  ", 2, 9),
        (1, "H 3 2 2 7000 ", 2, 0),
        (1, "H 3 2 2 7000 x", 2, 0),
        (1, "H 3 2 2 07000", 2, 10),
        (1, "H 3 2", 2, 0),
        (1, "H 3 2 ", 2, 7),
        (1, "H 17 2 2x", 2, 9),
        (1, "H", 2, 0),
        (1, "h 3 2 2", 2, 0),
        // B 1: from at 5, to at 7, LTA at 9, hubs from 11 on
        (6, "B 1 3 2 5", 3, 5),
        (6, "B 1 1 3 5", 3, 7),
        (6, "B 1 1 1 5", 3, 7),
        (6, "B 1 1 1 10001", 3, 7),
        (6, "B 1 9 9 5", 3, 5),
        (6, "B 1 1 9 10001", 3, 7),
        (6, "B 1 1 2 10001", 3, 9),
        (6, "B 1 1 2 5 3 0", 3, 11),
        (6, "B 1 1 2 5 0 3", 3, 13),
        (6, "B 1 1 2 5 0 0", 3, 13),
        (6, "B 1 1 2 5 3 3", 3, 11),
        (6, "B 1 -1 2 5", 2, 5),
        (6, "B 1 1 - 5", 2, 7),
        (6, "B 1 1 2 -5", 2, 9),
        (6, "B 1 1 2 5 ", 2, 11),
        (6, "B 1 1 2 5 0", 2, 0),
        (6, "B 1 1 2 5 0 ", 2, 13),
        (6, "B 1 1 2 5  0", 2, 11),
        (6, "B 1 1 2 5 0 1 ", 2, 0),
        (6, "B 1 1 2 5 0 1 2", 2, 0),
        (6, "B 1 1 2 5 -1 -1", 2, 11),
        (6, "B 1 1 2", 2, 0),
        (6, "B 1 9 9 99999 0", 2, 0),
        (6, "B 0 1 2 5", 2, 3),
        // C 1: Fmax at 5, FRM 7, Fref 9, F0all 11, R 13, CVA 15, IVA 17, factors 19..
        (8, "C 1 0 5 0 0 - 0 0 0 20000 0", 3, 5),
        (8, "C 1 0 0 0 0 - 0 0 0 20000 0", 3, 5),
        (8, "C 1 9 10 0 0 - 0 0 0 20000 0", 3, 7),
        (8, "C 1 9 10 0 0 10001 0 0 0 20000 0", 3, 7),
        (8, "C 1 9 5 20000001 0 - 0 0 0 20000 0", 3, 9),
        (8, "C 1 9 5 0 -20000001 - 0 0 0 20000 0", 3, 11),
        (8, "C 1 9 5 0 0 10001 0 0 0 20000 0", 3, 13),
        (8, "C 1 9 5 0 0 - 10000001 0 0 20000 0", 3, 15),
        (8, "C 1 9 5 0 0 - 0 10000001 0 20000 0", 3, 17),
        (8, "C 1 9 5 0 0 - 0 0 100001 20000 0", 3, 19),
        (8, "C 1 9 5 0 0 - 0 0 0 20000 -100001", 3, 27),
        (8, "C 1 9 5 0 0 -5 0 0 0 20000 0", 2, 14),
        (8, "C 1 9 5 0 0 -- 0 0 0 20000 0", 2, 14),
        (8, "C 1 9 5 0 0 -_ 0 0 0 20000 0", 2, 14),
        (8, "C 1 9 5 0 0  0 0 0 20000 0", 2, 13),
        (8, "C 1 9 5 0 0 07 0 0 0 20000 0", 2, 14),
        (8, "C 1 9 5 - 0 - 0 0 0 20000 0", 2, 10),
        (8, "C 1 9 5 0 0 - - 0 0 20000 0", 2, 15),
        (8, "C 1 -9 5 0 0 - 0 0 0 20000 0", 2, 5),
        (8, "C 1 9 5 0 0 - 0 0 0 20000", 2, 0),
        (8, "C 1 9 5 0 0 -", 2, 0),
        (8, "C 1 9 5 0 0 - 0 0 0 20000 0 ", 2, 0),
        (8, "C 1 9 5 0 0 - 0 0 0 20000 0 0", 2, 0),
        (8, "C 1 9 5 0 0 - 0 0 0 20000 -", 2, 28),
        (8, "C 1 9 5 0 0 - 0 0 0 20000 ", 2, 27),
        (8, "C 1 9 5 0 0 - 0 0 0 x0000 0", 2, 21),
        (8, "C 0 0 x", 2, 3),
        (8, "C 1 0 5 0 0 - 0 0 0 20000 0_", 2, 28),
    ];
    for (place, line, number, byte) in lines {
        let bytes = format!("{}\n", line.replace(' ', "\t").replace('_', " ")).into_bytes();
        assert_eq!(byte_at(*number, *place, &small_with(*place, &bytes)), *byte, "{line:?}");
    }
}

#[test]
fn bytes_where_the_text_ends() {
    // the last line without LF: no byte is there to blame
    for (line, byte) in [
        ("C", 0), ("C ", 0), ("C 1", 0), ("C 10", 0), ("C 10 ", 3), ("C 1 ", 0), ("C 1 9 5 -", 0), ("C 1 9 5 0 0 -", 0),
        ("C 1 9 5 0 0 - 0 0 0 20000 0", 0), ("C 1 9 5 0 0 - 0 0 0 20000 0 ", 0), ("C x", 3), ("C 01", 4), ("C 1 9 5 -0", 10),
        ("C 1 9 5 -0 ", 10), ("C 1 9 x", 7), ("C 1 9 10 0 0 - 0 0 0 20000 0", 0), ("c 1 9 x", 0), ("C 0 9 5", 3),
    ] {
        let bytes = line.replace(' ', "\t").into_bytes();
        assert_eq!(byte_at(2, 8, &small_with(8, &bytes)), byte, "{line:?}");
    }
    // a missing line, one too many, and nothing at all
    assert_eq!(byte_at(2, 8, &small_with(8, b"")), 0);
    assert_eq!(byte_at(2, 9, &[small_with(1, b"H\t3\t2\t2\n"), b"C\tx\n".to_vec()].concat()), 0);
    assert_eq!(byte_at(2, 1, b""), 0);
    assert_eq!(byte_at(2, 1, b"\n"), 0);
    assert_eq!(byte_at(2, 1, b"\xff"), 0);
    assert_eq!(byte_at(1, 0, &vec![b'x'; 65_537]), 0);
    assert_eq!(shown(&answer(&hour_with(2, "Z 0 -0"))), "E 2 2 6");
    assert_eq!(shown(&rewrite(&hour_with(2, "Z 0 -0"))), "E 2 2 6");
    assert_eq!(shown(&corners(&hour_with(2, "Z 0 -0"), None)), "E 2 2 6");
}

/// Every good field of at most so many bytes over a few telling ones.
fn good_fields(letters: &[u8], most: usize, kind: char) -> Vec<Vec<u8>> {
    let good = |field: &[u8]| {
        let (minus, digits) = match field.strip_prefix(b"-") {
            Some(digits) => (true, digits),
            None => (false, field),
        };
        let number = !digits.is_empty() && digits.iter().all(|byte| byte.is_ascii_digit());
        let number = number && (digits[0] != b'0' || digits.len() == 1);
        match kind {
            's' => number && (!minus || digits != b"0"),
            'r' => field == b"-" || number && !minus,
            _ => number && !minus,
        }
    };
    strings(letters, most).into_iter().filter(|field| good(field)).collect()
}

fn strings(letters: &[u8], most: usize) -> Vec<Vec<u8>> {
    let mut all = vec![vec![]];
    let mut longest: Vec<Vec<u8>> = vec![vec![]];
    for _ in 0..most {
        longest = longest
            .iter()
            .flat_map(|string| letters.iter().map(move |letter| [&string[..], &[*letter]].concat()))
            .collect();
        all.extend(longest.clone());
    }
    all
}

#[test]
fn the_first_byte_that_no_good_number_could_have() {
    // the sentence itself, tried on every field of up to four bytes: a good field and
    // its end, tab or LF, agree with this one up to the byte before, and none with it
    let letters = b"0159-x ";
    for (kind, line, place, head, tail) in [
        ('s', 2, 5, &b"Z\t0\t"[..], &b"\n"[..]),
        ('u', 5, 9, b"B\t0\t0\t1\t", b"\n"),
        ('u', 5, 5, b"B\t0\t", b"\t1\t5\n"),
        ('r', 7, 13, b"C\t0\t9\t5\t0\t0\t", b"\t0\t0\t20000\t0\t0\n"),
        ('s', 7, 9, b"C\t0\t9\t5\t", b"\t0\t0\t0\t0\t20000\t0\t0\n"),
        ('s', 7, 27, b"C\t0\t9\t5\t0\t0\t-\t0\t0\t20000\t0\t", b"\n"),
    ] {
        let good = good_fields(letters, 4, kind);
        let end = tail[0];
        let begins = |front: &[u8]| {
            good.iter().any(|field| [&field[..], &[end]].concat().starts_with(front))
        };
        for field in strings(letters, 3) {
            let with_end = [&field[..], &[end]].concat();
            let bad = (1..=with_end.len()).find(|count| !begins(&with_end[..*count]));
            let bytes = small_with(line, &[head, &field[..], tail].concat());
            let refusal = read(&bytes, ALL).err().filter(|refusal| refusal.number == 2);
            assert_eq!(refusal.map(|refusal| refusal.byte), bad.map(|count| place + count - 1), "{}", bytes.escape_ascii());
        }
    }
}

#[test]
fn the_byte_lies_in_the_line() {
    // every byte of a small table replaced by any, taken out, doubled
    let whole = small_with(6, b"B\t1\t1\t2\t5\t0\t1\n");
    let mut named = 0;
    for at in 0..whole.len() {
        let mut damaged: Vec<Vec<u8>> = (0..=255)
            .map(|byte| {
                let mut bytes = whole.clone();
                bytes[at] = byte;
                bytes
            })
            .collect();
        let mut less = whole.clone();
        less.remove(at);
        let mut more = whole.clone();
        more.insert(at, whole[at]);
        damaged.extend([less, more, whole[..at].to_vec()]);
        for bytes in damaged {
            let Err(refusal) = read(&bytes, ALL) else { continue };
            let line = bytes.split_inclusive(|byte| *byte == b'\n').nth(refusal.place.max(1) - 1).unwrap_or(b"");
            assert!(refusal.byte <= line.len(), "{}", bytes.escape_ascii());
            assert!(refusal.byte == 0 || (2..=3).contains(&refusal.number) && refusal.byte >= 3);
            named += usize::from(refusal.byte > 0);
        }
    }
    assert!(named > 10_000);
}

#[test]
fn lent_tables_name_no_byte() {
    let t = table(HOUR);
    let mut bad = t.clone();
    bad.c[1][0] = 0;
    assert_eq!(judge(bad.lend()), e(3, 8));
    assert_eq!(out(&bad).map(|_| ()), e(3, 8));
    assert_eq!(judge(Lent { header: Header { zones: 17, ..t.header }, ..t.lend() }), e(3, 1));
}

// ------------------------------------------------------------ the default of R

#[test]
fn default_by_hand() {
    // Fmax 100000, FRM 90000, no flow: base 10000 kW.  R x Fmax less base and a fifth
    // less base are what AMR adds, so RAM is the larger of R x Fmax and 20000 kW
    let hour = |h: &str, r: &str| {
        text(&format!("H 2 1 1{h} / Z 0 0 / Z 1 0 / B 0 0 1 0 / C 0 100000 90000 0 0 {r} 0 0 20000 0"))
    };
    let ram = |h: &str, r: &str| margin_of(&read(&hour(h, r), ALL).unwrap(), 0).ram / 100_000;
    assert_eq!(ram("", "-"), 70_000);
    assert_eq!(ram(" 7000", "-"), 70_000);
    assert_eq!(ram(" 5000", "-"), 50_000);
    assert_eq!(ram(" 2001", "-"), 20_010);
    assert_eq!(ram(" 1999", "-"), 20_000);
    assert_eq!(ram(" 0", "-"), 20_000);
    assert_eq!(ram(" 10000", "-"), 100_000);
    // a written R is its own
    assert_eq!((ram(" 10000", "3000"), ram(" 0", "7000"), ram("", "0")), (30_000, 70_000, 20_000));
    // 50000 kW at p 20000: 250 MW
    assert_eq!(shown(&answer(&hour(" 5000", "-"))), "A 0 250 1 0 / M 0 0 5000000000 0 / R 1");
    assert_eq!(answer(&hour(" 5000", "-")), answer(&hour(" 5000", "5000")));
    assert_eq!(answer(&hour("", "-")), answer(&hour(" 7000", "-")));
    // written again as written
    for h in ["", " 0", " 7000", " 5000", " 10000"] {
        assert_eq!(rewrite(&hour(h, "-")), hour(h, "-"));
        assert_eq!(rewrite(&hour(h, "7000")), hour(h, "7000"));
    }
    let share = |h: &str| read(&hour(h, "-"), ALL).unwrap().header.share;
    assert_eq!((share(""), share(" 7000"), share(" 0")), (-1, 7_000, 0));
    for h in [" 10001", " 9999999999", " 4294967296"] {
        assert_eq!(read_refusal(&hour(h, "-")), Some((3, 1)), "{h}");
    }
    assert_eq!(shown(&answer(&hour(" 10001", "-"))), "E 3 1 9");
}

#[test]
fn default_of_a_lent_header() {
    let t = table(HOUR);
    for share in [-1, 0, 7_000, 10_000] {
        let one = Header { share, ..t.header };
        assert_eq!(judge(Lent { header: one, ..t.lend() }).map(|t| t.header), Ok(one));
    }
    // the header before lengths, in every call
    let bad = Header { share: 10_001, ..t.header };
    assert_eq!(write(nothing(bad), 0), e(3, 1));
    assert_eq!(extract(nothing(bad), 0, 0, 0).map(|_| ()), e(3, 1));
    assert_eq!(result_text(nothing(bad), 0), e(3, 1));
    assert_eq!(corner_flows(nothing(bad), 0, 0), e(3, 1));
    assert_eq!(corner_text(nothing(bad), 0, 0), e(3, 1));
    let mut hour = t.clone();
    hour.header.share = 7_000;
    let mut wanted = text(HOUR);
    wanted.splice(7..7, *b"\t7000");
    assert_eq!(write(hour.lend(), usize::MAX), Ok(wanted));
}

// ------------------------------------------------- which row stopped a border

#[test]
fn stopping_rows_by_hand() {
    // row 0 is under 5%, row 1 is parallel to row 3 and has more, row 2 does not load the
    // border and has nothing left, row 4 has the same left as row 3
    let t = table(
        "H 3 1 5 / Z 0 0 / Z 1 0 / Z 2 0 / B 0 0 1 0 / C 0 1 0 0 0 0 0 0 4999 0 0 / C 1 101 0 0 0 0 0 0 20000 0 0 / C 2 100 0 0 0 0 100 0 0 20000 0 / C 3 100 0 0 0 0 0 0 20000 0 0 / C 4 100 0 0 0 0 0 0 20000 0 7",
    );
    let o = out(&t).unwrap();
    assert_eq!(o.rows.iter().map(|row| row.state).collect::<Vec<u8>>(), vec![1, 2, 0, 0, 0]);
    assert_eq!((o.rows[2].left, o.rows[3].left, o.rows[4].left), (Some(0), Some(0), Some(0)));
    assert_eq!((o.last, o.stop), (vec![1], vec![Some(3)]));
    // the first with less than one kW, though a later one has less: p 30000 of 100 kW
    // leaves 10000 grains, p 20000 of 66.66 kW nothing
    let t = table("H 2 1 2 / Z 0 0 / Z 1 0 / B 0 0 1 0 / C 0 100 0 0 0 0 0 0 30000 0 / C 1 100 0 0 0 0 34 0 20000 0");
    let o = out(&t).unwrap();
    // 66 kW by 20000 is 330 kW, 100 kW by 30000 is 333 kW
    assert_eq!((o.kw[0], o.rows[0].left, o.rows[1].left), (330, Some(100_000), Some(0)));
    assert_eq!(o.stop, vec![Some(1)]);
    // an equal share: 3 p among two leaves p, which is more than none and no kW for each
    let t = table("H 3 2 1 / Z 0 0 / Z 1 0 / Z 2 0 / B 0 0 1 0 / B 1 0 2 0 / C 0 3 0 0 0 0 0 0 100000 0 0");
    let o = out(&t).unwrap();
    assert_eq!((o.rows[0].left, o.stop, o.last), (Some(100_000), vec![Some(0), Some(0)], vec![1, 1]));
    // never raised: nothing to begin with
    let t = table("H 2 1 1 / Z 0 0 / Z 1 0 / B 0 0 1 100 / C 0 10000 0 0 0 0 0 0 20000 0");
    let o = out(&t).unwrap();
    assert_eq!((o.last, o.stop, o.rounds), (vec![0], vec![Some(0)], 0));
    // intraday, a remainder below 0 stops it at once
    let t = read(&allocated_hour(" / T 0 500001 / T 1 -500001"), ALL).unwrap();
    let o = out(&t).unwrap();
    assert_eq!((o.last, o.stop), (vec![0], vec![Some(0)]));
}

/// The rounds again, from the table of p and the starting margins: the last round
/// in which each border rises.
fn last_rounds(t: &Tables, o: &Outcome) -> Vec<u64> {
    let h = t.header;
    let kept: Vec<usize> = (0..h.rows).filter(|row| o.rows[*row].state == 0).collect();
    let p = |row: usize, border: usize| i128::from(o.p[row * h.borders + border]);
    let mut margins: Vec<i128> = kept
        .iter()
        .map(|row| match h.intraday {
            INTRADAY => remainder_of(t, *row, o.rows[*row].ram).max(0),
            _ => o.rows[*row].ram - margin_of(t, *row).s,
        })
        .collect();
    let mut last = vec![0; h.borders];
    for round in 1.. {
        let raise = |border: usize| {
            let shares = kept.iter().zip(&margins).filter(|(row, _)| p(**row, border) > 0).map(|(row, margin)| {
                let n = (0..h.borders).filter(|other| p(*row, *other) > 0).count() as i128;
                margin / n / p(*row, border)
            });
            shares.min().unwrap()
        };
        let raises: Vec<i128> = (0..h.borders).map(raise).collect();
        if raises.iter().all(|raise| *raise == 0) {
            break;
        }
        for border in (0..h.borders).filter(|border| raises[*border] > 0) {
            last[border] = round;
        }
        for (row, margin) in kept.iter().zip(margins.iter_mut()) {
            *margin -= (0..h.borders).map(|border| p(*row, border) * raises[border]).sum::<i128>();
        }
    }
    last
}

// ------------------------------------------------------------- marked borders

#[test]
fn worked_hour_marked_by_hand() {
    let t = table(HOUR);
    let rows_2_and_3 = "M 2 1 12499500000 - / M 3 2 100000000000 -";
    // border 0 alone: row 0 has 6.6 x 10^10 for it and shares among one, 3,300,000 kW; row 1,
    // which only border 1 loads, keeps 9 x 10^9 less its S of 10^9
    let gives = format!("A 0 3400 1 0 / A 1 200 0 - / M 0 0 70000000000 0 / M 1 0 9000000000 8000000000 / {rows_2_and_3} / R 1");
    assert_eq!(shown(&answer_marked(&text(HOUR), &[0])), gives);
    assert_eq!(shown(&result_text_marked(t.lend(), &[0], usize::MAX).unwrap()), gives);
    let o = marked(&t, &[0]).unwrap();
    assert_eq!((o.n_most, o.l_bits), (1, 22));
    assert_eq!(o.p, out(&t).unwrap().p);
    // border 1 alone: row 1 has 8 x 10^9 by 5000, 1,600,000 kW, which takes 1.6 x 10^10 of row 0
    let gives = format!("A 0 100 0 - / A 1 1800 1 1 / M 0 0 70000000000 50000000000 / M 1 0 9000000000 0 / {rows_2_and_3} / R 1");
    assert_eq!(shown(&answer_marked(&text(HOUR), &[1])), gives);
    let o = marked(&t, &[1]).unwrap();
    assert_eq!((o.n_most, o.l_bits), (1, 21));
    // both, in either order
    for marks in [[0, 1], [1, 0]] {
        assert_eq!(answer_marked(&text(HOUR), &marks), text(HOUR_GIVES));
        assert_eq!(marked(&t, &marks), out(&t));
    }
    // intraday the other one stays at 0: 7 x 10^10 by 20000
    let mut lines: Vec<&str> = HOUR.lines().collect();
    lines.splice(4..4, ["T 0 0", "T 1 0", "T 2 0"]);
    let gives = format!("A 0 3500 1 0 / A 1 0 0 - / M 0 0 70000000000 0 / M 1 0 9000000000 9000000000 / {rows_2_and_3} / R 1");
    assert_eq!(shown(&answer_marked(&text(&lines.join("\n")), &[0])), gives);
}

#[test]
fn bad_marks() {
    let t = table(HOUR);
    for (marks, place) in [
        (&[][..], 0),
        (&[2], 1),
        (&[0, 0], 2),
        (&[0, 2], 2),
        (&[1, 0, 1], 3),
        (&[1, 0, 0, 9], 3),
        (&[9, 0, 0], 1),
        (&[0, 1, 1 << 32], 3),
        (&[u64::MAX], 1),
        (&[1, 1 << 63], 2),
        (&[0; 100], 2),
    ] {
        assert_eq!(marked(&t, marks), e(13, place), "{marks:?}");
        assert_eq!(shown(&answer_marked(&text(HOUR), marks)), format!("E 13 {place} 0"));
        assert_eq!(result_text_marked(t.lend(), marks, 0), e(13, place));
        // before room for results, after everything else that is lent
        assert_eq!(extract_marked(t.lend(), marks, 8, 0, 0), e(13, place));
        assert_eq!(extract_marked(t.lend(), marks, 7, 2, 4), e(8, 8));
    }
    assert_eq!(extract_marked(t.lend(), &[0], 8, 1, 4), e(8, 2));
    assert_eq!(extract_marked(t.lend(), &[0], 8, 2, 3), e(8, 4));
    assert_eq!(shown(&answer_marked(b"", &[])), "E 2 1 0");
    assert_eq!(shown(&answer_marked(&vec![b'0'; 65_537], &[])), "E 1 0 0");
    // after 4, before 5
    let twice = text("H 2 2 1 / Z 0 0 / Z 1 0 / B 0 0 1 0 / B 1 0 1 5 / C 0 1 0 0 0 0 0 0 5000 0");
    assert_eq!(shown(&answer_marked(&twice, &[7])), "E 4 1 0");
    let narrow = one_row("100000 0 0 0 0 0 0 4999 0");
    assert_eq!(shown(&answer_marked(&narrow, &[1])), "E 13 1 0");
    assert_eq!(shown(&answer_marked(&narrow, &[0])), "E 5 0 0");
}

#[test]
fn marks_and_6_and_7() {
    // border 1, from 1 to 0, loads no row
    let back = text("H 2 2 1 / Z 0 0 / Z 1 0 / B 0 0 1 0 / B 1 1 0 3 / C 0 100000 0 0 0 0 0 0 20000 0");
    assert_eq!(shown(&answer(&back)), "E 6 1 0");
    assert_eq!(shown(&answer_marked(&back, &[1])), "E 6 1 0");
    assert_eq!(shown(&answer_marked(&back, &[1, 0])), "E 6 1 0");
    assert_eq!(shown(&answer_marked(&back, &[0])), "A 0 500 1 0 / A 1 3 0 - / M 0 0 10000000000 0 / R 1");
    // S is over all borders: 100 MW of the unmarked border 1 use up the row, and IVA takes one
    // kW more
    let full = "H 3 2 1 / Z 0 0 / Z 1 0 / Z 2 0 / B 0 0 1 0 / B 1 0 2 100 / C 0 10000 0 0 0 0 0 0 20000 0 0";
    let gives = "A 0 0 0 0 / A 1 100 0 - / M 0 0 2000000000 0 / R 0";
    assert_eq!(shown(&answer_marked(&text(full), &[0])), gives);
    let over = full.replace("0 0 0 0 20000", "0 0 0 1 20000");
    assert_eq!(shown(&answer_marked(&text(&over), &[0])), "E 7 0 0");
    // a row that no marked border loads is looked at too
    let other = "H 3 2 2 / Z 0 0 / Z 1 0 / Z 2 0 / B 0 0 1 0 / B 1 0 2 100 / C 0 10000 0 0 0 0 0 0 20000 0 20000 / C 1 10000 0 0 0 0 0 1 20000 20000 0";
    assert_eq!(shown(&answer_marked(&text(other), &[0])), "E 7 1 0");
    // 6 before 7
    assert_eq!(shown(&answer_marked(&text(&other.replace("0 1 0 /", "1 0 0 /")), &[0])), "E 6 0 0");
    assert_eq!(shown(&answer_marked(&text(&other.replace("0 1 0 /", "1 0 0 /")), &[1])), "E 7 1 0");
}

// ---------------------------------------------------------- correction sheets

/// The C lines of a text.
fn own_lines(bytes: &[u8]) -> Vec<Vec<u8>> {
    bytes.split_inclusive(|byte| *byte == b'\n').filter(|line| line[0] == b'C').map(|line| line.to_vec()).collect()
}

#[test]
fn sheets_that_change_nothing() {
    let hour = text(HOUR);
    let own = own_lines(&hour);
    for sheet in [vec![], own.concat(), own[2].clone(), own[1..].concat(), [own[0].clone(), own[3].clone()].concat()] {
        assert_eq!(read_corrected(&hour, &sheet, ALL), Ok(table(HOUR)));
        assert_eq!(answer_corrected(&hour, &sheet), text(HOUR_GIVES));
        assert_eq!(rewrite_corrected(&hour, &sheet, hour.len()), Ok(hour.clone()));
        assert_eq!(rewrite_corrected(&hour, &sheet, hour.len() - 1), e(8, hour.len()));
    }
    // all lines of the longest text, 39,090 bytes
    let t = longest();
    let bytes = write(t.lend(), usize::MAX).unwrap();
    let sheet = own_lines(&bytes).concat();
    assert_eq!(sheet.len(), 1_940 + 17_550 + 19_600);
    assert_eq!(read_corrected(&bytes, &sheet, ALL), Ok(t));
}

#[test]
fn worked_hour_corrected_by_hand() {
    let hour = text(HOUR);
    // CVA of 40,000 kW on row 1: 4 x 10^9 are left of it, so 800,000 kW for border 1; row 0 then
    // has 2,900,000 times 20000 for border 0, of which one is left over.  The first round takes
    // 1,650,000 and the 1,250,000 that are left then are halved 21 times
    let sheet = text("C 1 100000 10000 15000 0 7000 40000 0 5000 5000 0");
    let gives = "A 0 2999 22 0 / A 1 1000 1 1 / M 0 0 70000000000 20000 / M 1 0 5000000000 0 / M 2 1 12499500000 - / M 3 2 100000000000 - / R 22";
    assert_eq!(shown(&answer_corrected(&hour, &sheet)), gives);
    let merged = hour_with(8, "C 1 100000 10000 15000 0 7000 40000 0 5000 5000 0");
    assert_eq!(rewrite_corrected(&hour, &sheet, usize::MAX), Ok(merged.clone()));
    assert_eq!(rewrite_by(&hour, &sheet), merged);
    assert_eq!(read_corrected(&hour, &sheet, ALL), read(&merged, ALL));
    // with marks, border 1 alone: 200 and 800 MW
    let marked = answer_by(&hour, &sheet, Some(&[1]));
    assert_eq!(marked, answer_marked(&merged, &[1]));
    assert!(shown(&marked).starts_with("A 0 100 0 - / A 1 1000 1 1 / "));
    // two rows, the last among them, and the corner sheet of one of them
    let sheet = text("C 0 1000000 200000 200000 150000 - 0 0 30000 0 0 / C 3 7 0 0 0 0 0 0 0 0 0");
    let t = read_corrected(&hour, &sheet, ALL).unwrap();
    assert_eq!((t.c[0][4], t.c[0][6], t.c[1], t.c[3]), (-1, 0, table(HOUR).c[1], [7, 0, 0, 0, 0, 0, 0]));
    assert_eq!((&t.f[..3], &t.f[3..9], &t.f[9..]), (&[30_000, 0, 0][..], &[5_000, 5_000, 0, 4_999, 0, 0][..], &[0, 0, 0][..]));
    assert_eq!(shown(&corners_by(&hour, &sheet, Some(0))), "K 0 0 0 / K 0 1 3000000000 / K 0 2 0 / K 0 3 3000000000");
}

#[test]
fn sheets_that_cure_and_cause() {
    // 7 is judged of the merged table only
    let over = text("H 2 1 1 / Z 0 0 / Z 1 0 / B 0 0 1 100 / C 0 10000 0 0 0 0 0 1 20000 0");
    let cured = "A 0 100 0 0 / M 0 0 2000000000 0 / R 0";
    assert_eq!(shown(&answer(&over)), "E 7 0 0");
    assert_eq!(shown(&answer_corrected(&over, &text("C 0 10000 0 0 0 0 0 0 20000 0"))), cured);
    let full = text("H 2 1 1 / Z 0 0 / Z 1 0 / B 0 0 1 100 / C 0 10000 0 0 0 0 0 0 20000 0");
    assert_eq!(shown(&answer_corrected(&full, &text("C 0 10000 0 0 0 0 1 0 20000 0"))), "E 7 0 0");
    // 6: row 1 now is parallel to row 0
    let both = text("H 2 2 2 / Z 0 0 / Z 1 0 / B 0 0 1 0 / B 1 1 0 0 / C 0 100000 0 0 0 0 0 0 20000 0 / C 1 100000 0 0 0 0 0 0 0 20000");
    assert_eq!(shown(&answer_corrected(&both, &text("C 1 100000 0 0 0 0 0 0 20000 0"))), "E 6 1 0");
    // 5
    assert_eq!(shown(&answer_corrected(&over, &text("C 0 10000 0 0 0 0 0 1 4999 0"))), "E 5 0 0");
    // "-" takes the day's default: Fmax 100000, 8000 or 7000
    for (h, ram) in [("H 2 1 1 8000", 8_000_000_000i64), ("H 2 1 1", 7_000_000_000)] {
        let day = text(&format!("{h} / Z 0 0 / Z 1 0 / B 0 0 1 0 / C 0 100000 90000 0 0 0 0 0 20000 0"));
        let sheet = text("C 0 100000 90000 0 0 - 0 0 20000 0");
        assert!(shown(&answer_corrected(&day, &sheet)).contains(&format!("/ M 0 0 {ram} 0 /")));
        assert!(shown(&rewrite_by(&day, &sheet)).ends_with("C 0 100000 90000 0 0 - 0 0 20000 0"));
    }
}

/// The refusal of the worked hour with a sheet.
fn sheet_refusal(sheet: &[u8]) -> Option<(u32, usize, usize)> {
    let refusal = read_corrected(&text(HOUR), sheet, ALL).err()?;
    assert_eq!(answer_corrected(&text(HOUR), sheet), refusal_text(refusal));
    assert_eq!(rewrite_corrected(&text(HOUR), sheet, 0), Err(refusal));
    // before room for the tables
    assert_eq!(read_corrected(&text(HOUR), sheet, [0; 5]), Err(refusal));
    Some((refusal.number, refusal.place, refusal.byte))
}

#[test]
fn bad_sheets_by_hand() {
    let good = "C 1 9 5 0 0 - 0 0 0 20000 0";
    assert_eq!(sheet_refusal(&text(good)), None);
    for (line, byte) in [
        // an index that is not above the one before, or not in the table
        ("C 1 9 5 0 0 - 0 0 0 20000 0", 3), ("C 0 9 5 0 0 - 0 0 0 20000 0", 3), ("C 4 9 5 0 0 - 0 0 0 20000 0", 3),
        ("C 9999999999 9", 3), ("C 4294967298 9 5 0 0 - 0 0 0 20000 0", 3), ("C 1", 3), ("C 1 x", 3),
        // form
        ("C 12345678901 9", 13), ("C 02 9", 4), ("C -2 9", 3), ("C  9 5", 3), ("C x", 3), ("C 2x 9", 4), ("", 0), ("C", 0), ("C ", 3),
        ("Z 2 9", 0), ("c 2 9 5 0 0 - 0 0 0 20000 0", 0), ("H 3 2 4", 0), ("C 2 9 5", 0), ("C 2 9 5 0 0 - 0 0 0 20000 0 0", 0),
        ("C 2 9 5 0 0 - 0 0 0 20000", 0), ("C 2 9 5 -0", 10), ("C 2 9 5 - 0", 10), ("C 2 9 5 0 0 -5 0", 14), ("C 2 9 5 0 0 - - 0", 15),
        ("C 2 9 5 0 0 - 0 0 0 20000 0\r", 28),
        // value
        ("C 2 0 0 0 0 - 0 0 0 20000 0", 5), ("C 2 9 10 0 0 - 0 0 0 20000 0", 7), ("C 2 9 5 0 0 10001 0 0 0 20000 0", 13),
        ("C 2 9 5 0 0 - 0 0 0 20000 100001", 27), ("C 2 0 5 0 0 - 0 0 0 20000 100001", 5),
        // form before value, the index before both
        ("C 2 0 5 0 0 - 0 0 0 20000 x", 27), ("C 1 0 5 0 0 - 0 0 0 20000 x", 3),
    ] {
        let line = line.replace(' ', "\t").into_bytes();
        let sheet = [&text(good)[..], &line, b"\n"].concat();
        assert_eq!(sheet_refusal(&sheet), Some((10, 2, byte)), "{}", line.escape_ascii());
        // what follows is not looked at
        assert_eq!(sheet_refusal(&[&sheet[..], b"\xff"].concat()), Some((10, 2, byte)));
    }
    // no LF at the end, something after the last line
    let all = own_lines(&text(HOUR)).concat();
    assert_eq!(sheet_refusal(&all[..all.len() - 1]), Some((10, 4, 0)));
    assert_eq!(sheet_refusal(&[&all[..], b"\n"].concat()), Some((10, 5, 0)));
    assert_eq!(sheet_refusal(&[&all[..], b"C"].concat()), Some((10, 5, 0)));
    assert_eq!(sheet_refusal(b"C\t4"), Some((10, 1, 0)));
    assert_eq!(sheet_refusal(b"C\t4\t"), Some((10, 1, 3)));
    assert_eq!(sheet_refusal(b"\n"), Some((10, 1, 0)));
    // of two faulty lines the first
    assert_eq!(sheet_refusal(&text("C 2 9 x / C 1 9 y")), Some((10, 1, 7)));
    // a value in an earlier line before the form of a later one
    assert_eq!(sheet_refusal(&text("C 2 0 0 0 0 - 0 0 0 20000 0 / Z")), Some((10, 1, 5)));
}

#[test]
fn sheets_among_the_refusals() {
    let bad = b"x".to_vec();
    let long = vec![b'\n'; 65_537];
    let refusal = |day: &[u8], sheet: &[u8]| shown(&answer_corrected(day, sheet));
    assert_eq!(refusal(&text(HOUR), &long), "E 1 0 0");
    assert_eq!(refusal(&long, &[]), "E 1 0 0");
    assert_eq!(refusal(b"", &long), "E 1 0 0");
    assert_eq!(refusal(&text(HOUR), &long[1..]), "E 10 1 0");
    assert_eq!(refusal(b"", &bad), "E 2 1 0");
    assert_eq!(refusal(&hour_with(10, "C 3 0 0 0 0 - 0 0 0 0 0"), &bad), "E 3 10 5");
    // a line that the sheet has is judged all the same
    assert_eq!(refusal(&hour_with(10, "C 3 0 0 0 0 - 0 0 0 0 0"), &text("C 3 1 0 0 0 - 0 0 0 0 0")), "E 3 10 5");
    assert_eq!(refusal(&hour_with(6, "B 1 0 1 0"), &bad), "E 4 1 0");
    assert_eq!(refusal(&one_row("100000 0 0 0 0 0 0 4999 0"), &bad), "E 10 1 0");
    // before 9 and 13
    assert_eq!(shown(&corners_by(&text(HOUR), &bad, Some(9))), "E 10 1 0");
    assert_eq!(shown(&corners_by(&text(HOUR), &[], Some(9))), "E 9 9 0");
    assert_eq!(shown(&answer_by(&text(HOUR), &bad, Some(&[]))), "E 10 1 0");
    assert_eq!(shown(&answer_by(&text(HOUR), &[], Some(&[]))), "E 13 0 0");
    // then the room, in the order of the tables
    let own = own_lines(&text(HOUR)).concat();
    assert_eq!(read_corrected(&text(HOUR), &own, [3, 0, 2, 3, 11]), e(8, 4));
    assert_eq!(read_corrected(&text(HOUR), &own, [3, 0, 2, 4, 11]), e(8, 12));
    assert!(read_corrected(&text(HOUR), &own, [3, 0, 2, 4, 12]).is_ok());
}

// -------------------------------------------------------- the hour's own bound

#[test]
fn bounds_by_hand() {
    let hour = text(HOUR);
    // "Here N = 2, L = 22, bound 88."
    // row 0 lets border 0 reach 3,300,000 kW less its one other sharer, halved 22 times
    assert_eq!(shown(&bound_text(&hour, &[], None)), "U 2 22 88 22");
    // border 0 alone: 3,300,000 kW, under 2^22; border 1 alone: 1,600,000 kW, under 2^21
    assert_eq!(shown(&bound_text(&hour, &[], Some(&[0]))), "U 1 22 44 1");
    assert_eq!(shown(&bound_text(&hour, &[], Some(&[1]))), "U 1 21 42 1");
    assert_eq!(shown(&bound_text(&hour, &[], Some(&[1, 0]))), "U 2 22 88 22");
    assert_eq!(bound(table(HOUR).lend()), Ok(Bound { sharers: 2, bits: 22, rounds: 88, sharp: 22 }));
    assert_eq!(bound_marked(table(HOUR).lend(), &[1]), Ok(Bound { sharers: 1, bits: 21, rounds: 42, sharp: 1 }));
    // a sheet that leaves border 1 alone 800,000 kW, and row 0 its 3,300,000 for border 0
    let sheet = text("C 1 100000 10000 15000 0 7000 40000 0 5000 5000 0");
    assert_eq!(shown(&bound_text(&hour, &sheet, Some(&[1]))), "U 1 20 40 1");
    assert_eq!(shown(&bound_text(&hour, &sheet, None)), "U 2 22 88 22");
    // nothing is left: L is 0
    let full = text("H 2 1 1 / Z 0 0 / Z 1 0 / B 0 0 1 100 / C 0 10000 0 0 0 0 0 0 20000 0");
    assert_eq!(shown(&bound_text(&full, &[], None)), "U 1 0 0 0");
    // intraday: 10^10 by 20000 is 500,000 kW, of which 499,999 are allocated, or all and one
    assert_eq!(shown(&bound_text(&allocated_hour(" / T 0 0 / T 1 0"), &[], None)), "U 1 19 38 1");
    assert_eq!(shown(&bound_text(&allocated_hour(" / T 0 499999 / T 1 -499999"), &[], None)), "U 1 1 2 1");
    assert_eq!(shown(&bound_text(&allocated_hour(" / T 0 500001 / T 1 -500001"), &[], None)), "U 1 0 0 0");
}

#[test]
fn steps_by_hand() {
    assert_eq!(steps(1, 0), 0);
    assert_eq!(steps(64, 0), 0);
    assert_eq!(steps(1, 1 << 48), 1);
    // 7, 3, 1, 0
    assert_eq!(steps(2, 7), 3);
    // 10, 6, 4, 2, 1, 0: an N-th part rounds up
    assert_eq!(steps(3, 10), 5);
    // one each from N on
    assert_eq!(steps(64, 64), 64);
    assert_eq!(steps(64, 65), 64);
    assert_eq!(steps(64, 66), 65);
}

#[test]
fn sharp_bounds_by_hand() {
    // two borders share a row whose margin is so many times p: twice p is the first that
    // gives each of them a kW
    for (times, rounds, line) in [
        (0, 0, "U 2 0 0 0"),
        (1, 0, "U 2 1 4 0"),
        (2, 1, "U 2 2 8 1"),
        (3, 1, "U 2 2 8 2"),
        (4, 1, "U 2 3 12 2"),
        (5, 1, "U 2 3 12 3"),
        (6, 1, "U 2 3 12 3"),
        (7, 1, "U 2 3 12 3"),
        (8, 1, "U 2 4 16 3"),
        (9, 1, "U 2 4 16 4"),
    ] {
        let hour = text(&format!(
            "H 3 2 1 / Z 0 0 / Z 1 0 / Z 2 0 / B 0 0 1 0 / B 1 0 2 0 / C 0 9 0 0 0 0 {} 0 100000 0 0",
            9 - times
        ));
        let t = read(&hour, ALL).unwrap();
        assert_eq!(shown(&bound_text(&hour, &[], None)), line, "{times}");
        assert_eq!(out(&t).unwrap().rounds, rounds, "{times}");
        // marked alone a border has no other sharer
        let alone = bound_marked(t.lend(), &[1]).unwrap();
        assert_eq!((alone.sharers, alone.sharp), (1, u64::from(times > 0)), "{times}");
    }
    // row 0 lets each of three borders reach 300,000 kW less two; row 1 lets the one to zone 3
    // reach 100 kW, row 2 the one to zone 2 150 kW: the largest is that of the one to zone 1,
    // wherever it stands
    for order in [[1, 2, 3], [2, 1, 3], [3, 2, 1]] {
        let [a, b, c] = order;
        let hour = text(&format!(
            "H 4 3 3 / Z 0 0 / Z 1 0 / Z 2 0 / Z 3 0 / B 0 0 {a} 0 / B 1 0 {b} 0 / B 2 0 {c} 0
C 0 60000 0 0 0 0 0 0 20000 0 0 0
C 1 20 0 0 0 0 0 0 0 0 0 -20000
C 2 30 0 0 0 0 0 0 0 0 -20000 0"
        ));
        assert_eq!(shown(&bound_text(&hour, &[], None)), format!("U 3 19 114 {}", steps(3, 299_998)));
        // without that one 150 kW are the largest, of a row that no other loads
        let marks: Vec<u64> = (0..3).filter(|border| order[*border as usize] != 1).collect();
        assert_eq!(shown(&bound_text(&hour, &[], Some(&marks))), format!("U 2 8 32 {}", steps(2, 150)));
    }
}

#[test]
fn sharp_bounds_of_the_stored_hours() {
    for (hour, line, rounds) in [
        (&include_bytes!("../hours/worked.tsv")[..], "U 2 22 88 22", 21),
        (include_bytes!("../hours/plain.tsv"), "U 20 21 840 231", 231),
        (include_bytes!("../hours/busy.tsv"), "U 40 23 1840 503", 429),
        (include_bytes!("../hours/busy64.tsv"), "U 63 25 3150 821", 807),
        (include_bytes!("../hours/worst.tsv"), "U 40 48 3840 1171", 1_171),
        (include_bytes!("../hours/worst64.tsv"), "U 64 48 6144 1852", 1_852),
    ] {
        assert_eq!(shown(&bound_text(hour, &[], None)), line);
        assert_eq!(out(&read(hour, ALL).unwrap()).unwrap().rounds, rounds, "{line}");
    }
}

#[test]
fn bounds_are_refused_as_the_extraction_is() {
    let hour = text(HOUR);
    assert_eq!(shown(&bound_text(b"", &[], None)), "E 2 1 0");
    assert_eq!(shown(&bound_text(&hour, b"x", Some(&[]))), "E 10 1 0");
    assert_eq!(shown(&bound_text(&hour, &[], Some(&[]))), "E 13 0 0");
    assert_eq!(shown(&bound_text(&hour, &[], Some(&[0, 2]))), "E 13 2 0");
    let narrow = one_row("100000 0 0 0 0 0 0 4999 0");
    assert_eq!(shown(&bound_text(&narrow, &[], None)), "E 5 0 0");
    assert_eq!(shown(&bound_text(&narrow, &[], Some(&[1]))), "E 13 1 0");
    let back = text("H 2 2 1 / Z 0 0 / Z 1 0 / B 0 0 1 0 / B 1 1 0 3 / C 0 100000 0 0 0 0 0 0 20000 0");
    assert_eq!(shown(&bound_text(&back, &[], None)), "E 6 1 0");
    // 10^10 by 20000 is 500,000 kW
    assert_eq!(shown(&bound_text(&back, &[], Some(&[0]))), "U 1 19 38 1");
    let over = text("H 2 1 1 / Z 0 0 / Z 1 0 / B 0 0 1 100 / C 0 10000 0 0 0 0 0 1 20000 0");
    assert_eq!(shown(&bound_text(&over, &[], None)), "E 7 0 0");
    // lent tables
    let t = table(HOUR);
    assert_eq!(bound(nothing(Header { zones: 17, ..t.header })), e(3, 1));
    assert_eq!(bound(nothing(t.header)), e(8, 3));
    assert_eq!(bound_marked(nothing(t.header), &[]), e(8, 3));
    let mut bad = t.clone();
    bad.c[3][0] = 0;
    assert_eq!(bound_marked(bad.lend(), &[]), e(3, 10));
    bad = t.clone();
    bad.b[1] = bad.b[0];
    assert_eq!(bound_marked(bad.lend(), &[]), e(4, 1));
}

// ---------------------------------------------------- what a margin is made of

#[test]
fn margins_by_hand() {
    // state, n; F0core, Fuaf, Base, AMR, S, LTA margin, CVA, IVA, RAM, start
    // row 0: 130,000 kW of 200,000 are the exchanges'; p 20000 and 10000 by 100 and 200 MW
    // row 1: 15,000 kW of 15,000; row 2: 4999 x 500,000; row 3: 130,000 kW of 130,000
    let gives = "V 0 0 2 7000000000 -8000000000 73000000000 5000000000 4000000000 0 0 8000000000 70000000000 66000000000 / V 1 0 1 0 0 9000000000 0 1000000000 0 0 0 9000000000 8000000000 / V 2 1 1 -2499500000 -2499500000 12499500000 0 499900000 0 0 0 12499500000 11999600000 / V 3 2 2 0 0 100000000000 0 4000000000 0 0 0 100000000000 96000000000";
    assert_eq!(shown(&margins_text(&text(HOUR), &[])), gives);
    // with CVA of 40,000 kW on row 1
    let sheet = text("C 1 100000 10000 15000 0 7000 40000 0 5000 5000 0");
    let row_1 = "V 1 0 1 0 0 9000000000 0 1000000000 0 4000000000 0 5000000000 4000000000";
    assert_eq!(shown(&margins_text(&text(HOUR), &sheet)).split(" / ").nth(1), Some(row_1));
    // a table that the extraction refuses, with 7: the LTA margin lifts RAM to S, IVA takes one kW
    let over = text("H 2 1 1 / Z 0 0 / Z 1 0 / B 0 0 1 100 / C 0 10000 0 0 0 0 0 1 20000 0");
    let lifted = "V 0 0 1 0 0 1000000000 0 2000000000 1000000000 0 100000 1999900000 -100000";
    assert_eq!(shown(&margins_text(&over, &[])), lifted);
    // with 5, and with 6: no border loads the row
    let narrow = one_row("100000 0 0 0 0 0 0 4999 0");
    assert_eq!(shown(&margins_text(&narrow, &[])), "V 0 1 1 0 0 10000000000 0 0 0 0 0 10000000000 10000000000");
    let back = text("H 2 1 1 / Z 0 0 / Z 1 0 / B 0 1 0 3 / C 0 100000 0 0 0 0 0 0 20000 0");
    assert_eq!(shown(&margins_text(&back, &[])), "V 0 0 0 0 0 10000000000 0 0 0 0 0 10000000000 10000000000");
    // intraday: RAM less T, and 0 where that is below 0
    let some = margins_text(&allocated_hour(" / T 0 100000 / T 1 -100000"), &[]);
    assert_eq!(shown(&some), "V 0 0 1 0 0 10000000000 0 2000000000 0 0 0 10000000000 8000000000");
    let more = margins_text(&allocated_hour(" / T 0 500001 / T 1 -500001"), &[]);
    assert_eq!(shown(&more), "V 0 0 1 0 0 10000000000 0 2000000000 0 0 0 10000000000 0");
}

#[test]
fn margins_among_the_refusals() {
    let t = table(HOUR);
    assert_eq!(margins(t.lend(), 3), e(8, 4));
    assert_eq!(margins(t.lend(), 4).map(|rows| rows.len()), Ok(4));
    assert_eq!(margins(nothing(Header { zones: 17, ..t.header }), 0), e(3, 1));
    assert_eq!(margins(nothing(t.header), 0), e(8, 3));
    let mut bad = t.clone();
    bad.c[3][0] = 0;
    assert_eq!(margins(bad.lend(), 0), e(3, 10));
    bad = t.clone();
    bad.b[1] = bad.b[0];
    assert_eq!(margins(bad.lend(), 0), e(4, 1));
    assert_eq!(shown(&margins_text(&hour_with(2, "Z 0 -0"), &[])), "E 2 2 6");
    assert_eq!(shown(&margins_text(&text(HOUR), b"x")), "E 10 1 0");
}

// --------------------------------------------------------- intraday remainder

/// Two zones, one row of 100,000 kW with p 20000, LTA 100 MW, and these T lines.
fn allocated_hour(t: &str) -> Vec<u8> {
    text(&format!("H 2 1 1 / Z 0 0 / Z 1 0{t} / B 0 0 1 100 / C 0 100000 0 0 0 0 0 0 20000 0"))
}

#[test]
fn remainder_by_hand() {
    // RAM 10^10 whatever T; without T from 100 MW on, with S 2 x 10^9
    assert_eq!(shown(&answer(&allocated_hour(""))), "A 0 500 1 0 / M 0 0 10000000000 0 / R 1");
    // 20000 x 1000 kW taken: 9.98 x 10^9 left, from 0 kW on 499,000 kW
    assert_eq!(shown(&answer(&allocated_hour(" / T 0 1000 / T 1 -1000"))), "A 0 499 1 0 / M 0 0 10000000000 0 / R 1");
    // relieved: 501,000 kW
    assert_eq!(shown(&answer(&allocated_hour(" / T 0 -1000 / T 1 1000"))), "A 0 501 1 0 / M 0 0 10000000000 0 / R 1");
    // nothing allocated is still this profile: from 0 kW, and not from LTA
    assert_eq!(shown(&answer(&allocated_hour(" / T 0 0 / T 1 0"))), "A 0 500 1 0 / M 0 0 10000000000 0 / R 1");
    let o = out(&read(&allocated_hour(" / T 0 0 / T 1 0"), ALL).unwrap()).unwrap();
    assert_eq!((o.kw[0], o.rounds), (500_000, 1));
    // one kW left, none left, and less than none
    for (t, kw, rounds) in [(499_999, 1, 1), (500_000, 0, 0), (500_001, 0, 0), (100_000_000, 0, 0)] {
        let bytes = allocated_hour(&format!(" / T 0 {t} / T 1 -{t}"));
        assert_eq!(shown(&answer(&bytes)), format!("A 0 0 {rounds} 0 / M 0 0 10000000000 0 / R {rounds}"));
        assert_eq!(out(&read(&bytes, ALL).unwrap()).unwrap().kw, vec![kw]);
    }
    // a rest under one kW stays: p 30000 of 10^10
    let rest = text("H 2 1 1 / Z 0 0 / Z 1 0 / T 0 0 / T 1 0 / B 0 0 1 100 / C 0 100000 0 0 0 0 0 0 30000 0");
    assert_eq!(shown(&answer(&rest)), "A 0 333 1 0 / M 0 0 10000000000 10000 / R 1");
}

#[test]
fn no_refusal_7_intraday() {
    let hour = |t: &str| text(&format!("H 2 1 1 / Z 0 0 / Z 1 0{t} / B 0 0 1 100 / C 0 10000 0 0 0 0 0 1 20000 0"));
    assert_eq!(shown(&answer(&hour(""))), "E 7 0 0");
    // RAM 19,999 kW (S less IVA): 99,995 kW
    assert_eq!(shown(&answer(&hour(" / T 0 0 / T 1 0"))), "A 0 99 1 0 / M 0 0 1999900000 0 / R 1");
    // a RAM below 0
    let below = |t: &str| text(&format!("H 2 1 1 / Z 0 0 / Z 1 0{t} / B 0 0 1 0 / C 0 100 0 0 0 0 900 0 20000 0"));
    assert_eq!(shown(&answer(&below(""))), "E 7 0 0");
    assert_eq!(shown(&answer(&below(" / T 0 0 / T 1 0"))), "A 0 0 0 0 / M 0 0 -80000000 0 / R 0");
    // 5 and 6 are given
    assert_eq!(shown(&answer(&text("H 2 1 1 / Z 0 0 / Z 1 0 / T 0 0 / T 1 0 / B 0 0 1 0 / C 0 100 0 0 0 0 0 0 4999 0"))), "E 5 0 0");
    assert_eq!(shown(&answer(&text("H 2 1 1 / Z 0 0 / Z 1 0 / T 0 0 / T 1 0 / B 0 1 0 0 / C 0 100 0 0 0 0 0 0 5000 0"))), "E 6 0 0");
}

#[test]
fn states_are_by_ram() {
    // row 1 is row 0 moved by 1000, T sums to zero: the same remainder taken off, RAM decides
    let t = table("H 2 1 2 / Z 0 0 / Z 1 0 / T 0 5 / T 1 -5 / B 0 0 1 0 / C 0 101 0 0 0 0 0 0 6000 1000 / C 1 100 0 0 0 0 0 0 5000 0");
    let o = out(&t).unwrap();
    assert_eq!((o.rows[0].state, o.rows[1].state), (2, 0));
    // 100 kW less 5000 x 5 kW: 9,975,000 grains, 1995 kW of p 5000
    assert_eq!((o.kw[0], o.rows[1].left), (1_995, Some(0)));
}

#[test]
fn worked_hour_after_the_coupling() {
    // row 0: 30000 x 100000 - 10000 x 40000 = 2.6 x 10^9 of 7 x 10^10; row 1:
    // 5000 x 60000 = 3 x 10^8 of 9 x 10^9
    let mut lines: Vec<&str> = HOUR.lines().collect();
    lines.splice(4..4, ["T 0 100000", "T 1 -40000", "T 2 -60000"]);
    let bytes = text(&lines.join("\n"));
    let t = read(&bytes, ALL).unwrap();
    assert_eq!(t.t, vec![100_000, -40_000, -60_000]);
    assert_eq!(t.header.intraday, INTRADAY);
    assert_eq!(rewrite(&bytes), bytes);
    let o = out(&t).unwrap();
    let start = [70_000_000_000i128 - 2_600_000_000, 9_000_000_000 - 300_000_000];
    for (row, start) in start.into_iter().enumerate() {
        let load: i128 = (0..2).map(|b| i128::from(o.p[2 * row + b]) * i128::from(o.kw[b])).sum();
        assert_eq!(o.rows[row].left, Some(start - load));
    }
    // row 1 alone stops border 1: 8.7 x 10^9 / 5000 = 1,740,000 kW; border 0 has what row 0 then has left
    assert_eq!((o.kw[1], o.kw[0]), (1_740_000, (67_400_000_000u64 - 17_400_000_000) / 20_000 - 1));
    // the corner sheet does not look at T
    assert_eq!(flows(&t, 0, 4), flows(&table(HOUR), 0, 4));
}

#[test]
fn t_lines() {
    let good = "H 3 1 1 / Z 0 0 / Z 1 0 / Z 2 0 / T 0 10 / T 1 -30 / T 2 20 / B 0 0 1 0 / C 0 9 5 0 0 - 0 0 20000 0 0";
    assert!(read(&text(good), ALL).is_ok());
    let lines: Vec<&str> = good.split(" / ").collect();
    let refusal = |lines: &[&str]| {
        let Refusal { number, place, byte } = read(&text(&lines.join("\n")), ALL).expect_err("a refusal");
        (number, place, byte)
    };
    let with = |place: usize, line: &'static str| {
        let mut all = lines.clone();
        all[place - 1] = line;
        refusal(&all)
    };
    // form
    assert_eq!(with(5, "T x 10"), (2, 5, 3));
    assert_eq!(with(5, "T 1 10"), (2, 5, 3));
    assert_eq!(with(5, "T 0 1x"), (2, 5, 6));
    assert_eq!(with(5, "T 0"), (2, 5, 0));
    assert_eq!(with(5, "T 0 10 0"), (2, 5, 0));
    assert_eq!(with(5, "T"), (2, 5, 0));
    assert_eq!(with(5, "TT 0 10"), (2, 5, 0));
    assert_eq!(with(6, "T 2 -30"), (2, 6, 3));
    // range, each at its own line; the sum at the last, by its position
    assert_eq!(with(5, "T 0 100000001"), (3, 5, 5));
    assert_eq!(with(6, "T 1 -100000001"), (3, 6, 5));
    assert_eq!(with(7, "T 2 100000001"), (3, 7, 5));
    assert_eq!(with(7, "T 2 19"), (3, 7, 5));
    assert_eq!(with(7, "T 2 21"), (3, 7, 5));
    assert_eq!(with(5, "T 0 11"), (3, 7, 5));
    // the sum is judged only where the last T line is otherwise good
    let mut off = lines.clone();
    off[4] = "T 0 11";
    off[6] = "T 2 -0";
    assert_eq!(refusal(&off), (2, 7, 6));
    off[6] = "T 1 20";
    assert_eq!(refusal(&off), (2, 7, 3));
    // a bad B line comes after the sum
    off[6] = "T 2 20";
    off[7] = "B x";
    assert_eq!(refusal(&off), (3, 7, 5));
    // T lines too few, too many, or elsewhere
    let without = |place: usize| {
        let mut all = lines.clone();
        all.remove(place - 1);
        refusal(&all)
    };
    assert_eq!((without(5), without(6), without(7)), ((2, 5, 3), (2, 6, 3), (2, 7, 0)));
    let also = |place: usize, line: &'static str| {
        let mut all = lines.clone();
        all.insert(place - 1, line);
        refusal(&all)
    };
    assert_eq!(also(8, "T 3 0"), (2, 8, 0));
    assert_eq!(also(8, "T 2 20"), (2, 8, 0));
    assert_eq!(also(9, "T 0 0"), (2, 9, 0));
    assert_eq!(also(10, "T 0 0"), (2, 10, 0));
    assert_eq!(also(4, "T 0 10"), (2, 4, 0));
    assert_eq!(also(1, "T 0 10"), (2, 1, 0));
    // the text ends within them
    assert_eq!(refusal(&lines[..5]), (2, 6, 0));
    assert_eq!(refusal(&lines[..7]), (2, 8, 0));
    // a lower-case t is a B line's wrong letter
    assert_eq!(with(5, "t 0 10"), (2, 5, 0));
}

#[test]
fn lent_t() {
    let t = table("H 3 1 1 / Z 0 0 / Z 1 0 / Z 2 0 / T 0 10 / T 1 -30 / T 2 20 / B 0 0 1 0 / C 0 9 5 0 0 - 0 0 20000 0 0");
    assert_eq!(judge(t.lend()), Ok(t.clone()));
    // what lies beyond is not looked at
    let long = [10, -30, 20, i64::MAX];
    assert_eq!(judge(Lent { t: &long, ..t.lend() }), Ok(t.clone()));
    // too short: after Z, before B
    assert_eq!(judge(Lent { t: &t.t[..2], b: &[], ..t.lend() }), e(8, 3));
    assert_eq!(judge(Lent { z: &[0, 0], t: &[], ..t.lend() }), e(8, 3));
    assert_eq!(judge(Lent { b: &[], ..t.lend() }), e(8, 1));
    // by their lines, the sum at the last; B and C come later by as many
    for (t_lent, line) in [
        ([100_000_001, -30, 20], 5), ([10, i64::MIN, 20], 6), ([10, -30, i64::MAX], 7), ([10, -30, 21], 7), ([11, -30, 20], 7),
        ([i64::MAX, i64::MIN, 1], 5),
    ] {
        assert_eq!(judge(Lent { t: &t_lent, ..t.lend() }), e(3, line), "{t_lent:?}");
    }
    assert_eq!(judge(Lent { z: &[0, 0, 100_000_001], t: &[1, 1, 1], ..t.lend() }), e(3, 4));
    assert_eq!(judge(Lent { b: &[without_hubs(1, 1, 0)], ..t.lend() }), e(3, 8));
    assert_eq!(judge(Lent { b: &[without_hubs(1, 1, 0)], t: &[0, 0, 1], ..t.lend() }), e(3, 7));
    assert_eq!(judge(Lent { c: &[[0; 7]], ..t.lend() }), e(3, 9));
    // where the header says that T is not there, none is needed, and none is looked at
    let header = Header { intraday: NO_T, ..t.header };
    let plain = judge(Lent { header, ..t.lend() }).unwrap();
    assert_eq!((plain.t.len(), plain.header.intraday), (0, NO_T));
    assert_eq!(judge(Lent { header, t: &[i64::MAX], ..t.lend() }), Ok(plain));
    assert_eq!(judge(Lent { header, t: &[], c: &[[0; 7]], ..t.lend() }), e(3, 6));
    // reading: room for T after Z, where there are T lines
    let bytes = write(t.lend(), usize::MAX).unwrap();
    assert_eq!(read(&bytes, [3, 2, 0, 0, 0]), e(8, 3));
    assert_eq!(read(&bytes, [3, 3, 0, 0, 0]), e(8, 1));
    assert!(read(&bytes, [3, 3, 1, 1, 3]).is_ok());
}

#[test]
fn intraday_at_the_ends_of_the_ranges() {
    // net positions and allocated ones against each other, each with all of the row: the
    // starting margin is over 2^48, and under 2^49
    let mut t = read(&sized(16, 64, 1), ALL).unwrap();
    t.header.intraday = INTRADAY;
    t.f = (0..16).map(|zone| if zone < 8 { 100_000 } else { -100_000 }).collect();
    t.z = t.f.iter().map(|factor| factor * 1_000).collect();
    t.t = t.z.iter().map(|position| -position).collect();
    for (index, border) in t.b.iter_mut().enumerate() {
        *border = without_hubs(index as i64 / 8, 8 + index as i64 % 8, 0);
    }
    t.c[0] = [10_000_000, 0, -20_000_000, 20_000_000, 10_000, 0, 0];
    let m = margin_of(&t, 0);
    assert_eq!(remainder_of(&t, 0, m.ram), m.ram + 160_000_000_000_000);
    assert!(remainder_of(&t, 0, m.ram) > 1 << 48);
    let o = out(&t).unwrap();
    assert!(o.l_bits <= 49 && o.rounds == 1);
}

// ----------------------------------------------------------------------- hubs

/// From - sending hub + receiving hub - to.
fn factor_by_hand(own: &[i64], border: &Border) -> i64 {
    let zone = |place: usize| own[border[place] as usize];
    if border[3] < 0 {
        return zone(0) - zone(1);
    }
    zone(0) - zone(3) + zone(4) - zone(1)
}

/// Four zones, one row of 1,000 MW with factors 30000, 10000, 2000 and 500, and one
/// border from 0 to 1 with an LTA of 100 MW.
fn cable(hubs: &str) -> Vec<u8> {
    text(&format!(
        "H 4 1 1 / Z 0 0 / Z 1 0 / Z 2 0 / Z 3 0 / B 0 0 1 100{hubs} / C 0 1000000 0 0 0 0 0 0 30000 10000 2000 500"
    ))
}

#[test]
fn hubs_by_hand() {
    // RAM is Fmax, 10^11 grains.  30000 - 2000 + 500 - 10000 = 18500, S 1.85 x 10^9,
    // margin 98150000000: 5305405 kW more, 7500 grains left
    assert_eq!(shown(&answer(&cable(" 2 3"))), "A 0 5405 1 0 / M 0 0 100000000000 7500 / R 1");
    // the hubs the other way: 30000 - 500 + 2000 - 10000 = 21500, S 2.15 x 10^9,
    // margin 97850000000: 4551162 kW more, 17000 grains left
    assert_eq!(shown(&answer(&cable(" 3 2"))), "A 0 4651 1 0 / M 0 0 100000000000 17000 / R 1");
    // no hubs: 20000, S 2 x 10^9, margin 98 x 10^9: 4900000 kW more
    assert_eq!(shown(&answer(&cable(""))), "A 0 5000 1 0 / M 0 0 100000000000 0 / R 1");
    let p = |hubs: &str| {
        let t = read(&cable(hubs), ALL).unwrap();
        out(&t).map(|o| o.p[0])
    };
    // a hub may be from or to: 30000 - 500 + 30000 - 10000; 30000 - 10000 + 2000 - 10000
    assert_eq!((p(" 3 0"), p(" 1 2")), (Ok(49_500), Ok(12_000)));
    // 30000 - 10000 + 30000 - 10000: the exchange goes both ways
    assert_eq!(p(" 1 0"), Ok(40_000));
    // 30000 - 30000 + 500 - 10000 and 30000 - 30000 + 10000 - 10000: not above 0
    assert_eq!((p(" 0 3"), p(" 0 1")), (e(6, 0), e(6, 0)));
    // written again as written
    for hubs in ["", " 2 3", " 3 2", " 0 1", " 1 0"] {
        assert_eq!(rewrite(&cable(hubs)), cable(hubs));
    }
    assert_eq!(read(&cable(" 2 3"), ALL).unwrap().b, vec![[0, 1, 100, 2, 3]]);
    assert_eq!(read(&cable(""), ALL).unwrap().b, vec![[0, 1, 100, -1, -1]]);
    // corners: the signed factor
    let t = read(&cable(" 2 3"), ALL).unwrap();
    assert_eq!(flows(&t, 0, 2), Ok(vec![0, 1_850_000_000]));
    let t = read(&cable(" 0 3"), ALL).unwrap();
    assert_eq!(flows(&t, 0, 2), Ok(vec![0, -950_000_000]));
}

#[test]
fn hubs_are_zones_of_the_5_percent() {
    let hour = |factor: &str| {
        text(&format!(
            "H 4 1 1 / Z 0 0 / Z 1 0 / Z 2 0 / Z 3 0 / B 0 0 1 0 2 3 / C 0 100000 0 0 0 0 0 0 0 0 0 {factor}"
        ))
    };
    assert_eq!(shown(&answer(&hour("5000"))), "A 0 2000 1 0 / M 0 0 10000000000 0 / R 1");
    assert_eq!(shown(&answer(&hour("4999"))), "E 5 0 0");
}

#[test]
fn hub_refusals_of_text() {
    for (hubs, number) in [
        (" 4 0", 3), (" 0 4", 3), (" 2 2", 3), (" 0 0", 3), (" 9999999999 0", 3), (" 4 4", 3),
        (" 2", 2), (" 2 3 0", 2), (" 2 3 0 1", 2), (" -1 -1", 2), (" -1 2", 2), (" - -", 2), (" 2 ", 2), ("  3", 2),
        (" 4 x", 2), (" 02 3", 2), (" 4 4 4", 2),
    ] {
        assert_eq!(read_refusal(&cable(hubs)), Some((number, 6)), "{hubs}");
    }
    // a bad border before a bad row, a bad LTA as ever
    assert_eq!(read_refusal(&text("H 2 1 1 / Z 0 0 / Z 1 0 / B 0 0 1 10001 0 1 / C")), Some((3, 4)));
    assert_eq!(read_refusal(&text("H 2 1 1 / Z 0 0 / Z 1 0 / B 0 1 1 0 0 1 / C")), Some((3, 4)));
}

#[test]
fn hub_refusals_of_records() {
    let t = read(&cable(" 2 3"), ALL).unwrap();
    let j = |hubs: [i64; 2]| {
        let mut one = t.clone();
        one.b[0] = [0, 1, 100, hubs[0], hubs[1]];
        judge(one.lend()).map(|t| t.b[0])
    };
    for hubs in [[-1, -1], [2, 3], [3, 2], [0, 1], [1, 0], [0, 2], [3, 1]] {
        assert_eq!(j(hubs), Ok([0, 1, 100, hubs[0], hubs[1]]));
    }
    for hubs in [
        [-1, 0], [0, -1], [-2, -2], [-2, -1], [-1, -2], [-2, 0], [0, -2], [2, 2], [4, 0], [0, 4], [4, 4],
        [i64::MIN, i64::MAX], [1 << 32, 1], [(1 << 32) - 1, (1 << 32) - 1],
    ] {
        assert_eq!(j(hubs), e(3, 6), "{hubs:?}");
    }
}

#[test]
fn borders_given_twice_with_hubs() {
    let hour = |one: &str, other: &str| {
        read_refusal(&text(&format!(
            "H 4 2 1 / Z 0 0 / Z 1 0 / Z 2 0 / Z 3 0 / B 0 {one} / B 1 {other} / C 0 1 0 0 0 0 0 0 0 0 0 0"
        )))
    };
    let twice = Some((4, 1));
    assert_eq!(hour("0 1 5", "0 1 6"), twice);
    assert_eq!(hour("0 1 5 2 3", "0 1 6 2 3"), twice);
    assert_eq!(hour("0 1 5 2 3", "0 1 5 3 2"), None);
    assert_eq!((hour("0 1 5 2 3", "0 1 5"), hour("0 1 5", "0 1 5 2 3")), (None, None));
    assert_eq!((hour("0 1 5 2 3", "0 1 5 2 0"), hour("0 1 5 2 3", "0 1 5 0 3")), (None, None));
    assert_eq!((hour("0 1 5 2 3", "1 0 5 3 2"), hour("0 1 5 2 3", "1 0 5 2 3")), (None, None));
    // undone by its hubs, and still another border
    assert_eq!(hour("0 1 5", "0 1 5 0 1"), None);
}

#[test]
fn hubs_at_the_ends_of_the_ranges() {
    // from and receiving at one end, to and sending at the other: p 400000
    let mut t = read(&sized(16, 64, 1), ALL).unwrap();
    t.f = (0..16).map(|zone| if zone < 8 { 100_000 } else { -100_000 }).collect();
    for (index, border) in t.b.iter_mut().enumerate() {
        let (a, b) = (index as i64 / 8, index as i64 % 8);
        *border = [a, 8 + b, 10_000, 15 - a, b];
    }
    t.c[0] = [10_000_000, 10_000_000, 20_000_000, -20_000_000, 0, 0, 0];
    let m = margin_of(&t, 0);
    // 64 x 400000 x 10^7 kW, still under 2^48
    assert_eq!((m.s, m.ram), (256_000_000_000_000, 256_000_000_000_000));
    assert!(m.ram < 1 << 48);
    let o = out(&t).unwrap();
    assert_eq!((o.rounds, o.n_most), (0, 64));
    assert!(o.p.iter().all(|p| *p == 400_000) && o.atc.iter().all(|atc| *atc == 10_000));
}

// ---------------------------------------------------------- factors by border

/// The extraction with so many items of p, and of the results of borders and
/// rows.
fn with_p(t: &Tables, p: usize, b: usize, r: usize) -> Result<Vec<u64>, Refusal> {
    extract(t.lend(), p, b, r).map(|o| o.p)
}

#[test]
fn p_of_the_worked_hour() {
    // row 0: 30000 - 10000 and 10000 - 0; row 1: 5000 - 5000 and 5000 - 0; rows 2 and
    // 3 are not kept
    let p = vec![20_000, 10_000, 0, 5_000, 0, 0, 0, 0];
    assert_eq!(with_p(&table(HOUR), 8, 2, 4), Ok(p.clone()));
    assert_eq!(with_p(&table(HOUR), 9, 2, 4), Ok(p));
}

#[test]
fn p_by_hand() {
    // borders 0 to 1, 1 to 0, 0 to 2; row 0 under 5%, row 1 lowered by 100 from row 2
    // and of equal RAM, so row 2 is not kept; row 3 relieves what row 1 is loaded by
    let t = table(
        "H 3 3 4 / Z 0 0 / Z 1 0 / Z 2 0 / B 0 0 1 0 / B 1 1 0 0 / B 2 0 2 0 / C 0 100 0 0 0 0 0 0 4999 0 0 / C 1 100 0 0 0 0 0 0 200 6900 -4100 / C 2 100 0 0 0 0 0 0 300 7000 -4000 / C 3 100 0 0 0 0 0 0 100000 -100000 100000",
    );
    assert_eq!(with_p(&t, 12, 3, 4), Ok(vec![0, 0, 0, 0, 6_700, 4_300, 0, 0, 0, 200_000, 0, 0]));
}

#[test]
fn p_among_the_refusals() {
    let t = table(HOUR);
    // rows x borders, after the header and the four tables, whatever follows
    assert_eq!((with_p(&t, 7, 2, 4), with_p(&t, 0, 0, 0)), (e(8, 8), e(8, 8)));
    let mut one = t.clone();
    one.header.borders = 65;
    assert_eq!(with_p(&one, 0, 0, 0), e(3, 1));
    for (kind, needed) in [3, 2, 4, 12].into_iter().enumerate() {
        let mut one = t.clone();
        match kind {
            0 => one.z.truncate(2),
            1 => one.b.truncate(1),
            2 => one.c.truncate(3),
            _ => one.f.truncate(11),
        }
        assert_eq!(with_p(&one, 7, 2, 4), e(8, needed));
    }
    let mut three = t.clone();
    three.z[0] = 100_000_001;
    assert_eq!((with_p(&three, 7, 2, 4), with_p(&three, 8, 2, 4)), (e(8, 8), e(3, 2)));
    let mut four = t.clone();
    four.b[1] = four.b[0];
    assert_eq!((with_p(&four, 7, 2, 4), with_p(&four, 8, 2, 4)), (e(8, 8), e(4, 1)));
    let mut five = t.clone();
    five.f = vec![0; 12];
    assert_eq!((with_p(&five, 7, 2, 4), with_p(&five, 8, 2, 4)), (e(8, 8), e(5, 0)));
    let mut six = t.clone();
    six.b[1] = without_hubs(2, 1, 0);
    assert_eq!((with_p(&six, 7, 2, 4), with_p(&six, 8, 2, 4)), (e(8, 8), e(6, 1)));
    let mut seven = t.clone();
    seven.c[1][6] = 10_000_000;
    assert_eq!((with_p(&seven, 7, 2, 4), with_p(&seven, 8, 2, 4)), (e(8, 8), e(7, 1)));
    assert_eq!((with_p(&t, 8, 1, 4), with_p(&t, 8, 2, 3)), (e(8, 2), e(8, 4)));
}

// --------------------------------------------------------------- corner sheet

fn flows(t: &Tables, row: usize, room: usize) -> Result<Vec<i128>, Refusal> {
    corner_flows(t.lend(), row, room)
}

fn sheet(t: &Tables, row: usize, room: usize) -> Result<Vec<u8>, Refusal> {
    corner_text(t.lend(), row, room)
}

#[test]
fn corners_of_the_worked_hour() {
    let t = table(HOUR);
    let billion: i128 = 1_000_000_000;
    // row 0: border 0 (30000 - 10000) x 100000 kW, border 1 (10000 - 0) x 200000 kW
    assert_eq!(flows(&t, 0, 4), Ok(vec![0, 2 * billion, 2 * billion, 4 * billion]));
    // row 1: border 0 (5000 - 5000), border 1 (5000 - 0) x 200000 kW
    assert_eq!(sheet(&t, 1, 99), Ok(text("K 1 0 0 / K 1 1 0 / K 1 2 1000000000 / K 1 3 1000000000")));
    // rows of state 1 and 2 have their sheets too
    assert_eq!(flows(&t, 2, 4), Ok(vec![0, 499_900_000, 0, 499_900_000]));
    assert_eq!(flows(&t, 3, 4), Ok(vec![0, 2 * billion, 2 * billion, 4 * billion]));
    for row in 0..4 {
        assert_eq!(flows(&t, row, 4).unwrap().into_iter().max(), Some(margin_of(&t, row).s));
        assert_eq!(corners(&text(HOUR), Some(row)), sheet(&t, row, usize::MAX).unwrap());
    }
    let all: Vec<u8> = (0..4).flat_map(|row| sheet(&t, row, usize::MAX).unwrap()).collect();
    assert_eq!(corners(&text(HOUR), None), all);
    assert_eq!(all.iter().filter(|byte| **byte == b'\n').count(), 16);
}

#[test]
fn corners_by_hand() {
    // a relieving border has a negative flow; bit 0 is border 0
    let shown_table = "H 3 3 1 / Z 0 9 / Z 1 0 / Z 2 -9 / B 0 0 1 1 / B 1 1 0 10 / B 2 2 0 100 / C 0 1 0 7 0 0 0 0 1 0 4";
    let t = table(shown_table);
    assert_eq!(
        shown(&sheet(&t, 0, usize::MAX).unwrap()),
        "K 0 0 0 / K 0 1 1000 / K 0 2 -10000 / K 0 3 -9000 / K 0 4 300000 / K 0 5 301000 / K 0 6 290000 / K 0 7 291000"
    );
    // at the ends of the ranges: a factor difference of 200000 over 10000 MW
    let t = table("H 2 2 1 / Z 0 0 / Z 1 0 / B 0 0 1 10000 / B 1 1 0 10000 / C 0 1 0 0 0 0 0 0 100000 -100000");
    assert_eq!(flows(&t, 0, 4), Ok(vec![0, 2_000_000_000_000, -2_000_000_000_000, 0]));
}

#[test]
fn corners_of_the_planners_hour() {
    let bytes = include_bytes!("../hours/planner.tsv");
    let t = read(bytes, ALL).unwrap();
    assert!(out(&t).is_ok());
    // the borders that load the row: 0 and 2; 1, 2 and 4; 0, 2 and 3
    for (row, corner, flow) in [(0, 5, 8_600_000_000), (1, 22, 6_600_000_000), (2, 13, 5_150_000_000)] {
        let list = flows(&t, row, 32).unwrap();
        assert_eq!(list[corner], flow);
        assert!(list.iter().all(|other| *other <= flow));
    }
}

#[test]
fn corners_at_most_12_borders() {
    let t = |borders| read(&sized(16, borders, 2), ALL).unwrap();
    assert_eq!(flows(&t(12), 1, 4_096).map(|list| list.len()), Ok(4_096));
    assert_eq!(flows(&t(12), 1, 4_095), e(8, 4_096));
    assert_eq!(flows(&t(13), 1, usize::MAX), e(9, 13));
    assert_eq!(sheet(&t(13), 1, usize::MAX), e(9, 13));
    assert_eq!(flows(&t(40), 1, usize::MAX), e(9, 40));
    assert_eq!((flows(&t(64), 1, 0), sheet(&t(64), 1, 0)), (e(9, 64), e(9, 64)));
    assert_eq!(shown(&corners(&sized(16, 13, 2), None)), "E 9 13 0");
    assert_eq!(shown(&corners(&sized(16, 13, 2), Some(1))), "E 9 13 0");
    // a sheet may pass the length that a table may have
    let mut wide = t(12);
    for (border, lta) in wide.b.iter_mut().zip(9_989..) {
        border[LTA] = lta;
    }
    let long = sheet(&wide, 0, usize::MAX).unwrap();
    assert!(long.len() > 65_536);
    assert_eq!(sheet(&wide, 0, long.len() - 1), e(8, long.len()));
    assert_eq!(sheet(&wide, 0, long.len()), Ok(long));
}

#[test]
fn corner_refusals_and_their_order() {
    let t = table(HOUR);
    for row in [4, 5, 1 << 32, usize::MAX] {
        assert_eq!(flows(&t, row, 4), e(9, row));
        // 9 before the room
        assert_eq!((flows(&t, row, 0), sheet(&t, row, 0)), (e(9, row), e(9, row)));
    }
    assert_eq!(shown(&corners(&text(HOUR), Some(4))), "E 9 4 0");
    let size = sheet(&t, 1, usize::MAX).unwrap().len();
    assert_eq!((flows(&t, 1, 3), flows(&t, 1, 0)), (e(8, 4), e(8, 4)));
    assert_eq!((sheet(&t, 1, size - 1), sheet(&t, 1, 0)), (e(8, size), e(8, size)));
    assert!(sheet(&t, 1, size).is_ok());
    // 13 borders and no such row: the borders
    let wide = read(&sized(16, 13, 2), ALL).unwrap();
    assert_eq!((flows(&wide, 2, 0), sheet(&wide, 2, 0)), (e(9, 13), e(9, 13)));
    // the header, lengths, records and 4 before 9
    let mut one = wide.clone();
    one.header.zones = 17;
    assert_eq!(flows(&one, 2, 0), e(3, 1));
    let mut one = wide.clone();
    one.f.pop();
    one.c[1][0] = 0;
    assert_eq!(flows(&one, 2, 0), e(8, 32));
    one.f.push(0);
    one.b[12] = one.b[3];
    assert_eq!(sheet(&one, 2, 0), e(3, 2 + 16 + 13 + 1));
    one.c[1][0] = 1;
    assert_eq!((flows(&one, 2, 0), sheet(&one, 2, 0)), (e(4, 12), e(4, 12)));
    let mut twice = t.clone();
    twice.b[1] = without_hubs(0, 1, 0);
    assert_eq!((flows(&twice, 4, 0), sheet(&twice, 0, 0)), (e(4, 1), e(4, 1)));
    // reading refuses as ever
    assert_eq!(shown(&corners(b"", None)), "E 2 1 0");
    assert_eq!(shown(&corners(&hour_with(2, "Z 0 100000001"), Some(9))), "E 3 2 5");
    assert_eq!(shown(&corners(&hour_with(6, "B 1 0 1 0"), Some(9))), "E 4 1 0");
    // 5, 6 and 7 are not judged
    let mut five = t.clone();
    five.f = vec![0; 12];
    let mut six = t.clone();
    six.b[1] = without_hubs(2, 1, 0);
    let mut seven = t.clone();
    seven.c[1][6] = 10_000_000;
    for (number, t) in [(5, five), (6, six), (7, seven)] {
        assert_eq!(out(&t).unwrap_err().number, number);
        assert!(flows(&t, 1, 4).is_ok() && sheet(&t, 1, 99).is_ok());
    }
}

#[test]
fn largest_corner_is_s_on_random_tables() {
    let mut d = Dice(0x5EED_0FC0_524E_5501);
    let mut below_zero = 0;
    for case in 0..1_500 {
        let most = if case % 25 == 0 { 12 } else { 8 };
        let t = random_tables(&mut d, most, 4);
        for row in 0..t.header.rows {
            let list = flows(&t, row, 1 << t.header.borders).unwrap();
            let own = &t.f[row * t.header.zones..];
            let mut s: i128 = 0;
            let mut least: i128 = 0;
            for border in &t.b {
                let flow = i128::from(factor_by_hand(own, border)) * i128::from(border[LTA]) * 1_000;
                s += flow.max(0);
                least += flow.min(0);
            }
            assert_eq!(list.iter().max(), Some(&s));
            assert_eq!(list.iter().min(), Some(&least));
            // setting one more bit adds that border's flow alone
            for (corner, flow) in list.iter().enumerate() {
                let lowest = corner & corner.wrapping_neg();
                assert_eq!(*flow, list[corner ^ lowest] + list[lowest]);
            }
            below_zero += usize::from(least < 0);
        }
    }
    assert!(below_zero > 500);
}

// -------------------------------------------------------------- random tables

struct Dice(u64);

impl Dice {
    fn next(&mut self) -> u64 {
        self.0 ^= self.0 << 13;
        self.0 ^= self.0 >> 7;
        self.0 ^= self.0 << 17;
        self.0
    }
    fn in_range(&mut self, low: i64, high: i64) -> i64 {
        match self.next() % 12 {
            0 => low,
            1 => high,
            _ => low + ((self.next() >> 11) % ((high - low) as u64 + 1)) as i64,
        }
    }
    fn one_in(&mut self, n: u64) -> bool {
        self.next() % n == 0
    }
}

fn random_tables(d: &mut Dice, most_borders: i64, most_rows: i64) -> Tables {
    let zones = d.in_range(2, 16) as usize;
    let pairs = (zones * (zones - 1)) as i64;
    let borders = d.in_range(1, most_borders.min(pairs)) as usize;
    let rows = d.in_range(1, most_rows) as usize;
    let small = d.one_in(2);
    let z = (0..zones)
        .map(|_| if small { d.in_range(-3_000, 3_000) } else { d.in_range(-100_000_000, 100_000_000) })
        .collect();
    let with_hubs = d.one_in(2);
    let mut b: Vec<Border> = Vec::new();
    while b.len() < borders {
        let mut zone = || d.in_range(0, zones as i64 - 1);
        let [from, to, mut sending, mut receiving] = [zone(), zone(), zone(), zone()];
        if !with_hubs || sending == receiving {
            [sending, receiving] = [-1, -1];
        }
        if from == to || b.iter().any(|r| [r[0], r[1], r[3], r[4]] == [from, to, sending, receiving]) {
            continue;
        }
        b.push([from, to, if small { d.in_range(0, 3) } else { d.in_range(0, 10_000) }, sending, receiving]);
    }
    let with_lifts = d.one_in(4);
    let mut c = Vec::new();
    let mut f: Vec<i64> = Vec::new();
    for row in 0..rows {
        let fmax = if small { d.in_range(1, 500_000) } else { d.in_range(1, 10_000_000) };
        c.push([
            fmax,
            d.in_range(0, fmax),
            if small { d.in_range(-1000, 1000) } else { d.in_range(-20_000_000, 20_000_000) },
            if small { d.in_range(-1000, 1000) } else { d.in_range(-20_000_000, 20_000_000) },
            if d.one_in(5) { -1 } else { d.in_range(0, 10_000) },
            if with_lifts { d.in_range(0, 100) } else { 0 },
            if with_lifts { d.in_range(0, 100) } else { 0 },
        ]);
        if row > 0 && d.one_in(4) {
            // parallel to an earlier row
            let like = (d.next() % row as u64) as usize;
            let earlier: Vec<i64> = f[like * zones..(like + 1) * zones].to_vec();
            let low = -100_000 - earlier.iter().min().unwrap();
            let high = 100_000 - earlier.iter().max().unwrap();
            let by = if d.one_in(2) { 0 } else { d.in_range(low, high) };
            f.extend(earlier.iter().map(|v| v + by));
        } else {
            let most = [100_000, 2_600, 20_000, 6_000][(d.next() % 4) as usize];
            for _ in 0..zones {
                f.push(d.in_range(-most, most));
            }
        }
    }
    let share = if d.one_in(2) { -1 } else { d.in_range(0, 10_000) };
    let intraday = if d.one_in(3) { INTRADAY } else { NO_T };
    let mut t = vec![0; if intraday == INTRADAY { zones } else { 0 }];
    if intraday == INTRADAY && !d.one_in(8) {
        // from one zone to the next, so that they sum to zero
        for zone in 1..zones {
            let some = if small { d.in_range(-900, 900) } else { d.in_range(-50_000_000, 50_000_000) };
            t[zone - 1] += some;
            t[zone] -= some;
        }
    }
    Tables { header: Header { zones, borders, rows, share, intraday }, z, t, b, c, f }
}

fn check_random(t: &Tables, seen: &mut [usize; 8]) {
    let h = t.header;
    // write and read again
    let bytes = write(t.lend(), usize::MAX).expect("good tables");
    assert!(bytes.len() <= 65_536);
    assert_eq!(read(&bytes, ALL).as_ref(), Ok(t));

    let margins: Vec<Margin> = (0..h.rows).map(|row| margin_of(t, row)).collect();
    for (row, m) in margins.iter().enumerate() {
        // RAM is the largest of four, less CVA and IVA
        let default = if h.share == -1 { 7000 } else { h.share };
        let r = if t.c[row][4] == -1 { default } else { t.c[row][4] } as i128;
        let fmax = t.c[row][0] as i128;
        let largest = m.base.max(r * fmax * 10 - m.fuaf).max(fmax * 20_000).max(m.s);
        assert_eq!(m.ram, largest - (t.c[row][5] + t.c[row][6]) as i128 * 100_000);
        let own = &t.f[row * h.zones..(row + 1) * h.zones];
        assert_eq!(m.s, s_by_sum(own, &t.b));
        if h.borders <= 8 {
            assert_eq!(m.s, s_by_corners(own, &t.b));
        }
    }
    let no_lifts = t.c.iter().all(|r| r[5] == 0 && r[6] == 0);
    // replacing every "-" by the default in force changes nothing
    let mut plain = t.clone();
    for record in plain.c.iter_mut().filter(|record| record[4] == -1) {
        record[4] = if h.share == -1 { 7000 } else { h.share };
    }
    for (row, m) in margins.iter().enumerate() {
        assert_eq!(margin_of(&plain, row), *m);
    }
    assert_eq!(out(&plain), out(t));
    match out(t) {
        Err(r) => {
            seen[r.number as usize] += 1;
            assert!((5..=7).contains(&r.number));
            // "If CVA and IVA are 0 in every row, refusal 7 isn't given."
            assert!(!((no_lifts || h.intraday == INTRADAY) && r.number == 7));
            assert_eq!(answer(&bytes), refusal_text(r));
        }
        Ok(o) => {
            seen[0] += 1;
            assert_eq!((o.atc.len(), o.kw.len(), o.rows.len()), (h.borders, h.borders, h.rows));
            assert!(o.rounds <= 2 * o.n_most as u64 * o.l_bits as u64);
            // rows in classes: one kept row of each class with spread 5000 or more
            let shape = |row: usize| -> Vec<i64> {
                let own = &t.f[row * h.zones..(row + 1) * h.zones];
                own.iter().map(|v| v - own[0]).collect()
            };
            for row in 0..h.rows {
                let mine = shape(row);
                let wide = mine.iter().max().unwrap() - mine.iter().min().unwrap() >= 5_000;
                let class: Vec<usize> = (0..h.rows).filter(|r| shape(*r) == mine).collect();
                let first = *class.iter().min_by_key(|r| (margins[**r].ram, **r)).unwrap();
                let want = if !wide { 1 } else if first == row { 0 } else { 2 };
                assert_eq!(o.rows[row].state, want);
                assert_eq!(o.rows[row].left.is_some(), want == 0);
                assert_eq!(o.rows[row].ram, margins[row].ram);
            }
            // margins left, and no border can rise any further
            let mut stops: Vec<Option<usize>> = vec![None; h.borders];
            let mut n_most = 0;
            assert_eq!(o.p.len(), h.rows * h.borders);
            for row in 0..h.rows {
                let kept_p = &o.p[row * h.borders..(row + 1) * h.borders];
                let Some(left) = o.rows[row].left else {
                    assert!(kept_p.iter().all(|p| *p == 0));
                    continue;
                };
                let own = &t.f[row * h.zones..(row + 1) * h.zones];
                let p: Vec<i128> = t.b.iter().map(|b| factor_by_hand(own, b).max(0) as i128).collect();
                assert!(p.iter().zip(kept_p).all(|(own, kept)| *own == i128::from(*kept)));
                let n = p.iter().filter(|p| **p > 0).count() as i128;
                n_most = n_most.max(n as usize);
                let load: i128 = p.iter().zip(&o.kw).map(|(p, k)| p * *k as i128).sum();
                let allocated: i128 = own.iter().zip(&t.t).map(|(f, t)| i128::from(*f) * i128::from(*t)).sum();
                let whole = match h.intraday {
                    INTRADAY => (o.rows[row].ram - allocated).max(0),
                    _ => o.rows[row].ram,
                };
                assert_eq!(left, whole - load);
                assert!(left >= 0);
                for b in 0..h.borders {
                    if p[b] > 0 && left / n / p[b] == 0 {
                        stops[b] = stops[b].or(Some(row));
                    }
                }
            }
            assert_eq!(stops, o.stop);
            assert_eq!(o.last, last_rounds(t, &o));
            assert_eq!(n_most, o.n_most);
            if h.borders == 1 && o.rows.iter().filter(|r| r.state == 0).count() == 1 {
                seen[1] += 1;
                assert!(o.rounds <= 1);
            }
            assert_eq!(answer(&bytes), result_text(t.lend(), usize::MAX).unwrap());
        }
    }
    // every other row as the row counted from the end has it
    let mut merged = t.clone();
    let mut sheet = Vec::new();
    for row in (0..h.rows).step_by(2) {
        let other = h.rows - 1 - row;
        merged.c[row] = t.c[other];
        merged.f[row * h.zones..(row + 1) * h.zones].copy_from_slice(&t.f[other * h.zones..(other + 1) * h.zones]);
    }
    let merged_bytes = write(merged.lend(), usize::MAX).unwrap();
    for line in own_lines(&merged_bytes).iter().step_by(2) {
        sheet.extend(line);
    }
    assert_eq!(read_corrected(&bytes, &sheet, ALL), Ok(merged));
    assert_eq!(rewrite_by(&bytes, &sheet), merged_bytes);
    assert_eq!(answer_corrected(&bytes, &sheet), answer(&merged_bytes));
    // the bound is refused as the extraction is, or is no less than the rounds
    match (bound(t.lend()), out(t)) {
        (Ok(bound), Ok(o)) => {
            assert_eq!((bound.sharers, bound.bits), (o.n_most as u64, u64::from(o.l_bits)));
            assert!(o.rounds <= bound.rounds && bound.rounds == 2 * bound.sharers * bound.bits);
        }
        (bound, o) => assert_eq!(bound.err(), o.err()),
    }
    for (parts, m) in second::margins(t.lend(), h.rows).unwrap().iter().zip(&margins) {
        let own = [m.f0core, m.fuaf, m.base, m.amr, m.s, m.lta_margin];
        assert_eq!(parts[2..8].iter().map(|value| i128::from(*value)).collect::<Vec<i128>>(), own);
        assert_eq!(i128::from(parts[10]), m.ram);
        assert!(h.intraday == INTRADAY || parts[11] == parts[10] - parts[6]);
    }
    // all borders marked, in any order
    let all: Vec<u64> = (0..h.borders as u64).rev().collect();
    assert_eq!(marked(t, &all), out(t));
    assert_eq!(answer_marked(&bytes, &all), answer(&bytes));
}

/// Without LTA an unmarked border takes nothing, so the answer is that of the table
/// of the marked borders alone.
fn check_marked(t: &Tables, marks: &[u64], seen: &mut [usize; 8]) {
    let mut t = t.clone();
    for border in t.b.iter_mut() {
        border[2] = 0;
    }
    let mut sorted = marks.to_vec();
    sorted.sort();
    let mut alone = t.clone();
    alone.header.borders = marks.len();
    alone.b = sorted.iter().map(|mark| t.b[*mark as usize]).collect();
    match (marked(&t, marks), out(&alone)) {
        (Err(one), Err(other)) => {
            seen[one.number as usize] += 1;
            let place = if other.number == 6 { sorted[other.place] as usize } else { other.place };
            assert_eq!((one.number, one.place), (other.number, place));
        }
        (Ok(one), Ok(other)) => {
            seen[0] += 1;
            assert_eq!((&one.rows, one.rounds, one.n_most, one.l_bits), (&other.rows, other.rounds, other.n_most, other.l_bits));
            for border in 0..t.header.borders {
                match sorted.iter().position(|mark| *mark == border as u64) {
                    Some(at) => assert_eq!(
                        (one.kw[border], one.last[border], one.stop[border]),
                        (other.kw[at], other.last[at], other.stop[at])
                    ),
                    None => assert_eq!((one.kw[border], one.last[border], one.stop[border]), (0, 0, None)),
                }
            }
            // p of all borders
            assert_eq!(one.p.len(), t.header.rows * t.header.borders);
        }
        other => panic!("one is refused and not the other: {other:?}"),
    }
}

#[test]
fn random_small_and_large() {
    let mut d = Dice(0x9E37_79B9_7F4A_7C15);
    let mut seen = [0; 8];
    for _ in 0..3_000 {
        check_random(&random_tables(&mut d, 8, 12), &mut seen);
    }
    for _ in 0..400 {
        check_random(&random_tables(&mut d, 1, 3), &mut seen);
    }
    for _ in 0..60 {
        check_random(&random_tables(&mut d, 64, 200), &mut seen);
    }
    println!("accepted, one border and one kept row, ., ., ., 5, 6, 7: {seen:?}");
    assert!(seen[0] > 300 && seen[1] > 20 && seen[5] > 5 && seen[6] > 20 && seen[7] > 5);
}

#[test]
fn random_marks() {
    let mut d = Dice(13);
    let mut seen = [0; 8];
    for _ in 0..4_000 {
        let t = random_tables(&mut d, 8, 12);
        let mut marks: Vec<u64> = (0..t.header.borders as u64).filter(|_| d.one_in(2)).collect();
        if d.one_in(2) {
            marks.reverse();
        }
        if !marks.is_empty() {
            check_marked(&t, &marks, &mut seen);
        }
    }
    println!("accepted, ., ., ., ., 5, 6, 7: {seen:?}");
    assert!(seen[0] > 300 && seen[5] > 5 && seen[6] > 20 && seen[7] > 5);
}

#[test]
fn one_byte_changed() {
    // a text that reading takes is given back byte for byte by writing
    let mut d = Dice(77);
    let whole = text(HOUR);
    let bytes = b"0123456789-\t\n ZBCHR+\r\x00\xff";
    let mut taken = 0;
    for _ in 0..40_000 {
        let mut t = whole.clone();
        let at = (d.next() % t.len() as u64) as usize;
        let byte = bytes[(d.next() % bytes.len() as u64) as usize];
        match d.next() % 3 {
            0 => t[at] = byte,
            1 => t.insert(at, byte),
            _ => {
                t.remove(at);
            }
        }
        if let Ok(tables) = read(&t, ALL) {
            taken += 1;
            assert_eq!(write(tables.lend(), usize::MAX), Ok(t.clone()));
        }
        answer(&t);
    }
    assert!(taken > 1_000);
}
