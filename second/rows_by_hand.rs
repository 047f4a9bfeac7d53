//! The semicolon sheet by hand (02, E11).

use crate::second::rows::{read_rows, sheet_of, with_sheet, write_rows};
use crate::second::*;
use crate::{e, hour_with, read_refusal, shown, table, text, ALL, HOUR};

const SHEET: &str = "0;1000.000;200.000;200.000;150.000;7000;0.000;80.000;0.30000;0.10000;0.00000
1;100.000;10.000;15.000;0.000;7000;0.000;0.000;0.05000;0.05000;0.00000
2;100.000;0.000;0.000;0.000;0;0.000;0.000;0.04999;0.00000;0.00000
3;1000.000;0.000;130.000;0.000;7000;0.000;0.000;0.20000;0.00000;-0.10000
";

const ROOM: [usize; 2] = [usize::MAX; 2];

/// One row of two zones.
const ONE: Header = Header { zones: 2, borders: 1, rows: 1, share: NO_SHARE, intraday: NO_T };

/// The refusal of a sheet of one row: number, line, byte.
fn refused(sheet: &[u8]) -> (u32, usize, usize) {
    read_rows(ONE, sheet, ROOM).map_or_else(|r| (r.number, r.place, r.byte), |_| (0, 0, 0))
}

/// The row `0;1.000;0.000;0.000;0.000;-;0.000;0.000;0.00000;0.00000` with one field
/// replaced: the number, and which byte of the field is to blame, from 1.
fn field(place: usize, by: &str) -> (u32, usize) {
    let mut fields = vec!["0", "1.000", "0.000", "0.000", "0.000", "-", "0.000", "0.000", "0.00000", "0.00000"];
    fields[place] = by;
    let before: usize = fields[..place].iter().map(|field| field.len() + 1).sum();
    let (number, line, byte) = refused(format!("{}\n", fields.join(";")).as_bytes());
    assert_eq!(line, usize::from(number > 0));
    (number, byte.saturating_sub(before))
}

#[test]
fn sheet_of_the_worked_hour() {
    let t = table(HOUR);
    assert_eq!(sheet_of(Ok(t.clone())), SHEET.as_bytes());
    assert_eq!(write_rows(t.header, &t.c, &t.f, SHEET.len()), Ok(SHEET.as_bytes().to_vec()));
    assert_eq!(read_rows(t.header, SHEET.as_bytes(), [4, 12]), Ok((t.c.clone(), t.f.clone())));
    assert_eq!(with_sheet(Ok(t.clone()), SHEET.as_bytes()), text(HOUR));
    // rows from another sheet, "-" among them
    let other = SHEET.replace("15.000;0.000;7000", "-0.001;-20000.000;-");
    let wanted = hour_with(8, "C 1 100000 10000 -1 -20000000 - 0 0 5000 5000 0");
    assert_eq!(with_sheet(Ok(t), other.as_bytes()), wanted);
    assert_eq!(sheet_of(read(&wanted, ALL)), other.as_bytes());
}

#[test]
fn numbers_of_a_sheet() {
    let h = ONE;
    let record = [10_000_000, 1, -1, 20_000_000, 10_000, 999, 1_000];
    let sheet = b"0;10000.000;0.001;-0.001;20000.000;10000;0.999;1.000;-1.00000;0.00001\n";
    assert_eq!(write_rows(h, &[record], &[-100_000, 1], 100), Ok(sheet.to_vec()));
    assert_eq!(read_rows(h, sheet, [1, 2]), Ok((vec![record], vec![-100_000, 1])));
    let record = [1, 0, -20_000_000, -1_000, -1, 0, 10_000_000];
    let sheet = b"0;0.001;0.000;-20000.000;-1.000;-;0.000;10000.000;1.00000;-0.00001\n";
    assert_eq!(write_rows(h, &[record], &[100_000, -1], 100), Ok(sheet.to_vec()));
    assert_eq!(read_rows(h, sheet, [1, 2]), Ok((vec![record], vec![100_000, -1])));
}

#[test]
fn bytes_of_a_sheet() {
    // the byte after it
    assert_eq!(field(1, "1.00"), (2, 5));
    assert_eq!(field(1, "1."), (2, 3));
    assert_eq!(field(1, "1"), (2, 2));
    assert_eq!(field(1, ""), (2, 1));
    assert_eq!(field(3, "-"), (2, 2));
    assert_eq!(field(9, "0.1000"), (2, 7));
    // the fourth decimal, the sixth of a factor
    assert_eq!(field(1, "1.0000"), (2, 6));
    assert_eq!(field(8, "0.100000"), (2, 8));
    // the point, the second digit after a zero
    assert_eq!(field(1, ".500"), (2, 1));
    assert_eq!(field(3, "-.500"), (2, 2));
    assert_eq!(field(1, "01.000"), (2, 2));
    assert_eq!(field(3, "-01.000"), (2, 3));
    // the last 0: a 1 there would do
    assert_eq!(field(3, "-0.000"), (2, 6));
    assert_eq!(field(3, "-0.001"), (0, 0));
    assert_eq!(field(8, "-0.00000"), (2, 8));
    assert_eq!(field(8, "-0.000000"), (2, 8));
    assert_eq!(field(8, "-0.00001"), (0, 0));
    // ten digits in all
    assert_eq!(field(1, "12345678.000"), (2, 8));
    assert_eq!(field(4, "-12345678.000"), (2, 9));
    assert_eq!(field(1, "9999999.999"), (3, 1));
    assert_eq!(field(4, "-9999999.999"), (3, 1));
    assert_eq!(field(9, "123456.00000"), (2, 6));
    assert_eq!(field(9, "99999.99999"), (3, 1));
    // decimal comma, thousands, other bytes
    assert_eq!(field(1, "1,000"), (2, 2));
    assert_eq!(field(1, "1.000,5"), (2, 6));
    assert_eq!(field(1, "1.000.000"), (2, 6));
    assert_eq!(field(1, "1 000.000"), (2, 2));
    assert_eq!(field(1, "+1.000"), (2, 1));
    assert_eq!(field(1, "-1.000"), (2, 1));
    assert_eq!(field(2, "-0.000"), (2, 1));
    assert_eq!(field(9, "0.00000\r"), (2, 8));
    // index and R as in a C line
    assert_eq!(field(0, "0.000"), (2, 2));
    assert_eq!(field(0, "1"), (2, 1));
    assert_eq!(field(0, "00"), (2, 2));
    assert_eq!(field(5, "7000.000"), (2, 5));
    assert_eq!(field(5, "-5"), (2, 2));
    assert_eq!(field(5, "10000"), (0, 0));
    assert_eq!(field(5, "10001"), (3, 1));
}

#[test]
fn ranges_of_a_sheet() {
    for (place, good, bad) in [
        (1, "10000.000", "10000.001"),
        (1, "0.001", "0.000"),
        (2, "1.000", "1.001"),
        (3, "20000.000", "20000.001"),
        (4, "-20000.000", "-20000.001"),
        (6, "10000.000", "10000.001"),
        (7, "10000.000", "10000.001"),
        (8, "1.00000", "1.00001"),
        (9, "-1.00000", "-1.00001"),
    ] {
        assert_eq!(field(place, good), (0, 0), "{good}");
        assert_eq!(field(place, bad), (3, 1), "{bad}");
    }
    // FRM above Fmax names FRM; the leftmost of two; form goes before range
    assert_eq!(refused(b"0;0.001;0.002;0.000;0.000;-;0.000;0.000;0.00000;0.00000\n"), (3, 1, 9));
    assert_eq!(refused(b"0;0.000;0.002;0.000;0.000;-;0.000;0.000;0.00000;0.00000\n"), (3, 1, 3));
    assert_eq!(refused(b"0;0.000;0.002;0.000;0.000;-;0.000;0.000;0.00000;0.0000\n"), (2, 1, 55));
    assert_eq!(refused(b"0;0.000;0.002;0.000;0.000;-;0.000;0.000;0.00000\n"), (2, 1, 0));
}

#[test]
fn lines_of_a_sheet() {
    const ROW: &[u8] = b"0;1.000;0.000;0.000;0.000;-;0.000;0.000;0.00000;0.00000\n";
    assert_eq!(refused(ROW), (0, 0, 0));
    assert_eq!(refused(b""), (2, 1, 0));
    assert_eq!(refused(&ROW[..ROW.len() - 1]), (2, 1, 0));
    assert_eq!(refused(&ROW[..ROW.len() - 2]), (2, 1, 0));
    assert_eq!(refused(b"0"), (2, 1, 0));
    assert_eq!(refused(b"1"), (2, 1, 0));
    assert_eq!(refused(b"1;"), (2, 1, 1));
    assert_eq!(refused(b"x"), (2, 1, 1));
    assert_eq!(refused(b"0;1.00x"), (2, 1, 7));
    // the index is a field that ends at the LF
    assert_eq!(refused(b"\n"), (2, 1, 1));
    assert_eq!(refused(&[ROW, b"\n"].concat()), (2, 2, 0));
    assert_eq!(refused(&[ROW, ROW].concat()), (2, 2, 0));
    assert_eq!(refused(&[b"\xEF\xBB\xBF", ROW].concat()), (2, 1, 1));
    assert_eq!(refused(&[&ROW[..ROW.len() - 1], b"\r\n"].concat()), (2, 1, ROW.len()));
    assert_eq!(refused(&[&ROW[..ROW.len() - 1], b";\n"].concat()), (2, 1, 0));
    assert_eq!(refused(&[&ROW[..ROW.len() - 1], b";0.00000\n"].concat()), (2, 1, 0));
    assert_eq!(refused(&[b"C;", ROW].concat()), (2, 1, 1));
    assert_eq!(refused(b"0\t1.000\n"), (2, 1, 2));
    // the second row of two
    let two = Header { rows: 2, ..ONE };
    let other = [ROW, ROW].concat();
    assert_eq!(read_rows(two, &other, ROOM), Err(Refusal { number: 2, place: 2, byte: 1 }));
    assert_eq!(read_rows(two, ROW, ROOM), e(2, 2));
}

#[test]
fn order_of_refusals_of_rows() {
    let t = table(HOUR);
    let h = t.header;
    let bad = Header { zones: 17, ..h };
    let long = vec![b'0'; 65_537];
    assert_eq!(read_rows(bad, &long, [0; 2]), e(1, 0));
    assert_eq!(read_rows(bad, b"x", [0; 2]), e(3, 1));
    for bad in [
        Header { borders: 65, ..h },
        Header { borders: 0, ..h },
        Header { rows: 201, ..h },
        Header { share: 10_001, ..h },
        Header { intraday: 2, ..h },
    ] {
        assert_eq!(read_rows(bad, SHEET.as_bytes(), ROOM), e(3, 1));
        assert_eq!(write_rows(bad, &t.c, &t.f, 999), e(3, 1));
    }
    assert_eq!(read_rows(h, b"x", [0; 2]), Err(Refusal { number: 2, place: 1, byte: 1 }));
    assert_eq!(read_rows(h, SHEET.as_bytes(), [3, 0]), e(8, 4));
    assert_eq!(read_rows(h, SHEET.as_bytes(), [4, 11]), e(8, 12));
    assert_eq!(read_rows(h, &long[1..], [4, 12]), Err(Refusal { number: 2, place: 1, byte: 2 }));
    // lengths before records, records by the sheet's line, then room
    let mut c = t.c.clone();
    c[2][0] = 0;
    assert_eq!(write_rows(h, &c[..3], &t.f, 0), e(8, 4));
    assert_eq!(write_rows(h, &c, &t.f[..11], 0), e(8, 12));
    assert_eq!(write_rows(h, &c, &t.f, 0), e(3, 3));
    let mut f = t.f.clone();
    f[3] = 100_001;
    assert_eq!(write_rows(h, &c, &f, 0), e(3, 2));
    assert_eq!(write_rows(h, &t.c, &t.f, SHEET.len() - 1), e(8, SHEET.len()));
    // from text: 1 of either, the table, the sheet
    let damaged = hour_with(2, "Z 0 x");
    assert_eq!(read_refusal(&damaged), Some((2, 2)));
    assert_eq!(shown(&with_sheet(read(&damaged, ALL), &long)), "E 1 0 0");
    assert_eq!(shown(&with_sheet(read(&long, ALL), b"x")), "E 1 0 0");
    assert_eq!(shown(&with_sheet(read(&damaged, ALL), b"x")), "E 2 2 5");
    assert_eq!(shown(&with_sheet(Ok(t.clone()), b"x")), "E 2 1 1");
    assert_eq!(shown(&sheet_of(read(&damaged, ALL))), "E 2 2 5");
    // a correction line before the sheet; the sheet has all rows, also corrected ones
    let hour = text(HOUR);
    assert_eq!(shown(&with_sheet(read_corrected(&hour, b"x\n", ALL), b"x")), "E 10 1 0");
    let lower = text("C 3 1000000 0 130000 0 0 0 900000 20000 0 -10000");
    assert_eq!(with_sheet(read_corrected(&hour, &lower, ALL), SHEET.as_bytes()), hour);
    let corrected = SHEET.replace("130.000;0.000;7000;0.000;0.000", "130.000;0.000;0;0.000;900.000");
    assert_eq!(sheet_of(read_corrected(&hour, &lower, ALL)), corrected.as_bytes());
    // a table that the extraction refuses has its sheet
    let narrow = table("H 2 1 1 / Z 0 0 / Z 1 0 / B 0 0 1 0 / C 0 9 0 0 0 0 0 0 4999 0");
    assert_eq!(sheet_of(Ok(narrow)), b"0;0.009;0.000;0.000;0.000;0;0.000;0.000;0.04999;0.00000\n");
}

#[test]
fn longest_sheet() {
    // 200 rows of the longest numbers, 16 zones: under 65,536 bytes
    let h = Header { zones: 16, borders: 1, rows: 200, share: NO_SHARE, intraday: NO_T };
    let record = [10_000_000, 10_000_000, -20_000_000, -20_000_000, 10_000, 10_000_000, 10_000_000];
    let sheet = write_rows(h, &[record; 200], &[-100_000; 3_200], usize::MAX).unwrap();
    // without the index 9 + 9 + 10 + 10 + 5 + 9 + 9 + 16 x 8 bytes, 23 semicolons, one LF
    assert_eq!(sheet.len(), 200 * (189 + 24) + 10 + 2 * 90 + 3 * 100);
    assert!(sheet.len() <= MOST_BYTES);
    assert_eq!(read_rows(h, &sheet, [200, 3_200]), Ok((vec![record; 200], vec![-100_000; 3_200])));
}
