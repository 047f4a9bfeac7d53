//! Why a border got no more, by hand: the record, and the words.

use crate::second::why::{rounds_of, why, Reasons};
use crate::second::why_words::{explained, lines, listed, mw, no_border};
use crate::second::*;
use crate::{e, factor_by_hand, marked, nothing, one_row, out, random_tables, shown, table, text, Dice, ALL, HOUR};

const ROOM: [usize; 3] = [usize::MAX; 3];

/// The words about a border, line by line.
fn said_of(hour: &[u8], marks: Option<&[u64]>, border: u64) -> Vec<String> {
    let said = explained(hour, b"", marks, border).expect("an accepted table");
    let said = String::from_utf8(said).unwrap();
    assert!(said.ends_with('\n'));
    said.lines().map(str::to_string).collect()
}

/// The lines of a text, one line break before the first and one after the last.
fn by_lines(wanted: &str) -> Vec<String> {
    wanted.trim_matches('\n').lines().map(str::to_string).collect()
}

fn reasons(t: &Tables, border: u64) -> Reasons {
    why(t.lend(), None, border, ROOM).unwrap()
}

// ---------------------------------------------------------------- stored hours

#[test]
fn words_of_the_stored_hours() {
    let busy = include_bytes!("../hours/busy64.tsv");
    let worst = include_bytes!("../hours/worst64.tsv");
    let intraday = include_bytes!("../hours/intraday.tsv");
    for (hour, marks, border, wanted) in [
        // two rows stop it, and the later of them ended its rise
        (&busy[..], None, 3, "
Border 3, zone 2 to zone 9: ATC 97 MW.
It starts at its rights of 20 MW; the rounds raised it by 77 MW, last in round 9 of 807.
Row 194 stopped it, from round 10 on. At the end row 166 stops it too, and the result names that row because it comes first.
RAM of row 194 is 284.707 MW = Base 284.707.
The rights of all borders take 104.213 MW of it; 180.493 MW were shared out in the rounds, and less than 1 kW is left.
In kW, 0.01224 are left; an equal share for each of its 62 borders is 0.00019, and one kW more on border 3 takes 0.07764.
Most of row 194 is used by border 34, 4 to 9 (15.216 MW), border 20, 3 to 8 (15.208 MW) and border 31, 2 to 8 (13.742 MW).
Border 3 uses 7.531 MW of it: 97 MW times its factor 0.07764.
Next behind rows 166 and 194: row 140, whose equal share would raise border 3 by 10.753 MW in one round.
"),
        // raised until the last round
        (&busy[..], None, 36, "
Border 36, zone 8 to zone 9: ATC 14358 MW.
It starts at its rights of 20 MW; the rounds raised it by 14338 MW, last in round 807 of 807.
Row 166 stopped it.
RAM of row 166 is 1198.123 MW = Base 1198.123.
The rights of all borders take 54.654 MW of it; 1143.464 MW were shared out in the rounds, and 0.003 MW are left.
In kW, 3.97246 are left; an equal share for each of its 63 borders is 0.06305, and one kW more on border 36 takes 0.06407.
Most of row 166 is used by border 36, 8 to 9 (919.917 MW), border 48, 8 to 10 (30.326 MW) and border 7, 8 to 11 (29.725 MW).
Next behind row 166: row 139, whose equal share would raise border 36 by 11.826 MW in one round.
"),
        // no round at all
        (include_bytes!("../hours/sheet.tsv"), None, 0, "
Border 0, zone 0 to zone 8: ATC 10000 MW.
It starts at its rights of 10000 MW, and there was no round: no border could be raised.
Row 1 stopped it.
RAM of row 1 is 240000.000 MW = Base 10000.000 + LTA margin 230000.000.
The rights of all borders take 240000.000 MW of it; nothing was shared out in the rounds, and nothing is left.
Most of row 1 is used by border 0, 0 to 8 (20000.000 MW), border 1, 1 to 8 (20000.000 MW) and border 2, 2 to 8 (20000.000 MW).
Behind row 1 no kept row limits border 0.
"),
        // no round raised it, for a row that has nothing from the start
        (&worst[..], None, 5, "
Border 5, zone 4 to zone 12: ATC 0 MW.
It starts at 0 MW, and no round raised it.
Row 199 stopped it, from round 1 on. At the end row 135 stops it too, and the result names that row because it comes first.
RAM of row 199 is 0.000 MW = Base 20000.000 - CVA 10000.000 - IVA 10000.000.
No rights load it; nothing was shared out in the rounds, and nothing is left.
Next behind rows 135 and 199: row 149, whose equal share would raise border 5 by 0.706 MW in one round.
"),
        // not marked
        (include_bytes!("../hours/planner.tsv"), Some(&[0, 1, 4][..]), 2, "
Border 2, zone 1 to zone 2: ATC 200 MW.
It is not marked: it stays where it starts, at its rights of 200 MW, and no row stopped it.
"),
        // intraday, a row with a negative remainder, and one that is relieved
        (&intraday[..], None, 1, "
Border 1, zone 1 to zone 2: ATC 0 MW in addition to the allocated positions.
It starts at 0 MW, and no round raised it.
Row 1 stopped it.
RAM of row 1 is 50.000 MW = Base 80.000 - IVA 30.000.
The allocated positions put 60.000 MW on it, 10.000 MW more than its RAM: it has nothing to give to any border that loads it.
Next behind row 1: row 3, whose equal share would raise border 1 by 1375.000 MW in one round.
"),
        (&intraday[..], None, 2, "
Border 2, zone 2 to zone 1: ATC 2300 MW in addition to the allocated positions.
It starts at 0 MW; the rounds raised it by 2300 MW, last in round 1 of 1.
Row 2 stopped it.
RAM of row 2 is 150.000 MW = Base 150.000.
The allocated positions relieve it by 80.000 MW; 230.000 MW were shared out in the rounds, and nothing is left.
Only border 2, 2 to 1 (230.000 MW) uses row 2.
Behind row 2 no kept row limits border 2.
"),
        // hubs
        (include_bytes!("../hours/cable.tsv"), None, 0, "
Border 0, zone 0 to zone 1 (hubs 2 and 3): ATC 1560 MW.
It starts at its rights of 100 MW; the rounds raised it by 1460 MW, last in round 1 of 22.
Row 1 stopped it.
RAM of row 1 is 156.000 MW = Base 156.000.
The rights of all borders take 10.000 MW of it; 146.000 MW were shared out in the rounds, and nothing is left.
Only border 0, 0 to 1 (156.000 MW) uses row 1.
Next behind row 1: row 0, whose equal share would raise border 0 by 0.001 MW in one round.
"),
    ] {
        assert_eq!(said_of(hour, marks, border), by_lines(wanted));
    }
}

#[test]
fn no_words_for_refused_tables() {
    let planner = include_bytes!("../hours/planner.tsv");
    // a blank in line 11
    let mut blank: Vec<Vec<u8>> = planner.split_inclusive(|byte| *byte == b'\n').map(<[u8]>::to_vec).collect();
    blank[10].insert(22, b' ');
    let refused = explained(&blank.concat(), b"", None, 3).unwrap_err();
    assert_eq!(shown(&refusal_text(refused)), "E 2 11 23");
    let no_such = explained(planner, b"", None, 9);
    assert_eq!(no_such, e(14, 5));
    assert_eq!(no_border(9, 5), "keravnoth: there is no border 9: the table has borders 0 to 4");
    // the sheet, then the marks, then the border, then 5, 6 and 7
    assert_eq!(explained(planner, b"x", Some(&[]), 9), e(10, 1));
    assert_eq!(explained(planner, b"", Some(&[]), 9), e(13, 0));
    assert_eq!(explained(planner, b"", Some(&[5]), 9), e(13, 1));
    assert_eq!(explained(planner, b"", Some(&[4]), 9), e(14, 5));
    let narrow = one_row("100000 0 0 0 0 0 0 4999 0");
    assert_eq!(explained(&narrow, b"", None, 1), e(14, 1));
    assert_eq!(explained(&narrow, b"", None, 0), e(5, 0));
}

#[test]
fn at_most_ten_lines_for_each_border_of_each_hour() {
    let mut most = 0;
    for hour in [
        &include_bytes!("../hours/worked.tsv")[..],
        include_bytes!("../hours/planner.tsv"),
        include_bytes!("../hours/sheet.tsv"),
        include_bytes!("../hours/cable.tsv"),
        include_bytes!("../hours/trajectory.tsv"),
        include_bytes!("../hours/intraday.tsv"),
        include_bytes!("../hours/plain.tsv"),
        include_bytes!("../hours/busy.tsv"),
        include_bytes!("../hours/worst.tsv"),
        include_bytes!("../hours/busy64.tsv"),
        include_bytes!("../hours/worst64.tsv"),
        include_bytes!("../hours/late.tsv"),
        include_bytes!("../hours/slowest.tsv"),
    ] {
        let t = read(hour, ALL).unwrap();
        let outcome = out(&t).unwrap();
        let rounds = rounds_of(&t, None).unwrap();
        for border in 0..t.header.borders {
            let reasons = rounds.reasons(border);
            assert_eq!((reasons.rounds, reasons.last), (outcome.rounds, outcome.last[border]));
            assert_eq!(reasons.named, outcome.stop[border]);
            let said = lines(&t, &reasons, border);
            assert!(said.iter().all(|line| line.ends_with('.') && !line.contains('\n') && !line.contains("  ")));
            most = most.max(said.len());
        }
    }
    assert_eq!(most, 9);
}

#[test]
fn the_row_that_ended_it_is_often_another_than_the_named() {
    for (hour, others) in [(&include_bytes!("../hours/busy64.tsv")[..], 22), (include_bytes!("../hours/worst64.tsv"), 63)] {
        let t = read(hour, ALL).unwrap();
        let rounds = rounds_of(&t, None).unwrap();
        let other = |border: &usize| {
            let reasons = rounds.reasons(*border);
            reasons.named != reasons.ended
        };
        assert_eq!((0..64).filter(other).count(), others);
    }
}

// ------------------------------------------------------------------- the record

#[test]
fn reasons_of_the_worked_hour() {
    let t = table(HOUR);
    // border 1 is raised once, to 1800 MW: row 1 has 9 x 10^9 - 200 x 5000 x 10^6 grains
    let wanted = Reasons {
        rounds: 21,
        last: 1,
        named: Some(1),
        ended: Some(1),
        ends: vec![[100_000, 2_599_999], [200_000, 1_800_000]],
        rows: vec![[2, 20_000, 1], [1, 0, 0], [0, -1, -1], [0, -1, -1]],
        p: vec![20_000, 10_000, 0, 5_000, 0, 0, 0, 0],
    };
    assert_eq!(reasons(&t, 1), wanted);
    let rows = vec![[2, 20_000, 0], [1, 0, -1], [0, -1, -1], [0, -1, -1]];
    let wanted = Reasons { last: 21, named: Some(0), ended: Some(0), rows, ..wanted };
    assert_eq!(reasons(&t, 0), wanted);
    // border 0 alone: row 0 has 66 x 10^9 grains, so 3300 MW
    let found = why(t.lend(), Some(&[0]), 1, ROOM).unwrap();
    let wanted = Reasons {
        rounds: 1,
        last: 0,
        named: None,
        ended: None,
        ends: vec![[100_000, 3_400_000], [200_000, 200_000]],
        rows: vec![[1, 0, -1], [0, 8_000_000_000, -1], [0, -1, -1], [0, -1, -1]],
        p: wanted.p,
    };
    assert_eq!(found, wanted);
    let found = why(t.lend(), Some(&[0]), 0, ROOM).unwrap();
    assert_eq!((found.last, found.named, found.ended, found.rows[0]), (1, Some(0), Some(0), [1, 0, 0]));
}

/// Border 0 loads both rows, border 1 row 0 alone: it goes on there after row 1 has ended
/// border 0's rise.
const LATE: &str = "H 4 2 2 / Z 0 0 / Z 1 0 / Z 2 0 / Z 3 0 / B 0 0 1 0 / B 1 2 3 0
C 0 8000 0 0 0 0 0 0 50000 0 50000 0
C 1 1000 0 0 0 0 0 0 50000 0 0 0";

#[test]
fn a_row_that_is_empty_only_at_the_end() {
    let t = table(LATE);
    // round 1: row 0 allows 8000 / 2 / 0.5 = 8000 kW, row 1 1000 / 0.5 = 2000 kW; row 0 then
    // has 8000 - 1000 - 4000 = 3000 kW, of which border 1 gets half and half again
    let found = reasons(&t, 0);
    assert_eq!((found.last, found.named, found.ended), (1, Some(0), Some(1)));
    assert_eq!(found.ends[0], [0, 2_000]);
    assert!(found.rounds > 8 && found.rows[0][2] == 0 && found.rows[1][2] == 0);
    let found = reasons(&t, 1);
    assert_eq!((found.last, found.named, found.ended), (found.rounds, Some(0), Some(0)));
    assert_eq!(found.rows[1][2], -1);
    let said = said_of(&text(LATE), None, 0);
    assert_eq!(
        said[2],
        "Row 1 stopped it, from round 2 on. At the end row 0 stops it too, and the result names that row because it comes first."
    );
    assert_eq!(said.last().unwrap(), "Behind rows 0 and 1 no kept row limits border 0.");
}

#[test]
fn refusals_and_their_order() {
    let t = table(HOUR);
    let all = [8, 2, 4];
    assert!(why(t.lend(), None, 1, all).is_ok());
    assert_eq!(why(nothing(Header { zones: 17, ..t.header }), Some(&[]), 2, [0; 3]), e(3, 1));
    assert_eq!(why(nothing(t.header), Some(&[]), 2, [0; 3]), e(8, 3));
    assert_eq!(why(Lent { f: &t.f[..11], ..t.lend() }, Some(&[]), 2, [0; 3]), e(8, 12));
    let mut bad = t.clone();
    bad.c[3][0] = 0;
    assert_eq!(why(bad.lend(), Some(&[]), 2, [7, 0, 0]), e(8, 8));
    assert_eq!(why(bad.lend(), Some(&[]), 2, [8, 0, 0]), e(3, 10));
    bad = t.clone();
    bad.b[1] = bad.b[0];
    assert_eq!(why(bad.lend(), Some(&[]), 2, [8, 0, 0]), e(4, 1));
    assert_eq!(why(t.lend(), Some(&[]), 2, [8, 0, 0]), e(13, 0));
    assert_eq!(why(t.lend(), Some(&[0, 2]), 2, [8, 0, 0]), e(13, 2));
    for border in [2, 3, 64, 256, 1 << 32, u64::MAX] {
        assert_eq!(why(t.lend(), Some(&[0]), border, [8, 0, 0]), e(14, 2));
        assert_eq!(why(t.lend(), None, border, [8, 0, 0]), e(14, 2));
    }
    let narrow = read(&one_row("100000 0 0 0 0 0 0 4999 0"), ALL).unwrap();
    assert_eq!(why(narrow.lend(), None, 1, [1, 0, 0]), e(14, 1));
    assert_eq!(why(narrow.lend(), None, 0, [1, 0, 0]), e(5, 0));
    let back = table("H 2 2 1 / Z 0 0 / Z 1 0 / B 0 0 1 0 / B 1 1 0 3 / C 0 100000 0 0 0 0 0 0 20000 0");
    assert_eq!(why(back.lend(), None, 0, [2, 0, 0]), e(6, 1));
    assert!(why(back.lend(), Some(&[0]), 1, [2, 2, 1]).is_ok());
    let over = table("H 2 1 1 / Z 0 0 / Z 1 0 / B 0 0 1 100 / C 0 10000 0 0 0 0 0 1 20000 0");
    assert_eq!(why(over.lend(), None, 0, [1, 0, 0]), e(7, 0));
    assert_eq!(why(t.lend(), None, 1, [8, 1, 3]), e(8, 2));
    assert_eq!(why(t.lend(), None, 1, [8, 2, 3]), e(8, 4));
}

// -------------------------------------------------------------------- the words

#[test]
fn figures_are_cut() {
    for (grains, wanted) in [
        (0, "0.000"),
        (1, "<0.001"),
        (99_999, "<0.001"),
        (100_000, "0.001"),
        (199_999, "0.001"),
        (-1, "-<0.001"),
        (-199_999, "-0.001"),
        (100_000_000, "1.000"),
        (-123_456_789_999, "-1234.567"),
    ] {
        assert_eq!(mw(grains), wanted);
    }
    let list = |count: usize| listed(&(1..=count).map(|number| number.to_string()).collect::<Vec<String>>());
    assert_eq!([1, 2, 3, 4, 8].map(list), ["1", "1 and 2", "1, 2 and 3", "1, 2, 3 and 1 more", "1, 2, 3 and 5 more"]);
}

/// `count` rows of one border, p 50000 and 1 MW each, none parallel to another.
fn alike(count: usize) -> Vec<u8> {
    let mut lines = format!("H 3 1 {count} / Z 0 0 / Z 1 0 / Z 2 0 / B 0 0 1 0");
    for row in 0..count {
        lines += &format!(" / C {row} 1000 0 0 0 0 0 0 50000 0 {}", 100 * row);
    }
    text(&lines)
}

#[test]
fn many_rows_that_hold_it() {
    for (count, stopped, behind) in [
        (1, "Row 0 stopped it.", "Behind row 0 no"),
        (2, "Row 0 stopped it. At the end row 1 stops it too.", "Behind rows 0 and 1 no"),
        (3, "Row 0 stopped it. At the end rows 1 and 2 stop it too.", "Behind rows 0, 1 and 2 no"),
        (4, "Row 0 stopped it. At the end rows 1, 2 and 3 stop it too.", "Behind rows 0, 1, 2 and 1 more no"),
        (9, "Row 0 stopped it. At the end rows 1, 2, 3 and 5 more stop it too.", "Behind rows 0, 1, 2 and 6 more no"),
    ] {
        let said = said_of(&alike(count), None, 0);
        assert_eq!(said[2], stopped);
        assert_eq!(said[6], format!("{behind} kept row limits border 0."));
        assert_eq!(said[1], "It starts at 0 MW; the rounds raised it by 2 MW, last in round 1 of 1.");
        assert_eq!(said[5], "Only border 0, 0 to 1 (1.000 MW) uses row 0.");
    }
    // three hold it at the end, and the last of them from round 2 on
    let t = LATE.replace("H 4 2 2", "H 4 2 3").replace("C 1 1000", "C 1 8000 0 0 0 0 0 0 50000 1 50000 1\nC 2 1000");
    let said = said_of(&text(&t), None, 0);
    assert_eq!(
        said[2],
        "Row 2 stopped it, from round 2 on. At the end rows 0 and 1 stop it too, and the result names row 0 because it comes first."
    );
    assert_eq!(said.last().unwrap(), "Behind rows 0, 1 and 2 no kept row limits border 0.");
}

#[test]
fn small_hours_in_words() {
    // 3 kW for two borders of p 1: one kW each, so less than 1 MW, and 1 kW is left
    let three = text("H 3 2 1 / Z 0 0 / Z 1 0 / Z 2 0 / B 0 0 1 0 / B 1 0 2 0 / C 0 3 0 0 0 0 0 0 100000 0 0");
    let wanted = "
Border 1, zone 0 to zone 2: ATC 0 MW.
It starts at 0 MW; the rounds raised it by less than 1 MW, last in round 1 of 1.
Row 0 stopped it.
RAM of row 0 is 0.003 MW = Base 0.003.
No rights load it; 0.002 MW were shared out in the rounds, and 0.001 MW are left.
In kW, 1.00000 are left; an equal share for each of its 2 borders is 0.50000, and one kW more on border 1 takes 1.00000.
Behind row 0 no kept row limits border 1.
";
    assert_eq!(said_of(&three, None, 1), by_lines(wanted));
    // the other not marked: it stays at 0, and nothing is left
    assert_eq!(said_of(&three, Some(&[1]), 1)[4], "No rights load it; 0.003 MW were shared out in the rounds, and nothing is left.");
    let wanted = "
Border 0, zone 0 to zone 1: ATC 0 MW.
It is not marked: it stays where it starts, at 0 MW, and no row stopped it.
";
    assert_eq!(said_of(&three, Some(&[1]), 0), by_lines(wanted));
    // Base -50 kW, AMR 70 kW + 50 kW, CVA 30 kW: 40 kW, and p 0.3, so 133 kW, which take 39.9 kW
    let one = text("H 2 1 1 / Z 0 0 / Z 1 0 / B 0 0 1 0 / C 0 100 0 150 150 7000 30 0 30000 0");
    let wanted = "
Border 0, zone 0 to zone 1: ATC 0 MW.
It starts at 0 MW; the rounds raised it by less than 1 MW, last in round 1 of 1.
Row 0 stopped it.
RAM of row 0 is 0.040 MW = Base -0.050 + AMR 0.120 - CVA 0.030.
No rights load it; 0.039 MW were shared out in the rounds, and less than 1 kW is left.
In kW, 0.10000 are left, and one kW more on border 0 takes 0.30000.
Behind row 0 no kept row limits border 0.
";
    assert_eq!(said_of(&one, None, 0), by_lines(wanted));
}

#[test]
fn intraday_both_ways() {
    // the rights of 7 MW lift RAM to 3500 kW, and that is all they do; half of T loads the row
    let hour = |t: i64, iva: i64| {
        text(&format!(
            "H 2 1 1 / Z 0 0 / Z 1 0 / T 0 {t} / T 1 {} / B 0 0 1 7 / C 0 1000 0 0 0 0 0 {iva} 50000 0",
            -t
        ))
    };
    let said = said_of(&hour(0, 0), None, 0);
    assert_eq!(said[0], "Border 0, zone 0 to zone 1: ATC 7 MW in addition to the allocated positions.");
    assert_eq!(said[1], "It starts at 0 MW; the rounds raised it by 7 MW, last in round 1 of 1.");
    assert_eq!(said[3], "RAM of row 0 is 3.500 MW = Base 1.000 + LTA margin 2.500.");
    for (t, iva, wanted) in [
        (0, 0, "take 0.000 MW of it; 3.500 MW were shared out in the rounds, and nothing is left."),
        (1_001, 0, "take 0.500 MW of it; 2.999 MW were shared out in the rounds, and nothing is left."),
        (7_000, 0, "take 3.500 MW of it; nothing was shared out in the rounds, and nothing is left."),
        (-1, 0, "relieve it by <0.001 MW; 3.500 MW were shared out in the rounds, and nothing is left."),
        (-3_000, 5_000, "relieve it by 1.500 MW; nothing was shared out in the rounds, and nothing is left."),
        (7_001, 0, "put 3.500 MW on it, <0.001 MW more than its RAM: it has nothing to give to any border that loads it."),
        (-1_000, 5_000, "put -0.500 MW on it, 1.000 MW more than its RAM: it has nothing to give to any border that loads it."),
    ] {
        let said = said_of(&hour(t, iva), None, 0);
        assert_eq!(said[4], format!("The allocated positions {wanted}"));
        assert_eq!(said.last().unwrap(), "Behind row 0 no kept row limits border 0.");
    }
    let said = said_of(&hour(7_000, 0), None, 0);
    assert_eq!(said[1], "It starts at 0 MW, and there was no round: no border could be raised.");
    assert_eq!(said_of(&hour(0, 5_000), None, 0)[3], "RAM of row 0 is -1.500 MW = Base 1.000 + LTA margin 2.500 - IVA 5.000.");
}

// ------------------------------------------------------------------ random tables

/// The kept rows' margins after so many rounds, from those at the start.
fn margins_after(p: &[Vec<i64>], n: &[i64], start: &[i64], rising: &[bool], rounds: u64) -> Vec<i64> {
    let mut margins = start.to_vec();
    for _ in 0..rounds {
        let raise = |border: usize| {
            let shares = (0..p.len()).filter(|row| p[*row][border] > 0).map(|row| margins[row] / n[row] / p[row][border]);
            if rising[border] { shares.min().unwrap() } else { 0 }
        };
        let raises: Vec<i64> = (0..rising.len()).map(raise).collect();
        for (row, margin) in margins.iter_mut().enumerate() {
            *margin -= p[row].iter().zip(&raises).map(|(p, raise)| p * raise).sum::<i64>();
        }
    }
    margins
}

fn check_reasons(t: &Tables, marks: Option<&[u64]>, seen: &mut [usize; 8]) {
    let h = t.header;
    let outcome = match marks {
        Some(marks) => marked(t, marks),
        None => out(t),
    };
    let Ok(outcome) = outcome else {
        assert_eq!(why(t.lend(), marks, 0, ROOM).err(), outcome.err());
        seen[0] += 1;
        return;
    };
    let rising: Vec<bool> = (0..h.borders as u64).map(|b| marks.is_none_or(|marks| marks.contains(&b))).collect();
    let kept: Vec<usize> = (0..h.rows).filter(|row| outcome.rows[*row].state == 0).collect();
    let own = |row: usize| &t.f[row * h.zones..(row + 1) * h.zones];
    let factors = |row: &usize| -> Vec<i64> { t.b.iter().map(|b| factor_by_hand(own(*row), b).max(0)).collect() };
    let p: Vec<Vec<i64>> = kept.iter().map(factors).collect();
    let shares = |p: &Vec<i64>| p.iter().zip(&rising).filter(|(p, rising)| **p > 0 && **rising).count() as i64;
    let n: Vec<i64> = p.iter().map(shares).collect();
    let parts = margins(t.lend(), h.rows).unwrap();
    let start: Vec<i64> = kept.iter().map(|row| parts[*row][11]).collect();
    let rounds = rounds_of(t, marks).unwrap();
    for border in 0..h.borders {
        let found = rounds.reasons(border);
        assert_eq!(why(t.lend(), marks, border as u64, [h.rows * h.borders, h.borders, h.rows]).as_ref(), Ok(&found));
        assert_eq!((found.rounds, found.last, found.named), (outcome.rounds, outcome.last[border], outcome.stop[border]));
        assert_eq!(found.p, outcome.p);
        let ends: Vec<u64> = found.ends.iter().map(|ends| ends[1] as u64).collect();
        assert_eq!(ends, outcome.kw);
        let froms = t.b.iter().map(|b| if h.intraday == INTRADAY { 0 } else { b[LTA] * 1_000 });
        assert!(found.ends.iter().map(|ends| ends[0]).eq(froms));
        let rises: Vec<i64> = found.ends.iter().map(|[from, to]| to - from).collect();
        // the first row that gives it nothing after its last round
        let after = margins_after(&p, &n, &start, &rising, found.last);
        let stops = |at: &usize| rising[border] && p[*at][border] > 0 && after[*at] / n[*at] / p[*at][border] == 0;
        let ended = (0..kept.len()).find(stops).map(|at| kept[at]);
        assert_eq!(found.ended, ended);
        assert_eq!(ended.is_some(), rising[border]);
        for row in (0..h.rows).filter(|row| !kept.contains(row)) {
            assert_eq!(found.rows[row], [0, -1, -1]);
        }
        for (at, row) in kept.iter().enumerate() {
            let [sharers, left, allowed] = found.rows[*row];
            assert_eq!((sharers, i128::from(left)), (n[at], outcome.rows[*row].left.unwrap()));
            // the explanation adds up
            assert_eq!(start[at], p[at].iter().zip(&rises).map(|(p, rise)| p * rise).sum::<i64>() + left);
            let p = p[at][border];
            if !rising[border] || p == 0 {
                assert_eq!(allowed, -1);
                continue;
            }
            // it allows so many kW and not one more
            assert!(allowed >= 0 && allowed * p <= left / n[at] && (allowed + 1) * p > left / n[at]);
            assert_eq!(allowed == 0, left / n[at] < p);
        }
        if let Some(ended) = found.ended {
            assert_eq!(found.rows[ended][2], 0);
            seen[if Some(ended) == found.named { 1 } else { 2 }] += 1;
            seen[3] += usize::from(found.last == 0);
            seen[4] += usize::from(found.last > 0 && found.last < found.rounds);
        } else {
            seen[5] += 1;
        }
        let said = lines(t, &found, border);
        assert!(said.len() <= 10 && said.iter().all(|line| line.ends_with('.')));
        seen[6] += usize::from(said.len() == 9);
        seen[7] += usize::from(said.get(2).is_some_and(|line| line.contains(" more stop")));
    }
}

#[test]
fn reasons_of_random_tables() {
    let mut d = Dice(45);
    let mut seen = [0; 8];
    for turn in 0..3_000 {
        let t = random_tables(&mut d, 8, 12);
        check_reasons(&t, None, &mut seen);
        let marks: Vec<u64> = (0..t.header.borders as u64).filter(|_| d.one_in(2)).collect();
        if turn % 2 == 0 && !marks.is_empty() {
            check_reasons(&t, Some(&marks), &mut seen);
        }
    }
    println!("refused, named row, another row, no round raised it, some did, not marked, nine lines, more stop: {seen:?}");
    assert!(seen[..6].iter().all(|seen| *seen > 100) && seen[6] > 20, "{seen:?}");
}
