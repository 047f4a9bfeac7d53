//! Why a border got no more, in words: at most ten lines.  MW have three decimals and kW
//! five; what is beyond is cut off, never rounded.

use super::why::{judge_border, rounds_of, Reasons};
use super::{grains, margin_of, read_corrected, remainder_of, Margin, Refusal, Tables};
use super::{ALL_ROOM, CVA, FROM, GRAINS_PER_KW, INTRADAY, IVA, KW_PER_MW, NO_HUB, RECEIVING, SENDING, TO};

/// So many rows or borders are named one by one.
const NAMED: usize = 3;

/// MW with three decimals; what is not 0 but under the last of them is said to be.
pub fn mw(grains: i128) -> String {
    let sign = if grains < 0 { "-" } else { "" };
    let kw = grains.abs() / GRAINS_PER_KW;
    if kw == 0 && grains != 0 {
        return format!("{sign}<0.001");
    }
    format!("{sign}{}.{:03}", kw / KW_PER_MW, kw % KW_PER_MW)
}

/// kW with five decimals, which are the grains; a factor has as many.
fn kw(grains: i128) -> String {
    format!("{}.{:05}", grains / GRAINS_PER_KW, grains % GRAINS_PER_KW)
}

/// 1; 1 and 2; 1, 2 and 3; 1, 2, 3 and 5 more
pub fn listed(items: &[String]) -> String {
    let named = &items[..items.len().min(NAMED)];
    let more = items.len() - named.len();
    if more > 0 {
        return format!("{} and {more} more", named.join(", "));
    }
    match named {
        [front @ .., last] if !front.is_empty() => format!("{} and {last}", front.join(", ")),
        _ => named.concat(),
    }
}

fn rows_listed(rows: &[usize]) -> String {
    let numbers: Vec<String> = rows.iter().map(|row| row.to_string()).collect();
    format!("{} {}", if rows.len() == 1 { "row" } else { "rows" }, listed(&numbers))
}

/// A border and its reasons.
struct Asked<'a> {
    tables: &'a Tables,
    reasons: &'a Reasons,
    border: usize,
}

impl Asked<'_> {
    fn intraday(&self) -> bool {
        self.tables.header.intraday == INTRADAY
    }

    /// ATC in MW.
    fn atc(&self, border: usize) -> i128 {
        i128::from(self.reasons.ends[border][1]) / KW_PER_MW
    }

    /// p of a border on a row.
    fn p(&self, row: usize, border: usize) -> i128 {
        i128::from(self.reasons.p[row * self.tables.header.borders + border])
    }

    /// What a border at its whole ATC puts on a row, in grains.
    fn use_of(&self, row: usize, border: usize) -> i128 {
        self.p(row, border) * self.atc(border) * KW_PER_MW
    }

    /// The rows that hold the border at the end.
    fn holding(&self) -> Vec<usize> {
        (0..self.reasons.rows.len()).filter(|row| self.reasons.rows[*row][2] == 0).collect()
    }

    /// "3, 4 to 9", for the border 3 from zone 4 to zone 9.
    fn way(&self, border: usize) -> String {
        let record = self.tables.b[border];
        format!("{border}, {} to {}", record[FROM], record[TO])
    }

    fn which(&self) -> String {
        let record = self.tables.b[self.border];
        let hubs = match record[SENDING] {
            NO_HUB => String::new(),
            sending => format!(" (hubs {sending} and {})", record[RECEIVING]),
        };
        let beside = if self.intraday() { " in addition to the allocated positions" } else { "" };
        format!(
            "Border {}, zone {} to zone {}{hubs}: ATC {} MW{beside}.",
            self.border,
            record[FROM],
            record[TO],
            self.atc(self.border)
        )
    }

    /// Where it starts, and how far the rounds raised it.
    fn rise(&self) -> String {
        let start = i128::from(self.reasons.ends[self.border][0]) / KW_PER_MW;
        let rights = if self.intraday() || start == 0 { "" } else { "its rights of " };
        let Reasons { rounds, last, ended, .. } = self.reasons;
        if ended.is_none() {
            return format!("It is not marked: it stays where it starts, at {rights}{start} MW, and no row stopped it.");
        }
        if *rounds == 0 {
            return format!("It starts at {rights}{start} MW, and there was no round: no border could be raised.");
        }
        if *last == 0 {
            return format!("It starts at {rights}{start} MW, and no round raised it.");
        }
        let by = match self.atc(self.border) - start {
            0 => "less than 1".to_string(),
            by => by.to_string(),
        };
        format!("It starts at {rights}{start} MW; the rounds raised it by {by} MW, last in round {last} of {rounds}.")
    }

    /// The row that ended its rise, the others that hold it, and which the result names.
    fn stopped(&self, ended: usize, named: usize) -> String {
        let since = match ended == named {
            true => String::new(),
            false => format!(", from round {} on", self.reasons.last + 1),
        };
        let line = format!("Row {ended} stopped it{since}.");
        let others: Vec<usize> = self.holding().into_iter().filter(|row| *row != ended).collect();
        if others.is_empty() {
            return line;
        }
        let stop = if others.len() == 1 { "stops" } else { "stop" };
        let first = match (ended == named, others.len()) {
            (true, _) => String::new(),
            (false, 1) => ", and the result names that row because it comes first".to_string(),
            (false, _) => format!(", and the result names row {named} because it comes first"),
        };
        format!("{line} At the end {} {stop} it too{first}.", rows_listed(&others))
    }

    /// What the row's RAM is made of.
    fn ram(&self, row: usize, m: &Margin) -> String {
        let [cva, iva] = [CVA, IVA].map(|place| grains(self.tables.c[row][place]));
        let mut line = format!("RAM of row {row} is {} MW = Base {}", mw(m.ram), mw(m.base));
        for (part, value) in [("+ AMR", m.amr), ("+ LTA margin", m.lta_margin), ("- CVA", cva), ("- IVA", iva)] {
            if value != 0 {
                line += &format!(" {part} {}", mw(value));
            }
        }
        line + "."
    }

    /// How the row's margin was used; that is all where it had none for any border.
    fn used(&self, row: usize, m: &Margin) -> String {
        let left = i128::from(self.reasons.rows[row][1]);
        let remainder = remainder_of(self.tables, row, m.ram);
        let (start, before) = match self.intraday() {
            true => {
                let load = m.ram - remainder;
                if remainder < 0 {
                    return format!(
                        "The allocated positions put {} MW on it, {} MW more than its RAM: it has nothing to give to any border that loads it.",
                        mw(load),
                        mw(-remainder)
                    );
                }
                (remainder, match load < 0 {
                    true => format!("The allocated positions relieve it by {} MW", mw(-load)),
                    false => format!("The allocated positions take {} MW of it", mw(load)),
                })
            }
            false => (m.ram - m.s, match m.s {
                0 => "No rights load it".to_string(),
                s => format!("The rights of all borders take {} MW of it", mw(s)),
            }),
        };
        let shared = match start - left {
            0 => "nothing was".to_string(),
            shared => format!("{} MW were", mw(shared)),
        };
        let rest = match left {
            0 => "nothing is".to_string(),
            some if some < GRAINS_PER_KW => "less than 1 kW is".to_string(),
            much => format!("{} MW are", mw(much)),
        };
        format!("{before}; {shared} shared out in the rounds, and {rest} left.")
    }

    /// That the border's equal share of what is left is under what one more kW takes.
    fn share(&self, row: usize) -> Option<String> {
        let [n, left, _] = self.reasons.rows[row].map(i128::from);
        let takes = format!("one kW more on border {} takes {}.", self.border, kw(self.p(row, self.border)));
        match (left, n) {
            (0, _) => None,
            (_, 1) => Some(format!("In kW, {} are left, and {takes}", kw(left))),
            _ => Some(format!(
                "In kW, {} are left; an equal share for each of its {n} borders is {}, and {takes}",
                kw(left),
                kw(left / n)
            )),
        }
    }

    /// The borders that use most of the row, the lower index first where two use the same.
    fn users(&self, row: usize) -> Vec<usize> {
        let mut users: Vec<usize> = (0..self.tables.header.borders).filter(|b| self.use_of(row, *b) > 0).collect();
        users.sort_by_key(|border| (-self.use_of(row, *border), *border));
        users.truncate(NAMED);
        users
    }

    fn most(&self, row: usize, users: &[usize]) -> Option<String> {
        let each: Vec<String> =
            users.iter().map(|user| format!("border {} ({} MW)", self.way(*user), mw(self.use_of(row, *user)))).collect();
        match each.len() {
            0 => None,
            1 => Some(format!("Only {} uses row {row}.", each[0])),
            _ => Some(format!("Most of row {row} is used by {}.", listed(&each))),
        }
    }

    /// The border's own use, where it is none of those that use most.
    fn own(&self, row: usize, users: &[usize]) -> Option<String> {
        let (border, atc) = (self.border, self.atc(self.border));
        if atc == 0 || users.contains(&border) {
            return None;
        }
        let [used, factor] = [mw(self.use_of(row, border)), kw(self.p(row, border))];
        Some(format!("Border {border} uses {used} MW of it: {atc} MW times its factor {factor}."))
    }

    /// The row that would hold it next.
    fn behind(&self) -> String {
        let border = self.border;
        let holding = rows_listed(&self.holding());
        let still = |row: &usize| self.reasons.rows[*row][2];
        let next = (0..self.reasons.rows.len()).filter(|row| still(row) > 0).min_by_key(|row| (still(row), *row));
        match next {
            None => format!("Behind {holding} no kept row limits border {border}."),
            Some(row) => format!(
                "Next behind {holding}: row {row}, whose equal share would raise border {border} by {} MW in one round.",
                mw(i128::from(still(&row)) * GRAINS_PER_KW)
            ),
        }
    }
}

/// The lines about a border of a table that is accepted.
pub fn lines(tables: &Tables, reasons: &Reasons, border: usize) -> Vec<String> {
    let asked = Asked { tables, reasons, border };
    let mut lines = vec![asked.which(), asked.rise()];
    let (Some(row), Some(named)) = (reasons.ended, reasons.named) else {
        return lines;
    };
    let margin = margin_of(tables, row);
    let users = asked.users(row);
    lines.push(asked.stopped(row, named));
    lines.push(asked.ram(row, &margin));
    lines.push(asked.used(row, &margin));
    lines.extend(asked.share(row));
    lines.extend(asked.most(row, &users));
    lines.extend(asked.own(row, &users));
    lines.push(asked.behind());
    lines
}

/// The words about a border of the merged table, or its refusal.
pub fn explained(text: &[u8], sheet: &[u8], marks: Option<&[u64]>, border: u64) -> Result<Vec<u8>, Refusal> {
    let tables = read_corrected(text, sheet, ALL_ROOM)?;
    judge_border(&tables, marks, border)?;
    let reasons = rounds_of(&tables, marks)?.reasons(border as usize);
    let lines = lines(&tables, &reasons, border as usize);
    Ok((lines.join("\n") + "\n").into_bytes())
}

/// What is said of a border that is not there; the place of that refusal is how many
/// borders there are.
pub fn no_border(border: u64, borders: usize) -> String {
    format!("keravnoth: there is no border {border}: the table has borders 0 to {}", borders - 1)
}
