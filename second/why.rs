//! Why a border got no more: the record of its reasons, over the rules' rounds.  The
//! rounds are gone through here once more, and what each leaves is kept.

use super::{floor_div, front_of, judge_room, judge_values, raise_of, refuse, rising, start_of, starting_kw};
use super::{Kept, Lent, Refusal, Start, Tables};

/// "14": the table has no such border.
pub const NO_BORDER: u32 = 14;

/// The reasons of one border.
#[derive(Clone, Debug, PartialEq, Eq)]
pub struct Reasons {
    /// rounds counted
    pub rounds: u64,
    /// the last round that raised the border, 0 if none
    pub last: u64,
    /// the row that the result names: "the first kept row with p > 0 whose equal share
    /// at the end is under one kW for it"; None where the border is not marked
    pub named: Option<usize>,
    /// the row that ended its rise: the same by the margins after the border's last
    /// round, at the start where no round raised it
    pub ended: Option<usize>,
    /// for each border where it starts and where it ends, kW
    pub ends: Vec<[i64; 2]>,
    /// for each row: how many marked borders share it, 0 where it takes no part; the
    /// margin left in grains, -1 where its state is not 0; what its equal share at the
    /// end would still allow the border in one round, kW, 0 where it holds the border, -1
    /// where p is 0 there, the row takes no part, or the border is not marked
    pub rows: Vec<[i64; 3]>,
    /// p of each row and border, as the extraction leaves it
    pub p: Vec<u64>,
}

/// The rounds of a table, and all that each of them leaves.
pub struct Rounds {
    /// where each border starts, kW
    from: Vec<i128>,
    p: Vec<u64>,
    /// the kept rows, as they are at the start
    kept: Vec<Kept>,
    rows: usize,
    /// the kept rows' margins at the start, and after each round
    margins: Vec<Vec<i128>>,
    /// how far each round raises each border, kW
    raises: Vec<Vec<i128>>,
}

/// What the equal share of a row allows a border in one round, where its margin is this:
/// floor(floor(margin / n) / p), in kW.  None where the border does not load the row, or
/// is not marked.
fn allowed(row: &Kept, margin: i128, border: usize) -> Option<i128> {
    let p = row.p[border];
    (p > 0).then(|| floor_div(floor_div(margin, row.n), p))
}

/// The rounds of a table that is judged; 5, 6 and 7 after 13, as in the extraction.
pub fn rounds_of(tables: &Tables, marks: Option<&[u64]>) -> Result<Rounds, Refusal> {
    let Start { marked, p, mut kept, .. } = start_of(tables, marks)?;
    let margins_of = |kept: &[Kept]| -> Vec<i128> { kept.iter().map(|row| row.margin).collect() };
    let mut margins = vec![margins_of(&kept)];
    let mut raises: Vec<Vec<i128>> = Vec::new();
    loop {
        let raise = |border: usize| if marked[border] { raise_of(&kept, border, &mut 0) } else { 0 };
        let round: Vec<i128> = (0..marked.len()).map(raise).collect();
        if round.iter().all(|raise| *raise == 0) {
            break;
        }
        for row in kept.iter_mut() {
            let loads = row.p.iter().zip(&round).map(|(p, raise)| p * raise);
            row.margin -= loads.sum::<i128>();
        }
        margins.push(margins_of(&kept));
        raises.push(round);
    }
    for (row, margin) in kept.iter_mut().zip(&margins[0]) {
        row.margin = *margin;
    }
    let from = tables.b.iter().map(|border| starting_kw(&tables.header, border)).collect();
    Ok(Rounds { from, p, kept, rows: tables.header.rows, margins, raises })
}

impl Rounds {
    /// "the last round that raised it (0 if none)"
    fn last(&self, border: usize) -> usize {
        let raised = |round: &Vec<i128>| round[border] > 0;
        self.raises.iter().rposition(raised).map_or(0, |round| round + 1)
    }

    /// The first kept row with p > 0 whose equal share after so many rounds is under one
    /// kW for the border.
    fn first_under_one_kw(&self, border: usize, rounds: usize) -> Option<usize> {
        let margins = &self.margins[rounds];
        let stops = |(row, margin): &(&Kept, &i128)| allowed(row, **margin, border) == Some(0);
        self.kept.iter().zip(margins).find(stops).map(|(row, _)| row.row)
    }

    fn ends(&self) -> Vec<[i64; 2]> {
        let end = |border: usize| self.from[border] + self.raises.iter().map(|round| round[border]).sum::<i128>();
        (0..self.from.len()).map(|border| [self.from[border] as i64, end(border) as i64]).collect()
    }

    /// n, the margin left, and what the row would still allow.
    fn row(&self, border: usize, row: usize) -> [i64; 3] {
        let Some(at) = self.kept.iter().position(|kept| kept.row == row) else {
            return [0, -1, -1];
        };
        let kept = &self.kept[at];
        let left = self.margins[self.raises.len()][at];
        [kept.n as i64, left as i64, allowed(kept, left, border).map_or(-1, |kw| kw as i64)]
    }

    /// The reasons of one border of the table.
    pub fn reasons(&self, border: usize) -> Reasons {
        let rounds = self.raises.len();
        let last = self.last(border);
        Reasons {
            rounds: rounds as u64,
            last: last as u64,
            named: self.first_under_one_kw(border, rounds),
            ended: self.first_under_one_kw(border, last),
            ends: self.ends(),
            rows: (0..self.rows).map(|row| self.row(border, row)).collect(),
            p: self.p.clone(),
        }
    }
}

/// 13, then 14, whose place is how many borders the table has.
pub fn judge_border(tables: &Tables, marks: Option<&[u64]>, border: u64) -> Result<(), Refusal> {
    let borders = tables.header.borders;
    rising(marks, borders)?;
    if border >= borders as u64 {
        return refuse(NO_BORDER, borders);
    }
    Ok(())
}

/// The reasons of a border of lent tables.  They are judged as for the extraction, the
/// border after the marks and before 5; last comes room for the records of borders, then
/// of rows.
pub fn why(lent: Lent, marks: Option<&[u64]>, border: u64, room: [usize; 3]) -> Result<Reasons, Refusal> {
    let header = lent.header;
    let [room_p, room_ends, room_rows] = room;
    let tables = front_of(lent)?;
    judge_room(room_p, header.rows * header.borders)?;
    judge_values(&tables)?;
    judge_border(&tables, marks, border)?;
    let rounds = rounds_of(&tables, marks)?;
    judge_room(room_ends, header.borders)?;
    judge_room(room_rows, header.rows)?;
    Ok(rounds.reasons(border as usize))
}
