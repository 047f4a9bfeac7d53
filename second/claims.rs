//! Claims of an outside solver (02, E10): which kept rows can go from the published
//! list.  Quoted sentences are those of the request.

use super::{factors_of, fields_of, judge, judge_room, line_at, margin_of, or_e_line, push_line, refuse, states_of, unsigned, within};
use super::{Lent, Refusal, Tables, MOST_BYTES};

/// "at most 16 pairs of another kept row and a multiplier"
pub const MOST_PAIRS: usize = 16;

/// A lent claim: the claimed row, D, the number of pairs, then the pairs, a row and
/// its multiplier each.  What stands behind the pairs is not looked at.
pub const CLAIM_ITEMS: usize = 3 + 2 * MOST_PAIRS;
pub type ClaimRecord = [i64; CLAIM_ITEMS];

/// D or a multiplier: "in 1..1000"
const LEAST: i64 = 1;
const MOST: i64 = 1_000;

/// A claim of a list.
struct Claim {
    /// the row that it names, whatever else is wrong with the claim; none where it is a
    /// line of wrong form
    row: Option<i64>,
    /// D and the pairs; none where it has no such number of pairs
    says: Option<(i64, Vec<(i64, i64)>)>,
}

fn claim_of(record: &ClaimRecord) -> Claim {
    let [row, denominator, count, ..] = *record;
    let says = within(count, 0, MOST_PAIRS as i64)
        .then(|| (denominator, pairs_of(&record[3..3 + 2 * count as usize])));
    Claim { row: Some(row), says }
}

fn pairs_of(numbers: &[i64]) -> Vec<(i64, i64)> {
    numbers.chunks_exact(2).map(|pair| (pair[0], pair[1])).collect()
}

/// The numbers of a line of right form: `Q`, row, D, then row and multiplier of each
/// pair, however many there are.
fn numbers_in(line: &[u8]) -> Option<Vec<i64>> {
    let (fields, ended) = fields_of(line);
    let (letter, fields) = fields.split_first()?;
    if letter.bytes != b"Q" || !ended || fields.len() < 2 || fields.len() % 2 != 0 {
        return None;
    }
    fields.iter().map(|field| unsigned(field.bytes).ok()).collect()
}

fn claim_in(line: &[u8]) -> Claim {
    let Some(numbers) = numbers_in(line) else {
        return Claim { row: None, says: None };
    };
    let pairs = pairs_of(&numbers[2..]);
    let says = (pairs.len() <= MOST_PAIRS).then(|| (numbers[1], pairs));
    Claim { row: Some(numbers[0]), says }
}

/// The claims of the text, one a line, each line of it.
fn claims_in(text: &[u8]) -> Vec<Claim> {
    let mut claims = Vec::new();
    let mut start = 0;
    while let Some(line) = line_at(text, start) {
        claims.push(claim_in(line));
        start += line.len();
    }
    claims
}

/// What the claims are judged by: state and RAM of each row.
struct Judged<'a> {
    tables: &'a Tables,
    states: Vec<u8>,
    rams: Vec<i128>,
}

impl Judged<'_> {
    fn new(tables: &Tables) -> Judged<'_> {
        let margins: Vec<super::Margin> = (0..tables.header.rows).map(|row| margin_of(tables, row)).collect();
        let states = states_of(tables, &margins);
        Judged { tables, states, rams: margins.iter().map(|margin| margin.ram).collect() }
    }

    /// A row of the table, and kept.
    fn kept(&self, row: i64) -> bool {
        within(row, 0, self.states.len() as i64 - 1) && self.states[row as usize] == 0
    }

    /// "11, a claim malformed or out of range"
    fn right_form(&self, claims: &[Claim], index: usize) -> bool {
        let claim = &claims[index];
        let (Some(row), Some((denominator, pairs))) = (claim.row, &claim.says) else {
            return false;
        };
        // "No row is claimed twice", "the later of two on one row"
        let again = claims[..index].iter().any(|earlier| earlier.row == claim.row);
        if !self.kept(row) || again || !within(*denominator, LEAST, MOST) {
            return false;
        }
        for (place, (cited, multiplier)) in pairs.iter().enumerate() {
            // "no row twice"
            let twice = pairs[..place].iter().any(|(earlier, _)| earlier == cited);
            // "no claim cites a row that any claim of the list names", its own too
            let named = claims.iter().any(|claim| claim.row == Some(*cited));
            if !self.kept(*cited) || twice || named || !within(*multiplier, LEAST, MOST) {
                return false;
            }
        }
        true
    }

    /// "the multiplied factors of the cited rows less D times those of c make one and
    /// the same number in each zone, and the multiplied RAMs sum to at most D times
    /// c's RAM".  The claim has right form.
    fn borne_out(&self, claim: &Claim) -> bool {
        let (Some(row), Some((denominator, pairs))) = (claim.row, &claim.says) else {
            return false;
        };
        let row = row as usize;
        let denominator = i128::from(*denominator);
        let mut ram = 0;
        for (cited, multiplier) in pairs {
            ram += i128::from(*multiplier) * self.rams[*cited as usize];
        }
        let mut numbers = Vec::new();
        for zone in 0..self.tables.header.zones {
            let factor = |row: usize| i128::from(factors_of(self.tables, row)[zone]);
            let mut number = -denominator * factor(row);
            for (cited, multiplier) in pairs {
                number += i128::from(*multiplier) * factor(*cited as usize);
            }
            numbers.push(number);
        }
        numbers.iter().all(|number| *number == numbers[0]) && ram <= denominator * self.rams[row]
    }

    /// "place the claim's index from 0", "first faulty claim, form before truth"
    fn judge(&self, claims: &[Claim]) -> Result<(), Refusal> {
        for index in 0..claims.len() {
            if !self.right_form(claims, index) {
                return refuse(11, index);
            }
            if !self.borne_out(&claims[index]) {
                return refuse(12, index);
            }
        }
        Ok(())
    }

    /// `D`, row, RAM for each kept row that is not claimed.
    fn published(&self, claims: &[Claim]) -> Vec<u8> {
        let mut out = Vec::new();
        for row in 0..self.states.len() {
            let claimed = claims.iter().any(|claim| claim.row == Some(row as i64));
            if self.states[row] == 0 && !claimed {
                push_line(&mut out, "D", &[row.to_string(), self.rams[row].to_string()]);
            }
        }
        out
    }
}

/// The tables judged, then the claims; "after 4, with 5 to 7 not judged".
pub fn judge_claims(lent: Lent, claims: &[ClaimRecord]) -> Result<(), Refusal> {
    let tables = judge(lent)?;
    let claims: Vec<Claim> = claims.iter().map(claim_of).collect();
    Judged::new(&tables).judge(&claims)
}

/// The published list of an accepted list of claims, as text.
fn list_text(tables: &Tables, list: &[u8]) -> Result<Vec<u8>, Refusal> {
    let claims = claims_in(list);
    let judged = Judged::new(tables);
    judged.judge(&claims)?;
    Ok(judged.published(&claims))
}

/// A list's text that is too long comes before all else.
fn judge_length(list: &[u8]) -> Result<(), Refusal> {
    if list.len() > MOST_BYTES {
        return refuse(1, 0);
    }
    Ok(())
}

/// The published list from lent tables and the text of the claims; room is in bytes.
pub fn published_text(lent: Lent, list: &[u8], room: usize) -> Result<Vec<u8>, Refusal> {
    judge_length(list)?;
    let tables = judge(lent)?;
    let text = list_text(&tables, list)?;
    judge_room(room, text.len())?;
    Ok(text)
}

/// The published list of a table that was read, or the E line.
pub fn published(read: Result<Tables, Refusal>, list: &[u8]) -> Vec<u8> {
    or_e_line(judge_length(list).and_then(|()| list_text(&read?, list)))
}
