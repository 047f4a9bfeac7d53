//! Compares the calculator's C interface with the reference calculator
//! (second.rs): every answer, and every number or byte of every lent buffer,
//! on tables, texts and lent tables made from a seed.  Another process makes
//! the calls (calls.rs, wire.rs).
//!
//! Arguments: that process's program and its own arguments, "--", number of
//! tables, number of damaged texts, seed (each number may be left out).  At the
//! first difference both answers, the table and how to see it again are printed and
//! the exit code is 1; a call that ends the process is a difference too.  With the
//! fixed seed a run that does not reach every refusal number and the other cases
//! listed in `wanted` fails too.  With another seed a case may be missed by chance:
//! such a run only says so.
//!
//! With SHOW_CASES set, how often each case was reached; with SHOW_EACH set,
//! each table's and text's number before it is tried (for a library that does
//! not come back).

#[path = "calls.rs"]
mod calls;
#[path = "claim_cases.rs"]
mod claim_cases;
#[path = "claim_lists.rs"]
mod claim_lists;
#[path = "damage.rs"]
mod damage;
#[path = "dice.rs"]
mod dice;
#[path = "known.rs"]
mod known;
#[path = "lent.rs"]
mod lent;
#[path = "make.rs"]
mod make;
#[path = "marks.rs"]
mod marks;
#[path = "noon_cases.rs"]
mod noon_cases;
#[path = "noon_sheets.rs"]
mod noon_sheets;
#[path = "promises.rs"]
mod promises;
#[path = "row_cases.rs"]
mod row_cases;
#[path = "row_sheets.rs"]
mod row_sheets;
#[path = "second.rs"]
mod second;
#[path = "seen.rs"]
mod seen;
#[path = "sheets.rs"]
mod sheets;
#[path = "tables.rs"]
mod tables;
#[path = "ways.rs"]
mod ways;
#[path = "why_cases.rs"]
mod why_cases;

use calls::wire::HEADER_WORDS;
use calls::{Bridge, Ended, Extracted, Flows, Read, Written};
use dice::Dice;
use lent::{Counts, Lent, LentTables};
use second::{Header, Outcome, Refusal, Tables, NO_BYTE};
use seen::{share_of, wanted};
use std::collections::BTreeMap;
use std::ffi::OsString;
use ways::HOURS;

const TABLES: u64 = 20_000;
const TEXTS: u64 = 20_000;
/// The fixed seed, of a run to which none is given.
const SEED: u64 = 20_260_101;

/// One table in so many has, beside it, a table made for the corner sheet.
const SHEET_EVERY: u64 = 30;
/// One table in so many has, beside it, tables made for the hubs, for the default
/// of R, and for T.
const HUBS_EVERY: u64 = 8;
const SHARES_EVERY: u64 = 8;
const T_EVERY: u64 = 8;
/// One table in so many has, beside it, a bad list of marks.
const MARKS_EVERY: u64 = 8;
/// One table in so many has, beside it, a bad correction sheet.
const BAD_SHEETS_EVERY: u64 = 8;
/// .. a bad correction sheet of semicolon rows.
const NOON_EVERY: u64 = 8;
/// One table in so many has, beside it, a table made for claims.
const CLAIMS_EVERY: u64 = 4;
/// One table in so many has, beside it, a table made for sheets of rows.
const ROWS_EVERY: u64 = 4;
/// One table in so many has, beside it, bad lists of marks and bad tables for the bound and
/// the margins, and a table of a few kW.
const KNOWN_EVERY: u64 = 8;
/// .. a table for the reasons of a border.
const WHY_EVERY: u64 = 4;
/// .. a border that is none.
const NO_BORDER_EVERY: u64 = 8;

/// The refusals that a run meets.
const REFUSALS: [usize; 14] = [1, 2, 3, 4, 5, 6, 7, 8, 9, 10, 11, 12, 13, 14];

struct Comparison {
    bridge: Bridge,
    /// where the small texts are damaged
    places: Vec<damage::Place>,
    /// where the small correction sheet is damaged
    sheet_places: Vec<damage::Place>,
    /// where the small correction sheet of semicolon rows is damaged
    noon_places: Vec<damage::Place>,
    /// small lists of claims, and where each is damaged
    list_places: Vec<(Vec<u8>, damage::Place)>,
    /// where the small sheets of rows are damaged
    row_places: Vec<(usize, damage::Place)>,
    seed: u64,
    /// the command that makes the same run
    again: String,
    kind: &'static str,
    number: u64,
    calls: u64,
    texts: u64,
    accepted: u64,
    exchanges: u64,
    corners: u64,
    positions: u64,
    most_rounds: u64,
    /// how often each number was the answer, 0: no refusal
    numbers: [u64; 15],
    /// how often each other case was reached
    seen: BTreeMap<String, u64>,
}

impl Comparison {
    fn see(&mut self, what: &str) {
        match self.seen.get_mut(what) {
            Some(count) => *count += 1,
            None => {
                self.seen.insert(what.to_string(), 1);
            }
        }
    }

    fn fail(&self, call: &str, details: &str, shown: &[u8]) -> ! {
        println!("DIFFERENCE in {call}");
        println!("seed {}, {} number {}, call number {}", self.seed, self.kind, self.number, self.calls);
        println!("to see it again: {}", self.again);
        println!("{details}");
        println!("the table's text ({} bytes):", shown.len());
        match std::str::from_utf8(shown) {
            Ok(text) if !text.contains(|c: char| c.is_control() && c != '\n' && c != '\t') => {
                println!("{text}")
            }
            _ => println!("{}", shown.escape_ascii()),
        }
        std::process::exit(1);
    }

    /// What the bridge said; a bridge that ended is a difference.
    fn said<T>(&mut self, call: &str, found: Result<T, Ended>, shown: &dyn Fn() -> Vec<u8>) -> T {
        match found {
            Ok(found) => found,
            Err(Ended(how)) => {
                self.calls += 1;
                self.fail(call, &format!("the process that makes the calls ended: {how}"), &shown())
            }
        }
    }

    fn count(&mut self, call: &str, number: u32) {
        self.calls += 1;
        self.numbers[number as usize] += 1;
        self.see(&format!("{call} {number}"));
    }

    fn read(&mut self, d: &mut Dice, text: &[u8], room: Counts) -> Result<Tables, Refusal> {
        self.read_by(d, text, None, room)
    }

    /// With a correction sheet, or without one.
    fn read_by(
        &mut self,
        d: &mut Dice,
        text: &[u8],
        sheet: Option<&[u8]>,
        room: Counts,
    ) -> Result<Tables, Refusal> {
        let mut lent_text = Lent::holding(d, text, text.len());
        let mut lent_sheet = sheet.map(|sheet| Lent::holding(d, sheet, sheet.len()));
        let mut z = Lent::room(d, room[0]);
        let mut t = Lent::room(d, room[1]);
        let mut b = Lent::room(d, room[2]);
        let mut c = Lent::room(d, room[3]);
        let mut f = Lent::room(d, room[4]);
        let lent = calls::Lent {
            header: [0; HEADER_WORDS],
            z: &mut z.whole,
            t: &mut t.whole,
            b: &mut b.whole,
            c: &mut c.whole,
            f: &mut f.whole,
        };
        let given = lent_sheet.as_mut().map(|lent| &mut lent.whole[..]);
        let found = self.bridge.read(&mut lent_text.whole, given, lent);
        let call = if sheet.is_some() { "keravnoth_read_corrected" } else { "keravnoth_read" };
        let shown = || sheets::with_sheet(text, sheet);
        let found = self.said(call, found, &shown);
        let reference = match sheet {
            Some(sheet) => second::read_corrected(text, sheet, room),
            None => second::read(text, room),
        };
        let none = Tables {
            header: Header { zones: 0, borders: 0, rows: 0, share: 0, intraday: 0 },
            z: vec![],
            t: vec![],
            b: vec![],
            c: vec![],
            f: vec![],
        };
        let (Refusal { number, place, byte }, tables) = match &reference {
            Ok(tables) => (NO_REFUSAL, tables),
            Err(refusal) => (*refusal, &none),
        };
        let Header { zones, borders, rows, share, intraday } = tables.header;
        let wanted = Read { number: number.into(), place, byte, zones, borders, rows, share, intraday };
        self.count(call, number);
        if found != wanted {
            let details = format!("library {found:?}\nreference {wanted:?}\nroom {room:?}");
            self.fail(call, &details, &shown());
        }
        let fault = z
            .fault("z", &tables.z)
            .or_else(|| t.fault("t", &tables.t))
            .or_else(|| b.fault("b", &tables.b))
            .or_else(|| c.fault("c", &tables.c))
            .or_else(|| f.fault("f", &tables.f))
            .or_else(|| lent_text.fault("text", &[]))
            .or_else(|| lent_sheet.and_then(|lent| lent.fault("sheet", &[])));
        if let Some(fault) = fault {
            let details = format!("{fault}\nboth answer {wanted:?}\nroom {room:?}");
            self.fail(call, &details, &shown());
        }
        reference
    }

    fn text_call(
        &mut self,
        call: &str,
        found: Written,
        out: &Lent<u8>,
        reference: &Result<Vec<u8>, Refusal>,
        fault: Option<String>,
        shown: &dyn Fn() -> Vec<u8>,
    ) {
        let (Refusal { number, place, byte }, text): (Refusal, &[u8]) = match reference {
            Ok(text) => (NO_REFUSAL, text),
            Err(refusal) => (*refusal, &[]),
        };
        let wanted = Written { number: number.into(), place, byte, bytes: text.len() };
        self.count(call, number);
        if found != wanted {
            let details = format!(
                "library {found:?}\nreference {wanted:?}\nroom {}\nlibrary's text:\n{}\nreference's text:\n{}",
                out.count,
                out.part()[..found.bytes.min(out.count)].escape_ascii(),
                text.escape_ascii()
            );
            self.fail(call, &details, &shown());
        }
        if let Some(fault) = out.fault("out", text).or(fault) {
            let details = format!(
                "{fault}\nboth answer {wanted:?}\nlibrary's text:\n{}\nreference's text:\n{}",
                out.part()[..text.len()].escape_ascii(),
                text.escape_ascii()
            );
            self.fail(call, &details, &shown());
        }
    }

    fn write(&mut self, d: &mut Dice, l: &mut LentTables, room: usize) -> Result<Vec<u8>, Refusal> {
        let reference = second::write(l.part(), room);
        let mut out = Lent::room(d, room);
        let found = self.bridge.write(l.lend(), &mut out.whole);
        let found = self.said("keravnoth_write", found, &|| l.shown());
        self.text_call("keravnoth_write", found, &out, &reference, l.fault(), &|| l.shown());
        reference
    }

    fn result_text(&mut self, d: &mut Dice, l: &mut LentTables, room: usize) -> Result<Vec<u8>, Refusal> {
        let reference = second::result_text(l.part(), room);
        let mut out = Lent::room(d, room);
        let found = self.bridge.result_text(l.lend(), &mut out.whole);
        let found = self.said("keravnoth_result_text", found, &|| l.shown());
        self.text_call("keravnoth_result_text", found, &out, &reference, l.fault(), &|| l.shown());
        reference
    }

    /// `answer` is the reference's answer to the text.
    fn answer(&mut self, d: &mut Dice, text: &[u8], answer: &[u8], room: usize) {
        let mut lent_text = Lent::holding(d, text, text.len());
        let mut out = Lent::room(d, room);
        let found = self.bridge.answer(&mut lent_text.whole, &mut out.whole);
        let found = self.said("keravnoth_answer", found, &|| text.to_vec());
        let fault = lent_text.fault("text", &[]);
        self.answer_call("keravnoth_answer", found, &out, answer, fault, &|| text.to_vec());
    }

    /// `answer` is what the reference says, where there is room for it.
    fn answer_call(
        &mut self,
        call: &str,
        found: Written,
        out: &Lent<u8>,
        answer: &[u8],
        fault: Option<String>,
        shown: &dyn Fn() -> Vec<u8>,
    ) {
        let reference = if out.count < answer.len() {
            Err(Refusal { number: 8, place: answer.len(), byte: NO_BYTE })
        } else {
            Ok(answer.to_vec())
        };
        if let (Ok(_), Some(number)) = (&reference, e_number(answer)) {
            self.numbers[number] += 1;
            self.see(&format!("{call} E {number}"));
        }
        self.text_call(call, found, out, &reference, fault, shown);
    }

    /// `room`: the items of p, atc and left.
    fn extract(&mut self, d: &mut Dice, l: &mut LentTables, room: [usize; 3]) -> Result<Outcome, Refusal> {
        self.extract_by(d, l, None, room)
    }

    /// The extraction with a list of marks, or without one.
    fn extract_by(
        &mut self,
        d: &mut Dice,
        l: &mut LentTables,
        marks: Option<&[u64]>,
        room: [usize; 3],
    ) -> Result<Outcome, Refusal> {
        let reference = extracted(l, marks, room);
        let mut p = Lent::room(d, room[0]);
        let mut atc = Lent::room(d, room[1]);
        let mut left = Lent::room(d, room[2]);
        let mut lent_marks = marks.map(|marks| Lent::holding(d, marks, marks.len()));
        let given = lent_marks.as_mut().map(|lent| &mut lent.whole[..]);
        let found = self.bridge.extract(l.lend(), &mut p.whole, given, &mut atc.whole, &mut left.whole);
        let call = if marks.is_some() { "keravnoth_extract_marked" } else { "keravnoth_extract" };
        let shown = || with_marks(l.shown(), marks);
        let found = self.said(call, found, &shown);
        let mut wanted_p: &[u64] = &[];
        let mut wanted_atc: Vec<[i64; 3]> = Vec::new();
        let mut wanted_left: Vec<[i64; 3]> = Vec::new();
        let (Refusal { number, place, byte }, rounds) = match &reference {
            Ok(o) => {
                wanted_p = &o.p;
                wanted_atc.extend((0..o.atc.len()).map(|border| {
                    let stop = o.stop[border].map_or(-1, |row| row as i64);
                    [o.atc[border] as i64, o.last[border] as i64, stop]
                }));
                wanted_left.extend(o.rows.iter().map(|row| {
                    [i64::from(row.state), row.ram as i64, row.left.map_or(-1, |margin| margin as i64)]
                }));
                (NO_REFUSAL, o.rounds)
            }
            Err(refusal) => (*refusal, 0),
        };
        let wanted = Extracted { number: number.into(), place, byte, rounds };
        self.count(call, wanted.number as u32);
        if found != wanted {
            let details = format!("library {found:?}\nreference {wanted:?}\nroom {room:?}");
            self.fail(call, &details, &shown());
        }
        let fault = p
            .fault("p", wanted_p)
            .or_else(|| atc.fault("atc", &wanted_atc))
            .or_else(|| left.fault("left", &wanted_left))
            .or_else(|| lent_marks.and_then(|lent| lent.fault("marks", &[])))
            .or_else(|| l.fault());
        if let Some(fault) = fault {
            let details = format!("{fault}\nboth answer {wanted:?}\nroom {room:?}");
            self.fail(call, &details, &shown());
        }
        match &reference {
            Ok(outcome) => {
                let rising = marks::rising(marks, l.header.borders);
                self.p_is_p(l, p.part(), left.part(), outcome);
                self.demand_3(d, l, atc.part(), left.part());
                self.bound_holds(l, &rising, found, p.part(), left.part(), outcome);
                self.stopped(l, &rising, found, p.part(), atc.part(), left.part());
            }
            Err(refusal) => self.see_p(l, marks, room, *refusal),
        }
        reference
    }

    fn corner_flows(
        &mut self,
        d: &mut Dice,
        l: &mut LentTables,
        row: usize,
        room: usize,
    ) -> Result<Vec<i128>, Refusal> {
        let reference =
            second::corner_flows(l.part(), row, room);
        let mut flows = Lent::room(d, room);
        let found = self.bridge.corner_flows(l.lend(), row, &mut flows.whole);
        let found = self.said("keravnoth_corner_flows", found, &|| l.shown());
        let (Refusal { number, place, byte }, wanted_flows): (Refusal, Vec<i64>) = match &reference {
            Ok(list) => (NO_REFUSAL, list.iter().map(|flow| *flow as i64).collect()),
            Err(refusal) => (*refusal, vec![]),
        };
        let wanted = Flows { number: number.into(), place, byte, corners: wanted_flows.len() };
        self.count("keravnoth_corner_flows", wanted.number as u32);
        if found != wanted {
            let details = format!("library {found:?}\nreference {wanted:?}\nrow {row}, room {room}");
            self.fail("keravnoth_corner_flows", &details, &l.shown());
        }
        let fault = flows.fault("flows", &wanted_flows).or_else(|| l.fault());
        if let Some(fault) = fault {
            let details = format!("{fault}\nboth answer {wanted:?}\nrow {row}, room {room}");
            self.fail("keravnoth_corner_flows", &details, &l.shown());
        }
        match &reference {
            Ok(list) => self.largest_is_s(l, row, &flows.part()[..list.len()]),
            Err(refusal) => self.see_corner_refusal("flows", l, row, *refusal, room),
        }
        reference
    }

    fn corner_text(
        &mut self,
        d: &mut Dice,
        l: &mut LentTables,
        row: usize,
        room: usize,
    ) -> Result<Vec<u8>, Refusal> {
        let reference =
            second::corner_text(l.part(), row, room);
        let mut out = Lent::room(d, room);
        let found = self.bridge.corner_text(l.lend(), row, &mut out.whole);
        let found = self.said("keravnoth_corner_text", found, &|| l.shown());
        self.text_call("keravnoth_corner_text", found, &out, &reference, l.fault(), &|| {
            let mut shown = l.shown();
            shown.extend(format!("(row {row}, room {room})\n").into_bytes());
            shown
        });
        match &reference {
            Ok(text) => {
                self.see(&format!("sheet text of {} borders", l.header.borders));
                if text.len() > second::MOST_BYTES {
                    self.see("sheet text over 65,536 bytes");
                }
            }
            Err(refusal) => self.see_corner_refusal("text", l, row, *refusal, room),
        }
        reference
    }
}

/// What an answer without a refusal says first.
const NO_REFUSAL: Refusal = Refusal { number: 0, place: 0, byte: NO_BYTE };

/// A refusal that no byte is to blame for.
fn refused_at(number: u32, place: usize) -> Option<Refusal> {
    Some(Refusal { number, place, byte: NO_BYTE })
}

/// The reference's extraction; `room`: the items of p, atc and left.
fn extracted(l: &LentTables, marks: Option<&[u64]>, room: [usize; 3]) -> Result<Outcome, Refusal> {
    let [p, borders, rows] = room;
    match marks {
        Some(marks) => second::extract_marked(l.part(), marks, p, borders, rows),
        None => second::extract(l.part(), p, borders, rows),
    }
}

/// What is shown of a table, and the list of marks.
fn with_marks(mut shown: Vec<u8>, marks: Option<&[u64]>) -> Vec<u8> {
    if let Some(marks) = marks {
        shown.extend(format!("(marks {marks:?})\n").into_bytes());
    }
    shown
}

/// The number of an E line; None where the answer is none.
fn e_number(answer: &[u8]) -> Option<usize> {
    let fields = answer.strip_prefix(b"E\t")?;
    let number = fields.split(|byte| *byte == b'\t').next()?;
    std::str::from_utf8(number).ok()?.parse().ok()
}

fn number(text: &str) -> Option<u64> {
    match text.strip_prefix("0x") {
        Some(hex) => u64::from_str_radix(hex, 16).ok(),
        None => text.parse().ok(),
    }
}

/// The command that makes the calls; tables, damaged texts, seed.
fn arguments() -> Option<(Vec<OsString>, [u64; 3])> {
    let mut command: Vec<OsString> = std::env::args_os().skip(1).collect();
    let end = command.iter().position(|argument| argument == "--")?;
    let numbers = command.split_off(end);
    let mut given = [TABLES, TEXTS, SEED];
    for (index, argument) in numbers[1..].iter().enumerate() {
        *given.get_mut(index)? = number(argument.to_str()?)?;
    }
    (end > 0).then_some((command, given))
}

fn main() {
    let Some((command, [tables, texts, seed])) = arguments() else {
        eprintln!("arguments: a bridge and its arguments, \"--\", tables, damaged texts, seed; each of the three a number, each may be left out");
        std::process::exit(2);
    };
    let bridge = match Bridge::start(&command) {
        Ok(bridge) => bridge,
        Err(error) => {
            eprintln!("{}: {error}", command[0].display());
            std::process::exit(2);
        }
    };
    println!("seed {seed}, {tables} tables, {texts} damaged texts");
    let mut c = Comparison {
        bridge,
        places: damage::places(),
        sheet_places: damage::sheet_places(),
        noon_places: noon_sheets::places(),
        list_places: claim_cases::list_places(),
        row_places: row_cases::row_places(),
        seed,
        again: format!("second/compare LIBRARY {tables} {texts} {seed}"),
        kind: "",
        number: 0,
        calls: 0,
        texts: 0,
        accepted: 0,
        exchanges: 0,
        corners: 0,
        positions: 0,
        most_rounds: 0,
        numbers: [0; 15],
        seen: BTreeMap::new(),
    };
    let each = std::env::var_os("SHOW_EACH").is_some();
    for number in 0..tables.max(texts) {
        if each {
            println!("table and damaged text {number}");
        }
        if number < tables {
            c.table(number);
            if number % SHEET_EVERY == 0 {
                c.sheet_table(number / SHEET_EVERY);
            }
            if number % HUBS_EVERY == 0 {
                c.hub_tables(number / HUBS_EVERY);
            }
            if number % SHARES_EVERY == 0 {
                c.share_tables(number / SHARES_EVERY);
            }
            if number % T_EVERY == 0 {
                c.t_tables(number / T_EVERY);
            }
            if number % MARKS_EVERY == 0 {
                c.mark_tables(number / MARKS_EVERY);
            }
            if number % BAD_SHEETS_EVERY == 0 {
                c.bad_sheets(number / BAD_SHEETS_EVERY);
            }
            if number % NOON_EVERY == 0 {
                c.noon_tables(number / NOON_EVERY);
            }
            if number % CLAIMS_EVERY == 0 {
                c.claim_tables(number / CLAIMS_EVERY);
            }
            if number % ROWS_EVERY == 0 {
                c.row_sheets(number / ROWS_EVERY);
            }
            if number % KNOWN_EVERY == 0 {
                c.known_tables(number / KNOWN_EVERY);
                c.few_kw(number / KNOWN_EVERY);
            }
            if number % WHY_EVERY == 0 {
                c.why_table(number / WHY_EVERY);
            }
            if number % NO_BORDER_EVERY == 0 {
                c.no_borders(number / NO_BORDER_EVERY);
            }
        }
        if number < texts {
            c.text(number);
        }
        if (number as usize) < c.places.len() {
            c.each_damage(number as usize);
        }
        if (number as usize) < c.sheet_places.len() {
            c.each_sheet_damage(number as usize);
        }
        if (number as usize) < c.noon_places.len() {
            c.each_noon_damage(number as usize);
        }
        if (number as usize) < c.list_places.len() {
            c.each_list_damage(number as usize);
        }
        if (number as usize) < c.row_places.len() {
            c.each_row_damage(number as usize);
        }
    }
    // a small run has not had them all
    for number in tables.max(texts) as usize..c.places.len() {
        c.each_damage(number);
    }
    for number in tables.max(texts) as usize..c.sheet_places.len() {
        c.each_sheet_damage(number);
    }
    for number in tables.max(texts) as usize..c.noon_places.len() {
        c.each_noon_damage(number);
    }
    for number in tables.max(texts) as usize..c.list_places.len() {
        c.each_list_damage(number);
    }
    for number in tables.max(texts) as usize..c.row_places.len() {
        c.each_row_damage(number);
    }
    // the largest of them take the second program a while: a difference is mostly seen before
    for number in 0..HOURS.len() {
        c.hour(number);
    }
    if let Err(Ended(how)) = c.bridge.end() {
        println!("DIFFERENCE after the last call: the process that makes the calls ended: {how}");
        println!("to see it again: {}", c.again);
        std::process::exit(1);
    }

    if std::env::var_os("SHOW_CASES").is_some() {
        for (name, count) in &c.seen {
            println!("  {count:8}  {name}");
        }
    }
    let size = tables + texts;
    let mut missed = Vec::new();
    for (name, count) in wanted() {
        let reached = c.seen.get(&name).copied().unwrap_or(0);
        if reached < share_of(count, size) {
            missed.push(format!("{name}: {reached}, wanted {}", share_of(count, size)));
        }
    }
    for number in REFUSALS {
        if c.numbers[number] < share_of(300, size) {
            missed.push(format!("refusal {number}: {}, wanted {}", c.numbers[number], share_of(300, size)));
        }
    }
    if c.accepted * 5 < tables * 2 {
        missed.push(format!("accepted: {} of {tables} tables, wanted two fifths", c.accepted));
    }
    let missed = missed.join("; ");
    if seed != SEED && !missed.is_empty() {
        println!("cases not reached often enough, as may be with a drawn seed: {missed}");
    }
    let refusals: Vec<String> =
        REFUSALS.map(|number| format!("{number}: {}", c.numbers[number])).to_vec();
    println!(
        "no difference: {} of {tables} tables accepted; calls by refusal {}; {} texts, {} calls compared, {} sets of exchanges within RAM, {} corners, {} net positions, most rounds {}",
        c.accepted,
        refusals.join(", "),
        c.texts,
        c.calls,
        c.exchanges,
        c.corners,
        c.positions,
        c.most_rounds
    );
    assert!(seed != SEED || missed.is_empty(), "cases not reached often enough: {missed}");
}
