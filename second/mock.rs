//! A bridge (see wire.rs) over the reference calculator (second.rs): a stand-in
//! for c/bridge.c over a library, to test the comparer with.

#[path = "second.rs"]
mod second;
#[path = "wire.rs"]
mod wire;

use second::claims::ClaimRecord;
use second::{Header, Refusal};
use std::fs::File;
use std::io::{BufReader, Read, Write};
use std::ops::{Deref, DerefMut};
use std::os::fd::AsFd;
use std::process::ExitCode;
use wire::{Item, AFTER, BEFORE};

/// A lent buffer with its guards; it stands for the lent part.
struct Lent<T> {
    whole: Vec<T>,
}

impl<T> Deref for Lent<T> {
    type Target = [T];

    fn deref(&self) -> &[T] {
        &self.whole[BEFORE..self.whole.len() - AFTER]
    }
}

impl<T> DerefMut for Lent<T> {
    fn deref_mut(&mut self) -> &mut [T] {
        let end = self.whole.len() - AFTER;
        &mut self.whole[BEFORE..end]
    }
}

struct LentTables {
    header: Header,
    z: Lent<i64>,
    t: Lent<i64>,
    b: Lent<[i64; 5]>,
    c: Lent<[i64; 7]>,
    f: Lent<i64>,
}

impl LentTables {
    fn lend(&self) -> second::Lent<'_> {
        second::Lent { header: self.header, z: &self.z, t: &self.t, b: &self.b, c: &self.c, f: &self.f }
    }
}

/// Number, place and byte of the refusal.
fn why(refusal: Refusal) -> [u64; 3] {
    [u64::from(refusal.number), refusal.place as u64, refusal.byte as u64]
}

fn refused(refusal: Refusal) -> [u64; 4] {
    let [number, place, byte] = why(refusal);
    [number, place, byte, 0]
}

fn text_to(text: Result<Vec<u8>, Refusal>, out: &mut Lent<u8>) -> [u64; 4] {
    match text {
        Err(refusal) => refused(refusal),
        Ok(text) => {
            out[..text.len()].copy_from_slice(&text);
            [0, 0, 0, text.len() as u64]
        }
    }
}

fn read(text: &Lent<u8>, sheet: Option<&Lent<u8>>, l: &mut LentTables) -> [u64; 8] {
    let LentTables { z, t, b, c, f, .. } = l;
    let room = [z.len(), t.len(), b.len(), c.len(), f.len()];
    let found = match sheet {
        Some(sheet) => second::read_corrected(text, sheet, room),
        None => second::read(text, room),
    };
    match found {
        Err(refusal) => {
            let zones = 0;
            let share = 0;
            let intraday = 0;
            let [number, place, byte] = why(refusal);
            [number, place, byte, zones, 0, 0, share, intraday]
        }
        Ok(tables) => {
            z[..tables.z.len()].copy_from_slice(&tables.z);
            t[..tables.t.len()].copy_from_slice(&tables.t);
            b[..tables.b.len()].copy_from_slice(&tables.b);
            c[..tables.c.len()].copy_from_slice(&tables.c);
            f[..tables.f.len()].copy_from_slice(&tables.f);
            let Header { zones, borders, rows, share, intraday } = tables.header;
            [0, 0, 0, zones as u64, borders as u64, rows as u64, share as u64, intraday]
        }
    }
}

fn write(l: &mut LentTables, out: &mut Lent<u8>) -> [u64; 4] {
    let text = second::write(l.lend(), out.len());
    text_to(text, out)
}

fn extract(
    l: &mut LentTables,
    p: &mut Lent<u64>,
    marks: Option<&Lent<u64>>,
    atc: &mut Lent<[i64; 3]>,
    left: &mut Lent<[i64; 3]>,
) -> [u64; 4] {
    let found = match marks {
        Some(marks) => second::extract_marked(l.lend(), marks, p.len(), atc.len(), left.len()),
        None => second::extract(l.lend(), p.len(), atc.len(), left.len()),
    };
    match found {
        Err(refusal) => refused(refusal),
        Ok(outcome) => {
            p[..outcome.p.len()].copy_from_slice(&outcome.p);
            for (border, mw) in outcome.atc.iter().enumerate() {
                let stop = outcome.stop[border].map_or(-1, |row| row as i64);
                atc[border] = [*mw as i64, outcome.last[border] as i64, stop];
            }
            for (item, row) in left.iter_mut().zip(&outcome.rows) {
                *item = [i64::from(row.state), row.ram as i64, row.left.map_or(-1, |m| m as i64)];
            }
            [0, 0, 0, outcome.rounds]
        }
    }
}

fn result_text(l: &mut LentTables, out: &mut Lent<u8>) -> [u64; 4] {
    let text = second::result_text(l.lend(), out.len());
    text_to(text, out)
}

fn result_text_marked(l: &mut LentTables, marks: &Lent<u64>, out: &mut Lent<u8>) -> [u64; 4] {
    let text = second::result_text_marked(l.lend(), marks, out.len());
    text_to(text, out)
}

fn bound(l: &mut LentTables, marks: Option<&Lent<u64>>) -> [u64; 7] {
    let found = match marks {
        Some(marks) => second::bound_marked(l.lend(), marks),
        None => second::bound(l.lend()),
    };
    match found {
        Err(refusal) => {
            let [number, place, byte] = why(refusal);
            [number, place, byte, 0, 0, 0, 0]
        }
        Ok(bound) => [0, 0, 0, bound.sharers, bound.bits, bound.rounds, bound.sharp],
    }
}

fn explain(
    l: &mut LentTables,
    marks: Option<&Lent<u64>>,
    border: u64,
    p: &mut Lent<u64>,
    ends: &mut Lent<[i64; 2]>,
    rows: &mut Lent<[i64; 3]>,
) -> [u64; 7] {
    let room = [p.len(), ends.len(), rows.len()];
    match second::why::why(l.lend(), marks.map(|marks| &marks[..]), border, room) {
        Err(refusal) => {
            let last = 0;
            let [number, place, byte] = why(refusal);
            [number, place, byte, 0, last, 0, 0]
        }
        Ok(found) => {
            p[..found.p.len()].copy_from_slice(&found.p);
            ends[..found.ends.len()].copy_from_slice(&found.ends);
            rows[..found.rows.len()].copy_from_slice(&found.rows);
            let row = |row: Option<usize>| row.map_or(u64::MAX, |row| row as u64);
            [0, 0, 0, found.rounds, found.last, row(found.named), row(found.ended)]
        }
    }
}

fn margins(l: &mut LentTables, parts: &mut Lent<[i64; 12]>) -> [u64; 3] {
    match second::margins(l.lend(), parts.len()) {
        Err(refusal) => why(refusal),
        Ok(found) => {
            parts[..found.len()].copy_from_slice(&found);
            [0, 0, 0]
        }
    }
}

fn corner_flows(l: &mut LentTables, row: usize, flows: &mut Lent<i64>) -> [u64; 4] {
    match second::corner_flows(l.lend(), row, flows.len()) {
        Err(refusal) => refused(refusal),
        Ok(found) => {
            for (item, flow) in flows.iter_mut().zip(&found) {
                *item = *flow as i64;
            }
            [0, 0, 0, found.len() as u64]
        }
    }
}

fn corner_text(l: &mut LentTables, row: usize, out: &mut Lent<u8>) -> [u64; 4] {
    let text = second::corner_text(l.lend(), row, out.len());
    text_to(text, out)
}

fn judged(judgement: Result<(), Refusal>) -> [u64; 3] {
    judgement.map_or_else(why, |()| [0; 3])
}

fn judge_claims(l: &mut LentTables, claims: &mut Lent<ClaimRecord>) -> [u64; 3] {
    judged(second::claims::judge_claims(l.lend(), claims))
}

fn published_text(l: &mut LentTables, list: &mut Lent<u8>, out: &mut Lent<u8>) -> [u64; 4] {
    let text = second::claims::published_text(l.lend(), list, out.len());
    text_to(text, out)
}

fn read_rows(header: Header, sheet: &Lent<u8>, c: &mut Lent<[i64; 7]>, f: &mut Lent<i64>) -> [u64; 3] {
    match second::rows::read_rows(header, sheet, [c.len(), f.len()]) {
        Err(refusal) => why(refusal),
        Ok((rows, factors)) => {
            c[..rows.len()].copy_from_slice(&rows);
            f[..factors.len()].copy_from_slice(&factors);
            [0; 3]
        }
    }
}

fn write_rows(header: Header, c: &mut Lent<[i64; 7]>, f: &mut Lent<i64>, out: &mut Lent<u8>) -> [u64; 4] {
    let text = second::rows::write_rows(header, c, f, out.len());
    text_to(text, out)
}

fn answer(text: &Lent<u8>, out: &mut Lent<u8>) -> [u64; 7] {
    let answer = second::answer(text);
    whole_or_8(answer, out)
}

fn answer_marked(text: &Lent<u8>, marks: &Lent<u64>, out: &mut Lent<u8>) -> [u64; 7] {
    let answer = second::answer_marked(text, marks);
    whole_or_8(answer, out)
}

fn answer_corrected(text: &Lent<u8>, sheet: &Lent<u8>, out: &mut Lent<u8>) -> [u64; 7] {
    let answer = second::answer_corrected(text, sheet);
    whole_or_8(answer, out)
}

fn rewrite_corrected(text: &Lent<u8>, sheet: &Lent<u8>, out: &mut Lent<u8>) -> [u64; 4] {
    let merged = second::rewrite_corrected(text, sheet, out.len());
    text_to(merged, out)
}

fn whole_or_8(answer: Vec<u8>, out: &mut Lent<u8>) -> [u64; 7] {
    if out.len() < answer.len() {
        let [number, place, byte] = why(Refusal { number: 8, place: answer.len(), byte: second::NO_BYTE });
        return [number, place, byte, 0, 0, 0, 0];
    }
    let [told_number, told_place, told_byte] = wire::told_by(&answer);
    let [number, place, byte, bytes] = text_to(Ok(answer), out);
    [number, place, byte, bytes, told_number, told_place, told_byte]
}

// ------------------------------------------------------------------ the bridge

/// More than any request needs; a larger count is malformed.
const MOST_ITEMS: u64 = 1 << 20;

struct Request<R> {
    input: R,
    words: [u64; wire::WORDS],
    bytes: Vec<u8>,
}

impl<R: Read> Request<R> {
    /// The words of the next request; false where there is none.
    fn next(&mut self) -> std::io::Result<bool> {
        let mut first = [0; 1];
        if self.input.read(&mut first)? == 0 {
            return Ok(false);
        }
        let mut bytes = [0; 8 * wire::WORDS];
        bytes[0] = first[0];
        self.input.read_exact(&mut bytes[1..])?;
        self.words = std::array::from_fn(|index| wire::word(&bytes, index));
        Ok(true)
    }

    /// The next lent buffer.
    fn lent<T: Item>(&mut self, buffer: usize) -> std::io::Result<Lent<T>> {
        let count = self.words[buffer];
        if count > MOST_ITEMS {
            return Err(std::io::Error::other("a count is too large"));
        }
        let items = BEFORE + count as usize + AFTER;
        self.bytes.resize(items * T::BYTES, 0);
        self.input.read_exact(&mut self.bytes)?;
        let whole = self.bytes.chunks_exact(T::BYTES).map(T::got).collect();
        Ok(Lent { whole })
    }

    fn row(&self) -> usize {
        self.words[wire::ROW] as usize
    }

    fn header(&self) -> Header {
        let [_, zones, borders, rows, ..] = self.words.map(|word| word as usize);
        let [_, _, _, _, share, intraday, ..] = self.words;
        Header { zones, borders, rows, share: share as i64, intraday }
    }

    fn tables(&mut self) -> std::io::Result<LentTables> {
        Ok(LentTables {
            header: self.header(),
            z: self.lent(wire::Z)?,
            t: self.lent(wire::T)?,
            b: self.lent(wire::B)?,
            c: self.lent(wire::C)?,
            f: self.lent(wire::F)?,
        })
    }
}

fn put_tables(l: &LentTables, to: &mut Vec<u8>) {
    wire::put_all(&l.z.whole, to);
    wire::put_all(&l.t.whole, to);
    wire::put_all(&l.b.whole, to);
    wire::put_all(&l.c.whole, to);
    wire::put_all(&l.f.whole, to);
}

fn put_fields(fields: &[u64], to: &mut Vec<u8>) {
    for field in fields {
        to.extend(field.to_le_bytes());
    }
}

/// The answer to the request whose words are there.
fn serve<R: Read>(request: &mut Request<R>, to: &mut Vec<u8>) -> std::io::Result<()> {
    match request.words[0] {
        call @ (wire::READ | wire::READ_CORRECTED) => {
            let mut l = request.tables()?;
            let text = request.lent(wire::TEXT)?;
            let sheet = if call == wire::READ_CORRECTED { Some(request.lent(wire::SHEET)?) } else { None };
            put_fields(&read(&text, sheet.as_ref(), &mut l), to);
            put_tables(&l, to);
            wire::put_all(&text.whole, to);
            if let Some(sheet) = sheet {
                wire::put_all(&sheet.whole, to);
            }
        }
        call @ (wire::ANSWER_CORRECTED | wire::REWRITE_CORRECTED) => {
            let text = request.lent(wire::TEXT)?;
            let sheet = request.lent(wire::SHEET)?;
            let mut out = request.lent(wire::OUT)?;
            if call == wire::ANSWER_CORRECTED {
                put_fields(&answer_corrected(&text, &sheet, &mut out), to);
            } else {
                put_fields(&rewrite_corrected(&text, &sheet, &mut out), to);
            }
            wire::put_all(&text.whole, to);
            wire::put_all(&sheet.whole, to);
            wire::put_all(&out.whole, to);
        }
        call @ (wire::WRITE | wire::RESULT_TEXT) => {
            let mut l = request.tables()?;
            let mut out = request.lent(wire::OUT)?;
            let work = if call == wire::WRITE { write } else { result_text };
            put_fields(&work(&mut l, &mut out), to);
            put_tables(&l, to);
            wire::put_all(&out.whole, to);
        }
        call @ (wire::EXTRACT | wire::EXTRACT_MARKED) => {
            let mut l = request.tables()?;
            let mut p = request.lent(wire::P)?;
            let marks = if call == wire::EXTRACT_MARKED { Some(request.lent(wire::MARKS)?) } else { None };
            let mut atc = request.lent(wire::ATC)?;
            let mut left = request.lent(wire::LEFT)?;
            put_fields(&extract(&mut l, &mut p, marks.as_ref(), &mut atc, &mut left), to);
            put_tables(&l, to);
            wire::put_all(&p.whole, to);
            if let Some(marks) = marks {
                wire::put_all(&marks.whole, to);
            }
            wire::put_all(&atc.whole, to);
            wire::put_all(&left.whole, to);
        }
        wire::RESULT_TEXT_MARKED => {
            let mut l = request.tables()?;
            let marks = request.lent(wire::MARKS)?;
            let mut out = request.lent(wire::OUT)?;
            put_fields(&result_text_marked(&mut l, &marks, &mut out), to);
            put_tables(&l, to);
            wire::put_all(&marks.whole, to);
            wire::put_all(&out.whole, to);
        }
        wire::ANSWER_MARKED => {
            let marks = request.lent(wire::MARKS)?;
            let text = request.lent(wire::TEXT)?;
            let mut out = request.lent(wire::OUT)?;
            put_fields(&answer_marked(&text, &marks, &mut out), to);
            wire::put_all(&marks.whole, to);
            wire::put_all(&text.whole, to);
            wire::put_all(&out.whole, to);
        }
        call @ (wire::BOUND | wire::BOUND_MARKED) => {
            let mut l = request.tables()?;
            let marks = if call == wire::BOUND_MARKED { Some(request.lent(wire::MARKS)?) } else { None };
            put_fields(&bound(&mut l, marks.as_ref()), to);
            put_tables(&l, to);
            if let Some(marks) = marks {
                wire::put_all(&marks.whole, to);
            }
        }
        call @ (wire::WHY | wire::WHY_MARKED) => {
            let border = request.words[wire::ROW];
            let mut l = request.tables()?;
            let mut p = request.lent(wire::P)?;
            let marks = if call == wire::WHY_MARKED { Some(request.lent(wire::MARKS)?) } else { None };
            let mut ends = request.lent(wire::ENDS)?;
            let mut rows = request.lent(wire::ALLOWED)?;
            put_fields(&explain(&mut l, marks.as_ref(), border, &mut p, &mut ends, &mut rows), to);
            put_tables(&l, to);
            wire::put_all(&p.whole, to);
            if let Some(marks) = marks {
                wire::put_all(&marks.whole, to);
            }
            wire::put_all(&ends.whole, to);
            wire::put_all(&rows.whole, to);
        }
        wire::MARGINS => {
            let mut l = request.tables()?;
            let mut parts = request.lent(wire::PARTS)?;
            put_fields(&margins(&mut l, &mut parts), to);
            put_tables(&l, to);
            wire::put_all(&parts.whole, to);
        }
        wire::CORNER_FLOWS => {
            let row = request.row();
            let mut l = request.tables()?;
            let mut flows = request.lent(wire::FLOWS)?;
            put_fields(&corner_flows(&mut l, row, &mut flows), to);
            put_tables(&l, to);
            wire::put_all(&flows.whole, to);
        }
        wire::CORNER_TEXT => {
            let row = request.row();
            let mut l = request.tables()?;
            let mut out = request.lent(wire::OUT)?;
            put_fields(&corner_text(&mut l, row, &mut out), to);
            put_tables(&l, to);
            wire::put_all(&out.whole, to);
        }
        wire::JUDGE_CLAIMS => {
            let mut l = request.tables()?;
            let mut claims = request.lent(wire::CLAIMS)?;
            put_fields(&judge_claims(&mut l, &mut claims), to);
            put_tables(&l, to);
            wire::put_all(&claims.whole, to);
        }
        wire::PUBLISHED_TEXT => {
            let mut l = request.tables()?;
            let mut list = request.lent(wire::SHEET)?;
            let mut out = request.lent(wire::OUT)?;
            put_fields(&published_text(&mut l, &mut list, &mut out), to);
            put_tables(&l, to);
            wire::put_all(&list.whole, to);
            wire::put_all(&out.whole, to);
        }
        wire::READ_ROWS => {
            let header = request.header();
            let mut c = request.lent(wire::C)?;
            let mut f = request.lent(wire::F)?;
            let sheet = request.lent(wire::SHEET)?;
            put_fields(&read_rows(header, &sheet, &mut c, &mut f), to);
            wire::put_all(&c.whole, to);
            wire::put_all(&f.whole, to);
            wire::put_all(&sheet.whole, to);
        }
        wire::WRITE_ROWS => {
            let header = request.header();
            let mut c = request.lent(wire::C)?;
            let mut f = request.lent(wire::F)?;
            let mut out = request.lent(wire::OUT)?;
            put_fields(&write_rows(header, &mut c, &mut f, &mut out), to);
            wire::put_all(&c.whole, to);
            wire::put_all(&f.whole, to);
            wire::put_all(&out.whole, to);
        }
        wire::ANSWER => {
            let text = request.lent(wire::TEXT)?;
            let mut out = request.lent(wire::OUT)?;
            put_fields(&answer(&text, &mut out), to);
            wire::put_all(&text.whole, to);
            wire::put_all(&out.whole, to);
        }
        _ => return Err(std::io::Error::other("no such call")),
    }
    Ok(())
}

fn serve_all() -> std::io::Result<()> {
    // as files: the standard streams' own buffers would cut an answer in two
    let input = File::from(std::io::stdin().as_fd().try_clone_to_owned()?);
    let input = BufReader::with_capacity(1 << 16, input);
    let mut output = File::from(std::io::stdout().as_fd().try_clone_to_owned()?);
    let mut request = Request { input, words: [0; wire::WORDS], bytes: Vec::new() };
    let mut bytes = Vec::new();
    while request.next()? {
        bytes.clear();
        serve(&mut request, &mut bytes)?;
        output.write_all(&bytes)?;
    }
    Ok(())
}

fn main() -> ExitCode {
    match serve_all() {
        Ok(()) => ExitCode::SUCCESS,
        Err(error) => {
            eprintln!("bridge: {error}");
            ExitCode::from(2)
        }
    }
}
