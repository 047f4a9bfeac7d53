//! The calls of include/keravnoth.h, made by another process, a bridge (see
//! wire.rs): so the comparer runs on this machine whatever machine the library
//! is for, and sees a call that ends the process.
//!
//! Each lent buffer is given with its guards; what the bridge holds after the
//! call takes its place, guards and inputs too.

#[path = "wire.rs"]
pub mod wire;

use std::ffi::OsString;
use std::io::{Read as _, Write as _};
use std::process::{Child, ChildStdin, ChildStdout, Command, Stdio};
use wire::Item;

/// What reading says.  `number` 0: no refusal.
#[derive(Clone, Copy, Debug, PartialEq, Eq)]
pub struct Read {
    pub number: u64,
    pub place: usize,
    pub byte: usize,
    pub zones: usize,
    pub borders: usize,
    pub rows: usize,
    pub share: i64,
    pub intraday: u64,
}

/// What a call that writes text says.
#[derive(Clone, Copy, Debug, PartialEq, Eq)]
pub struct Written {
    pub number: u64,
    pub place: usize,
    pub byte: usize,
    pub bytes: usize,
}

/// What the extraction says.
#[derive(Clone, Copy, Debug, PartialEq, Eq)]
pub struct Extracted {
    pub number: u64,
    pub place: usize,
    pub byte: usize,
    pub rounds: u64,
}

/// What the corner flows say.
#[derive(Clone, Copy, Debug, PartialEq, Eq)]
pub struct Flows {
    pub number: u64,
    pub place: usize,
    pub byte: usize,
    pub corners: usize,
}

/// What the bound says.
#[derive(Clone, Copy, Debug, PartialEq, Eq)]
pub struct Bounded {
    pub number: u64,
    pub place: usize,
    pub byte: usize,
    pub sharers: u64,
    pub bits: u64,
    pub rounds: u64,
    pub sharp: u64,
}

/// What the call says that explains a border; a row is -1 where there is none.
#[derive(Clone, Copy, Debug, PartialEq, Eq)]
pub struct Explained {
    pub number: u64,
    pub place: usize,
    pub byte: usize,
    pub rounds: u64,
    pub last: u64,
    pub named: i64,
    pub ended: i64,
}

/// What a call says that has nothing to say but a refusal.
#[derive(Clone, Copy, Debug, PartialEq, Eq)]
pub struct Judged {
    pub number: u64,
    pub place: usize,
    pub byte: usize,
}

/// The bridge ended within a call, or told what its own text does not say: how.
#[derive(Debug)]
pub struct Ended(pub String);

pub struct Bridge {
    child: Child,
    /// None once it is told that nothing follows
    to: Option<ChildStdin>,
    from: ChildStdout,
    /// the request, then its answer
    bytes: Vec<u8>,
    /// how far the answer's bytes have been given back
    at: usize,
}

/// The lent tables of a call, each with its guards.
pub struct Lent<'a> {
    /// zones, borders, rows, share, intraday
    pub header: [u64; wire::HEADER_WORDS],
    pub z: &'a mut [i64],
    pub t: &'a mut [i64],
    pub b: &'a mut [[i64; 5]],
    pub c: &'a mut [[i64; 7]],
    pub f: &'a mut [i64],
}

impl Bridge {
    /// The program and its arguments.
    pub fn start(command: &[OsString]) -> std::io::Result<Bridge> {
        let mut child = Command::new(&command[0])
            .args(&command[1..])
            .stdin(Stdio::piped())
            .stdout(Stdio::piped())
            .spawn()?;
        let to = child.stdin.take();
        let from = child.stdout.take().expect("the bridge's output");
        Ok(Bridge { child, to, from, bytes: Vec::new(), at: 0 })
    }

    /// Says that nothing follows; the bridge then ends without a word, with
    /// status 0.
    pub fn end(&mut self) -> Result<(), Ended> {
        self.to = None;
        self.bytes.clear();
        match self.from.read_to_end(&mut self.bytes) {
            Ok(0) => {}
            Ok(more) => return Err(Ended(format!("it wrote {more} bytes that nobody asked for"))),
            Err(error) => return Err(Ended(error.to_string())),
        }
        match self.child.wait() {
            Ok(status) if status.success() => Ok(()),
            Ok(status) => Err(Ended(status.to_string())),
            Err(error) => Err(Ended(error.to_string())),
        }
    }

    fn ended(&mut self, error: std::io::Error) -> Ended {
        self.to = None;
        match self.child.wait() {
            Ok(status) => Ended(format!("{error}; {status}")),
            Err(_) => Ended(error.to_string()),
        }
    }

    fn begin(&mut self, call: u64, header: [u64; wire::HEADER_WORDS]) {
        self.bytes.clear();
        self.bytes.resize(8 * wire::WORDS, 0);
        wire::set_word(&mut self.bytes, 0, call);
        for (index, word) in header.into_iter().enumerate() {
            wire::set_word(&mut self.bytes, wire::HEADER + index, word);
        }
    }

    /// The row or the border that the call is about.
    fn ask_for(&mut self, row: u64) {
        wire::set_word(&mut self.bytes, wire::ROW, row);
    }

    fn lend<T: Item>(&mut self, buffer: usize, block: &[T]) {
        let count = block.len() - wire::BEFORE - wire::AFTER;
        wire::set_word(&mut self.bytes, buffer, count as u64);
        wire::put_all(block, &mut self.bytes);
    }

    /// Sends what was begun and lent, and takes the answer: its fields.
    fn ask<const FIELDS: usize>(&mut self) -> Result<[u64; FIELDS], Ended> {
        let to = self.to.as_mut().expect("a bridge that has not ended");
        if let Err(error) = to.write_all(&self.bytes) {
            return Err(self.ended(error));
        }
        let lent = self.bytes.len() - 8 * wire::WORDS;
        self.bytes.resize(8 * FIELDS + lent, 0);
        if let Err(error) = self.from.read_exact(&mut self.bytes) {
            return Err(self.ended(error));
        }
        self.at = 8 * FIELDS;
        Ok(std::array::from_fn(|field| wire::word(&self.bytes, field)))
    }

    /// The buffers in the order in which they were lent.
    fn back<T: Item>(&mut self, block: &mut [T]) {
        self.at += wire::get_all(block, &self.bytes[self.at..]);
    }

    fn lend_tables(&mut self, l: &Lent) {
        self.lend(wire::Z, l.z);
        self.lend(wire::T, l.t);
        self.lend(wire::B, l.b);
        self.lend(wire::C, l.c);
        self.lend(wire::F, l.f);
    }

    fn tables_back(&mut self, l: &mut Lent) {
        self.back(l.z);
        self.back(l.t);
        self.back(l.b);
        self.back(l.c);
        self.back(l.f);
    }

    /// The header of the tables is not looked at.  With a sheet: the call that takes
    /// one.
    pub fn read(&mut self, text: &mut [u8], sheet: Option<&mut [u8]>, mut l: Lent) -> Result<Read, Ended> {
        let call = if sheet.is_some() { wire::READ_CORRECTED } else { wire::READ };
        self.begin(call, [0; wire::HEADER_WORDS]);
        self.lend_tables(&l);
        self.lend(wire::TEXT, text);
        if let Some(sheet) = &sheet {
            self.lend(wire::SHEET, sheet);
        }
        let [number, place, byte, zones, borders, rows, share, intraday] = self.ask()?;
        self.tables_back(&mut l);
        self.back(text);
        if let Some(sheet) = sheet {
            self.back(sheet);
        }
        let [place, byte, zones, borders, rows] =
            [place, byte, zones, borders, rows].map(|field| field as usize);
        Ok(Read { number, place, byte, zones, borders, rows, share: share as i64, intraday })
    }

    pub fn write(&mut self, l: Lent, out: &mut [u8]) -> Result<Written, Ended> {
        self.tables_to_text(wire::WRITE, l, 0, out)
    }

    pub fn result_text(&mut self, l: Lent, out: &mut [u8]) -> Result<Written, Ended> {
        self.tables_to_text(wire::RESULT_TEXT, l, 0, out)
    }

    pub fn corner_text(&mut self, l: Lent, row: usize, out: &mut [u8]) -> Result<Written, Ended> {
        self.tables_to_text(wire::CORNER_TEXT, l, row, out)
    }

    fn tables_to_text(
        &mut self,
        call: u64,
        mut l: Lent,
        row: usize,
        out: &mut [u8],
    ) -> Result<Written, Ended> {
        self.begin(call, l.header);
        self.ask_for(row as u64);
        self.lend_tables(&l);
        self.lend(wire::OUT, out);
        let [number, place, byte, bytes] = self.ask()?;
        self.tables_back(&mut l);
        self.back(out);
        Ok(Written { number, place: place as usize, byte: byte as usize, bytes: bytes as usize })
    }

    /// With a list of marks: the call that takes one.
    pub fn extract(
        &mut self,
        mut l: Lent,
        p: &mut [u64],
        marks: Option<&mut [u64]>,
        atc: &mut [[i64; 3]],
        left: &mut [[i64; 3]],
    ) -> Result<Extracted, Ended> {
        let call = if marks.is_some() { wire::EXTRACT_MARKED } else { wire::EXTRACT };
        self.begin(call, l.header);
        self.lend_tables(&l);
        self.lend(wire::P, p);
        if let Some(marks) = &marks {
            self.lend(wire::MARKS, marks);
        }
        self.lend(wire::ATC, atc);
        self.lend(wire::LEFT, left);
        let [number, place, byte, rounds] = self.ask()?;
        self.tables_back(&mut l);
        self.back(p);
        if let Some(marks) = marks {
            self.back(marks);
        }
        self.back(atc);
        self.back(left);
        Ok(Extracted { number, place: place as usize, byte: byte as usize, rounds })
    }

    pub fn result_text_marked(&mut self, mut l: Lent, marks: &mut [u64], out: &mut [u8]) -> Result<Written, Ended> {
        self.begin(wire::RESULT_TEXT_MARKED, l.header);
        self.lend_tables(&l);
        self.lend(wire::MARKS, marks);
        self.lend(wire::OUT, out);
        let [number, place, byte, bytes] = self.ask()?;
        self.tables_back(&mut l);
        self.back(marks);
        self.back(out);
        Ok(Written { number, place: place as usize, byte: byte as usize, bytes: bytes as usize })
    }

    /// What an answer tells is held against the text that it wrote, and the comparer holds
    /// that against the reference.
    fn told(&self, fields: [u64; 7], out: &[u8]) -> Result<Written, Ended> {
        let [number, place, byte, bytes, told @ ..] = fields;
        let [place, byte, bytes] = [place, byte, bytes].map(|field| field as usize);
        let lent = &out[wire::BEFORE..out.len() - wire::AFTER];
        let text = if number == 0 { &lent[..bytes.min(lent.len())] } else { &[] };
        if told != wire::told_by(text) {
            return Err(Ended(format!("it tells {told:?} of the text {}", text.escape_ascii())));
        }
        Ok(Written { number, place, byte, bytes })
    }

    pub fn answer_marked(&mut self, text: &mut [u8], marks: &mut [u64], out: &mut [u8]) -> Result<Written, Ended> {
        self.begin(wire::ANSWER_MARKED, [0; wire::HEADER_WORDS]);
        self.lend(wire::MARKS, marks);
        self.lend(wire::TEXT, text);
        self.lend(wire::OUT, out);
        let fields = self.ask()?;
        self.back(marks);
        self.back(text);
        self.back(out);
        self.told(fields, out)
    }

    /// With a list of marks: the call that takes one.
    pub fn bound(&mut self, mut l: Lent, marks: Option<&mut [u64]>) -> Result<Bounded, Ended> {
        let call = if marks.is_some() { wire::BOUND_MARKED } else { wire::BOUND };
        self.begin(call, l.header);
        self.lend_tables(&l);
        if let Some(marks) = &marks {
            self.lend(wire::MARKS, marks);
        }
        let [number, place, byte, sharers, bits, rounds, sharp] = self.ask()?;
        self.tables_back(&mut l);
        if let Some(marks) = marks {
            self.back(marks);
        }
        Ok(Bounded { number, place: place as usize, byte: byte as usize, sharers, bits, rounds, sharp })
    }

    pub fn margins(&mut self, mut l: Lent, parts: &mut [[i64; 12]]) -> Result<Judged, Ended> {
        self.begin(wire::MARGINS, l.header);
        self.lend_tables(&l);
        self.lend(wire::PARTS, parts);
        let [number, place, byte] = self.ask()?;
        self.tables_back(&mut l);
        self.back(parts);
        Ok(Judged { number, place: place as usize, byte: byte as usize })
    }

    /// With a list of marks: the call that takes one.
    pub fn why(
        &mut self,
        mut l: Lent,
        marks: Option<&mut [u64]>,
        border: u64,
        p: &mut [u64],
        ends: &mut [[i64; 2]],
        rows: &mut [[i64; 3]],
    ) -> Result<Explained, Ended> {
        let call = if marks.is_some() { wire::WHY_MARKED } else { wire::WHY };
        self.begin(call, l.header);
        self.ask_for(border);
        self.lend_tables(&l);
        self.lend(wire::P, p);
        if let Some(marks) = &marks {
            self.lend(wire::MARKS, marks);
        }
        self.lend(wire::ENDS, ends);
        self.lend(wire::ALLOWED, rows);
        let [number, place, byte, rounds, last, named, ended] = self.ask()?;
        self.tables_back(&mut l);
        self.back(p);
        if let Some(marks) = marks {
            self.back(marks);
        }
        self.back(ends);
        self.back(rows);
        let [place, byte] = [place, byte].map(|field| field as usize);
        Ok(Explained { number, place, byte, rounds, last, named: named as i64, ended: ended as i64 })
    }

    pub fn corner_flows(&mut self, mut l: Lent, row: usize, flows: &mut [i64]) -> Result<Flows, Ended> {
        self.begin(wire::CORNER_FLOWS, l.header);
        self.ask_for(row as u64);
        self.lend_tables(&l);
        self.lend(wire::FLOWS, flows);
        let [number, place, byte, corners] = self.ask()?;
        self.tables_back(&mut l);
        self.back(flows);
        Ok(Flows { number, place: place as usize, byte: byte as usize, corners: corners as usize })
    }

    pub fn answer_corrected(&mut self, text: &mut [u8], sheet: &mut [u8], out: &mut [u8]) -> Result<Written, Ended> {
        let fields = self.two_texts(wire::ANSWER_CORRECTED, text, sheet, out)?;
        self.told(fields, out)
    }

    pub fn rewrite_corrected(&mut self, text: &mut [u8], sheet: &mut [u8], out: &mut [u8]) -> Result<Written, Ended> {
        let [number, place, byte, bytes] = self.two_texts(wire::REWRITE_CORRECTED, text, sheet, out)?;
        Ok(Written { number, place: place as usize, byte: byte as usize, bytes: bytes as usize })
    }

    fn two_texts<const FIELDS: usize>(&mut self, call: u64, text: &mut [u8], sheet: &mut [u8], out: &mut [u8]) -> Result<[u64; FIELDS], Ended> {
        self.begin(call, [0; wire::HEADER_WORDS]);
        self.lend(wire::TEXT, text);
        self.lend(wire::SHEET, sheet);
        self.lend(wire::OUT, out);
        let fields = self.ask()?;
        self.back(text);
        self.back(sheet);
        self.back(out);
        Ok(fields)
    }

    pub fn claims(&mut self, mut l: Lent, claims: &mut [[i64; 35]]) -> Result<Judged, Ended> {
        self.begin(wire::JUDGE_CLAIMS, l.header);
        self.lend_tables(&l);
        self.lend(wire::CLAIMS, claims);
        let [number, place, byte] = self.ask()?;
        self.tables_back(&mut l);
        self.back(claims);
        Ok(Judged { number, place: place as usize, byte: byte as usize })
    }

    pub fn published_text(&mut self, mut l: Lent, list: &mut [u8], out: &mut [u8]) -> Result<Written, Ended> {
        self.begin(wire::PUBLISHED_TEXT, l.header);
        self.lend_tables(&l);
        self.lend(wire::SHEET, list);
        self.lend(wire::OUT, out);
        let [number, place, byte, bytes] = self.ask()?;
        self.tables_back(&mut l);
        self.back(list);
        self.back(out);
        Ok(Written { number, place: place as usize, byte: byte as usize, bytes: bytes as usize })
    }

    pub fn read_rows(
        &mut self,
        header: [u64; wire::HEADER_WORDS],
        sheet: &mut [u8],
        c: &mut [[i64; 7]],
        f: &mut [i64],
    ) -> Result<Judged, Ended> {
        self.begin(wire::READ_ROWS, header);
        self.lend(wire::C, c);
        self.lend(wire::F, f);
        self.lend(wire::SHEET, sheet);
        let [number, place, byte] = self.ask()?;
        self.back(c);
        self.back(f);
        self.back(sheet);
        Ok(Judged { number, place: place as usize, byte: byte as usize })
    }

    pub fn write_rows(
        &mut self,
        header: [u64; wire::HEADER_WORDS],
        c: &mut [[i64; 7]],
        f: &mut [i64],
        out: &mut [u8],
    ) -> Result<Written, Ended> {
        self.begin(wire::WRITE_ROWS, header);
        self.lend(wire::C, c);
        self.lend(wire::F, f);
        self.lend(wire::OUT, out);
        let [number, place, byte, bytes] = self.ask()?;
        self.back(c);
        self.back(f);
        self.back(out);
        Ok(Written { number, place: place as usize, byte: byte as usize, bytes: bytes as usize })
    }

    pub fn answer(&mut self, text: &mut [u8], out: &mut [u8]) -> Result<Written, Ended> {
        self.begin(wire::ANSWER, [0; wire::HEADER_WORDS]);
        self.lend(wire::TEXT, text);
        self.lend(wire::OUT, out);
        let fields = self.ask()?;
        self.back(text);
        self.back(out);
        self.told(fields, out)
    }
}
