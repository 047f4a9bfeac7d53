//! What goes between the comparer (calls.rs) and a bridge, the process that
//! makes the calls: c/bridge.c over a library, mock.rs over the reference
//! calculator.  A word has 64 bits, the least byte first.
//!
//! A request: WORDS words, then the lent buffers.  The words are the call, its
//! header (zones, borders, rows, share, intraday) and its row or border (each 0 where
//! the call takes none), and the counts of items of z, t, b, c, f, p, marks, atc, left,
//! flows, claims, parts, ends, allowed, text, sheet and out (0 where the call does not
//! take that buffer).  The buffers that the call takes follow in this order, each with BEFORE
//! items before the lent part and AFTER items after it; an item is as many words as it has
//! numbers, and a byte for text, sheet and out.
//!
//! An answer: the fields of the call's struct, a word each, then the same
//! buffers as the call left them.
//!
//! A bridge keeps the buffers of a request in one piece of memory, as they came:
//! what a call writes beyond its buffers lands in marks that are compared.
#![allow(dead_code)]

pub const READ: u64 = 1;
pub const WRITE: u64 = 2;
pub const EXTRACT: u64 = 3;
pub const RESULT_TEXT: u64 = 4;
pub const ANSWER: u64 = 5;
pub const CORNER_FLOWS: u64 = 6;
pub const CORNER_TEXT: u64 = 7;
pub const EXTRACT_MARKED: u64 = 8;
pub const RESULT_TEXT_MARKED: u64 = 9;
pub const ANSWER_MARKED: u64 = 10;
pub const READ_CORRECTED: u64 = 11;
pub const ANSWER_CORRECTED: u64 = 12;
pub const REWRITE_CORRECTED: u64 = 13;
pub const JUDGE_CLAIMS: u64 = 14;
pub const PUBLISHED_TEXT: u64 = 15;
pub const READ_ROWS: u64 = 16;
pub const WRITE_ROWS: u64 = 17;
pub const BOUND: u64 = 18;
pub const BOUND_MARKED: u64 = 19;
pub const MARGINS: u64 = 20;
pub const WHY: u64 = 21;
pub const WHY_MARKED: u64 = 22;

/// What an answer in text tells: number, place and byte of its E line, or three times 0.
pub fn told_by(text: &[u8]) -> [u64; 3] {
    let Some(fields) = text.strip_prefix(b"E\t").and_then(|rest| rest.strip_suffix(b"\n")) else {
        return [0; 3];
    };
    let mut numbers = fields.split(|byte| *byte == b'\t').map(|field| {
        std::str::from_utf8(field).ok().and_then(|digits| digits.parse().ok()).unwrap_or(u64::MAX)
    });
    std::array::from_fn(|_| numbers.next().unwrap_or(u64::MAX))
}

/// Items before and after the lent part that nobody may touch.
pub const BEFORE: usize = 2;
pub const AFTER: usize = 3;

/// The words of a request.
pub const WORDS: usize = 24;

/// Where the header's words begin among them, and how many there are.
pub const HEADER: usize = 1;
pub const HEADER_WORDS: usize = 5;

/// Where the row or the border stands among them.
pub const ROW: usize = 6;

/// Where the count of each buffer stands among them.
pub const Z: usize = 7;
pub const T: usize = 8;
pub const B: usize = 9;
pub const C: usize = 10;
pub const F: usize = 11;
pub const P: usize = 12;
pub const MARKS: usize = 13;
pub const ATC: usize = 14;
pub const LEFT: usize = 15;
pub const FLOWS: usize = 16;
pub const CLAIMS: usize = 17;
pub const PARTS: usize = 18;
pub const ENDS: usize = 19;
pub const ALLOWED: usize = 20;
pub const TEXT: usize = 21;
pub const SHEET: usize = 22;
pub const OUT: usize = 23;

/// An item of a lent buffer as bytes.
pub trait Item: Copy {
    const BYTES: usize;
    fn put(self, to: &mut [u8]);
    fn got(from: &[u8]) -> Self;
}

impl Item for u8 {
    const BYTES: usize = 1;

    fn put(self, to: &mut [u8]) {
        to[0] = self;
    }

    fn got(from: &[u8]) -> u8 {
        from[0]
    }
}

impl Item for i64 {
    const BYTES: usize = 8;

    fn put(self, to: &mut [u8]) {
        to.copy_from_slice(&self.to_le_bytes());
    }

    fn got(from: &[u8]) -> i64 {
        i64::from_le_bytes(from.try_into().expect("eight bytes"))
    }
}

impl Item for u64 {
    const BYTES: usize = 8;

    fn put(self, to: &mut [u8]) {
        to.copy_from_slice(&self.to_le_bytes());
    }

    fn got(from: &[u8]) -> u64 {
        u64::from_le_bytes(from.try_into().expect("eight bytes"))
    }
}

impl<const K: usize> Item for [i64; K] {
    const BYTES: usize = 8 * K;

    fn put(self, to: &mut [u8]) {
        for (number, to) in self.into_iter().zip(to.chunks_exact_mut(8)) {
            number.put(to);
        }
    }

    fn got(from: &[u8]) -> [i64; K] {
        std::array::from_fn(|number| i64::got(&from[8 * number..8 * number + 8]))
    }
}

/// Adds the items to the bytes.
pub fn put_all<T: Item>(items: &[T], to: &mut Vec<u8>) {
    let start = to.len();
    to.resize(start + items.len() * T::BYTES, 0);
    for (item, to) in items.iter().zip(to[start..].chunks_exact_mut(T::BYTES)) {
        item.put(to);
    }
}

/// Fills the items from the front of the bytes; how many bytes they took.
pub fn get_all<T: Item>(items: &mut [T], from: &[u8]) -> usize {
    let bytes = items.len() * T::BYTES;
    for (item, from) in items.iter_mut().zip(from[..bytes].chunks_exact(T::BYTES)) {
        *item = T::got(from);
    }
    bytes
}

pub fn word(bytes: &[u8], index: usize) -> u64 {
    u64::from_le_bytes(bytes[8 * index..8 * index + 8].try_into().expect("eight bytes"))
}

pub fn set_word(bytes: &mut [u8], index: usize, word: u64) {
    bytes[8 * index..8 * index + 8].copy_from_slice(&word.to_le_bytes());
}
