//! Memory that is lent to a call: buffers within larger pieces of memory full of
//! marks, so that what a call writes beyond its buffers is seen.

use crate::calls;
use crate::calls::wire::{Item, AFTER, BEFORE};
use crate::damage;
use crate::dice::Dice;
use crate::make;
use crate::second::{self, Border, Header, Tables, INTRADAY};
use std::fmt::Debug;

/// A value that no rule would write, another at each place.
pub trait Mark: Item + PartialEq + Debug {
    fn mark(d: &mut Dice) -> Self;
}

impl Mark for u8 {
    fn mark(d: &mut Dice) -> u8 {
        d.next() as u8
    }
}

impl Mark for i64 {
    fn mark(d: &mut Dice) -> i64 {
        d.next() as i64
    }
}

impl Mark for u64 {
    fn mark(d: &mut Dice) -> u64 {
        d.next()
    }
}

impl<const K: usize> Mark for [i64; K] {
    fn mark(d: &mut Dice) -> [i64; K] {
        std::array::from_fn(|_| d.next() as i64)
    }
}

/// A lent buffer within a larger piece of memory full of marks.
pub struct Lent<T> {
    pub whole: Vec<T>,
    pub was: Vec<T>,
    pub count: usize,
}

impl<T: Mark> Lent<T> {
    /// Room for `count` items, full of marks.
    pub fn room(d: &mut Dice, count: usize) -> Lent<T> {
        Lent::holding(d, &[], count)
    }

    /// `count` items: the given ones in front, marks after them.
    pub fn holding(d: &mut Dice, items: &[T], count: usize) -> Lent<T> {
        let mut whole: Vec<T> = (0..BEFORE + count + AFTER).map(|_| T::mark(d)).collect();
        let front = items.len().min(count);
        whole[BEFORE..BEFORE + front].copy_from_slice(&items[..front]);
        Lent { was: whole.clone(), whole, count }
    }

    pub fn part(&self) -> &[T] {
        &self.whole[BEFORE..BEFORE + self.count]
    }

    /// None where the memory is as it was but for `items` in front of the lent
    /// part; else the first place that differs.
    pub fn fault(&self, name: &str, items: &[T]) -> Option<String> {
        let same = self.whole[..BEFORE] == self.was[..BEFORE]
            && self.whole[BEFORE..BEFORE + items.len()] == *items
            && self.whole[BEFORE + items.len()..] == self.was[BEFORE + items.len()..];
        if same {
            return None;
        }
        let mut wanted = self.was.clone();
        wanted[BEFORE..BEFORE + items.len()].copy_from_slice(items);
        let at = (0..wanted.len()).find(|at| wanted[*at] != self.whole[*at])?;
        let place = at as i64 - BEFORE as i64;
        Some(format!(
            "lent {name} ({} items, {} to be written), item {place}: library {:?}, reference {:?}",
            self.count,
            items.len(),
            self.whole[at],
            wanted[at]
        ))
    }
}

/// The items of z, t, b, c and f.
pub type Counts = [usize; 5];

pub const KINDS: [&str; 5] = ["z", "t", "b", "c", "f"];

/// Lent tables for a call, with marks beyond what the header needs.
pub struct LentTables {
    pub header: Header,
    pub z: Lent<i64>,
    pub t: Lent<i64>,
    pub b: Lent<Border>,
    pub c: Lent<[i64; 7]>,
    pub f: Lent<i64>,
}

impl LentTables {
    pub fn new(d: &mut Dice, t: &Tables, counts: Counts) -> LentTables {
        LentTables {
            header: t.header,
            z: Lent::holding(d, &t.z, counts[0]),
            t: Lent::holding(d, &t.t, counts[1]),
            b: Lent::holding(d, &t.b, counts[2]),
            c: Lent::holding(d, &t.c, counts[3]),
            f: Lent::holding(d, &t.f, counts[4]),
        }
    }

    pub fn counts(&self) -> Counts {
        [self.z.count, self.t.count, self.b.count, self.c.count, self.f.count]
    }

    /// What is lent, for the reference.
    pub fn part(&self) -> second::Lent<'_> {
        second::Lent {
            header: self.header,
            z: self.z.part(),
            t: self.t.part(),
            b: self.b.part(),
            c: self.c.part(),
            f: self.f.part(),
        }
    }

    pub fn lend(&mut self) -> calls::Lent<'_> {
        let Header { zones, borders, rows, share, intraday } = self.header;
        calls::Lent {
            header: [zones as u64, borders as u64, rows as u64, share as u64, intraday],
            z: &mut self.z.whole,
            t: &mut self.t.whole,
            b: &mut self.b.whole,
            c: &mut self.c.whole,
            f: &mut self.f.whole,
        }
    }

    /// None where nothing was changed.
    pub fn fault(&self) -> Option<String> {
        self.z
            .fault("z", &[])
            .or_else(|| self.t.fault("t", &[]))
            .or_else(|| self.b.fault("b", &[]))
            .or_else(|| self.c.fault("c", &[]))
            .or_else(|| self.f.fault("f", &[]))
    }

    /// The lent tables as text, whatever they held before the call: as many
    /// items of each as the header asks for and as are there.
    pub fn shown(&self) -> Vec<u8> {
        fn front<T: Mark>(lent: &Lent<T>, asked: usize) -> Vec<T> {
            lent.was[BEFORE..BEFORE + asked.min(lent.count)].to_vec()
        }
        let h = self.header;
        let tables = Tables {
            header: h,
            z: front(&self.z, h.zones),
            t: front(&self.t, second::allocated(h)),
            b: front(&self.b, h.borders),
            c: front(&self.c, h.rows),
            f: front(&self.f, h.rows.saturating_mul(h.zones)),
        };
        let mut text = damage::plain_text(&tables);
        let lent = format!("(intraday {}, items lent of z, t, b, c, f: {:?})\n", h.intraday, self.counts());
        text.extend(lent.into_bytes());
        text
    }
}

/// The items of z, t, b, c and f that a header needs.
pub fn needed(h: Header) -> Counts {
    [h.zones, second::allocated(h), h.borders, h.rows, h.rows.saturating_mul(h.zones)]
}

/// As many items as needed, and often a few more.
pub fn with_extra(d: &mut Dice, needed: Counts) -> Counts {
    if d.one_in(2) {
        return needed;
    }
    needed.map(|items| items + d.below(4))
}

/// Less room than is needed; none where none is.
pub fn short(d: &mut Dice, needed: usize) -> usize {
    if needed == 0 {
        return 0;
    }
    match d.below(3) {
        0 => 0,
        1 => d.below(needed),
        _ => needed - 1,
    }
}

/// From factor less to factor, with hubs.
pub fn signed_factor(l: &LentTables, row: usize, border: usize) -> i64 {
    make::signed_factor(&l.f.part()[row * l.header.zones..], &l.b.part()[border])
}

/// RAM less the sum of factor times T, in the intraday profile.
pub fn remainder(l: &LentTables, row: usize, ram: i64) -> Option<i128> {
    let zones = l.header.zones;
    let own = &l.f.part()[row * zones..(row + 1) * zones];
    let taken = |(factor, position): (&i64, &i64)| i128::from(*factor) * i128::from(*position);
    let sum: i128 = own.iter().zip(l.t.part()).map(taken).sum();
    (l.header.intraday == INTRADAY).then_some(i128::from(ram) - sum)
}
