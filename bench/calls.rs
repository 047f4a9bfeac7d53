//! The calls of include/keravnoth.h that the bench measures, linked: their symbols bear the interface's major number.

use crate::second::{self, Tables};

#[repr(C)]
pub struct Header {
    pub zones: usize,
    pub borders: usize,
    pub rows: usize,
    pub share: i64,
    pub intraday: usize,
}

#[repr(C)]
pub struct Read {
    pub number: u32,
    pub place: usize,
    pub byte: usize,
    pub zones: usize,
    pub borders: usize,
    pub rows: usize,
    pub share: i64,
    pub intraday: usize,
}

#[repr(C)]
pub struct Written {
    pub number: u32,
    pub place: usize,
    pub byte: usize,
    pub bytes: usize,
}

#[repr(C)]
pub struct Answered {
    pub number: u32,
    pub place: usize,
    pub byte: usize,
    pub bytes: usize,
    pub told_number: u32,
    pub told_place: usize,
    pub told_byte: usize,
}

#[repr(C)]
pub struct Extracted {
    pub number: u32,
    pub place: usize,
    pub byte: usize,
    pub rounds: u64,
}

#[repr(C)]
pub struct Bounded {
    pub number: u32,
    pub place: usize,
    pub byte: usize,
    pub sharers: u64,
    pub bits: u64,
    pub rounds: u64,
    pub sharp: u64,
}

/// On x86-64 C hands answers of these sizes back through a place that the caller names in a hidden first argument. The
/// library is compiled so on every machine (see `run`); elsewhere that argument has to be written out.
macro_rules! linked {
    ($(fn $call:ident($($argument:ident: $kind:ty),*) -> $answer:ty;)*) => {$(
        #[cfg(target_arch = "x86_64")]
        unsafe fn $call($($argument: $kind),*) -> $answer {
            extern "C" {
                fn $call($($argument: $kind),*) -> $answer;
            }
            $call($($argument),*)
        }
        #[cfg(not(target_arch = "x86_64"))]
        unsafe fn $call($($argument: $kind),*) -> $answer {
            extern "C" {
                fn $call(answer: *mut $answer, $($argument: $kind),*);
            }
            let mut answer = std::mem::MaybeUninit::<$answer>::uninit();
            $call(answer.as_mut_ptr(), $($argument),*);
            answer.assume_init()
        }
    )*};
}

linked! {
    fn keravnoth_1_read(
        text: *const u8, n: usize,
        z: *mut i64, nz: usize, t: *mut i64, nt: usize, b: *mut [i64; 5], nb: usize, c: *mut [i64; 7], nc: usize, f: *mut i64, nf: usize
    ) -> Read;
    fn keravnoth_1_write(
        header: Header,
        z: *const i64, nz: usize, t: *const i64, nt: usize, b: *const [i64; 5], nb: usize, c: *const [i64; 7], nc: usize, f: *const i64, nf: usize,
        out: *mut u8, nout: usize
    ) -> Written;
    fn keravnoth_1_extract(
        header: Header,
        z: *const i64, nz: usize, t: *const i64, nt: usize, b: *const [i64; 5], nb: usize, c: *const [i64; 7], nc: usize, f: *const i64, nf: usize,
        p: *mut u64, np: usize, atc: *mut [i64; 3], natc: usize, left: *mut [i64; 3], nleft: usize
    ) -> Extracted;
    fn keravnoth_1_result_text(
        header: Header,
        z: *const i64, nz: usize, t: *const i64, nt: usize, b: *const [i64; 5], nb: usize, c: *const [i64; 7], nc: usize, f: *const i64, nf: usize,
        out: *mut u8, nout: usize
    ) -> Written;
    fn keravnoth_1_answer(text: *const u8, n: usize, out: *mut u8, nout: usize) -> Answered;
    fn keravnoth_1_bound(
        header: Header,
        z: *const i64, nz: usize, t: *const i64, nt: usize, b: *const [i64; 5], nb: usize, c: *const [i64; 7], nc: usize, f: *const i64, nf: usize
    ) -> Bounded;
}

/// A call on tables, which come first, and on the buffers that follow them.
macro_rules! on_lent {
    ($call:ident($tables:expr $(, $buffer:expr)*)) => {{
        let Tables { header, z, t, b, c, f } = $tables;
        let second::Header { zones, borders, rows, share, intraday } = *header;
        $call(
            Header { zones, borders, rows, share, intraday: intraday as usize },
            z.as_ptr(), z.len(), t.as_ptr(), t.len(), b.as_ptr(), b.len(), c.as_ptr(), c.len(), f.as_ptr(), f.len(),
            $($buffer.as_mut_ptr(), $buffer.len()),*
        )
    }};
}

pub fn read(text: &[u8], into: &mut Tables) -> Read {
    let Tables { z, t, b, c, f, .. } = into;
    unsafe {
        keravnoth_1_read(
            text.as_ptr(), text.len(),
            z.as_mut_ptr(), z.len(), t.as_mut_ptr(), t.len(), b.as_mut_ptr(), b.len(), c.as_mut_ptr(), c.len(), f.as_mut_ptr(), f.len(),
        )
    }
}

pub fn write(t: &Tables, out: &mut [u8]) -> Written {
    unsafe { on_lent!(keravnoth_1_write(t, out)) }
}

pub fn extract(t: &Tables, p: &mut [u64], atc: &mut [[i64; 3]], left: &mut [[i64; 3]]) -> Extracted {
    unsafe { on_lent!(keravnoth_1_extract(t, p, atc, left)) }
}

pub fn result_text(t: &Tables, out: &mut [u8]) -> Written {
    unsafe { on_lent!(keravnoth_1_result_text(t, out)) }
}

pub fn answer(text: &[u8], out: &mut [u8]) -> Answered {
    unsafe { keravnoth_1_answer(text.as_ptr(), text.len(), out.as_mut_ptr(), out.len()) }
}

pub fn bound(t: &Tables) -> Bounded {
    unsafe { on_lent!(keravnoth_1_bound(t)) }
}
