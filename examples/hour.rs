//! The answer to one hour's table in Rust, over the shared or the static library.
//!
//!     rustc -O --edition 2021 examples/hour.rs -L PREFIX/lib -l keravnoth -C link-arg=-Wl,-rpath,PREFIX/lib -o hour
//!     ./hour hours/worked.tsv
//!
//! Status: 0 the result is printed, 1 the table is refused, 2 the file cannot be read or the result cannot be printed.
//! A symbol bears the interface's major number: a library of another one does not link.
use std::io::Write;
use std::process::ExitCode;

const ANSWER_MOST: usize = 22790;
const REFUSAL_TEXT_MOST: usize = 215;

#[repr(C)]
struct Written {
    number: u32,
    place: usize,
    byte: usize,
    bytes: usize,
}

#[repr(C)]
struct Answered {
    number: u32,
    place: usize,
    byte: usize,
    bytes: usize,
    told_number: u32,
    told_place: usize,
    told_byte: usize,
}

extern "C" {
    fn keravnoth_1_answer(text: *const u8, n: usize, out: *mut u8, nout: usize) -> Answered;
    fn keravnoth_1_refusal_text(number: u64, out: *mut u8, nout: usize) -> Written;
}

/// What a refusal is: number, place and byte.
struct Refusal {
    number: u32,
    place: usize,
    byte: usize,
}

/// The result's text, or why there is none.  A buffer of ANSWER_MOST bytes is never too short, so that the call itself is not refused.
fn answer(table: &[u8]) -> Result<Vec<u8>, Refusal> {
    let mut out = vec![0; ANSWER_MOST];
    let said = unsafe { keravnoth_1_answer(table.as_ptr(), table.len(), out.as_mut_ptr(), out.len()) };
    let own = Refusal { number: said.number, place: said.place, byte: said.byte };
    let told = Refusal { number: said.told_number, place: said.told_place, byte: said.told_byte };
    out.truncate(said.bytes);
    [own, told].into_iter().find(|refusal| refusal.number != 0).map_or(Ok(out), Err)
}

fn words(refusal: &Refusal) -> String {
    let mut out = [0; REFUSAL_TEXT_MOST];
    let said = unsafe { keravnoth_1_refusal_text(refusal.number.into(), out.as_mut_ptr(), out.len()) };
    assert_eq!((said.number, said.place, said.byte), (0, 0, 0));
    let place = match refusal.byte {
        0 => refusal.place.to_string(),
        byte => format!("{}, byte {byte},", refusal.place),
    };
    String::from_utf8_lossy(&out[..said.bytes]).replace('#', &place)
}

fn main() -> ExitCode {
    let name = std::env::args().nth(1).unwrap_or_default();
    let table = match std::fs::read(&name) {
        Ok(table) => table,
        Err(error) => {
            eprintln!("{name}: {error}");
            return ExitCode::from(2);
        }
    };
    match answer(&table) {
        Ok(result) => match std::io::stdout().write_all(&result) {
            Ok(()) => ExitCode::SUCCESS,
            Err(_) => ExitCode::from(2),
        },
        Err(refusal) => {
            eprintln!("{name}: {}", words(&refusal));
            ExitCode::FAILURE
        }
    }
}
