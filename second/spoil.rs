//! Makes texts to tidy, and what each becomes, for a comparison with the calculator.
//!
//! spoil FOLDER SEED COUNT TABLE..: of each table its text, its rows as a semicolon sheet
//! and some of its C lines, each spoilt as spreadsheets do, in each way and in all of them at
//! once; and COUNT texts damaged at random.  Into the folder, for number N: given/N, and
//! wanted/N, the tidied text or the E line.  A text that was only spoilt must become what it
//! was, and each one given again must not change.
//! spoil check FOLDER: how many texts of the folder become something else here; status 1
//! where one does.

#[path = "dice.rs"]
mod dice;
#[path = "second.rs"]
mod second;
#[path = "tidy.rs"]
mod tidy;

use dice::Dice;
use second::rows::sheet_of;
use std::path::Path;
use tidy::tidied;

/// The ways to spoil a text; all of them at once is one more.
const WAYS: [&str; 9] =
    ["BOM", "CR LF", "quotes", "some quotes", "blanks", "some blanks", "trimmed decimals", "empty last rows", "no last LF"];

/// What parts the fields of a line.
fn by(line: &[u8]) -> u8 {
    if line.contains(&b'\t') {
        b'\t'
    } else {
        b';'
    }
}

/// Each field by itself.
fn each_field(text: &[u8], mut change: impl FnMut(&[u8]) -> Vec<u8>) -> Vec<u8> {
    let line = |line: &[u8]| {
        let (end, body) = line.split_last().expect("a line");
        assert_eq!(*end, b'\n');
        let fields: Vec<Vec<u8>> = body.split(|byte| *byte == by(body)).map(&mut change).collect();
        [fields.join(&by(body)), b"\n".to_vec()].concat()
    };
    text.split_inclusive(|byte| *byte == b'\n').flat_map(line).collect()
}

/// A number with a point, its last zeros taken off but for one decimal.
fn trimmed(field: &[u8]) -> Vec<u8> {
    let Some(point) = field.iter().position(|byte| *byte == b'.') else {
        return field.to_vec();
    };
    let last = field.iter().rposition(|byte| *byte != b'0').unwrap_or(0);
    field[..(last + 1).max(point + 2).min(field.len())].to_vec()
}

fn blanks(d: &mut Dice) -> Vec<u8> {
    vec![b' '; d.below(4)]
}

/// A good text spoilt in one way.
fn spoilt(d: &mut Dice, text: &[u8], way: &str) -> Vec<u8> {
    let quoted = |field: &[u8]| [b"\"", field, b"\""].concat();
    match way {
        "BOM" => [b"\xEF\xBB\xBF", text].concat(),
        "CR LF" => text.split_inclusive(|byte| *byte == b'\n').flat_map(|line| [&line[..line.len() - 1], b"\r\n"].concat()).collect(),
        "quotes" => each_field(text, quoted),
        "some quotes" => each_field(text, |field| if d.one_in(3) { quoted(field) } else { field.to_vec() }),
        "blanks" => each_field(text, |field| [b" ", field, b"  "].concat()),
        "some blanks" => each_field(text, |field| [&blanks(d)[..], field, &blanks(d)[..]].concat()),
        "trimmed decimals" => each_field(text, trimmed),
        "empty last rows" => {
            let row = d.of(&["\n", ";;;;;;;;;;\n", "\t\t\t\n", ";\n;\n", " \r\n", "\"\";\"\" ;\n\n", "\t;\n"]);
            [text, row.as_bytes()].concat()
        }
        _ => text.strip_suffix(b"\n").unwrap_or(text).to_vec(),
    }
}

/// .. in all of them, so that each can still be seen.
fn spoilt_in_all(d: &mut Dice, text: &[u8]) -> Vec<u8> {
    let mut all = text.to_vec();
    for way in ["trimmed decimals", "some blanks", "quotes", "some blanks", "empty last rows", "CR LF", "BOM", "no last LF"] {
        all = spoilt(d, &all, way);
    }
    all
}

/// Bytes that tell, and pieces that do.
const PIECES: [&[u8]; 34] = [
    b"\"", b"\"", b" ", b" ", b"\r", b"\n", b"\n", b"\t", b";", b";", b".", b"-", b"0", b"1", b"5", b"9", b"C", b"H", b",", b"x",
    b"\x00", b"\x1f", b"\x7f", b"\xff", b"\xEF\xBB\xBF", b"\xEF\xBB", b"\r\n", b"\"\"", b" \"", b"\" ", b"1.2", b"-0.5", b"0;1.2;3.45;-6.7;8.",
    b";;;;;;;;0.1;-0.25;",
];

/// A short text of such pieces.
fn pieces(d: &mut Dice) -> Vec<u8> {
    let count = d.of(&[1, 2, 3, 5, 8, 13, 30, 60]);
    (0..count).flat_map(|_| d.of(&PIECES).to_vec()).collect()
}

/// A text damaged at some places.
fn damaged(d: &mut Dice, text: &[u8]) -> Vec<u8> {
    let mut text = text.to_vec();
    for _ in 0..d.of(&[1, 1, 2, 3, 5, 20]) {
        let at = d.below(text.len() + 1);
        let piece = d.of(&PIECES);
        // mostly at an end of a field
        let parts = |byte: &u8| b"\t;\n".contains(byte);
        let near = text[at..].iter().position(parts).map_or(at, |ahead| at + ahead + d.below(2));
        let at = if d.one_in(3) { at } else { near };
        match d.below(6) {
            0 if at < text.len() => text[at] = d.next() as u8,
            1 if at < text.len() => {
                text.remove(at);
            }
            2 => text.truncate(at),
            3 => {
                // a field, its number put in quotes or cut short
                let begin = text[..at].iter().rposition(parts).map_or(0, |before| before + 1);
                let end = text[begin..].iter().position(parts).map_or(text.len(), |ahead| begin + ahead);
                let field = match d.below(3) {
                    0 => [b"\"", &text[begin..end], b"\""].concat(),
                    1 => trimmed(&text[begin..end]),
                    _ => d.of(&["1.2", "-1.25", "1.", ".5", "1.2.3", "-", "1,5", " 1.5", "\"1.5\"", "0.123456", "--1.5"]).into(),
                };
                text.splice(begin..end, field);
            }
            _ => {
                text.splice(at..at, piece.to_vec());
            }
        }
    }
    text
}

/// The texts of a folder that become something else than is wanted, and all of them.
fn differing(folder: &str) -> [usize; 2] {
    let mut counts = [0; 2];
    for given in std::fs::read_dir(Path::new(folder).join("given")).expect(folder) {
        let given = given.expect(folder).path();
        let wanted = Path::new(folder).join("wanted").join(given.file_name().expect("a name"));
        let [given, wanted] = [given, wanted].map(|file| std::fs::read(file).expect(folder));
        counts[0] += usize::from(or_e_line(&given) != wanted);
        counts[1] += 1;
    }
    counts
}

/// The tidied text, or the E line.
fn or_e_line(text: &[u8]) -> Vec<u8> {
    tidied(text).unwrap_or_else(second::refusal_text)
}

fn number(argument: &str) -> u64 {
    let read = match argument.strip_prefix("0x") {
        Some(hex) => u64::from_str_radix(hex, 16),
        None => argument.parse(),
    };
    read.expect("a number")
}

fn main() {
    let arguments: Vec<String> = std::env::args().skip(1).collect();
    if let [check, folder] = &arguments[..] {
        assert_eq!(check, "check");
        let [differ, all] = differing(folder);
        println!("{differ} of {all} texts become something else");
        std::process::exit(i32::from(differ > 0));
    }
    let [folder, seed, count, tables @ ..] = &arguments[..] else {
        eprintln!("arguments: a folder, a seed, how many texts are damaged, tables; or \"check\" and a folder");
        std::process::exit(2);
    };
    let mut dice = Dice::new(number(seed));
    let d = &mut dice;
    let mut good: Vec<Vec<u8>> = Vec::new();
    for file in tables {
        let text = std::fs::read(file).expect(file);
        let Ok(table) = second::read(&text, second::ALL_ROOM) else { continue };
        let sheet = sheet_of(Ok(table));
        let lines: Vec<&[u8]> = text.split_inclusive(|byte| *byte == b'\n').filter(|line| line[0] == b'C' && d.one_in(2)).collect();
        good.extend([sheet, lines.concat(), text.clone()]);
    }
    assert!(!good.is_empty(), "no table is good");
    let mut given: Vec<Vec<u8>> = Vec::new();
    for text in &good {
        let mut ways: Vec<Vec<u8>> = WAYS.iter().map(|way| spoilt(d, text, way)).collect();
        ways.extend([spoilt_in_all(d, text), text.clone()]);
        // quotes and blanks make some texts too long
        for spoilt in ways.iter().filter(|spoilt| spoilt.len() <= second::MOST_BYTES) {
            assert_eq!(tidied(spoilt).as_ref(), Ok(text), "{}", spoilt.escape_ascii());
        }
        given.extend(ways);
    }
    // as long as it may be, and longer
    given.extend([second::MOST_BYTES, second::MOST_BYTES + 1].map(|bytes| vec![b'\n'; bytes]));
    // of the long texts a few lines are enough
    let short: Vec<&Vec<u8>> = good.iter().filter(|text| text.len() < 3_000).collect();
    for number in 0..number(count) {
        given.push(match number % 4 {
            0 => pieces(d),
            1 => {
                let at = d.below(good.len());
                damaged(d, &good[at])
            }
            _ => {
                let text = d.of(&short).clone();
                let spoilt = if d.one_in(2) { spoilt_in_all(d, &text) } else { text };
                damaged(d, &spoilt)
            }
        });
    }
    for (number, text) in given.iter().enumerate() {
        let wanted = or_e_line(text);
        assert_eq!(tidied(&wanted), Ok(wanted.clone()), "tidied twice: {}", text.escape_ascii());
        assert!(wanted.len() <= 2 * text.len() + 1);
        for (kind, bytes) in [("given", text), ("wanted", &wanted)] {
            let file = Path::new(folder).join(kind).join(format!("{number:04}"));
            std::fs::write(&file, bytes).unwrap_or_else(|error| panic!("{}: {error}", file.display()));
        }
    }
    println!("{} texts of the seed {seed}", given.len());
}
