//! Tests what tidying and the words of two tables are compared on: one slip at a time is put
//! into tidy.rs or changes.rs, and a text or a pair that spoil.rs or edits.rs makes must show
//! it.  Without a slip none may.
//!
//! `second/slips` builds and runs it.
//! An argument: only the slips whose name contains it.

use std::path::Path;
use std::process::Command;

/// Its name, the file it is put into, and what stands there without it and with it.
type Slip = (&'static str, &'static str, &'static str, &'static str);

const SLIPS: &[Slip] = &[
    // ---- tidying
    ("tidy: one BOM only", "tidy.rs", "    while let Some(rest) = text.strip_prefix(BOM)", "    if let Some(rest) = text.strip_prefix(BOM)"),
    ("tidy: a blank before a BOM hides it", "tidy.rs", ".or_else(|| text.strip_prefix(b\" \"))", ""),
    ("tidy: a BOM anywhere", "tidy.rs", "fn tidied_line(line: &[u8]) -> Vec<u8> {", "fn tidied_line(line: &[u8]) -> Vec<u8> {\n    let line = without_begin(line);"),
    ("tidy: blanks end the run of CR", "tidy.rs", "*byte != 13 && *byte != 32", "*byte != 13"),
    ("tidy: only blanks at a line's end", "tidy.rs", "*byte != 13 && *byte != 32", "*byte != 32"),
    ("tidy: one CR only", "tidy.rs", "    let line = &line[..end];", "    let line = &line[..end.max(line.len().max(1) - 1)];"),
    ("tidy: a tab at a line's end", "tidy.rs", "*byte != 13 && *byte != 32", "*byte != 13 && *byte != 32 && *byte != 9"),
    ("tidy: blanks before a field stay", "tidy.rs", "    while let [b' ', rest @ ..] | [rest @ .., b' '] = field {", "    while let [rest @ .., b' '] = field {"),
    ("tidy: blanks behind a field stay", "tidy.rs", "    while let [b' ', rest @ ..] | [rest @ .., b' '] = field {", "    while let [b' ', rest @ ..] = field {"),
    ("tidy: tabs do not part fields", "tidy.rs", "    byte == 9 || byte == 59", "    byte == 59"),
    ("tidy: semicolons do not part fields", "tidy.rs", "    byte == 9 || byte == 59", "    byte == 9"),
    ("tidy: quotes within quotes", "tidy.rs", "(32..=126).contains(byte) && *byte != 34", "(32..=126).contains(byte)"),
    ("tidy: quotes around any byte", "tidy.rs", "(32..=126).contains(byte) && *byte != 34", "*byte != 34"),
    ("tidy: quotes around byte 127", "tidy.rs", "(32..=126)", "(32..=127)"),
    ("tidy: quotes around byte 31", "tidy.rs", "(32..=126)", "(31..=126)"),
    ("tidy: no quotes around blanks", "tidy.rs", "(32..=126)", "(33..=126)"),
    ("tidy: empty quotes stay", "tidy.rs", "if within.iter().all(", "if !within.is_empty() && within.iter().all("),
    ("tidy: one quote is a pair", "tidy.rs", "        field => field,\n", "        [34] => b\"\",\n        field => field,\n"),
    ("tidy: blanks within quotes stay", "tidy.rs", "=> without_blanks(within),", "=> within,"),
    ("tidy: quotes stay", "tidy.rs", "=> without_blanks(within),", "=> &field[..field.len().min(without_blanks(field).len() + within.len())],"),
    ("tidy: decimals in a line with tabs", "tidy.rs", "line.contains(&b';') && !line.contains(&b'\\t')", "line.contains(&b';')"),
    ("tidy: decimals in a line without semicolon", "tidy.rs", "line.contains(&b';') && !line.contains(&b'\\t')", "!line.contains(&b';')"),
    ("tidy: decimals of the index", "tidy.rs", "        0 | 5 => return 0,\n        1..=7 =>", "        5 => return 0,\n        0..=7 =>"),
    ("tidy: decimals of R", "tidy.rs", "        0 | 5 => return 0,", "        0 => return 0,"),
    ("tidy: the first factor is a power", "tidy.rs", "        1..=7 =>", "        1..=8 =>"),
    ("tidy: IVA is a factor", "tidy.rs", "        1..=7 =>", "        1..=6 =>"),
    ("tidy: two decimals", "tidy.rs", "const POWER_DECIMALS: usize = 3;", "const POWER_DECIMALS: usize = 2;"),
    ("tidy: four decimals", "tidy.rs", "const FACTOR_DECIMALS: usize = 5;", "const FACTOR_DECIMALS: usize = 4;"),
    ("tidy: no digit before the point", "tidy.rs", "if digits(whole) && digits(part) =>", "if (whole.is_empty() || digits(whole)) && digits(part) =>"),
    ("tidy: no digit behind the point", "tidy.rs", "if digits(whole) && digits(part) =>", "if digits(whole) && (part.is_empty() || digits(part)) =>"),
    ("tidy: no minus", "tidy.rs", "field.strip_prefix(b\"-\").unwrap_or(field)", "field"),
    ("tidy: two minuses", "tidy.rs", "field.strip_prefix(b\"-\").unwrap_or(field)", "field.strip_prefix(b\"--\").or_else(|| field.strip_prefix(b\"-\")).unwrap_or(field)"),
    ("tidy: a comma is a point", "tidy.rs", "number.split(|byte| *byte == b'.')", "number.split(|byte| b\".,\".contains(byte))"),
    ("tidy: several points", "tidy.rs", "        [whole, part] if digits", "        [.., whole, part] if digits"),
    ("tidy: before quotes go", "tidy.rs", "zeros(field, place)", "zeros(without_blanks(&rest[..length]), place)"),
    ("tidy: only empty lines at the end", "tidy.rs", "line.iter().all(|byte| parts(*byte))", "line.is_empty()"),
    ("tidy: lines of tabs at the end stay", "tidy.rs", "line.iter().all(|byte| parts(*byte))", "line.iter().all(|byte| *byte == 59)"),
    ("tidy: one line at the end", "tidy.rs", "    while lines.last().is_some_and(|line| line.iter().all(|byte| parts(*byte))) {", "    if lines.last().is_some_and(|line| line.iter().all(|byte| parts(*byte))) {"),
    ("tidy: empty lines anywhere", "tidy.rs", "    // \"Every line that is left", "    lines.retain(|line| !line.is_empty());\n    // \"Every line that is left"),
    ("tidy: the last LF stays missing", "tidy.rs", "    Ok(lines.concat())", "    let mut out = lines.concat();\n    if !text.ends_with(b\"\\n\") {\n        out.pop();\n    }\n    Ok(out)"),
    ("tidy: 65,536 bytes are too many", "tidy.rs", "    if text.len() > MOST_BYTES {", "    if text.len() >= MOST_BYTES {"),
    ("tidy: 65,537 bytes are tidied", "tidy.rs", "    if text.len() > MOST_BYTES {", "    if text.len() > MOST_BYTES + 1 {"),
    // ---- what differs between two tables
    ("changes: the line in the old table", "changes.rs", "{before} becomes {after}\\n\", new.number)", "{before} becomes {after}\\n\", old.number)"),
    ("changes: what is gone by the line before it", "changes.rs", "out += &format!(\"line {} before, {}: gone\\n\", line.number, line.name);", "out += &format!(\"line {} before, {}: gone\\n\", line.number - 1, line.name);"),
    ("changes: the other way round", "changes.rs", "{before} becomes {after}\\n\", new.number)", "{after} becomes {before}\\n\", new.number)"),
    ("changes: new T lines one by one", "changes.rs", "            ([], [first, ..]) if kind == T =>", "            ([], [first]) if kind == T =>"),
    ("changes: gone T lines one by one", "changes.rs", "            ([first, ..], []) if kind == T =>", "            ([first], []) if kind == T =>"),
    ("changes: T lines that are gone at the last one", "changes.rs", "            ([first, ..], []) if kind == T =>", "            ([.., first], []) if kind == T =>"),
    ("changes: T 0 where all T lines are new", "changes.rs", "{}, T: new", "{}, T 0: new"),
    ("changes: R by its value", "changes.rs", "        let dash = *name == \"R\" && *number == R_DASH;", "        let dash = *name == \"R\" && *number == i64::MIN;"),
    ("changes: -1 of a flow is \"-\"", "changes.rs", "        let dash = *name == \"R\" && *number == R_DASH;", "        let dash = *number == R_DASH;"),
    ("changes: the default in force", "changes.rs", "        \"none\".to_string()\n    } else {\n        share.to_string()", "        \"7000\".to_string()\n    } else {\n        share.to_string()"),
    ("changes: hubs in the other order", "changes.rs", "format!(\"{sending} {receiving}\")", "format!(\"{receiving} {sending}\")"),
    ("changes: the sending hub alone", "changes.rs", "format!(\"{sending} {receiving}\")", "format!(\"{sending}\")"),
    ("changes: LTA is not compared", "changes.rs", "field(\"LTA\", b[2])", "field(\"LTA\", 0)"),
    ("changes: from and to confused", "changes.rs", "field(\"from\", b[0]), field(\"to\", b[1])", "field(\"to\", b[0]), field(\"from\", b[1])"),
    ("changes: FRM before Fmax", "changes.rs", "[\"Fmax\", \"FRM\", ", "[\"FRM\", \"Fmax\", "),
    ("changes: CVA is IVA", "changes.rs", "\"CVA\", \"IVA\"];", "\"IVA\", \"CVA\"];"),
    ("changes: zones from 1", "changes.rs", "field(&format!(\"factor of zone {zone}\"), factor)", "field(&format!(\"factor of zone {}\", zone + 1), factor)"),
    ("changes: T before Z", "changes.rs", "        (\"Z\", t.z.iter().map(net).collect()),\n        (\"T\", t.t.iter().map(net).collect()),", "        (\"Z\", t.t.iter().map(net).collect()),\n        (\"T\", t.z.iter().map(net).collect()),"),
    ("changes: the first difference of a line", "changes.rs", "{before} becomes {after}\\n\", new.number);", "{before} becomes {after}\\n\", new.number);\n            break;"),
    ("changes: rows that are gone are not said", "changes.rs", "    for line in &old[new.len().min(old.len())..] {", "    for line in old[new.len().min(old.len())..].iter().filter(|line| !line.name.starts_with('C')) {"),
    ("changes: zones that are new are not said", "changes.rs", "    for line in &new[old.len().min(new.len())..] {", "    for line in new[old.len().min(new.len())..].iter().filter(|line| !line.name.starts_with('Z')) {"),
    ("changes: the header has no rows", "changes.rs", "field(\"rows\", h.rows), ", ""),
];

/// What the two programs are made of.
const FILES: [&str; 10] =
    ["spoil.rs", "edits.rs", "tidy.rs", "changes.rs", "dice.rs", "second.rs", "claims.rs", "rows.rs", "why.rs", "why_words.rs"];

fn build(work: &Path, program: &str) {
    let status = Command::new("rustc")
        .args(["-O", "--edition", "2021", "-A", "warnings"])
        .arg(work.join(format!("{program}.rs")))
        .arg("-o")
        .arg(work.join(program))
        .status();
    assert!(status.expect("rustc").success(), "{program} does not build");
}

/// The program with these arguments: exit code, the last line of its output.
fn run(work: &Path, program: &str, arguments: &[String]) -> (Option<i32>, String) {
    let out = Command::new(work.join(program)).args(arguments).output().expect(program);
    let said = String::from_utf8_lossy(&out.stdout).into_owned();
    (out.status.code(), said.lines().last().unwrap_or_default().to_string())
}

fn main() {
    let only = std::env::args().nth(1).unwrap_or_default();
    let work = Path::new("../target/second/word_slips");
    std::fs::create_dir_all(work).expect("target/second/word_slips");
    let texts = FILES.map(|file| std::fs::read_to_string(file).expect(file));
    let put = |file: &str, text: &str| std::fs::write(work.join(file), text).expect(file);
    let source = |file: &str| &texts[FILES.iter().position(|name| *name == file).expect(file)];
    let stale: Vec<&str> = SLIPS.iter().filter(|(_, file, old, _)| source(file).matches(old).count() != 1).map(|slip| slip.0).collect();
    assert!(stale.is_empty(), "slips whose old text is not there once: {}", stale.join("; "));
    FILES.iter().zip(&texts).for_each(|(file, text)| put(file, text));

    let hours = std::fs::read_dir("../hours").expect("hours").map(|file| file.expect("hours").path().display().to_string());
    let mut hours: Vec<String> = hours.filter(|file| file.ends_with(".tsv")).collect();
    hours.sort();
    let folder = |program: &str| work.join(format!("{program}.d")).display().to_string();
    for (program, count, kinds) in [("spoil", "2000", &["given", "wanted"][..]), ("edits", "600", &["old", "new", "sheet", "wanted"])] {
        build(work, program);
        let _ = std::fs::remove_dir_all(folder(program));
        kinds.iter().for_each(|kind| std::fs::create_dir_all(Path::new(&folder(program)).join(kind)).expect(kind));
        let made = [vec![folder(program), "20260101".to_string(), count.to_string()], hours.clone()].concat();
        assert_eq!(run(work, program, &made).0, Some(0), "{program} makes nothing");
        let (code, said) = run(work, program, &["check".to_string(), folder(program)]);
        assert_eq!(code, Some(0), "without a slip: {said}");
        println!("{program} without a slip: {said}");
    }

    let (mut tried, mut missed) = (0, 0);
    for (name, file, old, new) in SLIPS.iter().filter(|slip| slip.0.contains(&only)) {
        let program = if *file == "tidy.rs" { "spoil" } else { "edits" };
        put(file, &source(file).replace(old, new));
        build(work, program);
        let (code, said) = run(work, program, &["check".to_string(), folder(program)]);
        put(file, source(file));
        tried += 1;
        if code == Some(1) {
            println!("caught  {name}: {said}");
        } else {
            missed += 1;
            println!("MISSED  {name}: {said}");
        }
    }
    println!("{} of {tried} slips of words caught", tried - missed);
    assert_eq!(missed, 0);
}
