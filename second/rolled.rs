//! Writes tables made at random (make.rs) to a folder, named 1.tsv and so on: the same seed gives the same tables.
//! usage: rolled SEED COUNT FOLDER

#[path = "dice.rs"]
mod dice;
#[path = "make.rs"]
mod make;
#[path = "second.rs"]
mod second;

fn main() {
    let words: Vec<String> = std::env::args().collect();
    let number = |k: usize| words.get(k).and_then(|w| w.parse::<u64>().ok());
    let (Some(seed), Some(count), Some(folder)) = (number(1), number(2), words.get(3)) else {
        eprintln!("usage: rolled SEED COUNT FOLDER");
        std::process::exit(2);
    };
    for k in 1..=count {
        let (table, _) = make::table(&mut dice::Dice::for_case(seed, 0, k));
        // a border that is given twice cannot be written
        if let Ok(text) = second::write(table.lend(), usize::MAX) {
            std::fs::write(format!("{folder}/{k}.tsv"), text).expect("the folder cannot be written to");
        }
    }
}
