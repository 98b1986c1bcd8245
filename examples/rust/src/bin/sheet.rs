//! The role keeper from Rust: from a permission sheet to a graph of roles.

use keeper::{import, Keeper, RECORD_LENGTH};
use std::error::Error;
use std::process::exit;
use std::{env, fs};

/// Reads the sheet that is named, gives its records to a fresh keeper, and says what each is answered.
fn run() -> Result<(), Box<dyn Error>> {
    let name = env::args().nth(1).ok_or("usage: sheet SHEET.csv")?;
    let tape = import(&fs::read(name)?)?;
    let mut keeper = Keeper::fresh();
    for record in tape.chunks(RECORD_LENGTH) {
        match keeper.record(record) {
            Ok(_) => println!("role {}: accepted", record[1]),
            Err(refusal) => println!("role {}: refused, {refusal}", record[1]),
        }
    }
    println!("{} edges", keeper.edge_count());
    Ok(())
}

/// Says why there is no graph: a file that is not read, or the row that is wrong.
fn main() {
    if let Err(error) = run() {
        eprintln!("{error}");
        exit(1);
    }
}
