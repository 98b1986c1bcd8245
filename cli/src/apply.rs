//! Giving the records of a tape, or of its text form, to an image.

use crate::arguments::Arguments;
use crate::file::{self, Contents, Replaced};
use crate::meaning::meaning;
use crate::show::count;
use crate::text::{self, Record};
use crate::{done, input, name, Failure, Outcome};
use keeper::{Answer, Keeper, NUMBERS, RECORD_LENGTH};
use std::ffi::OsString;
use std::path::Path;

/// How many wrong lines are shown.
const SHOWN: usize = 20;

/// The records of a text, or its wrong lines.
pub fn of_text(text: &[u8]) -> Result<Vec<Record>, String> {
    text::records(text).map_err(|wrong| {
        let lines = wrong.iter().take(SHOWN);
        let mut shown: Vec<String> = lines.map(|wrong| text::shown("line", wrong)).collect();
        if wrong.len() > SHOWN {
            shown.push(format!("and {} more wrong lines", wrong.len() - SHOWN));
        }
        shown.join("\n")
    })
}

/// The records of a tape, each with its index.
fn of_tape(bytes: &[u8]) -> Vec<Record> {
    let records = bytes.chunks(RECORD_LENGTH).enumerate();
    records
        .map(|(at, bytes)| Record {
            line: at + 1,
            bytes: bytes.to_vec(),
        })
        .collect()
}

/// The answer to a record in words, and whether it is refused.
fn answer(keeper: &mut Keeper, record: &[u8]) -> (String, bool) {
    match keeper.record(record) {
        Ok(Answer::Accepted) => ("accepted".to_string(), false),
        Ok(Answer::Yes) => ("yes".to_string(), false),
        Ok(Answer::No) => ("no".to_string(), false),
        Err(refusal) => {
            let (number, place) = refusal.parts();
            let why = meaning(keeper, record, refusal);
            (format!("refused with {number}, place {place}: {why}"), true)
        }
    }
}

/// Gives the records to a keeper; what is said of them, and how many are refused.
fn given(keeper: &mut Keeper, records: &[Record], noun: &str, quiet: bool) -> (String, usize) {
    let (mut said, mut refused) = (String::new(), 0);
    for record in records {
        let (words, is_refused) = answer(keeper, &record.bytes);
        refused += usize::from(is_refused);
        if is_refused || !quiet {
            let text = text::line_of(&record.bytes);
            said += &format!("{noun} {}: {text}: {words}\n", record.line);
        }
    }
    (said, refused)
}

/// The records of a file, and whether they stand in records or in lines.
fn records(words: &Arguments, path: &Path) -> Result<(Vec<Record>, &'static str), Failure> {
    if words.has("--tape") && words.has("--text") {
        let said = "TAPE is a tape or a text, not both".to_string();
        return Err(Failure::Usage(said));
    }
    let bytes = input(path)?;
    if words.has("--tape") || !words.has("--text") && bytes.contains(&0) {
        return Ok((of_tape(&bytes), "record"));
    }
    let records = of_text(&bytes).map_err(|said| format!("{}: {said}", name(path)))?;
    Ok((records, "line"))
}

/// What a keeper holds that no image keeps, in a line; nothing where there is none of it.
fn unkept(keeper: &Keeper) -> String {
    let seats = (0..NUMBERS).filter(|seat| !keeper.active_roles(*seat).is_empty());
    let (pairs, seats) = (keeper.exclusions().len(), seats.count());
    let mut parts = Vec::new();
    if pairs > 0 {
        parts.push(count(pairs, "pair") + " of roles that exclude each other");
    }
    if seats > 0 {
        parts.push("active roles of ".to_string() + &count(seats, "seat"));
    }
    match parts.is_empty() {
        true => String::new(),
        false => format!("not kept in the file: {}\n", parts.join(", ")),
    }
}

/// Gives the records to the image, and replaces the file.
pub fn apply(words: &[OsString]) -> Outcome {
    let known = ["--all-or-none", "--dry-run", "--quiet", "--tape", "--text"];
    let words = Arguments::of(words, &known, &["IMAGE", "TAPE"])?;
    let (records, noun) = records(&words, words.path(1))?;
    let held = match words.has("--dry-run") {
        true => None,
        false => Some(Replaced::hold(words.path(0))?),
    };
    let Contents {
        mut front,
        mut keeper,
    } = file::read(words.path(0))?;
    let before = keeper.save();
    let (mut said, refused) = given(&mut keeper, &records, noun, words.has("--quiet"));
    let image = keeper.save();
    let stays = image == before || refused > 0 && words.has("--all-or-none");
    let end = match held {
        Some(held) if !stays => {
            front.extend(image);
            held.replace(&front)?;
            "the file is replaced"
        }
        _ => "the file is as it was",
    };
    let taken = records.len() - refused;
    said += &unkept(&keeper);
    said += &format!("{taken} accepted, {refused} refused; {end}\n");
    done(refused == 0, said)
}
