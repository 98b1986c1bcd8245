//! A driver that runs an importer of sheets and the reference side by side.

use crate::compare::quietly;
use crate::generate::{record, shrink};
use crate::generate_sheets::{cases, kinds, kinds_for_any_row, long_cases, short_cases};
use crate::generate_sheets::{Case, Expected, LONGEST_SHORT, SHAPES};
use crate::random::Random;
use crate::reference::{Answer, Reference, RECORD_LENGTH};
use crate::sheets::{read, write, Refused, Sheet};
use std::collections::{BTreeMap, BTreeSet};
use std::fmt;
use std::panic::{catch_unwind, AssertUnwindSafe};

/// The length written, or the refusal.
pub type Imported = Result<usize, Refused>;

/// Takes a text and a lent buffer for its tape.
pub type Importer<'i> = &'i dyn Fn(&[u8], &mut [u8]) -> Imported;

type Check = Result<(), String>;

// ---- counting ----

/// What a run should see besides every kind of case.
const SIGHTS: [&str; 21] = [
    "accepted, exact buffer",
    "accepted, buffer one byte longer",
    "accepted, buffer much longer",
    "accepted, empty buffer",
    "33, buffer one byte short",
    "33, empty buffer",
    "32 in row 1",
    "32 in row 2",
    "32 further down",
    "32 above row 255",
    "32 above row 65,535",
    "32 before 33",
    "sheet without rows",
    "sheet of thousands of rows",
    "sheet of 64 columns",
    "role 0",
    "role 1",
    "role repeated",
    "row without a 1",
    "played, all accepted",
    "played, some refused",
];

/// What has been seen in a run.
#[derive(Clone, Debug, Default)]
pub struct Seen {
    pub texts: usize,
    /// By the kind of the text: those made to fail in row 1, and the others.
    kinds: BTreeMap<&'static str, [usize; 2]>,
    sights: BTreeMap<&'static str, usize>,
}

impl Seen {
    fn note(&mut self, sight: &'static str) {
        *self.sights.entry(sight).or_default() += 1;
    }

    fn note_if(&mut self, holds: bool, sight: &'static str) {
        if holds {
            self.note(sight);
        }
    }

    fn case(&mut self, case: &Case) {
        let place = usize::from(case.expected != Expected::Row(1));
        self.texts += 1;
        self.kinds.entry(case.kind).or_default()[place] += 1;
    }

    fn reading(&mut self, read: &Result<Sheet, usize>) {
        match read {
            Ok(sheet) => self.sheet(sheet),
            Err(row) => self.refused_at(*row),
        }
    }

    fn refused_at(&mut self, row: usize) {
        self.note_if(row == 1, "32 in row 1");
        self.note_if(row == 2, "32 in row 2");
        self.note_if(row > 2, "32 further down");
        self.note_if(row > 255, "32 above row 255");
        self.note_if(row > 65_535, "32 above row 65,535");
    }

    fn sheet(&mut self, sheet: &Sheet) {
        let roles: Vec<u8> = sheet.rows.iter().map(|row| row.role).collect();
        let different: BTreeSet<u8> = roles.iter().copied().collect();
        let is_unmarked = sheet.rows.iter().any(|row| !row.marks.contains(&true));
        self.note_if(roles.is_empty(), "sheet without rows");
        self.note_if(roles.len() >= 2_000, "sheet of thousands of rows");
        self.note_if(sheet.columns.len() == 64, "sheet of 64 columns");
        self.note_if(different.contains(&0), "role 0");
        self.note_if(different.contains(&1), "role 1");
        self.note_if(different.len() < roles.len(), "role repeated");
        self.note_if(is_unmarked, "row without a 1");
    }

    fn buffer(&mut self, tape: Result<&[u8], usize>, length: usize) {
        let taken = tape.map_or(0, <[u8]>::len);
        match tape {
            Err(row) => self.note_if(row > 2 && length == 0, "32 before 33"),
            Ok(_) if length == 0 && taken == 0 => self.note("accepted, empty buffer"),
            Ok(_) if length == 0 => self.note("33, empty buffer"),
            Ok(_) if length + 1 == taken => self.note("33, buffer one byte short"),
            Ok(_) if length == taken => self.note("accepted, exact buffer"),
            Ok(_) if length == taken + 1 => self.note("accepted, buffer one byte longer"),
            Ok(_) => self.note("accepted, buffer much longer"),
        }
    }

    fn play(&mut self, answers: &[Answer]) {
        let all = answers.iter().all(|answer| answer.number == 0);
        self.note_if(all && !answers.is_empty(), "played, all accepted");
        self.note_if(!all, "played, some refused");
    }

    /// All that a run should see and this one hasn't.
    pub fn missing(&self) -> Vec<String> {
        let seen = |kind| self.kinds.get(kind).copied().unwrap_or_default();
        let mut missing = Vec::new();
        for sight in SIGHTS {
            missing.extend((!self.sights.contains_key(sight)).then(|| sight.to_string()));
        }
        for kind in kinds() {
            missing.extend((seen(kind) == [0, 0]).then(|| kind.to_string()));
        }
        for kind in kinds_for_any_row() {
            missing.extend((seen(kind)[0] == 0).then(|| format!("{kind} in row 1")));
            missing.extend((seen(kind)[1] == 0).then(|| format!("{kind} behind row 1")));
        }
        missing
    }
}

impl fmt::Display for Seen {
    fn fmt(&self, out: &mut fmt::Formatter) -> fmt::Result {
        let sights = self.sights.iter();
        let sights: Vec<String> = sights
            .map(|(sight, count)| format!("{sight}: {count}"))
            .collect();
        let kinds = self.kinds.iter();
        let kinds = kinds.map(|(kind, [first, others])| format!("{kind}: {first} + {others}"));
        let kinds: Vec<String> = kinds.collect();
        writeln!(out, "texts {}\n{}", self.texts, sights.join("; "))?;
        write!(out, "made to fail in row 1 + others:\n{}", kinds.join("; "))
    }
}

// ---- one text, side by side ----

fn escaped(bytes: &[u8]) -> String {
    /// So many bytes are shown at the front and at the end of long ones.
    const SHOWN: usize = 600;
    if bytes.len() <= 2 * SHOWN {
        return bytes.escape_ascii().to_string();
    }
    let (front, end) = (&bytes[..SHOWN], &bytes[bytes.len() - SHOWN..]);
    format!("{} [...] {}", front.escape_ascii(), end.escape_ascii())
}

/// Lengths of buffers around what a tape takes: exact, one byte short, one
/// byte longer, much longer, and empty.
fn lengths(random: &mut Random, taken: usize) -> BTreeSet<usize> {
    let much_longer = taken + random.between(33, 300);
    let short = taken.saturating_sub(1);
    BTreeSet::from([taken, short, taken + 1, much_longer, 0])
}

fn same_bytes(found: &[u8], expected: &[u8]) -> Check {
    let mut pairs = found.iter().zip(expected);
    match pairs.position(|(found, expected)| found != expected) {
        None => Ok(()),
        Some(at) => Err(format!(
            "byte {at} of {}: importer {:#04x}, reference {:#04x}",
            found.len(),
            found[at],
            expected[at]
        )),
    }
}

/// Imports on both sides into buffers that have the same bytes before.
fn same_import(
    importer: Importer,
    text: &[u8],
    tape: Result<&[u8], usize>,
    before: &[u8],
) -> Check {
    let (mut found, mut expected) = (before.to_vec(), before.to_vec());
    let answer = importer(text, &mut found);
    let wanted = write(tape, &mut expected);
    if answer != wanted {
        return Err(format!(
            "buffer of {}: importer {answer:?}, reference {wanted:?}",
            before.len()
        ));
    }
    same_bytes(&found, &expected)
}

/// The answers to the records from a fresh graph, and the graph after them.
fn played<'r>(records: impl Iterator<Item = &'r [u8]>) -> (Vec<Answer>, Reference) {
    let mut keeper = Reference::fresh();
    let answers = records.map(|record| keeper.call(record)).collect();
    (answers, keeper)
}

/// Longer sheets aren't played.
const MOST_PLAYED: usize = 64;

/// Plays the importer's tape, and beside it a call of kind 2 for each row.
fn same_play(importer: Importer, text: &[u8], sheet: &Sheet, seen: &mut Seen) -> Check {
    let mut tape = vec![0; sheet.rows.len() * RECORD_LENGTH];
    let _ = importer(text, &mut tape);
    let rows = sheet.rows.iter();
    let calls = rows.map(|row| record(2, row.role, 0, [sheet.set(row), 0, 0]));
    let calls: Vec<Vec<u8>> = calls.collect();
    let expected = played(calls.iter().map(Vec::as_slice));
    seen.play(&expected.0);
    if played(tape.chunks(RECORD_LENGTH)) != expected {
        return Err("the tape plays otherwise than the rows".to_string());
    }
    Ok(())
}

/// The reference reads a text as it was made.
fn as_made(tape: Result<&[u8], usize>, expected: &Expected) -> Check {
    let agrees = match expected {
        Expected::Tape(expected) => tape == Ok(expected),
        Expected::Row(row) => tape == Err(*row),
        Expected::Unknown => true,
    };
    if !agrees {
        return Err("the reference reads the text otherwise than it was made".to_string());
    }
    Ok(())
}

fn compare(importer: Importer, text: &[u8], expected: &Expected, seen: &mut Seen) -> Check {
    let read = read(text);
    seen.reading(&read);
    let tape = read.as_ref().map(Sheet::tape);
    let tape = tape.as_deref().map_err(|row| **row);
    as_made(tape, expected)?;
    // An importer that writes as it reads has written so much at a refusal.
    let taken = tape.map_or_else(|row| row.saturating_sub(2) * RECORD_LENGTH, <[u8]>::len);
    let mut random = Random::new(text.len() as u64);
    for length in lengths(&mut random, taken) {
        seen.buffer(tape, length);
        same_import(importer, text, tape, &random.bytes(length))?;
    }
    match &read {
        Ok(sheet) if sheet.rows.len() <= MOST_PLAYED => same_play(importer, text, sheet, seen),
        _ => Ok(()),
    }
}

/// How the two differ on a text. A panic counts as a difference.
fn difference(
    importer: Importer,
    text: &[u8],
    expected: &Expected,
    seen: &mut Seen,
) -> Option<String> {
    let compare = AssertUnwindSafe(|| compare(importer, text, expected, seen));
    match catch_unwind(compare) {
        Ok(compared) => compared.err(),
        Err(_) => Some("panic".to_string()),
    }
}

// ---- the driver ----

/// Why a run fails.
#[derive(Clone, Debug)]
pub enum Failure {
    /// Importer and reference differ on this text, shrunk.
    Differs {
        seed: u64,
        kind: &'static str,
        text: Vec<u8>,
        difference: String,
    },
    /// All agrees, but the run hasn't seen all that it should.
    Unseen {
        seed: u64,
        missing: Vec<String>,
        seen: Seen,
    },
}

impl fmt::Display for Failure {
    fn fmt(&self, out: &mut fmt::Formatter) -> fmt::Result {
        match self {
            Failure::Differs {
                seed,
                kind,
                text,
                difference,
            } => {
                writeln!(out, "seed {seed:#x}: differs on a text of kind \"{kind}\"")?;
                write!(out, "{}\n{difference}", escaped(text))
            }
            Failure::Unseen {
                seed,
                missing,
                seen,
            } => {
                writeln!(out, "seed {seed:#x}: never seen: {}", missing.join(", "))?;
                write!(out, "{seen}")
            }
        }
    }
}

/// Longer texts are shrunk by lines alone, and much longer ones not at all.
const LONGEST_BY_BYTES: usize = 1_000;
const LONGEST_BY_LINES: usize = 50_000;

/// A shortest text found that still fails: lines go first, then bytes.
fn shortest(text: &[u8], still_fails: impl Fn(&[u8]) -> bool) -> Vec<u8> {
    if text.len() > LONGEST_BY_LINES {
        return text.to_vec();
    }
    let lines: Vec<&[u8]> = text.split_inclusive(|byte| *byte == b'\n').collect();
    let text = shrink(&lines, |part| still_fails(&part.concat())).concat();
    if text.len() > LONGEST_BY_BYTES {
        return text;
    }
    shrink(&text, still_fails)
}

fn differs(seed: u64, importer: Importer, case: &Case, found: String) -> Failure {
    let probe = |text: &[u8]| difference(importer, text, &Expected::Unknown, &mut Seen::default());
    let text = quietly(|| shortest(&case.text, |text| probe(text).is_some()));
    Failure::Differs {
        seed,
        kind: case.kind,
        difference: quietly(|| probe(&text)).unwrap_or(found),
        text,
    }
}

fn take(seed: u64, importer: Importer, case: &Case, seen: &mut Seen) -> Result<(), Failure> {
    seen.case(case);
    match difference(importer, &case.text, &case.expected, seen) {
        None => Ok(()),
        Some(found) => Err(differs(seed, importer, case, found)),
    }
}

/// Runs all short texts, at least `texts` random ones, and long ones; gives
/// what was seen, or the first failure. The seed decides the texts.
pub fn run(seed: u64, texts: usize, importer: Importer) -> Result<Seen, Failure> {
    let mut random = Random::new(seed);
    let mut seen = Seen::default();
    for case in (0..=LONGEST_SHORT).flat_map(short_cases) {
        take(seed, importer, &case, &mut seen)?;
    }
    let mut shapes = SHAPES.into_iter().cycle();
    let enough = seen.texts + texts;
    while seen.texts < enough {
        let shape = shapes.next().expect("a cycle has no end");
        for case in cases(&mut random, shape) {
            take(seed, importer, &case, &mut seen)?;
        }
    }
    for case in long_cases(&mut random) {
        take(seed, importer, &case, &mut seen)?;
    }
    let missing = seen.missing();
    if missing.is_empty() {
        Ok(seen)
    } else {
        Err(Failure::Unseen {
            seed,
            missing,
            seen,
        })
    }
}

/// Runs, prints what was seen or the failure, and says whether all agrees.
pub fn run_and_print(seed: u64, texts: usize, importer: Importer) -> bool {
    match run(seed, texts, importer) {
        Ok(seen) => {
            println!("{seen}\nagrees");
            true
        }
        Err(failure) => {
            println!("{failure}");
            false
        }
    }
}
