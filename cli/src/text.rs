//! The text form of tapes: one record a line. `docs/REFERENCE.md` describes it.

use crate::words::Words;
use keeper::{Call, Set, RECORD_LENGTH};

/// What a line says that is of no form: the place in the line and the reason.
#[derive(Debug, PartialEq)]
pub struct Wrong {
    pub column: usize,
    pub said: String,
}

/// A record and the line that it stands in.
pub struct Record {
    pub line: usize,
    pub bytes: Vec<u8>,
}

/// A line that is of no form, as it stands; or a row of a sheet that is none.
pub struct WrongLine {
    pub line: usize,
    pub text: String,
    pub wrong: Wrong,
}

/// The kinds of two numbers: the words, a number where one is in capitals, and whether the first number is b of the record.
const PAIRS: [(u8, &str, bool); 12] = [
    (4, "grant PRIVILEGE to ROLE", true),
    (5, "withdraw PRIVILEGE from ROLE", true),
    (6, "edge ROLE to ROLE", false),
    (7, "unedge ROLE to ROLE", false),
    (8, "conflict PRIVILEGE PRIVILEGE", false),
    (9, "lift PRIVILEGE PRIVILEGE", false),
    (10, "seat SEAT gets ROLE", false),
    (11, "seat SEAT loses ROLE", false),
    (12, "ask seat SEAT for PRIVILEGE", false),
    (13, "exclude ROLE ROLE", false),
    (14, "seat SEAT switches on ROLE", false),
    (15, "seat SEAT switches off ROLE", false),
];

/// The parts of kind 1: the names of its sets, in the order of the record.
const PARTS: [&str; 3] = ["holds", "over", "under"];

/// What a line may start with.
const STARTS: &str =
    "add, role, remove, grant, withdraw, edge, unedge, conflict, lift, seat, ask, exclude or bytes";

// ---- from text to bytes ----

/// The bytes of a record: its kind, its numbers and its sets.
fn packed(kind: u8, a: u8, b: u8, sets: [Set; 3]) -> Vec<u8> {
    let mut record = vec![kind, a, b, 0, 0, 0, 0, 0];
    record.extend(sets.iter().flat_map(|set| set.0.to_le_bytes()));
    record
}

/// Kind 1, behind 'add': the role, then parts of a name and a set each.
fn placed(words: &mut Words) -> Result<Vec<u8>, Wrong> {
    let role = words.number("the role's number")?;
    let mut sets = [Set::EMPTY; 3];
    let mut left = 0;
    while let Some(word) = words.peek() {
        let Some(part) = PARTS.iter().position(|name| *name == word) else {
            let wanted = "'holds', 'over' or 'under' and a set";
            return Err(words.wrong(format!("expected {wanted}, but '{word}' stands here")));
        };
        if part < left {
            let said = format!("'{word}' stands once, in the order holds, over, under");
            return Err(words.wrong(said));
        }
        words.next();
        sets[part] = words.set()?;
        left = part + 1;
    }
    Ok(packed(1, role, 0, sets))
}

/// Kind 3, behind 'remove'.
fn removed(words: &mut Words) -> Result<Vec<u8>, Wrong> {
    let role = words.number("the role's number")?;
    let keep = words.peek() == Some("keep");
    if keep {
        words.next();
    }
    Ok(packed(3, role, keep.into(), [Set::EMPTY; 3]))
}

/// Bytes as they are, behind 'bytes', in base sixteen.
fn plain(words: &mut Words) -> Result<Vec<u8>, Wrong> {
    let said = format!("expected 1 to {RECORD_LENGTH} bytes in base sixteen, two digits each");
    let word = words.peek().unwrap_or_default();
    let digits: Option<Vec<u32>> = word.chars().map(|c| c.to_digit(16)).collect();
    match digits {
        Some(digits)
            if (2..=2 * RECORD_LENGTH).contains(&digits.len()) && digits.len() % 2 == 0 =>
        {
            words.next();
            Ok(digits
                .chunks(2)
                .map(|pair| (16 * pair[0] + pair[1]) as u8)
                .collect())
        }
        _ => Err(words.wrong(said)),
    }
}

/// Words between quotes, each once, as 'a', 'b' or 'c'.
fn either<'a>(words: impl Iterator<Item = &'a str>) -> String {
    let mut said: Vec<String> = words.map(|word| format!("'{word}'")).collect();
    said.dedup();
    match said.pop() {
        Some(last) if !said.is_empty() => format!("{} or {last}", said.join(", ")),
        last => last.unwrap_or_default(),
    }
}

/// What is said where none of the forms goes on with the next word.
fn unlike(forms: &[&(u8, &str, bool)], place: usize) -> String {
    let forms = forms.iter().map(|(_, form, _)| *form);
    let wanted = either(forms.clone().map(|form| word_at(form, place)));
    format!("expected {wanted}, as in {}", either(forms))
}

/// The word of a form at a place.
fn word_at<'a>(form: &'a str, place: usize) -> &'a str {
    form.split(' ').nth(place).unwrap_or_default()
}

/// The kinds of two numbers, whose forms start with this word.
fn paired(words: &mut Words, first: &str) -> Result<Vec<u8>, Wrong> {
    let mut forms: Vec<_> = PAIRS
        .iter()
        .filter(|(_, form, _)| word_at(form, 0) == first)
        .collect();
    let (mut numbers, mut place) = (Vec::new(), 1);
    // Forms that start alike part at one of their words; the first of those left tells how long the form is.
    while place < forms[0].1.split(' ').count() {
        let wanted = word_at(forms[0].1, place);
        if wanted.chars().all(char::is_uppercase) {
            let what = format!("the {}'s number", wanted.to_lowercase());
            numbers.push(words.number(&what)?);
        } else {
            let word = words.peek().unwrap_or_default();
            let said = unlike(&forms, place);
            forms.retain(|(_, form, _)| word_at(form, place) == word);
            if forms.is_empty() {
                return Err(words.wrong(said));
            }
            words.next();
        }
        place += 1;
    }
    let (kind, _, crossed) = *forms[0];
    let (a, b) = match crossed {
        true => (numbers[1], numbers[0]),
        false => (numbers[0], numbers[1]),
    };
    Ok(packed(kind, a, b, [Set::EMPTY; 3]))
}

/// The bytes of a line, or none where it has only a comment.
pub fn record_of(line: &str) -> Result<Vec<u8>, Wrong> {
    let mut words = Words::of(line);
    let Some(first) = words.peek() else {
        return Ok(Vec::new());
    };
    let starts = |form: &str| form.split(' ').next() == Some(first);
    if !PAIRS.iter().any(|(_, form, _)| starts(form))
        && !["add", "role", "remove", "bytes"].contains(&first)
    {
        return Err(words.wrong(format!(
            "no record starts with '{first}'; a line starts with {STARTS}"
        )));
    }
    words.next();
    let record = match first {
        "add" => placed(&mut words)?,
        "role" => {
            let role = words.number("the role's number")?;
            packed(2, role, 0, [words.set()?, Set::EMPTY, Set::EMPTY])
        }
        "remove" => removed(&mut words)?,
        "bytes" => plain(&mut words)?,
        _ => paired(&mut words, first)?,
    };
    words.end()?;
    Ok(record)
}

/// The mark that some editors put before a text.
pub const MARK: &[u8] = "\u{FEFF}".as_bytes();

/// The records of a text, or the lines that are wrong.
pub fn records(text: &[u8]) -> Result<Vec<Record>, Vec<WrongLine>> {
    let text = text.strip_prefix(MARK).unwrap_or(text);
    let (mut records, mut wrong, mut short) = (Vec::new(), Vec::new(), 0);
    for (at, line) in text.split(|byte| *byte == b'\n').enumerate() {
        let line_text = String::from_utf8_lossy(line);
        let read = record_of(&line_text).and_then(|bytes| match short {
            0 => Ok(bytes),
            _ if bytes.is_empty() => Ok(bytes),
            _ => {
                let said = format!("a record stands behind line {short}, which has fewer than {RECORD_LENGTH} bytes and so must be the last");
                Err(Wrong { column: 0, said })
            }
        });
        let line = at + 1;
        match read {
            Err(wrong_here) => wrong.push(WrongLine {
                line,
                text: line_text.into_owned(),
                wrong: wrong_here,
            }),
            Ok(bytes) if bytes.is_empty() => {}
            Ok(bytes) => {
                short = if bytes.len() < RECORD_LENGTH {
                    line
                } else {
                    short
                };
                records.push(Record { line, bytes });
            }
        }
    }
    if wrong.is_empty() {
        Ok(records)
    } else {
        Err(wrong)
    }
}

// ---- from bytes to text ----

/// The line of a call.
fn call_text(call: &Call) -> String {
    match *call {
        Call::AddByPlace {
            role,
            direct,
            juniors,
            seniors,
        } => {
            let mut line = format!("add {role}");
            for (name, set) in PARTS.iter().zip([direct, juniors, seniors]) {
                if !set.is_empty() {
                    line += &format!(" {name} {set}");
                }
            }
            line
        }
        Call::AddByPrivileges { role, effective } => format!("role {role} {effective}"),
        Call::RemoveRole { role, keep } => {
            format!("remove {role}{}", if keep { " keep" } else { "" })
        }
        Call::Grant { privilege, role } => format!("grant {privilege} to {role}"),
        Call::Withdraw { privilege, role } => format!("withdraw {privilege} from {role}"),
        Call::AddEdge { junior, senior } => format!("edge {junior} to {senior}"),
        Call::RemoveEdge { junior, senior } => format!("unedge {junior} to {senior}"),
        Call::Declare { first, second } => format!("conflict {first} {second}"),
        Call::Lift { first, second } => format!("lift {first} {second}"),
        Call::Assign { seat, role } => format!("seat {seat} gets {role}"),
        Call::Unassign { seat, role } => format!("seat {seat} loses {role}"),
        Call::Ask { seat, privilege } => format!("ask seat {seat} for {privilege}"),
        Call::Exclude { first, second } => format!("exclude {first} {second}"),
        Call::Activate { seat, role } => format!("seat {seat} switches on {role}"),
        Call::Deactivate { seat, role } => format!("seat {seat} switches off {role}"),
    }
}

/// The line of a record: the form of its kind, or else the bytes.
pub fn line_of(record: &[u8]) -> String {
    match Call::of_record(record) {
        Some(call) => call_text(&call),
        None => {
            let digits: String = record.iter().map(|byte| format!("{byte:02x}")).collect();
            format!("bytes {digits}")
        }
    }
}

// ---- wrong lines ----

/// How much of a wrong line is shown before and behind the place.
const SHOWN: usize = 60;

/// What is wrong, the line by this noun, and a mark under the place.
pub fn shown(noun: &str, wrong: &WrongLine) -> String {
    let first = wrong.wrong.column.saturating_sub(SHOWN);
    let plain = |c: char| {
        if c != '\t' && c.is_control() {
            '\u{FFFD}'
        } else {
            c
        }
    };
    let text = wrong.text.trim_end();
    let part: String = text
        .chars()
        .skip(first)
        .take(2 * SHOWN)
        .map(plain)
        .collect();
    let blank = |c: char| if c == '\t' { c } else { ' ' };
    let mut under: String = part
        .chars()
        .take(wrong.wrong.column - first)
        .map(blank)
        .collect();
    while under.chars().count() < wrong.wrong.column - first {
        under.push(' ');
    }
    format!(
        "{noun} {}: {}\n    {part}\n    {under}^",
        wrong.line, wrong.wrong.said
    )
}
