//! Permission sheets: the tape of one, or the first row that is wrong. The keeper gives that row's number alone, so the row
//! is read here once more for the reason.

use crate::arguments::Arguments;
use crate::text::{shown, Wrong, WrongLine, MARK};
use crate::{done, input, name, Failure, Outcome};
use keeper::{SheetRefusal, NUMBERS};
use std::ffi::OsString;

/// Writes the tape of a sheet.
pub fn import(given: &[OsString]) -> Outcome {
    let words = Arguments::of(given, &[], &["SHEET"])?;
    let text = input(words.path(0))?;
    let said = |refusal| format!("{}: {}", name(words.path(0)), refused(&text, refusal));
    match keeper::import(&text) {
        Ok(tape) => done(true, tape),
        Err(refusal) => Err(Failure::Unimported(said(refusal))),
    }
}

/// The refusal with its reason, the row, and a mark under the place.
fn refused(text: &[u8], refusal: SheetRefusal) -> String {
    let (number, place) = refusal.parts();
    let SheetRefusal::BadSheet { row } = refusal else {
        return format!("refused with {number}, place {place}: {refusal}");
    };
    let at_hand = &text[start(text, row)..];
    let (at, said) = Row::of(text, row)
        .judge()
        .err()
        .unwrap_or((0, refusal.to_string()));
    let line = WrongLine {
        line: row as usize,
        text: escaped(first_line(at_hand)),
        wrong: Wrong {
            column: escaped(&at_hand[..at]).len(),
            said,
        },
    };
    shown(&format!("refused with {number}, row"), &line)
}

/// Where a row starts: behind as many line ends as rows stand before it, since these are good and no field of a good row has
/// a line end.
fn start(text: &[u8], row: u64) -> usize {
    let is_end = |at: &usize| text[*at..].starts_with(b"\r\n");
    let starts = (0..text.len()).filter(is_end).map(|at| at + 2);
    let mut starts = std::iter::once(0).chain(starts);
    starts.nth(row as usize - 1).unwrap_or(text.len())
}

/// The bytes up to the first CR or LF.
fn first_line(bytes: &[u8]) -> &[u8] {
    let ends = |byte: &u8| matches!(byte, b'\r' | b'\n');
    bytes.split(ends).next().unwrap_or_default()
}

/// Bytes as text, with an escape for each that is no printing ASCII, and for the escapes' own `\`.
fn escaped(bytes: &[u8]) -> String {
    let shown = |byte: &u8| match byte {
        b'"' | b'\'' => char::from(*byte).to_string(),
        _ => byte.escape_ascii().to_string(),
    };
    bytes.iter().map(shown).collect()
}

/// How much of a field is named in a reason.
const NAMED: usize = 20;

/// A field's content for a reason, between single quotes.
fn named(content: &[u8]) -> String {
    match content.get(..NAMED) {
        Some(front) if content.len() > NAMED => format!("'{}..'", escaped(front)),
        _ => format!("'{}'", escaped(content)),
    }
}

/// What is wrong: where it starts in the row, and the reason.
type Fault = (usize, String);

/// A row that the keeper refuses: the text from its start on, whether it is the heading, and how many fields a row has.
struct Row<'a> {
    text: &'a [u8],
    is_heading: bool,
    width: usize,
}

impl<'a> Row<'a> {
    /// The row of a number. The heading of a further row is good, so each of its commas parts two fields.
    fn of(text: &'a [u8], row: u64) -> Row<'a> {
        let commas = first_line(text).iter().filter(|byte| **byte == b',');
        Row {
            text: &text[start(text, row)..],
            is_heading: row == 1,
            width: commas.count() + 1,
        }
    }

    /// Goes through the row's fields up to the first fault.
    fn judge(&self) -> Result<(), Fault> {
        self.judge_start()?;
        let (mut at, mut count, mut before) = (0, 0, None);
        loop {
            let (content, end) = self.field(at)?;
            count += 1;
            self.judge_field(content, count, &mut before)
                .map_err(|said| (at, said))?;
            at = end;
            match &self.text[at..] {
                [b',', ..] => at += 1,
                [] | [b'\r', b'\n', ..] => return self.judge_count(count, at),
                rest => return Err((at, behind_field(rest))),
            }
        }
    }

    /// What is wrong before the first field.
    fn judge_start(&self) -> Result<(), Fault> {
        let said = match (self.is_heading, self.text) {
            (true, []) => "the text is empty, and a sheet starts with a heading",
            (true, text) if text.starts_with(MARK) => {
                "a byte order mark stands before the heading, and a sheet has none"
            }
            (false, [b'\r', b'\n', ..]) => "the row is empty",
            _ => return Ok(()),
        };
        Err((0, said.to_string()))
    }

    /// The content of the field at a place, and where it ends.
    fn field(&self, at: usize) -> Result<(&'a [u8], usize), Fault> {
        let rest = &self.text[at..];
        if rest.first() != Some(&b'"') {
            let ends = |byte: &u8| matches!(byte, b',' | b'\r' | b'\n');
            let content = rest.split(ends).next().unwrap_or_default();
            return Ok((content, at + content.len()));
        }
        let mut end = 1;
        loop {
            match &rest[end..] {
                [] => return Err((at, "this quote is not closed".to_string())),
                [b'"', b'"', ..] => end += 2,
                [b'"', ..] => return Ok((&rest[1..end], at + end + 1)),
                _ => end += 1,
            }
        }
    }

    /// What is wrong with the content of a field, by how many fields are read with it. `before` is the privilege before it.
    fn judge_field(
        &self,
        content: &[u8],
        count: usize,
        before: &mut Option<u8>,
    ) -> Result<(), String> {
        if let Some(other) = content.iter().find(|byte| matches!(byte, b';' | b'\t')) {
            let other = named(&[*other]);
            return Err(format!("commas part the fields, and {other} stands here"));
        }
        match (self.is_heading, count) {
            (true, 1) => judge_corner(content),
            (true, _) => judge_privilege(content, before),
            (false, 1) => number(content, "the role's number").map(|_| ()),
            (false, _) if count > self.width => {
                Err(format!("a field too many: the heading has {}", self.width))
            }
            (false, _) => judge_mark(content),
        }
    }

    /// What is wrong with how many fields there are, at the row's end.
    fn judge_count(&self, count: usize, at: usize) -> Result<(), Fault> {
        let width = self.width;
        let said = match self.is_heading {
            true if count == 1 => "the heading has no privilege".to_string(),
            false if count < width => {
                format!("a field is missing: the heading has {width}, and this row {count}")
            }
            _ => return Ok(()),
        };
        Err((at, said))
    }
}

/// What is wrong with the heading's first field.
fn judge_corner(content: &[u8]) -> Result<(), String> {
    match content {
        [] => Ok(()),
        _ => Err(format!(
            "the heading starts with an empty field, and {} stands here",
            named(content)
        )),
    }
}

/// What is wrong with a privilege of the heading. It takes the place of the one before.
fn judge_privilege(content: &[u8], before: &mut Option<u8>) -> Result<(), String> {
    let privilege = number(content, "a privilege's number")?;
    match before.replace(privilege) {
        Some(before) if before >= privilege => Err(format!(
            "privilege {privilege} stands behind {before}, and they strictly ascend"
        )),
        _ => Ok(()),
    }
}

/// What is wrong with a mark.
fn judge_mark(content: &[u8]) -> Result<(), String> {
    match content {
        b"0" | b"1" => Ok(()),
        [] => Err("a 0 or a 1 is missing here".to_string()),
        _ => Err(format!("{} is neither 0 nor 1", named(content))),
    }
}

/// The number of a field, or what is wrong with it.
fn number(content: &[u8], what: &str) -> Result<u8, String> {
    let shown = named(content);
    if content.is_empty() {
        return Err(format!("{what} is missing here"));
    }
    if !content.iter().all(u8::is_ascii_digit) {
        return Err(format!("{shown} is not a number from 0 to 63"));
    }
    if content.len() > 1 && content[0] == b'0' {
        return Err(format!("{shown} has a leading zero"));
    }
    let number = escaped(content).parse().ok();
    number
        .filter(|number| *number < NUMBERS)
        .ok_or_else(|| format!("{shown} is above 63"))
}

/// What is wrong where a field is followed neither by a comma nor by a line end.
fn behind_field(rest: &[u8]) -> String {
    match rest {
        [b'\n', ..] => {
            "the line ends with LF alone, and lines of a sheet end with CR LF".to_string()
        }
        [b'\r', ..] => "a CR stands here without its LF".to_string(),
        _ => format!("{} stands behind a closing quote", named(&rest[..1])),
    }
}
