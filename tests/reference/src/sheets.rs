//! The permission sheets of item 2 of document 02, in their plainest form: a
//! text is split by RFC 4180 into rows of field contents, the contents are
//! judged by the sheet's own rules, and each row becomes a record of kind 2.
//!
//! Choices where the documents are open:
//!
//! - RFC 4180 is taken by its grammar: only CR LF ends a line, a plain field
//!   has no quote in it, and nothing stands between a quoted field and the
//!   comma or line end beside it.
//! - A field's content is all that counts: `""` is the empty field, `"7"` is
//!   7, and a mark may be quoted too.
//! - A text's last CR LF ends its last row and starts no other, so a heading
//!   alone, with or without it, is a sheet without rows. A second CR LF there
//!   ends an empty row, which is no row of a sheet.
//! - Empty text is one row with one empty field, a heading without a
//!   privilege.
//! - A mark is `0` or `1` exactly; `00` and `01` are none.
//! - Role numbers 0 and 1, repeated ones and rows without a 1 are records like
//!   others. The keeper judges them later.
//! - The first row that fails decides, whatever stands behind it. A row that
//!   isn't of RFC 4180, such as one with an open quote, fails as a whole.

use crate::reference::{one, Set, RECORD_LENGTH};

// ---- RFC 4180 ----

/// The contents of a row's fields.
pub type Fields = Vec<Vec<u8>>;

/// The rows that stand before the first one that isn't of RFC 4180.
#[derive(Clone, Debug, PartialEq)]
pub struct Split {
    pub rows: Vec<Fields>,
    /// Whether these are all the rows of the text.
    pub whole: bool,
}

const LINE_END: &[u8] = b"\r\n";
const DOUBLED_QUOTE: &[u8] = b"\"\"";
const QUOTE: &[u8] = b"\"";
const COMMA: &[u8] = b",";

/// What may stand in a plain field.
fn is_textdata(byte: u8) -> bool {
    matches!(byte, 0x20..=0x21 | 0x23..=0x2B | 0x2D..=0x7E)
}

/// What may stand in a quoted field, quotes left out.
fn is_quotable(byte: u8) -> bool {
    is_textdata(byte) || matches!(byte, b',' | b'\r' | b'\n')
}

/// The part of a text that isn't read yet.
struct Unread<'t> {
    bytes: &'t [u8],
}

impl Unread<'_> {
    /// Reads past the token if it comes next; says whether it does.
    fn take(&mut self, token: &[u8]) -> bool {
        match self.bytes.strip_prefix(token) {
            Some(behind) => {
                self.bytes = behind;
                true
            }
            None => false,
        }
    }

    /// The next byte, if there is one and it fits.
    fn take_byte(&mut self, fits: impl Fn(u8) -> bool) -> Option<u8> {
        let (byte, behind) = self.bytes.split_first()?;
        if !fits(*byte) {
            return None;
        }
        self.bytes = behind;
        Some(*byte)
    }

    fn row(&mut self) -> Option<Fields> {
        let mut fields = vec![self.field()?];
        while self.take(COMMA) {
            fields.push(self.field()?);
        }
        let ended = self.bytes.is_empty() || self.take(LINE_END);
        ended.then_some(fields)
    }

    fn field(&mut self) -> Option<Vec<u8>> {
        if self.take(QUOTE) {
            self.quoted()
        } else {
            Some(self.plain())
        }
    }

    fn plain(&mut self) -> Vec<u8> {
        let mut content = Vec::new();
        while let Some(byte) = self.take_byte(is_textdata) {
            content.push(byte);
        }
        content
    }

    /// The content up to the closing quote; nothing where there is none.
    fn quoted(&mut self) -> Option<Vec<u8>> {
        let mut content = Vec::new();
        loop {
            if self.take(DOUBLED_QUOTE) {
                content.push(b'"');
            } else if self.take(QUOTE) {
                return Some(content);
            } else {
                content.push(self.take_byte(is_quotable)?);
            }
        }
    }
}

/// Splits a text into rows of field contents.
pub fn split(text: &[u8]) -> Split {
    let mut unread = Unread { bytes: text };
    let mut rows = Vec::new();
    while let Some(row) = unread.row() {
        rows.push(row);
        if unread.bytes.is_empty() {
            return Split { rows, whole: true };
        }
    }
    Split { rows, whole: false }
}

// ---- the sheet's own rules ----

/// What a text means.
#[derive(Clone, Debug, PartialEq)]
pub struct Sheet {
    /// The heading's privileges.
    pub columns: Vec<u8>,
    /// The rows behind the heading.
    pub rows: Vec<Row>,
}

/// A role with a mark for each column.
#[derive(Clone, Debug, PartialEq)]
pub struct Row {
    pub role: u8,
    pub marks: Vec<bool>,
}

/// A number from 0 to 63 in base ten without leading zeros.
fn number(content: &[u8]) -> Option<u8> {
    let has_leading_zero = content.len() > 1 && content[0] == b'0';
    if content.is_empty() || has_leading_zero || !content.iter().all(u8::is_ascii_digit) {
        return None;
    }
    let append = |value: u8, digit: &u8| value.checked_mul(10)?.checked_add(digit - b'0');
    let value = content.iter().try_fold(0, append)?;
    (value <= 63).then_some(value)
}

fn mark(content: &[u8]) -> Option<bool> {
    match content {
        b"0" => Some(false),
        b"1" => Some(true),
        _ => None,
    }
}

/// The privileges of a heading.
fn heading(fields: &Fields) -> Option<Vec<u8>> {
    let (first, privileges) = fields.split_first()?;
    let columns: Option<Vec<u8>> = privileges.iter().map(|field| number(field)).collect();
    let columns = columns?;
    let is_ascending = columns.windows(2).all(|two| two[0] < two[1]);
    (first.is_empty() && !columns.is_empty() && is_ascending).then_some(columns)
}

/// A row behind a heading with so many columns.
fn further_row(fields: &Fields, columns: usize) -> Option<Row> {
    let (role, marks) = fields.split_first()?;
    let role = number(role)?;
    let marks: Option<Vec<bool>> = marks.iter().map(|field| mark(field)).collect();
    let marks = marks?;
    (marks.len() == columns).then_some(Row { role, marks })
}

/// The sheet that a text means, or the first row that fails, the heading being
/// row 1.
pub fn read(text: &[u8]) -> Result<Sheet, usize> {
    let split = split(text);
    let columns = split.rows.first().and_then(heading).ok_or(1usize)?;
    let mut rows = Vec::new();
    for (place, fields) in split.rows.iter().enumerate().skip(1) {
        rows.push(further_row(fields, columns.len()).ok_or(place + 1)?);
    }
    if !split.whole {
        return Err(split.rows.len() + 1);
    }
    Ok(Sheet { columns, rows })
}

// ---- the tape ----

impl Sheet {
    /// The privileges whose columns have a 1 in the row.
    pub fn set(&self, row: &Row) -> Set {
        let marked = self.columns.iter().zip(&row.marks).filter(|pair| *pair.1);
        marked.fold(0, |set, (privilege, _)| set | one(*privilege))
    }

    /// A record of kind 2 for each row.
    pub fn tape(&self) -> Vec<u8> {
        let mut tape = Vec::new();
        for row in &self.rows {
            let mut record = [0; RECORD_LENGTH];
            record[0] = 2;
            record[1] = row.role;
            record[8..16].copy_from_slice(&self.set(row).to_le_bytes());
            tape.extend(record);
        }
        tape
    }
}

/// A refused import: 32 with the row as its place, or 33 with place 0.
#[derive(Clone, Copy, Debug, PartialEq)]
pub struct Refused {
    pub number: u8,
    pub place: usize,
}

/// Writes the tape of a text that has one into the front of a lent buffer and
/// gives the length written. A refusal leaves the buffer as it is.
pub fn write(tape: Result<&[u8], usize>, buffer: &mut [u8]) -> Result<usize, Refused> {
    let tape = tape.map_err(|row| Refused {
        number: 32,
        place: row,
    })?;
    if buffer.len() < tape.len() {
        return Err(Refused {
            number: 33,
            place: 0,
        });
    }
    buffer[..tape.len()].copy_from_slice(tape);
    Ok(tape.len())
}

/// Imports a text: its tape goes into the front of the buffer.
pub fn import(text: &[u8], buffer: &mut [u8]) -> Result<usize, Refused> {
    let tape = read(text).map(|sheet| sheet.tape());
    write(tape.as_deref().map_err(|row| *row), buffer)
}
