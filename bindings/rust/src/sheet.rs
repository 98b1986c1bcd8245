//! Permission sheets: the tape of a sheet, or the row in which the text is none.
//!
//! A row is as wide a number as the text is long, and a [`Refusal`](crate::Refusal)'s place is a byte. So importing has
//! refusals of its own, and no number of the one stands among the other.

use crate::block::{self, NOT_IMPORTED};
use crate::call::RECORD_LENGTH;
use std::error::Error;
use std::fmt;

/// Why a text is not imported. Each has a number and a place; the buffer is as it was.
#[derive(Clone, Copy, PartialEq, Eq, Hash, Debug)]
pub enum SheetRefusal {
    /// 32: the first row that is outside the grammar of sheets or has a number out of range. The heading is row 1, and
    /// empty text fails there.
    BadSheet { row: u64 },
    /// 33: the text is a sheet, and the buffer is shorter than its tape.
    ShortTape,
}

impl SheetRefusal {
    /// The refusal of a place: a row from 1 on, or 0.
    fn of(place: u64) -> SheetRefusal {
        match place {
            0 => SheetRefusal::ShortTape,
            row => SheetRefusal::BadSheet { row },
        }
    }

    /// The refusal's number and place.
    pub fn parts(&self) -> (u8, u64) {
        match *self {
            SheetRefusal::BadSheet { row } => (32, row),
            SheetRefusal::ShortTape => (33, 0),
        }
    }

    /// The refusal's number.
    pub fn number(&self) -> u8 {
        self.parts().0
    }

    /// The refusal's place: the row, or 0.
    pub fn place(&self) -> u64 {
        self.parts().1
    }
}

/// What each number means, in plain words.
const TEXTS: [(u8, &str); 2] = [
    (
        32,
        "row {place} is not one of a sheet, or has a number out of range",
    ),
    (33, "the buffer is shorter than the tape"),
];

/// The refusal in plain words, with its row.
impl fmt::Display for SheetRefusal {
    fn fmt(&self, out: &mut fmt::Formatter) -> fmt::Result {
        let (_, text) = match self {
            SheetRefusal::BadSheet { .. } => TEXTS[0],
            SheetRefusal::ShortTape => TEXTS[1],
        };
        write!(
            out,
            "{}",
            text.replace("{place}", &self.place().to_string())
        )
    }
}

impl Error for SheetRefusal {}

/// How many bytes take the tape of every sheet of so many bytes: a row behind the heading has five at least, with the
/// line end before it.
pub const fn tape_room(text_length: usize) -> usize {
    text_length / 5 * RECORD_LENGTH
}

/// Writes the tape of a sheet to the buffer's front and gives its length; touches nothing behind it, and nothing where it
/// is refused. A row behind the heading becomes a record of kind 2, in row order.
pub fn import_into(text: &[u8], tape: &mut [u8]) -> Result<usize, SheetRefusal> {
    let given = block::import(text, tape);
    match given.checked_sub(NOT_IMPORTED) {
        None => Ok(given as usize),
        Some(place) => Err(SheetRefusal::of(place)),
    }
}

/// The tape of a sheet.
///
/// ```
/// use keeper::{import, Call, Set, SheetRefusal};
///
/// let tape = import(b",0,1,4\r\n2,1,1,0\r\n")?;
/// let call = Call::AddByPrivileges { role: 2, effective: Set::of(&[0, 1]) };
/// assert_eq!(tape, call.record());
///
/// let refused = import(b",0,1,4\r\n2,1,1\r\n");
/// assert_eq!(refused, Err(SheetRefusal::BadSheet { row: 2 }));
/// # Ok::<(), SheetRefusal>(())
/// ```
pub fn import(text: &[u8]) -> Result<Vec<u8>, SheetRefusal> {
    let mut tape = vec![0; tape_room(text.len())];
    let length = import_into(text, &mut tape)?;
    tape.truncate(length);
    Ok(tape)
}
