//! Sets of numbers from 0 to 63: of privileges, or of roles.

use std::fmt;

/// How many numbers a set can hold: 0 to 63.
pub const NUMBERS: u8 = 64;

/// A set of numbers from 0 to 63, member n at bit n.
#[derive(Clone, Copy, PartialEq, Eq, Hash, Default)]
pub struct Set(pub u64);

impl Set {
    /// The set without members.
    pub const EMPTY: Set = Set(0);

    /// The set of these members. A member above 63 panics, since dropping it would be another set.
    pub const fn of(members: &[u8]) -> Set {
        let mut word = 0;
        let mut at = 0;
        while at < members.len() {
            assert!(members[at] < NUMBERS, "a set has members from 0 to 63");
            word |= 1 << members[at];
            at += 1;
        }
        Set(word)
    }

    /// Whether the number is a member; no number above 63 is.
    pub const fn has(self, number: u8) -> bool {
        number < NUMBERS && self.0 >> number & 1 == 1
    }

    /// Whether there is no member.
    pub const fn is_empty(self) -> bool {
        self.0 == 0
    }

    /// How many members there are.
    pub const fn count(self) -> u32 {
        self.0.count_ones()
    }

    /// The members, ascending.
    pub fn members(self) -> impl Iterator<Item = u8> {
        (0..NUMBERS).filter(move |number| self.has(*number))
    }
}

/// The members in braces, three or more in a row as a range: `{1..8,11}`.
impl fmt::Display for Set {
    fn fmt(&self, out: &mut fmt::Formatter) -> fmt::Result {
        let mut parts = Vec::new();
        let mut next = 0;
        while next < NUMBERS {
            let first = next;
            while self.has(next) {
                next += 1;
            }
            match next - first {
                0 => {}
                1 => parts.push(first.to_string()),
                2 => parts.push(format!("{first},{}", first + 1)),
                _ => parts.push(format!("{first}..{}", next - 1)),
            }
            next += 1;
        }
        write!(out, "{{{}}}", parts.join(","))
    }
}

impl fmt::Debug for Set {
    fn fmt(&self, out: &mut fmt::Formatter) -> fmt::Result {
        write!(out, "{self}")
    }
}
