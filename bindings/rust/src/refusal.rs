//! Refusals: the number and place of each, in a name and in plain words.

use crate::block::NO_STATE;
use std::error::Error;
use std::fmt;

/// Why a call, a load or a save is refused. Each has a number and a place; a refused one changes nothing.
#[derive(Clone, Copy, PartialEq, Eq, Hash, Debug)]
#[non_exhaustive]
pub enum Refusal {
    /// 1: not the record of a call.
    Malformed,
    /// 2: a number above 63.
    UnknownNumber { number: u8 },
    /// 3: MinRole or MaxRole is named as a role, junior or senior.
    EndRole { role: u8 },
    /// 4: a conflict of a privilege with itself.
    SamePrivilege { privilege: u8 },
    /// 5: an edge of a role with itself, or a role that is to exclude itself.
    SameRole { role: u8 },
    /// 6: the bytes do not end with an image.
    NoImage,
    /// 7: the image has a wrong entry.
    BadEntry,
    /// 8: the image's roles or seats break a rule.
    BadContents,
    /// 9: the buffer is shorter than the image.
    ShortBuffer,
    /// 20: the role to be added is present.
    RolePresent { role: u8 },
    /// 21: a named role is absent.
    RoleAbsent { role: u8 },
    /// 22: it is already so.
    AlreadySo { place: u8 },
    /// 23: it is not so.
    NotSo { place: u8 },
    /// 31: the role has the privilege to be withdrawn through a junior, and not directly.
    ThroughJunior { role: u8 },
    /// 24: a seat has the role to be removed.
    RoleAssigned { seat: u8 },
    /// 25: the edges would run in a circle.
    Circle { role: u8 },
    /// 26: without the edge the junior is still included in the senior.
    StillIncluded { senior: u8 },
    /// 27: a role would be empty.
    EmptyRole { role: u8 },
    /// 28: two roles would be equal.
    EqualRoles { role: u8 },
    /// 29: a role would hold a declared pair.
    RoleConflict { role: u8 },
    /// 30: a seat would hold a declared pair.
    SeatConflict { seat: u8 },
    /// 34: no role of the seat is the role to be switched on, or lies above it.
    NotReached { seat: u8 },
    /// 35: a path would join two roles that exclude each other, or one seat's active roles would reach both; the lower role
    /// of the lowest such pair.
    Excluded { role: u8 },
    /// The block has too few words for a state.
    NoState,
    /// A number that this wrapper does not know.
    Other { number: u8, place: u8 },
}

impl Refusal {
    /// The refusal of a number and a place.
    pub fn of(number: u8, place: u8) -> Refusal {
        match number {
            1 => Refusal::Malformed,
            2 => Refusal::UnknownNumber { number: place },
            3 => Refusal::EndRole { role: place },
            4 => Refusal::SamePrivilege { privilege: place },
            5 => Refusal::SameRole { role: place },
            6 => Refusal::NoImage,
            7 => Refusal::BadEntry,
            8 => Refusal::BadContents,
            9 => Refusal::ShortBuffer,
            20 => Refusal::RolePresent { role: place },
            21 => Refusal::RoleAbsent { role: place },
            22 => Refusal::AlreadySo { place },
            23 => Refusal::NotSo { place },
            31 => Refusal::ThroughJunior { role: place },
            24 => Refusal::RoleAssigned { seat: place },
            25 => Refusal::Circle { role: place },
            26 => Refusal::StillIncluded { senior: place },
            27 => Refusal::EmptyRole { role: place },
            28 => Refusal::EqualRoles { role: place },
            29 => Refusal::RoleConflict { role: place },
            30 => Refusal::SeatConflict { seat: place },
            34 => Refusal::NotReached { seat: place },
            35 => Refusal::Excluded { role: place },
            _ => Refusal::Other { number, place },
        }
    }

    /// The refusal of an answer in the archive's numbers: 256 times the number plus the place.
    pub fn of_answer(answer: u32) -> Refusal {
        match answer {
            NO_STATE => Refusal::NoState,
            _ => Refusal::of((answer >> 8) as u8, answer as u8),
        }
    }

    /// The refusal's number and place; a block without a state has 255 for both.
    pub fn parts(&self) -> (u8, u8) {
        match *self {
            Refusal::Malformed => (1, 0),
            Refusal::UnknownNumber { number } => (2, number),
            Refusal::EndRole { role } => (3, role),
            Refusal::SamePrivilege { privilege } => (4, privilege),
            Refusal::SameRole { role } => (5, role),
            Refusal::NoImage => (6, 0),
            Refusal::BadEntry => (7, 0),
            Refusal::BadContents => (8, 0),
            Refusal::ShortBuffer => (9, 0),
            Refusal::RolePresent { role } => (20, role),
            Refusal::RoleAbsent { role } => (21, role),
            Refusal::AlreadySo { place } => (22, place),
            Refusal::NotSo { place } => (23, place),
            Refusal::ThroughJunior { role } => (31, role),
            Refusal::RoleAssigned { seat } => (24, seat),
            Refusal::Circle { role } => (25, role),
            Refusal::StillIncluded { senior } => (26, senior),
            Refusal::EmptyRole { role } => (27, role),
            Refusal::EqualRoles { role } => (28, role),
            Refusal::RoleConflict { role } => (29, role),
            Refusal::SeatConflict { seat } => (30, seat),
            Refusal::NotReached { seat } => (34, seat),
            Refusal::Excluded { role } => (35, role),
            Refusal::NoState => (255, 255),
            Refusal::Other { number, place } => (number, place),
        }
    }

    /// The refusal's number.
    pub fn number(&self) -> u8 {
        self.parts().0
    }

    /// The refusal's place.
    pub fn place(&self) -> u8 {
        self.parts().1
    }
}

/// What each number means, in plain words.
const TEXTS: [(u8, &str); 23] = [
    (1, "not the 32 bytes of a call"),
    (2, "{place} is above 63"),
    (3, "role {place} is an end role, which no call names"),
    (4, "privilege {place} cannot be in conflict with itself"),
    (
        5,
        "role {place} cannot be its own junior or senior, or exclude itself",
    ),
    (6, "no image ends the bytes"),
    (7, "an entry of the image is out of range or out of order"),
    (
        8,
        "the roles, conflicts and seats of the image do not go together",
    ),
    (9, "the buffer is shorter than the image"),
    (20, "role {place} is there already"),
    (21, "there is no role {place}"),
    (22, "it is so already (place {place})"),
    (23, "it is not so (place {place})"),
    (31, "role {place} has the privilege through a junior"),
    (24, "seat {place} still has the role"),
    (25, "role {place} would lie in a circle"),
    (
        26,
        "role {place} would still hold all that the junior holds",
    ),
    (27, "role {place} would be empty"),
    (28, "role {place} would hold what another role holds"),
    (29, "role {place} would hold privileges in conflict"),
    (30, "seat {place} would hold privileges in conflict"),
    (34, "no role of seat {place} reaches the role"),
    (
        35,
        "role {place} and one that it excludes would be joined by a path or by a seat's active roles",
    ),
];

/// The refusal in plain words, with its place.
impl fmt::Display for Refusal {
    fn fmt(&self, out: &mut fmt::Formatter) -> fmt::Result {
        let (number, place) = self.parts();
        let text = TEXTS.iter().find(|(of, _)| *of == number);
        match (self, text) {
            (Refusal::NoState, _) => write!(out, "the block is too short for a state"),
            (_, Some((_, text))) => {
                write!(out, "{}", text.replace("{place}", &place.to_string()))
            }
            _ => write!(out, "refused with {number}, place {place}"),
        }
    }
}

impl Error for Refusal {}
