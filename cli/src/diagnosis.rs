//! Where an image that is refused is wrong: the keeper gives the number alone, so the bytes are read here once more.

use keeper::{Refusal, Set};

/// What the trailer of an image says.
struct Trailer {
    distance: u64,
    roles: usize,
    seats: usize,
    conflicts: usize,
}

impl Trailer {
    /// The trailer that the last eight bytes are.
    fn of(bytes: &[u8]) -> Trailer {
        let end = &bytes[bytes.len() - 8..];
        Trailer {
            distance: u32::from_le_bytes([end[0], end[1], end[2], end[3]]).into(),
            roles: end[4].into(),
            seats: end[5].into(),
            conflicts: u16::from_le_bytes([end[6], end[7]]).into(),
        }
    }

    /// The distance that the counts want.
    fn sum(&self) -> u64 {
        (16 + 9 * self.roles + 9 * self.seats + 2 * self.conflicts) as u64
    }
}

/// The parts of an image: MaxRole's set, the roles, the conflicts and the seats.
struct Entries {
    whole: Set,
    roles: Vec<(u8, Set)>,
    conflicts: Vec<(u8, u8)>,
    seats: Vec<(u8, Set)>,
}

/// The set of the first eight bytes.
fn word(bytes: &[u8]) -> Set {
    let word = bytes[..8].try_into().expect("eight bytes");
    Set(u64::from_le_bytes(word))
}

impl Entries {
    /// The entries of an image, by its trailer.
    fn of(image: &[u8], trailer: &Trailer) -> Entries {
        let numbered = |part: &[u8]| {
            part.chunks(9)
                .map(|entry| (entry[0], word(&entry[1..])))
                .collect()
        };
        let (roles, rest) = image[8..].split_at(9 * trailer.roles);
        let (conflicts, rest) = rest.split_at(2 * trailer.conflicts);
        Entries {
            whole: word(image),
            roles: numbered(roles),
            conflicts: conflicts.chunks(2).map(|pair| (pair[0], pair[1])).collect(),
            seats: numbered(&rest[..9 * trailer.seats]),
        }
    }

    /// Refusal 7: the first wrong entry.
    fn wrong_entry(&self) -> Option<String> {
        let role = || (0..self.roles.len()).find_map(|at| self.wrong_role(at));
        let conflict = || (0..self.conflicts.len()).find_map(|at| self.wrong_conflict(at));
        let seat = || (0..self.seats.len()).find_map(|at| self.wrong_seat(at));
        role().or_else(conflict).or_else(seat)
    }

    /// What is wrong with a role entry.
    fn wrong_role(&self, at: usize) -> Option<String> {
        let role = self.roles[at].0;
        if !(2..64).contains(&role) {
            let entry = at + 1;
            return Some(format!(
                "role entry {entry} has number {role}, and ordinary roles are 2 to 63"
            ));
        }
        let before = self.roles[..at]
            .last()
            .filter(|(before, _)| *before >= role)?;
        Some(format!("role {role} stands behind role {}", before.0))
    }

    /// What is wrong with a conflict.
    fn wrong_conflict(&self, at: usize) -> Option<String> {
        let (low, high) = self.conflicts[at];
        if low >= high || high > 63 {
            let entry = at + 1;
            return Some(format!(
                "conflict {entry} is of {low} and {high}, and its numbers ascend and are 0 to 63"
            ));
        }
        let before = self.conflicts[..at]
            .last()
            .filter(|before| **before >= (low, high))?;
        Some(format!(
            "the conflict of {low} and {high} stands behind that of {} and {}",
            before.0, before.1
        ))
    }

    /// What is wrong with a seat entry.
    fn wrong_seat(&self, at: usize) -> Option<String> {
        let (seat, roles) = self.seats[at];
        if seat > 63 {
            return Some(format!(
                "seat entry {} has number {seat}, and seats are 0 to 63",
                at + 1
            ));
        }
        if let Some((before, _)) = self.seats[..at]
            .last()
            .filter(|(before, _)| *before >= seat)
        {
            return Some(format!("seat {seat} stands behind seat {before}"));
        }
        if roles.is_empty() {
            return Some(format!("seat {seat} has no role"));
        }
        let absent = |role: &u8| !self.roles.iter().any(|(present, _)| present == role);
        let role = roles.members().find(absent)?;
        Some(format!(
            "seat {seat} has role {role}, which is no ordinary role of the image"
        ))
    }

    /// Refusal 8: a rule that the graph breaks.
    fn broken_rule(&self) -> Option<String> {
        for (at, (role, set)) in self.roles.iter().enumerate() {
            if set.is_empty() {
                return Some(format!("role {role} is empty"));
            }
            if let Some((other, _)) = self.roles[..at].iter().find(|(_, held)| held == set) {
                return Some(format!("roles {other} and {role} hold the same privileges"));
            }
            if set.0 & !self.whole.0 != 0 {
                return Some(format!(
                    "MaxRole lacks {} of role {role}",
                    Set(set.0 & !self.whole.0)
                ));
            }
            if let Some((low, high)) = self.pair_in(*set) {
                return Some(format!(
                    "role {role} holds {low} and {high}, which are in conflict"
                ));
            }
        }
        for (seat, roles) in &self.seats {
            let sets = self.roles.iter().filter(|(role, _)| roles.has(*role));
            let held = sets.fold(0, |all, (_, set)| all | set.0);
            if let Some((low, high)) = self.pair_in(Set(held)) {
                return Some(format!(
                    "seat {seat} holds {low} and {high}, which are in conflict"
                ));
            }
        }
        None
    }

    /// A declared pair inside a set.
    fn pair_in(&self, set: Set) -> Option<(u8, u8)> {
        self.conflicts
            .iter()
            .copied()
            .find(|(low, high)| set.has(*low) && set.has(*high))
    }
}

/// Refusal 6: why the bytes do not end with an image.
fn no_image(bytes: &[u8]) -> Option<String> {
    if bytes.len() < 16 {
        return Some(format!(
            "it has {} bytes, and an image has 16 or more",
            bytes.len()
        ));
    }
    let trailer = Trailer::of(bytes);
    if trailer.distance != trailer.sum() {
        return Some("its last 8 bytes are no trailer of an image".to_string());
    }
    let missing = trailer.distance.saturating_sub(bytes.len() as u64);
    (missing > 0).then(|| {
        format!(
            "its image has {} bytes, of which the first {missing} are missing",
            trailer.distance
        )
    })
}

/// The words for a file whose image is refused: the number, and where the image is wrong.
pub fn diagnosis(bytes: &[u8], refusal: Refusal) -> String {
    let entries = || {
        let trailer = Trailer::of(bytes);
        let start = bytes.len() - trailer.distance as usize;
        Entries::of(&bytes[start..], &trailer)
    };
    let found = match refusal {
        Refusal::NoImage => no_image(bytes),
        Refusal::BadEntry => entries().wrong_entry(),
        Refusal::BadContents => entries().broken_rule(),
        _ => None,
    };
    format!(
        "refused with {}: {}",
        refusal.number(),
        found.unwrap_or_else(|| refusal.to_string())
    )
}
