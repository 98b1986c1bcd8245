//! What a refusal means for the record that was refused, in plain words.

use crate::exclusion;
use crate::why::{list, way_down};
use keeper::{Call, Keeper, Refusal, Set, MAX_ROLE, MIN_ROLE, RECORD_LENGTH};

/// What is wrong with a record that is refused with 1.
fn malformed(record: &[u8]) -> String {
    if record.len() != RECORD_LENGTH {
        return format!(
            "it has {} bytes, and a record has {RECORD_LENGTH}",
            record.len()
        );
    }
    let kind = record[0];
    let used: &[usize] = match kind {
        1 => &[
            1, 8, 9, 10, 11, 12, 13, 14, 15, 16, 17, 18, 19, 20, 21, 22, 23, 24, 25, 26, 27, 28,
            29, 30, 31,
        ],
        2 => &[1, 8, 9, 10, 11, 12, 13, 14, 15],
        3..=15 => &[1, 2],
        _ => return format!("byte 0 is {kind}, and kinds are 1 to 15"),
    };
    if kind == 3 && record[2] > 1 {
        return format!("byte 2 is {}, and kind 3 takes 0 or 1 there", record[2]);
    }
    let wrong = (1..RECORD_LENGTH).find(|at| record[*at] != 0 && !used.contains(at));
    match wrong {
        Some(at) => format!(
            "byte {at} is {}, and kind {kind} leaves it zero",
            record[at]
        ),
        None => Refusal::Malformed.to_string(),
    }
}

/// The sets of the roles and seats as a call that only adds would leave them: what it adds, and to which roles.
struct Growth<'a> {
    keeper: &'a Keeper,
    /// The role that is added.
    added: Option<u8>,
    gain: Set,
    /// The roles that gain, with all above them.
    gains: Set,
}

impl<'a> Growth<'a> {
    /// The growth by a call, or none for one that takes something away.
    fn of(keeper: &'a Keeper, call: &Call) -> Option<Growth<'a>> {
        let one = |role: u8| Set::of(&[role]);
        let (added, gain, gains) = match *call {
            Call::AddByPlace {
                role,
                direct,
                juniors,
                seniors,
            } => {
                let sets = juniors.members().map(|junior| keeper.effective(junior));
                let gain = sets.fold(direct, |all, set| Set(all.0 | set.0));
                (Some(role), gain, seniors)
            }
            Call::AddByPrivileges { role, effective } => (Some(role), effective, Set::EMPTY),
            Call::Grant { privilege, role } => (None, one(privilege), one(role)),
            Call::AddEdge { junior, senior } => (None, keeper.effective(junior), one(senior)),
            Call::Assign { role, .. } => (None, keeper.effective(role), Set::EMPTY),
            Call::Declare { .. } => (None, Set::EMPTY, Set::EMPTY),
            _ => return None,
        };
        Some(Growth {
            keeper,
            added,
            gain,
            gains,
        })
    }

    /// What a role would hold.
    fn role(&self, role: u8) -> Set {
        let mut gains = self.gains.members();
        if self.added == Some(role) {
            self.gain
        } else if gains.any(|low| low == role || self.keeper.is_below(low, role)) {
            Set(self.keeper.effective(role).0 | self.gain.0)
        } else {
            self.keeper.effective(role)
        }
    }

    /// What a seat would hold; a seat that is given a role gains its set.
    fn seat(&self, seat: u8, call: &Call) -> Set {
        let roles = self.keeper.seat_roles(seat).members();
        let held = roles.fold(0, |all, role| all | self.role(role).0);
        match call {
            Call::Assign { seat: given, .. } if *given == seat => Set(held | self.gain.0),
            _ => Set(held),
        }
    }

    /// The other role that would hold the same.
    fn twin(&self, role: u8) -> Option<u8> {
        let roles = self.keeper.roles().members().chain(self.added);
        roles
            .filter(|other| *other != role)
            .find(|other| self.role(*other) == self.role(role))
    }
}

/// A declared pair inside a set, the offered one first.
fn pair_in(keeper: &Keeper, call: &Call, set: Set) -> Option<(u8, u8)> {
    let offered = match *call {
        Call::Declare { first, second } => Some((first, second)),
        _ => None,
    };
    let pairs = offered.into_iter().chain(keeper.conflicts());
    pairs
        .into_iter()
        .find(|(low, high)| set.has(*low) && set.has(*high))
}

/// The words for a pair that a role or a seat would hold.
fn holds_pair(keeper: &Keeper, call: &Call, who: String, set: Option<Set>) -> String {
    let pair = set.and_then(|set| pair_in(keeper, call, set));
    match (pair, call) {
        (Some((low, high)), Call::Declare { .. }) => format!("{who} holds both {low} and {high}"),
        (Some((low, high)), _) => {
            format!("{who} would hold {low} and {high}, which are in conflict")
        }
        (None, _) => format!("{who} would hold privileges in conflict"),
    }
}

/// Refusal 22: what is so already.
fn already(keeper: &Keeper, call: &Call) -> String {
    match *call {
        Call::Grant { privilege, role } => {
            format!(
                "role {role} has privilege {privilege} already, {}",
                way_down(keeper, role, privilege)
            )
        }
        Call::AddEdge { junior, senior } => {
            format!("role {junior} lies below role {senior} already")
        }
        Call::Declare { first, second } => {
            format!("the conflict of {first} and {second} is declared already")
        }
        Call::Assign { seat, role } => format!("seat {seat} has role {role} already"),
        Call::Exclude { first, second } => {
            format!("roles {first} and {second} exclude each other already")
        }
        Call::Activate { seat, role } => {
            format!("seat {seat} has role {role} switched on already")
        }
        _ => "it is so already".to_string(),
    }
}

/// Refusal 23: what is not so.
fn not_so(keeper: &Keeper, call: &Call) -> String {
    match *call {
        Call::Withdraw { privilege, role } => {
            format!("role {role} does not have privilege {privilege}")
        }
        Call::RemoveEdge { junior, senior } if keeper.is_below(junior, senior) => {
            format!(
                "no edge is drawn from role {junior} to role {senior}; it lies below by way of {}",
                between(keeper, junior, senior)
            )
        }
        Call::RemoveEdge { junior, senior } => {
            format!("no edge is drawn from role {junior} to role {senior}")
        }
        Call::Lift { first, second } => format!("no conflict of {first} and {second} is declared"),
        Call::Unassign { seat, role } => format!("seat {seat} does not have role {role}"),
        Call::Deactivate { seat, role } => {
            format!("seat {seat} does not have role {role} switched on")
        }
        _ => "it is not so".to_string(),
    }
}

/// Refusal 5: what a role cannot be to itself.
fn same_role(call: &Call, role: u8) -> String {
    match call {
        Call::Exclude { .. } => format!("role {role} cannot exclude itself"),
        _ => format!("role {role} cannot be its own junior or senior"),
    }
}

/// Refusal 34: the roles that the seat has instead.
fn not_reached(keeper: &Keeper, call: &Call, refusal: Refusal) -> String {
    let Call::Activate { seat, role } = *call else {
        return refusal.to_string();
    };
    let roles = keeper.seat_roles(seat);
    let said = format!("seat {seat} has {}", list("role", roles.members()));
    match roles.count() {
        0 => said,
        1 => format!("{said}, which does not lie above role {role}"),
        _ => format!("{said}, of which none lies above role {role}"),
    }
}

/// Refusal 31: the junior through which the role has the privilege.
fn through_junior(keeper: &Keeper, call: &Call, refusal: Refusal) -> String {
    match *call {
        Call::Withdraw { privilege, role } => format!(
            "role {role} has privilege {privilege} through a junior, {}",
            way_down(keeper, role, privilege)
        ),
        _ => refusal.to_string(),
    }
}

/// The immediate juniors of a senior that lie above a junior.
fn between(keeper: &Keeper, junior: u8, senior: u8) -> String {
    let roles = keeper.juniors(senior).members();
    list("role", roles.filter(|role| keeper.is_below(junior, *role)))
}

/// Refusal 25: the circle.
fn circle(keeper: &Keeper, call: &Call, place: u8) -> String {
    match *call {
        Call::AddByPlace { seniors, .. } if seniors.has(place) => {
            format!("role {place} is named as a junior and as a senior")
        }
        Call::AddByPlace { seniors, .. } => {
            let below = seniors
                .members()
                .filter(|senior| keeper.is_below(*senior, place));
            format!(
                "{} would lie above junior {place}, and lies below it",
                list("role", below)
            )
        }
        Call::AddEdge { junior, senior } => {
            format!("role {senior} lies below role {junior}, so the edge would close a circle")
        }
        _ => Refusal::Circle { role: place }.to_string(),
    }
}

/// Refusal 24: the seats that have the role.
fn seated(keeper: &Keeper, call: &Call, place: u8) -> String {
    match *call {
        Call::RemoveRole { role, .. } => {
            let seats = (0..64).filter(|seat| keeper.seat_roles(*seat).has(role));
            format!("role {role} is still assigned to {}", list("seat", seats))
        }
        _ => Refusal::RoleAssigned { seat: place }.to_string(),
    }
}

/// Refusals 28 to 30: the twin, or the pair, where the call only adds.
fn closed(keeper: &Keeper, call: &Call, refusal: Refusal) -> String {
    let growth = Growth::of(keeper, call);
    match refusal {
        Refusal::EqualRoles { role } => match growth.and_then(|growth| growth.twin(role)) {
            Some(twin) => format!("roles {role} and {twin} would hold the same privileges"),
            None => refusal.to_string(),
        },
        Refusal::RoleConflict { role } => {
            let set = growth.map(|growth| growth.role(role));
            holds_pair(keeper, call, format!("role {role}"), set)
        }
        Refusal::SeatConflict { seat } => {
            let set = growth.map(|growth| growth.seat(seat, call));
            holds_pair(keeper, call, format!("seat {seat}"), set)
        }
        _ => refusal.to_string(),
    }
}

/// What a refusal of a record means. The keeper is as it was before the record, since a refused one changes nothing.
pub fn meaning(keeper: &Keeper, record: &[u8], refusal: Refusal) -> String {
    let Some(call) = Call::of_record(record) else {
        return malformed(record);
    };
    match refusal {
        Refusal::UnknownNumber { number } => {
            format!("{number} is above 63, the highest role, privilege and seat")
        }
        Refusal::EndRole { role: MIN_ROLE } => "role 0 is MinRole, which no call names".to_string(),
        Refusal::EndRole { role: MAX_ROLE } => "role 1 is MaxRole, which no call names".to_string(),
        Refusal::SameRole { role } => same_role(&call, role),
        Refusal::AlreadySo { .. } => already(keeper, &call),
        Refusal::NotSo { .. } => not_so(keeper, &call),
        Refusal::ThroughJunior { .. } => through_junior(keeper, &call, refusal),
        Refusal::RoleAssigned { seat } => seated(keeper, &call, seat),
        Refusal::Circle { role } => circle(keeper, &call, role),
        Refusal::StillIncluded { senior } => format!(
            "without the edge role {senior} would still hold all that role {} holds",
            record[1]
        ),
        Refusal::NotReached { .. } => not_reached(keeper, &call, refusal),
        Refusal::Excluded { .. } => {
            exclusion::reason(keeper, &call).unwrap_or_else(|| refusal.to_string())
        }
        _ => closed(keeper, &call, refusal),
    }
}
