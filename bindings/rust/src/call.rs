//! Calls: the kinds, 1 to 15, and the record of each.

use crate::set::Set;

/// How many bytes a record has.
pub const RECORD_LENGTH: usize = 32;

/// A call of one of the kinds. Numbers above 63 make a record too, which is refused.
#[derive(Clone, Copy, PartialEq, Eq, Hash, Debug)]
pub enum Call {
    /// Kind 1: a role by its direct privileges, its juniors and its seniors.
    AddByPlace {
        role: u8,
        direct: Set,
        juniors: Set,
        seniors: Set,
    },
    /// Kind 2: a role by its effective privileges.
    AddByPrivileges { role: u8, effective: Set },
    /// Kind 3: a role goes; its direct privileges are dropped, or kept in each of its immediate seniors.
    RemoveRole { role: u8, keep: bool },
    /// Kind 4: a privilege to a role.
    Grant { privilege: u8, role: u8 },
    /// Kind 5: a direct privilege from a role.
    Withdraw { privilege: u8, role: u8 },
    /// Kind 6: an edge is added.
    AddEdge { junior: u8, senior: u8 },
    /// Kind 7: a drawn edge is removed.
    RemoveEdge { junior: u8, senior: u8 },
    /// Kind 8: two privileges are declared to be in conflict.
    Declare { first: u8, second: u8 },
    /// Kind 9: a conflict is lifted.
    Lift { first: u8, second: u8 },
    /// Kind 10: a seat gets a role.
    Assign { seat: u8, role: u8 },
    /// Kind 11: a seat loses a role.
    Unassign { seat: u8, role: u8 },
    /// Kind 12: may the seat use the privilege?
    Ask { seat: u8, privilege: u8 },
    /// Kind 13: two roles exclude each other, until one of them is removed.
    Exclude { first: u8, second: u8 },
    /// Kind 14: a role is switched on at a seat, and becomes one of its active roles.
    Activate { seat: u8, role: u8 },
    /// Kind 15: an active role of a seat is switched off.
    Deactivate { seat: u8, role: u8 },
}

impl Call {
    /// The kind, the numbers a and b, and the three sets.
    fn fields(&self) -> (u8, u8, u8, [Set; 3]) {
        let pair = |kind, a, b| (kind, a, b, [Set::EMPTY; 3]);
        match *self {
            Call::AddByPlace {
                role,
                direct,
                juniors,
                seniors,
            } => (1, role, 0, [direct, juniors, seniors]),
            Call::AddByPrivileges { role, effective } => {
                (2, role, 0, [effective, Set::EMPTY, Set::EMPTY])
            }
            Call::RemoveRole { role, keep } => pair(3, role, keep.into()),
            Call::Grant { privilege, role } => pair(4, role, privilege),
            Call::Withdraw { privilege, role } => pair(5, role, privilege),
            Call::AddEdge { junior, senior } => pair(6, junior, senior),
            Call::RemoveEdge { junior, senior } => pair(7, junior, senior),
            Call::Declare { first, second } => pair(8, first, second),
            Call::Lift { first, second } => pair(9, first, second),
            Call::Assign { seat, role } => pair(10, seat, role),
            Call::Unassign { seat, role } => pair(11, seat, role),
            Call::Ask { seat, privilege } => pair(12, seat, privilege),
            Call::Exclude { first, second } => pair(13, first, second),
            Call::Activate { seat, role } => pair(14, seat, role),
            Call::Deactivate { seat, role } => pair(15, seat, role),
        }
    }

    /// The number of the kind, 1 to 15.
    pub fn kind(&self) -> u8 {
        self.fields().0
    }

    /// The 32 bytes of the call.
    pub fn record(&self) -> [u8; RECORD_LENGTH] {
        let (kind, a, b, sets) = self.fields();
        let mut record = [0; RECORD_LENGTH];
        record[..3].copy_from_slice(&[kind, a, b]);
        for (place, set) in record[8..].chunks_exact_mut(8).zip(sets) {
            place.copy_from_slice(&set.0.to_le_bytes());
        }
        record
    }

    /// The call of a record, or none for bytes that are the record of no call: those are refused with 1.
    pub fn of_record(bytes: &[u8]) -> Option<Call> {
        let record: [u8; RECORD_LENGTH] = bytes.try_into().ok()?;
        let [kind, a, b, ..] = record;
        let set = |at: usize| {
            let word = record[at..at + 8].try_into().expect("eight bytes");
            Set(u64::from_le_bytes(word))
        };
        let call = match kind {
            1 => Call::AddByPlace {
                role: a,
                direct: set(8),
                juniors: set(16),
                seniors: set(24),
            },
            2 => Call::AddByPrivileges {
                role: a,
                effective: set(8),
            },
            3 => Call::RemoveRole {
                role: a,
                keep: b == 1,
            },
            _ => Call::of_pair(kind, a, b)?,
        };
        (call.record() == record).then_some(call)
    }

    /// The call of a kind from 4 to 15.
    fn of_pair(kind: u8, a: u8, b: u8) -> Option<Call> {
        Some(match kind {
            4 => Call::Grant {
                privilege: b,
                role: a,
            },
            5 => Call::Withdraw {
                privilege: b,
                role: a,
            },
            6 => Call::AddEdge {
                junior: a,
                senior: b,
            },
            7 => Call::RemoveEdge {
                junior: a,
                senior: b,
            },
            8 => Call::Declare {
                first: a,
                second: b,
            },
            9 => Call::Lift {
                first: a,
                second: b,
            },
            10 => Call::Assign { seat: a, role: b },
            11 => Call::Unassign { seat: a, role: b },
            12 => Call::Ask {
                seat: a,
                privilege: b,
            },
            13 => Call::Exclude {
                first: a,
                second: b,
            },
            14 => Call::Activate { seat: a, role: b },
            15 => Call::Deactivate { seat: a, role: b },
            _ => return None,
        })
    }
}
