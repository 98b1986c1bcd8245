//! What the examples share: records, answers, and example A.

// Each test program that has this module uses a part of it.
#![allow(dead_code)]

use role_reference::generate::record;
use role_reference::reference::{Answer, Reference, Set};

pub fn set(members: &[u8]) -> Set {
    members.iter().fold(0, |set, member| set | 1 << member)
}

/// The set of the numbers from `low` to `high`, with others.
pub fn run_of(low: u8, high: u8, others: &[u8]) -> Set {
    (low..=high).fold(set(others), |set, member| set | 1 << member)
}

pub const ACCEPTED: Answer = Answer {
    number: 0,
    place: 0,
};
pub const YES: Answer = Answer {
    number: 0,
    place: 1,
};

pub fn refused(number: u8, place: u8) -> Answer {
    Answer { number, place }
}

pub fn by_privileges(role: u8, members: &[u8]) -> Vec<u8> {
    record(2, role, 0, [set(members), 0, 0])
}

pub fn by_place(role: u8, direct: &[u8], juniors: &[u8], seniors: &[u8]) -> Vec<u8> {
    record(1, role, 0, [set(direct), set(juniors), set(seniors)])
}

pub fn after(records: &[Vec<u8>]) -> Reference {
    let mut keeper = Reference::fresh();
    accept_all(&mut keeper, records);
    keeper
}

pub fn accept_all(keeper: &mut Reference, records: &[Vec<u8>]) {
    for record in records {
        assert_eq!(keeper.call(record), ACCEPTED, "{record:?}");
    }
}

/// The call is refused so, and the state stays.
pub fn refuses(keeper: &mut Reference, record: &[u8], number: u8, place: u8) {
    let before = keeper.clone();
    assert_eq!(keeper.call(record), refused(number, place), "{record:?}");
    assert!(*keeper == before);
}

/// The ordinary roles of example A with their effective sets.
pub const TABLE_ONE: [(u8, &[u8]); 8] = [
    (2, &[1]),
    (3, &[2]),
    (4, &[1, 3, 4]),
    (5, &[1, 2, 4, 5]),
    (6, &[1, 2, 5, 6]),
    (7, &[2, 7, 8]),
    (8, &[1, 2, 3, 4, 5, 6, 7, 8, 9, 10]),
    (9, &[1, 2, 3, 4, 5, 6, 7, 8, 11]),
];

/// Example A, by kind 2.
pub fn table_one() -> Reference {
    after(&TABLE_ONE.map(|(role, members)| by_privileges(role, members)))
}
