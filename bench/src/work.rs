//! The states and records that are timed, made by the plain keeper from fixed seeds: every run times the same.

use crate::plain::{Answer, Plain, RECORD_LENGTH};
use role_reference::generate::{record, short};
use role_reference::random::Random;
use role_reference::reference::{members, one, Set};

/// How the roles of a graph lie.
#[derive(Clone, Copy, PartialEq)]
pub enum Shape {
    /// Each above the one before.
    Chain,
    /// Layers of three, every role of a layer above every role of the layer below.
    Layers,
    /// None above another.
    Unrelated,
}

/// A privilege that no role of a shape has.
pub const SPARE: u8 = 63;

/// So many roles, from 2 on, each with a privilege of its own.
pub fn shape(shape: Shape, count: u8) -> Plain {
    let mut state = Plain::fresh();
    for n in 0..count {
        let below = match shape {
            Shape::Chain => n,
            Shape::Layers => n - n % 3,
            Shape::Unrelated => 0,
        };
        let set = (one(below) - 1) | one(n);
        let answer = state.call(&record(2, n + 2, 0, [set, 0, 0]));
        assert_eq!(answer.number, 0, "the role is added");
    }
    state
}

/// How many roles and seats random records name, and how many roles, conflicts and seats a middling state has, and how
/// many pairs of roles and seats with active roles where it has any.
const ROLES: u8 = 30;
const SEATS: usize = 20;
const MIDDLING_ROLES: u32 = 24;
const MIDDLING_CONFLICTS: usize = 24;
const MIDDLING_SEATS: u32 = 16;
const MIDDLING_PAIRS: usize = 12;
const MIDDLING_ACTIVE: u32 = 12;

fn any(random: &mut Random, set: Set) -> u8 {
    random.pick(&members(set)).unwrap_or(2)
}

/// Mostly a member of the first set, else of the second; of the second where the first is empty.
fn mostly(random: &mut Random, first: Set, second: Set) -> u8 {
    let set = if first == 0 || random.one_in(5) {
        second
    } else {
        first
    };
    any(random, set)
}

fn some(random: &mut Random, set: Set, most: usize) -> Set {
    let count = random.under(most + 1);
    (0..count).fold(0, |part, _| part | one(any(random, set)) & set)
}

fn number(random: &mut Random) -> u8 {
    random.under(64) as u8
}

/// A random well-formed record of the kind, whose numbers mostly are such that it may be accepted.
fn random_record(random: &mut Random, state: &Plain, kind: u8) -> Vec<u8> {
    let present = state.roles();
    let (a, b) = (any(random, present), any(random, present));
    match kind {
        1 | 2 => random_role(random, state, kind),
        3 => {
            let seated = (0..64).fold(0, |roles, seat| roles | state.seat(seat));
            let role = mostly(random, present & !seated, present);
            short(3, role, random.under(2) as u8)
        }
        4 => short(4, a, mostly(random, !state.set(a), u64::MAX)),
        5 => short(5, a, mostly(random, state.direct(a), u64::MAX)),
        6 => short(6, a, b),
        7 => short(7, mostly(random, state.juniors(b) & present, present), b),
        8 => short(8, number(random), number(random)),
        9 => {
            let lower = keys(|lower| state.conflict(lower));
            let a = mostly(random, lower, u64::MAX);
            short(9, a, mostly(random, state.conflict(a), u64::MAX))
        }
        10 | 11 => {
            let seat = random.under(SEATS) as u8;
            let roles = state.seat(seat);
            let wanted = if kind == 10 { present & !roles } else { roles };
            short(kind, seat, mostly(random, wanted, present))
        }
        12 => short(12, random.under(SEATS) as u8, number(random)),
        // Nothing lifts a pair but a removal: beyond so many, those that are there are offered.
        13 if pair_count(state) > MIDDLING_PAIRS => {
            let lower = any(random, keys(|role| state.pairs(role)));
            short(13, lower, any(random, state.pairs(lower)))
        }
        13 => short(13, a, b),
        _ => {
            let seat = random.under(SEATS) as u8;
            let active = state.active(seat);
            let wanted = match kind {
                14 => reached(state, state.seat(seat)) & !active,
                _ => active,
            };
            short(kind, seat, mostly(random, wanted, present))
        }
    }
}

/// The roles that some of these are or lie above.
fn reached(state: &Plain, roles: Set) -> Set {
    let within = |role: u8, top: u8| state.set(role) & !state.set(top) == 0;
    let under = |role: &u8| members(roles).iter().any(|top| within(*role, *top));
    let reached = members(state.roles()).into_iter().filter(under);
    reached.fold(0, |set, role| set | one(role))
}

/// A role added by kind 1 or 2: now and then one that is present, or one with the set of another.
fn random_role(random: &mut Random, state: &Plain, kind: u8) -> Vec<u8> {
    let present = state.roles();
    let known = (one(ROLES) - 1) << 2;
    let role = mostly(random, known & !present, known);
    if kind == 1 {
        let own = some(random, u64::MAX, 2);
        let sets = [own, some(random, present, 2), some(random, present, 2)];
        return record(1, role, 0, sets);
    }
    let held = state.set(any(random, present));
    let set = match random.under(8) {
        0 => held,
        1 | 2 => held | one(number(random)),
        _ => one(number(random)) | some(random, u64::MAX, 4),
    };
    record(2, role, 0, [set, 0, 0])
}

/// How many members the 64 sets have together.
fn member_count(sets: impl Fn(u8) -> Set) -> usize {
    (0..64).map(|key| sets(key).count_ones() as usize).sum()
}

/// The numbers whose sets have members.
fn keys(sets: impl Fn(u8) -> Set) -> Set {
    let numbers = (0..64).filter(|key| sets(*key) != 0);
    numbers.fold(0, |keys, key| keys | one(key))
}

/// How many pairs of roles there are.
pub fn pair_count(state: &Plain) -> usize {
    member_count(|role| state.pairs(role))
}

/// How many active roles the seats have together.
pub fn active_count(state: &Plain) -> usize {
    member_count(|seat| state.active(seat))
}

/// Gives random records of the kinds in turn until there is enough.
fn grow(random: &mut Random, state: &mut Plain, kinds: &[u8], enough: impl Fn(&Plain) -> bool) {
    while !enough(state) {
        for kind in kinds {
            let record = random_record(random, state, *kind);
            state.call(&record);
        }
    }
}

/// A state of middling size: 24 roles or a few more, as many conflicts, 16 seats.
pub fn middling() -> Plain {
    let mut random = Random::new(24);
    let mut state = Plain::fresh();
    grow(&mut random, &mut state, &[1, 2], |state| {
        state.roles().count_ones() >= MIDDLING_ROLES
    });
    grow(&mut random, &mut state, &[8], |state| {
        member_count(|lower| state.conflict(lower)) >= MIDDLING_CONFLICTS
    });
    grow(&mut random, &mut state, &[10], |state| {
        keys(|seat| state.seat(seat)).count_ones() >= MIDDLING_SEATS
    });
    state
}

/// The middling state with 12 pairs of roles, and active roles for 12 of its seats.
pub fn sitting() -> Plain {
    let mut random = Random::new(3);
    let mut state = middling();
    grow(&mut random, &mut state, &[13], |state| {
        pair_count(state) >= MIDDLING_PAIRS
    });
    grow(&mut random, &mut state, &[14], |state| {
        keys(|seat| state.active(seat)).count_ones() >= MIDDLING_ACTIVE
    });
    state
}

/// A state whose image is the largest: 62 roles of a privilege each, all conflicts, a role for each seat.
pub fn largest() -> Plain {
    let mut state = shape(Shape::Unrelated, 62);
    for seat in 0..64 {
        state.call(&short(10, seat, 2 + seat % 62));
    }
    for lower in 0..64 {
        for higher in lower + 1..64 {
            state.call(&short(8, lower, higher));
        }
    }
    state
}

/// The refusals that are timed, each with its kind: the last before drawing and one after closing, where the kind has
/// both, and of kind 5 the last two before drawing.
pub const REFUSED: [(u8, u8); 20] = [
    (1, 25),
    (1, 28),
    (2, 20),
    (2, 28),
    (3, 24),
    (4, 22),
    (4, 30),
    (5, 23),
    (5, 31),
    (5, 28),
    (6, 25),
    (6, 30),
    (7, 23),
    (7, 26),
    (8, 22),
    (8, 30),
    (9, 23),
    (10, 22),
    (10, 30),
    (11, 23),
];

/// The kinds that are timed on the state with pairs and active roles, each with its refusals there: 0 is accepted.
pub const ON_SITTING: [(u8, &[u8]); 4] = [
    (4, &[0, 35]),
    (13, &[0, 22, 35]),
    (14, &[0, 34, 35]),
    (15, &[0, 23]),
];

/// A record of the kind whose answer, and the state that it leaves, are as wanted.
fn found(state: &Plain, kind: u8, fits: impl Fn(Answer, &Plain) -> bool) -> Option<Vec<u8>> {
    let mut random = Random::new(kind as u64);
    let records = (0..200_000).map(|_| random_record(&mut random, state, kind));
    let mut fitting = records.filter(|record| {
        let mut after = state.clone();
        let answer = after.call(record);
        fits(answer, &after)
    });
    fitting.next()
}

/// A record of the kind to which the state answers with this refusal, or 0 for accepted.
pub fn answered(state: &Plain, kind: u8, number: u8) -> Option<Vec<u8>> {
    found(state, kind, |answer, _| {
        let yes = kind != 12 || answer.place == 1;
        answer.number == number && yes
    })
}

/// A record of kind 11 that switches an active role off.
pub fn switching_off(state: &Plain) -> Option<Vec<u8>> {
    found(state, 11, |answer, after| {
        answer.number == 0 && active_count(after) < active_count(state)
    })
}

/// How many roles the timed sheets have.
pub const SHEET_ROLES: usize = 62;

/// A sheet of every ordinary role by every privilege, its marks random.
pub fn sheet() -> Vec<u8> {
    let mut random = Random::new(62);
    let mut text = String::new();
    for privilege in 0..64 {
        text += &format!(",{privilege}");
    }
    for role in 2..2 + SHEET_ROLES {
        text += &format!("\r\n{role}");
        for _ in 0..64 {
            text += &format!(",{}", random.under(2));
        }
    }
    text += "\r\n";
    text.into_bytes()
}

/// The same sheet with a wrong mark at the end of its last row, before the last line end.
pub fn refused_sheet() -> Vec<u8> {
    let mut text = sheet();
    let last = text.len() - 3;
    text[last] = b'2';
    text
}

/// How often each of the kinds 1 to 15 stands on a tape, and how often damaged records do.
const WEIGHTS: [usize; 15] = [8, 8, 9, 11, 10, 8, 8, 5, 5, 7, 7, 12, 2, 5, 3];
const DAMAGED: usize = 2;

/// A record of one of the kinds up to the last, or a damaged one.
fn tape_record(random: &mut Random, state: &Plain, last: usize) -> Vec<u8> {
    let kinds: usize = WEIGHTS[..last].iter().sum();
    let mut left = random.under(kinds + DAMAGED);
    if left >= kinds {
        return random.bytes(RECORD_LENGTH);
    }
    let mut kind = 1;
    while left >= WEIGHTS[kind - 1] {
        left -= WEIGHTS[kind - 1];
        kind += 1;
    }
    let mut record = random_record(random, state, kind as u8);
    if random.one_in(20) {
        record[1] = random.byte();
    }
    record
}

/// A tape of mixed records of the kinds up to the last, and how many of them are accepted.
pub fn tape(count: usize, last: usize) -> (Vec<u8>, usize) {
    let mut random = Random::new(7);
    let mut state = Plain::fresh();
    let mut bytes = Vec::with_capacity(count * RECORD_LENGTH);
    let mut accepted = 0;
    for _ in 0..count {
        let record = tape_record(&mut random, &state, last);
        accepted += (state.call(&record).number == 0) as usize;
        bytes.extend(record);
    }
    (bytes, accepted)
}
