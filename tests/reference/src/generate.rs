//! Random lists of steps in several mixes, random images, and a shrinker.
//!
//! A guide, a reference of its own, follows the calls while a list is made, so
//! that calls with a good chance of being accepted can be chosen.

use crate::random::Random;
use crate::reference::{has, members, one, Reference, Set, RECORD_LENGTH};
use std::ops::RangeInclusive;

/// One step of a list.
#[derive(Clone, Debug, PartialEq)]
pub enum Step {
    /// Give the record.
    Call(Vec<u8>),
    /// Load the bytes.
    Load(Vec<u8>),
    /// Save, into a vector and into buffers of several lengths.
    Save,
    /// Save, load the image behind these bytes into a fresh keeper, go on
    /// with that keeper.
    Reload(Vec<u8>),
    /// Ask for a seat and a privilege without a record, by the assigned roles
    /// and by the active ones.
    Ask(u8, u8),
    /// The same for every seat and privilege from 0 to 64.
    AskAll,
}

/// A record with these fields.
pub fn record(kind: u8, a: u8, b: u8, sets: [Set; 3]) -> Vec<u8> {
    let mut bytes = vec![kind, a, b, 0, 0, 0, 0, 0];
    for set in sets {
        bytes.extend(set.to_le_bytes());
    }
    bytes
}

/// A record without sets.
pub fn short(kind: u8, a: u8, b: u8) -> Vec<u8> {
    record(kind, a, b, [0; 3])
}

/// The numbers that a mix draws from.
struct Numbers {
    roles: RangeInclusive<u8>,
    privileges: RangeInclusive<u8>,
    seats: RangeInclusive<u8>,
}

const FEW: Numbers = Numbers {
    roles: 2..=8,
    privileges: 0..=7,
    seats: 0..=3,
};
const ALL: Numbers = Numbers {
    roles: 2..=63,
    privileges: 0..=63,
    seats: 0..=63,
};

fn number(random: &mut Random, range: &RangeInclusive<u8>) -> u8 {
    random.between(*range.start() as usize, *range.end() as usize) as u8
}

/// A set with at most `most` members out of the range.
fn sparse_set(random: &mut Random, range: &RangeInclusive<u8>, most: usize) -> Set {
    let count = random.under(most + 1);
    (0..count).fold(0, |set, _| set | one(number(random, range)))
}

/// A set with members of the range, of one of several densities.
fn privilege_set(random: &mut Random, numbers: &Numbers) -> Set {
    let range = &numbers.privileges;
    let whole = range.clone().fold(0, |set, member| set | one(member));
    match random.under(6) {
        0 => random.word() & whole,
        1 => random.word() & random.word() & whole,
        2 => random.word() & random.word() & random.word() & whole,
        _ => one(number(random, range)) | sparse_set(random, range, 3),
    }
}

/// At most `most` of the members.
fn part_of(random: &mut Random, set: Set, most: usize) -> Set {
    let all = members(set);
    let count = random.under(most + 1);
    (0..count)
        .filter_map(|_| random.pick(&all))
        .fold(0, |part, member| part | one(member))
}

// ---- calls that the state is likely to accept ----

/// How often each of the kinds 1 to 15 is drawn.
const WEIGHTS: [usize; 15] = [9, 8, 5, 11, 9, 9, 9, 5, 4, 8, 6, 6, 5, 9, 4];

fn weighted_kind(random: &mut Random) -> u8 {
    let mut left = random.under(WEIGHTS.iter().sum());
    for (place, weight) in WEIGHTS.iter().enumerate() {
        if left < *weight {
            return place as u8 + 1;
        }
        left -= weight;
    }
    unreachable!("the draw is under the sum")
}

/// A record that the state is likely to accept; some other record where the
/// kind drawn has nothing to work on.
fn likely(random: &mut Random, state: &Reference, numbers: &Numbers) -> Vec<u8> {
    let kind = weighted_kind(random);
    let found = match kind {
        1 => likely_place(random, state, numbers),
        2 => likely_privileges(random, state, numbers),
        3 => likely_remove(random, state),
        4 => likely_grant(random, state, numbers),
        5 => likely_withdrawal(random, state, numbers),
        6 => likely_edge(random, state),
        7 => likely_edge_removal(random, state),
        8 => likely_conflict(random, state, numbers),
        9 => likely_lift(random, state),
        10 => likely_seat(random, state, numbers),
        11 => likely_unseat(random, state),
        13 => likely_exclusion(random, state),
        14 => likely_activation(random, state),
        15 => likely_deactivation(random, state),
        _ => None,
    };
    found.unwrap_or_else(|| likely_ask(random, state, numbers))
}

fn absent_role(random: &mut Random, state: &Reference, numbers: &Numbers) -> Option<u8> {
    let absent: Vec<u8> = numbers
        .roles
        .clone()
        .filter(|role| !has(state.roles(), *role))
        .collect();
    random.pick(&absent)
}

fn present_role(random: &mut Random, state: &Reference) -> Option<u8> {
    random.pick(&members(state.roles()))
}

fn likely_place(random: &mut Random, state: &Reference, numbers: &Numbers) -> Option<Vec<u8>> {
    let role = absent_role(random, state, numbers)?;
    let direct =
        one(number(random, &numbers.privileges)) | sparse_set(random, &numbers.privileges, 1);
    let juniors = part_of(random, state.roles(), 2);
    let in_junior = |senior: &u8| {
        let mut juniors = members(juniors).into_iter();
        juniors.any(|junior| within(state, *senior, junior))
    };
    let above = members(state.roles())
        .into_iter()
        .filter(|role| !in_junior(role));
    let above = above.fold(0, |set, role| set | one(role));
    Some(record(
        1,
        role,
        0,
        [direct, juniors, part_of(random, above, 2)],
    ))
}

fn likely_privileges(random: &mut Random, state: &Reference, numbers: &Numbers) -> Option<Vec<u8>> {
    let role = absent_role(random, state, numbers)?;
    let mut set = privilege_set(random, numbers);
    if random.one_in(3) {
        set |= state.effective(present_role(random, state)?);
    }
    Some(record(2, role, 0, [set, 0, 0]))
}

fn likely_remove(random: &mut Random, state: &Reference) -> Option<Vec<u8>> {
    let seated = state.seats().iter().fold(0, |set, roles| set | roles);
    let free = random.pick(&members(state.roles() & !seated));
    let role = free.or_else(|| present_role(random, state))?;
    Some(short(3, role, random.under(2) as u8))
}

/// The privileges of the mix that the role doesn't hold.
fn lacked(state: &Reference, role: u8, numbers: &Numbers) -> Vec<u8> {
    let lacks = |privilege: &u8| !has(state.effective(role), *privilege);
    numbers.privileges.clone().filter(lacks).collect()
}

fn likely_grant(random: &mut Random, state: &Reference, numbers: &Numbers) -> Option<Vec<u8>> {
    let role = present_role(random, state)?;
    let privilege = random.pick(&lacked(state, role, numbers))?;
    Some(short(4, role, privilege))
}

/// A withdrawal of a direct privilege, now and then of one that the role has
/// through a junior or doesn't hold.
fn likely_withdrawal(random: &mut Random, state: &Reference, numbers: &Numbers) -> Option<Vec<u8>> {
    let role = present_role(random, state)?;
    let direct = state.direct(role);
    let privileges = match random.under(10) {
        0 => members(state.effective(role) & !direct),
        1 => lacked(state, role, numbers),
        _ => members(direct),
    };
    Some(short(5, role, random.pick(&privileges)?))
}

/// A role present and another that lies neither below nor above it.
fn two_apart(random: &mut Random, state: &Reference) -> Option<(u8, u8)> {
    let apart = |a: u8, b: u8| !within(state, a, b) && !within(state, b, a);
    let first = present_role(random, state)?;
    let others: Vec<u8> = members(state.roles())
        .into_iter()
        .filter(|other| apart(first, *other))
        .collect();
    Some((first, random.pick(&others)?))
}

/// The second role reaches the first; both are present.
fn within(state: &Reference, role: u8, senior: u8) -> bool {
    state.effective(role) & !state.effective(senior) == 0
}

fn likely_edge(random: &mut Random, state: &Reference) -> Option<Vec<u8>> {
    let (junior, senior) = two_apart(random, state)?;
    Some(short(6, junior, senior))
}

fn likely_edge_removal(random: &mut Random, state: &Reference) -> Option<Vec<u8>> {
    let inner = |edge: &&(u8, u8)| edge.0 != 0 && edge.1 != 1;
    let edges: Vec<(u8, u8)> = state.edges().iter().filter(inner).copied().collect();
    let (junior, senior) = random.pick(&edges)?;
    Some(short(7, junior, senior))
}

fn likely_conflict(random: &mut Random, state: &Reference, numbers: &Numbers) -> Option<Vec<u8>> {
    let a = number(random, &numbers.privileges);
    let sets = state.sets();
    let together = sets[2..]
        .iter()
        .filter(|set| has(**set, a))
        .fold(one(a), |all, set| all | set);
    let free: Vec<u8> = numbers
        .privileges
        .clone()
        .filter(|privilege| !has(together, *privilege))
        .collect();
    Some(short(8, a, random.pick(&free)?))
}

fn likely_lift(random: &mut Random, state: &Reference) -> Option<Vec<u8>> {
    let (first, second) = declared_pair(random, &state.conflicts())?;
    Some(short(9, first, second))
}

/// One of the pairs, in either order.
fn declared_pair(random: &mut Random, pairs: &[Set; 64]) -> Option<(u8, u8)> {
    let lower = random.pick(&taken(pairs))?;
    let higher = random.pick(&members(pairs[lower as usize]))?;
    Some(match random.one_in(2) {
        true => (higher, lower),
        false => (lower, higher),
    })
}

fn likely_seat(random: &mut Random, state: &Reference, numbers: &Numbers) -> Option<Vec<u8>> {
    let seat = number(random, &numbers.seats);
    let free = state.roles() & !state.seats()[seat as usize];
    Some(short(10, seat, random.pick(&members(free))?))
}

/// The numbers whose word isn't empty.
fn taken(words: &[Set; 64]) -> Vec<u8> {
    (0..64)
        .filter(|number| words[*number as usize] != 0)
        .collect()
}

fn taken_seats(state: &Reference) -> Vec<u8> {
    taken(&state.seats())
}

/// One of the seats that have active roles.
fn active_seat(random: &mut Random, state: &Reference) -> Option<u8> {
    random.pick(&taken(&state.active()))
}

fn likely_unseat(random: &mut Random, state: &Reference) -> Option<Vec<u8>> {
    let seat = random.pick(&taken_seats(state))?;
    let role = random.pick(&members(state.seats()[seat as usize]))?;
    Some(short(11, seat, role))
}

fn likely_exclusion(random: &mut Random, state: &Reference) -> Option<Vec<u8>> {
    let repeated = declared_pair(random, &state.exclusions());
    let pair = repeated.filter(|_| random.one_in(10));
    let (first, second) = pair.or_else(|| two_apart(random, state))?;
    Some(short(13, first, second))
}

/// The roles that some role of the seat reaches.
fn reached_from(state: &Reference, seat: u8) -> Set {
    let assigned = members(state.roles_of_seat(seat));
    let reached = |role: &u8| assigned.iter().any(|senior| within(state, *role, *senior));
    let roles = members(state.roles()).into_iter().filter(reached);
    roles.fold(0, |set, role| set | one(role))
}

/// A role that the seat reaches; now and then one that it doesn't reach, or
/// one that is active already.
fn likely_activation(random: &mut Random, state: &Reference) -> Option<Vec<u8>> {
    let seat = random.pick(&taken_seats(state))?;
    let (reached, active) = (reached_from(state, seat), state.active_of_seat(seat));
    let roles = match random.under(12) {
        0 => state.roles() & !reached,
        1 => active,
        _ => reached & !active,
    };
    Some(short(14, seat, random.pick(&members(roles))?))
}

fn likely_deactivation(random: &mut Random, state: &Reference) -> Option<Vec<u8>> {
    let seat = active_seat(random, state)?;
    let role = random.pick(&members(state.active_of_seat(seat)))?;
    Some(short(15, seat, role))
}

fn likely_ask(random: &mut Random, state: &Reference, numbers: &Numbers) -> Vec<u8> {
    let taken = random.pick(&taken_seats(state));
    let seat = taken.unwrap_or_else(|| number(random, &numbers.seats));
    short(12, seat, number(random, &numbers.privileges))
}

// ---- calls that strain a seat ----

/// The declared pairs of which the set holds one: the one held, then the other.
fn half_held(state: &Reference, set: Set) -> Vec<(u8, u8)> {
    let conflicts = state.conflicts();
    let mut pairs = Vec::new();
    for lower in 0..64u8 {
        for higher in members(conflicts[lower as usize]) {
            match (has(set, lower), has(set, higher)) {
                (true, false) => pairs.push((lower, higher)),
                (false, true) => pairs.push((higher, lower)),
                _ => {}
            }
        }
    }
    pairs
}

/// The seat's roles that can gain the other half without a role holding both:
/// neither they nor roles above them hold this half.
fn free_of(state: &Reference, roles: &[u8], half: u8) -> Vec<u8> {
    let holders = members(state.roles()).into_iter();
    let holders = holders.filter(|role| has(state.effective(*role), half));
    let held: Vec<Set> = holders.map(|role| state.effective(role)).collect();
    let free = |role: &&u8| held.iter().all(|set| state.effective(**role) & !set != 0);
    roles.iter().filter(free).copied().collect()
}

/// A record that would bring the other half of a conflict to a seat through
/// one of its roles, or one that prepares this.
fn straining(random: &mut Random, state: &Reference, numbers: &Numbers) -> Option<Vec<u8>> {
    let seat = random.pick(&taken_seats(state))?;
    let roles = members(state.seats()[seat as usize]);
    let union = roles
        .iter()
        .fold(0, |union, role| union | state.effective(*role));
    let (held, other) = random.pick(&half_held(state, union))?;
    let role = random.pick(&free_of(state, &roles, held))?;
    match random.under(4) {
        0 => Some(short(4, role, other)),
        1 => {
            let added = absent_role(random, state, numbers)?;
            Some(record(1, added, 0, [one(other), 0, one(role)]))
        }
        _ => straining_edge(random, state, numbers, (other, role)),
    }
}

/// An edge to the role from one with the privilege, or such a role added.
fn straining_edge(
    random: &mut Random,
    state: &Reference,
    numbers: &Numbers,
    (privilege, role): (u8, u8),
) -> Option<Vec<u8>> {
    let holders = members(state.roles()).into_iter();
    let holders = holders.filter(|holder| has(state.effective(*holder), privilege));
    if let Some(junior) = random.pick(&holders.collect::<Vec<u8>>()) {
        return Some(short(6, junior, role));
    }
    let added = absent_role(random, state, numbers)?;
    Some(record(2, added, 0, [one(privilege), 0, 0]))
}

/// Mostly a likely record, now and then a straining one.
fn likely_or_straining(random: &mut Random, state: &Reference, numbers: &Numbers) -> Vec<u8> {
    if random.one_in(12) {
        if let Some(record) = straining(random, state, numbers) {
            return record;
        }
    }
    likely(random, state, numbers)
}

// ---- calls around pairs of roles and active roles ----

/// The kinds that 35 can refuse; kind 3 with b 0 alone, since with b 1 no other
/// set changes.
const CLASHING: [u8; 8] = [1, 3, 4, 5, 6, 7, 13, 14];

/// Without pairs only kind 13 can be refused so.
const NO_PAIRS: [Set; 64] = [0; 64];

/// How many records are tried for one that 35 refuses.
const TRIES: usize = 12;

/// A record that 35 refuses, of a kind drawn evenly; nothing where none of a
/// few records of the kind is such a one.
fn clashing(random: &mut Random, state: &Reference, numbers: &Numbers) -> Option<Vec<u8>> {
    let kind = match state.exclusions() {
        NO_PAIRS => 13,
        _ => random.pick(&CLASHING)?,
    };
    let clashes = |record: &Vec<u8>| state.clash_of(record).is_some();
    let mut tries = (0..TRIES).filter_map(|_| attempt(random, state, numbers, kind));
    tries.find(clashes)
}

/// A record of one of the kinds that 35 can refuse, with numbers that are
/// present.
fn attempt(random: &mut Random, state: &Reference, numbers: &Numbers, kind: u8) -> Option<Vec<u8>> {
    match kind {
        1 => attempt_place(random, state, numbers),
        3 => Some(short(3, present_role(random, state)?, 0)),
        4 => likely_grant(random, state, numbers),
        5 => likely_withdrawal(random, state, numbers),
        6 => likely_edge(random, state),
        7 => likely_edge_removal(random, state),
        13 => {
            let (first, second) = (present_role(random, state)?, present_role(random, state)?);
            Some(short(13, first, second))
        }
        _ => likely_activation(random, state),
    }
}

/// A role added between two that lie apart.
fn attempt_place(random: &mut Random, state: &Reference, numbers: &Numbers) -> Option<Vec<u8>> {
    let role = absent_role(random, state, numbers)?;
    let (junior, senior) = two_apart(random, state)?;
    let direct = one(number(random, &numbers.privileges));
    Some(record(1, role, 0, [direct, one(junior), one(senior)]))
}

/// A record that switches an active role off where it is accepted: the role
/// goes, the edge by which the seat reaches it goes, or the seat loses a role.
fn switching(random: &mut Random, state: &Reference) -> Option<Vec<u8>> {
    let seat = active_seat(random, state)?;
    let (assigned, active) = (state.roles_of_seat(seat), state.active_of_seat(seat));
    match random.under(3) {
        0 => {
            let seated = state.seats().iter().fold(0, |all, roles| all | roles);
            let role = random.pick(&members(active & !seated))?;
            Some(short(3, role, random.under(2) as u8))
        }
        1 => {
            let carries = |edge: &&(u8, u8)| has(active, edge.0) && has(assigned, edge.1);
            let edges: Vec<(u8, u8)> = state.edges().iter().filter(carries).copied().collect();
            let (junior, senior) = random.pick(&edges)?;
            Some(short(7, junior, senior))
        }
        _ => Some(short(11, seat, random.pick(&members(assigned))?)),
    }
}

/// A record that makes or unmakes pairs and active roles, one that 35 refuses,
/// one that switches a role off, or another likely one.
fn sitting(random: &mut Random, state: &Reference, numbers: &Numbers) -> Vec<u8> {
    let found = match random.under(12) {
        0 | 1 => likely_exclusion(random, state),
        2 | 3 => likely_activation(random, state),
        4 => likely_seat(random, state, numbers),
        5 => likely_privileges(random, state, numbers),
        6 | 7 => clashing(random, state, numbers),
        8 => switching(random, state),
        _ => None,
    };
    found.unwrap_or_else(|| likely(random, state, numbers))
}

// ---- scenes that end in 35 ----

/// Roles, privileges and seats that one scene has for itself.
struct Cast {
    roles: [u8; 5],
    privileges: [u8; 5],
    seats: [u8; 2],
}

/// The numbers from `low` to 63 in groups, none in two of them.
fn groups<const SIZE: usize>(random: &mut Random, low: u8) -> Vec<[u8; SIZE]> {
    let mut numbers: Vec<u8> = (low..=63).collect();
    random.shuffle(&mut numbers);
    let groups = numbers.chunks_exact(SIZE);
    groups
        .map(|group| group.try_into().expect("the group has this size"))
        .collect()
}

/// As many casts as the numbers allow.
fn casts(random: &mut Random) -> Vec<Cast> {
    let (roles, privileges) = (groups(random, 2), groups(random, 0));
    let numbers = roles.into_iter().zip(privileges).zip(groups(random, 0));
    let cast = |((roles, privileges), seats)| Cast {
        roles,
        privileges,
        seats,
    };
    numbers.map(cast).collect()
}

/// Two roles, `lower` and `upper`, lie apart until the last call puts the one
/// below the other.
struct Scene<'c> {
    cast: &'c Cast,
    last: Vec<u8>,
}

fn by_privileges(role: u8, privileges: &[u8]) -> Vec<u8> {
    record(2, role, 0, [role_set(privileges), 0, 0])
}

/// The seat gets the role, and it is made active.
fn seated(seat: u8, role: u8) -> Vec<Vec<u8>> {
    vec![short(10, seat, role), short(14, seat, role)]
}

impl<'c> Scene<'c> {
    /// The last call is of a kind drawn evenly. Kinds 3 with b 0, 5 and 7 take
    /// `own` from the lower role, kinds 1, 4 and 6 give it to the upper one.
    fn draw(random: &mut Random, cast: &'c Cast) -> Scene<'c> {
        let [junior, lower, upper, _, added] = cast.roles;
        let [own, _, _, _, fresh] = cast.privileges;
        let last = [
            record(1, added, 0, [one(fresh), one(lower), one(upper)]),
            short(3, junior, 0),
            short(4, upper, own),
            short(5, lower, own),
            short(6, lower, upper),
            short(7, junior, lower),
        ];
        let last = last[random.under(last.len())].clone();
        Scene { cast, last }
    }

    fn drops_junior(&self) -> bool {
        matches!(self.last[0], 3 | 7)
    }

    fn shrinks_lower(&self) -> bool {
        self.drops_junior() || self.last[0] == 5
    }

    /// The junior, where the last call drops it, and the lower role. Half of
    /// these juniors are active, so that 35 holds their switching off back.
    fn below(&self, random: &mut Random) -> Vec<Vec<u8>> {
        let [junior, lower, ..] = self.cast.roles;
        let [own, shared, ..] = self.cast.privileges;
        let [_, seat] = self.cast.seats;
        let mut records = Vec::new();
        if self.drops_junior() {
            records.push(by_privileges(junior, &[own]));
        }
        records.push(match self.shrinks_lower() {
            true => by_privileges(lower, &[own, shared]),
            false => by_privileges(lower, &[own]),
        });
        if self.drops_junior() && random.one_in(2) {
            records.extend([short(10, seat, lower), short(14, seat, junior)]);
        }
        records
    }

    /// The upper role and a pair that breaks when the lower role comes below
    /// it: the two are the pair, or the upper one is active and lies above the
    /// pair's other role, or that role is active too.
    fn above(&self, random: &mut Random) -> Vec<Vec<u8>> {
        let [_, lower, upper, third, _] = self.cast.roles;
        let [_, shared, rest, apart, _] = self.cast.privileges;
        let [seat, _] = self.cast.seats;
        let mut held = vec![rest];
        if self.shrinks_lower() {
            held.push(shared);
        }
        let with = |more: &[u8]| by_privileges(upper, &[&held, more].concat());
        let other = by_privileges(third, &[apart]);
        let pair = short(13, third, lower);
        match random.under(3) {
            0 => vec![with(&[]), short(13, lower, upper)],
            1 => [vec![other, with(&[apart]), pair], seated(seat, upper)].concat(),
            _ => {
                let both = [seated(seat, upper), seated(seat, third)].concat();
                [vec![other, with(&[])], both, vec![pair]].concat()
            }
        }
    }
}

/// The records of a scene.
fn scene(random: &mut Random, cast: &Cast) -> Vec<Vec<u8>> {
    let scene = Scene::draw(random, cast);
    let (below, above) = (scene.below(random), scene.above(random));
    [below, above, vec![scene.last]].concat()
}

/// Several scenes at once, the records of each in their order.
fn scenes(random: &mut Random) -> Vec<Vec<u8>> {
    let mut scenes: Vec<_> = casts(random)
        .iter()
        .map(|cast| scene(random, cast).into_iter())
        .collect();
    let mut records = Vec::new();
    while !scenes.is_empty() {
        let place = random.under(scenes.len());
        match scenes[place].next() {
            Some(record) => records.push(record),
            None => drop(scenes.swap_remove(place)),
        }
    }
    records
}

// ---- calls made blindly ----

/// Any number: mostly in range, else just above it, else any byte.
fn any_number(random: &mut Random) -> u8 {
    match random.under(10) {
        0 => random.between(62, 68) as u8,
        1 => random.byte(),
        2 => random.under(4) as u8,
        _ => random.under(64) as u8,
    }
}

/// A role set that may name absent roles and the end roles.
fn any_roles(random: &mut Random, state: &Reference) -> Set {
    match random.under(8) {
        0 => random.word(),
        1 => one(random.under(3) as u8),
        2 => sparse_set(random, &(0..=63), 3),
        3 | 4 => 0,
        _ => part_of(random, state.roles(), 3),
    }
}

/// A role that is mostly present, else any number.
fn any_role(random: &mut Random, state: &Reference) -> u8 {
    let present = present_role(random, state);
    match present {
        Some(role) if !random.one_in(3) => role,
        _ => any_number(random),
    }
}

/// A well-formed record with any numbers.
fn blind(random: &mut Random, state: &Reference) -> Vec<u8> {
    let kind = random.between(1, 15) as u8;
    let (a, b) = (any_role(random, state), any_role(random, state));
    match kind {
        1 => {
            let role = if random.one_in(2) {
                any_number(random)
            } else {
                a
            };
            let direct = sparse_set(random, &(0..=63), 2);
            let (juniors, seniors) = (any_roles(random, state), any_roles(random, state));
            record(1, role, 0, [direct, juniors, seniors])
        }
        2 => record(2, any_number(random), 0, [blind_set(random, state), 0, 0]),
        3 => short(3, a, random.under(2) as u8),
        6 | 7 | 13 => short(kind, a, b),
        10 | 11 | 14 | 15 => blind_seat(random, state, kind),
        4 | 5 => short(kind, a, any_number(random)),
        _ => {
            let a = any_number(random);
            let same = random.one_in(8);
            short(kind, a, if same { a } else { any_number(random) })
        }
    }
}

/// Any seat and role, now and then an end role; half the time a seat that has
/// the role, where there is one.
fn blind_seat(random: &mut Random, state: &Reference, kind: u8) -> Vec<u8> {
    let taken = random.pick(&taken_seats(state));
    match taken {
        Some(seat) if random.one_in(2) => {
            let roles = members(state.seats()[seat as usize]);
            short(kind, seat, random.pick(&roles).unwrap_or(0))
        }
        _ if random.one_in(10) => short(kind, any_number(random), random.under(2) as u8),
        _ => short(kind, any_number(random), any_role(random, state)),
    }
}

/// A privilege set: any, empty, or just that of a role present.
fn blind_set(random: &mut Random, state: &Reference) -> Set {
    match random.under(8) {
        0 => 0,
        1 => random.word(),
        2 => present_role(random, state).map_or(1, |role| state.effective(role)),
        _ => privilege_set(random, &ALL),
    }
}

// ---- damaged records ----

const LONGEST_DAMAGED: usize = 70;

fn damaged(random: &mut Random, state: &Reference) -> Vec<u8> {
    let mut bytes = likely(random, state, &FEW);
    match random.under(7) {
        0 => {
            let length = random.between(0, LONGEST_DAMAGED);
            random.bytes(length)
        }
        1 => resized(random, bytes),
        2 => {
            let place = random.under(RECORD_LENGTH);
            bytes[place] ^= random.byte();
            bytes
        }
        3 => {
            bytes[0] = random.byte();
            bytes
        }
        4 => known_kind_with_noise(random),
        5 => next_kind(random, bytes),
        _ => {
            let place = random.between(2, RECORD_LENGTH - 1);
            bytes[place] = 1 << random.under(8);
            bytes
        }
    }
}

/// The record cut or continued to some length from 0 to 70.
fn resized(random: &mut Random, mut bytes: Vec<u8>) -> Vec<u8> {
    let length = match random.under(4) {
        0 => 31,
        1 => 33,
        _ => random.between(0, LONGEST_DAMAGED),
    };
    let filler = if random.one_in(2) { 0 } else { random.byte() };
    bytes.resize(length, filler);
    bytes
}

fn known_kind_with_noise(random: &mut Random) -> Vec<u8> {
    let mut bytes = random.bytes(RECORD_LENGTH);
    bytes[0] = random.between(1, 15) as u8;
    if random.one_in(2) {
        bytes[3..8].fill(0);
    }
    bytes
}

/// The kind is replaced by one just above the known ones.
fn next_kind(random: &mut Random, mut bytes: Vec<u8>) -> Vec<u8> {
    bytes[0] = random.between(16, 20) as u8;
    bytes
}

// ---- lists of calls ----

#[derive(Clone, Copy, Debug, PartialEq)]
pub enum Mix {
    /// Few numbers, so that most calls are accepted.
    Few,
    /// All numbers, those out of range too.
    Wide,
    /// Damaged records between sound ones.
    Damaged,
    /// Layered graphs, then edited.
    Layered,
    /// A loaded image, then calls.
    FromImage,
    /// Pairs of roles and active roles, kept up long enough to meet 35 and
    /// switch-offs, with loads that clear them and refused ones that don't.
    Sitting,
    /// Scenes that end in 35, then the like.
    Scenes,
}

pub const MIXES: [Mix; 11] = [
    Mix::Few,
    Mix::Wide,
    Mix::Sitting,
    Mix::Damaged,
    Mix::Layered,
    Mix::Few,
    Mix::Wide,
    Mix::Sitting,
    Mix::FromImage,
    Mix::Scenes,
    Mix::Few,
];

/// How many calls there are for one reload in most mixes. A reload drops pairs
/// and active roles, so that a sitting has fewer.
const CALLS_PER_RELOAD: usize = 24;
const CALLS_PER_RELOAD_IN_SITTING: usize = 150;

/// A list of steps in the making, with the guide that follows it.
struct Maker<'r> {
    random: &'r mut Random,
    guide: Reference,
    steps: Vec<Step>,
    calls_per_reload: usize,
}

impl<'r> Maker<'r> {
    fn new(random: &'r mut Random) -> Maker<'r> {
        Maker {
            random,
            guide: Reference::fresh(),
            steps: Vec::new(),
            calls_per_reload: CALLS_PER_RELOAD,
        }
    }

    fn call(&mut self, record: Vec<u8>) {
        self.guide.call(&record);
        self.steps.push(Step::Call(record));
        self.look();
    }

    /// Now and then a step that looks at the state or carries it over.
    fn look(&mut self) {
        if self.random.one_in(12) {
            self.steps.push(Step::Save);
        }
        if self.random.one_in(self.calls_per_reload) {
            let length = self.random.under(40);
            self.steps.push(Step::Reload(self.random.bytes(length)));
            let reloaded = self.guide.load(&self.guide.save());
            reloaded.expect("a saved image loads");
        }
        if self.random.one_in(6) {
            let (seat, privilege) = (any_number(self.random), any_number(self.random));
            self.steps.push(Step::Ask(seat, privilege));
        }
        if self.random.one_in(100) {
            self.steps.push(Step::AskAll);
        }
    }

    fn call_likely(&mut self, count: usize, numbers: &Numbers) {
        for _ in 0..count {
            let record = likely_or_straining(self.random, &self.guide, numbers);
            self.call(record);
        }
    }

    fn call_wide(&mut self, count: usize) {
        for _ in 0..count {
            let record = if self.random.one_in(2) {
                blind(self.random, &self.guide)
            } else {
                likely(self.random, &self.guide, &ALL)
            };
            self.call(record);
        }
    }

    fn call_damaged(&mut self, count: usize) {
        for _ in 0..count {
            let record = if self.random.one_in(4) {
                likely(self.random, &self.guide, &FEW)
            } else {
                damaged(self.random, &self.guide)
            };
            self.call(record);
        }
    }

    fn call_layers(&mut self, edits: usize) {
        for record in layered(self.random) {
            self.call(record);
        }
        self.call_likely(edits, &ALL);
    }

    fn call_scenes(&mut self) {
        self.calls_per_reload = CALLS_PER_RELOAD_IN_SITTING;
        for record in scenes(self.random) {
            self.call(record);
        }
    }

    fn call_sitting(&mut self, count: usize, numbers: &Numbers) {
        self.calls_per_reload = CALLS_PER_RELOAD_IN_SITTING;
        for _ in 0..count {
            let record = sitting(self.random, &self.guide, numbers);
            self.call(record);
            if self.random.one_in(25) {
                let image = flawed_image(self.random, &self.guide);
                self.load(image);
            }
            if self.random.one_in(150) {
                self.load(self.guide.save());
            }
        }
    }

    /// Loads the bytes, which may be refused.
    fn load(&mut self, bytes: Vec<u8>) {
        let _ = self.guide.load(&bytes);
        self.steps.push(Step::Load(bytes));
    }

    fn load_start(&mut self) {
        let image = sound_image(self.random);
        self.load(image);
    }
}

/// A list of steps of the mix.
pub fn list(random: &mut Random, mix: Mix) -> Vec<Step> {
    let mut maker = Maker::new(random);
    match mix {
        Mix::Few => maker.call_likely(200, &FEW),
        Mix::Wide => maker.call_wide(150),
        Mix::Damaged => maker.call_damaged(100),
        Mix::Layered => maker.call_layers(80),
        Mix::FromImage => {
            maker.load_start();
            maker.call_likely(30, &ALL);
            maker.call_wide(40);
        }
        Mix::Sitting => {
            let numbers = if maker.random.one_in(4) { ALL } else { FEW };
            maker.call_sitting(200, &numbers);
        }
        Mix::Scenes => {
            maker.call_scenes();
            maker.call_sitting(50, &ALL);
        }
    }
    maker.steps
}

// ---- layered graphs ----

/// The roles of each layer, the lowest layer first.
fn layers(random: &mut Random) -> Vec<Vec<u8>> {
    let mut roles: Vec<u8> = (2..=63).collect();
    random.shuffle(&mut roles);
    roles.truncate(random.between(4, 62));
    let width = random.between(1, 9);
    roles.chunks(width).map(|layer| layer.to_vec()).collect()
}

/// Records that build a graph in which every role of a layer is above every
/// role of the layer below, from the bottom or from the top.
fn layered(random: &mut Random) -> Vec<Vec<u8>> {
    let mut privileges: Vec<u8> = (0..=63).collect();
    random.shuffle(&mut privileges);
    let layers = layers(random);
    let upward = random.one_in(2);
    let mut records = Vec::new();
    let mut held = 0;
    for (height, layer) in layers.iter().enumerate() {
        let own: Vec<Set> = layer
            .iter()
            .map(|_| one(privileges.pop().unwrap_or(0)))
            .collect();
        for (role, own) in layer.iter().zip(&own) {
            let by_privileges = record(2, *role, 0, [held | own, 0, 0]);
            let by_place = if upward {
                let lower = if height == 0 {
                    0
                } else {
                    role_set(&layers[height - 1])
                };
                record(1, *role, 0, [*own, lower, 0])
            } else {
                let upper = layers.get(height + 1).map_or(0, |layer| role_set(layer));
                record(1, *role, 0, [held | own, 0, upper])
            };
            records.push(if random.one_in(2) {
                by_privileges
            } else {
                by_place
            });
        }
        held |= own.iter().fold(0, |all, one| all | one);
    }
    if !upward {
        records.reverse();
    }
    records
}

fn role_set(roles: &[u8]) -> Set {
    roles.iter().fold(0, |set, role| set | one(*role))
}

// ---- images ----

/// The entries of an image, sound or not.
#[derive(Clone)]
struct Draft {
    max: Set,
    roles: Vec<(u8, Set)>,
    conflicts: Vec<(u8, u8)>,
    seats: Vec<(u8, Set)>,
}

impl Draft {
    fn bytes(&self) -> Vec<u8> {
        let mut body = self.max.to_le_bytes().to_vec();
        put_entries(&mut body, &self.roles);
        for (lower, higher) in &self.conflicts {
            body.extend([*lower, *higher]);
        }
        put_entries(&mut body, &self.seats);
        with_trailer(
            body,
            self.roles.len(),
            self.seats.len(),
            self.conflicts.len(),
        )
    }
}

fn put_entries(body: &mut Vec<u8>, entries: &[(u8, Set)]) {
    for (number, set) in entries {
        body.push(*number);
        body.extend(set.to_le_bytes());
    }
}

/// The body with a trailer whose distance is the body's length and 8.
fn with_trailer(mut body: Vec<u8>, roles: usize, seats: usize, conflicts: usize) -> Vec<u8> {
    let distance = body.len() as u32 + 8;
    body.extend(distance.to_le_bytes());
    body.extend([roles as u8, seats as u8]);
    body.extend((conflicts as u16).to_le_bytes());
    body
}

/// The entries of a state.
fn draft_of(state: &Reference) -> Draft {
    let (sets, conflicts, seats) = (state.sets(), state.conflicts(), state.seats());
    let pairs = (0..64u8).flat_map(|lower| {
        members(conflicts[lower as usize])
            .into_iter()
            .map(move |higher| (lower, higher))
    });
    Draft {
        max: sets[1],
        roles: members(state.roles())
            .into_iter()
            .map(|r| (r, sets[r as usize]))
            .collect(),
        conflicts: pairs.collect(),
        seats: taken_seats(state)
            .into_iter()
            .map(|s| (s, seats[s as usize]))
            .collect(),
    }
}

/// A state reached by random calls.
pub fn random_state(random: &mut Random) -> Reference {
    let count = random.between(0, 50);
    let shape = random.under(6);
    let mut maker = Maker::new(random);
    match shape {
        0 => maker.call_layers(10),
        1 => maker.call_wide(count),
        2 => maker.call_likely(count, &ALL),
        _ => maker.call_likely(count, &FEW),
    }
    maker.guide
}

/// A valid image: mostly saved from a random state, now and then one whose
/// MaxRole holds more, rarely the largest image there is.
pub fn sound_image(random: &mut Random) -> Vec<u8> {
    if random.one_in(150) {
        return largest_image(random);
    }
    let state = random_state(random);
    if random.one_in(2) {
        return state.save();
    }
    let mut draft = draft_of(&state);
    draft.max |= random.word();
    draft.bytes()
}

/// 62 roles of one privilege each, all 2,016 conflicts, all 64 seats.
pub fn largest_image(random: &mut Random) -> Vec<u8> {
    let mut privileges: Vec<u8> = (0..=63).collect();
    random.shuffle(&mut privileges);
    let roles = (2..=63u8).map(|role| (role, one(privileges[role as usize])));
    let pairs = (0..64u8).flat_map(|lower| (lower + 1..64).map(move |higher| (lower, higher)));
    let seats = (0..64u8).map(|seat| (seat, one(random.between(2, 63) as u8)));
    let draft = Draft {
        max: u64::MAX,
        roles: roles.collect(),
        conflicts: pairs.collect(),
        seats: seats.collect(),
    };
    draft.bytes()
}

/// The image of a state with one flaw, or two, in its entries.
fn flawed_image(random: &mut Random, state: &Reference) -> Vec<u8> {
    let mut draft = draft_of(state);
    for _ in 0..random.between(1, 2) {
        match random.under(4) {
            0 => flaw_roles(random, &mut draft),
            1 => flaw_conflicts(random, &mut draft),
            2 => flaw_seats(random, &mut draft),
            _ => draft.max &= !one(random.under(64) as u8),
        }
    }
    draft.bytes()
}

fn flaw_roles(random: &mut Random, draft: &mut Draft) {
    let count = draft.roles.len();
    if count == 0 {
        draft.roles.push((any_number(random), random.word()));
        return;
    }
    let (place, other) = (random.under(count), random.under(count));
    match random.under(6) {
        0 => draft.roles[place].0 = any_number(random),
        1 => draft.roles[place].1 = 0,
        2 => draft.roles[place].1 = draft.roles[other].1,
        3 => draft.roles[place].1 |= random.word(),
        4 => draft.roles.swap(place, other),
        _ => {
            draft.roles.remove(place);
        }
    }
}

fn flaw_conflicts(random: &mut Random, draft: &mut Draft) {
    let pair = (any_number(random), any_number(random));
    let count = draft.conflicts.len();
    if count == 0 || random.one_in(3) {
        draft.conflicts.push(pair);
        draft.conflicts.sort();
        return;
    }
    let (place, other) = (random.under(count), random.under(count));
    let (lower, higher) = draft.conflicts[place];
    match random.under(5) {
        0 => draft.conflicts[place] = (higher, lower),
        1 => draft.conflicts[place] = (lower, lower),
        2 => draft.conflicts.insert(place, (lower, higher)),
        3 => draft.conflicts.swap(place, other),
        _ => draft.conflicts[place] = pair,
    }
}

fn flaw_seats(random: &mut Random, draft: &mut Draft) {
    let count = draft.seats.len();
    if count == 0 || random.one_in(3) {
        let roles = draft
            .roles
            .iter()
            .fold(0, |roles, (role, _)| roles | 1u64 << (role & 63));
        draft
            .seats
            .push((any_number(random), part_of(random, roles, 4)));
        draft.seats.sort();
        return;
    }
    let (place, other) = (random.under(count), random.under(count));
    match random.under(5) {
        0 => draft.seats[place].0 = any_number(random),
        1 => draft.seats[place].1 = 0,
        2 => draft.seats[place].1 |= one(random.under(4) as u8),
        3 => draft.seats[place].1 |= one(random.under(64) as u8),
        _ => draft.seats.swap(place, other),
    }
}

/// Random bytes behind which a trailer fits.
fn random_fitting(random: &mut Random) -> Vec<u8> {
    let most = if random.one_in(10) { 70 } else { 3 };
    let (roles, seats) = (random.under(most + 1), random.under(most + 1));
    let conflicts = random.under(most * 10 + 1);
    let length = 8 + 9 * roles + 9 * seats + 2 * conflicts;
    let narrow = random.one_in(2);
    let mut body = random.bytes(length);
    if narrow {
        body.iter_mut().for_each(|byte| *byte &= 7);
    }
    let ahead = random.under(3) * random.under(10);
    let mut bytes = random.bytes(ahead);
    bytes.extend(with_trailer(body, roles, seats, conflicts));
    bytes
}

/// Entries with ascending numbers and any sets, small enough to load at times.
fn ascending_image(random: &mut Random) -> Vec<u8> {
    let narrow = sparse_set(random, &(2..=63), 5);
    let roles: Vec<(u8, Set)> = members(narrow)
        .into_iter()
        .map(|role| (role, privilege_set(random, &FEW)))
        .collect();
    let all = roles.iter().fold(0, |all, (_, set)| all | set);
    let taken = sparse_set(random, &(0..=63), 3);
    let seats = members(taken)
        .into_iter()
        .map(|seat| (seat, part_of(random, narrow, 3)));
    let seats: Vec<(u8, Set)> = seats.filter(|(_, roles)| *roles != 0).collect();
    let (lower, higher) = (random.under(8) as u8, random.between(4, 12) as u8);
    let conflicts = if lower < higher {
        vec![(lower, higher)]
    } else {
        Vec::new()
    };
    let max = all | random.word() & random.word();
    Draft {
        max,
        roles,
        conflicts,
        seats,
    }
    .bytes()
}

fn behind(ahead: Vec<u8>, image: &[u8]) -> Vec<u8> {
    let mut bytes = ahead;
    bytes.extend(image);
    bytes
}

/// The image with each of its bytes changed in turn.
fn each_byte_changed(random: &mut Random, image: &[u8]) -> Vec<Vec<u8>> {
    let change = |place: usize, random: &mut Random| {
        let mut bytes = image.to_vec();
        let flip = if random.one_in(2) {
            1 << random.under(8)
        } else {
            random.byte() | 1
        };
        bytes[place] ^= flip;
        bytes
    };
    (0..image.len())
        .map(|place| change(place, random))
        .collect()
}

/// The image without its front, without its end, and behind other bytes.
fn cut_or_led(random: &mut Random, image: &[u8], count: usize) -> Vec<Vec<u8>> {
    let mut variants = Vec::new();
    for _ in 0..count {
        let cut = random.between(1, image.len());
        let ahead = random.under(60);
        let ahead = random.bytes(ahead);
        variants.push(match random.under(5) {
            0 => image[cut..].to_vec(),
            1 => image[..image.len() - cut].to_vec(),
            2 => image[1..].to_vec(),
            3 => behind(ahead, image),
            _ => behind(ahead, &image[cut..]),
        });
    }
    variants
}

/// A list of loads around one valid image.
pub fn image_list(random: &mut Random) -> Vec<Step> {
    let image = sound_image(random);
    let state = random_state(random);
    let mut images = each_byte_changed(random, &image);
    images.extend(cut_or_led(random, &image, 40));
    images.extend((0..60).map(|_| flawed_image(random, &state)));
    images.extend((0..40).map(|_| random_fitting(random)));
    images.extend((0..40).map(|_| ascending_image(random)));
    images.push(behind(state.save(), &image));
    random.shuffle(&mut images);
    let mut steps = vec![Step::Load(image)];
    for image in images {
        steps.push(Step::Load(image));
        if random.one_in(20) {
            steps.push(Step::Save);
        }
        if random.one_in(20) {
            steps.push(Step::Call(blind(random, &state)));
        }
    }
    steps
}

// ---- the shrinker ----

/// A shortest list found that still fails: first chunks are removed, halving
/// their length, then single items and, in a short list, pairs of items, until
/// none can go.
pub fn shrink<T: Clone>(list: &[T], still_fails: impl Fn(&[T]) -> bool) -> Vec<T> {
    let mut kept = list.to_vec();
    let mut chunk = kept.len() / 2;
    while chunk > 1 {
        remove_chunks(&mut kept, chunk, &still_fails);
        chunk /= 2;
    }
    while remove_chunks(&mut kept, 1, &still_fails) || remove_pair(&mut kept, &still_fails) {}
    kept
}

/// Lists above this length have too many pairs to try them all.
const LONGEST_FOR_PAIRS: usize = 60;

/// Removes two items at once, such as a role's adding and its removal; says
/// whether a pair went.
fn remove_pair<T: Clone>(kept: &mut Vec<T>, still_fails: &impl Fn(&[T]) -> bool) -> bool {
    if kept.len() > LONGEST_FOR_PAIRS {
        return false;
    }
    for first in 0..kept.len() {
        for second in first + 1..kept.len() {
            let without = [
                &kept[..first],
                &kept[first + 1..second],
                &kept[second + 1..],
            ]
            .concat();
            if still_fails(&without) {
                *kept = without;
                return true;
            }
        }
    }
    false
}

/// Removes each chunk without which the list still fails; says whether one
/// went.
fn remove_chunks<T: Clone>(
    kept: &mut Vec<T>,
    chunk: usize,
    still_fails: &impl Fn(&[T]) -> bool,
) -> bool {
    let mut start = 0;
    let mut removed = false;
    while start < kept.len() {
        let end = (start + chunk).min(kept.len());
        let without = [&kept[..start], &kept[end..]].concat();
        if still_fails(&without) {
            *kept = without;
            removed = true;
        } else {
            start = end;
        }
    }
    removed
}
