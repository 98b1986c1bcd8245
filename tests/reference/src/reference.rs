//! The role keeper of document 01 and of items 1 and 3 of document 02, in its
//! plainest form: a map of roles to effective sets, an explicit list of edges,
//! closing by joining until nothing changes, redrawing by the definition.
//! Beside this saved state stand the pairs of roles that exclude each other
//! and the active roles of each seat, which no image holds.
//!
//! A set is a 64-bit word, member n at bit n. Refusals are judged in the order
//! of their numbers, except that 31 stands directly after 23.
//!
//! Choices where the documents are open:
//!
//! - The place of refusals 4, 22, 23 and 31 is byte 1 of the record as given,
//!   so "declare 5, 2" has place 5, and kinds 10, 11, 14 and 15 have the seat
//!   as place. Pairs of roles are unordered, so 22 in kind 13 meets a pair in
//!   either order.
//! - A privilege that a role "doesn't hold at all" (23 in kind 5) is one that
//!   isn't effective in it; so no call meets both 23 and 31.
//! - In kind 3 a b above 1 is refused with 1 whatever its size, never with 2.
//! - "Another named role" (21) is any named role that isn't the role to be
//!   added; so for kinds 3 to 7, 10, 11 and 13 to 15 all the named roles count.
//! - "Included" in 26 allows equality.
//! - In kind 1, refusal 25 has as its place the lowest junior for which some
//!   senior equals it or lies below it.
//! - "MaxRole included" in kind 3: MaxRole gets the privileges where it is an
//!   immediate senior of a; a role with ordinary seniors only gives to them.
//! - 24 looks at assigned roles alone, so a role that is merely active may be
//!   removed; it is then switched off, as no role reaches an absent one.
//! - 27 to 30 can't arise in kinds 9 and 11 to 15, since no state that the
//!   calls and images reach breaks them; they aren't judged there.
//! - 35 is of "any kind", so switching off and 35 follow every call that no
//!   other number refuses, on the state that the call would leave.
//! - Both roles of a pair are reached by an active set when one member reaches
//!   both, or one member the one and another member the other.
//! - The question looks at the seat first, then at the privilege, for 2.
//! - A trailer whose distance fits its sum but lies above 5,182 isn't refused
//!   with 6, as 6 names the sum alone. Such an image has too many entries to
//!   be strictly ascending and is refused with 7.
//! - A conflict of a privilege with itself in an image is refused with 7: its
//!   first number isn't the lower.
//! - Among 6, 7 and 8 the lowest number wins over the whole image.
//! - Each printed line of a tape ends with a line feed, the last one too.

use std::collections::{BTreeMap, BTreeSet};
use std::fmt::Write;

pub type Set = u64;

pub const MIN_ROLE: u8 = 0;
pub const MAX_ROLE: u8 = 1;
pub const RECORD_LENGTH: usize = 32;

type Edges = BTreeSet<(u8, u8)>;
type RoleSets = BTreeMap<u8, Set>;

// ---- sets ----

/// The set with one member, a number from 0 to 63.
pub fn one(member: u8) -> Set {
    assert!(member < 64);
    1 << member
}

pub fn has(set: Set, member: u8) -> bool {
    set & one(member) != 0
}

/// The members in ascending order.
pub fn members(set: Set) -> Vec<u8> {
    (0..64).filter(|member| has(set, *member)).collect()
}

fn included(inner: Set, outer: Set) -> bool {
    inner & !outer == 0
}

fn strictly_included(inner: Set, outer: Set) -> bool {
    included(inner, outer) && inner != outer
}

fn holds_pair(set: Set, pair: (u8, u8)) -> bool {
    has(set, pair.0) && has(set, pair.1)
}

fn lower_first(a: u8, b: u8) -> (u8, u8) {
    (a.min(b), a.max(b))
}

fn is_end(role: u8) -> bool {
    role == MIN_ROLE || role == MAX_ROLE
}

// ---- answers ----

/// Number 0 is an accepted call. The place of an accepted ask is 1 for yes and
/// 0 for no; the place of any other accepted call is 0.
#[derive(Clone, Copy, Debug, PartialEq, Eq)]
pub struct Answer {
    pub number: u8,
    pub place: u8,
}

fn refusal(number: u8, place: u8) -> Result<(), Answer> {
    Err(Answer { number, place })
}

/// Refuses with the given number at the place, where there is one.
fn refuse_at(number: u8, place: Option<u8>) -> Result<(), Answer> {
    match place {
        Some(place) => refusal(number, place),
        None => Ok(()),
    }
}

/// Refusal 2 for a number above 63, the seat before the privilege; else yes
/// or no.
fn asked(seat: u8, privilege: u8, yes: impl FnOnce() -> bool) -> Answer {
    let above = [seat, privilege].into_iter().find(|number| *number > 63);
    match above {
        Some(place) => Answer { number: 2, place },
        None => Answer {
            number: 0,
            place: u8::from(yes()),
        },
    }
}

// ---- records ----

struct Record {
    kind: u8,
    a: u8,
    b: u8,
    sets: [Set; 3],
}

fn word_at(bytes: &[u8], place: usize) -> u64 {
    let mut eight = [0; 8];
    eight.copy_from_slice(&bytes[place..place + 8]);
    u64::from_le_bytes(eight)
}

/// The record, or nothing where refusal 1 is due.
fn decode(bytes: &[u8]) -> Option<Record> {
    if bytes.len() != RECORD_LENGTH || bytes[3..8] != [0; 5] {
        return None;
    }
    let record = Record {
        kind: bytes[0],
        a: bytes[1],
        b: bytes[2],
        sets: [word_at(bytes, 8), word_at(bytes, 16), word_at(bytes, 24)],
    };
    fields_fit(&record).then_some(record)
}

/// The kind is known, and the fields it doesn't name are zero.
fn fields_fit(record: &Record) -> bool {
    match record.kind {
        1 => record.b == 0,
        2 => record.b == 0 && record.sets[1..] == [0; 2],
        3 => record.b <= 1 && record.sets == [0; 3],
        4..=15 => record.sets == [0; 3],
        _ => false,
    }
}

impl Record {
    fn juniors(&self) -> Set {
        self.sets[1]
    }

    fn seniors(&self) -> Set {
        self.sets[2]
    }

    /// The role, privilege and seat numbers in bytes 1 and 2, a first.
    fn numbers(&self) -> Vec<u8> {
        match self.kind {
            1..=3 => vec![self.a],
            _ => vec![self.a, self.b],
        }
    }

    /// The roles named: a, then b, then juniors, then seniors.
    fn roles(&self) -> Vec<u8> {
        match self.kind {
            1 => [
                vec![self.a],
                members(self.juniors()),
                members(self.seniors()),
            ]
            .concat(),
            2..=5 => vec![self.a],
            6 | 7 | 13 => vec![self.a, self.b],
            10 | 11 | 14 | 15 => vec![self.b],
            _ => Vec::new(),
        }
    }

    fn adds_role(&self) -> bool {
        self.kind == 1 || self.kind == 2
    }

    /// The named roles apart from one that is to be added.
    fn other_roles(&self) -> Vec<u8> {
        let mut roles = self.roles();
        if self.adds_role() {
            roles.remove(0);
        }
        roles
    }

    fn refuse_input(&self) -> Result<(), Answer> {
        refuse_at(2, self.numbers().into_iter().find(|number| *number > 63))?;
        refuse_at(3, self.roles().into_iter().find(|role| is_end(*role)))?;
        refuse_at(4, self.conflict_with_itself())?;
        refuse_at(5, self.role_beside_itself())
    }

    fn conflict_with_itself(&self) -> Option<u8> {
        let same = matches!(self.kind, 8 | 9) && self.a == self.b;
        same.then_some(self.a)
    }

    /// An edge of a role with itself, or a role that would exclude itself.
    fn role_beside_itself(&self) -> Option<u8> {
        let same = match self.kind {
            6 | 7 | 13 => self.a == self.b,
            1 => has(self.juniors() | self.seniors(), self.a),
            _ => false,
        };
        same.then_some(self.a)
    }
}

// ---- closing and redrawing ----

/// What an edit leaves: direct privileges and edges, not yet closed.
struct Edited {
    direct: RoleSets,
    edges: Edges,
}

impl Edited {
    fn join(&mut self, juniors: &[u8], seniors: &[u8]) {
        for junior in juniors {
            for senior in seniors {
                self.edges.insert((*junior, *senior));
            }
        }
    }

    fn give(&mut self, role: u8, privileges: Set) {
        *self.direct.entry(role).or_insert(0) |= privileges;
    }

    fn take(&mut self, role: u8, privileges: Set) {
        *self.direct.entry(role).or_insert(0) &= !privileges;
    }

    fn drop_role(&mut self, role: u8) {
        self.direct.remove(&role);
        self.edges.retain(|edge| edge.0 != role && edge.1 != role);
    }

    /// The effective sets: along each edge the senior is joined with the
    /// junior, until nothing changes.
    fn close(&self) -> RoleSets {
        let mut edges = self.edges.clone();
        edges.extend(ordinary(&self.direct).map(|(role, _)| (role, MAX_ROLE)));
        let mut sets = words_of(&self.direct);
        while join_once(&edges, &mut sets) {}
        self.direct
            .keys()
            .map(|role| (*role, sets[*role as usize]))
            .collect()
    }
}

/// Goes over all the edges once; says whether a set grew.
fn join_once(edges: &Edges, sets: &mut [Set; 64]) -> bool {
    let mut grew = false;
    for (junior, senior) in edges {
        let joined = sets[*senior as usize] | sets[*junior as usize];
        grew |= joined != sets[*senior as usize];
        sets[*senior as usize] = joined;
    }
    grew
}

fn ordinary(sets: &RoleSets) -> impl Iterator<Item = (u8, Set)> + '_ {
    sets.iter()
        .map(|(role, set)| (*role, *set))
        .filter(|(role, _)| !is_end(*role))
}

fn words_of(sets: &RoleSets) -> [Set; 64] {
    let mut words = [0; 64];
    for (role, set) in sets {
        words[*role as usize] = *set;
    }
    words
}

/// Whether one role lies below another, each with its effective set.
fn below(junior: (u8, Set), senior: (u8, Set)) -> bool {
    if junior.0 == senior.0 || junior.0 == MAX_ROLE || senior.0 == MIN_ROLE {
        return false;
    }
    if junior.0 == MIN_ROLE || senior.0 == MAX_ROLE {
        return true;
    }
    strictly_included(junior.1, senior.1)
}

fn draw_edges(effective: &RoleSets) -> Edges {
    let roles: Vec<(u8, Set)> = effective.iter().map(|(role, set)| (*role, *set)).collect();
    let between = |r, s| {
        roles
            .iter()
            .any(|third| below(r, *third) && below(*third, s))
    };
    let mut edges = Edges::new();
    for r in &roles {
        for s in &roles {
            if below(*r, *s) && !between(*r, *s) {
                edges.insert((r.0, s.0));
            }
        }
    }
    edges
}

fn draw_direct(effective: &RoleSets, edges: &Edges) -> RoleSets {
    let mut direct = effective.clone();
    for (junior, senior) in edges {
        let own = direct[senior] & !effective[junior];
        direct.insert(*senior, own);
    }
    direct
}

/// A drawn graph. The maps hold the end roles too.
#[derive(Clone, PartialEq)]
struct Graph {
    effective: RoleSets,
    direct: RoleSets,
    edges: Edges,
}

impl Graph {
    fn redraw(effective: RoleSets) -> Graph {
        let edges = draw_edges(&effective);
        let direct = draw_direct(&effective, &edges);
        Graph {
            effective,
            direct,
            edges,
        }
    }

    fn fresh() -> Graph {
        Graph::redraw(RoleSets::from([(MIN_ROLE, 0), (MAX_ROLE, 0)]))
    }

    fn present(&self, role: u8) -> bool {
        self.effective.contains_key(&role)
    }

    /// Whether a lies below b; both are present.
    fn below(&self, a: u8, b: u8) -> bool {
        below((a, self.effective[&a]), (b, self.effective[&b]))
    }

    fn juniors(&self, role: u8) -> Vec<u8> {
        self.edges
            .iter()
            .filter(|edge| edge.1 == role)
            .map(|edge| edge.0)
            .collect()
    }

    fn seniors(&self, role: u8) -> Vec<u8> {
        self.edges
            .iter()
            .filter(|edge| edge.0 == role)
            .map(|edge| edge.1)
            .collect()
    }

    /// Under each role present, the roles that it reaches: itself and those
    /// below it.
    fn reached(&self) -> [Set; 64] {
        let mut words = [0; 64];
        for senior in &self.effective {
            for junior in &self.effective {
                let (senior, junior) = ((*senior.0, *senior.1), (*junior.0, *junior.1));
                if senior.0 == junior.0 || below(junior, senior) {
                    words[senior.0 as usize] |= one(junior.0);
                }
            }
        }
        words
    }

    /// Under each role present, itself and the roles with a path to it. Each
    /// role starts with its own number, which the edges carry upward.
    fn joined(&self) -> [Set; 64] {
        let mut words = [0; 64];
        for role in self.effective.keys() {
            words[*role as usize] = one(*role);
        }
        while join_once(&self.edges, &mut words) {}
        words
    }

    /// The drawn graph after the edit of kinds 1 to 7.
    fn edit(&self, record: &Record) -> Edited {
        let mut edited = Edited {
            direct: self.direct.clone(),
            edges: self.edges.clone(),
        };
        let (a, b) = (record.a, record.b);
        match record.kind {
            1 => {
                edited.give(a, record.sets[0]);
                edited.join(&members(record.juniors()), &[a]);
                edited.join(&[a], &members(record.seniors()));
            }
            2 => edited.give(a, record.sets[0]),
            3 => self.edit_remove(&mut edited, a, b == 1),
            4 => edited.give(a, one(b)),
            5 => edited.take(a, one(b)),
            6 => edited.join(&[a], &[b]),
            _ => self.edit_remove_edge(&mut edited, a, b),
        }
        edited
    }

    fn edit_remove(&self, edited: &mut Edited, role: u8, passing_on: bool) {
        let seniors = self.seniors(role);
        edited.join(&self.juniors(role), &seniors);
        edited.drop_role(role);
        if passing_on {
            for senior in seniors {
                edited.give(senior, self.direct[&role]);
            }
        }
    }

    fn edit_remove_edge(&self, edited: &mut Edited, a: u8, b: u8) {
        edited.edges.remove(&(a, b));
        edited.join(&self.juniors(a), &[b]);
        edited.join(&[a], &self.seniors(b));
    }
}

// ---- what closed sets must not be ----

fn empty_role(effective: &RoleSets) -> Option<u8> {
    ordinary(effective)
        .find(|(_, set)| *set == 0)
        .map(|(role, _)| role)
}

fn twin_role(effective: &RoleSets) -> Option<u8> {
    let has_twin = |role, set| ordinary(effective).any(|other| other.0 != role && other.1 == set);
    ordinary(effective)
        .find(|(role, set)| has_twin(*role, *set))
        .map(|(role, _)| role)
}

fn role_with_pair(effective: &RoleSets, pairs: &BTreeSet<(u8, u8)>) -> Option<u8> {
    let holds = |set| pairs.iter().any(|pair| holds_pair(set, *pair));
    ordinary(effective)
        .find(|(_, set)| holds(*set))
        .map(|(role, _)| role)
}

type Seats = BTreeMap<u8, BTreeSet<u8>>;

/// The union of the effective sets of the roles.
fn union_of(roles: &BTreeSet<u8>, effective: &RoleSets) -> Set {
    roles.iter().fold(0, |union, role| union | effective[role])
}

fn seat_with_pair(seats: &Seats, effective: &RoleSets, pairs: &BTreeSet<(u8, u8)>) -> Option<u8> {
    let holds = |set| pairs.iter().any(|pair| holds_pair(set, *pair));
    let found = seats
        .iter()
        .find(|(_, roles)| holds(union_of(roles, effective)));
    found.map(|(seat, _)| *seat)
}

fn seat_has(seats: &Seats, seat: u8, role: u8) -> bool {
    seats.get(&seat).is_some_and(|roles| roles.contains(&role))
}

/// Takes the role from the seat; a seat without roles has no entry.
fn take_from_seat(seats: &mut Seats, seat: u8, role: u8) {
    let roles = seats.entry(seat).or_default();
    roles.remove(&role);
    if roles.is_empty() {
        seats.remove(&seat);
    }
}

fn set_of(roles: &BTreeSet<u8>) -> Set {
    roles.iter().fold(0, |set, role| set | one(*role))
}

fn set_of_seat(seats: &Seats, seat: u8) -> Set {
    seats.get(&seat).map_or(0, set_of)
}

fn sets_of_seats(seats: &Seats) -> [Set; 64] {
    let mut words = [0; 64];
    for (seat, roles) in seats {
        words[*seat as usize] = set_of(roles);
    }
    words
}

/// What the roles reach together, by the graph's words.
fn reached_by(roles: &BTreeSet<u8>, reached: &[Set; 64]) -> Set {
    roles
        .iter()
        .fold(0, |set, role| set | reached[*role as usize])
}

/// Under each lower number, the higher ones that are paired with it.
fn words_of_pairs(pairs: &BTreeSet<(u8, u8)>) -> [Set; 64] {
    let mut words = [0; 64];
    for (lower, higher) in pairs {
        words[*lower as usize] |= one(*higher);
    }
    words
}

/// The higher numbers that are paired with this lower one.
fn paired_with(pairs: &BTreeSet<(u8, u8)>, lower: u8) -> Set {
    let from_here = pairs.range((lower, 0)..=(lower, u8::MAX));
    from_here.fold(0, |set, pair| set | one(pair.1))
}

// ---- the keeper ----

/// How a pair breaks its exclusion.
#[derive(Clone, Copy, Debug, PartialEq, Eq)]
pub enum Clash {
    /// A path joins the two roles.
    Joined,
    /// One active role of a seat reaches both.
    ByOneMember,
    /// Two active roles of a seat reach one each.
    ByTwoMembers,
}

/// The saved state is the graph, the conflicts (lower privilege first) and the
/// seats that have roles; beside it stand the exclusions (lower role first)
/// and the seats that have active roles.
#[derive(Clone, PartialEq)]
pub struct Reference {
    graph: Graph,
    conflicts: BTreeSet<(u8, u8)>,
    seats: Seats,
    exclusions: BTreeSet<(u8, u8)>,
    active: Seats,
}

impl Reference {
    pub fn fresh() -> Reference {
        Reference {
            graph: Graph::fresh(),
            conflicts: BTreeSet::new(),
            seats: Seats::new(),
            exclusions: BTreeSet::new(),
            active: Seats::new(),
        }
    }

    /// Takes one record. A refused call changes nothing.
    pub fn call(&mut self, record: &[u8]) -> Answer {
        match self.judge(record) {
            Ok((next, place)) => {
                *self = next;
                Answer { number: 0, place }
            }
            Err(answer) => answer,
        }
    }

    /// The state after the record and the place of its acceptance, or the
    /// refusal.
    fn judge(&self, record: &[u8]) -> Result<(Reference, u8), Answer> {
        let (next, place) = self.before_35(record)?;
        refuse_at(35, next.first_clash().map(|(lower, _)| lower))?;
        Ok((next, place))
    }

    /// The same before 35 is judged, with the switch-offs made.
    fn before_35(&self, record: &[u8]) -> Result<(Reference, u8), Answer> {
        let malformed = Answer {
            number: 1,
            place: 0,
        };
        let record = decode(record).ok_or(malformed)?;
        let mut next = self.clone();
        let place = next.take(&record)?;
        next.switch_off();
        Ok((next, place))
    }

    /// How the pair clashes for which 35 refuses the record, and whether the
    /// call would switch an active role off; nothing where 35 isn't the answer.
    pub fn clash_of(&self, record: &[u8]) -> Option<(Clash, bool)> {
        let (next, _) = self.before_35(record).ok()?;
        let (_, clash) = next.first_clash()?;
        let kept = next.active();
        let mut seats = self.active().into_iter().zip(kept);
        Some((clash, seats.any(|(before, after)| before & !after != 0)))
    }

    /// The place of the accepted call, or the refusal. A refusal may leave
    /// changes behind; 35 isn't judged.
    fn take(&mut self, record: &Record) -> Result<u8, Answer> {
        record.refuse_input()?;
        self.refuse_state(record)?;
        match record.kind {
            1..=7 => self.take_edit(record)?,
            8 => self.declare(lower_first(record.a, record.b))?,
            9 => self.lift(lower_first(record.a, record.b)),
            10 => self.assign(record.a, record.b)?,
            11 => take_from_seat(&mut self.seats, record.a, record.b),
            12 => return Ok(u8::from(self.may_use(record.a, record.b))),
            13 => self.exclude(lower_first(record.a, record.b)),
            14 => self.activate(record.a, record.b)?,
            _ => take_from_seat(&mut self.active, record.a, record.b),
        }
        Ok(0)
    }

    // Refusals 20 to 25, with 31 directly after 23.

    fn refuse_state(&self, record: &Record) -> Result<(), Answer> {
        let others = record.other_roles();
        refuse_at(20, self.added_but_present(record))?;
        refuse_at(
            21,
            others.into_iter().find(|role| !self.graph.present(*role)),
        )?;
        refuse_at(22, self.already_so(record).then_some(record.a))?;
        refuse_at(23, self.not_so(record).then_some(record.a))?;
        refuse_at(31, self.only_inherited(record).then_some(record.a))?;
        refuse_at(24, self.seat_of_removed(record))?;
        refuse_at(25, self.circle(record))
    }

    fn added_but_present(&self, record: &Record) -> Option<u8> {
        let refused = record.adds_role() && self.graph.present(record.a);
        refused.then_some(record.a)
    }

    fn already_so(&self, record: &Record) -> bool {
        let (a, b) = (record.a, record.b);
        match record.kind {
            4 => has(self.effective(a), b),
            6 => self.graph.below(a, b),
            8 => self.conflicts.contains(&lower_first(a, b)),
            10 => seat_has(&self.seats, a, b),
            13 => self.exclusions.contains(&lower_first(a, b)),
            14 => seat_has(&self.active, a, b),
            _ => false,
        }
    }

    fn not_so(&self, record: &Record) -> bool {
        let (a, b) = (record.a, record.b);
        match record.kind {
            5 => !has(self.effective(a), b),
            7 => !self.graph.edges.contains(&(a, b)),
            9 => !self.conflicts.contains(&lower_first(a, b)),
            11 => !seat_has(&self.seats, a, b),
            15 => !seat_has(&self.active, a, b),
            _ => false,
        }
    }

    /// A withdrawal's privilege is effective but not direct.
    fn only_inherited(&self, record: &Record) -> bool {
        let (a, b) = (record.a, record.b);
        record.kind == 5 && has(self.effective(a), b) && !has(self.direct(a), b)
    }

    fn seat_of_removed(&self, record: &Record) -> Option<u8> {
        if record.kind != 3 {
            return None;
        }
        let found = self
            .seats
            .iter()
            .find(|(_, roles)| roles.contains(&record.a));
        found.map(|(seat, _)| *seat)
    }

    fn circle(&self, record: &Record) -> Option<u8> {
        match record.kind {
            6 => self.graph.below(record.b, record.a).then_some(record.a),
            1 => members(record.juniors())
                .into_iter()
                .find(|junior| self.some_senior_within(record.seniors(), *junior)),
            _ => None,
        }
    }

    /// Some of the seniors equals the junior or lies below it.
    fn some_senior_within(&self, seniors: Set, junior: u8) -> bool {
        let within = |senior| senior == junior || self.graph.below(senior, junior);
        members(seniors).into_iter().any(within)
    }

    // Kinds 1 to 7, with refusals 26 to 30.

    fn take_edit(&mut self, record: &Record) -> Result<(), Answer> {
        let effective = self.graph.edit(record).close();
        self.refuse_closed(record, &effective)?;
        self.graph = Graph::redraw(effective);
        if record.kind == 3 {
            self.drop_exclusions_of(record.a);
        }
        Ok(())
    }

    fn drop_exclusions_of(&mut self, role: u8) {
        self.exclusions
            .retain(|pair| pair.0 != role && pair.1 != role);
    }

    fn refuse_closed(&self, record: &Record, effective: &RoleSets) -> Result<(), Answer> {
        let still_included =
            record.kind == 7 && included(effective[&record.a], effective[&record.b]);
        refuse_at(26, still_included.then_some(record.b))?;
        refuse_at(27, empty_role(effective))?;
        refuse_at(28, twin_role(effective))?;
        refuse_at(29, role_with_pair(effective, &self.conflicts))?;
        refuse_at(30, seat_with_pair(&self.seats, effective, &self.conflicts))
    }

    // Kinds 8 to 10 and 12.

    fn declare(&mut self, pair: (u8, u8)) -> Result<(), Answer> {
        let offered = BTreeSet::from([pair]);
        refuse_at(29, role_with_pair(&self.graph.effective, &offered))?;
        refuse_at(
            30,
            seat_with_pair(&self.seats, &self.graph.effective, &offered),
        )?;
        self.conflicts.insert(pair);
        Ok(())
    }

    fn lift(&mut self, pair: (u8, u8)) {
        self.conflicts.remove(&pair);
    }

    fn assign(&mut self, seat: u8, role: u8) -> Result<(), Answer> {
        let mut seats = self.seats.clone();
        seats.entry(seat).or_default().insert(role);
        refuse_at(
            30,
            seat_with_pair(&seats, &self.graph.effective, &self.conflicts),
        )?;
        self.seats = seats;
        Ok(())
    }

    fn may_use(&self, seat: u8, privilege: u8) -> bool {
        let Some(roles) = self.seats.get(&seat) else {
            return false;
        };
        has(union_of(roles, &self.graph.effective), privilege)
    }

    // Kinds 13 and 14, with refusal 34.

    fn exclude(&mut self, pair: (u8, u8)) {
        self.exclusions.insert(pair);
    }

    fn activate(&mut self, seat: u8, role: u8) -> Result<(), Answer> {
        let reached = self.reached_by_assigned(seat, &self.graph.reached());
        refuse_at(34, (!has(reached, role)).then_some(seat))?;
        self.active.entry(seat).or_default().insert(role);
        Ok(())
    }

    /// The roles that some role assigned to the seat reaches.
    fn reached_by_assigned(&self, seat: u8, reached: &[Set; 64]) -> Set {
        let assigned = self.seats.get(&seat);
        assigned.map_or(0, |roles| reached_by(roles, reached))
    }

    // What follows a call: switching off, and 35.

    /// Takes out the active roles that no assigned role reaches.
    fn switch_off(&mut self) {
        if self.active.is_empty() {
            return;
        }
        let reached = self.graph.reached();
        let mut active = std::mem::take(&mut self.active);
        for (seat, roles) in &mut active {
            let kept = self.reached_by_assigned(*seat, &reached);
            roles.retain(|role| has(kept, *role));
        }
        active.retain(|_, roles| !roles.is_empty());
        self.active = active;
    }

    /// The lower role of the lowest pair that breaks its exclusion, and how.
    /// Pairs are kept ascending by lower role, then higher.
    fn first_clash(&self) -> Option<(u8, Clash)> {
        if self.exclusions.is_empty() {
            return None;
        }
        let (joined, reached) = (self.graph.joined(), self.graph.reached());
        let mut pairs = self.exclusions.iter();
        pairs.find_map(|pair| {
            let clash = self.clash_of_pair(*pair, &joined, &reached)?;
            Some((pair.0, clash))
        })
    }

    fn clash_of_pair(
        &self,
        pair: (u8, u8),
        joined: &[Set; 64],
        reached: &[Set; 64],
    ) -> Option<Clash> {
        let path = |junior: u8, senior: u8| has(joined[senior as usize], junior);
        let by_one = |role: &u8| holds_pair(reached[*role as usize], pair);
        let mut active = self.active.values();
        if path(pair.0, pair.1) || path(pair.1, pair.0) {
            return Some(Clash::Joined);
        }
        let roles = active.find(|roles| holds_pair(reached_by(roles, reached), pair))?;
        Some(match roles.iter().any(by_one) {
            true => Clash::ByOneMember,
            false => Clash::ByTwoMembers,
        })
    }

    // The asks that are no records.

    /// What kind 12 answers when it is given next. The state stays.
    pub fn ask(&self, seat: u8, privilege: u8) -> Answer {
        asked(seat, privilege, || self.may_use(seat, privilege))
    }

    /// Whether the seat's active set reaches a role with the privilege.
    pub fn question(&self, seat: u8, privilege: u8) -> Answer {
        asked(seat, privilege, || self.active_set_has(seat, privilege))
    }

    fn active_set_has(&self, seat: u8, privilege: u8) -> bool {
        let Some(active) = self.active.get(&seat) else {
            return false;
        };
        let reaches = |member: u8, role: u8| member == role || self.graph.below(role, member);
        let reached = |role: u8| active.iter().any(|member| reaches(*member, role));
        let mut roles = self.graph.effective.iter();
        roles.any(|(role, set)| has(*set, privilege) && reached(*role))
    }

    // The state in view.

    /// The drawn edges, each from junior to senior.
    pub fn edges(&self) -> &BTreeSet<(u8, u8)> {
        &self.graph.edges
    }

    /// The direct privileges; none for an absent role.
    pub fn direct(&self, role: u8) -> Set {
        self.graph.direct.get(&role).copied().unwrap_or(0)
    }

    /// The effective privileges; none for an absent role.
    pub fn effective(&self, role: u8) -> Set {
        self.graph.effective.get(&role).copied().unwrap_or(0)
    }

    /// The ordinary roles present.
    pub fn roles(&self) -> Set {
        ordinary(&self.graph.effective).fold(0, |roles, (role, _)| roles | one(role))
    }

    /// The effective set of each role; entry 0 is MinRole, entry 1 MaxRole.
    pub fn sets(&self) -> [Set; 64] {
        words_of(&self.graph.effective)
    }

    /// The direct privileges of each role.
    pub fn directs(&self) -> [Set; 64] {
        words_of(&self.graph.direct)
    }

    /// The immediate juniors of each role.
    pub fn juniors(&self) -> [Set; 64] {
        let mut words = [0; 64];
        for (junior, senior) in &self.graph.edges {
            words[*senior as usize] |= one(*junior);
        }
        words
    }

    /// Under each lower privilege, the higher ones that conflict with it.
    pub fn conflicts(&self) -> [Set; 64] {
        words_of_pairs(&self.conflicts)
    }

    /// The roles of each seat.
    pub fn seats(&self) -> [Set; 64] {
        sets_of_seats(&self.seats)
    }

    /// Under each lower role, the higher ones that it excludes.
    pub fn exclusions(&self) -> [Set; 64] {
        words_of_pairs(&self.exclusions)
    }

    /// The active roles of each seat.
    pub fn active(&self) -> [Set; 64] {
        sets_of_seats(&self.active)
    }

    /// The immediate juniors of one role.
    pub fn juniors_of(&self, role: u8) -> Set {
        self.graph
            .juniors(role)
            .into_iter()
            .fold(0, |set, junior| set | one(junior))
    }

    /// The higher privileges that conflict with this lower one.
    pub fn conflicts_of(&self, lower: u8) -> Set {
        paired_with(&self.conflicts, lower)
    }

    /// The roles of one seat.
    pub fn roles_of_seat(&self, seat: u8) -> Set {
        set_of_seat(&self.seats, seat)
    }

    /// The higher roles that this lower one excludes.
    pub fn exclusions_of(&self, lower: u8) -> Set {
        paired_with(&self.exclusions, lower)
    }

    /// The active roles of one seat.
    pub fn active_of_seat(&self, seat: u8) -> Set {
        set_of_seat(&self.active, seat)
    }

    // Images.

    /// Whether graph, conflicts and seats are the same; exclusions and active
    /// roles aren't saved and are left out.
    pub fn is_saved_alike(&self, other: &Reference) -> bool {
        self.graph == other.graph && self.conflicts == other.conflicts && self.seats == other.seats
    }

    /// The saved image.
    pub fn save(&self) -> Vec<u8> {
        let mut bytes = self.effective(MAX_ROLE).to_le_bytes().to_vec();
        for (role, set) in ordinary(&self.graph.effective) {
            put_entry(&mut bytes, role, set);
        }
        for (lower, higher) in &self.conflicts {
            bytes.extend([*lower, *higher]);
        }
        let seats = self.seats();
        for seat in self.seats.keys() {
            put_entry(&mut bytes, *seat, seats[*seat as usize]);
        }
        self.put_trailer(&mut bytes);
        bytes
    }

    fn put_trailer(&self, bytes: &mut Vec<u8>) {
        let distance = bytes.len() as u32 + 8;
        bytes.extend(distance.to_le_bytes());
        bytes.push(self.roles().count_ones() as u8);
        bytes.push(self.seats.len() as u8);
        bytes.extend((self.conflicts.len() as u16).to_le_bytes());
    }

    /// Saves into the front of a lent buffer and gives the length written, or
    /// refusal 9 with the buffer untouched.
    pub fn save_into(&self, buffer: &mut [u8]) -> Result<usize, u8> {
        let image = self.save();
        if buffer.len() < image.len() {
            return Err(9);
        }
        buffer[..image.len()].copy_from_slice(&image);
        Ok(image.len())
    }

    /// Loads the image that ends the bytes, which clears exclusions and active
    /// roles, or gives 6, 7 or 8 and stays whole.
    pub fn load(&mut self, bytes: &[u8]) -> Result<(), u8> {
        let image = Image::cut(bytes).ok_or(6)?;
        if !image.entries_fit() {
            return Err(7);
        }
        let loaded = image.into_state();
        if !loaded.is_sound() {
            return Err(8);
        }
        *self = loaded.draw();
        Ok(())
    }

    // Tapes.

    /// What benchtape prints for a whole tape, from a fresh graph.
    pub fn tape(bytes: &[u8]) -> String {
        let mut keeper = Reference::fresh();
        let mut text = String::new();
        let mut count = 0;
        for record in bytes.chunks(RECORD_LENGTH) {
            count += 1;
            let answer = keeper.call(record);
            writeln!(text, "{count} {} {}", answer.number, answer.place).expect("text grows");
        }
        writeln!(text, "end {count} {}", keeper.edges().len()).expect("text grows");
        text
    }
}

fn put_entry(bytes: &mut Vec<u8>, number: u8, set: Set) {
    bytes.push(number);
    bytes.extend(set.to_le_bytes());
}

/// The entries of an image as they stand in the bytes.
struct Image {
    max: Set,
    roles: Vec<(u8, Set)>,
    conflicts: Vec<(u8, u8)>,
    seats: Vec<(u8, Set)>,
}

/// The counts in a trailer.
struct Trailer {
    distance: usize,
    roles: usize,
    seats: usize,
    conflicts: usize,
}

impl Trailer {
    fn read(trailer: &[u8]) -> Trailer {
        let distance = [trailer[0], trailer[1], trailer[2], trailer[3]];
        Trailer {
            distance: u32::from_le_bytes(distance) as usize,
            roles: trailer[4] as usize,
            seats: trailer[5] as usize,
            conflicts: u16::from_le_bytes([trailer[6], trailer[7]]) as usize,
        }
    }

    fn sum(&self) -> usize {
        16 + 9 * self.roles + 9 * self.seats + 2 * self.conflicts
    }
}

fn read_entries(bytes: &[u8]) -> Vec<(u8, Set)> {
    bytes
        .chunks(9)
        .map(|entry| (entry[0], word_at(entry, 1)))
        .collect()
}

impl Image {
    /// The entries, or nothing where refusal 6 is due.
    fn cut(bytes: &[u8]) -> Option<Image> {
        if bytes.len() < 16 {
            return None;
        }
        let trailer = Trailer::read(&bytes[bytes.len() - 8..]);
        if trailer.distance != trailer.sum() || trailer.distance > bytes.len() {
            return None;
        }
        let image = &bytes[bytes.len() - trailer.distance..];
        let roles_end = 8 + 9 * trailer.roles;
        let conflicts_end = roles_end + 2 * trailer.conflicts;
        let seats_end = conflicts_end + 9 * trailer.seats;
        let pairs = &image[roles_end..conflicts_end];
        Some(Image {
            max: word_at(image, 0),
            roles: read_entries(&image[8..roles_end]),
            conflicts: pairs.chunks(2).map(|pair| (pair[0], pair[1])).collect(),
            seats: read_entries(&image[conflicts_end..seats_end]),
        })
    }

    /// False where refusal 7 is due.
    fn entries_fit(&self) -> bool {
        self.roles_fit() && self.conflicts_fit() && self.seats_fit()
    }

    fn roles_fit(&self) -> bool {
        let in_range = self.roles.iter().all(|(role, _)| (2..=63).contains(role));
        in_range && self.roles.windows(2).all(|two| two[0].0 < two[1].0)
    }

    fn conflicts_fit(&self) -> bool {
        let fits = |pair: &(u8, u8)| pair.0 < pair.1 && pair.1 <= 63;
        self.conflicts.iter().all(fits) && self.conflicts.windows(2).all(|two| two[0] < two[1])
    }

    fn seats_fit(&self) -> bool {
        let present = self
            .roles
            .iter()
            .fold(0, |roles, (role, _)| roles | one(*role));
        let fits =
            |(seat, roles): &(u8, Set)| *seat <= 63 && *roles != 0 && included(*roles, present);
        self.seats.iter().all(fits) && self.seats.windows(2).all(|two| two[0].0 < two[1].0)
    }

    fn into_state(self) -> Loaded {
        let mut effective: RoleSets = self.roles.into_iter().collect();
        effective.insert(MIN_ROLE, 0);
        effective.insert(MAX_ROLE, self.max);
        let seat_roles = |roles| members(roles).into_iter().collect();
        Loaded {
            effective,
            conflicts: self.conflicts.into_iter().collect(),
            seats: self
                .seats
                .into_iter()
                .map(|(seat, roles)| (seat, seat_roles(roles)))
                .collect(),
        }
    }
}

/// A state read from an image whose entries fit, not yet drawn.
struct Loaded {
    effective: RoleSets,
    conflicts: BTreeSet<(u8, u8)>,
    seats: Seats,
}

impl Loaded {
    /// False where refusal 8 is due.
    fn is_sound(&self) -> bool {
        let max = self.effective[&MAX_ROLE];
        empty_role(&self.effective).is_none()
            && twin_role(&self.effective).is_none()
            && role_with_pair(&self.effective, &self.conflicts).is_none()
            && seat_with_pair(&self.seats, &self.effective, &self.conflicts).is_none()
            && ordinary(&self.effective).all(|(_, set)| included(set, max))
    }

    fn draw(self) -> Reference {
        Reference {
            graph: Graph::redraw(self.effective),
            conflicts: self.conflicts,
            seats: self.seats,
            ..Reference::fresh()
        }
    }
}
