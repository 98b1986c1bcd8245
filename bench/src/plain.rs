//! The keeper of documents 01 and 02 as one writes it in Rust without proofs: what the proved keeper is timed against.
//!
//! It goes the same way as the proved one, so that the table compares two programs and not two algorithms: the state is
//! what an image holds and, unsaved, the pairs of roles and the active roles; kinds 1 to 7 draw, edit, close and judge,
//! and closing does each role once. What only concerns the numbers and the sets at hand is refused before anything is
//! drawn, and a state without pairs and active roles is not judged by them.
//!
//! A set is a word, member n at bit n. Sound states alone are reached, since the fields are private: no two ordinary
//! roles have one set, so "included" is "below" for two roles, and "reaches" for a role and one that is or lies below it.

const ENDS: u64 = 0b11;
const MIN_ROLE: usize = 0;
const MAX_ROLE: usize = 1;

pub const RECORD_LENGTH: usize = 32;
pub const LARGEST_IMAGE: usize = 5182;

/// The refusal number, 0 for accepted, and the place; an accepted ask has place 1 for yes.
#[derive(Clone, Copy, Debug, PartialEq, Eq)]
pub struct Answer {
    pub number: u8,
    pub place: u8,
}

/// An accepted call's place, or the refusal.
type Outcome = Result<u8, Answer>;

fn refuse(number: u8, place: u8) -> Outcome {
    Err(Answer { number, place })
}

/// The members of a set, ascending.
#[derive(Clone, Copy)]
struct Members(u64);

impl Iterator for Members {
    type Item = usize;

    fn next(&mut self) -> Option<usize> {
        if self.0 == 0 {
            return None;
        }
        let member = self.0.trailing_zeros() as usize;
        self.0 &= self.0 - 1;
        Some(member)
    }
}

fn has(set: u64, member: u8) -> bool {
    set >> member & 1 == 1
}

fn included(inner: u64, outer: u64) -> bool {
    inner & !outer == 0
}

fn strictly_included(inner: u64, outer: u64) -> bool {
    included(inner, outer) && inner != outer
}

/// The lowest member of a set that is not empty, as a place.
fn lowest(set: u64) -> u8 {
    set.trailing_zeros() as u8
}

/// The union of the entries of a table.
fn union_of(table: &[u64; 64], keys: u64) -> u64 {
    Members(keys).fold(0, |union, key| union | table[key])
}

/// Whether every entry of a table is empty.
fn is_empty(table: &[u64; 64]) -> bool {
    table.iter().fold(0, |all, row| all | row) == 0
}

/// Whether a set holds both of a declared pair; a conflict stands under its lower privilege.
fn holds_pair(conflicts: &[u64; 64], set: u64) -> bool {
    Members(set).any(|lower| conflicts[lower] & set != 0)
}

fn word(bytes: &[u8], place: usize) -> u64 {
    let mut eight = [0; 8];
    eight.copy_from_slice(&bytes[place..place + 8]);
    u64::from_le_bytes(eight)
}

/// A drawn graph, by role number: the immediate juniors and the direct privileges.
struct Drawing {
    juniors: [u64; 64],
    directs: [u64; 64],
}

impl Drawing {
    /// The immediate seniors of a role among these.
    fn seniors(&self, among: u64, role: u8) -> u64 {
        let is_senior = |senior: &usize| has(self.juniors[*senior], role);
        Members(among)
            .filter(is_senior)
            .fold(0, |set, senior| set | 1 << senior)
    }
}

/// Closing under way: the sets found, and the roles that have theirs.
struct Closing<'a> {
    drawing: &'a Drawing,
    sets: [u64; 64],
    done: u64,
}

impl Closing<'_> {
    fn close_role(&mut self, role: usize) -> u64 {
        if self.done >> role & 1 == 0 {
            let gathered = self.gather(self.drawing.juniors[role]);
            self.sets[role] = self.drawing.directs[role] | gathered;
            self.done |= 1 << role;
        }
        self.sets[role]
    }

    fn gather(&mut self, juniors: u64) -> u64 {
        Members(juniors).fold(0, |set, junior| set | self.close_role(junior))
    }
}

/// The effective sets of a drawing; every ordinary role counts as a junior of MaxRole.
fn close(roles: u64, drawing: &Drawing) -> [u64; 64] {
    let mut closing = Closing {
        drawing,
        sets: [0; 64],
        done: 1,
    };
    let all = closing.gather(roles);
    closing.sets[MAX_ROLE] = drawing.directs[MAX_ROLE] | all;
    closing.sets
}

#[derive(Clone, PartialEq, Eq)]
pub struct Plain {
    /// The ordinary roles present.
    roles: u64,
    /// By role number, the effective set; 0 for an absent role.
    sets: [u64; 64],
    /// By the lower privilege, the higher ones.
    conflicts: [u64; 64],
    /// By seat number, the roles.
    seats: [u64; 64],
    /// By the lower role, the higher ones that it excludes and that exclude it. Not saved.
    pairs: [u64; 64],
    /// By seat number, the active roles. Not saved.
    active: [u64; 64],
}

impl Default for Plain {
    fn default() -> Plain {
        Plain::fresh()
    }
}

// ---- the calls

impl Plain {
    pub fn fresh() -> Plain {
        Plain {
            roles: 0,
            sets: [0; 64],
            conflicts: [0; 64],
            seats: [0; 64],
            pairs: [0; 64],
            active: [0; 64],
        }
    }

    /// Takes a record of any bytes. It is never inlined, as a call of the archive is not.
    #[inline(never)]
    pub fn call(&mut self, record: &[u8]) -> Answer {
        match self.take(record) {
            Ok(place) => Answer { number: 0, place },
            Err(refusal) => refusal,
        }
    }

    fn take(&mut self, record: &[u8]) -> Outcome {
        if record.len() != RECORD_LENGTH {
            return refuse(1, 0);
        }
        let head = word(record, 0);
        let (kind, a, b) = (head as u8, (head >> 8) as u8, (head >> 16) as u8);
        let (x, y, z) = (word(record, 8), word(record, 16), word(record, 24));
        let fits = match kind {
            1 => b == 0,
            2 => b == 0 && y | z == 0,
            3 => b <= 1 && x | y | z == 0,
            4..=15 => x | y | z == 0,
            _ => false,
        };
        if !fits || head >> 24 != 0 {
            return refuse(1, 0);
        }
        match kind {
            1 => self.add_by_place(a, x, y, z),
            2 => self.add_by_privileges(a, x),
            3 => self.remove(a, b == 1),
            4 => self.grant(a, b),
            5 => self.withdraw(a, b),
            6 => self.add_edge(a, b),
            7 => self.remove_edge(a, b),
            8 => self.declare(a, b),
            9 => self.lift(a, b),
            10 => self.assign(a, b),
            11 => self.unassign(a, b),
            12 => self.answer(a, b),
            13 => self.exclude(a, b),
            14 => self.activate(a, b),
            _ => self.deactivate(a, b),
        }
    }

    /// Whether kind 12 answers yes; a number that no byte holds is answered no.
    #[inline(never)]
    pub fn may(&self, seat: u32, privilege: u32) -> bool {
        match (u8::try_from(seat), u8::try_from(privilege)) {
            (Ok(seat), Ok(privilege)) => self.answer(seat, privilege) == Ok(1),
            _ => false,
        }
    }

    /// Kind 12 without a record.
    #[inline(never)]
    pub fn ask(&self, seat: u8, privilege: u8) -> Answer {
        match self.answer(seat, privilege) {
            Ok(place) => Answer { number: 0, place },
            Err(refusal) => refusal,
        }
    }

    /// Whether the question is answered yes; a number that no byte holds is answered no.
    #[inline(never)]
    pub fn may_active(&self, seat: u32, privilege: u32) -> bool {
        match (u8::try_from(seat), u8::try_from(privilege)) {
            (Ok(seat), Ok(privilege)) => self.answer_active(seat, privilege) == Ok(1),
            _ => false,
        }
    }

    /// The question: whether the seat's active roles reach one with the privilege.
    #[inline(never)]
    pub fn ask_active(&self, seat: u8, privilege: u8) -> Answer {
        match self.answer_active(seat, privilege) {
            Ok(place) => Answer { number: 0, place },
            Err(refusal) => refusal,
        }
    }

    /// How many of these asks, a seat and a privilege each, are answered yes.
    #[inline(never)]
    pub fn count_yes(&self, asks: &[u8]) -> u32 {
        let yes = |ask: &[u8]| self.answer(ask[0], ask[1]) == Ok(1);
        asks.chunks_exact(2).filter(|ask| yes(ask)).count() as u32
    }

    fn add_by_place(&mut self, a: u8, own: u64, juniors: u64, seniors: u64) -> Outcome {
        let named = juniors | seniors;
        if a > 63 {
            return refuse(2, a);
        }
        if a < 2 {
            return refuse(3, a);
        }
        if named & ENDS != 0 {
            let first = if juniors & ENDS != 0 {
                juniors
            } else {
                seniors
            };
            return refuse(3, lowest(first & ENDS));
        }
        if has(named, a) {
            return refuse(5, a);
        }
        if has(self.roles, a) {
            return refuse(20, a);
        }
        let absent = !self.roles;
        if named & absent != 0 {
            let first = if juniors & absent != 0 {
                juniors
            } else {
                seniors
            };
            return refuse(21, lowest(first & absent));
        }
        for junior in Members(juniors) {
            let within = |senior: usize| included(self.sets[senior], self.sets[junior]);
            if Members(seniors).any(within) {
                return refuse(25, junior as u8);
            }
        }
        let mut drawing = self.draw();
        drawing.directs[a as usize] = own;
        drawing.juniors[a as usize] = juniors;
        for senior in Members(seniors) {
            drawing.juniors[senior] |= 1 << a;
        }
        self.settle(self.roles | 1 << a, &drawing, None)
    }

    fn add_by_privileges(&mut self, a: u8, own: u64) -> Outcome {
        if a > 63 {
            return refuse(2, a);
        }
        if a < 2 {
            return refuse(3, a);
        }
        if has(self.roles, a) {
            return refuse(20, a);
        }
        let mut drawing = self.draw();
        drawing.directs[a as usize] = own;
        self.settle(self.roles | 1 << a, &drawing, None)
    }

    fn remove(&mut self, a: u8, keep: bool) -> Outcome {
        self.refuse_role(a)?;
        if let Some(seat) = self.seats.iter().position(|roles| has(*roles, a)) {
            return refuse(24, seat as u8);
        }
        let mut drawing = self.draw();
        let juniors = drawing.juniors[a as usize];
        let handed = if keep { drawing.directs[a as usize] } else { 0 };
        for senior in Members(drawing.seniors(self.roles | 1 << MAX_ROLE, a)) {
            drawing.juniors[senior] = (drawing.juniors[senior] & !(1 << a)) | juniors;
            drawing.directs[senior] |= handed;
        }
        self.settle(self.roles & !(1 << a), &drawing, None)?;
        self.drop_pairs(a);
        Ok(0)
    }

    fn grant(&mut self, a: u8, b: u8) -> Outcome {
        self.refuse_role_and_privilege(a, b)?;
        if has(self.sets[a as usize], b) {
            return refuse(22, a);
        }
        let mut drawing = self.draw();
        drawing.directs[a as usize] |= 1 << b;
        self.settle(self.roles, &drawing, None)
    }

    fn withdraw(&mut self, a: u8, b: u8) -> Outcome {
        self.refuse_role_and_privilege(a, b)?;
        let own = self.sets[a as usize];
        if !has(own, b) {
            return refuse(23, a);
        }
        let inherited =
            |role: usize| has(self.sets[role], b) && strictly_included(self.sets[role], own);
        if Members(self.roles).any(inherited) {
            return refuse(31, a);
        }
        let mut drawing = self.draw();
        drawing.directs[a as usize] &= !(1 << b);
        self.settle(self.roles, &drawing, None)
    }

    fn add_edge(&mut self, a: u8, b: u8) -> Outcome {
        self.refuse_two_roles(a, b)?;
        let (junior, senior) = (self.sets[a as usize], self.sets[b as usize]);
        if included(junior, senior) {
            return refuse(22, a);
        }
        if included(senior, junior) {
            return refuse(25, a);
        }
        let mut drawing = self.draw();
        drawing.juniors[b as usize] |= 1 << a;
        self.settle(self.roles, &drawing, None)
    }

    fn remove_edge(&mut self, a: u8, b: u8) -> Outcome {
        self.refuse_two_roles(a, b)?;
        let (junior, senior) = (self.sets[a as usize], self.sets[b as usize]);
        let between = |role: usize| {
            strictly_included(junior, self.sets[role]) && strictly_included(self.sets[role], senior)
        };
        if !included(junior, senior) || Members(self.roles).any(between) {
            return refuse(23, a);
        }
        let mut drawing = self.draw();
        let joined = drawing.juniors[a as usize];
        for above in Members(drawing.seniors(self.roles | 1 << MAX_ROLE, b)) {
            drawing.juniors[above] |= 1 << a;
        }
        drawing.juniors[b as usize] = (drawing.juniors[b as usize] & !(1 << a)) | joined;
        self.settle(self.roles, &drawing, Some((a, b)))
    }

    fn declare(&mut self, a: u8, b: u8) -> Outcome {
        refuse_pair(a, b)?;
        let (lower, higher) = (a.min(b), a.max(b));
        if has(self.conflicts[lower as usize], higher) {
            return refuse(22, a);
        }
        let pair = 1 << a | 1 << b;
        let offered = |set: u64| included(pair, set);
        if let Some(role) = Members(self.roles).find(|role| offered(self.sets[*role])) {
            return refuse(29, role as u8);
        }
        let held = |roles: &u64| offered(union_of(&self.sets, *roles));
        if let Some(seat) = self.seats.iter().position(held) {
            return refuse(30, seat as u8);
        }
        self.conflicts[lower as usize] |= 1 << higher;
        Ok(0)
    }

    fn lift(&mut self, a: u8, b: u8) -> Outcome {
        refuse_pair(a, b)?;
        let (lower, higher) = (a.min(b), a.max(b));
        if !has(self.conflicts[lower as usize], higher) {
            return refuse(23, a);
        }
        self.conflicts[lower as usize] &= !(1 << higher);
        Ok(0)
    }

    /// Refusal 30 names the lowest seat that would hold a pair, whatever the state.
    fn assign(&mut self, a: u8, b: u8) -> Outcome {
        self.refuse_seat_and_role(a, b)?;
        let roles = self.seats[a as usize] | 1 << b;
        if roles == self.seats[a as usize] {
            return refuse(22, a);
        }
        let held = |seat: usize| {
            let roles = if seat == a as usize {
                roles
            } else {
                self.seats[seat]
            };
            holds_pair(&self.conflicts, union_of(&self.sets, roles))
        };
        if let Some(seat) = (0..64).find(|seat| held(*seat)) {
            return refuse(30, seat as u8);
        }
        self.seats[a as usize] = roles;
        Ok(0)
    }

    fn unassign(&mut self, a: u8, b: u8) -> Outcome {
        self.refuse_seat_and_role(a, b)?;
        if !has(self.seats[a as usize], b) {
            return refuse(23, a);
        }
        let roles = self.seats[a as usize] & !(1 << b);
        self.seats[a as usize] = roles;
        for role in Members(self.active[a as usize]) {
            if !self.reaches(roles, role) {
                self.active[a as usize] &= !(1 << role);
            }
        }
        Ok(0)
    }

    fn answer(&self, a: u8, b: u8) -> Outcome {
        refuse_numbers(a, b)?;
        let held = |role: usize| has(self.sets[role], b);
        Ok(Members(self.seats[a as usize]).any(held) as u8)
    }

    /// Refusal 35 names the lowest pair, whatever the state.
    fn exclude(&mut self, a: u8, b: u8) -> Outcome {
        self.refuse_two_roles(a, b)?;
        let (lower, higher) = (a.min(b) as usize, a.max(b));
        if has(self.pairs[lower], higher) {
            return refuse(22, a);
        }
        let mut pairs = self.pairs;
        pairs[lower] |= 1 << higher;
        let under = under_each(self.roles, &self.sets);
        refuse_exclusions(&under, &pairs, &self.active)?;
        self.pairs[lower] |= 1 << higher;
        Ok(0)
    }

    fn activate(&mut self, a: u8, b: u8) -> Outcome {
        self.refuse_seat_and_role(a, b)?;
        if has(self.active[a as usize], b) {
            return refuse(22, a);
        }
        if !self.reaches(self.seats[a as usize], b as usize) {
            return refuse(34, a);
        }
        if !is_empty(&self.pairs) {
            let mut active = self.active;
            active[a as usize] |= 1 << b;
            let under = under_each(self.roles, &self.sets);
            refuse_exclusions(&under, &self.pairs, &active)?;
        }
        self.active[a as usize] |= 1 << b;
        Ok(0)
    }

    fn deactivate(&mut self, a: u8, b: u8) -> Outcome {
        self.refuse_seat_and_role(a, b)?;
        if !has(self.active[a as usize], b) {
            return refuse(23, a);
        }
        self.active[a as usize] &= !(1 << b);
        Ok(0)
    }

    /// A role has what the roles below it have, MinRole below all and every ordinary role below MaxRole, whatever the
    /// state.
    fn answer_active(&self, a: u8, b: u8) -> Outcome {
        refuse_numbers(a, b)?;
        let active = self.active[a as usize];
        let mut held = union_of(&self.sets, active);
        if active & (self.roles | 1 << MAX_ROLE) != 0 {
            held |= self.sets[MIN_ROLE];
        }
        if active >> MAX_ROLE & 1 == 1 {
            held |= union_of(&self.sets, self.roles);
        }
        Ok(has(held, b) as u8)
    }

    /// Whether one of the roles reaches the role.
    fn reaches(&self, roles: u64, role: usize) -> bool {
        Members(roles).any(|senior| included(self.sets[role], self.sets[senior]))
    }

    /// Takes out the pairs of a role.
    fn drop_pairs(&mut self, role: u8) {
        self.pairs[role as usize] = 0;
        for row in &mut self.pairs {
            *row &= !(1 << role);
        }
    }
}

// ---- refusals

/// Refusal 2 of two numbers.
fn refuse_numbers(a: u8, b: u8) -> Outcome {
    if a > 63 {
        return refuse(2, a);
    }
    if b > 63 {
        return refuse(2, b);
    }
    Ok(0)
}

fn refuse_pair(a: u8, b: u8) -> Outcome {
    refuse_numbers(a, b)?;
    if a == b {
        return refuse(4, a);
    }
    Ok(0)
}

impl Plain {
    /// Refusals 2, 3 and 21 of one ordinary role.
    fn refuse_role(&self, a: u8) -> Outcome {
        if a > 63 {
            return refuse(2, a);
        }
        if a < 2 {
            return refuse(3, a);
        }
        if !has(self.roles, a) {
            return refuse(21, a);
        }
        Ok(0)
    }

    fn refuse_role_and_privilege(&self, a: u8, b: u8) -> Outcome {
        if a <= 63 && b > 63 {
            return refuse(2, b);
        }
        self.refuse_role(a)
    }

    fn refuse_seat_and_role(&self, a: u8, b: u8) -> Outcome {
        if a > 63 {
            return refuse(2, a);
        }
        self.refuse_role(b)
    }

    fn refuse_two_roles(&self, a: u8, b: u8) -> Outcome {
        refuse_numbers(a, b)?;
        if a < 2 {
            return refuse(3, a);
        }
        if b < 2 {
            return refuse(3, b);
        }
        if a == b {
            return refuse(5, a);
        }
        self.refuse_role(a)?;
        self.refuse_role(b)
    }
}

/// Refusals 27 and 28.
fn refuse_sets(roles: u64, sets: &[u64; 64]) -> Outcome {
    if let Some(role) = Members(roles).find(|role| sets[*role] == 0) {
        return refuse(27, role as u8);
    }
    let mut rest = Members(roles);
    while let Some(role) = rest.next() {
        if rest.clone().any(|other| sets[other] == sets[role]) {
            return refuse(28, role as u8);
        }
    }
    Ok(0)
}

/// Refusals 29 and 30.
fn refuse_pairs(roles: u64, sets: &[u64; 64], conflicts: &[u64; 64], seats: &[u64; 64]) -> Outcome {
    if let Some(role) = Members(roles).find(|role| holds_pair(conflicts, sets[*role])) {
        return refuse(29, role as u8);
    }
    let held = |roles: &u64| holds_pair(conflicts, union_of(sets, *roles));
    if let Some(seat) = seats.iter().position(held) {
        return refuse(30, seat as u8);
    }
    Ok(0)
}

/// Refusal 35: a pair of which one lies below the other, or both of which the active roles of one seat reach.
fn refuse_exclusions(under: &[u64; 64], pairs: &[u64; 64], active: &[u64; 64]) -> Outcome {
    let reached = active.map(|roles| reached(under, roles));
    let offends = |lower: usize| {
        let higher = pairs[lower];
        higher != 0 && (is_joined(under, lower, higher) || is_reached(&reached, lower, higher))
    };
    if let Some(lower) = (0..64).find(|lower| offends(*lower)) {
        return refuse(35, lower as u8);
    }
    Ok(0)
}

/// Whether a role lies below or above one of these.
fn is_joined(under: &[u64; 64], role: usize, others: u64) -> bool {
    under[role] & others != 0 || Members(others).any(|other| under[other] >> role & 1 == 1)
}

/// Whether some seat reaches a role and one of these.
fn is_reached(reached: &[u64; 64], role: usize, others: u64) -> bool {
    let both = |roles: &u64| roles >> role & 1 == 1 && roles & others != 0;
    reached.iter().any(both)
}

// ---- drawing and closing

/// By role number, the roles below.
fn under_each(roles: u64, sets: &[u64; 64]) -> [u64; 64] {
    let mut under = [0; 64];
    for role in Members(roles) {
        under[role] = under_set(roles, sets, sets[role]);
    }
    under[MAX_ROLE] = roles | 1;
    under
}

/// The roles below one with this set.
fn under_set(roles: u64, sets: &[u64; 64], top: u64) -> u64 {
    Members(roles).fold(1, |under, role| {
        under | (strictly_included(sets[role], top) as u64) << role
    })
}

/// The roles that these roles reach.
fn reached(under: &[u64; 64], roles: u64) -> u64 {
    roles | union_of(under, roles)
}

impl Plain {
    fn draw(&self) -> Drawing {
        let lower = under_each(self.roles, &self.sets);
        let mut drawing = Drawing {
            juniors: [0; 64],
            directs: [0; 64],
        };
        for role in Members(self.roles | 1 << MAX_ROLE) {
            let juniors = lower[role] & !union_of(&lower, lower[role]);
            drawing.juniors[role] = juniors;
            drawing.directs[role] = self.sets[role] & !union_of(&self.sets, juniors);
        }
        drawing
    }

    /// Closes an edited drawing and keeps its sets, or refuses them. Kind 7 gives its edge for refusal 26.
    fn settle(&mut self, roles: u64, drawing: &Drawing, removed: Option<(u8, u8)>) -> Outcome {
        let sets = close(roles, drawing);
        if let Some((a, b)) = removed {
            if included(sets[a as usize], sets[b as usize]) {
                return refuse(26, b);
            }
        }
        refuse_sets(roles, &sets)?;
        refuse_pairs(roles, &sets, &self.conflicts, &self.seats)?;
        if !is_empty(&self.pairs) || !is_empty(&self.active) {
            self.settle_active(roles, &sets)?;
        }
        self.roles = roles;
        self.sets = sets;
        Ok(0)
    }

    /// Switches off the active roles that no assigned role reaches among these roles, or refuses what is left. The pairs
    /// of a role that is removed may still be there: it is joined to none, and no seat reaches it.
    fn settle_active(&mut self, roles: u64, sets: &[u64; 64]) -> Outcome {
        let under = under_each(roles, sets);
        let mut active = self.active;
        for (left, assigned) in active.iter_mut().zip(&self.seats) {
            *left &= reached(&under, *assigned);
        }
        refuse_exclusions(&under, &self.pairs, &active)?;
        self.active = active;
        Ok(0)
    }
}

// ---- what the state shows

impl Plain {
    pub fn roles(&self) -> u64 {
        self.roles
    }

    pub fn set(&self, role: u8) -> u64 {
        self.sets[role as usize]
    }

    pub fn direct(&self, role: u8) -> u64 {
        self.draw().directs[role as usize]
    }

    pub fn juniors(&self, role: u8) -> u64 {
        self.draw().juniors[role as usize]
    }

    pub fn conflict(&self, lower: u8) -> u64 {
        self.conflicts[lower as usize]
    }

    pub fn seat(&self, seat: u8) -> u64 {
        self.seats[seat as usize]
    }

    /// Under the lower role, the higher ones of its pairs.
    pub fn pairs(&self, lower: u8) -> u64 {
        self.pairs[lower as usize]
    }

    pub fn active(&self, seat: u8) -> u64 {
        self.active[seat as usize]
    }

    pub fn edge_count(&self) -> u64 {
        let juniors = self.draw().juniors;
        juniors.iter().map(|set| set.count_ones() as u64).sum()
    }
}

// ---- images

/// The front of a buffer under way.
struct Writer<'a> {
    buffer: &'a mut [u8],
    at: usize,
}

impl Writer<'_> {
    fn put(&mut self, bytes: &[u8]) {
        self.buffer[self.at..self.at + bytes.len()].copy_from_slice(bytes);
        self.at += bytes.len();
    }

    fn put_table(&mut self, keys: u64, table: &[u64; 64]) {
        for key in Members(keys) {
            self.put(&[key as u8]);
            self.put(&table[key].to_le_bytes());
        }
    }
}

/// Fills a table from entries of a number and a set, strictly ascending from `low` on, and gives the numbers.
fn read_table(
    entries: &[u8],
    low: u8,
    fits: impl Fn(u64) -> bool,
    table: &mut [u64; 64],
) -> Option<u64> {
    let (mut keys, mut floor) = (0, low);
    for entry in entries.chunks_exact(9) {
        let (key, set) = (entry[0], word(entry, 1));
        if key < floor || key > 63 || !fits(set) {
            return None;
        }
        table[key as usize] = set;
        keys |= 1 << key;
        floor = key + 1;
    }
    Some(keys)
}

fn read_conflicts(pairs: &[u8], conflicts: &mut [u64; 64]) -> Option<()> {
    let mut before = None;
    for pair in pairs.chunks_exact(2) {
        let (lower, higher) = (pair[0], pair[1]);
        if lower >= higher || higher > 63 || before >= Some((lower, higher)) {
            return None;
        }
        conflicts[lower as usize] |= 1 << higher;
        before = Some((lower, higher));
    }
    Some(())
}

impl Plain {
    /// Saves into the front of a lent buffer and gives the length, or refusal 9.
    #[inline(never)]
    pub fn save(&self, buffer: &mut [u8]) -> Result<usize, u8> {
        let seats = (0..64).fold(0, |set, seat| {
            set | ((self.seats[seat] != 0) as u64) << seat
        });
        let conflicts: u32 = self.conflicts.iter().map(|row| row.count_ones()).sum();
        let (r, s) = (self.roles.count_ones(), seats.count_ones());
        let length = 16 + 9 * r + 9 * s + 2 * conflicts;
        if buffer.len() < length as usize {
            return Err(9);
        }
        let mut writer = Writer { buffer, at: 0 };
        writer.put(&self.sets[MAX_ROLE].to_le_bytes());
        writer.put_table(self.roles, &self.sets);
        for (lower, row) in self.conflicts.iter().enumerate() {
            for higher in Members(*row) {
                writer.put(&[lower as u8, higher as u8]);
            }
        }
        writer.put_table(seats, &self.seats);
        writer.put(&length.to_le_bytes());
        writer.put(&[r as u8, s as u8]);
        writer.put(&(conflicts as u16).to_le_bytes());
        Ok(length as usize)
    }

    /// Loads the image that ends the bytes and clears what is not saved; else 6, 7 or 8, and the state stays.
    #[inline(never)]
    pub fn load(&mut self, bytes: &[u8]) -> Result<(), u8> {
        if bytes.len() < 16 {
            return Err(6);
        }
        let trailer = word(bytes, bytes.len() - 8);
        let distance = trailer as u32 as usize;
        let r = (trailer >> 32) as u8 as usize;
        let s = (trailer >> 40) as u8 as usize;
        let c = (trailer >> 48) as usize;
        if distance != 16 + 9 * r + 9 * s + 2 * c || distance > bytes.len() {
            return Err(6);
        }
        let image = &bytes[bytes.len() - distance..];
        let (max, rest) = image.split_at(8);
        let (roles, rest) = rest.split_at(9 * r);
        let (conflicts, rest) = rest.split_at(2 * c);
        let mut found = Plain::fresh();
        found.sets[MAX_ROLE] = word(max, 0);
        found.read(roles, conflicts, &rest[..9 * s]).ok_or(7u8)?;
        if !found.is_sound() {
            return Err(8);
        }
        *self = found;
        Ok(())
    }

    /// Puts entries into a fresh state; nothing where refusal 7 is due.
    fn read(&mut self, roles: &[u8], conflicts: &[u8], seats: &[u8]) -> Option<()> {
        self.roles = read_table(roles, 2, |_| true, &mut self.sets)?;
        read_conflicts(conflicts, &mut self.conflicts)?;
        let present = self.roles;
        let fits = |set| set != 0 && included(set, present);
        read_table(seats, 0, fits, &mut self.seats)?;
        Some(())
    }

    /// Whether none of refusal 8's conditions holds.
    fn is_sound(&self) -> bool {
        let max = self.sets[MAX_ROLE];
        refuse_sets(self.roles, &self.sets).is_ok()
            && refuse_pairs(self.roles, &self.sets, &self.conflicts, &self.seats).is_ok()
            && included(union_of(&self.sets, self.roles), max)
    }
}

// ---- sheets

/// Why a text is not imported: its first row that is wrong, or a buffer that is shorter than its tape.
#[derive(Clone, Copy, Debug, PartialEq, Eq)]
pub enum NotImported {
    BadSheet { row: usize },
    ShortTape,
}

/// A text under way.
struct Reader<'a> {
    text: &'a [u8],
    at: usize,
}

impl Reader<'_> {
    fn is_done(&self) -> bool {
        self.at == self.text.len()
    }

    fn peek(&self) -> Option<u8> {
        self.text.get(self.at).copied()
    }

    /// Goes past this byte where it comes next.
    fn passes(&mut self, byte: u8) -> bool {
        if self.peek() != Some(byte) {
            return false;
        }
        self.at += 1;
        true
    }

    /// Goes past a line end where one comes next.
    fn passes_line_end(&mut self) -> bool {
        if !self.text[self.at..].starts_with(b"\r\n") {
            return false;
        }
        self.at += 2;
        true
    }

    fn digit(&mut self) -> Option<u8> {
        let digit = self.peek()?.wrapping_sub(b'0');
        if digit > 9 {
            return None;
        }
        self.at += 1;
        Some(digit)
    }

    /// A field's content, plain or between quotes.
    fn field<T>(&mut self, content: impl FnOnce(&mut Self) -> Option<T>) -> Option<T> {
        let quoted = self.passes(b'"');
        let found = content(self)?;
        if quoted && !self.passes(b'"') {
            return None;
        }
        Some(found)
    }

    /// A number from 0 to 63 without leading zeros.
    fn number(&mut self) -> Option<u8> {
        self.field(|reader| {
            let first = reader.digit()?;
            match reader.digit() {
                None => Some(first),
                Some(second) if (1..=6).contains(&first) => {
                    Some(10 * first + second).filter(|number| *number < 64)
                }
                Some(_) => None,
            }
        })
    }

    fn mark(&mut self) -> Option<u64> {
        self.field(|reader| reader.digit().filter(|mark| *mark <= 1).map(u64::from))
    }

    /// The privileges of the heading. They strictly ascend, so the set has their order.
    fn heading(&mut self) -> Option<u64> {
        self.field(|_| Some(()))?;
        let mut privileges = 0;
        while self.passes(b',') {
            let privilege = self.number()?;
            if privileges >> privilege != 0 {
                return None;
            }
            privileges |= 1 << privilege;
        }
        if privileges == 0 {
            return None;
        }
        Some(privileges)
    }

    /// A role and its set.
    fn row(&mut self, privileges: u64) -> Option<(u8, u64)> {
        let role = self.number()?;
        let mut set = 0;
        for privilege in Members(privileges) {
            if !self.passes(b',') {
                return None;
            }
            set |= self.mark()? << privilege;
        }
        Some((role, set))
    }
}

/// How many rows stand behind the heading, or the first row that is wrong.
fn judge(text: &[u8]) -> Result<usize, NotImported> {
    let bad = |row| NotImported::BadSheet { row };
    let mut reader = Reader { text, at: 0 };
    let privileges = reader.heading().ok_or(bad(1))?;
    let mut row = 1;
    while !reader.is_done() {
        if !reader.passes_line_end() {
            return Err(bad(row));
        }
        if !reader.is_done() {
            row += 1;
            reader.row(privileges).ok_or(bad(row))?;
        }
    }
    Ok(row - 1)
}

/// Writes the records of rows that are judged.
fn write(text: &[u8], tape: &mut [u8]) -> Option<()> {
    let mut reader = Reader { text, at: 0 };
    let privileges = reader.heading()?;
    for record in tape.chunks_exact_mut(RECORD_LENGTH) {
        reader.passes_line_end();
        let (role, set) = reader.row(privileges)?;
        record.fill(0);
        record[..2].copy_from_slice(&[2, role]);
        record[8..16].copy_from_slice(&set.to_le_bytes());
    }
    Some(())
}

/// Writes the tape of a sheet to the front of a lent buffer and gives its length; else nothing is touched.
#[inline(never)]
pub fn import(text: &[u8], tape: &mut [u8]) -> Result<usize, NotImported> {
    let length = judge(text)? * RECORD_LENGTH;
    let front = tape.get_mut(..length).ok_or(NotImported::ShortTape)?;
    write(text, front).expect("the rows are judged");
    Ok(length)
}
