//! A keeper in two layers, which can have one fault of item 3: beneath, a
//! reference that sees kinds 1 to 12 alone; above it, words for pairs and
//! active roles. Without a fault it agrees with the whole reference.

use role_reference::compare::Keeper;
use role_reference::reference::{has, members, one, Reference, Set, RECORD_LENGTH};

pub const NO_FAULT: u8 = 0;
pub const JUDGES_BEFORE_SWITCHING: u8 = 1;
pub const KEEPS_PAIRS_OF_REMOVED: u8 = 2;
pub const SEES_EDGES_ALONE: u8 = 3;
pub const PLACES_THE_HIGHER: u8 = 4;
pub const SWITCHES_WHEN_REFUSED: u8 = 5;
pub const QUESTIONS_THE_ASSIGNED: u8 = 6;
pub const LOAD_KEEPS_PAIRS: u8 = 7;
pub const LOAD_KEEPS_ACTIVE: u8 = 8;
pub const REFUSED_LOAD_CLEARS: u8 = 9;
pub const JUNIORS_ARE_MEMBERS: u8 = 10;
pub const ACTIVATES_ASSIGNED_ALONE: u8 = 11;
pub const ASKS_THE_ACTIVE: u8 = 12;
pub const SEES_ONE_ORDER: u8 = 13;
pub const SEES_ONE_MEMBER: u8 = 14;
pub const NEVER_SWITCHES_OFF: u8 = 15;
pub const ACTIVE_ROLE_STAYS: u8 = 16;
pub const SEES_NO_PATH: u8 = 17;
pub const TAKES_THE_LAST_PAIR: u8 = 18;

type Taken = Result<(), (u8, u8)>;

/// Refuses with the number at the place, where the condition holds.
fn refuse(number: u8, place: u8, condition: bool) -> Taken {
    match condition {
        true => Err((number, place)),
        false => Ok(()),
    }
}

/// `pairs` has the higher roles under the lower one.
#[derive(Clone)]
pub struct Layered<const FAULT: u8> {
    base: Reference,
    pairs: [Set; 64],
    active: [Set; 64],
}

impl<const FAULT: u8> Layered<FAULT> {
    fn reaches(&self, senior: u8, role: u8) -> bool {
        let (above, below) = (self.base.effective(senior), self.base.effective(role));
        let present = has(self.base.roles(), senior) && has(self.base.roles(), role);
        present && (senior == role || below & !above == 0)
    }

    /// The ordinary roles that some of these reach.
    fn reached(&self, seniors: Set) -> Set {
        let reached = |role: &u8| members(seniors).iter().any(|s| self.reaches(*s, *role));
        let roles = members(self.base.roles()).into_iter().filter(reached);
        roles.fold(0, |set, role| set | one(role))
    }

    fn joined(&self, a: u8, b: u8) -> bool {
        match FAULT {
            SEES_EDGES_ALONE => {
                let edges = self.base.edges();
                edges.contains(&(a, b)) || edges.contains(&(b, a))
            }
            SEES_NO_PATH => false,
            _ => self.reaches(a, b) || self.reaches(b, a),
        }
    }

    /// One seat's active roles reach both.
    fn met(&self, a: u8, b: u8) -> bool {
        let both = |set: Set| has(set, a) && has(set, b);
        let by_one = |roles: Set| members(roles).iter().any(|r| both(self.reached(one(*r))));
        let mut seats = self.active.iter().filter(|roles| **roles != 0);
        match FAULT {
            SEES_ONE_MEMBER => seats.any(|roles| by_one(*roles)),
            _ => seats.any(|roles| both(self.reached(*roles))),
        }
    }

    /// The pairs that break, ascending.
    fn broken(&self) -> Vec<(u8, u8)> {
        let mut broken = Vec::new();
        for lower in 0..64 {
            let paired = members(self.pairs[lower as usize]).into_iter();
            let breaks =
                paired.filter(|other| self.joined(lower, *other) || self.met(lower, *other));
            broken.extend(breaks.map(|higher| (lower, higher)));
        }
        broken
    }

    fn judge(&self) -> Taken {
        let broken = self.broken();
        let pair = match FAULT {
            TAKES_THE_LAST_PAIR => broken.last(),
            _ => broken.first(),
        };
        match pair {
            Some((_, higher)) if FAULT == PLACES_THE_HIGHER => Err((35, *higher)),
            Some((lower, _)) => Err((35, *lower)),
            None => Ok(()),
        }
    }

    fn switch_off(&mut self) {
        if FAULT == NEVER_SWITCHES_OFF {
            return;
        }
        for seat in 0..64 {
            if self.active[seat] != 0 {
                self.active[seat] &= self.reached(self.base.roles_of_seat(seat as u8));
            }
        }
    }

    fn settle(&mut self) -> Taken {
        if FAULT == JUDGES_BEFORE_SWITCHING {
            self.judge()?;
            self.switch_off();
            return Ok(());
        }
        self.switch_off();
        self.judge()
    }

    /// Kinds 1 to 12.
    fn take_base(&mut self, record: &[u8]) -> Result<u8, (u8, u8)> {
        let anywhere = self.active.iter().fold(0, |all, roles| all | roles);
        let (number, place) = Keeper::call(&mut self.base, record);
        if number != 0 {
            return Err((number, place));
        }
        match (record[0], FAULT) {
            (3, ACTIVE_ROLE_STAYS) if has(anywhere, record[1]) => return Err((24, 0)),
            (3, KEEPS_PAIRS_OF_REMOVED) => {}
            (3, _) => self.drop_pairs(record[1]),
            (12, ASKS_THE_ACTIVE) => return Ok(Keeper::question(self, record[1], record[2]).1),
            _ => {}
        }
        self.settle()?;
        Ok(place)
    }

    fn drop_pairs(&mut self, role: u8) {
        self.pairs[role as usize] = 0;
        self.pairs.iter_mut().for_each(|set| *set &= !one(role));
    }

    /// Kinds 13 to 15, well formed.
    fn take_own(&mut self, [kind, a, b]: [u8; 3]) -> Taken {
        refuse(2, a, a > 63)?;
        refuse(2, b, b > 63)?;
        let roles: &[u8] = if kind == 13 { &[a, b] } else { &[b] };
        for role in roles {
            refuse(3, *role, *role < 2)?;
        }
        refuse(5, a, kind == 13 && a == b)?;
        for role in roles {
            refuse(21, *role, !has(self.base.roles(), *role))?;
        }
        match kind {
            13 => self.exclude(a, b),
            14 => self.activate(a, b),
            _ => self.deactivate(a, b),
        }
    }

    fn exclude(&mut self, a: u8, b: u8) -> Taken {
        let (lower, higher) = (a.min(b), a.max(b));
        let declared = has(self.pairs[lower as usize], higher);
        refuse(22, a, declared && (FAULT != SEES_ONE_ORDER || a < b))?;
        self.pairs[lower as usize] |= one(higher);
        self.judge()
    }

    fn activate(&mut self, seat: u8, role: u8) -> Taken {
        let assigned = self.base.roles_of_seat(seat);
        let reached = match FAULT {
            ACTIVATES_ASSIGNED_ALONE => assigned,
            _ => self.reached(assigned),
        };
        refuse(22, seat, has(self.active[seat as usize], role))?;
        refuse(34, seat, !has(reached, role))?;
        self.active[seat as usize] |= match FAULT {
            JUNIORS_ARE_MEMBERS => self.reached(one(role)),
            _ => one(role),
        };
        self.judge()
    }

    fn deactivate(&mut self, seat: u8, role: u8) -> Taken {
        refuse(23, seat, !has(self.active[seat as usize], role))?;
        self.active[seat as usize] &= !one(role);
        Ok(())
    }
}

impl<const FAULT: u8> Keeper for Layered<FAULT> {
    fn fresh() -> Self {
        Layered {
            base: Reference::fresh(),
            pairs: [0; 64],
            active: [0; 64],
        }
    }

    fn call(&mut self, record: &[u8]) -> (u8, u8) {
        let mut next = self.clone();
        let own = record.len() == RECORD_LENGTH && (13..=15).contains(&record[0]);
        let taken = match own && record[3..].iter().all(|byte| *byte == 0) {
            true => next.take_own([record[0], record[1], record[2]]).map(|()| 0),
            false if own => Err((1, 0)),
            false => next.take_base(record),
        };
        match taken {
            Ok(place) => {
                *self = next;
                (0, place)
            }
            Err(answer) => {
                if FAULT == SWITCHES_WHEN_REFUSED {
                    let kept = self.active.iter_mut().zip(next.active);
                    kept.for_each(|(active, next)| *active &= next);
                }
                answer
            }
        }
    }

    fn save(&self) -> Vec<u8> {
        self.base.save()
    }

    fn load(&mut self, bytes: &[u8]) -> u8 {
        let number = Keeper::load(&mut self.base, bytes);
        let clears = number == 0 || FAULT == REFUSED_LOAD_CLEARS;
        if clears && FAULT != LOAD_KEEPS_PAIRS {
            self.pairs = [0; 64];
        }
        if clears && FAULT != LOAD_KEEPS_ACTIVE {
            self.active = [0; 64];
        }
        number
    }

    fn roles(&self) -> u64 {
        self.base.roles()
    }

    fn set(&self, role: u8) -> u64 {
        Keeper::set(&self.base, role)
    }

    fn direct(&self, role: u8) -> u64 {
        self.base.direct(role)
    }

    fn juniors(&self, role: u8) -> u64 {
        Keeper::juniors(&self.base, role)
    }

    fn conflict(&self, privilege: u8) -> u64 {
        Keeper::conflict(&self.base, privilege)
    }

    fn seat(&self, seat: u8) -> u64 {
        Keeper::seat(&self.base, seat)
    }

    fn edge_count(&self) -> u64 {
        Keeper::edge_count(&self.base)
    }

    fn ask(&self, seat: u8, privilege: u8) -> (u8, u8) {
        match FAULT {
            ASKS_THE_ACTIVE => self.question(seat, privilege),
            _ => Keeper::ask(&self.base, seat, privilege),
        }
    }

    fn pairs(&self, role: u8) -> u64 {
        self.pairs[role as usize]
    }

    fn active(&self, seat: u8) -> u64 {
        self.active[seat as usize]
    }

    fn question(&self, seat: u8, privilege: u8) -> (u8, u8) {
        if FAULT == QUESTIONS_THE_ASSIGNED || seat > 63 || privilege > 63 {
            return Keeper::ask(&self.base, seat, privilege);
        }
        let roles = members(self.active[seat as usize]);
        let holds = |role: &u8| has(self.base.effective(*role), privilege);
        (0, u8::from(roles.iter().any(holds)))
    }
}
