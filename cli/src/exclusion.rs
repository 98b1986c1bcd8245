//! Why a call is refused with 35: the two roles that exclude each other, and the path or the seat that brings them together.

use crate::why::list;
use keeper::{Call, Keeper, Set, NUMBERS};

/// What a call would leave that is refused with 35.
struct Left<'a> {
    keeper: &'a Keeper,
    call: &'a Call,
    /// The roles and the seats' roles. Nothing is excluded or active in it.
    graph: Keeper,
}

impl<'a> Left<'a> {
    /// What the call would leave: 35 is judged last, so a keeper without exclusions accepts the call.
    fn of(keeper: &'a Keeper, call: &'a Call) -> Option<Left<'a>> {
        let mut graph = Keeper::of_image(&keeper.save()).ok()?;
        if call.kind() <= 7 {
            graph.call(call).ok()?;
        }
        Some(Left {
            keeper,
            call,
            graph,
        })
    }

    /// The pairs, ascending: those of a role that is removed are gone, and an offered one is among them.
    fn pairs(&self) -> Vec<(u8, u8)> {
        let roles = self.graph.roles();
        let mut pairs = self.keeper.exclusions();
        pairs.retain(|(low, high)| roles.has(*low) && roles.has(*high));
        if let Call::Exclude { first, second } = *self.call {
            pairs.push((first.min(second), first.max(second)));
        }
        pairs.sort();
        pairs
    }

    /// Whether a role is another, or lies above it.
    fn reaches(&self, role: u8, low: u8) -> bool {
        role == low || self.graph.is_below(low, role)
    }

    /// The active roles of a seat: without those that are switched off, and with one that is offered.
    fn active(&self, seat: u8) -> Set {
        let assigned = self.graph.seat_roles(seat);
        let covered = |role: &u8| assigned.members().any(|high| self.reaches(high, *role));
        let active = self.keeper.active_roles(seat).members().filter(covered);
        let offered = match *self.call {
            Call::Activate { seat: given, role } if given == seat => Some(role),
            _ => None,
        };
        Set::of(&active.chain(offered).collect::<Vec<u8>>())
    }

    /// The active role of a seat by which it reaches a role, the role itself before others.
    fn by(&self, seat: u8, role: u8) -> Option<u8> {
        let active = self.active(seat);
        let itself = Some(role).filter(|role| active.has(*role));
        itself.or_else(|| active.members().find(|high| self.reaches(*high, role)))
    }

    /// The words for what a seat has active, and for what lies above or below: with 'would' where the call brings it about.
    fn verbs(&self) -> (&'static str, &'static str) {
        match self.call {
            Call::Exclude { .. } => ("has", "lies"),
            Call::Activate { .. } => ("would have", "lies"),
            _ => ("has", "would lie"),
        }
    }

    /// The path between two roles, in words.
    fn path(&self, low: u8, high: u8) -> Option<String> {
        let ways = [(low, high), (high, low)];
        let (junior, senior) = ways
            .into_iter()
            .find(|(junior, senior)| self.graph.is_below(*junior, *senior))?;
        let (_, lies) = self.verbs();
        let said = format!("role {junior} {lies} below role {senior}");
        Some(match self.between(junior, senior) {
            way if way.is_empty() => said,
            way => format!("{said} by way of {}", list("role", way.into_iter())),
        })
    }

    /// The roles on a path of drawn edges from a junior up to a senior, without these two.
    fn between(&self, junior: u8, senior: u8) -> Vec<u8> {
        let mut way = Vec::new();
        let mut at = senior;
        while let Some(next) = self.step(at, junior).filter(|next| *next != junior) {
            way.insert(0, next);
            at = next;
        }
        way
    }

    /// The immediate junior of a role through which a path goes down to another.
    fn step(&self, role: u8, junior: u8) -> Option<u8> {
        let mut juniors = self.graph.juniors(role).members();
        juniors.find(|next| self.reaches(*next, junior))
    }

    /// The lowest seat whose active roles reach both roles, in words.
    fn seat(&self, low: u8, high: u8) -> Option<String> {
        let reaching = |seat| Some((seat, self.by(seat, low)?, self.by(seat, high)?));
        let (seat, by_low, by_high) = (0..NUMBERS).find_map(reaching)?;
        let (has, lies) = self.verbs();
        let named = |by, role| match by == role {
            true => format!("role {role}"),
            false => format!("role {by}, which {lies} above role {role},"),
        };
        let what = if by_low == by_high {
            format!("role {by_low}, which {lies} above both,")
        } else if (by_low, by_high) == (low, high) {
            format!("roles {low} and {high}")
        } else {
            format!("{} and {}", named(by_low, low), named(by_high, high))
        };
        Some(format!("seat {seat} {has} {what} switched on"))
    }
}

/// The lowest pair that a call would bring together, and how.
pub fn reason(keeper: &Keeper, call: &Call) -> Option<String> {
    let left = Left::of(keeper, call)?;
    let together = |(low, high): (u8, u8)| {
        let how = left.path(low, high).or_else(|| left.seat(low, high))?;
        Some(match call {
            Call::Exclude { .. } => how,
            _ => format!("roles {low} and {high} exclude each other, and {how}"),
        })
    };
    left.pairs().into_iter().find_map(together)
}
