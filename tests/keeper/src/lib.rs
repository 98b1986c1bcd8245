//! The proved keeper and importer, by their Rust wrapper, as the drivers of `tests/reference` compare them.

use keeper::{import_into, Answer, Keeper, Refusal, NUMBERS};
use role_reference::compare::Keeper as Compared;
use role_reference::compare_sheets::Imported;
use role_reference::sheets::Refused;

/// The proved keeper's state.
#[derive(Clone, PartialEq, Eq, Debug)]
pub struct Kept(pub Keeper);

/// A refusal's number or 0, and the place, as the tape prints them.
pub fn printed(answer: Result<Answer, Refusal>) -> (u8, u8) {
    match answer {
        Ok(Answer::Yes) => (0, 1),
        Ok(Answer::Accepted | Answer::No) => (0, 0),
        Err(refusal) => refusal.parts(),
    }
}

/// A refusal's number or 0, and 1 for yes.
fn asked(answer: Result<bool, Refusal>) -> (u8, u8) {
    match answer {
        Ok(yes) => (0, yes.into()),
        Err(refusal) => refusal.parts(),
    }
}

impl Compared for Kept {
    fn fresh() -> Kept {
        Kept(Keeper::fresh())
    }

    fn call(&mut self, record: &[u8]) -> (u8, u8) {
        printed(self.0.record(record))
    }

    fn save(&self) -> Vec<u8> {
        self.0.save()
    }

    fn load(&mut self, bytes: &[u8]) -> u8 {
        let refused = self.0.load(bytes).err();
        refused.map_or(0, |refusal| refusal.number())
    }

    fn roles(&self) -> u64 {
        self.0.roles().0
    }

    fn set(&self, role: u8) -> u64 {
        self.0.effective(role).0
    }

    fn direct(&self, role: u8) -> u64 {
        self.0.direct(role).0
    }

    fn juniors(&self, role: u8) -> u64 {
        self.0.juniors(role).0
    }

    fn conflict(&self, privilege: u8) -> u64 {
        self.0.words()[65 + privilege as usize]
    }

    fn seat(&self, seat: u8) -> u64 {
        self.0.seat_roles(seat).0
    }

    fn edge_count(&self) -> u64 {
        self.0.edge_count().into()
    }

    fn ask(&self, seat: u8, privilege: u8) -> (u8, u8) {
        asked(self.0.ask(seat, privilege))
    }

    fn pairs(&self, role: u8) -> u64 {
        let excluded = |other: &u8| self.0.is_excluded(role, *other);
        let higher = (role + 1..NUMBERS).filter(excluded);
        higher.fold(0, |pairs, other| pairs | 1 << other)
    }

    fn active(&self, seat: u8) -> u64 {
        self.0.active_roles(seat).0
    }

    fn question(&self, seat: u8, privilege: u8) -> (u8, u8) {
        asked(self.0.ask_active(seat, privilege))
    }

    fn save_into(&self, buffer: &mut [u8]) -> (u8, usize) {
        match self.0.save_into(buffer) {
            Ok(length) => (0, length),
            Err(refusal) => (refusal.number(), 0),
        }
    }
}

/// The proved importer.
pub fn import(text: &[u8], tape: &mut [u8]) -> Imported {
    import_into(text, tape).map_err(|refusal| Refused {
        number: refusal.number(),
        place: refusal.place() as usize,
    })
}
