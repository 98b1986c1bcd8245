//! The TraceBench role keeper for Rust: may this seat use this privilege?
//!
//! A [`Keeper`] owns its whole state; nothing else is allocated but the image that [`Keeper::save`] gives, and the tape
//! that [`import`] makes of a permission sheet.
//! The functions behind it are proved; `docs/REFERENCE.md` has the model, the calls and the refusals.
//!
//! ```
//! use keeper::{Call, Keeper, Refusal, Set};
//!
//! let mut keeper = Keeper::fresh();
//! keeper.call(&Call::AddByPrivileges { role: 2, effective: Set::of(&[0, 1]) })?;
//! keeper.call(&Call::Assign { seat: 5, role: 2 })?;
//! assert!(keeper.may(5, 1));
//! assert!(!keeper.may(5, 2));
//!
//! let refused = keeper.call(&Call::Assign { seat: 5, role: 3 });
//! assert_eq!(refused, Err(Refusal::RoleAbsent { role: 3 }));
//! assert_eq!(refused.unwrap_err().to_string(), "there is no role 3");
//! # Ok::<(), Refusal>(())
//! ```

pub mod block;
mod call;
mod refusal;
mod set;
mod sheet;

pub use block::{LONGEST_IMAGE, WORDS};
pub use call::{Call, RECORD_LENGTH};
pub use refusal::Refusal;
pub use set::{Set, NUMBERS};
pub use sheet::{import, import_into, tape_room, SheetRefusal};

use block::NOT_SAVED;

/// The number of MinRole, which lies below all other roles.
pub const MIN_ROLE: u8 = 0;
/// The number of MaxRole, which lies above all other roles.
pub const MAX_ROLE: u8 = 1;

/// What a call that is not refused is answered.
#[derive(Clone, Copy, PartialEq, Eq, Hash, Debug)]
pub enum Answer {
    /// A call of every kind but 12.
    Accepted,
    /// An ask: the seat may use the privilege.
    Yes,
    /// An ask: the seat may not.
    No,
}

/// Nothing for the answer 0, or the refusal.
fn accepted(answer: u32) -> Result<(), Refusal> {
    match answer {
        0 => Ok(()),
        _ => Err(Refusal::of_answer(answer)),
    }
}

/// Yes for the answer 1, no for 0, or the refusal.
fn yes(answer: u32) -> Result<bool, Refusal> {
    match answer {
        1 => Ok(true),
        _ => accepted(answer).map(|()| false),
    }
}

/// The pairs of numbers for which a test holds, the lower first, ascending.
fn pairs(test: impl Fn(u8, u8) -> bool) -> Vec<(u8, u8)> {
    let pairs = (0..NUMBERS).flat_map(|lower| (lower..NUMBERS).map(move |higher| (lower, higher)));
    pairs
        .filter(|(lower, higher)| test(*lower, *higher))
        .collect()
}

/// The length, or the refusal that stands in its place.
fn length(answer: u32) -> Result<usize, Refusal> {
    match answer.checked_sub(NOT_SAVED) {
        None => Ok(answer as usize),
        Some(refusal) => Err(Refusal::of_answer(refusal)),
    }
}

/// How long the image is that ends the bytes; what precedes it is not read. Refused as loading is.
pub fn image_length(bytes: &[u8]) -> Result<usize, Refusal> {
    length(block::image_length(bytes))
}

/// A keeper: the roles with their privileges, the conflicts, and the roles of the seats; and the roles that exclude each
/// other and the active roles of the seats, which no image keeps.
#[derive(Clone, PartialEq, Eq, Debug)]
pub struct Keeper {
    block: [u64; WORDS],
}

impl Default for Keeper {
    fn default() -> Keeper {
        Keeper::fresh()
    }
}

impl Keeper {
    /// A fresh keeper: MinRole and MaxRole alone, no conflict, no seat with a role, and so nothing excluded or active.
    pub fn fresh() -> Keeper {
        let mut block = [0; WORDS];
        let answer = block::fresh(&mut block);
        assert_eq!(answer, 0, "a block of {WORDS} words holds a state");
        Keeper { block }
    }

    /// The keeper of the image that ends the bytes.
    pub fn of_image(bytes: &[u8]) -> Result<Keeper, Refusal> {
        let mut keeper = Keeper::fresh();
        keeper.load(bytes)?;
        Ok(keeper)
    }

    /// Takes a call.
    pub fn call(&mut self, call: &Call) -> Result<Answer, Refusal> {
        self.record(&call.record())
    }

    /// Takes a record of any bytes and any length.
    pub fn record(&mut self, record: &[u8]) -> Result<Answer, Refusal> {
        match (block::call(&mut self.block, record), record.first()) {
            (1, Some(12)) => Ok(Answer::Yes),
            (0, Some(12)) => Ok(Answer::No),
            (answer, _) => accepted(answer).map(|()| Answer::Accepted),
        }
    }

    /// Whether a seat may use a privilege, or the refusal of a number above 63. Its assigned roles decide, active or not.
    pub fn ask(&self, seat: u8, privilege: u8) -> Result<bool, Refusal> {
        yes(block::ask(&self.block, seat, privilege))
    }

    /// Whether a seat may use a privilege; false for every number above 63.
    pub fn may(&self, seat: u32, privilege: u32) -> bool {
        block::may(&self.block, seat, privilege)
    }

    /// Whether a seat may use a privilege by its active roles alone, or the refusal of a number above 63.
    pub fn ask_active(&self, seat: u8, privilege: u8) -> Result<bool, Refusal> {
        yes(block::ask_active(&self.block, seat, privilege))
    }

    /// Whether a seat may use a privilege by its active roles alone: one of them is, or lies above, a role that has it.
    /// False for every number above 63.
    ///
    /// ```
    /// use keeper::{Call, Keeper, Refusal, Set};
    ///
    /// let mut keeper = Keeper::fresh();
    /// keeper.call(&Call::AddByPrivileges { role: 2, effective: Set::of(&[0, 1]) })?;
    /// keeper.call(&Call::Assign { seat: 5, role: 2 })?;
    /// assert!(keeper.may(5, 1) && !keeper.may_active(5, 1));
    /// keeper.call(&Call::Activate { seat: 5, role: 2 })?;
    /// assert!(keeper.may_active(5, 1));
    /// # Ok::<(), Refusal>(())
    /// ```
    pub fn may_active(&self, seat: u32, privilege: u32) -> bool {
        block::may_active(&self.block, seat, privilege)
    }

    /// How many of the asks, a seat and a privilege each, are answered yes.
    pub fn count_yes(&self, asks: &[[u8; 2]]) -> u64 {
        block::count_yes(&self.block, &asks.concat())
    }

    /// Loads the image that ends the bytes: no roles then exclude each other, and none is active. A refused load keeps the state.
    pub fn load(&mut self, bytes: &[u8]) -> Result<(), Refusal> {
        accepted(block::load(&mut self.block, bytes))
    }

    /// Writes the image to the buffer's front and gives its length; touches nothing behind it, and nothing where it is refused.
    pub fn save_into(&self, buffer: &mut [u8]) -> Result<usize, Refusal> {
        length(block::save(&self.block, buffer))
    }

    /// The image. The roles that exclude each other and the active roles are not in it.
    pub fn save(&self) -> Vec<u8> {
        let mut image = vec![0; LONGEST_IMAGE];
        let length = self.save_into(&mut image);
        image.truncate(length.expect("every image fits"));
        image
    }

    /// The ordinary roles that are present.
    pub fn roles(&self) -> Set {
        Set(self.block[0])
    }

    /// How many edges are drawn.
    pub fn edge_count(&self) -> u32 {
        block::edge_count(&self.block)
    }

    /// The drawn edges, junior and senior, ascending by junior, then senior.
    pub fn edges(&self) -> Vec<(u8, u8)> {
        let from = |junior| {
            let seniors = self.seniors(junior).members();
            seniors.map(move |senior| (junior, senior))
        };
        (0..NUMBERS).flat_map(from).collect()
    }

    /// The effective privileges of a role.
    pub fn effective(&self, role: u8) -> Set {
        Set(block::effective(&self.block, role))
    }

    /// The direct privileges of a role: its effective ones that no immediate junior has.
    pub fn direct(&self, role: u8) -> Set {
        Set(block::direct(&self.block, role))
    }

    /// The immediate juniors of a role.
    pub fn juniors(&self, role: u8) -> Set {
        Set(block::juniors(&self.block, role))
    }

    /// The immediate seniors of a role.
    pub fn seniors(&self, role: u8) -> Set {
        Set(block::seniors(&self.block, role))
    }

    /// Whether the first role lies below the second.
    pub fn is_below(&self, junior: u8, senior: u8) -> bool {
        block::is_below(&self.block, junior, senior)
    }

    /// Whether the conflict of two privileges is declared.
    pub fn is_declared(&self, first: u8, second: u8) -> bool {
        block::is_declared(&self.block, first, second)
    }

    /// The declared conflicts, the lower privilege first, ascending.
    pub fn conflicts(&self) -> Vec<(u8, u8)> {
        pairs(|lower, higher| self.is_declared(lower, higher))
    }

    /// The roles of a seat.
    pub fn seat_roles(&self, seat: u8) -> Set {
        Set(block::seat_roles(&self.block, seat))
    }

    /// What a seat holds: the union of the effective privileges of its roles.
    pub fn seat_holds(&self, seat: u8) -> Set {
        Set(block::seat_holds(&self.block, seat))
    }

    /// The active roles of a seat.
    pub fn active_roles(&self, seat: u8) -> Set {
        Set(block::active_roles(&self.block, seat))
    }

    /// Whether two roles exclude each other, in either order.
    pub fn is_excluded(&self, first: u8, second: u8) -> bool {
        block::is_excluded(&self.block, first, second)
    }

    /// The pairs of roles that exclude each other, the lower role first, ascending.
    pub fn exclusions(&self) -> Vec<(u8, u8)> {
        pairs(|lower, higher| self.is_excluded(lower, higher))
    }

    /// The block's words, as include/keeper.h lays them out.
    pub fn words(&self) -> &[u64; WORDS] {
        &self.block
    }
}
