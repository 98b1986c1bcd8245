//! What both sides can do, with the answers in the numbers of the exported functions, so that one function times either.

use crate::plain::{import, Answer, NotImported, Plain};
use role_reference::generate::short;
use role_reference::reference::members;

pub trait Side: Clone {
    fn fresh() -> Self;
    fn call(&mut self, record: &[u8]) -> u32;
    fn may(&self, seat: u32, privilege: u32) -> bool;
    fn ask(&self, seat: u8, privilege: u8) -> u32;
    fn count_yes(&self, asks: &[u8]) -> u32;
    fn may_active(&self, seat: u32, privilege: u32) -> bool;
    fn ask_active(&self, seat: u8, privilege: u8) -> u32;
    fn active_roles(&self, seat: u8) -> u64;
    /// Whether two roles exclude each other, in either order.
    fn is_excluded(&self, a: u8, b: u8) -> bool;
    fn load(&mut self, bytes: &[u8]) -> u32;
    fn save(&self, buffer: &mut [u8]) -> u32;
    /// The tape of a sheet. No state is concerned.
    fn import(&self, text: &[u8], tape: &mut [u8]) -> u64;
}

/// What is added to the row where a text is not imported.
const NOT_IMPORTED: u64 = 1 << 63;

#[inline(always)]
fn code(answer: Answer) -> u32 {
    256 * answer.number as u32 + answer.place as u32
}

impl Side for Plain {
    fn fresh() -> Plain {
        Plain::fresh()
    }

    #[inline(always)]
    fn call(&mut self, record: &[u8]) -> u32 {
        code(Plain::call(self, record))
    }

    #[inline(always)]
    fn may(&self, seat: u32, privilege: u32) -> bool {
        Plain::may(self, seat, privilege)
    }

    #[inline(always)]
    fn ask(&self, seat: u8, privilege: u8) -> u32 {
        code(Plain::ask(self, seat, privilege))
    }

    #[inline(always)]
    fn count_yes(&self, asks: &[u8]) -> u32 {
        Plain::count_yes(self, asks)
    }

    #[inline(always)]
    fn may_active(&self, seat: u32, privilege: u32) -> bool {
        Plain::may_active(self, seat, privilege)
    }

    #[inline(always)]
    fn ask_active(&self, seat: u8, privilege: u8) -> u32 {
        code(Plain::ask_active(self, seat, privilege))
    }

    fn active_roles(&self, seat: u8) -> u64 {
        self.active(seat)
    }

    fn is_excluded(&self, a: u8, b: u8) -> bool {
        self.pairs(a.min(b)) >> a.max(b) & 1 == 1
    }

    #[inline(always)]
    fn load(&mut self, bytes: &[u8]) -> u32 {
        match Plain::load(self, bytes) {
            Ok(()) => 0,
            Err(number) => 256 * number as u32,
        }
    }

    #[inline(always)]
    fn save(&self, buffer: &mut [u8]) -> u32 {
        match Plain::save(self, buffer) {
            Ok(length) => length as u32,
            Err(number) => 65536 + 256 * number as u32,
        }
    }

    #[inline(always)]
    fn import(&self, text: &[u8], tape: &mut [u8]) -> u64 {
        match import(text, tape) {
            Ok(length) => length as u64,
            Err(NotImported::BadSheet { row }) => NOT_IMPORTED + row as u64,
            Err(NotImported::ShortTape) => NOT_IMPORTED,
        }
    }
}

/// A side with the state of an image.
pub fn loaded<S: Side>(image: &[u8]) -> S {
    let mut side = S::fresh();
    assert_eq!(side.load(image), 0, "the image loads");
    side
}

/// A side with the whole of a state: what the image holds, and then the pairs and the active roles, each given by its
/// call.
pub fn copied<S: Side>(state: &Plain) -> S {
    let mut side: S = loaded(&saved(state));
    let mut give = |kind: u8, a: u8, set: u64| {
        for b in members(set) {
            assert_eq!(side.call(&short(kind, a, b)), 0, "the state is sound");
        }
    };
    for role in 0..64 {
        give(13, role, state.pairs(role));
    }
    for seat in 0..64 {
        give(14, seat, state.active(seat));
    }
    side
}

/// What no image holds: whether two roles exclude each other, for any two, and the active roles of each seat.
pub fn unsaved<S: Side>(side: &S) -> (Vec<bool>, Vec<u64>) {
    let roles = (0..64).flat_map(|a| (0..64).map(move |b| (a, b)));
    let pairs = roles.map(|(a, b)| side.is_excluded(a, b)).collect();
    let active = (0..64).map(|seat| side.active_roles(seat)).collect();
    (pairs, active)
}

/// The image of a side's state.
pub fn saved<S: Side>(side: &S) -> Vec<u8> {
    let mut buffer = vec![0; crate::plain::LARGEST_IMAGE];
    let length = side.save(&mut buffer);
    buffer.truncate(length as usize);
    buffer
}
