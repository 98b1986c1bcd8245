//! The proved keeper as a value: a block of words, and the exported functions on it.

use crate::exports::{
    keeper_active_roles, keeper_ask, keeper_ask_active, keeper_call, keeper_count_yes,
    keeper_fresh, keeper_import, keeper_is_excluded, keeper_load, keeper_may, keeper_may_active,
    keeper_save, WORDS,
};
use crate::side::Side;

#[derive(Clone)]
pub struct Kept([u64; WORDS]);

// Each call lends the block, and bytes that live as long as the call, with their lengths.
impl Side for Kept {
    fn fresh() -> Kept {
        let mut block = [0; WORDS];
        unsafe { keeper_fresh(block.as_mut_ptr(), WORDS) };
        Kept(block)
    }

    #[inline(always)]
    fn call(&mut self, record: &[u8]) -> u32 {
        unsafe { keeper_call(self.0.as_mut_ptr(), WORDS, record.as_ptr(), record.len()) }
    }

    #[inline(always)]
    fn may(&self, seat: u32, privilege: u32) -> bool {
        unsafe { keeper_may(self.0.as_ptr(), WORDS, seat, privilege) }
    }

    #[inline(always)]
    fn ask(&self, seat: u8, privilege: u8) -> u32 {
        unsafe { keeper_ask(self.0.as_ptr(), WORDS, seat, privilege) }
    }

    #[inline(always)]
    fn count_yes(&self, asks: &[u8]) -> u32 {
        let yeses = unsafe { keeper_count_yes(self.0.as_ptr(), WORDS, asks.as_ptr(), asks.len()) };
        yeses as u32
    }

    #[inline(always)]
    fn may_active(&self, seat: u32, privilege: u32) -> bool {
        unsafe { keeper_may_active(self.0.as_ptr(), WORDS, seat, privilege) }
    }

    #[inline(always)]
    fn ask_active(&self, seat: u8, privilege: u8) -> u32 {
        unsafe { keeper_ask_active(self.0.as_ptr(), WORDS, seat, privilege) }
    }

    fn active_roles(&self, seat: u8) -> u64 {
        unsafe { keeper_active_roles(self.0.as_ptr(), WORDS, seat) }
    }

    fn is_excluded(&self, a: u8, b: u8) -> bool {
        unsafe { keeper_is_excluded(self.0.as_ptr(), WORDS, a, b) }
    }

    #[inline(always)]
    fn load(&mut self, bytes: &[u8]) -> u32 {
        unsafe { keeper_load(self.0.as_mut_ptr(), WORDS, bytes.as_ptr(), bytes.len()) }
    }

    #[inline(always)]
    fn save(&self, buffer: &mut [u8]) -> u32 {
        unsafe { keeper_save(self.0.as_ptr(), WORDS, buffer.as_mut_ptr(), buffer.len()) }
    }

    #[inline(always)]
    fn import(&self, text: &[u8], tape: &mut [u8]) -> u64 {
        unsafe { keeper_import(text.as_ptr(), text.len(), tape.as_mut_ptr(), tape.len()) }
    }
}
