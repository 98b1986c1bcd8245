//! The C functions of `crates/keeper`, as `tools/static-library` puts them into `target/staticlib/libkeeper.a`.
//!
//! A slice is a pointer and a length in elements. A block is 321 words: the roles, then 64 words each for the sets, the
//! conflicts, the seats, the pairs of roles and the active roles. An answer is 0 for accepted and for a no, 1 for a yes,
//! and 256 times the number plus the place for a refusal; saving answers with the length, or 65536 plus that. Importing
//! has no block, and answers with the length, or 2 to the 63 plus the row, which is 0 for a tape without room.

pub const WORDS: usize = 321;

extern "C" {
    pub fn keeper_fresh(block: *mut u64, words: usize) -> u32;
    pub fn keeper_call(block: *mut u64, words: usize, bytes: *const u8, length: usize) -> u32;
    pub fn keeper_may(block: *const u64, words: usize, seat: u32, privilege: u32) -> bool;
    pub fn keeper_ask(block: *const u64, words: usize, seat: u8, privilege: u8) -> u32;
    pub fn keeper_count_yes(block: *const u64, words: usize, asks: *const u8, length: usize)
        -> u64;
    pub fn keeper_may_active(block: *const u64, words: usize, seat: u32, privilege: u32) -> bool;
    pub fn keeper_ask_active(block: *const u64, words: usize, seat: u8, privilege: u8) -> u32;
    pub fn keeper_active_roles(block: *const u64, words: usize, seat: u8) -> u64;
    pub fn keeper_is_excluded(block: *const u64, words: usize, first: u8, second: u8) -> bool;
    pub fn keeper_load(block: *mut u64, words: usize, bytes: *const u8, length: usize) -> u32;
    pub fn keeper_save(block: *const u64, words: usize, buffer: *mut u8, length: usize) -> u32;
    pub fn keeper_import(
        text: *const u8,
        text_length: usize,
        tape: *mut u8,
        tape_length: usize,
    ) -> u64;
}
