//! The archive's functions on slices of any length, with the answers in its own numbers.
//!
//! A slice goes over as its pointer and its length. The library reads and
//! writes inside it alone, keeps no pointer, and returns; that is proved of
//! the Rattle code, and the declarations below are what is trusted here.

extern "C" {
    fn keeper_fresh(block: *mut u64, words: usize) -> u32;
    fn keeper_call(block: *mut u64, words: usize, bytes: *const u8, length: usize) -> u32;
    fn keeper_save(block: *const u64, words: usize, buffer: *mut u8, length: usize) -> u32;
    fn keeper_load(block: *mut u64, words: usize, bytes: *const u8, length: usize) -> u32;
    fn keeper_image_length(bytes: *const u8, length: usize) -> u32;
    fn keeper_import(text: *const u8, text_length: usize, tape: *mut u8, tape_length: usize)
        -> u64;
    fn keeper_may(block: *const u64, words: usize, seat: u32, privilege: u32) -> bool;
    fn keeper_ask(block: *const u64, words: usize, seat: u8, privilege: u8) -> u32;
    fn keeper_may_active(block: *const u64, words: usize, seat: u32, privilege: u32) -> bool;
    fn keeper_ask_active(block: *const u64, words: usize, seat: u8, privilege: u8) -> u32;
    fn keeper_count_yes(block: *const u64, words: usize, asks: *const u8, length: usize) -> u64;
    fn keeper_edge_count(block: *const u64, words: usize) -> u32;
    fn keeper_effective(block: *const u64, words: usize, role: u8) -> u64;
    fn keeper_direct(block: *const u64, words: usize, role: u8) -> u64;
    fn keeper_juniors(block: *const u64, words: usize, role: u8) -> u64;
    fn keeper_seniors(block: *const u64, words: usize, role: u8) -> u64;
    fn keeper_is_below(block: *const u64, words: usize, junior: u8, senior: u8) -> bool;
    fn keeper_is_declared(block: *const u64, words: usize, first: u8, second: u8) -> bool;
    fn keeper_seat_roles(block: *const u64, words: usize, seat: u8) -> u64;
    fn keeper_seat_holds(block: *const u64, words: usize, seat: u8) -> u64;
    fn keeper_active_roles(block: *const u64, words: usize, seat: u8) -> u64;
    fn keeper_is_excluded(block: *const u64, words: usize, first: u8, second: u8) -> bool;
}

/// How many words a state takes.
pub const WORDS: usize = 321;
/// How many bytes the longest image has.
pub const LONGEST_IMAGE: usize = 5182;
/// The answer for a block of fewer words.
pub const NO_STATE: u32 = 65535;
/// What is added to the answer where there is no length.
pub const NOT_SAVED: u32 = 65536;
/// What is added to the row where there is no tape.
pub const NOT_IMPORTED: u64 = 1 << 63;

/// Makes the state a fresh one.
pub fn fresh(block: &mut [u64]) -> u32 {
    // SAFETY: the slice is valid for its length, and exclusive.
    unsafe { keeper_fresh(block.as_mut_ptr(), block.len()) }
}

/// Takes a record of any bytes.
pub fn call(block: &mut [u64], bytes: &[u8]) -> u32 {
    let (at, words) = (block.as_mut_ptr(), block.len());
    // SAFETY: both slices are valid for their lengths, and the block is exclusive.
    unsafe { keeper_call(at, words, bytes.as_ptr(), bytes.len()) }
}

/// Writes the image to the buffer's front.
pub fn save(block: &[u64], buffer: &mut [u8]) -> u32 {
    let (at, words) = (block.as_ptr(), block.len());
    // SAFETY: both slices are valid for their lengths, and the buffer is exclusive.
    unsafe { keeper_save(at, words, buffer.as_mut_ptr(), buffer.len()) }
}

/// Loads the image that ends the bytes.
pub fn load(block: &mut [u64], bytes: &[u8]) -> u32 {
    let (at, words) = (block.as_mut_ptr(), block.len());
    // SAFETY: both slices are valid for their lengths, and the block is exclusive.
    unsafe { keeper_load(at, words, bytes.as_ptr(), bytes.len()) }
}

/// Writes the tape of a sheet to the buffer's front.
pub fn import(text: &[u8], tape: &mut [u8]) -> u64 {
    let (at, length) = (text.as_ptr(), text.len());
    // SAFETY: both slices are valid for their lengths, and the buffer is exclusive.
    unsafe { keeper_import(at, length, tape.as_mut_ptr(), tape.len()) }
}

/// How long the image is that ends the bytes.
pub fn image_length(bytes: &[u8]) -> u32 {
    // SAFETY: the slice is valid for its length, here and in each reading below.
    unsafe { keeper_image_length(bytes.as_ptr(), bytes.len()) }
}

/// Whether a seat may use a privilege; false for every number above 63 and every short block.
pub fn may(block: &[u64], seat: u32, privilege: u32) -> bool {
    unsafe { keeper_may(block.as_ptr(), block.len(), seat, privilege) }
}

/// The answer to whether a seat may use a privilege.
pub fn ask(block: &[u64], seat: u8, privilege: u8) -> u32 {
    unsafe { keeper_ask(block.as_ptr(), block.len(), seat, privilege) }
}

/// Whether a seat may use a privilege by its active roles; false for every number above 63 and every short block.
pub fn may_active(block: &[u64], seat: u32, privilege: u32) -> bool {
    unsafe { keeper_may_active(block.as_ptr(), block.len(), seat, privilege) }
}

/// The answer to whether a seat may use a privilege by its active roles.
pub fn ask_active(block: &[u64], seat: u8, privilege: u8) -> u32 {
    unsafe { keeper_ask_active(block.as_ptr(), block.len(), seat, privilege) }
}

/// How many of the asks, two bytes each, are answered yes.
pub fn count_yes(block: &[u64], asks: &[u8]) -> u64 {
    let (at, words) = (block.as_ptr(), block.len());
    unsafe { keeper_count_yes(at, words, asks.as_ptr(), asks.len()) }
}

/// How many edges are drawn.
pub fn edge_count(block: &[u64]) -> u32 {
    unsafe { keeper_edge_count(block.as_ptr(), block.len()) }
}

/// The effective privileges of a role.
pub fn effective(block: &[u64], role: u8) -> u64 {
    unsafe { keeper_effective(block.as_ptr(), block.len(), role) }
}

/// The direct privileges of a role.
pub fn direct(block: &[u64], role: u8) -> u64 {
    unsafe { keeper_direct(block.as_ptr(), block.len(), role) }
}

/// The immediate juniors of a role.
pub fn juniors(block: &[u64], role: u8) -> u64 {
    unsafe { keeper_juniors(block.as_ptr(), block.len(), role) }
}

/// The immediate seniors of a role.
pub fn seniors(block: &[u64], role: u8) -> u64 {
    unsafe { keeper_seniors(block.as_ptr(), block.len(), role) }
}

/// Whether the first role lies below the second.
pub fn is_below(block: &[u64], junior: u8, senior: u8) -> bool {
    unsafe { keeper_is_below(block.as_ptr(), block.len(), junior, senior) }
}

/// Whether the conflict of two privileges is declared.
pub fn is_declared(block: &[u64], first: u8, second: u8) -> bool {
    unsafe { keeper_is_declared(block.as_ptr(), block.len(), first, second) }
}

/// The roles of a seat.
pub fn seat_roles(block: &[u64], seat: u8) -> u64 {
    unsafe { keeper_seat_roles(block.as_ptr(), block.len(), seat) }
}

/// What a seat holds.
pub fn seat_holds(block: &[u64], seat: u8) -> u64 {
    unsafe { keeper_seat_holds(block.as_ptr(), block.len(), seat) }
}

/// The active roles of a seat.
pub fn active_roles(block: &[u64], seat: u8) -> u64 {
    unsafe { keeper_active_roles(block.as_ptr(), block.len(), seat) }
}

/// Whether two roles exclude each other.
pub fn is_excluded(block: &[u64], first: u8, second: u8) -> bool {
    unsafe { keeper_is_excluded(block.as_ptr(), block.len(), first, second) }
}
