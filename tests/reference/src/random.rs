//! A small deterministic generator (splitmix64). The same seed gives the same
//! numbers everywhere.

/// The seed used when the environment names none.
pub const DEFAULT_SEED: u64 = 0x0001_5EED;

pub struct Random {
    state: u64,
}

impl Random {
    pub fn new(seed: u64) -> Random {
        Random { state: seed }
    }

    /// The next 64 bits.
    pub fn word(&mut self) -> u64 {
        self.state = self.state.wrapping_add(0x9E37_79B9_7F4A_7C15);
        let mut mixed = self.state;
        mixed = (mixed ^ (mixed >> 30)).wrapping_mul(0xBF58_476D_1CE4_E5B9);
        mixed = (mixed ^ (mixed >> 27)).wrapping_mul(0x94D0_49BB_1331_11EB);
        mixed ^ (mixed >> 31)
    }

    /// A number from 0 to `limit` - 1; `limit` is at least 1.
    pub fn under(&mut self, limit: usize) -> usize {
        (self.word() % limit as u64) as usize
    }

    /// A number from `low` to `high`, both included.
    pub fn between(&mut self, low: usize, high: usize) -> usize {
        low + self.under(high - low + 1)
    }

    pub fn byte(&mut self) -> u8 {
        (self.word() >> 56) as u8
    }

    pub fn bytes(&mut self, count: usize) -> Vec<u8> {
        (0..count).map(|_| self.byte()).collect()
    }

    /// True once in `count` times.
    pub fn one_in(&mut self, count: usize) -> bool {
        self.under(count) == 0
    }

    /// One of the items, or nothing when there are none.
    pub fn pick<T: Clone>(&mut self, items: &[T]) -> Option<T> {
        if items.is_empty() {
            return None;
        }
        Some(items[self.under(items.len())].clone())
    }

    pub fn shuffle<T>(&mut self, items: &mut [T]) {
        for last in (1..items.len()).rev() {
            items.swap(last, self.under(last + 1));
        }
    }
}

/// Reads a seed in base ten, or in base sixteen after `0x`.
pub fn parse_seed(text: &str) -> Option<u64> {
    match text.strip_prefix("0x") {
        Some(digits) => u64::from_str_radix(digits, 16).ok(),
        None => text.parse().ok(),
    }
}

/// The seed of a run: the environment's `SEED`, or the default one. It is
/// printed, so that a run can be repeated.
pub fn printed_seed() -> u64 {
    let named = std::env::var("SEED").ok();
    let seed = match named {
        Some(text) => parse_seed(&text).expect("SEED is a number"),
        None => DEFAULT_SEED,
    };
    println!("seed {seed:#x}");
    seed
}
