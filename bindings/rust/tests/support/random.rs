//! splitmix64.

use std::env;

const DEFAULT_SEED: u64 = 0x0F0D_CA5C;

#[derive(Clone, Debug)]
pub struct Random(u64);

/// The numbers of one test; the seed is FORDCASK_SEED or a fixed one, and is printed.
pub fn seeded(test: &str) -> Random {
    let seed = match env::var("FORDCASK_SEED") {
        Ok(text) => text.parse().expect("FORDCASK_SEED is a whole number"),
        Err(_) => DEFAULT_SEED,
    };
    println!("{test}: FORDCASK_SEED={seed}");
    // each test has numbers of its own
    let mut state = Random(seed);
    for byte in test.bytes() {
        state.0 = state.next() ^ u64::from(byte);
    }
    state
}

impl Random {
    pub fn next(&mut self) -> u64 {
        self.0 = self.0.wrapping_add(0x9E37_79B9_7F4A_7C15);
        let mut z = self.0;
        z = (z ^ (z >> 30)).wrapping_mul(0xBF58_476D_1CE4_E5B9);
        z = (z ^ (z >> 27)).wrapping_mul(0x94D0_49BB_1331_11EB);
        z ^ (z >> 31)
    }

    /// From low to high, both included.
    pub fn between(&mut self, low: i64, high: i64) -> i64 {
        assert!(low <= high, "between {low} and {high}");
        let width = (high as i128 - low as i128 + 1) as u128;
        (low as i128 + (self.next() as u128 % width) as i128) as i64
    }

    pub fn below(&mut self, end: usize) -> usize {
        self.between(0, end as i64 - 1) as usize
    }

    pub fn byte(&mut self) -> u8 {
        self.next() as u8
    }

    /// True once in `times`, on the average.
    pub fn once_in(&mut self, times: u64) -> bool {
        self.next() % times == 0
    }

    pub fn pick<T: Copy>(&mut self, from: &[T]) -> T {
        from[self.below(from.len())]
    }
}
