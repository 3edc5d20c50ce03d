//! Chosen numbers, the same in every run of one seed.

use std::env;

/// The seed of a run, unless `TURBELICUS_SEED` gives another.
const FIXED_SEED: u64 = 20_000_101;

pub fn seed() -> u64 {
    match env::var("TURBELICUS_SEED") {
        Ok(text) => text.parse().expect("TURBELICUS_SEED is a whole number"),
        Err(_) => FIXED_SEED,
    }
}

/// SplitMix64 (Steele, Lea, Flood 2014).
pub struct Chance(u64);

impl Chance {
    /// Begins from the run's seed and a name, so that a test draws the same whatever else runs.
    pub fn new(name: &str) -> Chance {
        let mut chance = Chance(seed());
        for byte in name.bytes() {
            chance.0 ^= u64::from(byte);
            chance.any();
        }
        chance
    }

    /// Any number.
    pub fn any(&mut self) -> i64 {
        self.0 = self.0.wrapping_add(0x9e37_79b9_7f4a_7c15);
        let mut word = self.0;
        word = (word ^ (word >> 30)).wrapping_mul(0xbf58_476d_1ce4_e5b9);
        word = (word ^ (word >> 27)).wrapping_mul(0x94d0_49bb_1331_11eb);
        (word ^ (word >> 31)) as i64
    }

    /// A number from low to high, both included.
    pub fn within(&mut self, low: i64, high: i64) -> i64 {
        let width = i128::from(high) - i128::from(low) + 1;
        let above = i128::from(self.any() as u64) % width;
        (i128::from(low) + above) as i64
    }

    /// A number from low to high with small sizes as likely as large ones: the number of its bits is drawn first.
    pub fn of_any_size(&mut self, low: i64, high: i64) -> i64 {
        loop {
            let number = self.any() >> self.within(0, 63);
            if (low..=high).contains(&number) {
                return number;
            }
        }
    }

    /// True once in so many times.
    pub fn once_in(&mut self, times: i64) -> bool {
        self.within(1, times) == 1
    }

    /// One of several.
    pub fn one_of<T: Clone>(&mut self, several: &[T]) -> T {
        several[self.within(0, several.len() as i64 - 1) as usize].clone()
    }
}

/// The given numbers, each with its neighbours up to a distance; what no 64-bit number is, is left out.
pub fn around(numbers: &[i64], distance: i64) -> Vec<i64> {
    let neighbours = |number: &i64| {
        let number = *number;
        (-distance..=distance).filter_map(move |step| number.checked_add(step))
    };
    let mut all: Vec<i64> = numbers.iter().flat_map(neighbours).collect();
    all.sort_unstable();
    all.dedup();
    all
}
