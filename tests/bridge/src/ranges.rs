//! The ranges of what a place is asked of: date and time, site, star.

use second::units::{CIRCLE, HALF_CIRCLE, QUARTER};

/// J2000.0, a site and a star without motion.
pub const GOOD: [i64; 14] = [2000, 1, 1, 12, 0, 0, 0, 0, 0, 0, 0, 0, 0, 0];

/// The least and the most of each part that is accepted.
pub const RANGES: [(i64, i64); 14] = {
    let (quarter, half_circle, last) = (QUARTER as i64, HALF_CIRCLE as i64, CIRCLE as i64 - 1);
    [
        (1972, 2099),
        (1, 12),
        (1, 31),
        (0, 23),
        (0, 59),
        (0, 59),
        (0, 999),
        (-900, 900),
        (-quarter, quarter),
        (-half_circle, half_circle),
        (0, last),
        (-quarter, quarter),
        (-100_000_000, 100_000_000),
        (-100_000_000, 100_000_000),
    ]
};
