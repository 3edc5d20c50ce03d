//! The seconds about every step of TAI−UTC.

use second::dates::{self, Date};

/// Year, month, day, hour, minute and second: the last two seconds before each step, its added second, and the first
/// second after.
pub fn about_every_step() -> Vec<[i64; 6]> {
    dates::steps().flat_map(about).collect()
}

fn about(step: Date) -> [[i64; 6]; 4] {
    let after = dates::day_of(step).expect("a step is in the span");
    let before = dates::date_of(after - 1).expect("a step has a day before");
    let seconds = [(before, 23, 59, 58), (before, 23, 59, 59), (before, 23, 59, 60), (step, 0, 0, 0)];
    seconds.map(|(Date { year, month, day }, hour, minute, second)| {
        [year, month, day, hour, minute, second].map(|part| part as i64)
    })
}
