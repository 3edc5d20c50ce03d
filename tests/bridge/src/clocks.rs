//! UTC dates and times in the words of the exported functions, and the stretch of TT that has them.

use second::dates::Date;
use second::units::Whole;
use second::utc::Utc;

/// The TT of 1972-01-01 00:00:00.000 and of 2099-12-31 23:59:59.999.
pub const FIRST: i64 = -883_655_957_816;
pub const LAST: i64 = 3_155_716_869_183;

/// The answer of `turbelicus_utc` as a date and time, or the number of its refusal.
pub fn utc_of([refused, year_and_month, day_and_hour, minute_and_second, ms]: [i64; 5]) -> Result<Utc, i64> {
    if refused != 0 {
        return Err(refused);
    }
    let two = |word| (Whole::from(low(word)), Whole::from(high(word)));
    let ((year, month), (day, hour), (minute, second)) =
        (two(year_and_month), two(day_and_hour), two(minute_and_second));
    Ok(Utc { date: Date { year, month, day }, hour, minute, second, ms: ms.into() })
}

/// What `tests_instants` is given.
pub fn moment_of(utc: Utc, ut1_minus_utc: i64) -> [i64; 8] {
    let Utc { date: Date { year, month, day }, hour, minute, second, ms } = utc;
    let [year, month, day, hour, minute, second, ms] =
        [year, month, day, hour, minute, second, ms].map(|part| part as i64);
    [year, month, day, hour, minute, second, ms, ut1_minus_utc]
}

fn low(word: i64) -> i64 {
    i64::from(word as i32)
}

fn high(word: i64) -> i64 {
    word >> 32
}
