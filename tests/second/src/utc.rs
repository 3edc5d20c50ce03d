//! Document 02, "Clocks never fold": the UTC date and time for a TT instant.

use std::sync::OnceLock;

use crate::dates::{dates, instants, Date, Moment, Tt};
use crate::refusals::{self, unless, Refusal};
use crate::units::Whole;

/// A UTC date and time of day. Its order is by its parts: the later one is the greater.
#[derive(Clone, Copy, Debug, PartialEq, Eq, PartialOrd, Ord)]
pub struct Utc {
    pub date: Date,
    pub hour: Whole,
    pub minute: Whole,
    pub second: Whole,
    pub ms: Whole,
}

impl Utc {
    /// The same with UT1−UTC, which has no part in its TT.
    pub fn with(self, ut1_minus_utc: Whole) -> Moment {
        let Utc { date, hour, minute, second, ms } = self;
        Moment { date, hour, minute, second, ms, ut1_minus_utc }
    }

    /// Its TT by document 01's formula; of a date and time that is accepted.
    fn tt(self) -> Whole {
        let (_, _, Tt(tt)) = instants(self.with(0)).expect("an accepted UTC date and time");
        tt
    }
}

/// The first ms of a date.
fn first_of(date: Date) -> Utc {
    Utc { date, hour: 0, minute: 0, second: 0, ms: 0 }
}

/// The stretch of TT from the first accepted UTC date and time to the last of them.
struct Stretch {
    /// Every date in turn, with the TT of its first ms.
    days: Vec<(Whole, Date)>,
    /// The TT of the last ms of the last date, which no step follows.
    last: Whole,
}

/// The stretch, worked out once.
fn stretch() -> &'static Stretch {
    static STRETCH: OnceLock<Stretch> = OnceLock::new();
    STRETCH.get_or_init(|| {
        let days: Vec<_> = dates().map(|date| (first_of(date).tt(), date)).collect();
        let (_, date) = days[days.len() - 1];
        let last = Utc { date, hour: 23, minute: 59, second: 59, ms: 999 }.tt();
        Stretch { days, last }
    })
}

const MINUTE: Whole = 60_000;
const LAST_MINUTE_OF_DAY: Whole = 23 * 60 + 59;

/// The one UTC date and time that has this TT; a TT outside the first and the last of 1972 to 2099 is refused 20.
pub fn utc(tt: Tt) -> Result<Utc, Refusal> {
    let Tt(tt) = tt;
    let Stretch { days, last } = stretch();
    let (first, _) = days[0];
    unless((first..=*last).contains(&tt), refusals::STRETCH)?;

    // The date is the last that has begun: a later one has the larger TT.
    let begun = days.partition_point(|(first_of_day, _)| *first_of_day <= tt);
    let (first_of_day, date) = days[begun - 1];
    // TAI−UTC is the same through a whole date, its added second too, so TT counts the ms of day.
    let ms_of_day = tt - first_of_day;
    // Second 60 exists only at 23:59:60: the added second is no minute of its own but stays in 23:59.
    let minute_of_day = (ms_of_day / MINUTE).min(LAST_MINUTE_OF_DAY);
    let ms_of_minute = ms_of_day - minute_of_day * MINUTE;
    Ok(Utc {
        date,
        hour: minute_of_day / 60,
        minute: minute_of_day % 60,
        second: ms_of_minute / 1000,
        ms: ms_of_minute % 1000,
    })
}
