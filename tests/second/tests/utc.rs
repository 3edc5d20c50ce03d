//! Document 02, "Clocks never fold": UTC for a TT beside published facts, and back by document 01's formula.

use std::ops::RangeInclusive;

use second::dates::{dates, instants, steps, Date, Tt};
use second::refusals::STRETCH;
use second::units::{Whole, DAY};
use second::utc::{utc, Utc};

/// The leap seconds as IERS publishes them (`leap-seconds.list`): seconds of UTC from 1900-01-01 without any added one,
/// TAI−UTC from then on, and the year and month whose first day this is.
const PUBLISHED: [(Whole, Whole, Whole, Whole); 28] = [
    (2_272_060_800, 10, 1972, 1),
    (2_287_785_600, 11, 1972, 7),
    (2_303_683_200, 12, 1973, 1),
    (2_335_219_200, 13, 1974, 1),
    (2_366_755_200, 14, 1975, 1),
    (2_398_291_200, 15, 1976, 1),
    (2_429_913_600, 16, 1977, 1),
    (2_461_449_600, 17, 1978, 1),
    (2_492_985_600, 18, 1979, 1),
    (2_524_521_600, 19, 1980, 1),
    (2_571_782_400, 20, 1981, 7),
    (2_603_318_400, 21, 1982, 7),
    (2_634_854_400, 22, 1983, 7),
    (2_698_012_800, 23, 1985, 7),
    (2_776_982_400, 24, 1988, 1),
    (2_840_140_800, 25, 1990, 1),
    (2_871_676_800, 26, 1991, 1),
    (2_918_937_600, 27, 1992, 7),
    (2_950_473_600, 28, 1993, 7),
    (2_982_009_600, 29, 1994, 7),
    (3_029_443_200, 30, 1996, 1),
    (3_076_704_000, 31, 1997, 7),
    (3_124_137_600, 32, 1999, 1),
    (3_345_062_400, 33, 2006, 1),
    (3_439_756_800, 34, 2009, 1),
    (3_550_089_600, 35, 2012, 7),
    (3_644_697_600, 36, 2015, 7),
    (3_692_217_600, 37, 2017, 1),
];

/// Noon of 2000-01-01, counted in the same way.
const NOON_2000: Whole = 3_155_716_800;

/// The first and the last TT: −10227 × 86,400,000 − 43,200,000 + 42,184, and 36524 × 86,400,000 + 43,199,999 + 69,184.
const FIRST: Whole = -883_655_957_816;
const LAST: Whole = 3_155_716_869_183;

/// TT of a second counted as the published ones are: TT−TAI is 32.184 s.
fn tt_of(second: Whole, tai_minus_utc: Whole) -> Whole {
    (second - NOON_2000 + tai_minus_utc) * 1000 + 32_184
}

/// The 27 steps: the TT from which it holds, the date that begins then, and the date before.
fn published_steps() -> impl Iterator<Item = (Whole, Date, Date)> {
    PUBLISHED[1..].iter().map(|&(second, tai_minus_utc, year, month)| {
        let before = match month {
            1 => date(year - 1, 12, 31),
            7 => date(year, 6, 30),
            _ => unreachable!("a step is on 1 January or on 1 July"),
        };
        (tt_of(second, tai_minus_utc), date(year, month, 1), before)
    })
}

/// The Julian day number of a date's noon (Fliegel and Van Flandern 1968).
fn julian_day(date: Date) -> Whole {
    let Date { year, month, day } = date;
    let early = (month - 14) / 12;
    day - 32075 + 1461 * (year + 4800 + early) / 4 + 367 * (month - 2 - early * 12) / 12
        - 3 * ((year + 4900 + early) / 100) / 4
}

/// The TT of the first and the last ms of a date; the Julian day of 1900-01-01 is 2415021.
fn published_day(date: Date) -> RangeInclusive<Whole> {
    let first_of = |midnight| {
        let (_, tai_minus_utc, _, _) = PUBLISHED.iter().rfind(|row| row.0 <= midnight).expect("from 1972 on");
        tt_of(midnight, *tai_minus_utc)
    };
    let midnight = (julian_day(date) - 2_415_021) * 86_400;
    first_of(midnight)..=first_of(midnight + 86_400) - 1
}

fn date(year: Whole, month: Whole, day: Whole) -> Date {
    Date { year, month, day }
}

fn at(date: Date, hour: Whole, minute: Whole, second: Whole, ms: Whole) -> Utc {
    Utc { date, hour, minute, second, ms }
}

/// UTC of a TT in the stretch.
#[track_caller]
fn utc_of(tt: Whole) -> Utc {
    utc(Tt(tt)).expect("a TT in the stretch")
}

/// The TT has this UTC, and document 01's formula leads back, whatever UT1−UTC is.
#[track_caller]
fn assert_pair(tt: Whole, expected: Utc) {
    assert_eq!(utc(Tt(tt)), Ok(expected), "TT {tt}");
    for ut1_minus_utc in [-900, 0, 900] {
        let (_, _, back) = instants(expected.with(ut1_minus_utc)).expect("an accepted UTC date and time");
        assert_eq!(back, Tt(tt), "{expected:?}");
    }
}

#[test]
fn the_stretch_has_its_ends_and_no_neighbour_outside() {
    let (first, last) = (date(1972, 1, 1), date(2099, 12, 31));
    assert_pair(FIRST, at(first, 0, 0, 0, 0));
    assert_pair(FIRST + 1, at(first, 0, 0, 0, 1));
    assert_pair(LAST - 1, at(last, 23, 59, 59, 998));
    assert_pair(LAST, at(last, 23, 59, 59, 999));
    let before = [FIRST - 1, FIRST - 1000, FIRST - DAY, i64::MIN.into(), Whole::MIN];
    let after = [LAST + 1, LAST + 1000, LAST + DAY, i64::MAX.into(), Whole::MAX];
    for outside in before.into_iter().chain(after) {
        assert_eq!(utc(Tt(outside)), Err(STRETCH), "TT {outside}");
    }
    assert_eq!(STRETCH, 20);
}

#[test]
fn known_instants() {
    let cases = [
        // J2000.0 itself: TT−UTC was 64.184 s
        (0, at(date(2000, 1, 1), 11, 58, 55, 816)),
        (-1, at(date(2000, 1, 1), 11, 58, 55, 815)),
        (1, at(date(2000, 1, 1), 11, 58, 55, 817)),
        // document 01's output of `times`
        (64_184, at(date(2000, 1, 1), 12, 0, 0, 0)),
        (536_500_868_684, at(date(2016, 12, 31), 23, 59, 60, 500)),
        // 29 February of a year of 400: day 59
        (59 * DAY - 43_200_000 + 64_184, at(date(2000, 2, 29), 0, 0, 0, 0)),
        (60 * DAY - 43_200_000 + 64_184 - 1, at(date(2000, 2, 29), 23, 59, 59, 999)),
        (60 * DAY - 43_200_000 + 64_184, at(date(2000, 3, 1), 0, 0, 0, 0)),
    ];
    for (tt, expected) in cases {
        assert_pair(tt, expected);
    }
}

#[test]
fn every_ms_of_an_added_second_is_between_its_neighbours() {
    for (tt, after, before) in published_steps() {
        assert_pair(tt - 1001, at(before, 23, 59, 59, 999));
        for ms in 0..1000 {
            assert_pair(tt - 1000 + ms, at(before, 23, 59, 60, ms));
        }
        assert_pair(tt, at(after, 0, 0, 0, 0));
    }
}

#[test]
fn the_steps_are_the_published_ones() {
    let mut ours: Vec<Date> = steps().collect();
    ours.sort();
    let published: Vec<Date> = published_steps().map(|(_, after, _)| after).collect();
    assert_eq!(ours, published);
    assert_eq!(ours.len(), 27);
}

#[test]
fn every_date_has_its_first_and_last_ms() {
    let mut next = FIRST;
    let (mut count, mut days_with_an_added_second) = (0, 0);
    for date in dates() {
        let (first, last) = published_day(date).into_inner();
        // the first ms of a date comes right after the last of the date before
        assert_eq!(first, next, "{date:?}");
        assert_pair(first, at(date, 0, 0, 0, 0));
        match last - first + 1 {
            86_400_000 => assert_pair(last, at(date, 23, 59, 59, 999)),
            86_401_000 => {
                assert_pair(last, at(date, 23, 59, 60, 999));
                days_with_an_added_second += 1;
            }
            length => panic!("{date:?} has {length} ms"),
        }
        next = last + 1;
        count += 1;
    }
    assert_eq!(next, LAST + 1);
    assert_eq!((count, days_with_an_added_second), (36_524 + 10_227 + 1, 27));
}

#[test]
fn every_second_of_a_day_follows_the_clock() {
    for (date, added) in [(date(2016, 12, 30), false), (date(2016, 12, 31), true), (date(2017, 1, 1), false)]
    {
        let mut tt = *published_day(date).start();
        for hour in 0..24 {
            for minute in 0..60 {
                let seconds = if added && (hour, minute) == (23, 59) { 61 } else { 60 };
                for second in 0..seconds {
                    assert_pair(tt, at(date, hour, minute, second, 0));
                    assert_pair(tt + 999, at(date, hour, minute, second, 999));
                    tt += 1000;
                }
            }
        }
        assert_eq!(tt, published_day(date).end() + 1);
    }
}

#[test]
fn a_later_tt_is_a_later_utc_around_each_step() {
    for (step, _, _) in published_steps() {
        for tt in step - 4000..step + 3000 {
            assert!(utc_of(tt) < utc_of(tt + 1), "TT {tt}");
        }
    }
}

#[test]
fn a_later_tt_is_a_later_utc_over_the_stretch() {
    let mut earlier = utc_of(FIRST);
    // a prime number of ms, about 5.5 hours, so that every time of day comes by
    for tt in (FIRST + 1..=LAST).step_by(19_999_999) {
        let later = utc_of(tt);
        assert!(earlier < later, "TT {tt}");
        assert_pair(tt, later);
        earlier = later;
    }
}
