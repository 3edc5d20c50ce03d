//! Document 01, "Cases": all of them, in its order; and its example of `times`.

use second::circle::{pair, parts_of_radian, Pair};
use second::dates::{date_of, day_of, instants, times, Date, Moment, Tt, Ut};
use second::earth::{obliquity, precession, sidereal, Precession};
use second::place::{check_star, Site, Star};
use second::reading::reading;
use second::refusals::{COUNT, DAY, MARK, ROOM, STAR, TURN, YEAR};
use second::rounding::rnd;
use second::star_list::{file_length, night_list, read, write, Angles, Entry, FOUR_NOUGHTS};
use second::turning::{turn, Direction};
use second::units::{Whole, CENTURY, CIRCLE, HALF_QUARTER, QUARTER, UNIT};

fn date(year: Whole, month: Whole, day: Whole) -> Date {
    Date { year, month, day }
}

/// A star that is accepted.
const STAR_OF_CASES: Star =
    Star { right_ascension: 0, declination: QUARTER, motion_right_ascension: 0, motion_declination: 0 };

/// An entry whose mark and angles are not noughts, so that a write to it shows.
const ENTRY: Entry = Entry {
    star: STAR_OF_CASES,
    mark: 9,
    angles: Angles { right_ascension: 9, declination: 9, azimuth: 9, altitude: 9 },
};

#[test]
fn rnd_takes_halves_away_from_zero() {
    assert_eq!(rnd(5, 2), 3);
    assert_eq!(rnd(-5, 2), -3);
}

#[test]
fn days_of_dates() {
    assert_eq!(day_of(date(1972, 1, 1)), Ok(-10227));
    assert_eq!(day_of(date(2000, 2, 29)), Ok(59));
    assert_eq!(day_of(date(2099, 12, 31)), Ok(36524));
}

#[test]
fn day_and_date_are_a_round_trip() {
    for day in -10227..=36524 {
        assert_eq!(date_of(day).and_then(day_of), Ok(day));
    }
    assert_eq!(date_of(-10228), Err(YEAR));
    assert_eq!(date_of(36525), Err(YEAR));
}

#[test]
fn pair_at_nought_and_at_half_a_quarter() {
    assert_eq!(parts_of_radian(HALF_QUARTER), 843_314_857);
    let (cosine, sine) = (1_073_741_824, 0);
    assert_eq!(pair(0), Pair { cosine, sine });
    let (cosine, sine) = (759_250_125, 759_250_125);
    assert_eq!(pair(HALF_QUARTER), Pair { cosine, sine });
}

#[test]
fn polynomials_after_a_century() {
    let angles = Precession { zeta: 2_306_537_978, z: 2_307_330_983, theta: 2_003_842_417 };
    assert_eq!(precession(Tt(CENTURY)), Ok(angles));
    assert_eq!(obliquity(Tt(CENTURY)), Ok(84_334_634_223));
}

#[test]
fn sidereal_angle_at_ut_nought() {
    assert_eq!(sidereal(Ut(0)), Ok(1_009_658_226_150));
}

#[test]
fn quarter_turn_about_axis_3() {
    let (x, y, z) = (UNIT, 0, 0);
    let turned = turn(Direction { x, y, z }, 3, QUARTER);
    assert_eq!(turned, Ok(Direction { x: y, y: x, z }));
}

#[test]
fn readings() {
    assert_eq!(reading(1, 1), Some(162_000_000_000));
    assert_eq!(reading(0, 1), Some(324_000_000_000));
}

#[test]
fn run_only_refusals() {
    assert_eq!(day_of(date(2100, 1, 1)), Err(YEAR));
    assert_eq!(day_of(date(2001, 2, 29)), Err(DAY));
    let declination = 324_000_000_001;
    let star = Star { declination, ..STAR_OF_CASES };
    assert_eq!(check_star(STAR_OF_CASES), Ok(()));
    assert_eq!(check_star(star), Err(STAR));
    let (x, y, z) = (UNIT, 0, 0);
    assert_eq!(turn(Direction { x, y, z }, 3, CIRCLE), Err(TURN));
}

#[test]
fn run_only_refusals_of_lists() {
    let mut room = [ENTRY; 2];
    assert_eq!(read(b"SLT\x01\x00\x00", &mut room), Err(MARK));
    assert_eq!(room, [ENTRY; 2]);

    let mut entries = [ENTRY; 65];
    let mut bytes = vec![7; file_length(65)];
    assert_eq!(write(&entries, &mut bytes), Err(ROOM));
    assert_eq!(bytes, vec![7; file_length(65)]);
    let noon = Moment { date: date(2000, 1, 1), hour: 12, minute: 0, second: 0, ms: 0, ut1_minus_utc: 0 };
    let site = Site { latitude: 0, longitude: 0 };
    assert_eq!(night_list(noon, site, &mut entries), Err(ROOM));
    assert_eq!(entries, [ENTRY; 65]);
    assert_eq!(night_list(noon, site, &mut entries[..64]), Ok(64));
}

#[test]
fn list_file_there_and_back() {
    let mut bytes = vec![7; file_length(2) + 1];
    assert_eq!(write(&[ENTRY; 2], &mut bytes), Ok(file_length(2)));
    assert_eq!(bytes.pop(), Some(7));

    let mut room = [ENTRY; 3];
    assert_eq!(read(&bytes, &mut room), Ok(2));
    let read_entry = Entry { mark: 0, angles: FOUR_NOUGHTS, ..ENTRY };
    assert_eq!(room, [read_entry, read_entry, ENTRY]);

    let mut again = vec![0; bytes.len()];
    assert_eq!(write(&room[..2], &mut again), Ok(bytes.len()));
    assert_eq!(again, bytes);
    bytes.push(7);
    assert_eq!(read(&bytes, &mut room), Err(COUNT));
}

#[test]
fn times_prints_the_example() {
    let input = b"2000-01-01 12:00:00.000 0\n\
                  2016-12-31 23:59:60.500 -400\n\
                  2015-12-31 23:59:60.000 0\n";
    let output = "day ut tt\n\
                  0 0 64184\n\
                  6209 536500800100 536500868684\n\
                  refused 3\n";
    assert_eq!(String::from_utf8_lossy(&times(input)), output);
}

#[test]
fn times_takes_only_the_exact_form() {
    let cases: [(&[u8], &str); 12] = [
        (b"", ""),
        (b"\n", "refused 0\n"),
        (b"2000-01-01 12:00:00.000 0", "0 0 64184\n"),
        (b"2000-01-01 12:00:00.000 -0\n", "0 0 64184\n"),
        (b"2000-01-01 12:00:00.000 0900\n", "0 900 64184\n"),
        (b"2000-01-01 12:00:00.000 -901\n", "refused 4\n"),
        (b"2000-01-01 12:00:00.000 00900\n", "refused 0\n"),
        (b"2000-01-01 12:00:00.000 -\n", "refused 0\n"),
        (b"2000-01-01 12:00:00.000 +1\n", "refused 0\n"),
        (b"2000-01-01 12:00:00.000 0 \n", "refused 0\n"),
        (b"2000-01-01 12:00:00.000 0\r\n", "refused 0\n"),
        (b"0000-00-00 99:99:99.999 9999\n", "refused 1\n"),
    ];
    for (input, answered) in cases {
        let output = format!("day ut tt\n{answered}");
        assert_eq!(String::from_utf8_lossy(&times(input)), output);
    }
}

#[test]
fn tai_minus_utc_reaches_37_seconds() {
    let last =
        Moment { date: date(2099, 12, 31), hour: 23, minute: 59, second: 59, ms: 999, ut1_minus_utc: 900 };
    let (day, Ut(ut), Tt(tt)) = instants(last).expect("the last moment of the span");
    assert_eq!(day, 36524);
    assert_eq!(tt - (ut - 900), 32_184 + 37_000);
    assert!(tt < CENTURY);
}
