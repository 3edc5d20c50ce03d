//! Places: `place` beside `place.rs`.
#![cfg(exported = "place")]

use bridge::beside::place;
use bridge::chance::Chance;
use bridge::compare::compare;
use bridge::face::PLACE;
use bridge::function::Call;
use bridge::ranges::{GOOD, RANGES};
use bridge::samples::{Sample, HAS_BOTH, SAMPLES};
use bridge::steps::about_every_step;
use second::units::QUARTER;

const RANDOM: usize = 205_000;
const RANDOM_ABOUT_A_STEP: usize = 400;

#[test]
fn random_places() {
    let mut chance = Chance::new("random_places");
    let random = (0..RANDOM).map(|_| RANGES.map(|(low, high)| chance.within(low, high)));
    compare(&PLACE, "random", random, place);
}

/// Every added second, which the ranges leave out, and the seconds next to it: with any ms, difference, site and star.
#[test]
fn added_seconds() {
    let mut chance = Chance::new("added_seconds");
    let mut call = |second: &[i64; 6]| {
        let mut call = RANGES.map(|(low, high)| chance.within(low, high));
        call[..second.len()].copy_from_slice(second);
        call
    };
    let seconds = about_every_step();
    let calls = seconds.iter().flat_map(|second| [second; RANDOM_ABOUT_A_STEP]).map(|second| call(second));
    compare(&PLACE, "about every step", calls, place);

    // the added second alone, its first and its last ms
    let added = seconds.iter().filter(|second| second[5] == 60);
    let ends = added.flat_map(|second| {
        [0, 999].map(|ms| {
            let mut call = GOOD;
            call[..second.len()].copy_from_slice(second);
            call[second.len()] = ms;
            call
        })
    });
    compare(&PLACE, "ends of every added second", ends, place);
}

/// Stars and sites at the ends and in the middle of every range, at the first, middle and last moment of the span:
/// poles, zenith and the meridian among them.
#[test]
fn ends_of_ranges() {
    let moments =
        [[1972, 1, 1, 0, 0, 0, 0, -900], [2000, 1, 1, 12, 0, 0, 0, 0], [2099, 12, 31, 23, 59, 59, 999, 900]];
    let mut calls: Vec<Vec<i64>> = moments.iter().map(|moment| moment.to_vec()).collect();
    for (low, high) in &RANGES[8..] {
        let values = [*low, (low + high) / 2, *high];
        let longer = |call: &Vec<i64>| values.map(|value| [&call[..], &[value]].concat());
        calls = calls.iter().flat_map(longer).collect();
    }
    let calls = calls.into_iter().map(|call| call.try_into().expect("every part is given"));
    compare(&PLACE, "ends of ranges", calls, place);
}

/// One past each end of each range, alone.
#[test]
fn one_past_each_end() {
    let past = RANGES.iter().enumerate().flat_map(|(part, (low, high))| {
        let ends = [low - 1, *low, *high, high + 1];
        ends.map(|end| {
            let mut call = GOOD;
            call[part] = end;
            call
        })
    });
    compare(&PLACE, "one past each end", past, place);
}

/// Checks run in rising number: every choice of good and bad parts.
#[test]
fn order_of_refusals() {
    let calls = (0..1 << GOOD.len()).map(|choice| {
        let part = |part: usize| {
            if choice >> part & 1 == 0 {
                GOOD[part]
            } else {
                RANGES[part].1 + 1
            }
        };
        std::array::from_fn(part)
    });
    compare(&PLACE, "every choice of bad parts", calls, place);
}

/// Stars at a pole of date, at the zenith and at the nadir: a flag and a nought for each angle that is lacking.
#[test]
fn lacking_an_angle() {
    let mut calls: Vec<Call<14>> = SAMPLES.iter().map(|sample| sample.asked().into()).collect();
    for (sample, answer) in SAMPLES.iter().zip(PLACE.answers(&mut calls)) {
        let [refused, ra, declination, azimuth, altitude, flags] = answer;
        assert_eq!((refused, flags), (0, sample.flags()), "{sample:?}");
        for (has, angle, height) in [(sample.has[0], ra, declination), (sample.has[1], azimuth, altitude)] {
            assert_eq!(has == 0, i128::from(height.abs()) == QUARTER, "{sample:?}");
            assert!(has == 1 || angle == 0, "{sample:?}");
        }
    }
    compare(&PLACE, "lacking an angle", SAMPLES.map(Sample::asked), place);
}

/// The stars about each of them: some lack what it lacks, and some lack nothing.
#[test]
fn about_the_axes() {
    for sample in SAMPLES {
        let band: Vec<[i64; 14]> = sample.band().map(Sample::asked).collect();
        for flags in [sample.flags(), HAS_BOTH] {
            assert!(band.iter().any(|asked| place(*asked)[5] == flags), "none of {flags:x} about {sample:?}");
        }
        let what = format!("about {} {} over {}", sample.ra, sample.declination, sample.latitude);
        compare(&PLACE, &what, band, place);
    }
}

/// One star over one site through a day, every ten seconds.
#[test]
fn one_day() {
    let mut chance = Chance::new("one_day");
    let ranges = RANGES[8..].iter();
    let star_and_site: Vec<i64> = ranges.map(|(low, high)| chance.within(*low, *high)).collect();
    let day = (0..24 * 60 * 60).step_by(10).map(|time| {
        let moment = [2024, 2, 29, time / 3600, time / 60 % 60, time % 60, 500, -17];
        let call = [&moment[..], &star_and_site].concat();
        call.try_into().expect("every part is given")
    });
    compare(&PLACE, "one day", day, place);
}
