//! Observed places: `weather` beside `weather.rs`, and beside the place and the observed altitude.
#![cfg(all(exported = "weather", exported = "place"))]

use bridge::beside::{observed_place, place};
use bridge::chance::Chance;
use bridge::compare::compare;
use bridge::face::{OBSERVED_ALTITUDE, OBSERVED_PLACE, PLACE};
use bridge::floats::{word, PRESSURES};
use bridge::function::Call;
use bridge::ranges::{GOOD, RANGES};
use bridge::records::{accepted_record, asked_in, at, come, record, weathers};
use bridge::records::{Record, HIGHEST, LOWEST, PAST_QUARTER};
use bridge::samples::{Sample, HAS_BOTH, SAMPLES, ZENITH};
use second::dates::{instants, Date, Moment};
use second::place::local_sidereal;
use second::refusals::{DAY, READING, SITE, STAR, TIME, UT1_MINUS_UTC, YEAR};
use second::units::{Whole, CIRCLE, HALF_CIRCLE};

const RANDOM: usize = 120_000;
const RANDOM_AT_AN_EDGE: usize = 8_000;

#[test]
fn random_places() {
    let mut chance = Chance::new("random_places, observed");
    let random = (0..RANDOM).map(|_| {
        let asked = RANGES.map(|(low, high)| chance.within(low, high));
        asked_in(asked, record(&mut chance))
    });
    compare(&OBSERVED_PLACE, "random", random, observed_place);
}

/// A star in the meridian, at about this altitude: the site is set by its apparent place; none where there is no such site.
fn at_altitude(chance: &mut Chance, altitude: i64) -> Option<[i64; 14]> {
    let mut asked = RANGES.map(|(low, high)| chance.within(low, high));
    // no month is shorter
    asked[2] = asked[2].min(28);
    let [_, ra, declination, ..] = place(asked);
    let latitude = declination + chance.one_of(&[-1, 1]) * (HIGHEST - altitude);
    let [year, month, day, hour, minute, second, ms, ut1_minus_utc] =
        std::array::from_fn(|part| Whole::from(asked[part]));
    let moment = Moment { date: Date { year, month, day }, hour, minute, second, ms, ut1_minus_utc };
    let (_, ut, tt) = instants(moment).expect("an accepted moment");
    let west = local_sidereal(ut, tt, 0).expect("an accepted moment") - Whole::from(ra);
    let longitude = HALF_CIRCLE - (west + HALF_CIRCLE).rem_euclid(CIRCLE);
    (asked[8], asked[9]) = (latitude, longitude as i64);
    (latitude.abs() <= HIGHEST).then_some(asked)
}

/// Places within some thousandths of an arcsecond of each edge of the lift, on both sides of it.
#[test]
fn places_at_every_edge() {
    let mut chance = Chance::new("places_at_every_edge");
    for altitude in [LOWEST, 0, PAST_QUARTER, HIGHEST] {
        let asked = (0..RANDOM_AT_AN_EDGE).filter_map(|_| at_altitude(&mut chance, altitude));
        let asked: Vec<[i64; 14]> = asked.collect();
        for near in &asked {
            let [_, _, _, _, found, _] = place(*near);
            assert!((found - altitude).abs() < 10_000, "{near:?} is at {found}, not at {altitude}");
        }
        let calls = asked.into_iter().map(|asked| asked_in(asked, accepted_record(&mut chance)));
        compare(&OBSERVED_PLACE, &format!("at about {altitude}"), calls, observed_place);
    }
}

/// Its first four numbers and its flags are those of the place, the fifth is the observed altitude of the fourth; 14
/// comes only where the place is not refused.
#[test]
fn place_and_observed_altitude() {
    let mut chance = Chance::new("place_and_observed_altitude");
    let mut draw = || (RANGES.map(|(low, high)| chance.within(low, high)), record(&mut chance));
    let mut drawn: Vec<([i64; 14], Record)> = (0..RANDOM).map(|_| draw()).collect();
    drawn.extend(SAMPLES.map(|sample| (sample.asked(), record(&mut chance))));
    let mut calls: Vec<Call<14>> = drawn.iter().map(|(asked, _)| (*asked).into()).collect();
    let placed = PLACE.answers(&mut calls);
    let seen = placed.iter().zip(&drawn).map(|(placed, (_, record))| at(placed[4], *record));
    let mut calls: Vec<Call<5>> = seen.map(Into::into).collect();
    let seen = OBSERVED_ALTITUDE.answers(&mut calls);
    let mut calls: Vec<Call<18>> =
        drawn.iter().map(|(asked, record)| asked_in(*asked, *record).into()).collect();
    for (number, observed) in OBSERVED_PLACE.answers(&mut calls).into_iter().enumerate() {
        let [refused, ra, declination, azimuth, altitude, flags] = placed[number];
        let expected = match (refused, seen[number]) {
            (0, [0, seen]) => [0, ra, declination, azimuth, altitude, seen, flags],
            (0, [refused, _]) | (refused, _) => [refused, 0, 0, 0, 0, 0, 0],
        };
        assert_eq!(observed, expected, "{:?}", calls[number].given);
    }
}

/// Stars at a pole of date, at the zenith and at the nadir, and the stars about them, in every weather.
#[test]
fn lacking_an_angle() {
    let observed =
        |sample: Sample| weathers().into_iter().map(move |record| asked_in(sample.asked(), record));
    let calls: Vec<[i64; 18]> = SAMPLES.into_iter().flat_map(observed).collect();
    let lacking = calls.iter().map(|call| observed_place(*call)[6]);
    assert!(lacking.into_iter().all(|flags| flags != HAS_BOTH));
    compare(&OBSERVED_PLACE, "lacking an angle", calls, observed_place);

    let band: Vec<[i64; 18]> =
        ZENITH.band().map(|star| asked_in(star.asked(), come(1013.25, -10.25))).collect();
    for flags in [ZENITH.flags(), HAS_BOTH] {
        assert!(band.iter().any(|call| observed_place(*call)[6] == flags), "none of {flags:x}");
    }
    compare(&OBSERVED_PLACE, "about the zenith", band, observed_place);
}

/// Each refusal alone, every two together and all other choices of them: the lowest number is given, 14 last.
#[test]
fn order_of_refusals() {
    // the refusal, the part that it looks at, and what is not accepted there
    let faults = [
        (YEAR, 0, 2100),
        (DAY, 1, 13),
        (TIME, 3, 24),
        (UT1_MINUS_UTC, 7, 901),
        (STAR, 10, -1),
        (SITE, 8, HIGHEST + 1),
        (READING, 14, PRESSURES.1 + 1),
    ];
    let chosen = |choice: usize| faults.iter().enumerate().filter(move |(fault, _)| choice >> fault & 1 == 1);
    let calls = (0..1 << faults.len()).map(|choice| {
        let mut call = asked_in(GOOD, come(1010.0, 10.0));
        chosen(choice).for_each(|(_, (_, part, bad))| call[*part] = *bad);
        call
    });
    let mut calls: Vec<Call<18>> = calls.map(Into::into).collect();
    let answers = OBSERVED_PLACE.answers(&mut calls);
    for (choice, answer) in answers.iter().enumerate() {
        if let Some(lowest) = chosen(choice).map(|(_, (refusal, _, _))| *refusal).min() {
            assert_eq!(*answer, [lowest, 0, 0, 0, 0, 0, 0], "{:?}", calls[choice].given);
        }
    }
    assert_eq!(answers[0][0], 0);
}

/// Every choice of good and bad parts, of the date to the record; a bad flag is one that is not set.
#[test]
fn every_choice_of_bad_parts() {
    let good = asked_in(GOOD, come(1010.0, 10.0));
    let bad = asked_in(RANGES.map(|(_, high)| high + 1), [PRESSURES.0 - 1, word(f32::NAN), 0, 0]);
    let calls = (0..1 << good.len()).map(|choice| {
        std::array::from_fn(|part| if choice >> part & 1 == 0 { good[part] } else { bad[part] })
    });
    compare(&OBSERVED_PLACE, "every choice of bad parts", calls, observed_place);
}
