//! The weather record and observed altitudes: `weather` beside `weather.rs`.
#![cfg(exported = "weather")]

use bridge::beside::{observed_altitude, reading_of, record_of, weather};
use bridge::chance::{around, Chance};
use bridge::compare::{compare, compare_told, print};
use bridge::face::{OBSERVED_ALTITUDE, WEATHER};
use bridge::floats::{any_float, edges, halves_of_tenths, one_nan, powers_of_two, word};
use bridge::function::Call;
use bridge::records::{accepted_record, altitude, at, come, reading, record, taking, weathers, Record};
use bridge::records::{FLAGS, HIGHEST, KINDS, LOWEST, NOUGHTS, PAST_QUARTER};
use second::weather::NO_WEATHER;

const RANDOM: usize = 200_000;
const SEQUENCES: usize = 2_000;
const READINGS: usize = 60;

/// Altitudes that are so far apart keep their order; nearer ones may not, for a sine has whole parts.
const APART: i64 = 119;

fn compare_weather(what: &str, calls: impl IntoIterator<Item = [i64; 6]>) {
    compare_told(&WEATHER, what, calls, one_nan, weather);
}

fn compare_altitudes(what: &str, calls: impl IntoIterator<Item = [i64; 5]>) {
    compare(&OBSERVED_ALTITUDE, what, calls, observed_altitude);
}

/// What is observed at each of the calls.
fn seen(calls: &[[i64; 5]]) -> Vec<i64> {
    let mut calls: Vec<Call<5>> = calls.iter().map(|call| (*call).into()).collect();
    let answer = |[refused, seen]: [i64; 2]| {
        assert_eq!(refused, 0);
        seen
    };
    OBSERVED_ALTITUDE.answers(&mut calls).into_iter().map(answer).collect()
}

/// Every edge of the floats and every power of two, as a reading of each kind over each weather.
#[test]
fn readings_at_every_edge() {
    let floats = [edges(), powers_of_two()].concat();
    let readings = floats.iter().flat_map(|float| KINDS.map(|kind| [kind, *float]));
    let over_each = |reading| weathers().into_iter().map(move |record| taking(record, reading));
    compare_weather("readings at every edge", readings.flat_map(over_each));
}

/// The same floats in the record, come or not, over readings that are accepted and such as are not.
#[test]
fn records_at_every_edge() {
    let readings = [[0, word(f32::NAN)], [1, word(990.0)], [2, word(-7.5)], [3, 0], [2, word(51.0)]];
    let edges = edges();
    let mut floats: Vec<[i64; 2]> = edges.iter().flat_map(|a| edges.iter().map(|b| [*a, *b])).collect();
    floats.extend(powers_of_two().into_iter().flat_map(|float| [[float, word(10.0)], [word(1010.0), float]]));
    let flags = [[0, 0], [0, 1], [1, 0], [1, 1]];
    let with_flags = |[a, b]: &[i64; 2]| flags.map(|[has_a, has_b]| [*a, *b, has_a, has_b]);
    let records: Vec<Record> = floats.iter().flat_map(with_flags).collect();

    let calls = records.iter().flat_map(|record| readings.map(|reading| taking(*record, reading)));
    compare_weather("records at every edge", calls);
    compare_altitudes("records at every edge", records.iter().map(|record| at(0, *record)));
}

/// A flag that is not nought is set, whatever the number.
#[test]
fn flags() {
    let floats = [come(1000.0, -3.0), come(f32::NAN, 50.000004)];
    let with_flags = |[pressure, temperature, _, _]: Record| {
        FLAGS.into_iter().flat_map(move |first| FLAGS.map(|second| [pressure, temperature, first, second]))
    };
    let records: Vec<Record> = floats.into_iter().flat_map(with_flags).collect();
    let calls = records.iter().flat_map(|record| KINDS.map(|kind| taking(*record, [kind, word(500.0)])));
    compare_weather("flags", calls);
    compare_altitudes("flags", records.iter().map(|record| at(LOWEST, *record)));
}

/// Every half of a tenth that is accepted, and the floats next to it: near the horizon a tenth more or less shows.
#[test]
fn halves() {
    let pressures = halves_of_tenths(500, 1100).into_iter().map(|float| [float, word(10.0), 1, 1]);
    let temperatures = halves_of_tenths(-50, 50).into_iter().map(|float| [word(1010.0), float, 1, 1]);
    let calls = pressures.chain(temperatures).flat_map(|record| [at(0, record), at(LOWEST, record)]);
    compare_altitudes("halves of tenths", calls);
}

/// The lowest altitude that is lifted, the horizon, where g is half a quarter, the highest that is lifted, where g passes a
/// quarter, the zenith, and the ends of the type: with the altitudes next to each, in each weather.
#[test]
fn altitudes_at_every_edge() {
    let (half_way, last_lifted) = (161_256_967_464, 323_609_689_070);
    let edges = [i64::MIN, -HIGHEST, LOWEST, 0, half_way, last_lifted, PAST_QUARTER, HIGHEST, i64::MAX];
    let altitudes = around(&edges, 1_000);
    let in_each =
        |altitude: &i64| weathers().into_iter().map(|record| at(*altitude, record)).collect::<Vec<_>>();
    compare_altitudes("altitudes at every edge", altitudes.iter().flat_map(in_each));
}

#[test]
fn random_readings() {
    let mut chance = Chance::new("random_readings");
    let random = (0..RANDOM).map(|_| taking(record(&mut chance), reading(&mut chance)));
    compare_weather("random", random);
    let any = (0..RANDOM).map(|_| {
        let [pressure, temperature, reading] = [(); 3].map(|()| any_float(&mut chance));
        let [first, second, kind] = [(); 3].map(|()| i64::from(chance.any() as i32));
        let kind = if chance.once_in(2) { kind } else { kind & 3 };
        [pressure, temperature, first, second, kind, reading]
    });
    compare_weather("any numbers", any);
}

#[test]
fn random_altitudes() {
    let mut chance = Chance::new("random_altitudes");
    let random = (0..RANDOM).map(|_| at(altitude(&mut chance), record(&mut chance)));
    compare_altitudes("random", random);
}

/// From a record of noughts on, readings of which some are refused: what the module answers is lent to it again, and the
/// second program keeps a record of its own.
#[test]
fn sequences_of_readings() {
    let mut chance = Chance::new("sequences_of_readings");
    let mut ours = vec![NOUGHTS; SEQUENCES];
    let mut theirs = vec![NO_WEATHER; SEQUENCES];
    let mut refusals = 0;
    for _ in 0..READINGS {
        let readings: Vec<[i64; 2]> = ours.iter().map(|_| reading(&mut chance)).collect();
        let taken = ours.iter().zip(&readings).map(|(record, reading)| taking(*record, *reading));
        let mut calls: Vec<Call<6>> = taken.map(Into::into).collect();
        for (number, answer) in WEATHER.answers(&mut calls).into_iter().enumerate() {
            let (kind, float) = (readings[number][0], readings[number][1]);
            let with = reading_of(kind, float).and_then(|reading| theirs[number].with(reading));
            // the record stays where it is refused: all noughts, where nothing was ever accepted
            let expected =
                with.map_or_else(|refusal| (refusal, ours[number]), |weather| (0, record_of(weather)));
            assert_eq!(answered(answer), expected, "{:?}", calls[number].given);
            (_, ours[number]) = answered(answer);
            theirs[number] = with.unwrap_or(theirs[number]);
            refusals += usize::from(with.is_err());
        }
        let altitudes: Vec<i64> = ours.iter().map(|_| altitude(&mut chance)).collect();
        let calls: Vec<[i64; 5]> =
            altitudes.iter().zip(&ours).map(|(altitude, record)| at(*altitude, *record)).collect();
        for (number, seen) in seen(&calls).into_iter().enumerate() {
            let expected = second::weather::observed_altitude(altitudes[number].into(), theirs[number]);
            assert_eq!(Ok(seen.into()), expected, "{:?}", calls[number]);
        }
    }
    let steps = SEQUENCES * READINGS;
    assert!(0 < refusals && refusals < steps);
    print(&format!("compared turbelicus_weather, in sequence: {steps}, answered {}", steps - refusals));
}

/// The refusal and the record of an answer.
fn answered([refused, floats, flags]: [i64; 3]) -> (i64, Record) {
    let half = |word: i64| word & 0xffff_ffff;
    (refused, [half(floats), half(floats >> 32), half(flags), half(flags >> 32)])
}

/// What the header says of an observed altitude: never under the true one, and within a quarter where that is.
#[test]
fn lifted_and_within_a_quarter() {
    let mut chance = Chance::new("lifted_and_within_a_quarter");
    let mut call = || {
        let low = chance.one_of(&[-HIGHEST, LOWEST, PAST_QUARTER - 1_000_000_000]);
        at(chance.within(low, HIGHEST), accepted_record(&mut chance))
    };
    let calls: Vec<[i64; 5]> = (0..RANDOM).map(|_| call()).collect();
    for (call, seen) in calls.iter().zip(seen(&calls)) {
        assert!((call[0]..=HIGHEST).contains(&seen), "{call:?} is seen at {seen}");
    }
}

/// Pairs just so far apart, anywhere and in any weather.
#[test]
fn order_of_altitudes() {
    let mut chance = Chance::new("order_of_altitudes");
    let mut pair = || {
        let low = chance.one_of(&[-HIGHEST, LOWEST - APART, LOWEST, 0]);
        let high = chance.one_of(&[LOWEST, 36_000_000_000, HIGHEST - APART]).max(low + APART);
        let (altitude, record) = (chance.within(low, high), accepted_record(&mut chance));
        [at(altitude, record), at(altitude + APART, record)]
    };
    let calls: Vec<[i64; 5]> = (0..RANDOM).flat_map(|_| pair()).collect();
    for (calls, seen) in calls.chunks_exact(2).zip(seen(&calls).chunks_exact(2)) {
        assert!(seen[0] < seen[1], "{calls:?} are seen at {seen:?}");
    }
}

/// Every altitude of some windows, in the weathers that lift most and least and in the formula's own: the farthest two that
/// meet or change their order are not so far apart.
#[test]
fn order_in_dense_windows() {
    const WINDOW: i64 = 20_000;
    let windows =
        [LOWEST - 1_000, LOWEST + 50_000_000, -1_000, 10_800_000_000, 36_000_000_000, PAST_QUARTER - 10_000];
    let mut farthest = 0;
    for low in windows {
        for record in [come(1100.0, -50.0), come(1010.0, 10.0), come(500.0, 50.0)] {
            let calls: Vec<[i64; 5]> = (low..low + WINDOW).map(|altitude| at(altitude, record)).collect();
            farthest = farthest.max(farthest_out_of_order(&seen(&calls)));
        }
    }
    // the first window has two that are one less apart and meet
    assert_eq!(farthest, APART as usize - 1, "altitudes {farthest} apart");
    print(&format!(
        "measured turbelicus_observed_altitude: altitudes that meet or change their order are at most {farthest} apart"
    ));
}

/// How far apart two numbers stand at most, of which the first is not the smaller.
fn farthest_out_of_order(numbers: &[i64]) -> usize {
    // the first place of each number that is above all before it: no other is the first of the farthest two
    let mut records: Vec<usize> = Vec::new();
    let mut farthest = 0;
    for (place, number) in numbers.iter().enumerate() {
        let first = records.partition_point(|before| numbers[*before] < *number);
        match records.get(first) {
            Some(before) => farthest = farthest.max(place - before),
            None => records.push(place),
        }
    }
    farthest
}
