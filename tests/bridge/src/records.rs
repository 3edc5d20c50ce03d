//! Weather records, readings of the probe and altitudes to try.

use second::units::QUARTER;

use crate::chance::Chance;
use crate::floats::{any_float, pressure, temperature, word};

/// Pressure, temperature, and whether each has come.
pub type Record = [i64; 4];

pub const NOUGHTS: Record = [0; 4];

/// Numbers that C may have for a flag: all but the first are set.
pub const FLAGS: [i64; 8] = [0, 1, -1, 2, 256, 1 << 16, i32::MIN as i64, i32::MAX as i64];

/// Kinds of a reading: nothing, pressure, temperature, and others that are none.
pub const KINDS: [i64; 8] = [0, 1, 2, 3, 4, -1, i32::MIN as i64, i32::MAX as i64];

/// The lowest altitude that is lifted, the lowest whose g is a quarter, and the highest that there is.
pub const LOWEST: i64 = -3_600_000_000;
pub const PAST_QUARTER: i64 = 323_609_690_705;
pub const HIGHEST: i64 = QUARTER as i64;

/// The record where both have come.
pub fn come(pressure: f32, temperature: f32) -> Record {
    [word(pressure), word(temperature), 1, 1]
}

/// Weathers at the ends and in the middle of what is accepted, and such as lift nothing.
pub fn weathers() -> Vec<Record> {
    // at 505 hPa and 10 degrees a lift is halved: each odd one ends on a half
    let mut weathers =
        vec![NOUGHTS, come(1010.0, 10.0), come(505.0, 10.0), come(1013.25, -10.25), come(987.65, -0.0)];
    for pressure in [500.0, 1100.0] {
        weathers.extend([-50.0, 50.0].map(|temperature| come(pressure, temperature)));
    }
    let [pressure, temperature, _, _] = come(1100.0, -50.0);
    weathers.extend([[pressure, temperature, 1, 0], [pressure, temperature, 0, 1]]);
    weathers
}

/// A record where both have come, and are accepted.
pub fn accepted_record(chance: &mut Chance) -> Record {
    [pressure(chance), temperature(chance), 1, 1]
}

/// A record that mostly is accepted: now and then it has any float, or another flag.
pub fn record(chance: &mut Chance) -> Record {
    let mut record = accepted_record(chance);
    for float in &mut record[..2] {
        if chance.once_in(8) {
            *float = any_float(chance);
        }
    }
    for flag in &mut record[2..] {
        if chance.once_in(4) {
            *flag = chance.one_of(&FLAGS);
        }
    }
    record
}

/// A kind and a reading of it, mostly accepted.
pub fn reading(chance: &mut Chance) -> [i64; 2] {
    let kind = if chance.once_in(10) { chance.one_of(&KINDS) } else { chance.within(0, 2) };
    let reading = match kind {
        _ if chance.once_in(4) => any_float(chance),
        1 => pressure(chance),
        _ => temperature(chance),
    };
    [kind, reading]
}

/// An altitude that a place may have, low ones more often; now and then any number.
pub fn altitude(chance: &mut Chance) -> i64 {
    match chance.within(0, 9) {
        0 => chance.any(),
        1 => chance.of_any_size(i64::MIN, i64::MAX),
        2 => chance.within(-HIGHEST, HIGHEST),
        3 => chance.within(PAST_QUARTER - 1_000_000_000, HIGHEST),
        4 | 5 => chance.within(0, HIGHEST),
        _ => chance.within(LOWEST - 1_000, 36_000_000_000),
    }
}

/// What `turbelicus_weather` is given.
pub fn taking(record: Record, [kind, reading]: [i64; 2]) -> [i64; 6] {
    let [pressure, temperature, has_pressure, has_temperature] = record;
    [pressure, temperature, has_pressure, has_temperature, kind, reading]
}

/// What `turbelicus_observed_altitude` is given.
pub fn at(altitude: i64, record: Record) -> [i64; 5] {
    let [pressure, temperature, has_pressure, has_temperature] = record;
    [altitude, pressure, temperature, has_pressure, has_temperature]
}

/// What `turbelicus_observed_place` is given.
pub fn asked_in(asked: [i64; 14], record: Record) -> [i64; 18] {
    std::array::from_fn(|part| if part < asked.len() { asked[part] } else { record[part - asked.len()] })
}
