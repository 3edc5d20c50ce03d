//! The second program's answers, in the words of the exported functions that stand beside them.

use second::dates::{Date, Moment, Tt};
use second::place::{self, Place, Site, Star};
use second::reading;
use second::refusals;
use second::star_list;
use second::turning::{self, Direction};
use second::units::Whole;
use second::utc::{self, Utc};
use second::weather::{self, Float, Reading, Weather};

use crate::compare::words;
use crate::entries::{bytes_of_entries, entries_of};
use crate::function::Call;

pub fn place(given: [i64; 14]) -> [i64; 6] {
    let (moment, site, star) = asked_of(given);
    words(place::place(moment, site, star).map(|place| [&angles(place)[..], &[flags(place)]].concat()))
}

/// Nought for an angle that there is not.
fn angles(place: Place) -> [Whole; 4] {
    let Place { right_ascension, declination, azimuth, altitude } = place;
    [right_ascension.unwrap_or(0), declination, azimuth.unwrap_or(0), altitude]
}

/// Whether there is a right ascension, and whether an azimuth.
fn flags(place: Place) -> Whole {
    both(place.right_ascension.is_some().into(), place.azimuth.is_some().into()).into()
}

fn asked_of(given: [i64; 14]) -> (Moment, Site, Star) {
    let [moment @ .., latitude, longitude, right_ascension, declination, motion_right_ascension, motion_declination] =
        given.map(Whole::from);
    let star = Star { right_ascension, declination, motion_right_ascension, motion_declination };
    (moment_of(moment), Site { latitude, longitude }, star)
}

fn moment_of([year, month, day, hour, minute, second, ms, ut1_minus_utc]: [Whole; 8]) -> Moment {
    Moment { date: Date { year, month, day }, hour, minute, second, ms, ut1_minus_utc }
}

pub fn utc([tt]: [i64; 1]) -> [i64; 5] {
    let two = |low: Whole, high: Whole| Whole::from(both(low as i64, high as i64));
    words(utc::utc(Tt(tt.into())).map(|Utc { date: Date { year, month, day }, hour, minute, second, ms }| {
        vec![two(year, month), two(day, hour), two(minute, second), ms]
    }))
}

/// The record with a reading; refused, the record as it came, but for its flags, which are 0 or 1.
pub fn weather([record @ .., kind, reading]: [i64; 6]) -> [i64; 3] {
    let taken = reading_of(kind, reading).and_then(|reading| weather_of(record).with(reading));
    let ([pressure, temperature, has_pressure, has_temperature], refused) = match taken {
        Ok(weather) => (record_of(weather), 0),
        Err(refusal) => (record, refusal),
    };
    let flag = |flag: i64| i64::from(flag != 0);
    [refused, both(pressure, temperature), both(flag(has_pressure), flag(has_temperature))]
}

/// Kinds are 0 nothing, 1 pressure, 2 temperature; no other is accepted.
pub fn reading_of(kind: i64, reading: i64) -> Result<Reading, i64> {
    match kind {
        0 => Ok(Reading::Nothing),
        1 => Ok(Reading::Pressure(float_of(reading))),
        2 => Ok(Reading::Temperature(float_of(reading))),
        _ => Err(refusals::READING),
    }
}

/// A float that has not come is not looked at.
fn weather_of([pressure, temperature, has_pressure, has_temperature]: [i64; 4]) -> Weather {
    Weather {
        pressure: (has_pressure != 0).then(|| float_of(pressure)),
        temperature: (has_temperature != 0).then(|| float_of(temperature)),
    }
}

/// What has not come is 1010 hPa, or 10 degrees.
pub fn record_of(Weather { pressure, temperature }: Weather) -> [i64; 4] {
    let word = |float: Option<Float>, start: f32| float.map_or(start.to_bits(), |Float(bits)| bits).into();
    [word(pressure, 1010.0), word(temperature, 10.0), pressure.is_some().into(), temperature.is_some().into()]
}

fn float_of(word: i64) -> Float {
    Float(word.try_into().expect("32 bits of a float"))
}

pub fn observed_altitude([altitude, record @ ..]: [i64; 5]) -> [i64; 2] {
    let observed = weather::observed_altitude(altitude.into(), weather_of(record));
    words(observed.map(|altitude| vec![altitude]))
}

pub fn observed_place(
    [asked @ .., pressure, temperature, has_pressure, has_temperature]: [i64; 18],
) -> [i64; 7] {
    let (moment, site, star) = asked_of(asked);
    let weather = weather_of([pressure, temperature, has_pressure, has_temperature]);
    let observed = weather::observed_place(moment, site, star, weather);
    words(observed.map(|(place, altitude)| [&angles(place)[..], &[altitude, flags(place)]].concat()))
}

/// Two parts of 32 bits are one word, the first its lower half.
pub fn both(low: i64, high: i64) -> i64 {
    low & 0xffff_ffff | high << 32
}

pub fn turn(given: [i64; 5]) -> [i64; 4] {
    let [x, y, z, axis, angle] = given.map(Whole::from);
    let turned = turning::turn(Direction { x, y, z }, axis, angle);
    words(turned.map(|turned| vec![turned.x, turned.y, turned.z]))
}

/// The angle and whether there is one, or two noughts.
pub fn angle([h, v]: [i64; 2]) -> [i64; 2] {
    let angle = reading::reading(h.into(), v.into());
    [i64::try_from(angle.unwrap_or(0)).expect("an answer of 64 bits"), angle.is_some().into()]
}

pub fn list_count(call: &mut Call<0>) -> [i64; 2] {
    words(star_list::stars(&call.read).map(|stars| vec![stars.len() as Whole]))
}

pub fn list_star(call: &mut Call<1>) -> [i64; 4] {
    let [index] = call.given;
    words(star_list::star(&call.read, index as usize).map(|star| {
        let motions = both(star.motion_right_ascension as i64, star.motion_declination as i64);
        vec![star.right_ascension, star.declination, motions.into()]
    }))
}

pub fn list_write(call: &mut Call<0>) -> [i64; 2] {
    let word = |bytes: &[u8]| i64::from_le_bytes(bytes.try_into().expect("a whole word"));
    let numbers: Vec<Whole> = call.read.chunks_exact(8).map(|bytes| word(bytes).into()).collect();
    words(star_list::write_numbers(&numbers, &mut call.room).map(|length| vec![length as Whole]))
}

pub fn read_list(call: &mut Call<0>) -> [i64; 2] {
    let mut entries = entries_of(&call.room);
    let answer = star_list::read(&call.read, &mut entries);
    call.room = bytes_of_entries(&entries);
    words(answer.map(|count| vec![count as Whole]))
}

pub fn write_list(call: &mut Call<0>) -> [i64; 2] {
    let entries = entries_of(&call.read);
    words(star_list::write(&entries, &mut call.room).map(|length| vec![length as Whole]))
}

pub fn night_list(call: &mut Call<10>) -> [i64; 2] {
    let [moment @ .., latitude, longitude] = call.given.map(Whole::from);
    let mut entries = entries_of(&call.room);
    let answer = star_list::night_list(moment_of(moment), Site { latitude, longitude }, &mut entries);
    call.room = bytes_of_entries(&entries);
    words(answer.map(|count| vec![count as Whole]))
}
