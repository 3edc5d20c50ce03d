//! The calendar, the instants and the lines of `times`: `calendar` beside `dates.rs`.
#![cfg(exported = "dates")]

use bridge::chance::{around, Chance};
use bridge::compare::{compare, compare_lent, words};
use bridge::face::{DATE_OF, DAY_OF, INSTANTS, TIMES_LINE};
use bridge::function::Call;
use bridge::steps::about_every_step;
use second::dates::{self, Date, Moment, Tt, Ut};
use second::units::Whole;

const RANDOM: usize = 100_000;
const LEAST: i64 = i32::MIN as i64;
const MOST: i64 = i32::MAX as i64;
const FIRST_DAY: i64 = -10227;
const LAST_DAY: i64 = 36524;

fn day_of(given: [i64; 3]) -> [i64; 2] {
    let [year, month, day] = given.map(Whole::from);
    words(dates::day_of(Date { year, month, day }).map(|day| vec![day]))
}

fn date_of([day]: [i64; 1]) -> [i64; 4] {
    let date = dates::date_of(day.into());
    words(date.map(|date| vec![date.year, date.month, date.day]))
}

fn instants(given: [i64; 8]) -> [i64; 3] {
    let [year, month, day, hour, minute, second, ms, ut1_minus_utc] = given.map(Whole::from);
    let instants =
        dates::instants(Moment { date: Date { year, month, day }, hour, minute, second, ms, ut1_minus_utc });
    words(instants.map(|(_, Ut(ut), Tt(tt))| vec![ut, tt]))
}

/// Writes what `times` prints for the line into the room's first bytes; the others stay.
fn times_line(call: &mut Call<0>) -> [i64; 1] {
    let text = dates::answered_line(&call.read);
    call.room[..text.len()].copy_from_slice(text.as_bytes());
    [text.len() as i64]
}

/// The parts of a date and time: each is in range, or now and then next to it, or anything.
fn moment(chance: &mut Chance) -> [i64; 8] {
    let ranges = [(1972, 2099), (1, 12), (1, 31), (0, 23), (0, 59), (0, 60), (0, 999), (-900, 900)];
    ranges.map(|(low, high)| {
        if chance.once_in(100) {
            chance.of_any_size(LEAST, MOST)
        } else if chance.once_in(50) {
            chance.one_of(&[low - 1, low, high, high + 1])
        } else {
            chance.within(low, high)
        }
    })
}

#[test]
fn every_day() {
    let days = FIRST_DAY - 1000..=LAST_DAY + 1000;
    compare(&DATE_OF, "every day", days.map(|day| [day]), date_of);
    let ends = around(&[i64::MIN, LEAST, 0, MOST, i64::MAX], 3);
    compare(&DATE_OF, "ends", ends.iter().map(|day| [*day]), date_of);

    // with months and days that are none
    let days = |year: i64, month: i64| (-1..=33).map(move |day| [year, month, day]);
    let months = |year: i64| (-1..=14).flat_map(move |month| days(year, month));
    compare(&DAY_OF, "every day", (1970..=2102).flat_map(months), day_of);

    let parts = around(&[LEAST, 0, 12, 31, 2000, MOST], 1);
    let mut chance = Chance::new("every_day");
    let ends = (0..RANDOM).map(|_| [(); 3].map(|()| chance.one_of(&parts)));
    let ends = ends.filter(|parts| parts.iter().all(|part| (LEAST..=MOST).contains(part)));
    compare(&DAY_OF, "ends", ends, day_of);
}

/// The last two seconds before a step, its added second, and the first second after: to the millisecond.
#[test]
fn both_sides_of_every_step() {
    let milliseconds = |[year, month, day, hour, minute, second]: [i64; 6]| {
        (-1..=1000).flat_map(move |ms| {
            [-900, 0, 900].map(|ut1_minus_utc| [year, month, day, hour, minute, second, ms, ut1_minus_utc])
        })
    };
    let calls = about_every_step().into_iter().flat_map(milliseconds);
    compare(&INSTANTS, "both sides of every step", calls, instants);
}

/// Second 60 of every day, at the minute where it may be and at others.
#[test]
fn added_second_of_every_day() {
    let calls = (FIRST_DAY..=LAST_DAY).flat_map(|number| {
        let [_, year, month, day] = date_of([number]);
        let minutes = [(23, 59), (23, 58), (22, 59), (0, 0)];
        minutes.map(|(hour, minute)| [year, month, day, hour, minute, 60, 0, 0])
    });
    compare(&INSTANTS, "second 60 of every day", calls, instants);
}

#[test]
fn random_moments() {
    let mut chance = Chance::new("random_moments");
    let random = (0..RANDOM).map(|_| moment(&mut chance));
    compare(&INSTANTS, "random", random, instants);
}

/// Checks run in rising number: every choice of good and bad parts.
#[test]
fn order_of_refusals() {
    let good = [2000, 1, 1, 12, 0, 0, 0, 0];
    let bad = [1971, 13, 32, 24, 60, 61, 1000, 901];
    let calls = (0..1 << good.len()).map(|choice| {
        std::array::from_fn(|part| if choice >> part & 1 == 0 { good[part] } else { bad[part] })
    });
    compare(&INSTANTS, "every choice of bad parts", calls, instants);
}

/// A line of the form, from parts that are printed even where they are in no range.
fn line(chance: &mut Chance) -> Vec<u8> {
    let [year, month, day, hour, minute, second, ms, ut1_minus_utc] = moment(chance);
    let digits = |number: i64, most: i64| number.rem_euclid(most + 1);
    let (year, month, day) = (digits(year, 9999), digits(month, 99), digits(day, 99));
    let (hour, minute, second) = (digits(hour, 99), digits(minute, 99), digits(second, 99));
    let (ms, ut1_minus_utc) = (digits(ms, 999), ut1_minus_utc % 10_000);
    let mut text = format!("{year:04}-{month:02}-{day:02} {hour:02}:{minute:02}:{second:02}.{ms:03} ");
    if ut1_minus_utc < 0 || chance.once_in(100) {
        text.push('-');
    }
    let width = chance.within(1, 4) as usize;
    text += &format!("{:0width$}", ut1_minus_utc.abs());
    text.into_bytes()
}

/// A line of the form with a byte or two changed, put in or left out, or cut short.
fn damaged(chance: &mut Chance) -> Vec<u8> {
    let mut line = line(chance);
    for _ in 0..chance.within(1, 2) {
        let at = chance.within(0, line.len() as i64 - 1) as usize;
        let byte = chance.one_of(b"0123456789-+:. \t\r/;\0\xff");
        match chance.within(0, 4) {
            0 => line[at] = byte,
            1 => line.insert(at, byte),
            2 if line.len() > 1 => _ = line.remove(at),
            3 => line.truncate(at.max(1)),
            _ => line.push(byte),
        }
    }
    line
}

#[test]
fn lines_of_times() {
    const ROOM: usize = 64;
    let call = |read: Vec<u8>| Call { given: [], read, room: vec![b'~'; ROOM] };
    let mut chance = Chance::new("lines_of_times");
    let valid = (0..RANDOM).map(|_| call(line(&mut chance)));
    compare_lent(&TIMES_LINE, "lines of the form", valid, times_line);

    let mut chance = Chance::new("lines_of_times, damaged");
    let lines = (0..RANDOM).map(|_| call(damaged(&mut chance)));
    compare_lent(&TIMES_LINE, "damaged lines", lines, times_line);

    let long = (0..2000).map(|length| call(vec![b'0'; length]));
    compare_lent(&TIMES_LINE, "lines of any length", long, times_line);

    // every byte at every place of one line
    let whole = b"2016-12-31 23:59:60.500 -400";
    let places = (0..whole.len()).flat_map(|at| {
        (0..=255).map(move |byte| {
            let mut line = whole.to_vec();
            line[at] = byte;
            call(line)
        })
    });
    compare_lent(&TIMES_LINE, "every byte at every place", places, times_line);
}
