//! Document 01, "Dates": the calendar, TAI−UTC, the two instants of a UTC date, and the program `times`.

use crate::refusals::{self, unless, Refusal};
use crate::units::{Whole, DAY};

/// An instant in UT, ms from J2000.0: only sidereal time takes it.
#[derive(Clone, Copy, Debug, PartialEq, Eq)]
pub struct Ut(pub Whole);

/// An instant in TT, ms from J2000.0: all but sidereal time takes it.
#[derive(Clone, Copy, Debug, PartialEq, Eq)]
pub struct Tt(pub Whole);

/// A day of the calendar.
#[derive(Clone, Copy, Debug, PartialEq, Eq, PartialOrd, Ord)]
pub struct Date {
    pub year: Whole,
    pub month: Whole,
    pub day: Whole,
}

/// A UTC date and time, and UT1−UTC in ms.
#[derive(Clone, Copy, Debug, PartialEq, Eq)]
pub struct Moment {
    pub date: Date,
    pub hour: Whole,
    pub minute: Whole,
    pub second: Whole,
    pub ms: Whole,
    pub ut1_minus_utc: Whole,
}

const FIRST_YEAR: Whole = 1972;
const LAST_YEAR: Whole = 2099;
const FIRST_DAY: Whole = -10227;
const LAST_DAY: Whole = 36524;

/// Days per month come from two rows, common and leap.
#[rustfmt::skip]
const DAYS: [[Whole; 12]; 2] = [
    [31, 28, 31, 30, 31, 30, 31, 31, 30, 31, 30, 31],
    [31, 29, 31, 30, 31, 30, 31, 31, 30, 31, 30, 31],
];

/// Gregorian calendar.
fn is_leap(year: Whole) -> bool {
    year % 4 == 0 && (year % 100 != 0 || year % 400 == 0)
}

/// The months of a year that is in the span.
fn months(year: Whole) -> [Whole; 12] {
    DAYS[usize::from(is_leap(year))]
}

fn days_of_year(year: Whole) -> Whole {
    months(year).iter().sum()
}

/// Refused 1 and 2: year not 1972 to 2099; no such month or day.
fn check_date(date: Date) -> Result<(), Refusal> {
    unless((FIRST_YEAR..=LAST_YEAR).contains(&date.year), refusals::YEAR)?;
    unless((1..=12).contains(&date.month), refusals::DAY)?;
    let days = months(date.year)[date.month as usize - 1];
    unless((1..=days).contains(&date.day), refusals::DAY)
}

/// The day number: day 0 is 2000-01-01.
pub fn day_of(date: Date) -> Result<Whole, Refusal> {
    check_date(date)?;
    let years_after: Whole = (2000..date.year).map(days_of_year).sum();
    let years_before: Whole = (date.year..2000).map(days_of_year).sum();
    let months_before: Whole = months(date.year)[..date.month as usize - 1].iter().sum();
    Ok(years_after - years_before + months_before + date.day - 1)
}

/// The date of a day number, counted on from the first day of the span; outside −10227 to 36524 is refused 1.
pub fn date_of(day: Whole) -> Result<Date, Refusal> {
    unless((FIRST_DAY..=LAST_DAY).contains(&day), refusals::YEAR)?;
    let mut rest = day - FIRST_DAY;
    let mut year = FIRST_YEAR;
    while rest >= days_of_year(year) {
        rest -= days_of_year(year);
        year += 1;
    }
    let mut month = 1;
    for days in months(year) {
        if rest < days {
            break;
        }
        rest -= days;
        month += 1;
    }
    Ok(Date { year, month, day: rest + 1 })
}

/// Every date of 1972 to 2099, in turn.
pub fn dates() -> impl Iterator<Item = Date> {
    let of_month = |year| move |(month, days)| (1..=days).map(move |day| Date { year, month, day });
    (FIRST_YEAR..=LAST_YEAR).flat_map(move |year| (1..).zip(months(year)).flat_map(of_month(year)))
}

/// TAI−UTC is one second more from 1 July of each of these years,
const JULY_STEPS: [Whole; 11] = [1972, 1981, 1982, 1983, 1985, 1992, 1993, 1994, 1997, 2012, 2015];
/// and from 1 January of each of these.
const JANUARY_STEPS: [Whole; 16] =
    [1973, 1974, 1975, 1976, 1977, 1978, 1979, 1980, 1988, 1990, 1991, 1996, 1999, 2006, 2009, 2017];

/// The dates from which TAI−UTC is one second more.
pub fn steps() -> impl Iterator<Item = Date> {
    let first_of = |month| move |year| Date { year, month, day: 1 };
    let july = JULY_STEPS.into_iter().map(first_of(7));
    july.chain(JANUARY_STEPS.into_iter().map(first_of(1)))
}

/// TAI−UTC is 10 s from 1972-01-01 and one more from each step.
pub fn tai_minus_utc(date: Date) -> Whole {
    10 + steps().filter(|step| *step <= date).count() as Whole
}

/// The day is followed by a step.
fn is_before_step(day: Whole) -> bool {
    steps().any(|step| day_of(step) == Ok(day + 1))
}

/// Second 60 exists only at 23:59:60 of the day before a step, with its 1,000 ms.
fn time_exists(moment: Moment, day: Whole) -> bool {
    let ordinary = (0..24).contains(&moment.hour)
        && (0..60).contains(&moment.minute)
        && (0..60).contains(&moment.second);
    let added = (moment.hour, moment.minute, moment.second) == (23, 59, 60) && is_before_step(day);
    (ordinary || added) && (0..1000).contains(&moment.ms)
}

/// The day number and the instants in UT and TT, or refused 1 to 4.
pub fn instants(moment: Moment) -> Result<(Whole, Ut, Tt), Refusal> {
    let day = day_of(moment.date)?;
    unless(time_exists(moment, day), refusals::TIME)?;
    unless((-900..=900).contains(&moment.ut1_minus_utc), refusals::UT1_MINUS_UTC)?;

    let ms_of_day = ((moment.hour * 60 + moment.minute) * 60 + moment.second) * 1000 + moment.ms;
    let utc = day * DAY + ms_of_day - DAY / 2;
    // UT = day × 86,400,000 + ms of day − 43,200,000 + (UT1−UTC).
    let ut = Ut(utc + moment.ut1_minus_utc);
    // TT = the same without the last term, plus 32,184 + 1000 × (TAI−UTC).
    let tt = Tt(utc + 32_184 + 1000 * tai_minus_utc(moment.date));
    Ok((day, ut, tt))
}

/// The program `times`: a header, then what each line of the input is answered.
pub fn times(input: &[u8]) -> Vec<u8> {
    let mut output = b"day ut tt\n".to_vec();
    // a last line without its LF counts; what follows the last LF, if nothing, is no line
    for line in input.split_inclusive(|byte| *byte == b'\n') {
        let line = line.strip_suffix(b"\n").unwrap_or(line);
        output.extend(answered_line(line).bytes());
        output.push(b'\n');
    }
    output
}

/// For each line the day number, UT and TT, or the refusal; `refused 0` for a line of another form. No LF is given or made.
pub fn answered_line(line: &[u8]) -> String {
    let Some(moment) = moment_of_line(line) else {
        return "refused 0".to_string();
    };
    match instants(moment) {
        Ok((day, Ut(ut), Tt(tt))) => format!("{day} {ut} {tt}"),
        Err(refusal) => format!("refused {refusal}"),
    }
}

/// `YYYY-MM-DD hh:mm:ss.mmm d` (d is UT1−UTC in ms: an optional minus, then 1 to 4 digits).
pub fn moment_of_line(line: &[u8]) -> Option<Moment> {
    const FORM: &[u8] = b"0000-00-00 00:00:00.000 ";
    if line.len() < FORM.len() {
        return None;
    }
    let (head, ut1_minus_utc) = line.split_at(FORM.len());
    let of_form = |(byte, form): (&u8, &u8)| match form {
        b'0' => byte.is_ascii_digit(),
        mark => byte == mark,
    };
    if !head.iter().zip(FORM).all(of_form) {
        return None;
    }
    Some(Moment {
        date: Date { year: number(&head[0..4]), month: number(&head[5..7]), day: number(&head[8..10]) },
        hour: number(&head[11..13]),
        minute: number(&head[14..16]),
        second: number(&head[17..19]),
        ms: number(&head[20..23]),
        ut1_minus_utc: difference_of(ut1_minus_utc)?,
    })
}

/// An optional minus, then 1 to 4 digits.
fn difference_of(text: &[u8]) -> Option<Whole> {
    let digits = text.strip_prefix(b"-").unwrap_or(text);
    if !(1..=4).contains(&digits.len()) || !digits.iter().all(u8::is_ascii_digit) {
        return None;
    }
    let size = number(digits);
    Some(if digits.len() < text.len() { -size } else { size })
}

/// The number that digits write.
fn number(digits: &[u8]) -> Whole {
    digits.iter().fold(0, |number, digit| number * 10 + Whole::from(digit - b'0'))
}
