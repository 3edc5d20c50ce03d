//! The program `places` a second time, over the second program: tests/places holds the proved one to what this prints.
//!
//!     cargo run --release --package second --example places -- FILE [sexagesimal] [PRESSURE TEMPERATURE] <LINE

use std::io::BufRead;

use second::dates::{moment_of_line, Moment};
use second::place::{place, Place, Site, Star};
use second::refusals::{self, unless, Refusal};
use second::rounding::rnd;
use second::star_list::{night_list, read, Entry, FOUR_NOUGHTS, MOST_ENTRIES};
use second::units::Whole;
use second::weather::lift_at;

/// Pressure and temperature of a command in tenths, where it has them.
type Air = Option<[Whole; 2]>;

fn main() {
    let words: Vec<String> = std::env::args().skip(1).collect();
    let words: Vec<&str> = words.iter().map(String::as_str).collect();
    let Some((path, people, air)) = command(&words) else {
        return eprintln!("usage: places FILE [sexagesimal] [PRESSURE TEMPERATURE]");
    };
    let file = match std::fs::read(path) {
        Ok(file) => file,
        Err(error) => return eprintln!("{path}: {error}"),
    };
    let mut line = Vec::new();
    std::io::stdin().lock().read_until(b'\n', &mut line).expect("standard input can be read");
    let line = line.strip_suffix(b"\n").unwrap_or(&line);
    match answer(&file, line, air) {
        Ok(entries) => print(&entries, people, air.is_some()),
        Err(number) => println!("refused {number}"),
    }
}

/// The path, whether for people, and the air.
fn command<'a>(words: &[&'a str]) -> Option<(&'a str, bool, Air)> {
    let (path, words) = words.split_first()?;
    let (people, words) = match words {
        ["sexagesimal"] | ["sexagesimal", _, _] => (true, &words[1..]),
        _ => (false, words),
    };
    let air = match words {
        [] => None,
        [pressure, temperature] => Some([tenths(pressure)?, tenths(temperature)?]),
        _ => return None,
    };
    Some((path, people, air))
}

/// An optional minus, 1 to 4 digits, and then nothing or a point and one digit: 10 × whole + digit, with the sign.
fn tenths(word: &str) -> Option<Whole> {
    let size = word.strip_prefix('-').unwrap_or(word);
    let (whole, digit) = size.split_once('.').unwrap_or((size, "0"));
    let digits = |text: &str| text.bytes().all(|byte| byte.is_ascii_digit());
    if !(1..=4).contains(&whole.len()) || digit.len() != 1 || !digits(whole) || !digits(digit) {
        return None;
    }
    let tenths = 10 * whole.parse::<Whole>().ok()? + digit.parse::<Whole>().ok()?;
    Some(if size == word { tenths } else { -tenths })
}

/// The mark of an entry, its place, and its observed altitude.
type Seen = (Whole, Place, Whole);

/// The file first, then the form of the line, then date and site, then the air.
fn answer(file: &[u8], line: &[u8], air: Air) -> Result<Vec<Seen>, Refusal> {
    let star = Star { right_ascension: 0, declination: 0, motion_right_ascension: 0, motion_declination: 0 };
    let mut entries = vec![Entry { star, mark: 0, angles: FOUR_NOUGHTS }; MOST_ENTRIES];
    let count = read(file, &mut entries)?;
    entries.truncate(count);
    let (moment, site) = asked(line).ok_or(0)?;
    night_list(moment, site, &mut entries)?;
    if let Some([pressure, temperature]) = air {
        let accepted = (5000..=11_000).contains(&pressure) && (-500..=500).contains(&temperature);
        unless(accepted, refusals::READING)?;
    }
    // no star of a file is refused: each has a place
    let seen = |entry: &Entry| {
        let place = place(moment, site, entry.star)?;
        Ok((entry.mark, place, observed(place.altitude, air)))
    };
    entries.iter().map(seen).collect()
}

/// The altitude and its lift, or 0 where no air is given.
fn observed(altitude: Whole, air: Air) -> Whole {
    air.map_or(0, |[pressure, temperature]| altitude + lift_at(pressure, temperature, altitude))
}

/// A line of `times`, a space, the latitude, a space, the longitude.
fn asked(line: &[u8]) -> Option<(Moment, Site)> {
    let words: Vec<&[u8]> = line.split(|byte| *byte == b' ').collect();
    let [date, time, ut1_minus_utc, latitude, longitude] = words.as_slice() else { return None };
    let moment = moment_of_line(&[*date, *time, *ut1_minus_utc].join(&b' '))?;
    Some((moment, Site { latitude: angle(latitude)?, longitude: angle(longitude)? }))
}

/// An optional minus, then 1 to 12 digits.
fn angle(word: &[u8]) -> Option<Whole> {
    let digits = word.strip_prefix(b"-").unwrap_or(word);
    if !(1..=12).contains(&digits.len()) || !digits.iter().all(u8::is_ascii_digit) {
        return None;
    }
    std::str::from_utf8(word).ok()?.parse().ok()
}

fn print(entries: &[Seen], people: bool, observed: bool) {
    println!("entry mark ra dec az alt{}", if observed { " obs" } else { "" });
    for (index, (mark, place, height)) in entries.iter().enumerate() {
        let Place { right_ascension, declination, azimuth, altitude } = *place;
        let [around_pole, around_zenith, up]: [fn(Whole) -> String; 3] =
            if people { [hours, degrees, signed] } else { [microarcseconds; 3] };
        // a dash for an angle that there is not
        let or_none = |angle: Option<Whole>, form: fn(Whole) -> String| angle.map_or(String::from("-"), form);
        let (ra, azimuth) = (or_none(right_ascension, around_pole), or_none(azimuth, around_zenith));
        let angles = [ra, up(declination), azimuth, up(altitude), up(*height)];
        let columns = if observed { 5 } else { 4 };
        println!("{index} {mark} {}", angles[..columns].join(" "));
    }
}

fn microarcseconds(angle: Whole) -> String {
    angle.to_string()
}

/// `hh:mm:ss.ss`, 24 h as 0 h.
fn hours(angle: Whole) -> String {
    let n = rnd(angle, 150_000).rem_euclid(8_640_000);
    format!("{:02}:{:02}:{:02}.{:02}", n / 360_000, n / 6_000 % 60, n / 100 % 60, n % 100)
}

/// `ddd:mm:ss.s`, 360° as 0°.
fn degrees(angle: Whole) -> String {
    let n = rnd(angle, 100_000).rem_euclid(12_960_000);
    format!("{:03}:{:02}:{:02}.{}", n / 36_000, n / 600 % 60, n / 10 % 60, n % 10)
}

/// `±dd:mm:ss.s`, with the sign of what is printed.
fn signed(angle: Whole) -> String {
    let n = rnd(angle, 100_000);
    let sign = if n < 0 { '-' } else { '+' };
    let n = n.abs();
    format!("{sign}{:02}:{:02}:{:02}.{}", n / 36_000, n / 600 % 60, n / 10 % 60, n % 10)
}
