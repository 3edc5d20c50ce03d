//! What the firmware prints is stored in firmware/expected.txt, in expected_weather.txt with the weather of
//! weather.txt, and in expected_zenith.txt of the list zenith.slt; here the second program says what it must be.

use second::dates::moment_of_line;
use second::place::Site;
use second::star_list::stars;
use second::units::Whole;
use second::weather::{observed_place, Float, Reading, Weather, NO_WEATHER};

/// The site and the lowest altitude of firmware/main.c.
const SITE: Site = Site { latitude: 180_316_000_000, longitude: 51_915_000_000 };
const LOWEST: Whole = 36_000_000_000;

/// The dates of its three runs in the gate.
const DATE: &[u8] = b"2026-03-20 20:00:00.000 0";
const DATE_WITH_WEATHER: &[u8] = b"2026-03-20 21:14:30.000 0";
const DATE_OF_ZENITH: &[u8] = b"2026-03-20 20:00:07.000 0";

#[test]
fn expected_is_what_the_second_program_answers() {
    assert_eq!(printed("stars.slt", DATE, NO_WEATHER), stored("expected.txt"));
}

#[test]
fn expected_at_the_zenith_is_what_the_second_program_answers() {
    let printed = printed("zenith.slt", DATE_OF_ZENITH, NO_WEATHER);
    assert_eq!(printed, stored("expected_zenith.txt"));
    // none stands at azimuth 0 but the star that is in the north
    assert!(printed.starts_with("0 stays 324000.000000\n1 0.000000 180315."));
}

#[test]
fn expected_with_weather_is_what_the_second_program_answers() {
    let weather = stored("weather.txt").lines().fold(NO_WEATHER, |weather, line| {
        weather.with(reading(line)).expect("the stored readings are accepted")
    });
    let lifted = printed("stars.slt", DATE_WITH_WEATHER, weather);
    assert_eq!(lifted, stored("expected_weather.txt"));
    // the air lifts a star into the mount's reach
    let true_places = printed("stars.slt", DATE_WITH_WEATHER, NO_WEATHER);
    assert!(true_places.contains("below") && !lifted.contains("below"));
}

fn path(name: &str) -> String {
    format!("{}/../../firmware/{name}", env!("CARGO_MANIFEST_DIR"))
}

fn stored(name: &str) -> String {
    std::fs::read_to_string(path(name)).expect("the stored text can be read")
}

/// `P` and hPa, `T` and degrees, or an empty line for nothing.
fn reading(line: &str) -> Reading {
    let float = |text: &str| Float(text.parse::<f32>().expect("a number").to_bits());
    match line.split_once(' ') {
        Some(("P", pressure)) => Reading::Pressure(float(pressure)),
        Some(("T", temperature)) => Reading::Temperature(float(temperature)),
        _ if line.is_empty() => Reading::Nothing,
        _ => panic!("{line:?} is no reading"),
    }
}

fn printed(list: &str, date: &[u8], weather: Weather) -> String {
    let file = std::fs::read(path(list)).expect("the list can be read");
    let moment = moment_of_line(date).expect("a date");
    let mut printed = String::new();
    for (number, star) in stars(&file).expect("a list").into_iter().enumerate() {
        let (place, altitude) = observed_place(moment, SITE, star, weather).expect("a place");
        let target = if altitude < LOWEST {
            String::from("below")
        } else {
            let azimuth = place.azimuth.map_or(String::from("stays"), arcseconds);
            format!("{azimuth} {}", arcseconds(altitude))
        };
        printed += &format!("{number} {target}\n");
    }
    assert!(!printed.is_empty());
    printed
}

/// Of an angle that is not below nought: above the lowest altitude both are so.
fn arcseconds(angle: Whole) -> String {
    format!("{}.{:06}", angle / 1_000_000, angle % 1_000_000)
}
