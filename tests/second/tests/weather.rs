//! Document 02, "Refraction with a weather probe": cases worked out by hand.

use second::dates::{Date, Moment};
use second::place::{place, Site, Star};
use second::refusals::{READING, SITE};
use second::units::{Whole, QUARTER};
use second::weather::{lift, observed_altitude, observed_place, Float, Reading, Weather, NO_WEATHER};

fn float(value: f32) -> Float {
    Float(value.to_bits())
}

fn weather(pressure: f32, temperature: f32) -> Weather {
    Weather { pressure: Some(float(pressure)), temperature: Some(float(temperature)) }
}

/// Here g is half a quarter, 161,256,967,464 + 743,032,536: cosine and sine are one number, and the lift is 61,200,000.
const HALF_WAY: Whole = 161_256_967_464;

#[test]
fn tenths_are_the_nearest_to_the_exact_value() {
    let cases: [(f32, Whole); 16] = [
        (1010.0, 10100),
        (500.0, 5000),
        (1100.0, 11000),
        (-50.0, -500),
        (0.0, 0),
        (-0.0, 0),
        // halves away from zero: only a quarter of a unit is a half of a tenth and a float
        (1013.25, 10133),
        (1013.75, 10138),
        (-10.25, -103),
        (-0.25, -3),
        // the floats next to a half
        (10.249999, 102),
        (-10.249999, -102),
        // 0.05 is no float: the nearest is above it, the next lies below
        (0.05, 1),
        (0.049999997, 0),
        (f32::MIN_POSITIVE, 0),
        (-1e-45, 0),
    ];
    for (value, tenths) in cases {
        assert_eq!(float(value).tenths(), tenths, "{value}");
    }
}

#[test]
fn accepted_are_finite_values_ends_included() {
    let taken = |reading| NO_WEATHER.with(reading).is_ok();
    let pressures = [(500.0, true), (499.99997, false), (1100.0, true), (1100.0001, false), (-1010.0, false)];
    for (value, accepted) in pressures {
        assert_eq!(taken(Reading::Pressure(float(value))), accepted, "{value} hPa");
    }
    let temperatures = [(50.0, true), (50.000004, false), (-50.0, true), (-50.000004, false), (-0.0, true)];
    for (value, accepted) in temperatures {
        assert_eq!(taken(Reading::Temperature(float(value))), accepted, "{value} degrees");
    }
    for value in [f32::INFINITY, f32::NEG_INFINITY, f32::NAN, f32::MAX, f32::MIN] {
        assert!(!taken(Reading::Pressure(float(value))), "{value}");
        assert!(!taken(Reading::Temperature(float(value))), "{value}");
    }
}

#[test]
fn the_latest_of_each_make_the_record() {
    let readings = [
        (Reading::Nothing, Ok(NO_WEATHER)),
        (Reading::Temperature(float(7.5)), Ok(Weather { pressure: None, temperature: Some(float(7.5)) })),
        (Reading::Pressure(float(1200.0)), Err(READING)),
        (Reading::Pressure(float(990.0)), Ok(weather(990.0, 7.5))),
        (Reading::Nothing, Ok(weather(990.0, 7.5))),
        (Reading::Temperature(float(f32::NAN)), Err(READING)),
        (Reading::Temperature(float(-0.0)), Ok(weather(990.0, -0.0))),
        (Reading::Pressure(float(1100.0)), Ok(weather(1100.0, -0.0))),
    ];
    let mut record = NO_WEATHER;
    for (reading, expected) in readings {
        assert_eq!(record.with(reading), expected, "{reading:?}");
        record = expected.unwrap_or(record);
    }
    // a record that no readings make
    assert_eq!(weather(1010.0, 51.0).with(Reading::Nothing), Err(READING));
    assert_eq!(observed_altitude(0, weather(1010.0, 51.0)), Err(READING));
}

#[test]
fn lift_half_way_to_the_zenith() {
    // the formula's own weather: the factor is 1
    assert_eq!(lift(HALF_WAY, weather(1010.0, 10.0)), 61_200_000);
    assert_eq!(lift(HALF_WAY, weather(505.0, 10.0)), 30_600_000);
    // 61,200,000 × 2830 / 2230 = 77,666,367.7
    assert_eq!(lift(HALF_WAY, weather(1010.0, -50.0)), 77_666_368);
    // 61,200,000 × 10133 × 2830 / (10100 × 2627) = 66,144,609.03
    assert_eq!(lift(HALF_WAY, weather(1013.25, -10.25)), 66_144_609);
    assert_eq!(observed_altitude(HALF_WAY, weather(1010.0, 10.0)), Ok(161_318_167_464));
}

#[test]
fn lift_is_nought() {
    let half = Weather { temperature: None, ..weather(1010.0, 10.0) };
    assert_eq!(lift(HALF_WAY, half), 0);
    let half = Weather { pressure: None, ..weather(1010.0, 10.0) };
    assert_eq!(lift(HALF_WAY, half), 0);
    assert_eq!(lift(HALF_WAY, NO_WEATHER), 0);

    let cold = weather(1100.0, -50.0);
    assert_eq!(lift(-3_600_000_001, cold), 0);
    assert!(lift(-3_600_000_000, cold) > 3_000_000_000);
    // here g is a quarter, and above it the cosine is below nought
    assert_eq!(lift(323_609_690_705, cold), 0);
    assert_eq!(lift(QUARTER, cold), 0);
    assert_eq!(lift(QUARTER + 1, cold), 0);
}

#[test]
fn the_place_keeps_its_altitude() {
    let date = Date { year: 2000, month: 1, day: 1 };
    let noon = Moment { date, hour: 12, minute: 0, second: 0, ms: 0, ut1_minus_utc: 0 };
    let site = Site { latitude: 180_000_000_000, longitude: 0 };
    let star = Star { right_ascension: 0, declination: 0, motion_right_ascension: 0, motion_declination: 0 };
    let expected = place(noon, site, star).expect("a place");
    let (seen, observed) = observed_place(noon, site, star, weather(1010.0, 10.0)).expect("a place");
    assert_eq!(seen, expected);
    assert!(observed > expected.altitude);
    assert_eq!(observed, expected.altitude + lift(expected.altitude, weather(1010.0, 10.0)));
    assert_eq!(observed_place(noon, site, star, NO_WEATHER), Ok((expected, expected.altitude)));

    // 14 after all others
    let bad_site = Site { latitude: QUARTER + 1, ..site };
    assert_eq!(observed_place(noon, site, star, weather(1010.0, 51.0)), Err(READING));
    assert_eq!(observed_place(noon, bad_site, star, weather(1010.0, 51.0)), Err(SITE));
}
