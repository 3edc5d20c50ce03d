//! The second program beside values that others published: a misread sign or unit of document 01 or 02 would show here.

#![allow(clippy::excessive_precision)] // published values stand as they are printed

use std::f64::consts::PI;

use second::circle::pair;
use second::dates::{instants, Date, Moment, Tt, Ut};
use second::earth::{nutation, obliquity, perihelion, precession, sidereal};
use second::place::{added, apparent, horizontal, local_sidereal, Star};
use second::reading::{height, reading};
use second::turning::{turn, Direction};
use second::units::{Whole, CIRCLE, DAY, HALF_CIRCLE, UNIT};
use second::weather::{lift, Float, Weather};

/// An arcminute, an arcsecond, and a second of right ascension, in µas.
const ARCMINUTE: f64 = 60e6;
const ARCSECOND: f64 = 1e6;
const SECOND: f64 = 15e6;

/// The instant of a modified Julian date: J2000.0 is MJD 51544.5.
fn of_mjd(mjd: f64) -> Whole {
    ((mjd - 51544.5) * DAY as f64).round() as Whole
}

fn from_radians(angle: f64) -> f64 {
    angle * HALF_CIRCLE as f64 / PI
}

fn from_hours(hours: f64, minutes: f64, seconds: f64) -> f64 {
    (hours * 3600.0 + minutes * 60.0 + seconds) * SECOND
}

fn from_degrees(degrees: f64, minutes: f64, seconds: f64) -> f64 {
    (degrees * 3600.0 + minutes * 60.0 + seconds) * ARCSECOND
}

#[track_caller]
fn assert_near(ours: Whole, published: f64, tolerance: f64) {
    let distance = (ours as f64 - published).abs();
    assert!(distance <= tolerance, "{ours} is {distance} from {published}");
}

/// ERFA's own test values (t_erfa_c.c: gmst82, obl80, nut80), which follow the standards that document 01 names.
#[test]
fn erfa_values() {
    let ut = Ut(of_mjd(53736.0));
    let published = from_radians(1.754174981860675096);
    assert_near(sidereal(ut).unwrap(), published, 2.0);

    let tt = Tt(of_mjd(54388.0));
    let published = from_radians(0.4090751347643816218);
    assert_near(obliquity(tt).unwrap(), published, 2.0);

    // all 106 terms there, the ten largest here
    let ours = nutation(Tt(of_mjd(53736.0))).unwrap();
    let published = from_radians(-0.9643658353226563966e-5);
    assert_near(ours.longitude, published, 0.1 * ARCSECOND);
    let published = from_radians(0.4060051006879713322e-4);
    assert_near(ours.obliquity, published, 0.1 * ARCSECOND);
}

/// Meeus, Astronomical Algorithms (2nd edition), examples 12.a, 12.b and 22.a: 1987 April 10.
#[test]
fn meeus_sidereal_time_and_nutation() {
    let (midnight, evening) = (Ut(of_mjd(46895.0)), Ut(of_mjd(46895.80625)));
    let published = from_hours(13.0, 10.0, 46.3668);
    assert_near(sidereal(midnight).unwrap(), published, 0.0001 * SECOND);
    let published = from_hours(8.0, 34.0, 57.0896);
    assert_near(sidereal(evening).unwrap(), published, 0.0001 * SECOND);

    let tt = Tt(of_mjd(46895.0));
    let ours = nutation(tt).unwrap();
    assert_near(ours.longitude, -3.788 * ARCSECOND, 0.1 * ARCSECOND);
    assert_near(ours.obliquity, 9.443 * ARCSECOND, 0.1 * ARCSECOND);
    let published = from_degrees(23.0, 26.0, 27.407);
    assert_near(obliquity(tt).unwrap(), published, 0.001 * ARCSECOND);
    let published = from_hours(13.0, 10.0, 46.1351);
    assert_near(local_sidereal(midnight, tt, 0).unwrap(), published, 0.1 * ARCSECOND);
}

/// ERFA's own test value of the Earth's velocity about the barycentre (t_erfa_c.c: epv00), in AU a day by the equator
/// of J2000. An ellipse without Moon and planets comes within a hundredth of an arcsecond here; a circle is a third of
/// one off, and a wrong sign of the eccentricity two thirds.
#[test]
fn erfa_velocity() {
    let tt = Tt(of_mjd(53411.52501161));
    let published = [-0.1091874268116823295e-1, -0.1246525461732861538e-1, -0.5404773180966231279e-2];
    // over the velocity of light, by the light's 499.004782 s for an AU, as parts of 2^30
    let [x, y, z] = published.map(|part: f64| part * 499.004_782 / 86_400.0 * UNIT as f64);
    // 3. Axis 3 by ζ, axis 2 by −θ, axis 3 by z.
    let turned = |h: f64, v: f64, angle: Whole| {
        let (sine, cosine) = (angle as f64 * PI / HALF_CIRCLE as f64).sin_cos();
        (cosine * h - sine * v, sine * h + cosine * v)
    };
    let angles = precession(tt).unwrap();
    let (x, y) = turned(x, y, angles.zeta);
    let (z, x) = turned(z, x, -angles.theta);
    let (x, y) = turned(x, y, angles.z);
    let ours = added(tt).unwrap();
    let tolerance = 0.01 * ARCSECOND / from_radians(1.0) * UNIT as f64;
    for (ours, published) in [(ours.x, x), (ours.y, y), (ours.z, z)] {
        assert_near(ours, published, tolerance);
    }
}

/// Meeus, example 23.a: ϖ, printed to 0.001 degree, and the aberration of theta Persei on 2028 November 13.19 TD, by
/// its mean place of that date, printed to 0.0001 degree.
#[test]
fn meeus_aberration() {
    let tt = Tt(of_mjd(62088.19));
    assert_near(perihelion(tt).unwrap(), from_degrees(103.434, 0.0, 0.0), 0.0005 * 3600.0 * ARCSECOND);

    let (right_ascension, declination) = (from_degrees(41.5472, 0.0, 0.0), from_degrees(49.3485, 0.0, 0.0));
    let (x, y, z) = (UNIT, 0, 0);
    let lifted = turn(Direction { x, y, z }, 2, -declination.round() as Whole).unwrap();
    let Direction { x, y, z } = turn(lifted, 3, right_ascension.round() as Whole).unwrap();
    let added = added(tt).unwrap();
    let seen = Direction { x: x + added.x, y: y + added.y, z: z + added.z }.to_length().unwrap();
    // the formulas there are of the first order
    let tolerance = 0.002 * ARCSECOND;
    let published = right_ascension + 30.045 * ARCSECOND;
    assert_near(reading(seen.x, seen.y).unwrap(), published, tolerance);
    assert_near(height(seen), declination + 6.697 * ARCSECOND, tolerance);
}

/// Meeus, example 23.a: the apparent place of theta Persei on 2028 November 13.19 TD, printed to 0.001 s and 0.01″. The
/// ten terms of nutation leave as much on that day; a circular orbit would leave 0.2″.
#[test]
fn meeus_apparent_place() {
    let star = Star {
        right_ascension: from_hours(2.0, 44.0, 11.986).round() as Whole,
        declination: from_degrees(49.0, 13.0, 42.48).round() as Whole,
        motion_right_ascension: 513_750,
        motion_declination: -89_500,
    };
    let direction = apparent(star, Tt(of_mjd(62088.19))).unwrap();
    let published = from_hours(2.0, 46.0, 14.390);
    assert_near(reading(direction.x, direction.y).unwrap(), published, 0.02 * ARCSECOND);
    let published = from_degrees(49.0, 21.0, 7.45);
    assert_near(height(direction), published, 0.02 * ARCSECOND);
}

/// Meeus, example 13.b: Venus over Washington on 1987 April 10, 19:21:00 UT, printed to 0.0001 degree.
/// There azimuth counts from the south and longitude to the west, worked as 5h 08m 15.7s.
#[test]
fn meeus_horizontal_place() {
    let right_ascension = from_hours(23.0, 9.0, 16.641).round() as Whole;
    let declination = -from_degrees(6.0, 43.0, 11.61).round() as Whole;
    let latitude = from_degrees(38.0, 55.0, 17.0).round() as Whole;
    let longitude = -from_hours(5.0, 8.0, 15.7).round() as Whole;
    let (x, y, z) = (UNIT, 0, 0);
    let lifted = turn(Direction { x, y, z }, 2, -declination).unwrap();
    let direction = turn(lifted, 3, right_ascension).unwrap();

    let moment = of_mjd(46895.80625);
    let angle = local_sidereal(Ut(moment), Tt(moment), longitude).unwrap();
    let ours = horizontal(direction, angle, latitude).unwrap();
    let tolerance = 0.0001 * 3600.0 * ARCSECOND;
    let published = from_degrees(180.0 + 68.0337, 0.0, 0.0);
    assert_near(reading(-ours.x, ours.y).unwrap(), published, tolerance);
    assert_near(height(ours), from_degrees(15.1249, 0.0, 0.0), tolerance);
}

/// Sæmundsson's formula (Sky and Telescope 72, 70 (1986); Meeus, chapter 16, formula 16.4): true altitude in degrees, lift
/// in arcminutes, at 1010 hPa and 10 degrees.
fn saemundsson(altitude: f64) -> f64 {
    1.02 / (altitude + 10.3 / (altitude + 5.11)).to_radians().tan()
}

/// Degrees of altitude lifted at a pressure and a temperature.
fn lifted(altitude: f64, pressure: f32, temperature: f32) -> Whole {
    let float = |value: f32| Some(Float(value.to_bits()));
    let weather = Weather { pressure: float(pressure), temperature: float(temperature) };
    lift(from_degrees(altitude, 0.0, 0.0).round() as Whole, weather)
}

/// The lift at the horizon, at 10 and at 45 degrees, to all figures that are written; and by the formula, which is worked
/// in floats, from the lowest altitude that is lifted until it comes down to nought near the zenith.
#[test]
fn saemundsson_refraction() {
    let tolerance = 0.000_01 * ARCMINUTE;
    for (altitude, arcminutes) in [(0.0, 28.98193), (10.0, 5.40768), (45.0, 1.01271)] {
        assert_near(lifted(altitude, 1010.0, 10.0), arcminutes * ARCMINUTE, tolerance);
    }
    for step in -100..8_980 {
        let altitude = f64::from(step) / 100.0;
        let formula = saemundsson(altitude) * ARCMINUTE;
        assert_near(lifted(altitude, 1010.0, 10.0), formula, tolerance);
        // Meeus, chapter 16: for another weather the lift is multiplied by P/1010 × 283/(273 + T)
        let factor = 850.0 / 1010.0 * 283.0 / (273.0 - 30.0);
        assert_near(lifted(altitude, 850.0, -30.0), formula * factor, tolerance);
    }
}

/// Meeus, example 16.a: the Sun's upper limb at a true altitude of 0.5541 degrees is lifted by 24.618 arcminutes.
#[test]
fn meeus_refraction() {
    assert_near(lifted(0.5541, 1010.0, 10.0), 24.618 * ARCMINUTE, 0.001 * ARCMINUTE);
}

/// The pair is within 4 parts of the true cosine and sine, the reading a few thousandths of an arcsecond from the true angle.
#[test]
fn floats_agree() {
    for step in 0..10_000 {
        let angle = step * (CIRCLE / 10_000) + 12_345;
        let radians = angle as f64 * PI / HALF_CIRCLE as f64;
        let ours = pair(angle);
        assert_near(ours.cosine, radians.cos() * UNIT as f64, 4.0);
        assert_near(ours.sine, radians.sin() * UNIT as f64, 4.0);
        assert_near(reading(ours.cosine, ours.sine).unwrap(), angle as f64, 2_000.0);
    }
}

/// TT of the published step of 2017 January 1 (IERS Bulletin C 52): 37 s, after a second 60.
#[test]
fn added_second_of_2016() {
    let moment = |year, month, day, hour, minute, second| Moment {
        date: Date { year, month, day },
        hour,
        minute,
        second,
        ms: 0,
        ut1_minus_utc: 0,
    };
    let tt = |moment| instants(moment).unwrap().2 .0;
    let added = tt(moment(2016, 12, 31, 23, 59, 60));
    assert_eq!(added - tt(moment(2016, 12, 31, 23, 59, 59)), 1000);
    assert_eq!(tt(moment(2017, 1, 1, 0, 0, 0)) - added, 1000);
}
