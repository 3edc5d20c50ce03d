//! Precession, obliquity, nutation, Sun, perihelion, sidereal time and aberration: `earth` beside `earth.rs` and
//! `place.rs`.
#![cfg(exported = "earth")]

use std::f64::consts::PI;

use bridge::chance::{around, Chance};
use bridge::compare::{compare, words};
use bridge::face::{
    ABERRATION, ARGUMENTS, MEAN_LONGITUDE, NUTATION, OBLIQUITY, PERIHELION, PRECESSION, SIDEREAL,
    SIDEREAL_POLYNOMIAL, SUN,
};
use bridge::function::Function;
use second::circle::{pair, Pair};
use second::dates::{Tt, Ut};
use second::earth;
use second::place;
use second::turning::Direction;
use second::units::{Whole, CENTURY, CIRCLE, DAY, HALF_CIRCLE, QUARTER, UNIT};

const RANDOM: usize = 200_000;

/// A function of an instant over the ends of a century, every noon of it, and instants at random.
fn compare_instants<const ANSWERED: usize>(
    function: &Function<1, ANSWERED>,
    second: impl Fn(i128) -> Result<Vec<i128>, i64>,
) {
    let answer = |[t]: [i64; 1]| words(second(t.into()));
    let (century, day) = (CENTURY as i64, DAY as i64);
    let ends = around(&[i64::MIN, -century, 0, century, i64::MAX], 2);
    compare(function, "ends", ends.iter().map(|t| [*t]), answer);

    let days = century / day;
    let noons = (-days..=days).map(|number| [number * day]);
    compare(function, "every noon", noons, answer);

    let mut chance = Chance::new(function.name);
    let random = (0..RANDOM).map(|_| [chance.within(-century, century)]);
    compare(function, "random", random, answer);
}

#[test]
fn precession() {
    compare_instants(&PRECESSION, |t| {
        let angles = earth::precession(Tt(t))?;
        Ok(vec![angles.zeta, angles.z, angles.theta])
    });
}

#[test]
fn obliquity() {
    compare_instants(&OBLIQUITY, |t| Ok(vec![earth::obliquity(Tt(t))?]));
}

#[test]
fn arguments() {
    compare_instants(&ARGUMENTS, |t| {
        let earth::Arguments { l, l1, f, d, om } = earth::arguments(Tt(t))?;
        Ok(vec![l, l1, f, d, om])
    });
}

#[test]
fn nutation() {
    compare_instants(&NUTATION, |t| {
        let nutation = earth::nutation(Tt(t))?;
        Ok(vec![nutation.longitude, nutation.obliquity])
    });
}

#[test]
fn sun() {
    compare_instants(&SUN, |t| Ok(vec![earth::sun(Tt(t))?]));
}

#[test]
fn mean_longitude() {
    compare_instants(&MEAN_LONGITUDE, |t| Ok(vec![earth::mean_longitude(Tt(t))?]));
}

/// The instants from low to high at which a t / Q ends in a half.
fn halves(a: i64, low: i64, high: i64) -> impl Iterator<Item = i64> {
    let century = CENTURY as i64;
    // by Euclid: the common divisor of a and Q is divisor.0, and a times factor.0 modulo Q
    let (mut divisor, mut factor) = ((century, a.rem_euclid(century)), (0, 1));
    while divisor.1 != 0 {
        let quotient = divisor.0 / divisor.1;
        divisor = (divisor.1, divisor.0 % divisor.1);
        factor = (factor.1, factor.0 - quotient * factor.1);
    }
    let some = century / 2 % divisor.0 == 0;
    let step = century / divisor.0;
    let one = Whole::from(factor.0) * Whole::from(century / 2 / divisor.0) % Whole::from(step);
    let first = low + (one as i64 - low).rem_euclid(step);
    (0..).map(move |number| first + number * step).take_while(move |t| some && *t <= high)
}

/// The instants at which one of the two products of ϖ ends in a half.
fn ties_of_perihelion() -> Vec<i64> {
    let century = CENTURY as i64;
    let mut ties: Vec<i64> = halves(1_656_000, -century, century).collect();
    assert!(ties.contains(&21_915_000), "1656000 t / Q is 11.5 there");
    // the first, rounded, is k between two of its halves, and the coefficient of the second is k more there
    for k in -1_656_000..=1_656_000 {
        let half = |twice: i64| (Whole::from(twice) * CENTURY / (2 * 1_656_000)) as i64;
        let (low, high) = (half(2 * k - 1) - 1, half(2 * k + 1) + 1);
        ties.extend(halves(6_190_056_000 + k, low.max(-century), high.min(century)));
    }
    ties
}

#[test]
fn perihelion() {
    let second = |t| Ok(vec![earth::perihelion(Tt(t))?]);
    compare_instants(&PERIHELION, second);
    let ties = ties_of_perihelion();
    compare(&PERIHELION, "every tie", ties.iter().map(|t| [*t]), |[t]| words(second(t.into())));
}

/// Instants at which 106692 times the sine or the cosine of S ends in a half of 2^30: that is at odd eighths of 2^30.
/// 1783 times those of ϖ, which is between 101 and 105 degrees, never does.
fn ties_of_aberration() -> Vec<i64> {
    let ends_in_half = |part: Whole| part.rem_euclid(UNIT / 4) == UNIT / 8;
    let sun = |t: Whole| earth::sun(Tt(t)).expect("an accepted instant");
    let year = CENTURY / 100;
    let mut ties = Vec::new();
    for quarter in -400..400 {
        for eighth in [1.0, 3.0, 5.0, 7.0] {
            let of_sine = ((eighth / 8.0_f64).asin() * HALF_CIRCLE as f64 / PI) as Whole;
            for angle in [of_sine, QUARTER - of_sine] {
                let wanted = quarter * QUARTER + angle;
                let nearer = |t: Whole| (t + (wanted - sun(t)) * year / CIRCLE).clamp(-CENTURY, CENTURY);
                let found = (0..8).fold(0, |t, _| nearer(t));
                let about = (found - 40).max(-CENTURY)..=(found + 40).min(CENTURY);
                ties.extend(about.filter(|t| {
                    let Pair { cosine, sine } = pair(sun(*t));
                    ends_in_half(cosine) || ends_in_half(sine)
                }));
            }
        }
    }
    assert!(ties.len() > 40_000, "only {} ties", ties.len());
    ties.into_iter().map(|t| t as i64).collect()
}

#[test]
fn aberration() {
    let second = |t| {
        let (bx, by) = place::aberration(Tt(t))?;
        let Direction { x, y, z } = place::added(Tt(t))?;
        Ok(vec![bx, by, x, y, z])
    };
    compare_instants(&ABERRATION, second);
    let ties = ties_of_aberration();
    compare(&ABERRATION, "ties", ties.iter().map(|t| [*t]), |[t]| words(second(t.into())));
}

#[test]
fn sidereal() {
    compare_instants(&SIDEREAL, |t| Ok(vec![earth::sidereal(Ut(t))?]));
}

#[test]
fn sidereal_polynomial() {
    compare_instants(&SIDEREAL_POLYNOMIAL, |t| Ok(vec![earth::sidereal_polynomial(Ut(t))?]));
}
