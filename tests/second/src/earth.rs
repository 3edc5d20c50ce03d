//! Document 01, "Polynomials in time": precession, obliquity, nutation and the Sun at a TT instant, sidereal time at a
//! UT one; document 02, "Aberration of a real orbit": ϖ at a TT instant.

use crate::circle::pair;
use crate::dates::{Tt, Ut};
use crate::refusals::{self, unless, Refusal};
use crate::rounding::{modulo, rnd};
use crate::units::{Whole, CENTURY, CIRCLE, DAY, UNIT};

/// From the highest coefficient down: multiply by t, Rnd by Q, add the next coefficient. Constant first.
pub fn polynomial(coefficients: &[Whole], t: Whole) -> Whole {
    let mut down = coefficients.iter().rev();
    let highest = *down.next().expect("a polynomial has a coefficient");
    down.fold(highest, |sum, next| rnd(sum * t, CENTURY) + next)
}

/// Instant outside −Q to Q: refused 12.
fn check_instant(t: Whole) -> Result<(), Refusal> {
    unless((-CENTURY..=CENTURY).contains(&t), refusals::INSTANT)
}

/// The three precession angles from J2000 (Lieske 1977).
#[derive(Clone, Copy, Debug, PartialEq, Eq)]
pub struct Precession {
    pub zeta: Whole,
    pub z: Whole,
    pub theta: Whole,
}

pub fn precession(Tt(t): Tt) -> Result<Precession, Refusal> {
    check_instant(t)?;
    Ok(Precession {
        zeta: polynomial(&[0, 2306218100, 301880, 17998], t),
        z: polynomial(&[0, 2306218100, 1094680, 18203], t),
        theta: polynomial(&[0, 2004310900, -426650, -41833], t),
    })
}

/// Mean obliquity ε.
pub fn obliquity(Tt(t): Tt) -> Result<Whole, Refusal> {
    check_instant(t)?;
    Ok(polynomial(&[84381448000, -46815000, -590, 1813], t))
}

/// The arguments l, l′, F, D, Ω, not reduced.
#[derive(Clone, Copy, Debug, PartialEq, Eq)]
pub struct Arguments {
    pub l: Whole,
    pub l1: Whole,
    pub f: Whole,
    pub d: Whole,
    pub om: Whole,
}

pub fn arguments(Tt(t): Tt) -> Result<Arguments, Refusal> {
    check_instant(t)?;
    Ok(Arguments {
        l: polynomial(&[485866733000, 1717915922633000, 31310000, 64000], t),
        l1: polynomial(&[1287099804000, 129596581224000, -577000, -12000], t),
        f: polynomial(&[335778877000, 1739527263137000, -13257000, 11000], t),
        d: polynomial(&[1072261307000, 1602961601328000, -6891000, 19000], t),
        om: polynomial(&[450160280000, -6962890539000, 7455000, 8000], t),
    })
}

/// The Sun's mean longitude, not reduced.
pub fn mean_longitude(Tt(t): Tt) -> Result<Whole, Refusal> {
    check_instant(t)?;
    Ok(polynomial(&[1009679256000, 129602771388000, 1091520], t))
}

/// The Sun's longitude, not reduced: the mean longitude and the centre.
pub fn sun(tt: Tt) -> Result<Whole, Refusal> {
    let Arguments { l1, .. } = arguments(tt)?;
    let Tt(t) = tt;
    // amplitudes times the sines of l′, 2l′, 3l′, summed and then Rnd by 2^30 once
    let centre = polynomial(&[6892560000, -17341200, -50400], t) * pair(l1).sine
        + polynomial(&[71974800, -363600], t) * pair(2 * l1).sine
        + polynomial(&[1044000], t) * pair(3 * l1).sine;
    Ok(mean_longitude(tt)? + rnd(centre, UNIT))
}

/// ϖ, not reduced.
pub fn perihelion(Tt(t): Tt) -> Result<Whole, Refusal> {
    check_instant(t)?;
    Ok(polynomial(&[370574460000, 6190056000, 1656000], t))
}

/// The sidereal polynomial alone (Aoki 1982), before the rest is added and C taken out.
pub fn sidereal_polynomial(Ut(t): Ut) -> Result<Whole, Refusal> {
    check_instant(t)?;
    Ok(polynomial(&[1009658226150, 129602772192990, 1396560, -93], t))
}

/// Sidereal: the polynomial at t = UT, plus 15,000 × (UT modulo 86,400,000), modulo C.
pub fn sidereal(ut: Ut) -> Result<Whole, Refusal> {
    let Ut(t) = ut;
    let of_day = 15_000 * modulo(t, DAY);
    Ok(modulo(sidereal_polynomial(ut)? + of_day, CIRCLE))
}

/// Multiples of l, l′, F, D, Ω; amplitude and change a century, longitude (sines) then obliquity (cosines).
type Term = ([Whole; 5], [Whole; 2], [Whole; 2]);

/// Nutation, ten largest terms of the IAU 1980 theory.
#[rustfmt::skip]
const TERMS: [Term; 10] = [
    ([0,  0, 0,  0, 1], [-17199600, -17420], [9202500,  890]),
    ([0,  0, 2, -2, 2], [ -1318700,   -160], [ 573600, -310]),
    ([0,  0, 2,  0, 2], [  -227400,    -20], [  97700,  -50]),
    ([0,  0, 0,  0, 2], [   206200,     20], [ -89500,   50]),
    ([0,  1, 0,  0, 0], [   142600,   -340], [   5400,  -10]),
    ([1,  0, 0,  0, 0], [    71200,     10], [   -700,    0]),
    ([0,  1, 2, -2, 2], [   -51700,    120], [  22400,  -60]),
    ([0,  0, 2,  0, 1], [   -38600,    -40], [  20000,    0]),
    ([1,  0, 2,  0, 2], [   -30100,      0], [  12900,  -10]),
    ([0, -1, 2, -2, 2], [    21700,    -50], [  -9500,   30]),
];

/// Δψ and Δε.
#[derive(Clone, Copy, Debug, PartialEq, Eq)]
pub struct Nutation {
    pub longitude: Whole,
    pub obliquity: Whole,
}

pub fn nutation(tt: Tt) -> Result<Nutation, Refusal> {
    let Arguments { l, l1, f, d, om } = arguments(tt)?;
    let Tt(t) = tt;
    let (mut longitude, mut obliquity) = (0, 0);
    for (multiples, in_longitude, in_obliquity) in TERMS {
        let argument: Whole =
            multiples.iter().zip([l, l1, f, d, om]).map(|(multiple, argument)| multiple * argument).sum();
        // An amplitude with its changes is read as a polynomial.
        longitude += polynomial(&in_longitude, t) * pair(argument).sine;
        obliquity += polynomial(&in_obliquity, t) * pair(argument).cosine;
    }
    // The products are summed and Rnd by 2^30 once.
    Ok(Nutation { longitude: rnd(longitude, UNIT), obliquity: rnd(obliquity, UNIT) })
}
