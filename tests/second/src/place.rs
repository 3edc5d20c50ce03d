//! Document 01, "Turns, readings, place": the place of a star, in six steps; amended by document 02, "Say so when there
//! is no azimuth" and "Aberration of a real orbit".

use crate::circle::{pair, Pair};
use crate::dates::{instants, Moment, Tt, Ut};
use crate::earth::{nutation, obliquity, perihelion, precession, sidereal, sun, Nutation, Precession};
use crate::reading::{height, reading};
use crate::refusals::{self, unless, Refusal};
use crate::rounding::rnd;
use crate::turning::{turn, Direction};
use crate::units::{Whole, CIRCLE, HALF_CIRCLE, QUARTER, UNIT, YEAR};

/// A star of the catalogue: place at J2000.0 in µas, motions in µas a year.
#[derive(Clone, Copy, Debug, PartialEq, Eq)]
pub struct Star {
    pub right_ascension: Whole,
    pub declination: Whole,
    /// Motion in RA is of the coordinate, without a cosine.
    pub motion_right_ascension: Whole,
    pub motion_declination: Whole,
}

/// A site: longitude is positive east.
#[derive(Clone, Copy, Debug, PartialEq, Eq)]
pub struct Site {
    pub latitude: Whole,
    pub longitude: Whole,
}

/// The place. It shall carry on that there is no angle, for right ascension and azimuth alike, as a kind of its own and
/// not as a number.
#[derive(Clone, Copy, Debug, PartialEq, Eq)]
pub struct Place {
    pub right_ascension: Option<Whole>,
    pub declination: Whole,
    pub azimuth: Option<Whole>,
    pub altitude: Whole,
}

/// Refused 5: RA not 0 to C−1, declination not within ±324,000,000,000, either motion not within ±100,000,000 µas a year.
pub fn check_star(star: Star) -> Result<(), Refusal> {
    let motions = [star.motion_right_ascension, star.motion_declination];
    unless(
        (0..CIRCLE).contains(&star.right_ascension)
            && (-QUARTER..=QUARTER).contains(&star.declination)
            && motions.iter().all(|motion| motion.abs() <= 100_000_000),
        refusals::STAR,
    )
}

/// Refused 6: latitude not within ±324,000,000,000 or longitude not within ±648,000,000,000.
pub fn check_site(site: Site) -> Result<(), Refusal> {
    unless(site.latitude.abs() <= QUARTER && site.longitude.abs() <= HALF_CIRCLE, refusals::SITE)
}

/// From a UTC date, a site and a star: the place, or refused 1 to 6.
pub fn place(moment: Moment, site: Site, star: Star) -> Result<Place, Refusal> {
    let (_, ut, tt) = instants(moment)?;
    check_star(star)?;
    check_site(site)?;
    let apparent = apparent(star, tt)?;
    let local_sidereal = local_sidereal(ut, tt, site.longitude)?;
    let horizontal = horizontal(apparent, local_sidereal, site.latitude)?;
    Ok(Place {
        // 5. Read RA from (x, y), and declination.
        right_ascension: reading(apparent.x, apparent.y),
        declination: height(apparent),
        // 6. Azimuth, north through east, reads (−x, y); then altitude.
        azimuth: reading(-horizontal.x, horizontal.y),
        altitude: height(horizontal),
    })
}

/// Steps 1 to 5: the direction of the star, by the equator and equinox of the date.
pub fn apparent(star: Star, tt: Tt) -> Result<Direction, Refusal> {
    let moved = moved(star, tt)?;
    // 3. Axis 3 by ζ, axis 2 by −θ, axis 3 by z.
    let Precession { zeta, z, theta } = precession(tt)?;
    let precessed = turns(moved, &[(3, zeta), (2, -theta), (3, z)])?;
    let aberrated = aberrated(precessed, tt)?;
    // 5. Axis 1 by −ε, axis 3 by Δψ, axis 1 by ε + Δε.
    let epsilon = obliquity(tt)?;
    let Nutation { longitude, obliquity } = nutation(tt)?;
    turns(aberrated, &[(1, -epsilon), (3, longitude), (1, epsilon + obliquity)])
}

/// Steps 1 and 2: the direction of the star at the instant, by the equator and equinox of J2000.
fn moved(star: Star, Tt(t): Tt) -> Result<Direction, Refusal> {
    // 1. RA and declination plus Rnd(motion × TT / 31,557,600,000). The sum may pass the pole; the turns carry it.
    let right_ascension = star.right_ascension + rnd(star.motion_right_ascension * t, YEAR);
    let declination = star.declination + rnd(star.motion_declination * t, YEAR);
    // 2. From (2^30, 0, 0): axis 2 by −declination, axis 3 by RA (angles are first reduced by the remainder of C).
    let start = Direction { x: UNIT, y: 0, z: 0 };
    turns(start, &[(2, -declination % CIRCLE), (3, right_ascension % CIRCLE)])
}

/// 4. Aberration, with S the Sun's longitude: bx and by.
pub fn aberration(tt: Tt) -> Result<(Whole, Whole), Refusal> {
    Ok(aberration_of(pair(sun(tt)?), pair(perihelion(tt)?)))
}

/// bx = Rnd(106692 sin S/2^30), by = −Rnd(106692 cos S/2^30). The step takes the eccentricity: bx loses
/// Rnd(1783 sin ϖ/2^30) and by gains Rnd(1783 cos ϖ/2^30).
pub fn aberration_of(sun: Pair, perihelion: Pair) -> (Whole, Whole) {
    let bx = rnd(106_692 * sun.sine, UNIT) - rnd(1_783 * perihelion.sine, UNIT);
    let by = -rnd(106_692 * sun.cosine, UNIT) + rnd(1_783 * perihelion.cosine, UNIT);
    (bx, by)
}

/// 4. What is added: (bx, Rnd(by cos ε/2^30), Rnd(by sin ε/2^30)).
pub fn added(tt: Tt) -> Result<Direction, Refusal> {
    let (bx, by) = aberration(tt)?;
    let of_obliquity = pair(obliquity(tt)?);
    Ok(Direction { x: bx, y: rnd(by * of_obliquity.cosine, UNIT), z: rnd(by * of_obliquity.sine, UNIT) })
}

/// 4. Add, bring to length.
fn aberrated(direction: Direction, tt: Tt) -> Result<Direction, Refusal> {
    let added = added(tt)?;
    let Direction { x, y, z } = direction;
    Direction { x: x + added.x, y: y + added.y, z: z + added.z }.to_length()
}

/// 6. Local sidereal angle: sidereal + Rnd(Δψ cos ε/2^30) + longitude.
pub fn local_sidereal(ut: Ut, tt: Tt, longitude: Whole) -> Result<Whole, Refusal> {
    let equinoxes = rnd(nutation(tt)?.longitude * pair(obliquity(tt)?).cosine, UNIT);
    Ok(sidereal(ut)? + equinoxes + longitude)
}

/// 6. Axis 3 by the negative of the local sidereal angle, axis 2 by latitude − quarter. x is south, y east, z up.
pub fn horizontal(apparent: Direction, local_sidereal: Whole, latitude: Whole) -> Result<Direction, Refusal> {
    turns(apparent, &[(3, -local_sidereal % CIRCLE), (2, latitude - QUARTER)])
}

/// Turns one after the other, each an axis and an angle.
fn turns(start: Direction, turns: &[(Whole, Whole)]) -> Result<Direction, Refusal> {
    turns.iter().try_fold(start, |direction, (axis, angle)| turn(direction, *axis, *angle))
}
