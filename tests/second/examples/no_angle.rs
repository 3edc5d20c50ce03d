//! Looks for stars that stand exactly where an angle is lacking: at the zenith or the nadir of a site, at a pole of
//! date. Where a rule of the place changes, the stars of tests/second/tests/no_angle.rs, tests/bridge/src/samples.rs,
//! tests/places/transcript.sh, tests/c, firmware/zenith.slt and crates/laws/specs/SampleNoAngle.antt are found anew by
//! this.
//!
//!     cargo run --release --package second --example no_angle -- YEAR MONTH DAY HOUR MINUTE SECOND LATITUDE LONGITUDE
//!
//! Directions are in parts of 2^30, 192 µas each, and not every direction is that of a star: where none is found,
//! another second or a latitude next to it has one.

use std::f64::consts::PI;

use second::dates::{instants, Date, Moment};
use second::place::{apparent, local_sidereal, place, Place, Site, Star};
use second::turning::{turn, Direction};
use second::units::{Whole, CIRCLE, HALF_CIRCLE, QUARTER, UNIT};

/// So far the stars about a direction are tried, and so far one is from the next, in µas.
const REACH: Whole = 1_500;
const STEP: Whole = 20;

fn main() {
    let numbers: Vec<Whole> =
        std::env::args().skip(1).map(|word| word.parse().expect("a whole number")).collect();
    let [year, month, day, hour, minute, second, latitude, longitude] = numbers[..] else {
        return eprintln!("usage: no_angle YEAR MONTH DAY HOUR MINUTE SECOND LATITUDE LONGITUDE");
    };
    let moment = Moment { date: Date { year, month, day }, hour, minute, second, ms: 0, ut1_minus_utc: 0 };
    let site = Site { latitude, longitude };
    let up = Direction { x: 0, y: 0, z: UNIT };
    let zenith = zenith(moment, site);
    let lacks_azimuth: fn(Place) -> bool = |place| place.azimuth.is_none();
    let lacks_right_ascension: fn(Place) -> bool = |place| place.right_ascension.is_none();
    look("zenith", moment, site, zenith, lacks_azimuth);
    look("nadir", moment, site, opposite(zenith), lacks_azimuth);
    look("north pole of date", moment, site, up, lacks_right_ascension);
    look("south pole of date", moment, site, opposite(up), lacks_right_ascension);
}

fn opposite(direction: Direction) -> Direction {
    Direction { x: -direction.x, y: -direction.y, z: -direction.z }
}

/// The zenith, by the equator and equinox of the date: step 6 of the place, backward.
fn zenith(moment: Moment, site: Site) -> Direction {
    let (_, ut, tt) = instants(moment).expect("a moment");
    let local_sidereal = local_sidereal(ut, tt, site.longitude).expect("a moment");
    let up = Direction { x: 0, y: 0, z: UNIT };
    let south = turn(up, 2, QUARTER - site.latitude).expect("a turn");
    turn(south, 3, local_sidereal % CIRCLE).expect("a turn")
}

/// Prints how many stars about a direction of date lack an angle, and the one nearest to their middle with its place.
fn look(name: &str, moment: Moment, site: Site, direction: Direction, lacks: fn(Place) -> bool) {
    let centre = star_near(moment, direction);
    let across = (STEP as f64 / (centre.declination as f64 * PI / HALF_CIRCLE as f64).cos()) as Whole;
    let steps = || -REACH / STEP..=REACH / STEP;
    let grid = steps().flat_map(|along| steps().map(move |up| (along, up)));
    let star = |(along, up): (Whole, Whole)| Star {
        right_ascension: (centre.right_ascension + along * across).rem_euclid(CIRCLE),
        declination: centre.declination + up * STEP,
        ..centre
    };
    let found: Vec<(Whole, Whole)> =
        grid.filter(|at| place(moment, site, star(*at)).is_ok_and(lacks)).collect();
    println!("{name}: {} found", found.len());
    let count = found.len() as Whole;
    let (along, up) = found.iter().fold((0, 0), |sum, at| (sum.0 + at.0, sum.1 + at.1));
    let from_middle = |at: &&(Whole, Whole)| (count * at.0 - along).pow(2) + (count * at.1 - up).pow(2);
    if let Some(middle) = found.iter().min_by_key(from_middle) {
        println!("  {:?}\n  {:?}", star(*middle), place(moment, site, star(*middle)));
    }
}

/// A star without motion whose apparent direction is nearly this one: what is still wrong is added to its direction.
fn star_near(moment: Moment, direction: Direction) -> Star {
    let (_, _, tt) = instants(moment).expect("a moment");
    let mut towards = direction;
    for _ in 0..8 {
        let seen = apparent(star_of(towards), tt).expect("a place");
        let wrong = [direction.x - seen.x, direction.y - seen.y, direction.z - seen.z];
        let corrected =
            Direction { x: towards.x + wrong[0], y: towards.y + wrong[1], z: towards.z + wrong[2] };
        towards = corrected.to_length().expect("no direction is of three noughts");
    }
    star_of(towards)
}

fn star_of(Direction { x, y, z }: Direction) -> Star {
    let angle = |h: f64, v: f64| (v.atan2(h) * HALF_CIRCLE as f64 / PI).round() as Whole;
    let [x, y, z] = [x, y, z].map(|part| part as f64);
    Star {
        right_ascension: angle(x, y).rem_euclid(CIRCLE),
        declination: angle(x.hypot(y), z),
        motion_right_ascension: 0,
        motion_declination: 0,
    }
}
