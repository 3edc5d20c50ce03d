//! Document 02, "Say so when there is no azimuth": the reading of two noughts, stars that stand exactly at a pole of
//! date, at the zenith or at the nadir, and their marks in a night list.

use second::dates::{Date, Moment};
use second::place::{place, Place, Site, Star};
use second::reading::reading;
use second::refusals::ROOM;
use second::star_list::{night_list, Angles, Entry, FOUR_NOUGHTS, MOST_ENTRIES};
use second::units::{Whole, CIRCLE, HALF_CIRCLE, QUARTER};

const EVENING: Moment = Moment {
    date: Date { year: 2026, month: 3, day: 20 },
    hour: 20,
    minute: 0,
    second: 0,
    ms: 0,
    ut1_minus_utc: 0,
};

const fn site(latitude: Whole) -> Site {
    Site { latitude, longitude: 51_915_000_000 }
}

/// A second of arc apart: 50° 05′ 15″, 16″ and 18″ north; and the two poles.
const AT_15: Site = site(180_315_000_000);
const AT_16: Site = site(180_316_000_000);
const AT_18: Site = site(180_318_000_000);
const NORTH_POLE: Site = site(QUARTER);
const SOUTH_POLE: Site = site(-QUARTER);

const fn star(right_ascension: Whole, declination: Whole) -> Star {
    Star { right_ascension, declination, motion_right_ascension: 0, motion_declination: 0 }
}

/// Each stands that evening exactly where its name says; the first over `AT_15`, the second under `AT_18`.
const ZENITH_STAR: Star = star(476_318_159_297, 180_659_983_868);
const NADIR_STAR: Star = star(1_124_358_722_813, -180_673_550_119);
const NORTH_POLE_STAR: Star = star(10_315_798_983, 323_471_053_674);
const SOUTH_POLE_STAR: Star = star(643_579_742_410, -323_472_318_850);

/// The stars with a site and what their places lack there: the right ascension, the azimuth.
const SAMPLES: [(Star, Site, [bool; 2]); 8] = [
    (ZENITH_STAR, AT_15, [false, true]),
    (NADIR_STAR, AT_18, [false, true]),
    (NORTH_POLE_STAR, AT_16, [true, false]),
    (SOUTH_POLE_STAR, AT_16, [true, false]),
    (NORTH_POLE_STAR, NORTH_POLE, [true, true]),
    (NORTH_POLE_STAR, SOUTH_POLE, [true, true]),
    (SOUTH_POLE_STAR, NORTH_POLE, [true, true]),
    (SOUTH_POLE_STAR, SOUTH_POLE, [true, true]),
];

#[test]
fn two_noughts_have_no_angle() {
    assert_eq!(reading(0, 0), None);
    assert_eq!(reading(1, 0), Some(0));
    assert_eq!(reading(0, 1), Some(QUARTER));
    assert_eq!(reading(-1, 0), Some(HALF_CIRCLE));
    assert_eq!(reading(0, -1), Some(CIRCLE - QUARTER));
}

#[test]
fn the_place_says_what_it_lacks() {
    for (star, site, lacking) in SAMPLES {
        let place = place(EVENING, site, star).expect("a place");
        assert_eq!(
            [place.right_ascension.is_none(), place.azimuth.is_none()],
            lacking,
            "{star:?} at {site:?}"
        );
    }
}

#[test]
fn places_of_the_samples() {
    let zenith = Place {
        right_ascension: Some(478_026_476_842),
        declination: 180_315_000_075,
        azimuth: None,
        altitude: QUARTER,
    };
    assert_eq!(place(EVENING, AT_15, ZENITH_STAR), Ok(zenith));
    // this one has an azimuth, which is 0: the pole stands in the north
    let pole =
        Place { right_ascension: None, declination: QUARTER, azimuth: Some(0), altitude: 180_315_999_951 };
    assert_eq!(place(EVENING, AT_16, NORTH_POLE_STAR), Ok(pole));
    let neither = Place { right_ascension: None, declination: QUARTER, azimuth: None, altitude: QUARTER };
    assert_eq!(place(EVENING, NORTH_POLE, NORTH_POLE_STAR), Ok(neither));
    let below = Place { declination: -QUARTER, altitude: -QUARTER, ..neither };
    assert_eq!(place(EVENING, NORTH_POLE, SOUTH_POLE_STAR), Ok(below));
}

/// Stars about this one, each some 20 µas from the next, out to 400.
fn band(star: Star) -> impl Iterator<Item = Star> {
    let flat = (star.declination as f64 / HALF_CIRCLE as f64 * std::f64::consts::PI).cos();
    let step = (20.0 / flat) as Whole;
    (-20..=20).flat_map(move |along| {
        (-20..=20).map(move |up| Star {
            right_ascension: (star.right_ascension + along * step).rem_euclid(CIRCLE),
            declination: star.declination + up * 20,
            ..star
        })
    })
}

/// A direction one part of 2^30 off the axis already reads 192 µas off: an angle around it is lacking exactly where the
/// height is a whole quarter. So an entry with mark 1 tells which it lacks.
#[test]
fn an_angle_is_lacking_exactly_at_a_whole_quarter() {
    for (sample, site, lacking) in SAMPLES {
        let mut kinds = [[false; 2]; 2];
        for star in band(sample) {
            let place = place(EVENING, site, star).expect("a place");
            let found = [place.right_ascension.is_none(), place.azimuth.is_none()];
            let heights = [place.declination, place.altitude];
            assert_eq!(found, heights.map(|height| height.abs() == QUARTER), "{star:?} at {site:?}");
            for (kinds, found) in kinds.iter_mut().zip(found) {
                kinds[usize::from(found)] = true;
            }
        }
        // every band has stars with the angle, and stars without it where its sample is one
        assert_eq!(kinds, lacking.map(|lacking| [true, lacking]), "about {sample:?} at {site:?}");
    }
}

fn entry(star: Star) -> Entry {
    let angles = Angles { right_ascension: 7, declination: 7, azimuth: 7, altitude: 7 };
    Entry { star, mark: 7, angles }
}

#[test]
fn marks_of_a_night_list() {
    let (ordinary, refused) = (star(0, 0), star(0, QUARTER + 1));
    let mut entries = [ordinary, ZENITH_STAR, refused, NORTH_POLE_STAR].map(entry);
    assert_eq!(night_list(EVENING, AT_15, &mut entries), Ok(3));
    assert_eq!(entries.map(|entry| entry.mark), [0, 1, 5, 1]);
    let zenith = Angles {
        right_ascension: 478_026_476_842,
        declination: 180_315_000_075,
        azimuth: 0,
        altitude: QUARTER,
    };
    assert_eq!(entries[1], Entry { star: ZENITH_STAR, mark: 1, angles: zenith });
    assert_eq!(entries[2].angles, FOUR_NOUGHTS);
    let Angles { right_ascension, declination, azimuth, .. } = entries[3].angles;
    assert_eq!((right_ascension, declination, azimuth), (0, QUARTER, 0));

    // one mark, though both angles are lacking
    let mut entries = [NORTH_POLE_STAR].map(entry);
    assert_eq!(night_list(EVENING, NORTH_POLE, &mut entries), Ok(1));
    let neither = Angles { right_ascension: 0, declination: QUARTER, azimuth: 0, altitude: QUARTER };
    assert_eq!(entries, [Entry { star: NORTH_POLE_STAR, mark: 1, angles: neither }]);
}

#[test]
fn lists_without_an_azimuth() {
    let mut entries = [ZENITH_STAR; MOST_ENTRIES + 1].map(entry);
    assert_eq!(night_list(EVENING, AT_15, &mut entries), Err(ROOM));
    assert_eq!(night_list(EVENING, AT_15, &mut entries[..MOST_ENTRIES]), Ok(MOST_ENTRIES));
    assert!(entries[..MOST_ENTRIES].iter().all(|entry| entry.mark == 1));
    assert_eq!(entries[MOST_ENTRIES], entry(ZENITH_STAR));
}
