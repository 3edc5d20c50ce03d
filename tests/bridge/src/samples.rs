//! Stars that stand, one evening, exactly where an angle is lacking: at a pole of date, at the zenith, at the nadir.

use second::units::{CIRCLE, HALF_CIRCLE, QUARTER};

use crate::beside::both;

/// Its moment, and the longitude of every site.
const EVENING: [i64; 8] = [2026, 3, 20, 20, 0, 0, 0, 0];
const LONGITUDE: i64 = 51_915_000_000;
const POLE: i64 = QUARTER as i64;

/// A star without motion over a latitude; what its place has there of right ascension and azimuth, 0 or 1.
#[derive(Clone, Copy, Debug)]
pub struct Sample {
    pub latitude: i64,
    pub ra: i64,
    pub declination: i64,
    pub has: [i64; 2],
}

const NORTH: Sample =
    Sample { latitude: POLE, ra: 10_315_798_983, declination: 323_471_053_674, has: [0, 0] };
const SOUTH: Sample =
    Sample { latitude: POLE, ra: 643_579_742_410, declination: -323_472_318_850, has: [0, 0] };

pub const ZENITH: Sample =
    Sample { latitude: 180_315_000_000, ra: 476_318_159_297, declination: 180_659_983_868, has: [1, 0] };
const NADIR: Sample =
    Sample { latitude: 180_318_000_000, ra: 1_124_358_722_813, declination: -180_673_550_119, has: [1, 0] };
/// At the pole of date, and seen from where it has an azimuth, which is 0.
pub const AT_POLE: Sample = Sample { latitude: 180_316_000_000, has: [0, 1], ..NORTH };
/// The same star, over the pole.
pub const NEITHER: Sample = NORTH;

pub const SAMPLES: [Sample; 8] = [
    ZENITH,
    AT_POLE,
    NEITHER,
    NADIR,
    Sample { latitude: -POLE, ..NORTH },
    SOUTH,
    Sample { latitude: -POLE, ..SOUTH },
    Sample { latitude: 180_316_000_000, has: [0, 1], ..SOUTH },
];

/// The word of the flags where a place has both angles.
pub const HAS_BOTH: i64 = 1 | 1 << 32;

impl Sample {
    /// The word of the flags that its place has.
    pub fn flags(self) -> i64 {
        let [has_ra, has_azimuth] = self.has;
        both(has_ra, has_azimuth)
    }

    pub fn star(self) -> [i64; 4] {
        [self.ra, self.declination, 0, 0]
    }

    /// What a night list is given.
    pub fn night(self) -> [i64; 10] {
        let [year, month, day, hour, minute, second, ms, ut1_minus_utc] = EVENING;
        [year, month, day, hour, minute, second, ms, ut1_minus_utc, self.latitude, LONGITUDE]
    }

    /// What a place is given.
    pub fn asked(self) -> [i64; 14] {
        let (night, star) = (self.night(), self.star());
        std::array::from_fn(|part| if part < night.len() { night[part] } else { star[part - night.len()] })
    }

    /// Stars about it, each some 20 µas from the next, out to 400 in right ascension and in declination.
    pub fn band(self) -> impl Iterator<Item = Sample> {
        let flat = (self.declination as f64 * std::f64::consts::PI / HALF_CIRCLE as f64).cos();
        let step = (20.0 / flat) as i64;
        (-20..=20).flat_map(move |along| {
            (-20..=20).map(move |up| Sample {
                ra: (self.ra + along * step).rem_euclid(CIRCLE as i64),
                declination: self.declination + up * 20,
                ..self
            })
        })
    }
}
