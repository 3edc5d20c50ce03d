//! Document 02, "Refraction with a weather probe": the weather record, the lift by the air and the observed altitude.

use crate::circle::{pair, Pair};
use crate::dates::Moment;
use crate::place::{place, Place, Site, Star};
use crate::refusals::{self, unless, Refusal};
use crate::rounding::rnd;
use crate::units::{Whole, QUARTER};

/// A four-byte float (IEEE 754, binary32) by its bits: the sign, 8 bits of the exponent, 23 of the fraction.
#[derive(Clone, Copy, Debug, PartialEq, Eq)]
pub struct Float(pub u32);

impl Float {
    /// The exact value, numerator and denominator; an infinity and a NaN have none.
    ///
    /// 128 bits do not hold every power of two that a float has: one past 2^100, or under 2^-100, is taken as that. What
    /// then stands for the value is like it above 2^123 in size, or under 2^-76: no end of a range and no half of a
    /// tenth lies between.
    fn exact(self) -> Option<(Whole, Whole)> {
        let Float(bits) = self;
        let (exponent, fraction) = (bits >> 23 & 0xff, Whole::from(bits & 0x7f_ffff));
        let (size, power) = match exponent {
            255 => return None,
            0 => (fraction, -149),
            _ => (fraction + (1 << 23), exponent as i32 - 150),
        };
        let signed = if bits >> 31 == 0 { size } else { -size };
        let two_to_power: Whole = 1 << power.abs().min(100);
        Some(if power < 0 { (signed, two_to_power) } else { (signed * two_to_power, 1) })
    }

    /// A finite value from low to high, ends included.
    fn lies(self, low: Whole, high: Whole) -> bool {
        let between =
            |(numerator, denominator)| low * denominator <= numerator && numerator <= high * denominator;
        self.exact().is_some_and(between)
    }

    /// Whole tenths, the nearest to the float's exact value, halves away from zero; of a reading that is accepted.
    pub fn tenths(self) -> Whole {
        let (numerator, denominator) = self.exact().expect("a finite value");
        rnd(10 * numerator, denominator)
    }
}

/// The probe hands over one reading at a time: pressure in hPa, or air temperature in degrees, or nothing.
#[derive(Clone, Copy, Debug, PartialEq, Eq)]
pub enum Reading {
    Pressure(Float),
    Temperature(Float),
    Nothing,
}

impl Reading {
    /// Accepted are finite values, 500 to 1,100 and −50 to 50, ends included.
    fn accepted(self) -> bool {
        match self {
            Reading::Pressure(pressure) => pressure.lies(500, 1100),
            Reading::Temperature(temperature) => temperature.lies(-50, 50),
            Reading::Nothing => true,
        }
    }
}

/// The latest of each make the weather record, kept as floats.
#[derive(Clone, Copy, Debug, PartialEq, Eq)]
pub struct Weather {
    pub pressure: Option<Float>,
    pub temperature: Option<Float>,
}

/// Nothing has come.
pub const NO_WEATHER: Weather = Weather { pressure: None, temperature: None };

impl Weather {
    /// Refused 14: a reading not accepted is none that can be in the record.
    fn check(self) -> Result<(), Refusal> {
        let pressure = self.pressure.map_or(Reading::Nothing, Reading::Pressure);
        let temperature = self.temperature.map_or(Reading::Nothing, Reading::Temperature);
        unless(pressure.accepted() && temperature.accepted(), refusals::READING)
    }

    /// The record with one more reading, or refused 14: a reading not accepted; the record stays.
    pub fn with(self, reading: Reading) -> Result<Weather, Refusal> {
        self.check()?;
        unless(reading.accepted(), refusals::READING)?;
        Ok(match reading {
            Reading::Pressure(pressure) => Weather { pressure: Some(pressure), ..self },
            Reading::Temperature(temperature) => Weather { temperature: Some(temperature), ..self },
            Reading::Nothing => self,
        })
    }
}

/// The lowest true altitude that is lifted.
const LOWEST: Whole = -3_600_000_000;

/// The lift of a true altitude in a record that is accepted.
pub fn lift(altitude: Whole, weather: Weather) -> Whole {
    // Until both have come the lift is nought.
    let Weather { pressure: Some(pressure), temperature: Some(temperature) } = weather else {
        return 0;
    };
    lift_at(pressure.tenths(), temperature.tenths(), altitude)
}

/// The same, by the tenths of pressure and temperature.
pub fn lift_at(pressure_tenths: Whole, temperature_tenths: Whole, altitude: Whole) -> Whole {
    // Below that altitude the lift is nought; above a quarter there is none that the place gives.
    if !(LOWEST..=QUARTER).contains(&altitude) {
        return 0;
    }
    // Rnd(lift × pressure tenths × 2830 / (10100 × (2730 + temperature tenths))), the product carried whole
    let product = plain_lift(altitude) * pressure_tenths * 2830;
    rnd(product, 10100 * (2730 + temperature_tenths))
}

/// The lift before the weather is applied.
fn plain_lift(h: Whole) -> Whole {
    // g = h + Rnd(133,488,000,000,000,000,000 / (h + 18,396,000,000))
    let g = h + rnd(133_488_000_000_000_000_000, h + 18_396_000_000);
    let Pair { cosine, sine } = pair(g);
    // Rnd(61,200,000 × cos g / sin g), nought if negative
    rnd(61_200_000 * cosine, sine).max(0)
}

/// The observed altitude of a true one, or refused 14.
pub fn observed_altitude(altitude: Whole, weather: Weather) -> Result<Whole, Refusal> {
    weather.check()?;
    Ok(altitude + lift(altitude, weather))
}

/// The place, whose altitude is the true one, and the observed altitude; or refused 1 to 6, then refused 14.
pub fn observed_place(
    moment: Moment,
    site: Site,
    star: Star,
    weather: Weather,
) -> Result<(Place, Whole), Refusal> {
    let place = place(moment, site, star)?;
    Ok((place, observed_altitude(place.altitude, weather)?))
}
