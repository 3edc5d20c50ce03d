//! Four-byte floats to try, each as the word of its bits: the floats of one sign stand in the order of their words.

use crate::chance::{around, Chance};

pub const SIGN: i64 = 0x8000_0000;
const INFINITY: i64 = 0x7f80_0000;
const QUIET: i64 = 0x0040_0000;
const MOST: i64 = u32::MAX as i64;

/// The ends of what is accepted: of a pressure, and of a temperature's size.
pub const PRESSURES: (i64, i64) = (0x43fa_0000, 0x4489_8000);
pub const SIZES_OF_TEMPERATURE: (i64, i64) = (0, 0x4248_0000);

pub fn word(value: f32) -> i64 {
    value.to_bits().into()
}

fn is_nan(word: i64) -> bool {
    word & !SIGN > INFINITY
}

/// An answered record whose every NaN is the same one: which NaN comes back is not said.
pub fn one_nan([refused, floats, flags]: [i64; 3]) -> [i64; 3] {
    let told = |word: i64| if is_nan(word) { INFINITY | QUIET } else { word };
    [refused, told(floats & MOST) | told(floats >> 32 & MOST) << 32, flags]
}

/// The given floats with those next to them in size, up to a distance, each with both signs.
fn both_signs_around(words: &[i64], distance: i64) -> Vec<i64> {
    let mut sizes = around(words, distance);
    sizes.retain(|size| (0..SIGN).contains(size));
    sizes.iter().flat_map(|size| [*size, size | SIGN]).collect()
}

/// The ends of what is accepted, the noughts, the ends of subnormals, the largest floats, infinities, and NaNs, quiet and
/// signalling, with payloads; and the floats next to each.
pub fn edges() -> Vec<i64> {
    let least_normal = 0x0080_0000;
    let ends = [PRESSURES.0, PRESSURES.1, SIZES_OF_TEMPERATURE.0, SIZES_OF_TEMPERATURE.1];
    let odd = [least_normal, INFINITY, INFINITY | QUIET, INFINITY | QUIET | 0x1234, SIGN - 1];
    both_signs_around(&[&ends[..], &odd].concat(), 2)
}

/// Every power of two, and the floats next to it.
pub fn powers_of_two() -> Vec<i64> {
    let normal = (1..255).map(|exponent| exponent << 23);
    let subnormal = (0..23).map(|place| 1 << place);
    both_signs_around(&normal.chain(subnormal).collect::<Vec<_>>(), 1)
}

/// Every half of a tenth from low to high, with the floats next to it: a quarter and three quarters of a unit are halves and
/// floats, of the others the nearest floats are taken.
pub fn halves_of_tenths(low: i64, high: i64) -> Vec<i64> {
    let twentieths = (20 * low..20 * high).filter(|twentieth| twentieth % 2 != 0);
    let nearest = |twentieth: i64| word(twentieth as f32 / 20.0);
    around(&twentieths.map(nearest).collect::<Vec<_>>(), 1)
}

/// A pressure that is accepted.
pub fn pressure(chance: &mut Chance) -> i64 {
    chance.within(PRESSURES.0, PRESSURES.1)
}

/// A temperature that is accepted, small sizes as likely as large ones.
pub fn temperature(chance: &mut Chance) -> i64 {
    let (low, high) = SIZES_OF_TEMPERATURE;
    let size = if chance.once_in(2) { chance.within(low, high) } else { chance.within(word(0.01), high) };
    size | chance.one_of(&[0, SIGN])
}

/// Any float: of any bits, next to an end of what is accepted, or accepted.
pub fn any_float(chance: &mut Chance) -> i64 {
    match chance.within(0, 3) {
        0 => chance.within(0, MOST),
        1 => chance.one_of(&edges()),
        2 => pressure(chance),
        _ => temperature(chance),
    }
}
