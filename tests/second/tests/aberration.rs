//! Document 02, "Aberration of a real orbit": ϖ and the two terms of step 4, worked out by hand; the rest of the step
//! is document 01's.

use second::circle::Pair;
use second::dates::Tt;
use second::earth::perihelion;
use second::place::{aberration, aberration_of, added};
use second::refusals::INSTANT;
use second::turning::Direction;
use second::units::{Whole, CENTURY, UNIT};

/// ϖ is the polynomial 370574460000, 6190056000, 1656000: a sum of the three after a century.
#[test]
fn perihelion_after_whole_and_half_centuries() {
    assert_eq!(perihelion(Tt(0)), Ok(370_574_460_000));
    assert_eq!(perihelion(Tt(CENTURY)), Ok(370_574_460_000 + 6_190_056_000 + 1_656_000));
    assert_eq!(perihelion(Tt(-CENTURY)), Ok(370_574_460_000 - 6_190_056_000 + 1_656_000));
    assert_eq!(perihelion(Tt(CENTURY / 2)), Ok(370_574_460_000 + 3_095_028_000 + 414_000));
    assert_eq!(perihelion(Tt(-CENTURY / 2)), Ok(370_574_460_000 - 3_095_028_000 + 414_000));
}

/// A ms is 6190056000 / Q = 0.00196 µas: 254 of them are 0.4982, and 255 are 0.5002.
#[test]
fn perihelion_is_rounded() {
    for (ms, more) in [(254, 0), (255, 1), (-254, 0), (-255, -1)] {
        assert_eq!(perihelion(Tt(ms)), Ok(370_574_460_000 + more), "{ms}");
    }
}

#[test]
fn perihelion_outside_its_century() {
    for t in [CENTURY + 1, -CENTURY - 1] {
        assert_eq!(perihelion(Tt(t)), Err(INSTANT));
        assert_eq!(aberration(Tt(t)), Err(INSTANT));
    }
}

const fn pair(cosine: Whole, sine: Whole) -> Pair {
    Pair { cosine, sine }
}

/// The pairs of 0, 1, 2 and 3 quarters.
const QUARTERS: [Pair; 4] = [pair(UNIT, 0), pair(0, UNIT), pair(-UNIT, 0), pair(0, -UNIT)];

/// Perihelion is where the Sun stands opposite to ϖ: the Earth is fastest there, and slowest where S is ϖ.
#[test]
fn fastest_at_perihelion() {
    let [fast, slow] = [106_692 + 1_783, 106_692 - 1_783];
    let [nought, quarter, half, three_quarters] = QUARTERS;
    assert_eq!(aberration_of(half, nought), (0, fast));
    assert_eq!(aberration_of(three_quarters, quarter), (-fast, 0));
    assert_eq!(aberration_of(nought, half), (0, -fast));
    assert_eq!(aberration_of(quarter, three_quarters), (fast, 0));
    assert_eq!(aberration_of(nought, nought), (0, -slow));
    assert_eq!(aberration_of(quarter, quarter), (slow, 0));
    assert_eq!(aberration_of(half, half), (0, slow));
    assert_eq!(aberration_of(three_quarters, three_quarters), (-slow, 0));
}

/// A quarter apart: bx has the sines of both, by the cosines of both.
#[test]
fn sines_in_bx_and_cosines_in_by() {
    let [nought, quarter, half, three_quarters] = QUARTERS;
    assert_eq!(aberration_of(nought, quarter), (-1_783, -106_692));
    assert_eq!(aberration_of(nought, three_quarters), (1_783, -106_692));
    assert_eq!(aberration_of(quarter, nought), (106_692, 1_783));
    assert_eq!(aberration_of(quarter, half), (106_692, -1_783));
}

/// The evening of 20 March 2026 at 20:00 UTC, where t / Q = 0.262158361, S = 0.227049°, ϖ = 103.388152° and
/// ε = 23.435882°.
#[test]
fn one_evening() {
    let evening = Tt(827_308_869_184);
    assert_eq!(perihelion(evening), Ok(372_197_348_747));
    // 106692 × 0.0039627 = 422.79 and 1783 × 0.9728238 = 1734.54; 106692 × 0.9999921 = 106691.16 and
    // 1783 × −0.2315467 = −412.85
    assert_eq!(aberration(evening), Ok((423 - 1_735, -106_691 - 413)));
    // −107104 × 0.9175057 = −98268.53, −107104 × 0.3977226 = −42597.68
    assert_eq!(added(evening), Ok(Direction { x: -1_312, y: -98_269, z: -42_598 }));
}

/// 106692 × 6038 is 0.59996 of 2^30 and 1783 × 180663 is 0.29999: Rnd 1 and Rnd 0. One rounding of both would give
/// Rnd(0.29997) = 0. Of 3019 and 361326 it is the other way around.
#[test]
fn two_roundings() {
    let both = |sun, perihelion| aberration_of(pair(sun, sun), pair(perihelion, perihelion));
    assert_eq!(both(6_038, 180_663), (1, -1));
    assert_eq!(both(-6_038, -180_663), (-1, 1));
    assert_eq!(both(3_019, 361_326), (-1, 1));
    assert_eq!(both(-3_019, -361_326), (1, -1));
}

/// 106692 × 2^27 is 13336.5 of 2^30 and 1783 × 2^29 is 891.5: each half goes away from zero by itself.
#[test]
fn halves_away_from_zero() {
    let (sun, perihelion) = (1 << 27, 1 << 29);
    assert_eq!(aberration_of(pair(sun, sun), pair(perihelion, perihelion)), (13_337 - 892, -13_337 + 892));
    assert_eq!(aberration_of(pair(-sun, sun), pair(perihelion, -perihelion)), (13_337 + 892, 13_337 + 892));
    assert_eq!(aberration_of(pair(sun, -sun), pair(-perihelion, perihelion)), (-13_337 - 892, -13_337 - 892));
}
