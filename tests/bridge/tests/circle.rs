//! Cosine and sine: `circle` beside `circle.rs`.
#![cfg(exported = "circle")]

use bridge::chance::{around, Chance};
use bridge::compare::compare;
use bridge::face::PAIR;
use second::circle;
use second::units::HALF_QUARTER;

const RANDOM: usize = 1_000_000;

fn pair([angle]: [i64; 1]) -> [i64; 2] {
    let pair = circle::pair(angle.into());
    [pair.cosine, pair.sine].map(|part| i64::try_from(part).expect("an answer of 64 bits"))
}

#[test]
fn octant_edges() {
    let octant = HALF_QUARTER as i64;
    let most = i64::MAX / octant;
    // two circles either way, and the last of the 64-bit angles
    let octants = [-16..=16, -most..=16 - most, most - 16..=most].into_iter().flatten();
    let edges: Vec<i64> = octants.map(|number| number * octant).collect();
    let calls = around(&edges, 1000).into_iter().map(|angle| [angle]);
    compare(&PAIR, "octant edges", calls, pair);

    let ends = around(&[i64::MIN, i64::MAX], 1000).into_iter().map(|angle| [angle]);
    compare(&PAIR, "ends", ends, pair);
}

#[test]
fn any_angle() {
    let mut chance = Chance::new("any_angle");
    let random = (0..RANDOM).map(|_| [chance.any()]);
    compare(&PAIR, "random", random, pair);

    let mut chance = Chance::new("any_angle, of any size");
    let random = (0..RANDOM / 10).map(|_| [chance.of_any_size(i64::MIN, i64::MAX)]);
    compare(&PAIR, "of any size", random, pair);
}

/// Document 01: "the opposite angle gives exactly (c, −s)".
#[test]
fn opposite_angles() {
    let mut chance = Chance::new("opposite_angles");
    let mut angles: Vec<_> = (0..100_000).map(|_| [chance.within(-i64::MAX, i64::MAX)].into()).collect();
    let pairs = PAIR.answers(&mut angles);
    for angle in &mut angles {
        angle.given[0] = -angle.given[0];
    }
    for (index, opposite) in PAIR.answers(&mut angles).into_iter().enumerate() {
        let [cosine, sine] = pairs[index];
        assert_eq!(opposite, [cosine, -sine], "at {}", angles[index].given[0]);
    }
}
