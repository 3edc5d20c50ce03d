//! Reading an angle: `reading` beside `reading.rs`, and the two promises of document 01 measured.
#![cfg(exported = "reading")]

use bridge::beside::angle;
use bridge::chance::{around, Chance};
use bridge::compare::{compare, print};
use bridge::face::READING;
use second::circle::pair;
use second::units::{CIRCLE, HALF_CIRCLE, QUARTER};

const RANDOM: usize = 1_000_000;
const LEAST: i64 = i32::MIN as i64;
const MOST: i64 = i32::MAX as i64;

/// n and the m next to 2n/5, where the reading goes from one formula to the other, with both signs and in both orders.
fn at_switch(chance: &mut Chance) -> [i64; 2] {
    let n = chance.of_any_size(1, MOST);
    let m = (2 * n + chance.within(-5, 5)).div_euclid(5).max(0);
    let [h, v] = chance.one_of(&[[m, n], [n, m]]);
    [chance.one_of(&[-1, 1]) * h, chance.one_of(&[-1, 1]) * v]
}

fn any_pair(chance: &mut Chance) -> [i64; 2] {
    if chance.once_in(2) {
        [chance.within(LEAST, MOST), chance.within(LEAST, MOST)]
    } else {
        [chance.of_any_size(LEAST, MOST), chance.of_any_size(LEAST, MOST)]
    }
}

#[test]
fn small_and_end_pairs() {
    let small = (-300..=300).flat_map(|h| (-300..=300).map(move |v| [h, v]));
    compare(&READING, "sizes to 300", small, angle);

    let mut ends = around(&[LEAST, -(1 << 30), 0, 1 << 30, MOST], 10);
    ends.retain(|end| (LEAST..=MOST).contains(end));
    let ends = ends.iter().flat_map(|h| ends.iter().map(|v| [*h, *v]));
    compare(&READING, "ends", ends, angle);
}

/// Document 02: "Reading an angle from (0, 0) shall answer that there is no angle"; a pair with one nought has one.
#[test]
fn no_angle() {
    let sizes = [1, 2, 300, 1 << 16, 1 << 30, MOST - 1, MOST];
    let along = sizes.iter().flat_map(|size| [*size, -size]).chain([LEAST]);
    let axes: Vec<[i64; 2]> = along.flat_map(|part| [[part, 0], [0, part]]).collect();
    let mut calls: Vec<_> = [[0, 0]].into_iter().chain(axes).map(Into::into).collect();
    let answers = READING.answers(&mut calls);
    assert_eq!(answers[0], [0, 0]);
    for (call, [angle, has_angle]) in calls.iter().zip(answers).skip(1) {
        let expected = match call.given {
            [h, _] if h > 0 => 0,
            [_, v] if v > 0 => QUARTER,
            [h, _] if h < 0 => HALF_CIRCLE,
            _ => CIRCLE - QUARTER,
        };
        assert_eq!((angle.into(), has_angle), (expected, 1), "{:?}", call.given);
    }
    let given: Vec<[i64; 2]> = calls.iter().map(|call| call.given).collect();
    compare(&READING, "both noughts, and one", given, angle);
}

#[test]
fn formula_switch() {
    let mut chance = Chance::new("formula_switch");
    let switch = (0..RANDOM / 10).map(|_| at_switch(&mut chance));
    compare(&READING, "5m = 2n and next to it", switch, angle);
}

#[test]
fn any_two_numbers() {
    let mut chance = Chance::new("any_two_numbers");
    let random = (0..RANDOM).map(|_| any_pair(&mut chance));
    compare(&READING, "random", random, angle);
}

/// "For (h, v) not (0, 0), with the answer's pair: the size of cv − sh is at most 8 times the sum of the sizes of h and v,
/// and ch + sv is above nought."
#[test]
fn promises() {
    let mut chance = Chance::new("promises");
    let given = (0..RANDOM).map(|_| any_pair(&mut chance));
    let mut calls: Vec<_> = given.filter(|given| *given != [0, 0]).map(Into::into).collect();
    let (mut worst, mut worst_given) = (0.0, [0, 0]);
    for (index, [angle, has_angle]) in READING.answers(&mut calls).into_iter().enumerate() {
        let [h, v] = calls[index].given.map(i128::from);
        assert_eq!(has_angle, 1, "({h}, {v}) has an angle");
        let pair = pair(angle.into());
        let aside = (pair.cosine * v - pair.sine * h).abs();
        let sizes = h.abs() + v.abs();
        assert!(aside <= 8 * sizes, "({h}, {v}) reads {angle}: {aside} aside");
        let ahead = pair.cosine * h + pair.sine * v;
        assert!(ahead > 0, "({h}, {v}) reads {angle}: {ahead} ahead");
        if aside as f64 / sizes as f64 > worst {
            (worst, worst_given) = (aside as f64 / sizes as f64, [h, v]);
        }
    }
    print(&format!(
        "measured turbelicus_reading: {} pairs, worst ratio {worst:.3} of 8 at {worst_given:?}",
        calls.len()
    ));
}
