//! Turns: `turning` beside `turning.rs`, and the way back measured.
#![cfg(exported = "turning")]

use bridge::beside::turn;
use bridge::chance::{around, Chance};
use bridge::compare::{compare, print};
use bridge::face::TURN;
use second::rounding::{rnd, root};
use second::turning::Direction;
use second::units::{Whole, CIRCLE, UNIT};

const RANDOM: usize = 100_000;
const MOST_ANGLE: i64 = CIRCLE as i64 - 1;
const PART: i64 = UNIT as i64;

/// A direction near the sphere of 2^30: most are accepted, some are not.
fn direction(chance: &mut Chance) -> [i64; 3] {
    let [x, y, z] = [(); 3].map(|()| chance.of_any_size(-PART, PART));
    // the length in parts of 2^30, so that a short one scales as well as a long one
    let length = root(squares([x, y, z]) << 60).max(1);
    // a stretch of a few parts crosses both ends of acceptance
    let stretch = if chance.once_in(4) { chance.within(-3, 3) } else { 0 };
    let stretched = |part: i64| rnd((Whole::from(part) * (UNIT + Whole::from(stretch))) << 30, length);
    [x, y, z].map(|part| stretched(part) as i64)
}

fn squares(parts: [i64; 3]) -> Whole {
    parts.iter().map(|part| Whole::from(*part).pow(2)).sum()
}

/// A direction of exactly this squared length near 2^60, if three squares make it.
fn of_squared_length(squared: Whole) -> Option<[i64; 3]> {
    let longest = root(squared);
    let split = |x: Whole| {
        let rest = squared - x * x;
        let y = (0..=root(rest / 2)).find(|y| root(rest - y * y).pow(2) == rest - y * y)?;
        Some([x, y, root(rest - y * y)].map(|part| part as i64))
    };
    (longest - 40..=longest).rev().find_map(split)
}

#[test]
fn random_turns() {
    let mut chance = Chance::new("random_turns");
    let random = (0..RANDOM).map(|_| {
        let [x, y, z] = direction(&mut chance);
        [x, y, z, chance.within(1, 3), chance.within(-MOST_ANGLE, MOST_ANGLE)]
    });
    compare(&TURN, "random", random, turn);
}

#[test]
fn axes_and_angles() {
    let axes = [around(&[i64::MIN, i64::MAX], 1), (-2..=6).collect()].concat();
    let angles = around(&[i64::MIN, -MOST_ANGLE, 0, MOST_ANGLE, i64::MAX], 3);
    let mut chance = Chance::new("axes_and_angles");
    let mut calls = Vec::new();
    for [x, y, z] in [(); 10].map(|()| direction(&mut chance)) {
        for axis in &axes {
            calls.extend(angles.iter().map(|angle| [x, y, z, *axis, *angle]));
        }
    }
    compare(&TURN, "axes and angles", calls, turn);
}

#[test]
fn ends_of_acceptance() {
    let middle: Whole = 1 << 60;
    let ends = [middle - (1 << 32), middle + (1 << 32)];
    let lengths = ends.into_iter().flat_map(|end| end - 8..=end + 8);
    let mut directions: Vec<[i64; 3]> = lengths.filter_map(of_squared_length).collect();
    // neither 2^60 − 2^32 nor one less is a sum of three squares: two less is the first past that end
    for end in [ends[0] - 2, ends[0] + 1, ends[1], ends[1] + 1] {
        assert!(directions.iter().any(|parts| squares(*parts) == end), "none at {end}");
    }
    // all parts multiples of 2^16
    directions.push([1 << 30, 1 << 16, 0]);

    let mut chance = Chance::new("ends_of_acceptance");
    let mut calls = Vec::new();
    for [x, y, z] in directions {
        for [x, y, z] in [[x, y, z], [-y, z, x], [z, -x, y], [-x, -y, -z]] {
            for axis in 1..=3 {
                calls.push([x, y, z, axis, chance.within(-MOST_ANGLE, MOST_ANGLE)]);
            }
        }
    }
    compare(&TURN, "ends of acceptance", calls, turn);
}

/// Parts whose squares, or the sum of whose squares, pass 64 bits.
#[test]
fn parts_too_large() {
    let sizes = [0, 1, 1 << 30, 1 << 31, 3_037_000_500, 1 << 32, 1 << 62, i64::MAX];
    let parts = around(&[sizes, sizes.map(|size| -size)].concat(), 1);
    let mut calls = Vec::new();
    for x in &parts {
        for y in &parts {
            calls.extend(parts.iter().map(|z| [*x, *y, *z, 3, 1]));
        }
    }
    compare(&TURN, "parts of any size", calls, turn);
}

/// n turns and the opposite turns in the other order come back within 32 n in each part.
#[test]
fn way_back() {
    for turns in [1, 2, 3, 10, 100, 1000] {
        let mut chance = Chance::new(&format!("way_back {turns}"));
        let starts: Vec<[i64; 3]> = (0..CHAINS).map(|_| accepted_direction(&mut chance)).collect();
        let there: Vec<Step> = (0..turns).map(|_| step(&mut chance)).collect();
        let back = there.iter().rev().map(|step| step.map(|[axis, angle]| [axis, -angle]));

        let mut directions = starts.clone();
        for step in there.iter().copied().chain(back) {
            directions = turned(&directions, step);
        }
        let mut worst = 0;
        for (start, end) in starts.iter().zip(&directions) {
            for (from, to) in start.iter().zip(end) {
                worst = worst.max((from - to).abs());
                assert!(worst <= 32 * turns, "{turns} turns and back: {start:?} came to {end:?}");
            }
        }
        print(&format!(
            "measured turbelicus_turn: {CHAINS} chains of {turns} turns and back, at most {worst} parts off"
        ));
    }
}

/// So many chains go at once.
const CHAINS: usize = 50;

/// A turn for each of the chains: axis and angle.
type Step = [[i64; 2]; CHAINS];

fn step(chance: &mut Chance) -> Step {
    [(); CHAINS].map(|()| [chance.within(1, 3), chance.within(-MOST_ANGLE, MOST_ANGLE)])
}

fn accepted_direction(chance: &mut Chance) -> [i64; 3] {
    loop {
        let parts = direction(chance);
        let [x, y, z] = parts.map(Whole::from);
        if (Direction { x, y, z }).accepted() {
            return parts;
        }
    }
}

/// Every direction by its turn, as the module has it; none may be refused.
fn turned(directions: &[[i64; 3]], step: Step) -> Vec<[i64; 3]> {
    let call = |([x, y, z], [axis, angle]): (&[i64; 3], [i64; 2])| [*x, *y, *z, axis, angle].into();
    let mut calls: Vec<_> = directions.iter().zip(step).map(call).collect();
    let answers = TURN.answers(&mut calls).into_iter().zip(&calls);
    let parts = answers.map(|([refused, x, y, z], call)| {
        assert_eq!(refused, 0, "{:?} in a chain", call.given);
        [x, y, z]
    });
    parts.collect()
}
