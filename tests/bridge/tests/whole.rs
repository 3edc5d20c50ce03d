//! Rounded quotients, the whole root and the circle: `whole` beside `rounding.rs`.
#![cfg(exported = "whole")]

use bridge::chance::{around, Chance};
use bridge::compare::compare;
use bridge::face::{ON_CIRCLE, RND_PRODUCT_QUOTIENT, RND_QUOTIENT, WHOLE_ROOT};
use second::rounding::{modulo, rnd, root};
use second::units::{Whole, CIRCLE};

const RANDOM: usize = 100_000;

/// The largest sizes that `inner` states as conditions: document 01 needs no larger.
const MOST_DIVISOR: i64 = 1 << 62;
const MOST_FACTOR: i64 = 1 << 42;
const MOST_OTHER_FACTOR: i64 = 1 << 60;
const MOST_PRODUCT_DIVISOR: i64 = 1 << 42;
const MOST_QUOTIENT: i64 = 1 << 61;

/// The root of the largest number.
const MOST_ROOT: i64 = 3_037_000_499;

/// Met and the value where the conditions hold, else two noughts.
fn tried(condition: bool, value: impl FnOnce() -> Whole) -> [i64; 2] {
    if condition {
        [1, i64::try_from(value()).expect("an answer of 64 bits")]
    } else {
        [0, 0]
    }
}

fn quotient([a, b]: [i64; 2]) -> [i64; 2] {
    let condition = (1..=MOST_DIVISOR).contains(&b);
    tried(condition, || rnd(a.into(), b.into()))
}

fn product_quotient([a, b, d]: [i64; 3]) -> [i64; 2] {
    let condition = (1..=MOST_PRODUCT_DIVISOR).contains(&d)
        && (-MOST_FACTOR..=MOST_FACTOR).contains(&a)
        && (-MOST_OTHER_FACTOR..=MOST_OTHER_FACTOR).contains(&b)
        && b.abs() <= most_other_factor(a, d);
    tried(condition, || rnd(Whole::from(a) * Whole::from(b), d.into()))
}

/// The answer must fit: b is at most 2^61 / (|a / d| + 1) in size.
fn most_other_factor(a: i64, d: i64) -> i64 {
    MOST_QUOTIENT / (a.abs() / d + 1)
}

fn whole_root([n]: [i64; 1]) -> [i64; 2] {
    tried(n >= 0, || root(n.into()))
}

fn on_circle([a]: [i64; 1]) -> [i64; 2] {
    tried(true, || modulo(a.into(), CIRCLE))
}

/// All tuples of two and of three out of several.
fn pairs(several: &[i64]) -> impl Iterator<Item = [i64; 2]> + '_ {
    several.iter().flat_map(|a| several.iter().map(|b| [*a, *b]))
}

fn triples(several: &[i64]) -> impl Iterator<Item = [i64; 3]> + '_ {
    pairs(several).flat_map(|[a, b]| several.iter().map(move |d| [a, b, *d]))
}

#[test]
fn rnd_quotient() {
    let ends = around(&[i64::MIN, -MOST_DIVISOR, -2, 0, 2, MOST_DIVISOR, i64::MAX], 2);
    compare(&RND_QUOTIENT, "ends", pairs(&ends), quotient);

    // a = q b + b / 2 and its neighbours, for an even b: exactly half, and just past it either way
    let mut chance = Chance::new("rnd_quotient, ties");
    let ties = (0..RANDOM).map(|_| {
        let half = chance.of_any_size(1, MOST_DIVISOR / 2);
        let most = (i64::MAX - half - 1) / (2 * half);
        let odd = 2 * chance.of_any_size(-most, most) + 1;
        [odd * half + chance.within(-1, 1), 2 * half]
    });
    compare(&RND_QUOTIENT, "ties", ties, quotient);

    let mut chance = Chance::new("rnd_quotient");
    let random = (0..RANDOM).map(|_| {
        let a = chance.of_any_size(i64::MIN, i64::MAX);
        let low = if chance.once_in(10) { i64::MIN } else { 1 };
        [a, chance.of_any_size(low, i64::MAX)]
    });
    compare(&RND_QUOTIENT, "random", random, quotient);
}

#[test]
fn rnd_product_quotient() {
    let numbers = [MOST_FACTOR, MOST_OTHER_FACTOR, 1 << 19, 1 << 20, 1 << 40, i64::MAX];
    let both_signs = [&[0][..], &numbers, &numbers.map(|number| -number)].concat();
    compare(&RND_PRODUCT_QUOTIENT, "ends", triples(&around(&both_signs, 1)), product_quotient);

    // a b is an odd number of halves of d, give or take one: b is 1 or -1 modulo the even d
    let mut chance = Chance::new("rnd_product_quotient, ties");
    let ties = (0..RANDOM).map(|_| {
        let half = chance.of_any_size(1, MOST_PRODUCT_DIVISOR / 2);
        let most = MOST_OTHER_FACTOR / (2 * half);
        let b = 2 * half * chance.of_any_size(-most + 1, most - 1) + chance.one_of(&[-1, 1]);
        [chance.one_of(&[-1, 1]) * half + chance.within(-1, 1), b, 2 * half]
    });
    compare(&RND_PRODUCT_QUOTIENT, "ties", ties, product_quotient);

    // on both sides of the largest b
    let mut chance = Chance::new("rnd_product_quotient, largest");
    let largest = (0..RANDOM).map(|_| {
        let d = chance.of_any_size(1, MOST_PRODUCT_DIVISOR - 1);
        let a = chance.one_of(&[-1, 1]) * chance.within(d, MOST_FACTOR);
        let b = most_other_factor(a, d) + chance.within(-1, 1);
        [a, chance.one_of(&[-1, 1]) * b, d]
    });
    compare(&RND_PRODUCT_QUOTIENT, "largest", largest, product_quotient);

    let mut chance = Chance::new("rnd_product_quotient");
    let random = (0..RANDOM).map(|_| {
        let a = chance.of_any_size(-2 * MOST_FACTOR, 2 * MOST_FACTOR);
        let b = chance.of_any_size(-2 * MOST_OTHER_FACTOR, 2 * MOST_OTHER_FACTOR);
        let low = if chance.once_in(10) { i64::MIN } else { 1 };
        [a, b, chance.of_any_size(low, 2 * MOST_PRODUCT_DIVISOR)]
    });
    compare(&RND_PRODUCT_QUOTIENT, "random", random, product_quotient);
}

#[test]
fn roots() {
    compare(&WHOLE_ROOT, "every one to 2,000,000", (0..=2_000_000).map(|n| [n]), whole_root);

    let ends = around(&[i64::MIN, 0, i64::MAX], 1000);
    compare(&WHOLE_ROOT, "ends", ends.iter().map(|n| [*n]), whole_root);

    let mut chance = Chance::new("roots");
    let random = (0..RANDOM).map(|_| [chance.of_any_size(-1000, i64::MAX)]);
    compare(&WHOLE_ROOT, "random", random, whole_root);
}

#[test]
fn roots_of_squares() {
    // a square and its neighbours
    let mut chance = Chance::new("roots, squares");
    let squares = (0..RANDOM).map(|_| {
        let side = chance.of_any_size(0, MOST_ROOT);
        [side * side + chance.within(-1, 1)]
    });
    compare(&WHOLE_ROOT, "squares", squares, whole_root);

    let sides = MOST_ROOT - 100_000..=MOST_ROOT;
    let top = sides.flat_map(|side| [-1, 0, 1].map(|more| [side * side + more]));
    compare(&WHOLE_ROOT, "squares at the top", top, whole_root);
}

/// The first power of two that is tried depends on the length of n in bits alone.
#[test]
fn roots_of_every_length() {
    let mut chance = Chance::new("roots, lengths");
    let numbers = (1..=63).flat_map(|bits| {
        let (low, high) = (1 << (bits - 1), i64::MAX >> (63 - bits));
        let mut of_the_length = vec![low, low + 1, high - 1, high];
        of_the_length.extend((0..2000).map(|_| chance.within(low, high)));
        of_the_length
    });
    compare(&WHOLE_ROOT, "lengths in bits", numbers.map(|n| [n]), whole_root);
}

#[test]
fn circles() {
    let circle = CIRCLE as i64;
    let most = i64::MAX / circle;
    let ends = around(&[i64::MIN, -most * circle, -circle, 0, circle, most * circle, i64::MAX], 2);
    compare(&ON_CIRCLE, "ends", ends.iter().map(|a| [*a]), on_circle);

    let mut chance = Chance::new("circles, whole");
    let whole = (0..RANDOM).map(|_| [chance.within(-most, most) * circle + chance.within(-1, 1)]);
    compare(&ON_CIRCLE, "whole circles", whole, on_circle);

    let mut chance = Chance::new("circles");
    let random = (0..RANDOM).map(|_| [chance.of_any_size(i64::MIN, i64::MAX)]);
    compare(&ON_CIRCLE, "random", random, on_circle);
}
