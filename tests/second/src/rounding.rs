//! Document 01, "Numbers, angles, instants": Rnd; and the two whole operations that other sections name.

use crate::units::Whole;

/// "Rnd" is the nearest whole number of a quotient, halves away from zero.
pub fn rnd(a: Whole, b: Whole) -> Whole {
    assert!(b > 0, "Rnd of a quotient by {b}");
    let size = (2 * a.abs() + b) / (2 * b);
    if a < 0 {
        -size
    } else {
        size
    }
}

/// The remainder that is never negative: "modulo C", "UT modulo 86,400,000".
pub fn modulo(a: Whole, b: Whole) -> Whole {
    a.rem_euclid(b)
}

/// The whole root, downward: the largest number whose square is at most n.
pub fn root(n: Whole) -> Whole {
    assert!(n >= 0, "root of {n}");
    // a float's root is near, and the two loops make it exact
    let mut root = (n as f64).sqrt() as Whole;
    while root * root > n {
        root -= 1;
    }
    while (root + 1) * (root + 1) <= n {
        root += 1;
    }
    root
}
