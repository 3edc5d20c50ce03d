//! Document 01, "Turns, readings, place": reading an angle from (h, v), and heights; amended by document 02, "Say so
//! when there is no azimuth".

use crate::rounding::{rnd, root};
use crate::turning::Direction;
use crate::units::{Whole, CIRCLE, HALF_CIRCLE, HALF_CIRCLE_PARTS, HALF_QUARTER, QUARTER, UNIT};

/// The angle of (h, v), two signed 32-bit numbers, where there is one.
pub fn reading(h: Whole, v: Whole) -> Option<Whole> {
    for part in [h, v] {
        assert!(i32::try_from(part).is_ok(), "reading of ({h}, {v})");
    }
    // Reading an angle from (0, 0) shall answer that there is no angle.
    if (h, v) == (0, 0) {
        return None;
    }
    let in_octant = octant_angle(h.abs().min(v.abs()), h.abs().max(v.abs()));
    // If |v| > |h| take quarter minus that.
    let in_quarter = if v.abs() > h.abs() { QUARTER - in_octant } else { in_octant };
    // Place it by the signs, a zero counting as plus.
    let placed = match (h >= 0, v >= 0) {
        (true, true) => in_quarter,
        (false, true) => HALF_CIRCLE - in_quarter,
        (false, false) => HALF_CIRCLE + in_quarter,
        (true, false) => CIRCLE - in_quarter,
    };
    // C reads as 0.
    Some(if placed == CIRCLE { 0 } else { placed })
}

/// The angle below half a quarter whose tangent is smaller / larger.
fn octant_angle(smaller: Whole, larger: Whole) -> Whole {
    let (m, n) = (smaller, larger);
    // If 5m is at most 2n, u = Rnd(m·2^30/n), else Rnd((n−m)·2^30/(n+m)).
    if 5 * m <= 2 * n {
        arc(rnd(m * UNIT, n))
    } else {
        // In the second case take 162,000,000,000 − θ.
        HALF_QUARTER - arc(rnd((n - m) * UNIT, n + m))
    }
}

/// θ in µas from its tangent u in parts of 2^30.
fn arc(u: Whole) -> Whole {
    // w as before; p = Rnd(2^30/23); for k = 21, 19, .., 1: p = Rnd(2^30/k) − Rnd(wp/2^30)
    let w = rnd(u * u, UNIT);
    let mut p = rnd(UNIT, 23);
    for k in (1..=21).rev().step_by(2) {
        p = rnd(UNIT, k) - rnd(w * p, UNIT);
    }
    // θ = Rnd(up/2^30), made µas by Rnd(θ × 648,000,000,000 / 3,373,259,426)
    let theta = rnd(u * p, UNIT);
    rnd(theta * HALF_CIRCLE, HALF_CIRCLE_PARTS)
}

/// Heights and declinations read (downward root of x²+y², z) and are given between minus and plus a quarter.
pub fn height(direction: Direction) -> Whole {
    let Direction { x, y, z } = direction;
    let angle = reading(root(x * x + y * y), z).expect("no direction is of three noughts");
    if angle > HALF_CIRCLE {
        angle - CIRCLE
    } else {
        angle
    }
}
