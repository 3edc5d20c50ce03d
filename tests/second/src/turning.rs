//! Document 01, "Numbers, angles, instants": directions; "Turns, readings, place": turns.

use crate::circle::pair;
use crate::refusals::{self, unless, Refusal};
use crate::rounding::{rnd, root};
use crate::units::{Whole, CIRCLE, UNIT};

/// Directions are three whole numbers in parts of 2^30.
#[derive(Clone, Copy, Debug, PartialEq, Eq)]
pub struct Direction {
    pub x: Whole,
    pub y: Whole,
    pub z: Whole,
}

impl Direction {
    pub fn squared_length(self) -> Whole {
        self.x * self.x + self.y * self.y + self.z * self.z
    }

    /// A direction is accepted when its squared length is within 2^32 of 2^60, both ends included.
    pub fn accepted(self) -> bool {
        // a part of more than 2^31 is too long by itself; the squares of three 64-bit numbers might pass 128 bits
        let short = |part: Whole| part.abs() <= 1 << 31;
        [self.x, self.y, self.z].into_iter().all(short)
            && (self.squared_length() - (1 << 60)).abs() <= 1 << 32
    }

    /// L is the whole root (downward) of the squares' sum, each part becomes Rnd(part × 2^30 / L).
    pub fn to_length(self) -> Result<Direction, Refusal> {
        let length = root(self.squared_length());
        unless(length != 0, refusals::LENGTH)?;
        Ok(Direction {
            x: rnd(self.x * UNIT, length),
            y: rnd(self.y * UNIT, length),
            z: rnd(self.z * UNIT, length),
        })
    }
}

/// The direction turned about an axis by an angle and brought to length, or refused 7 or 8.
pub fn turn(direction: Direction, axis: Whole, angle: Whole) -> Result<Direction, Refusal> {
    unless(direction.accepted(), refusals::DIRECTION)?;
    // axis not 1 to 3, or angle not strictly between −C and C
    let turn_exists = (1..=3).contains(&axis) && -CIRCLE < angle && angle < CIRCLE;
    unless(turn_exists, refusals::TURN)?;

    let Direction { x, y, z } = direction;
    let turned = match axis {
        // axes 1 and 2 by cyclic exchange
        1 => {
            let (y, z) = turned_in_plane(y, z, angle);
            Direction { x, y, z }
        }
        2 => {
            let (z, x) = turned_in_plane(z, x, angle);
            Direction { x, y, z }
        }
        _ => {
            let (x, y) = turned_in_plane(x, y, angle);
            Direction { x, y, z }
        }
    };
    turned.to_length()
}

/// A turn about axis 3 makes x′ = Rnd((cx − sy)/2^30), y′ = Rnd((sx + cy)/2^30).
fn turned_in_plane(x: Whole, y: Whole, angle: Whole) -> (Whole, Whole) {
    let p = pair(angle);
    (rnd(p.cosine * x - p.sine * y, UNIT), rnd(p.sine * x + p.cosine * y, UNIT))
}
