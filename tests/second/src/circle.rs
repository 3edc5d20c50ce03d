//! Document 01, "Sine and cosine".

use crate::rounding::{modulo, rnd, root};
use crate::units::{Whole, CIRCLE, HALF_CIRCLE, HALF_CIRCLE_PARTS, HALF_QUARTER, QUARTER, UNIT};

/// Cosine and sine, in parts of 2^30.
#[derive(Clone, Copy, Debug, PartialEq, Eq)]
pub struct Pair {
    pub cosine: Whole,
    pub sine: Whole,
}

/// The pair of any angle.
pub fn pair(angle: Whole) -> Pair {
    // Reduce modulo C; q is the quarter, r the rest.
    let reduced = modulo(angle, CIRCLE);
    let (quarter, rest) = (reduced / QUARTER, reduced % QUARTER);
    let Pair { cosine, sine } = in_first_quarter(rest);
    // Quarters 1, 2, 3 give (−s, c), (−c, −s), (s, −c).
    let (cosine, sine) = match quarter {
        0 => (cosine, sine),
        1 => (-sine, cosine),
        2 => (-cosine, -sine),
        _ => (sine, -cosine),
    };
    Pair { cosine, sine }
}

/// For r above half a quarter, work at quarter − r and exchange the pair.
fn in_first_quarter(rest: Whole) -> Pair {
    if rest > HALF_QUARTER {
        let folded = in_first_octant(QUARTER - rest);
        Pair { cosine: folded.sine, sine: folded.cosine }
    } else {
        in_first_octant(rest)
    }
}

/// At exactly half a quarter both are 759,250,125. Otherwise the two series, brought to length.
fn in_first_octant(rest: Whole) -> Pair {
    if rest == HALF_QUARTER {
        return Pair { cosine: 759_250_125, sine: 759_250_125 };
    }
    let x = parts_of_radian(rest);
    let (cosine, sine) = (cosine_series(x), sine_series(x));
    // L is the whole root (downward) of the squares' sum, each part becomes Rnd(part × 2^30 / L).
    let length = root(cosine * cosine + sine * sine);
    Pair { cosine: rnd(cosine * UNIT, length), sine: rnd(sine * UNIT, length) }
}

/// x = Rnd(r × 3,373,259,426 / 648,000,000,000).
pub fn parts_of_radian(rest: Whole) -> Whole {
    rnd(rest * HALF_CIRCLE_PARTS, HALF_CIRCLE)
}

/// Sine: the series with k = 110, 72, 42, 20, 6; answer Rnd(xp/2^30).
fn sine_series(x: Whole) -> Whole {
    let p = series(x, &[110, 72, 42, 20, 6]);
    rnd(x * p, UNIT)
}

/// Cosine: the same with k = 132, 90, 56, 30, 12, 2; answer p.
fn cosine_series(x: Whole) -> Whole {
    series(x, &[132, 90, 56, 30, 12, 2])
}

/// w = Rnd(x²/2^30), p = 2^30; for each k: p = 2^30 − Rnd(wp/(2^30 k)).
fn series(x: Whole, divisors: &[Whole]) -> Whole {
    let w = rnd(x * x, UNIT);
    divisors.iter().fold(UNIT, |p, k| UNIT - rnd(w * p, UNIT * k))
}
