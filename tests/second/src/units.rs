//! Document 01, "Numbers, angles, instants": the units.

/// Any number of this program.
pub type Whole = i128;

/// Angles are whole µas; this is the circle C.
pub const CIRCLE: Whole = 1_296_000_000_000;
pub const HALF_CIRCLE: Whole = CIRCLE / 2;
pub const QUARTER: Whole = CIRCLE / 4;
pub const HALF_QUARTER: Whole = CIRCLE / 8;

/// 1 in a cosine, a sine or a direction: parts of 2^30.
pub const UNIT: Whole = 1 << 30;

/// Instants are whole ms; this is Q, a Julian century.
pub const CENTURY: Whole = 3_155_760_000_000;
/// A Julian year: motions are µas a year.
pub const YEAR: Whole = 31_557_600_000;
pub const DAY: Whole = 86_400_000;

/// Half a circle as parts of 2^30 of a radian: 2^30 times π.
pub const HALF_CIRCLE_PARTS: Whole = 3_373_259_426;
