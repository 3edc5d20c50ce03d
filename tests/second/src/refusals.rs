//! Document 01, "Refusal numbers", and document 02's. An answer is what was worked out, or the number of its refusal.

pub type Refusal = i64;

pub const YEAR: Refusal = 1;
pub const DAY: Refusal = 2;
pub const TIME: Refusal = 3;
pub const UT1_MINUS_UTC: Refusal = 4;
pub const STAR: Refusal = 5;
pub const SITE: Refusal = 6;
pub const DIRECTION: Refusal = 7;
pub const TURN: Refusal = 8;
pub const MARK: Refusal = 9;
pub const COUNT: Refusal = 10;
pub const ROOM: Refusal = 11;
pub const INSTANT: Refusal = 12;
pub const LENGTH: Refusal = 13;
pub const READING: Refusal = 14;
pub const STRETCH: Refusal = 20;

/// Refused by this number, unless the condition holds.
pub fn unless(condition: bool, refusal: Refusal) -> Result<(), Refusal> {
    if condition {
        Ok(())
    } else {
        Err(refusal)
    }
}
