//! The independent second program: document 01 whole, written from its text alone, one module for each of its sections;
//! and what document 02 adds, `weather`, `utc` and ϖ in `earth`, and amends, in `reading`, `place` and `star_list`.
//!
//! It is made to be read beside the document, not to be fast, and shares nothing with the proved code. Every number has
//! 128 bits, so a product that the module must carry in parts is simply formed here.
#![forbid(unsafe_code)]

pub mod circle;
pub mod dates;
pub mod earth;
pub mod place;
pub mod reading;
pub mod refusals;
pub mod rounding;
pub mod star_list;
pub mod turning;
pub mod units;
pub mod utc;
pub mod weather;
