//! The bridge between the Rust tests and the proved module: `tests/` compares the two programs over it.
//!
//! The archives that `tests/archives.sh` writes are linked and called directly. `TURBELICUS_FACE=driver` takes another way:
//! the calls go in batches to a C program, `tests/c/driver.c`. `TURBELICUS_SEED` gives the random calls another seed.
//!
//! `tests/README.md` says how an exported function is added.

pub mod beside;
pub mod chance;
pub mod clocks;
pub mod compare;
mod driver;
pub mod entries;
pub mod face;
pub mod files;
pub mod floats;
pub mod function;
pub mod ranges;
pub mod records;
pub mod samples;
pub mod steps;
