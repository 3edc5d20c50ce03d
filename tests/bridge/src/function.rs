//! An exported function as the tests see it: 64-bit words in, words out, and perhaps bytes lent.
//!
//! A float is given as the word of its 32 bits. Two parts of 32 bits are answered as one word, the first its lower half.

#[cfg(linked)]
use std::env;

use crate::driver;
use crate::entries::clear_between_parts;

/// What a function is given: numbers, bytes to read and bytes to write to.
#[derive(Clone, Debug, PartialEq, Eq)]
pub struct Call<const GIVEN: usize> {
    pub given: [i64; GIVEN],
    pub read: Vec<u8>,
    pub room: Vec<u8>,
}

impl<const GIVEN: usize> From<[i64; GIVEN]> for Call<GIVEN> {
    /// Numbers alone.
    fn from(given: [i64; GIVEN]) -> Self {
        let (read, room) = (Vec::new(), Vec::new());
        Call { given, read, room }
    }
}

/// What the room of a call is to the function.
#[derive(Clone, Copy, Debug, PartialEq, Eq)]
pub enum Room {
    Bytes,
    /// Entries of a list, as `entries.rs` lays them out.
    Entries,
}

/// An exported function, with the names of the words that it is given and answers.
pub struct Function<const GIVEN: usize, const ANSWERED: usize> {
    pub name: &'static str,
    pub given: [&'static str; GIVEN],
    pub answered: [&'static str; ANSWERED],
    pub room: Room,
    #[cfg(linked)]
    pub linked: fn(&mut Call<GIVEN>) -> [i64; ANSWERED],
}

/// The answer of every exported function is a C struct of whole 64-bit words, or one such number, which C returns alike.
#[cfg(linked)]
#[repr(C)]
pub struct Words<const ANSWERED: usize>(pub [i64; ANSWERED]);

impl<const GIVEN: usize, const ANSWERED: usize> Function<GIVEN, ANSWERED> {
    /// The answers to the calls, whose room is as the function left it.
    pub fn answers(&self, calls: &mut [Call<GIVEN>]) -> Vec<[i64; ANSWERED]> {
        let answers = self.called(calls);
        if self.room == Room::Entries {
            calls.iter_mut().for_each(|call| clear_between_parts(&mut call.room));
        }
        answers
    }

    fn called(&self, calls: &mut [Call<GIVEN>]) -> Vec<[i64; ANSWERED]> {
        #[cfg(linked)]
        if !through_driver() {
            return calls.iter_mut().map(self.linked).collect();
        }
        driver::answers(self.name, calls)
    }
}

/// The calls go to the driver though the archives are linked.
#[cfg(linked)]
fn through_driver() -> bool {
    match env::var("TURBELICUS_FACE").as_deref() {
        Err(_) => false,
        Ok("driver") => true,
        Ok(other) => panic!("TURBELICUS_FACE is 'driver' or not set, not {other:?}"),
    }
}

/// A parameter of a C type, from the word that stands for it.
#[cfg(linked)]
pub trait Parameter {
    fn of_word(word: i64) -> Self;
}

#[cfg(linked)]
impl Parameter for i64 {
    fn of_word(word: i64) -> Self {
        word
    }
}

#[cfg(linked)]
impl Parameter for i32 {
    fn of_word(word: i64) -> Self {
        word.try_into().expect("a number of the C type")
    }
}

/// The word is that of the float's bits.
#[cfg(linked)]
impl Parameter for f32 {
    fn of_word(word: i64) -> Self {
        f32::from_bits(word.try_into().expect("32 bits of a float"))
    }
}

/// Declares exported functions of numbers: `CONSTANT = name(part: C type, ..) -> (word, ..);`.
macro_rules! exported {
    ($($(#[$about:meta])* $constant:ident = $name:ident($($part:ident: $kind:ty),+) -> ($($word:ident),+);)*) => {$(
        $(#[$about])*
        pub const $constant: Function<{ [$(stringify!($part)),+].len() }, { [$(stringify!($word)),+].len() }> = Function {
            name: stringify!($name),
            given: [$(stringify!($part)),+],
            answered: [$(stringify!($word)),+],
            room: Room::Bytes,
            #[cfg(linked)]
            linked: |call| {
                extern "C" {
                    fn $name($($part: $kind),+) -> Words<{ [$(stringify!($word)),+].len() }>;
                }
                let [$($part),+] = call.given;
                // Safety: `tests/exports` says that the archive has it; numbers alone go in and out.
                unsafe { $name($(<$kind>::of_word($part)),+) }.0
            },
        };
    )*};
}
pub(crate) use exported;
