//! Entries of a list as C has them, `struct tests_entry` of `tests/c/tests_exports.h`, and entries to try.

use second::place::Star;
use second::star_list::{record_of, star_of, Angles, Entry, RECORD};
use second::units::Whole;

use crate::chance::Chance;
use crate::files::accepted_star;

/// The bytes of an entry: a star, which C lays out as the file does; its mark; seven bytes that belong to no part, so that
/// the angles begin at a whole word; and its four angles.
pub const ENTRY: usize = 64;
const ANGLES: usize = 32;

pub fn bytes_of_entries(entries: &[Entry]) -> Vec<u8> {
    entries.iter().flat_map(bytes_of_entry).collect()
}

fn bytes_of_entry(entry: &Entry) -> Vec<u8> {
    let mut bytes = record_of(entry.star);
    bytes.push(u8::try_from(entry.mark).expect("8 bits"));
    bytes.resize(ANGLES, 0);
    let Angles { right_ascension, declination, azimuth, altitude } = entry.angles;
    for angle in [right_ascension, declination, azimuth, altitude] {
        bytes.extend(i64::try_from(angle).expect("64 bits").to_le_bytes());
    }
    bytes
}

pub fn entries_of(bytes: &[u8]) -> Vec<Entry> {
    bytes.chunks_exact(ENTRY).map(entry_of).collect()
}

fn entry_of(bytes: &[u8]) -> Entry {
    let angle = |number: usize| -> Whole {
        let at = ANGLES + 8 * number;
        i64::from_le_bytes(bytes[at..at + 8].try_into().expect("8 bytes")).into()
    };
    Entry {
        star: star_of(&bytes[..RECORD]),
        mark: bytes[RECORD].into(),
        angles: Angles {
            right_ascension: angle(0),
            declination: angle(1),
            azimuth: angle(2),
            altitude: angle(3),
        },
    }
}

/// Makes noughts of the bytes that belong to no part of an entry: whoever writes an entry may leave anything there.
pub fn clear_between_parts(bytes: &mut [u8]) {
    for entry in bytes.chunks_exact_mut(ENTRY) {
        entry[RECORD + 1..ANGLES].fill(0);
    }
}

/// An entry of the star with these four numbers, its mark and its angles anything.
pub fn entry(chance: &mut Chance, star: [i64; 4]) -> Entry {
    let [right_ascension, declination, motion_right_ascension, motion_declination] = star.map(Whole::from);
    let star = Star { right_ascension, declination, motion_right_ascension, motion_declination };
    let mut angle = || Whole::from(chance.any());
    let angles =
        Angles { right_ascension: angle(), declination: angle(), azimuth: angle(), altitude: angle() };
    Entry { star, mark: chance.within(0, 255).into(), angles }
}

/// So many entries of stars that are accepted.
pub fn entries(chance: &mut Chance, count: usize) -> Vec<Entry> {
    let one = |_| {
        let star = accepted_star(chance);
        entry(chance, star)
    };
    (0..count).map(one).collect()
}

/// So many entries with anything in them.
pub fn any_entries(chance: &mut Chance, count: usize) -> Vec<Entry> {
    let one = |_| {
        let [ra_motion, declination_motion] = [(); 2].map(|()| chance.any() as i32);
        let star = [chance.any(), chance.any(), ra_motion.into(), declination_motion.into()];
        entry(chance, star)
    };
    (0..count).map(one).collect()
}
