//! List files to try: whole ones, and damaged ones.

use second::place::Star;
use second::star_list::{record_of, HEAD};
use second::units::{Whole, CIRCLE, QUARTER};

use crate::chance::Chance;

const MOST_MOTION: i64 = 100_000_000;

/// Right ascension, declination and the two motions: the least and the most of each.
pub const STAR_RANGES: [(i64, i64); 4] = {
    let (quarter, last) = (QUARTER as i64, CIRCLE as i64 - 1);
    [(0, last), (-quarter, quarter), (-MOST_MOTION, MOST_MOTION), (-MOST_MOTION, MOST_MOTION)]
};

/// The four numbers of a star, which is refused once in about so many times.
pub fn star(chance: &mut Chance, refused_once_in: i64) -> [i64; 4] {
    STAR_RANGES.map(|(low, high)| {
        if chance.once_in(4 * refused_once_in) {
            chance.one_of(&[low - 1, high + 1])
        } else if chance.once_in(10) {
            chance.one_of(&[low, high])
        } else {
            chance.within(low, high)
        }
    })
}

/// How many stars: often few, often about 64.
pub fn count(chance: &mut Chance) -> i64 {
    let (low, high) = chance.one_of(&[(0, 3), (0, 66), (63, 66)]);
    chance.within(low, high)
}

/// The four numbers of a star that is accepted.
pub fn accepted_star(chance: &mut Chance) -> [i64; 4] {
    STAR_RANGES.map(|(low, high)| chance.within(low, high))
}

/// A star that is refused, of each kind: each of its numbers one past each end of its range, the others in the middle.
pub fn refused_stars() -> Vec<[i64; 4]> {
    let one_past = |part: usize| {
        let (low, high) = STAR_RANGES[part];
        [low - 1, high + 1].map(|end| {
            let mut star = STAR_RANGES.map(|(low, high)| (low + high) / 2);
            star[part] = end;
            star
        })
    };
    (0..STAR_RANGES.len()).flat_map(one_past).collect()
}

/// A file as the document lays it out, of any number of stars; few of them are refused.
pub fn file(chance: &mut Chance, count: i64) -> Vec<u8> {
    let stars: Vec<_> = (0..count).map(|_| star(chance, 1000)).collect();
    file_of(&stars)
}

/// The same of stars that are all accepted.
pub fn accepted_file(chance: &mut Chance, count: i64) -> Vec<u8> {
    let stars: Vec<_> = (0..count).map(|_| accepted_star(chance)).collect();
    file_of(&stars)
}

/// The file of stars, accepted or not, each by its four numbers.
pub fn file_of(stars: &[[i64; 4]]) -> Vec<u8> {
    let mut file = b"SLT\x01\x00".to_vec();
    file.extend((stars.len() as u16).to_le_bytes());
    for numbers in stars {
        let [right_ascension, declination, motion_right_ascension, motion_declination] =
            numbers.map(Whole::from);
        let star = Star { right_ascension, declination, motion_right_ascension, motion_declination };
        file.extend(record_of(star));
    }
    file
}

/// The file cut off at every length, from none of its bytes to all.
pub fn truncations(file: &[u8]) -> impl Iterator<Item = Vec<u8>> + '_ {
    (0..=file.len()).map(|length| file[..length].to_vec())
}

/// The file with every one of its bytes made every other byte.
pub fn other_bytes(file: &[u8]) -> impl Iterator<Item = Vec<u8>> + '_ {
    (0..file.len()).flat_map(move |at| {
        let others = (0..=255).filter(move |byte| *byte != file[at]);
        others.map(move |byte| {
            let mut changed = file.to_vec();
            changed[at] = byte;
            changed
        })
    })
}

/// The file one byte shorter, as it is, and one byte longer.
pub fn lengths(file: &[u8]) -> [Vec<u8>; 3] {
    let shorter = file[..file.len() - 1].to_vec();
    [shorter, file.to_vec(), [file, &[0]].concat()]
}

/// One thing of a file changed.
pub fn damage(chance: &mut Chance, file: &mut Vec<u8>) {
    let last = file.len() as i64 - 1;
    match chance.within(0, 4) {
        3 => file.push(chance.within(0, 255) as u8),
        _ if file.is_empty() => {}
        0 => file[chance.within(0, last.min(HEAD as i64 - 1)) as usize] = chance.within(0, 255) as u8,
        1 => file[chance.within(0, last) as usize] ^= 1 << chance.within(0, 7),
        2 => file.truncate(chance.within(0, last) as usize),
        _ => file.truncate(chance.within(0, last.min(HEAD as i64)) as usize),
    }
}

/// Numbers as the bytes of words.
pub fn bytes_of(numbers: &[i64]) -> Vec<u8> {
    numbers.iter().flat_map(|number| number.to_le_bytes()).collect()
}
