//! Document 01, "Lists": the star list file read and written, and the night list; amended by document 02, "Say so when
//! there is no azimuth".

use crate::dates::{instants, Moment};
use crate::place::{check_site, check_star, place, Place, Site, Star};
use crate::refusals::{self, unless, Refusal};
use crate::units::Whole;

/// The four angles of an entry, numbers all of them: its mark tells whether one has nought for none.
#[derive(Clone, Copy, Debug, PartialEq, Eq)]
pub struct Angles {
    pub right_ascension: Whole,
    pub declination: Whole,
    pub azimuth: Whole,
    pub altitude: Whole,
}

/// An entry of a list: a star, a mark and four angles.
#[derive(Clone, Copy, Debug, PartialEq, Eq)]
pub struct Entry {
    pub star: Star,
    pub mark: Whole,
    pub angles: Angles,
}

pub const MOST_ENTRIES: usize = 64;

/// Mark `SLT`, version 1 (16 bits); the count (16 bits) follows.
const MARK_AND_VERSION: [u8; 5] = *b"SLT\x01\x00";
pub const HEAD: usize = 7;
/// RA and declination (64, signed), two motions (32, signed).
pub const RECORD: usize = 24;

pub const FOUR_NOUGHTS: Angles = Angles { right_ascension: 0, declination: 0, azimuth: 0, altitude: 0 };

/// A file is 7 + 24 × count bytes.
pub fn file_length(count: usize) -> usize {
    HEAD + RECORD * count
}

/// The stars of a file, or refused 9, 10, 5.
pub fn stars(file: &[u8]) -> Result<Vec<Star>, Refusal> {
    unless(file.len() >= HEAD && file.starts_with(&MARK_AND_VERSION), refusals::MARK)?;
    let count = usize::from(u16::from_le_bytes([file[5], file[6]]));
    unless(count <= MOST_ENTRIES && file.len() == file_length(count), refusals::COUNT)?;
    let stars: Vec<Star> = file[HEAD..].chunks(RECORD).map(star_of).collect();
    for star in &stars {
        check_star(*star)?;
    }
    Ok(stars)
}

/// A star of a file by its index, or refused 9, 10, 5, or 11 where the file has no such record.
pub fn star(file: &[u8], index: usize) -> Result<Star, Refusal> {
    stars(file)?.get(index).copied().ok_or(refusals::ROOM)
}

/// Reads a file into the room's first entries and answers their count, or refuses 9, 10, 5, 11 and writes nothing.
pub fn read(file: &[u8], room: &mut [Entry]) -> Result<usize, Refusal> {
    let stars = stars(file)?;
    let count = stars.len();
    unless(count <= room.len(), refusals::ROOM)?;
    // Entries read get mark 0 and four noughts; entries past the count stay.
    for (entry, star) in room.iter_mut().zip(stars) {
        *entry = Entry { star, mark: 0, angles: FOUR_NOUGHTS };
    }
    Ok(count)
}

/// Writes the file of the entries' stars and answers its length, or refuses 5, 11 and writes nothing; bytes past it stay.
pub fn write(entries: &[Entry], room: &mut [u8]) -> Result<usize, Refusal> {
    let stars: Vec<Star> = entries.iter().map(|entry| entry.star).collect();
    write_stars(&stars, true, room)
}

/// The same of a row of numbers, four to a star; refused 11 also where the last star has not all its numbers.
pub fn write_numbers(numbers: &[Whole], room: &mut [u8]) -> Result<usize, Refusal> {
    let star = |numbers: &[Whole]| Star {
        right_ascension: numbers[0],
        declination: numbers[1],
        motion_right_ascension: numbers[2],
        motion_declination: numbers[3],
    };
    let stars: Vec<Star> = numbers.chunks_exact(4).map(star).collect();
    write_stars(&stars, numbers.len() == 4 * stars.len(), room)
}

/// Writes the file of stars that may be all or not all that were given.
fn write_stars(stars: &[Star], all: bool, room: &mut [u8]) -> Result<usize, Refusal> {
    for star in stars {
        check_star(*star)?;
    }
    let length = file_length(stars.len());
    unless(all && stars.len() <= MOST_ENTRIES && length <= room.len(), refusals::ROOM)?;
    let mut file = MARK_AND_VERSION.to_vec();
    file.extend((stars.len() as u16).to_le_bytes());
    for star in stars {
        file.extend(record_of(*star));
    }
    room[..length].copy_from_slice(&file);
    Ok(length)
}

/// All little-endian.
pub fn star_of(record: &[u8]) -> Star {
    let wide = |at: usize| i64::from_le_bytes(record[at..at + 8].try_into().expect("8 bytes"));
    let narrow = |at: usize| i32::from_le_bytes(record[at..at + 4].try_into().expect("4 bytes"));
    Star {
        right_ascension: wide(0).into(),
        declination: wide(8).into(),
        motion_right_ascension: narrow(16).into(),
        motion_declination: narrow(20).into(),
    }
}

/// The record of a star that is accepted, so that every part fits.
pub fn record_of(star: Star) -> Vec<u8> {
    let wide = |part: Whole| i64::try_from(part).expect("64 bits").to_le_bytes();
    let narrow = |part: Whole| i32::try_from(part).expect("32 bits").to_le_bytes();
    [
        &wide(star.right_ascension)[..],
        &wide(star.declination),
        &narrow(star.motion_right_ascension),
        &narrow(star.motion_declination),
    ]
    .concat()
}

/// Works a night list where it stands and counts its filled entries, or refuses it whole by 1 to 4, 6, 11.
pub fn night_list(moment: Moment, site: Site, entries: &mut [Entry]) -> Result<usize, Refusal> {
    instants(moment)?;
    check_site(site)?;
    unless(entries.len() <= MOST_ENTRIES, refusals::ROOM)?;
    for entry in entries.iter_mut() {
        // Each entry keeps its star and receives mark 0 and four angles, or mark 5 and four noughts.
        (entry.mark, entry.angles) = match place(moment, site, entry.star) {
            Ok(place) => marked(place),
            Err(refusal) => (refusal.into(), FOUR_NOUGHTS),
        };
    }
    // The answer counts the entries marked 0; one with mark 1 still counts as filled.
    Ok(entries.iter().filter(|entry| [0, 1].contains(&entry.mark)).count())
}

/// The night list marks it too: mark 1, with nought in the angle that has none.
fn marked(place: Place) -> (Whole, Angles) {
    let Place { right_ascension, declination, azimuth, altitude } = place;
    let mark = if right_ascension.is_some() && azimuth.is_some() { 0 } else { 1 };
    let (right_ascension, azimuth) = (right_ascension.unwrap_or(0), azimuth.unwrap_or(0));
    (mark, Angles { right_ascension, declination, azimuth, altitude })
}
