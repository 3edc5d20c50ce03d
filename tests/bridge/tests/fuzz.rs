//! Every function of the module over extremes, mutations and noise: none crashes, none writes past its room or on a
//! refusal, and every answer is the second program's. The bridge lends each room between guards.
#![cfg(all(
    exported = "place",
    exported = "utc",
    exported = "weather",
    exported = "turning",
    exported = "reading",
    exported = "list_file"
))]

use bridge::beside::{angle, list_count, list_star, list_write, place, turn};
use bridge::beside::{observed_altitude, observed_place, utc, weather};
use bridge::chance::Chance;
use bridge::clocks::{FIRST, LAST};
use bridge::compare::{compare, compare_lent, compare_told};
use bridge::face::{LIST_COUNT, LIST_STAR, LIST_WRITE, PLACE, READING, TURN};
use bridge::face::{OBSERVED_ALTITUDE, OBSERVED_PLACE, UTC, WEATHER};
use bridge::files::{bytes_of, damage, file, star, STAR_RANGES};
use bridge::floats::{any_float, one_nan, PRESSURES, SIGN, SIZES_OF_TEMPERATURE};
use bridge::function::Call;
use bridge::records::{asked_in, at, taking, HIGHEST};
use second::star_list::{HEAD, MOST_ENTRIES, RECORD};
use second::units::{CIRCLE, HALF_CIRCLE, QUARTER};

/// In all more than 1,000,000 calls.
const PLACES: usize = 200_000;
const CLOCKS: usize = 200_000;
const WEATHERS: usize = 200_000;
const OBSERVED_PLACES: usize = 100_000;
const TURNS: usize = 300_000;
const READINGS: usize = 400_000;
const FILES: usize = 50_000;

/// No file and no room is longer.
const MOST_BYTES: i64 = 2_000;

/// What C takes a part as: a number of 64 bits, one of 32, or a float, whose word is that of its bits.
#[derive(Clone, Copy)]
enum Kind {
    Wide,
    Narrow,
    Float,
}
use Kind::{Float, Narrow, Wide};

/// A part's range, and what C takes it as.
type Part = ((i64, i64), Kind);

/// A number anywhere: at an end of the type, next to a power of two or to nought, or any.
fn extreme(chance: &mut Chance, kind: Kind) -> i64 {
    let (low, high) = match kind {
        Wide => (i64::MIN, i64::MAX),
        Narrow => (i32::MIN.into(), i32::MAX.into()),
        Float => return any_float(chance),
    };
    let number = match chance.within(0, 4) {
        0 => chance.one_of(&[low, low + 1, -1, 0, 1, high - 1, high]),
        1 => chance.one_of(&[-1, 1]) * (1 << chance.within(0, 62)) + chance.within(-1, 1),
        2 => chance.any(),
        _ => chance.of_any_size(low, high),
    };
    number.clamp(low, high)
}

/// A number of a range, often at or next to one of its ends.
fn of_range(chance: &mut Chance, (low, high): (i64, i64)) -> i64 {
    if chance.once_in(4) {
        chance.one_of(&[low - 1, low, low + 1, high - 1, high, high + 1])
    } else {
        chance.within(low, high)
    }
}

/// A call in its ranges, of which a few parts at most are changed; or, now and then, noise.
fn mutated<const GIVEN: usize>(chance: &mut Chance, parts: [Part; GIVEN]) -> [i64; GIVEN] {
    if chance.once_in(20) {
        return parts.map(|(_, kind)| extreme(chance, kind));
    }
    let mut call = parts.map(|((low, high), _)| chance.within(low, high));
    for _ in 0..chance.within(0, 3) {
        let part = chance.within(0, GIVEN as i64 - 1) as usize;
        let (range, kind) = parts[part];
        call[part] = if chance.once_in(2) { of_range(chance, range) } else { extreme(chance, kind) };
    }
    call
}

/// What a place is asked of.
const ASKED: [Part; 14] = {
    let (quarter, half_circle) = (QUARTER as i64, HALF_CIRCLE as i64);
    let [ra, declination, ra_motion, declination_motion] = STAR_RANGES;
    [
        ((1972, 2099), Narrow),
        ((1, 12), Narrow),
        ((1, 31), Narrow),
        ((0, 23), Narrow),
        ((0, 59), Narrow),
        ((0, 60), Narrow),
        ((0, 999), Narrow),
        ((-900, 900), Narrow),
        ((-quarter, quarter), Wide),
        ((-half_circle, half_circle), Wide),
        (ra, Wide),
        (declination, Wide),
        (ra_motion, Narrow),
        (declination_motion, Narrow),
    ]
};

#[test]
fn places() {
    let mut chance = Chance::new("fuzz, places");
    let calls = (0..PLACES).map(|_| mutated(&mut chance, ASKED));
    compare(&PLACE, "fuzz", calls, place);
}

#[test]
fn clocks() {
    let mut chance = Chance::new("fuzz, clocks");
    let calls = (0..CLOCKS).map(|_| mutated(&mut chance, [((FIRST, LAST), Wide)]));
    compare(&UTC, "fuzz", calls, utc);
}

/// A weather record; half of the temperatures are given the other sign.
fn record(chance: &mut Chance) -> [i64; 4] {
    let flag = ((0, 1), Narrow);
    let below_nought = (SIZES_OF_TEMPERATURE.0 | SIGN, SIZES_OF_TEMPERATURE.1 | SIGN);
    let mut record = mutated(chance, [(PRESSURES, Float), (below_nought, Float), flag, flag]);
    record[1] ^= chance.one_of(&[0, SIGN]);
    record
}

/// Refused 14, the record comes back; the other two answer noughts then.
#[test]
fn weathers() {
    let mut chance = Chance::new("fuzz, weathers");
    let calls = (0..WEATHERS).map(|_| {
        let reading = mutated(&mut chance, [((0, 2), Narrow), (PRESSURES, Float)]);
        taking(record(&mut chance), reading)
    });
    compare_told(&WEATHER, "fuzz", calls, one_nan, weather);

    let mut chance = Chance::new("fuzz, observed altitudes");
    let calls = (0..WEATHERS).map(|_| {
        let [altitude] = mutated(&mut chance, [((-HIGHEST, HIGHEST), Wide)]);
        at(altitude, record(&mut chance))
    });
    compare(&OBSERVED_ALTITUDE, "fuzz", calls, observed_altitude);

    let mut chance = Chance::new("fuzz, observed places");
    let calls = (0..OBSERVED_PLACES).map(|_| {
        let asked = mutated(&mut chance, ASKED);
        asked_in(asked, record(&mut chance))
    });
    compare(&OBSERVED_PLACE, "fuzz", calls, observed_place);
}

/// Few directions that are drawn part by part are accepted: half of the calls turn one that is.
#[test]
fn turns() {
    let most = CIRCLE as i64 - 1;
    let parts = [((-1 << 30, 1 << 30), Wide); 3];
    let mut chance = Chance::new("fuzz, turns");
    let calls = (0..TURNS).map(|_| {
        let [axis, angle] = mutated(&mut chance, [((1, 3), Wide), ((-most, most), Wide)]);
        let [x, y, z] = if chance.once_in(2) {
            mutated(&mut chance, parts)
        } else {
            let [_, x, y, z] = turn([1 << 30, 0, 0, 3, chance.within(-most, most)]);
            let [_, x, y, z] = turn([x, y, z, chance.within(1, 2), chance.within(-most, most)]);
            [x + chance.within(-1, 1), y, z]
        };
        [x, y, z, axis, angle]
    });
    compare(&TURN, "fuzz", calls, turn);
}

#[test]
fn readings() {
    let mut chance = Chance::new("fuzz, readings");
    let calls = (0..READINGS).map(|_| [extreme(&mut chance, Narrow), extreme(&mut chance, Narrow)]);
    compare(&READING, "fuzz", calls, angle);
}

fn noise(chance: &mut Chance, length: i64) -> Vec<u8> {
    (0..length).map(|_| chance.any() as u8).collect()
}

/// A file whole, damaged a few times, with a number of a record made extreme; or noise, with or without a head.
fn fuzzed_file(chance: &mut Chance) -> Vec<u8> {
    if chance.once_in(8) {
        let length = chance.within(0, MOST_BYTES);
        let mut bytes = noise(chance, length);
        if chance.once_in(2) {
            let head = file(chance, length / RECORD as i64);
            let kept = head.len().min(HEAD).min(bytes.len());
            bytes[..kept].copy_from_slice(&head[..kept]);
        }
        return bytes;
    }
    let count = chance.within(0, 66);
    let mut bytes = file(chance, count);
    if count > 0 && chance.once_in(3) {
        let at = HEAD + RECORD * chance.within(0, count - 1) as usize + 8 * chance.within(0, 2) as usize;
        bytes[at..at + 8].copy_from_slice(&extreme(chance, Wide).to_le_bytes());
    }
    for _ in 0..chance.within(-2, 2) {
        damage(chance, &mut bytes);
    }
    bytes.truncate(MOST_BYTES as usize);
    bytes
}

#[test]
fn files() {
    let mut chance = Chance::new("fuzz, counts");
    let calls = (0..FILES).map(|_| Call { given: [], read: fuzzed_file(&mut chance), room: Vec::new() });
    compare_lent(&LIST_COUNT, "fuzz", calls, list_count);

    let mut chance = Chance::new("fuzz, stars");
    let calls = (0..FILES).map(|_| {
        let index = if chance.once_in(4) {
            extreme(&mut chance, Wide)
        } else {
            chance.within(0, MOST_ENTRIES as i64 + 1)
        };
        Call { given: [index], read: fuzzed_file(&mut chance), room: Vec::new() }
    });
    compare_lent(&LIST_STAR, "fuzz", calls, list_star);
}

/// Every length of a room, each many times.
#[test]
fn rooms() {
    let mut chance = Chance::new("fuzz, rooms");
    let calls = (0..FILES as i64).map(|number| {
        let room = noise(&mut chance, number % (MOST_BYTES + 1));
        let fitting = (room.len() as i64 - HEAD as i64) / RECORD as i64;
        let count = if chance.once_in(4) { chance.within(0, 66) } else { chance.within(-1, 1) + fitting };
        let mut numbers: Vec<i64> = (0..count).flat_map(|_| star(&mut chance, 2000)).collect();
        for _ in 0..chance.within(-6, 2) {
            match chance.within(0, numbers.len() as i64) as usize {
                at if at == numbers.len() => numbers.push(extreme(&mut chance, Wide)),
                at => numbers[at] = extreme(&mut chance, Wide),
            }
        }
        Call { given: [], read: bytes_of(&numbers), room }
    });
    compare_lent(&LIST_WRITE, "fuzz", calls, list_write);
}
