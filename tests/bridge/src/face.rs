//! Every exported function that the tests call, by subject; `tests/exports` says which stand. `tests/c/driver.c` and the
//! headers that it includes say the same in C, and `tools/exports.py` holds all of them to the Rattle source.

#[cfg(linked)]
use crate::entries::ENTRY;
use crate::function::{exported, Function, Room};
#[cfg(linked)]
use crate::function::{Parameter, Words};

#[cfg(exported = "whole")]
exported! {
    /// Rnd(a / b).
    RND_QUOTIENT = tests_rnd_quotient(a: i64, b: i64) -> (met, value);
    /// Rnd(a b / d), the product carried in parts.
    RND_PRODUCT_QUOTIENT = tests_rnd_product_quotient(a: i64, b: i64, d: i64) -> (met, value);
    /// The whole root, downward.
    WHOLE_ROOT = tests_whole_root(n: i64) -> (met, value);
    /// a modulo C.
    ON_CIRCLE = tests_on_circle(a: i64) -> (met, value);
}

#[cfg(exported = "circle")]
exported! {
    /// Cosine and sine of any angle.
    PAIR = tests_pair(angle: i64) -> (cosine, sine);
}

#[cfg(exported = "turning")]
exported! {
    /// A direction turned about an axis.
    TURN = turbelicus_turn(x: i64, y: i64, z: i64, axis: i64, angle: i64) -> (refused, x, y, z);
}

#[cfg(exported = "reading")]
exported! {
    /// The angle of (h, v), and whether there is one.
    READING = turbelicus_reading(h: i32, v: i32) -> (angle, has_angle);
}

#[cfg(exported = "dates")]
exported! {
    /// The number of a day.
    DAY_OF = tests_day_of(year: i32, month: i32, day: i32) -> (refused, day);
    /// The date of a day's number.
    DATE_OF = tests_date_of(day: i64) -> (refused, year, month, day);
    /// UT and TT of a UTC date and time.
    INSTANTS = tests_instants(
        year: i32, month: i32, day: i32, hour: i32, minute: i32, second: i32, ms: i32, ut1_minus_utc: i32
    ) -> (refused, ut, tt);
}

/// What `times` prints for a line, put into the room without its LF; the answer is its length.
#[cfg(exported = "dates")]
pub const TIMES_LINE: Function<0, 1> = Function {
    name: "tests_times_line",
    given: [],
    answered: ["length"],
    room: Room::Bytes,
    #[cfg(linked)]
    linked: |call| {
        extern "C" {
            fn tests_times_line(
                line: *const u8,
                line_length: usize,
                out: *mut u8,
                out_length: usize,
            ) -> Words<1>;
        }
        let line = &call.read;
        lend(&mut call.room, |out, length| {
            // Safety: `tests/exports` says that the archive has it; each pointer goes with its own length.
            unsafe { tests_times_line(line.as_ptr(), line.len(), out, length) }.0
        })
    },
};

#[cfg(exported = "earth")]
exported! {
    /// The three precession angles at a TT instant.
    PRECESSION = tests_precession(tt: i64) -> (refused, zeta, z, theta);
    /// The mean obliquity.
    OBLIQUITY = tests_obliquity(tt: i64) -> (refused, angle);
    /// The arguments l, l′, F, D, Ω.
    ARGUMENTS = tests_arguments(tt: i64) -> (refused, l, l1, f, d, om);
    /// Δψ and Δε.
    NUTATION = tests_nutation(tt: i64) -> (refused, longitude, obliquity);
    /// The Sun's longitude.
    SUN = tests_sun(tt: i64) -> (refused, angle);
    /// The Sun's mean longitude.
    MEAN_LONGITUDE = tests_mean_longitude(tt: i64) -> (refused, angle);
    /// The longitude of perihelion, ϖ.
    PERIHELION = tests_perihelion(tt: i64) -> (refused, angle);
    /// bx and by of the aberration, and the three numbers that it adds.
    ABERRATION = tests_aberration(tt: i64) -> (refused, bx, by, x, y, z);
    /// The sidereal angle at a UT instant.
    SIDEREAL = tests_sidereal(ut: i64) -> (refused, angle);
    /// The sidereal polynomial alone.
    SIDEREAL_POLYNOMIAL = tests_sidereal_polynomial(ut: i64) -> (refused, angle);
}

#[cfg(exported = "place")]
exported! {
    /// The place of a star at a UTC date and time, over a site.
    PLACE = turbelicus_place(
        year: i32, month: i32, day: i32, hour: i32, minute: i32, second: i32, ms: i32, ut1_minus_utc: i32,
        latitude: i64, longitude: i64,
        ra: i64, declination: i64, ra_motion: i32, declination_motion: i32
    ) -> (refused, ra, declination, azimuth, altitude, has_ra_and_has_azimuth);
}

#[cfg(exported = "utc")]
exported! {
    /// The UTC date and time of a TT instant.
    UTC = turbelicus_utc(tt: i64) -> (refused, year_and_month, day_and_hour, minute_and_second, ms);
}

#[cfg(exported = "weather")]
exported! {
    /// The weather record with one more reading of the probe.
    WEATHER = turbelicus_weather(
        pressure: f32, temperature: f32, has_pressure: i32, has_temperature: i32, kind: i32, reading: f32
    ) -> (refused, pressure_and_temperature, has_pressure_and_has_temperature);
    /// A true altitude as it is observed.
    OBSERVED_ALTITUDE = turbelicus_observed_altitude(
        altitude: i64, pressure: f32, temperature: f32, has_pressure: i32, has_temperature: i32
    ) -> (refused, altitude);
    /// The place of a star, and its observed altitude.
    OBSERVED_PLACE = turbelicus_observed_place(
        year: i32, month: i32, day: i32, hour: i32, minute: i32, second: i32, ms: i32, ut1_minus_utc: i32,
        latitude: i64, longitude: i64,
        ra: i64, declination: i64, ra_motion: i32, declination_motion: i32,
        pressure: f32, temperature: f32, has_pressure: i32, has_temperature: i32
    ) -> (refused, ra, declination, azimuth, altitude, observed_altitude, has_ra_and_has_azimuth);
}

/// The number of records of a list file.
#[cfg(exported = "list_file")]
pub const LIST_COUNT: Function<0, 2> = Function {
    name: "turbelicus_list_count",
    given: [],
    answered: ["refused", "count"],
    room: Room::Bytes,
    #[cfg(linked)]
    linked: |call| {
        extern "C" {
            fn turbelicus_list_count(file: *const u8, file_length: usize) -> Words<2>;
        }
        let file = &call.read;
        // Safety: `tests/exports` says that the archive has it; the pointer goes with its length.
        unsafe { turbelicus_list_count(file.as_ptr(), file.len()) }.0
    },
};

/// A star of a list file; its two motions, of 32 bits each, are one word.
#[cfg(exported = "list_file")]
pub const LIST_STAR: Function<1, 4> = Function {
    name: "turbelicus_list_star",
    given: ["index"],
    answered: ["refused", "ra", "declination", "motions"],
    room: Room::Bytes,
    #[cfg(linked)]
    linked: |call| {
        extern "C" {
            fn turbelicus_list_star(file: *const u8, file_length: usize, index: usize) -> Words<4>;
        }
        let ([index], file) = (call.given, &call.read);
        // Safety: `tests/exports` says that the archive has it; the pointer goes with its length.
        unsafe { turbelicus_list_star(file.as_ptr(), file.len(), index as usize) }.0
    },
};

/// The list file of numbers, which are read as words, written to the room.
#[cfg(exported = "list_file")]
pub const LIST_WRITE: Function<0, 2> = Function {
    name: "turbelicus_list_write",
    given: [],
    answered: ["refused", "length"],
    room: Room::Bytes,
    #[cfg(linked)]
    linked: |call| {
        extern "C" {
            fn turbelicus_list_write(
                numbers: *const i64,
                numbers_length: usize,
                room: *mut u8,
                room_length: usize,
            ) -> Words<2>;
        }
        // bytes alone need not begin at a whole word
        let word = |bytes: &[u8]| i64::from_le_bytes(bytes.try_into().expect("a whole word"));
        let numbers: Vec<i64> = call.read.chunks_exact(8).map(word).collect();
        lend(&mut call.room, |room, length| {
            // Safety: `tests/exports` says that the archive has it; each pointer goes with its own length.
            unsafe { turbelicus_list_write(numbers.as_ptr(), numbers.len(), room, length) }.0
        })
    },
};

/// A list file read into the entries of the room.
#[cfg(exported = "entries")]
pub const READ_LIST: Function<0, 2> = Function {
    name: "tests_list_read",
    given: [],
    answered: ["refused", "count"],
    room: Room::Entries,
    #[cfg(linked)]
    linked: |call| {
        extern "C" {
            fn tests_list_read(
                file: *const u8,
                file_length: usize,
                entries: *mut u8,
                entries_length: usize,
            ) -> Words<2>;
        }
        let file = &call.read;
        lend(&mut call.room, |entries, length| {
            // Safety: `tests/exports` says that the archive has it; each pointer goes with its own length.
            unsafe { tests_list_read(file.as_ptr(), file.len(), entries, length / ENTRY) }.0
        })
    },
};

/// The list file of entries, which are read, written to the room.
#[cfg(exported = "entries")]
pub const WRITE_LIST: Function<0, 2> = Function {
    name: "tests_list_write",
    given: [],
    answered: ["refused", "count"],
    room: Room::Bytes,
    #[cfg(linked)]
    linked: |call| {
        extern "C" {
            fn tests_list_write(
                entries: *const u8,
                entries_length: usize,
                room: *mut u8,
                room_length: usize,
            ) -> Words<2>;
        }
        let length_read = call.read.len() / ENTRY;
        // the entries too stand between guards, where each begins at a whole word
        lend(&mut call.read, |entries, _| {
            lend(&mut call.room, |room, length| {
                // Safety: `tests/exports` says that the archive has it; each pointer goes with its own length.
                unsafe { tests_list_write(entries, length_read, room, length) }.0
            })
        })
    },
};

/// The entries of the room worked at a UTC date and time, over a site.
#[cfg(exported = "night_list")]
pub const NIGHT_LIST: Function<10, 2> = Function {
    name: "tests_night_list",
    given: [
        "year",
        "month",
        "day",
        "hour",
        "minute",
        "second",
        "ms",
        "ut1_minus_utc",
        "latitude",
        "longitude",
    ],
    answered: ["refused", "count"],
    room: Room::Entries,
    #[cfg(linked)]
    linked: |call| {
        extern "C" {
            fn tests_night_list(
                year: i32,
                month: i32,
                day: i32,
                hour: i32,
                minute: i32,
                second: i32,
                ms: i32,
                ut1_minus_utc: i32,
                latitude: i64,
                longitude: i64,
                entries: *mut u8,
                entries_length: usize,
            ) -> Words<2>;
        }
        let [moment @ .., latitude, longitude] = call.given;
        let [year, month, day, hour, minute, second, ms, ut1_minus_utc] =
            moment.map(|part: i64| i32::try_from(part).expect("a number of the C type"));
        lend(&mut call.room, |entries, length| {
            // Safety: `tests/exports` says that the archive has it; the pointer goes with its length.
            unsafe {
                tests_night_list(
                    year,
                    month,
                    day,
                    hour,
                    minute,
                    second,
                    ms,
                    ut1_minus_utc,
                    latitude,
                    longitude,
                    entries,
                    length / ENTRY,
                )
            }
            .0
        })
    },
};

/// Lends the room between guards, which none may write. It begins at a whole word, as C has what is more than bytes.
#[cfg(linked)]
fn lend<T>(room: &mut [u8], call: impl FnOnce(*mut u8, usize) -> T) -> T {
    const GUARD: [u8; 64] = [0xa5; 64];
    let mut words = vec![0u64; (GUARD.len() + room.len() + GUARD.len()).div_ceil(8)];
    // Safety: the words are there, and any bytes make a word.
    let bytes = unsafe { std::slice::from_raw_parts_mut(words.as_mut_ptr().cast::<u8>(), 8 * words.len()) };
    let (before, rest) = bytes.split_at_mut(GUARD.len());
    let (middle, rest) = rest.split_at_mut(room.len());
    let after = &mut rest[..GUARD.len()];
    before.copy_from_slice(&GUARD);
    middle.copy_from_slice(room);
    after.copy_from_slice(&GUARD);
    let answer = call(middle.as_mut_ptr(), middle.len());
    assert!(before == GUARD && after == GUARD, "it writes past its room");
    room.copy_from_slice(middle);
    answer
}
