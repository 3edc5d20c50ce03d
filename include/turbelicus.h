/* Turbelicus: the apparent place of a star, its altitude as the air lifts it, the UTC date and time of a TT instant,
 * turns of a direction, the reading of an angle, and the star list file.
 *
 * Every function answers every number, every float and every byte that it is given: there is none that C must test first.
 * It keeps nothing from one call to the next, so that calls may go on side by side.
 *
 * Units: angles in microarcseconds (the circle is 1,296,000,000,000), motions in microarcseconds a year, parts of a
 * direction in parts of 2^30, pressure in hPa, temperature in degrees Celsius, instants in ms of TT from J2000.0.
 *
 * Refusals. An answer that may be refused is a struct. Its `refused` is 0 and the other fields are the answer; or it is
 * the number of the first of these that applies, and the other fields are 0 (of turbelicus_weather alone, the record as it
 * came) and no byte that was lent has changed.
 *
 *    1  year not 1972 to 2099
 *    2  no such month or day
 *    3  no such time of day (second 60 exists at 23:59:60 of the day before a step of TAI-UTC alone)
 *    4  UT1-UTC not within 900 ms
 *    5  star: right ascension not 0 to 1,295,999,999,999, declination not within 324,000,000,000, or a motion not within
 *       100,000,000
 *    6  site: latitude not within 324,000,000,000 or longitude not within 648,000,000,000
 *    7  direction not accepted: its squared length not within 2^32 of 2^60
 *    8  axis not 1 to 3, or angle not strictly between -1,296,000,000,000 and 1,296,000,000,000
 *    9  file under 7 bytes, wrong mark, or version not 1
 *   10  more than 64 records, or file length not exactly that of its count
 *   11  more than 64 stars given, or room too small for the file; no such record; or a star without all its numbers
 *   12  instant outside a century of J2000, and
 *   13  length to be divided by is nought: no function here answers with these two
 *   14  weather: a reading not accepted, pressure not 500 to 1,100 hPa or temperature not -50 to 50 degrees, or no such kind
 *       of reading; after all others
 *   20  TT before the first ms of 1972 or after the last of 2099, in UTC: of turbelicus_utc alone
 *
 * No angle. A star that stands exactly at a pole has no right ascension, and one at the zenith or the nadir has no
 * azimuth; (0, 0) has no angle to read. That is no refusal: the flag of the angle, `has_ra`, `has_azimuth` or
 * `has_angle`, is 0 and the angle is 0. Where there is an angle its flag is 1, also if the angle is 0. Where there is
 * none a motor has nowhere to go: it stays.
 *
 * What C must keep. A pointer goes with its own length: so many elements are there to be read, or written where it is not
 * const. It is null only with length 0. The room that is written overlaps nothing else that the same call is lent. */
#ifndef TURBELICUS_H
#define TURBELICUS_H

#include <stddef.h>
#include <stdint.h>

#ifdef __cplusplus
extern "C" {
#endif

struct turbelicus_placed {
    int64_t refused, ra, declination, azimuth, altitude;
    int32_t has_ra, has_azimuth;
};

/* The place of a star at a moment and a site.
 *
 * Given: a UTC date and time of day, with UT1-UTC in ms; the site's latitude, and longitude positive east; the
 * star's right ascension and declination of J2000, and their motions: that in right ascension is of the coordinate,
 * without a cosine.
 * Returned: apparent right ascension, 0 to 1,295,999,999,999, and declination, within 324,000,000,000; azimuth from north
 * through east, and altitude, in the same ranges. Without refraction, parallax and polar motion.
 * has_ra is 1; or 0, with ra 0, where there is no right ascension: that is exactly where declination is 324,000,000,000
 * or -324,000,000,000. has_azimuth is 1; or 0, with azimuth 0, where there is no azimuth: exactly where altitude is one
 * of those two. Declination and altitude always have an angle.
 * Refused: 1 to 6. */
struct turbelicus_placed turbelicus_place(int32_t year, int32_t month, int32_t day, int32_t hour, int32_t minute,
                                          int32_t second, int32_t ms, int32_t ut1_minus_utc, int64_t latitude,
                                          int64_t longitude, int64_t ra, int64_t declination, int32_t ra_motion,
                                          int32_t declination_motion);

struct turbelicus_clocked {
    int64_t refused;
    int32_t year, month, day, hour, minute, second;
    int64_t ms;
};

/* The UTC date and time of day of a TT instant.
 *
 * Given: TT, any number.
 * Returned: the one UTC date and time of day that has this TT, 1972-01-01 00:00:00.000 to 2099-12-31 23:59:59.999.
 * second is 60, with its own 1,000 ms, at 23:59:60 of the day before a step of TAI-UTC alone. UT1-UTC plays no part.
 * Refused: 20, exactly where tt is not -883,655,957,816 to 3,155,716,869,183. */
struct turbelicus_clocked turbelicus_utc(int64_t tt);

/* The weather record: the latest pressure and the latest air temperature that a probe has handed over, and whether each
 * has come. C keeps it and lends its four numbers to each call, which looks at them again.
 *
 * It begins as all noughts. A flag is set where it is not 0, and is answered as 0 or 1. A float whose flag is not set is not
 * looked at, and is answered as 1010 hPa or 10 degrees, the weather that the rule of the lift is made for. One whose flag is
 * set must be accepted, as a reading must: finite, 500 to 1,100 hPa or -50 to 50 degrees, ends included, -0.0 too. A record
 * that began as all noughts and is kept as it is answered always is. */
struct turbelicus_weathered {
    int64_t refused;
    float pressure, temperature;
    int32_t has_pressure, has_temperature;
};

/* What the probe hands over: nothing, a pressure in hPa, or an air temperature in degrees. */
#define TURBELICUS_NOTHING 0
#define TURBELICUS_PRESSURE 1
#define TURBELICUS_TEMPERATURE 2

/* The weather record with one more reading of the probe.
 *
 * Given: the record; the kind of the reading, one of the three above; the reading, which is not looked at where there is
 * nothing.
 * Returned: the record with the reading in it.
 * Refused: 14. The record then comes back as it was, its flags as 0 or 1 and a NaN as any NaN: C may keep every answer. */
struct turbelicus_weathered turbelicus_weather(float pressure, float temperature, int32_t has_pressure,
                                               int32_t has_temperature, int32_t kind, float reading);

struct turbelicus_altitude {
    int64_t refused, altitude;
};

/* The observed altitude: a true altitude, as turbelicus_place gives it, with its lift by the air.
 *
 * Given: the altitude, any number; the weather record.
 * Returned: the altitude and its lift, which is never below 0; it is 0 until both readings have come, below -3,600,000,000
 * and above 324,000,000,000. An altitude within 324,000,000,000 stays within it.
 * Refused: 14. */
struct turbelicus_altitude turbelicus_observed_altitude(int64_t altitude, float pressure, float temperature,
                                                        int32_t has_pressure, int32_t has_temperature);

struct turbelicus_observed {
    int64_t refused, ra, declination, azimuth, altitude, observed_altitude;
    int32_t has_ra, has_azimuth;
};

/* The place of a star as turbelicus_place gives it, and its observed altitude.
 *
 * Given: what turbelicus_place is given, then the weather record.
 * Returned: the four angles and the two flags of turbelicus_place, the altitude the true one; and that altitude with
 * its lift by the air, as turbelicus_observed_altitude gives it, within 324,000,000,000.
 * Refused: 1 to 6, then 14. */
struct turbelicus_observed turbelicus_observed_place(int32_t year, int32_t month, int32_t day, int32_t hour,
                                                     int32_t minute, int32_t second, int32_t ms, int32_t ut1_minus_utc,
                                                     int64_t latitude, int64_t longitude, int64_t ra,
                                                     int64_t declination, int32_t ra_motion,
                                                     int32_t declination_motion, float pressure, float temperature,
                                                     int32_t has_pressure, int32_t has_temperature);

struct turbelicus_turned {
    int64_t refused, x, y, z;
};

/* A direction turned about an axis, and brought to length.
 *
 * Given: the direction; axis 1, 2 or 3 (x, y or z); the angle: a positive one about axis 3 goes from x towards y.
 * Returned: the direction, which another turn accepts.
 * Refused: 7, 8. */
struct turbelicus_turned turbelicus_turn(int64_t x, int64_t y, int64_t z, int64_t axis, int64_t angle);

struct turbelicus_read {
    int64_t angle, has_angle;
};

/* The angle of (h, v), from h towards v.
 *
 * Given: any two numbers.
 * Returned: the angle, 0 to 1,295,999,999,999, and has_angle 1; or two noughts for (0, 0), which has none.
 * Refused: never. */
struct turbelicus_read turbelicus_reading(int32_t h, int32_t v);

/* The list file: the bytes of its head and of a record, and how many records it has at most. */
#define TURBELICUS_HEAD_BYTES 7
#define TURBELICUS_RECORD_BYTES 24
#define TURBELICUS_MOST_RECORDS 64

struct turbelicus_counted {
    int64_t refused;
    size_t count;
};

/* How many records a list file has.
 *
 * Given: the bytes of a whole file. It is `SLT`, version 1 and the count (16 bits each), then for each star right ascension
 * and declination (64 bits, signed) and their motions (32 bits, signed), all little-endian: 7 + 24 count bytes.
 * Returned: 0 to TURBELICUS_MOST_RECORDS.
 * Refused: 9, 10, 5, checked in this order; 5 where any of its stars is refused. */
struct turbelicus_counted turbelicus_list_count(const uint8_t *file, size_t file_length);

struct turbelicus_starred {
    int64_t refused, ra, declination;
    int32_t ra_motion, declination_motion;
};

/* A star of a list file. The file is checked whole at every call.
 *
 * Given: the bytes of a whole file; index, from 0.
 * Returned: the star, which turbelicus_place accepts.
 * Refused: 9, 10, 5, then 11 where the file has no such record. */
struct turbelicus_starred turbelicus_list_star(const uint8_t *file, size_t file_length, size_t index);

struct turbelicus_written {
    int64_t refused;
    size_t length;
};

/* A list file written at once, so that there never is a half of one.
 *
 * Given: numbers, four for each star: right ascension, declination and their motions; room, at least 7 bytes and 24 for
 * each star.
 * Returned: the file's length in bytes; the file stands at the start of room, and the bytes past it stay.
 * Refused: 5, then 11. */
struct turbelicus_written turbelicus_list_write(const int64_t *numbers, size_t numbers_length, uint8_t *room,
                                                size_t room_length);

#ifdef __cplusplus
}
#endif

#endif
