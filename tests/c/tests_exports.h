/* The functions that the crates `tests_functions` and `tests_lists` export for tests alone;
 * tools/exports.py holds them to their source. Where an answer has `refused`, it is the number of the refusal and the
 * rest are noughts, or it is 0. */
#ifndef TESTS_EXPORTS_H
#define TESTS_EXPORTS_H
#include "turbelicus.h"

/* met is 1 and value the result where the function's conditions hold; else both are 0. */
struct tests_tried {
    int64_t met, value;
};

struct tests_tried tests_rnd_quotient(int64_t a, int64_t b);
struct tests_tried tests_rnd_product_quotient(int64_t a, int64_t b, int64_t d);
struct tests_tried tests_whole_root(int64_t n);
struct tests_tried tests_on_circle(int64_t a);

struct tests_pair {
    int64_t cosine, sine;
};

struct tests_pair tests_pair(int64_t angle);

struct tests_day {
    int64_t refused, day;
};

struct tests_date {
    int64_t refused, year, month, day;
};

struct tests_instants {
    int64_t refused, ut, tt;
};

struct tests_day tests_day_of(int32_t year, int32_t month, int32_t day);
struct tests_date tests_date_of(int64_t day);
struct tests_instants tests_instants(int32_t year, int32_t month, int32_t day, int32_t hour, int32_t minute,
                                     int32_t second, int32_t ms, int32_t ut1_minus_utc);

/* What `times` prints for a line, without its LF, into out; returns its length. */
size_t tests_times_line(const uint8_t *line, size_t line_length, uint8_t *out, size_t out_length);

struct tests_angle {
    int64_t refused, angle;
};

struct tests_precessed {
    int64_t refused, zeta, z, theta;
};

struct tests_five_arguments {
    int64_t refused, l, l1, f, d, om;
};

struct tests_nutated {
    int64_t refused, longitude, obliquity;
};

/* bx and by, and the three numbers that are added. */
struct tests_aberration {
    int64_t refused, bx, by, x, y, z;
};

struct tests_precessed tests_precession(int64_t tt);
struct tests_angle tests_obliquity(int64_t tt);
struct tests_five_arguments tests_arguments(int64_t tt);
struct tests_nutated tests_nutation(int64_t tt);
struct tests_angle tests_sun(int64_t tt);
struct tests_angle tests_mean_longitude(int64_t tt);
struct tests_angle tests_perihelion(int64_t tt);
struct tests_aberration tests_aberration(int64_t tt);
struct tests_angle tests_sidereal(int64_t ut);
struct tests_angle tests_sidereal_polynomial(int64_t ut);

struct tests_star {
    int64_t ra, declination;
    int32_t ra_motion, declination_motion;
};

/* Nought in an angle that the entry has not. */
struct tests_angles {
    int64_t ra, declination, azimuth, altitude;
};

/* An entry of a list, and its bytes. */
#define TESTS_ENTRY_BYTES 64

struct tests_entry {
    struct tests_star star;
    uint8_t mark;
    struct tests_angles angles;
};

/* count is of the records read, of the bytes written, or of the entries marked 0 or 1. */
struct turbelicus_counted tests_list_read(const uint8_t *file, size_t file_length, struct tests_entry *entries,
                                          size_t entries_length);
struct turbelicus_counted tests_list_write(const struct tests_entry *entries, size_t entries_length, uint8_t *room,
                                           size_t room_length);
struct turbelicus_counted tests_night_list(int32_t year, int32_t month, int32_t day, int32_t hour, int32_t minute,
                                           int32_t second, int32_t ms, int32_t ut1_minus_utc, int64_t latitude,
                                           int64_t longitude, struct tests_entry *entries, size_t entries_length);

#endif
