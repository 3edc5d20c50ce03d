/* The archives libmodule.a and libtests_lists.a, as `tests/archives.sh` writes them. */
#ifndef BENCH_MODULE_H
#define BENCH_MODULE_H

#include <stddef.h>

#include "sky.h"

#include "../include/turbelicus.h"

/* An entry of a list: the star, its mark (0, 1 or 5), and its angles. */
struct entry {
    struct star star;
    uint8_t mark;
    int64_t ra, declination, azimuth, altitude;
};

struct tests_listed {
    int64_t refused;
    size_t count;
};

struct tests_listed tests_night_list(int32_t year, int32_t month, int32_t day, int32_t hour, int32_t minute,
                                     int32_t second, int32_t ms, int32_t ut1_minus_utc, int64_t latitude,
                                     int64_t longitude, struct entry *entries, size_t length);

static inline struct tests_listed module_night(const struct moment *m, const struct site *o,
                                               struct entry entries[STARS]) {
    return tests_night_list(m->year, m->month, m->day, m->hour, m->minute, m->second, m->ms, m->ut1_minus_utc,
                            o->latitude, o->longitude, entries, STARS);
}

static inline struct turbelicus_placed module_place(const struct moment *m, const struct site *o,
                                                    const struct star *s) {
    return turbelicus_place(m->year, m->month, m->day, m->hour, m->minute, m->second, m->ms, m->ut1_minus_utc,
                            o->latitude, o->longitude, s->ra, s->declination, s->ra_motion, s->declination_motion);
}

#endif
