/* Lists over entries called from C: what each leaves in the entries and the room, and what C may lend. */
#include "check.h"
#include "tests_exports.h"
#include <string.h>

static const uint8_t file[] = {'S', 'L', 'T', 1,   0,   1,   0,   1,   0,   0,   0,   0,   0,   0,   0,   254,
                               255, 255, 255, 255, 255, 255, 255, 3,   0,   0,   0,   252, 255, 255, 255};

static int is_listed(struct turbelicus_counted listed, int64_t refused, size_t count) {
    return listed.refused == refused && listed.count == count;
}

static int has_angles(struct tests_entry entry, int64_t ra, int64_t declination, int64_t azimuth, int64_t altitude) {
    struct tests_angles angles = entry.angles;
    return angles.ra == ra && angles.declination == declination && angles.azimuth == azimuth &&
           angles.altitude == altitude;
}

/* An entry whose mark and angles are not noughts, so that a write to it shows. */
static struct tests_entry entry_of(int64_t ra, int64_t declination) {
    struct tests_entry entry = {{ra, declination, 0, 0}, 9, {9, 9, 9, 9}};
    return entry;
}

static struct turbelicus_counted night(int32_t year, struct tests_entry *entries, size_t length) {
    return tests_night_list(year, 1, 1, 12, 0, 0, 0, 0, 0, 0, entries, length);
}

static void files(void) {
    struct tests_entry entries[] = {entry_of(7, 7), entry_of(7, 7)};
    CHECK(is_listed(tests_list_read(file, sizeof file, entries, 2), 0, 1));
    CHECK(entries[0].star.ra == 1 && entries[0].star.declination == -2);
    CHECK(entries[0].star.ra_motion == 3 && entries[0].star.declination_motion == -4);
    CHECK(entries[0].mark == 0 && has_angles(entries[0], 0, 0, 0, 0));
    CHECK(entries[1].star.ra == 7 && entries[1].mark == 9 && has_angles(entries[1], 9, 9, 9, 9));
    CHECK(is_listed(tests_list_read(file, 6, entries, 2), 9, 0));
    CHECK(is_listed(tests_list_read(file, sizeof file, NULL, 0), 11, 0));

    uint8_t room[sizeof file + 1];
    memset(room, 7, sizeof room);
    CHECK(is_listed(tests_list_write(entries, 1, room, sizeof file - 1), 11, 0) && room[0] == 7);
    CHECK(is_listed(tests_list_write(entries, 1, room, sizeof room), 0, sizeof file));
    CHECK(memcmp(room, file, sizeof file) == 0 && room[sizeof file] == 7);
    CHECK(is_listed(tests_list_write(NULL, 0, room, 7), 0, 7));
    CHECK(is_listed(tests_list_write(NULL, 0, NULL, 0), 11, 0));
}

static void nights(void) {
    static struct tests_entry entries[65];
    for (size_t i = 0; i < 65; i++) entries[i] = entry_of((int64_t)i, 0);
    entries[1] = entry_of(0, 324000000001);
    CHECK(is_listed(night(2000, entries, 65), 11, 0) && entries[0].mark == 9);
    CHECK(is_listed(night(2100, entries, 65), 1, 0) && entries[0].mark == 9);
    CHECK(is_listed(night(2000, entries, 64), 0, 63));
    CHECK(entries[0].mark == 0 && !has_angles(entries[0], 9, 9, 9, 9));
    CHECK(entries[1].mark == 5 && has_angles(entries[1], 0, 0, 0, 0));
    CHECK(entries[1].star.declination == 324000000001);
    CHECK(entries[64].mark == 9 && has_angles(entries[64], 9, 9, 9, 9));
    CHECK(is_listed(night(2000, NULL, 0), 0, 0));
}

/* Marks 0, 1 and 5 side by side: at the zenith there is no azimuth, at the pole of date no right ascension. */
static void nights_without_an_angle(void) {
    const int64_t quarter = 324000000000, latitude = 180315000000, longitude = 51915000000;
    struct tests_entry entries[] = {entry_of(0, 0), entry_of(476318159297, 180659983868), entry_of(0, quarter + 1),
                                    entry_of(10315798983, 323471053674)};
    CHECK(is_listed(tests_night_list(2026, 3, 20, 20, 0, 0, 0, 0, latitude, longitude, entries, 4), 0, 3));
    CHECK(entries[0].mark == 0 && entries[1].mark == 1 && entries[2].mark == 5 && entries[3].mark == 1);
    CHECK(has_angles(entries[1], 478026476842, 180315000075, 0, quarter));
    CHECK(has_angles(entries[2], 0, 0, 0, 0));
    CHECK(entries[3].angles.ra == 0 && entries[3].angles.declination == quarter);

    /* over the pole the last has neither, and one mark */
    CHECK(is_listed(tests_night_list(2026, 3, 20, 20, 0, 0, 0, 0, quarter, longitude, entries, 4), 0, 3));
    CHECK(entries[1].mark == 0 && entries[3].mark == 1 && has_angles(entries[3], 0, quarter, 0, quarter));
}

int main(void) {
    files();
    nights();
    nights_without_an_angle();
    return verdict("lists");
}
