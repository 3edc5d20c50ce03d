/* The module called from C: cases of document 01, stars that lack an angle, and what C may lend. */
#include "check.h"
#include "turbelicus.h"
#include <string.h>

_Static_assert(sizeof(struct turbelicus_placed) == 48, "five numbers and two flags");
_Static_assert(sizeof(struct turbelicus_observed) == 56, "six numbers and two flags");
_Static_assert(sizeof(struct turbelicus_read) == 16, "a number and a flag");

static int is_turned(struct turbelicus_turned turned, int64_t refused, int64_t x, int64_t y, int64_t z) {
    return turned.refused == refused && turned.x == x && turned.y == y && turned.z == z;
}

static int is_read(struct turbelicus_read read, int64_t angle, int64_t has_angle) {
    return read.angle == angle && read.has_angle == has_angle;
}

static int is_placed(struct turbelicus_placed placed, int64_t ra, int64_t declination, int64_t azimuth,
                     int64_t altitude) {
    return placed.refused == 0 && placed.ra == ra && placed.declination == declination && placed.azimuth == azimuth &&
           placed.altitude == altitude;
}

static int is_refused(struct turbelicus_placed placed, int64_t refused) {
    return placed.refused == refused && placed.ra == 0 && placed.declination == 0 && placed.azimuth == 0 &&
           placed.altitude == 0 && placed.has_ra == 0 && placed.has_azimuth == 0;
}

static int is_counted(struct turbelicus_counted counted, int64_t refused, size_t count) {
    return counted.refused == refused && counted.count == count;
}

static int is_written(struct turbelicus_written written, int64_t refused, size_t length) {
    return written.refused == refused && written.length == length;
}

static void turns_and_readings(void) {
    const int64_t unit = INT64_C(1) << 30, circle = 1296000000000, quarter = 324000000000;
    CHECK(is_turned(turbelicus_turn(unit, 0, 0, 3, quarter), 0, 0, unit, 0));
    CHECK(is_turned(turbelicus_turn(unit, 0, 0, 3, circle), 8, 0, 0, 0));
    CHECK(is_turned(turbelicus_turn(unit, 0, 0, 4, 0), 8, 0, 0, 0));
    CHECK(is_turned(turbelicus_turn(0, 0, 0, 4, 0), 7, 0, 0, 0));
    CHECK(is_read(turbelicus_reading(1, 1), 162000000000, 1));
    CHECK(is_read(turbelicus_reading(0, 1), quarter, 1));
    CHECK(is_read(turbelicus_reading(0, 0), 0, 0));
    CHECK(is_read(turbelicus_reading(1, 0), 0, 1));
    CHECK(is_read(turbelicus_reading(-1, 0), 2 * quarter, 1));
    CHECK(is_read(turbelicus_reading(0, -1), 3 * quarter, 1));
    CHECK(is_read(turbelicus_reading(INT32_MAX, 0), 0, 1));
    CHECK(is_read(turbelicus_reading(0, INT32_MIN), 3 * quarter, 1));
}

static void places(void) {
    CHECK(is_refused(turbelicus_place(2100, 1, 1, 0, 0, 0, 0, 0, 0, 0, 0, 0, 0, 0), 1));
    CHECK(is_refused(turbelicus_place(2001, 2, 29, 0, 0, 0, 0, 0, 0, 0, 0, 0, 0, 0), 2));
    CHECK(is_refused(turbelicus_place(2015, 12, 31, 23, 59, 60, 0, 0, 0, 0, 0, 0, 0, 0), 3));
    CHECK(is_refused(turbelicus_place(2000, 1, 1, 12, 0, 0, 0, 901, 0, 0, 0, 0, 0, 0), 4));
    CHECK(is_refused(turbelicus_place(2000, 1, 1, 12, 0, 0, 0, 0, 0, 0, 0, 324000000001, 0, 0), 5));
    CHECK(is_refused(turbelicus_place(2000, 1, 1, 12, 0, 0, 0, 0, 324000000001, 0, 0, 0, 0, 0), 6));
    CHECK(turbelicus_place(2000, 1, 1, 12, 0, 0, 0, 0, 0, 0, 0, 0, 0, 0).refused == 0);
}

/* A star without motion, on the evening of 20 March 2026. */
static struct turbelicus_placed evening(int64_t latitude, int64_t ra, int64_t declination) {
    return turbelicus_place(2026, 3, 20, 20, 0, 0, 0, 0, latitude, 51915000000, ra, declination, 0, 0);
}

static void places_without_an_angle(void) {
    const int64_t quarter = 324000000000, pole_ra = 10315798983, pole_declination = 323471053674;
    struct turbelicus_placed zenith = evening(180315000000, 476318159297, 180659983868);
    CHECK(is_placed(zenith, 478026476842, 180315000075, 0, quarter) && zenith.has_ra == 1 && zenith.has_azimuth == 0);
    /* its azimuth is 0, in the north */
    struct turbelicus_placed pole = evening(180316000000, pole_ra, pole_declination);
    CHECK(is_placed(pole, 0, quarter, 0, 180315999951) && pole.has_ra == 0 && pole.has_azimuth == 1);
    struct turbelicus_placed both = evening(quarter, pole_ra, pole_declination);
    CHECK(is_placed(both, 0, quarter, 0, quarter) && both.has_ra == 0 && both.has_azimuth == 0);
    struct turbelicus_placed ordinary = evening(180316000000, 0, 0);
    CHECK(ordinary.refused == 0 && ordinary.has_ra == 1 && ordinary.has_azimuth == 1);
}

static void lists(void) {
    static const int64_t numbers[] = {1, -2, 3, -4, 1295999999999, 324000000000, -100000000, 100000000, 0};
    static const uint8_t file[] = {'S', 'L', 'T', 1,   0,   1,   0,   1,   0,   0,   0,   0,   0,   0,   0,   254,
                                   255, 255, 255, 255, 255, 255, 255, 3,   0,   0,   0,   252, 255, 255, 255};
    uint8_t room[64];
    memset(room, 7, sizeof room);
    CHECK(is_written(turbelicus_list_write(numbers, 4, room, sizeof room), 0, sizeof file));
    CHECK(memcmp(room, file, sizeof file) == 0 && room[sizeof file] == 7);
    CHECK(is_counted(turbelicus_list_count(file, sizeof file), 0, 1));
    struct turbelicus_starred star = turbelicus_list_star(file, sizeof file, 0);
    CHECK(star.refused == 0 && star.ra == 1 && star.declination == -2);
    CHECK(star.ra_motion == 3 && star.declination_motion == -4);
    CHECK(turbelicus_list_star(file, sizeof file, 1).refused == 11);
    CHECK(turbelicus_list_star(file, sizeof file, (size_t)-1).refused == 11);

    CHECK(is_counted(turbelicus_list_count(file, 6), 9, 0));
    CHECK(is_counted(turbelicus_list_count(file, sizeof file - 1), 10, 0));
    CHECK(is_written(turbelicus_list_write(numbers, 8, room, 54), 11, 0));
    CHECK(is_written(turbelicus_list_write(numbers, 8, room, 55), 0, 55));
    CHECK(is_written(turbelicus_list_write(numbers, 9, room, sizeof room), 11, 0));
    CHECK(is_written(turbelicus_list_write(numbers + 1, 4, room, sizeof room), 5, 0));

    /* null goes with length 0 */
    CHECK(is_counted(turbelicus_list_count(NULL, 0), 9, 0));
    CHECK(turbelicus_list_star(NULL, 0, 0).refused == 9);
    CHECK(is_written(turbelicus_list_write(NULL, 0, NULL, 0), 11, 0));
    CHECK(is_written(turbelicus_list_write(NULL, 0, room, 7), 0, 7));
}

int main(void) {
    turns_and_readings();
    places();
    places_without_an_angle();
    lists();
    return verdict("module");
}
