/* docs/RULES.md, "Cases": those that are run only, each through every function of the module and of the tests' own
 * exports that meets it. A line has the case, the call and every number of the answer; run_only.txt has what must be
 * printed.
 * After each case stands its neighbour that is accepted, where document 01 says what that answers. */
#include "tests_exports.h"
#include "turbelicus.h"
#include <stdio.h>
#include <string.h>

enum {
    NUMBERS = 4,
    RECORD = TURBELICUS_RECORD_BYTES,
    HEAD = TURBELICUS_HEAD_BYTES,
    MOST = TURBELICUS_MOST_RECORDS
};

static const int64_t UNIT = INT64_C(1) << 30, QUARTER = 324000000000, CIRCLE = 1296000000000;

static void day(int32_t year, int32_t month, int32_t of_month) {
    struct tests_day a = tests_day_of(year, month, of_month);
    printf("%d-%02d-%02d, day number: refused %lld, day %lld\n", year, month, of_month, (long long)a.refused,
           (long long)a.day);
}

static void instants(int32_t year, int32_t month, int32_t of_month) {
    struct tests_instants a = tests_instants(year, month, of_month, 12, 0, 0, 0, 0);
    printf("%d-%02d-%02d, instants: refused %lld, ut %lld, tt %lld\n", year, month, of_month, (long long)a.refused,
           (long long)a.ut, (long long)a.tt);
}

/* At noon, on the equator at longitude 0, of a star at right ascension 0 without motion. */
static struct turbelicus_placed place(int32_t year, int32_t month, int32_t of_month, int64_t declination) {
    return turbelicus_place(year, month, of_month, 12, 0, 0, 0, 0, 0, 0, 0, declination, 0, 0);
}

static void print_place(struct turbelicus_placed a) {
    printf("refused %lld, ra %lld, declination %lld, azimuth %lld, altitude %lld, has_ra %d, has_azimuth %d\n",
           (long long)a.refused, (long long)a.ra, (long long)a.declination, (long long)a.azimuth,
           (long long)a.altitude, a.has_ra, a.has_azimuth);
}

static void place_on(int32_t year, int32_t month, int32_t of_month) {
    printf("%d-%02d-%02d, place: ", year, month, of_month);
    print_place(place(year, month, of_month, 0));
}

static void turn(int64_t axis, int64_t angle) {
    struct turbelicus_turned a = turbelicus_turn(UNIT, 0, 0, axis, angle);
    printf("angle %lld about axis %lld, turn: refused %lld, x %lld, y %lld, z %lld\n", (long long)angle,
           (long long)axis, (long long)a.refused, (long long)a.x, (long long)a.y, (long long)a.z);
}

/* What has become of a room that was filled with 7. */
static const char *stayed(const uint8_t *room, size_t length) {
    for (size_t i = 0; i < length; i++)
        if (room[i] != 7) return "written";
    return "as it was";
}

/* So many stars at right ascension 0, each of the declination, written into room for all of them. */
static void write(size_t stars, int64_t declination) {
    static int64_t numbers[NUMBERS * (MOST + 1)];
    static uint8_t room[HEAD + RECORD * (MOST + 1)];
    memset(room, 7, sizeof room);
    for (size_t i = 0; i < stars; i++) numbers[NUMBERS * i + 1] = declination;
    struct turbelicus_written a = turbelicus_list_write(numbers, NUMBERS * stars, room, sizeof room);
    printf("entries: %zu, of declination %lld, list written: refused %lld, length %zu, room %s\n", stars,
           (long long)declination, (long long)a.refused, a.length, stayed(room, sizeof room));
}

/* The first bytes of a file of no record. */
static void file(size_t length) {
    static const uint8_t bytes[HEAD] = {'S', 'L', 'T', 1, 0, 0, 0};
    struct turbelicus_counted a = turbelicus_list_count(bytes, length);
    struct turbelicus_starred b = turbelicus_list_star(bytes, length, 0);
    printf("file of %zu bytes, count: refused %lld, count %zu\n", length, (long long)a.refused, a.count);
    printf("file of %zu bytes, star 0: refused %lld, ra %lld, declination %lld, motions %d, %d\n", length,
           (long long)b.refused, (long long)b.ra, (long long)b.declination, b.ra_motion, b.declination_motion);
}

static void dates(void) {
    day(2100, 1, 1);
    instants(2100, 1, 1);
    place_on(2100, 1, 1);
    day(2099, 12, 31);
    day(2001, 2, 29);
    instants(2001, 2, 29);
    place_on(2001, 2, 29);
    day(2000, 2, 29);
}

static void stars_and_turns(void) {
    printf("declination %lld, place: ", (long long)QUARTER + 1);
    print_place(place(2000, 1, 1, QUARTER + 1));
    write(1, QUARTER + 1);
    write(1, QUARTER);
    for (int64_t axis = 1; axis <= 3; axis++) turn(axis, CIRCLE);
    turn(3, QUARTER);
}

static void lists(void) {
    file(HEAD - 1);
    file(HEAD);
    write(MOST + 1, 0);
    write(MOST, 0);
}

int main(void) {
    dates();
    stars_and_turns();
    lists();
    return 0;
}
