/* The UTC date and time of a TT instant, called from C: its layout, the ends, an added second, noughts in a refusal. */
#include "check.h"
#include "tests_exports.h"
#include "turbelicus.h"
#include <stddef.h>

_Static_assert(sizeof(struct turbelicus_clocked) == 40, "a number, seven parts, and no byte between or after");
_Static_assert(offsetof(struct turbelicus_clocked, refused) == 0, "the number of the refusal");
_Static_assert(offsetof(struct turbelicus_clocked, year) == 8, "the seven parts in turn");
_Static_assert(offsetof(struct turbelicus_clocked, month) == 12, "the seven parts in turn");
_Static_assert(offsetof(struct turbelicus_clocked, day) == 16, "the seven parts in turn");
_Static_assert(offsetof(struct turbelicus_clocked, hour) == 20, "the seven parts in turn");
_Static_assert(offsetof(struct turbelicus_clocked, minute) == 24, "the seven parts in turn");
_Static_assert(offsetof(struct turbelicus_clocked, second) == 28, "the seven parts in turn");
_Static_assert(offsetof(struct turbelicus_clocked, ms) == 32, "the seven parts in turn");

/* The TT of 1972-01-01 00:00:00.000 and of 2099-12-31 23:59:59.999. */
static const int64_t FIRST = -883655957816, LAST = 3155716869183;

static int is_date(struct turbelicus_clocked clocked, int32_t year, int32_t month, int32_t day) {
    return clocked.refused == 0 && clocked.year == year && clocked.month == month && clocked.day == day;
}

static int is_time(struct turbelicus_clocked clocked, int32_t hour, int32_t minute, int32_t second, int64_t ms) {
    return clocked.refused == 0 && clocked.hour == hour && clocked.minute == minute && clocked.second == second &&
           clocked.ms == ms;
}

static int is_refused(struct turbelicus_clocked clocked) {
    return clocked.refused == 20 && clocked.year == 0 && clocked.month == 0 && clocked.day == 0 && clocked.hour == 0 &&
           clocked.minute == 0 && clocked.second == 0 && clocked.ms == 0;
}

static void ends(void) {
    CHECK(is_date(turbelicus_utc(FIRST), 1972, 1, 1) && is_time(turbelicus_utc(FIRST), 0, 0, 0, 0));
    CHECK(is_date(turbelicus_utc(LAST), 2099, 12, 31) && is_time(turbelicus_utc(LAST), 23, 59, 59, 999));
    CHECK(is_refused(turbelicus_utc(FIRST - 1)));
    CHECK(is_refused(turbelicus_utc(LAST + 1)));
    CHECK(is_refused(turbelicus_utc(INT64_MIN)));
    CHECK(is_refused(turbelicus_utc(INT64_MAX)));
}

static void dates_and_times(void) {
    /* J2000.0 is 64.184 s before noon */
    CHECK(is_date(turbelicus_utc(0), 2000, 1, 1) && is_time(turbelicus_utc(0), 11, 58, 55, 816));
    CHECK(is_time(turbelicus_utc(64184), 12, 0, 0, 0));
    /* seven parts that all differ: 9626 days and 20:31:42.053 after the noon of 2000-01-01, less half a day */
    struct turbelicus_clocked clocked = turbelicus_utc(9626 * INT64_C(86400000) + 73902053 - 43200000 + 69184);
    CHECK(is_date(clocked, 2026, 5, 10) && is_time(clocked, 20, 31, 42, 53));
}

/* Before 2017-01-01 a second was added; its ms are document 01's own case. */
static void added_second(void) {
    const int64_t step = 536500869184;
    struct turbelicus_clocked clocked = turbelicus_utc(step - 1001);
    CHECK(is_date(clocked, 2016, 12, 31) && is_time(clocked, 23, 59, 59, 999));
    for (int32_t ms = 0; ms < 1000; ms++) {
        clocked = turbelicus_utc(step - 1000 + ms);
        CHECK(is_date(clocked, 2016, 12, 31) && is_time(clocked, 23, 59, 60, ms));
    }
    clocked = turbelicus_utc(step);
    CHECK(is_date(clocked, 2017, 1, 1) && is_time(clocked, 0, 0, 0, 0));
    /* a year before there was none */
    const int64_t midnight = step - 366 * INT64_C(86400000) - 1000;
    clocked = turbelicus_utc(midnight - 1);
    CHECK(is_date(clocked, 2015, 12, 31) && is_time(clocked, 23, 59, 59, 999));
    clocked = turbelicus_utc(midnight);
    CHECK(is_date(clocked, 2016, 1, 1) && is_time(clocked, 0, 0, 0, 0));
}

/* What is answered is what the place and the instants take. */
static void back(void) {
    const int64_t instants[] = {FIRST, -1, 0, 536500868684, 536500869183, LAST};
    for (size_t i = 0; i < sizeof instants / sizeof instants[0]; i++) {
        struct turbelicus_clocked at = turbelicus_utc(instants[i]);
        CHECK(tests_instants(at.year, at.month, at.day, at.hour, at.minute, at.second, at.ms, 0).tt == instants[i]);
        CHECK(turbelicus_place(at.year, at.month, at.day, at.hour, at.minute, at.second, at.ms, 0, 0, 0, 0, 0, 0, 0)
                  .refused == 0);
    }
}

int main(void) {
    ends();
    dates_and_times();
    added_second();
    back();
    return verdict("clocks");
}
