/* The firmware of a telescope mount: where its two motors go, for each star of a list.
 *
 *   firmware LIST YEAR MONTH DAY HOUR MINUTE SECOND [WEATHER]     (UTC)
 *
 * It reads the list record by record and asks the module for one place at a time. A line for each star: its number in the
 * list, azimuth from north through east and observed altitude, both in arcseconds; or `below` where the mount does not reach
 * down to where the star is observed. A star at the zenith has no azimuth: `stays` stands in that column, and the
 * azimuth's motor stays where it is. What is refused ends it with a word on standard error, before the first line.
 *
 * WEATHER has what the probe has handed over, a line for each reading: `P` and hPa, `T` and degrees, or an empty line for
 * nothing. A reading that is refused is told on standard error, and the weather stays as it was. Without a pressure and a
 * temperature no altitude is lifted. */
#include <stdint.h>
#include <stdio.h>
#include <stdlib.h>

#include "turbelicus.h"

/* The site, in microarcseconds: 50 05 16 north, 14 25 15 east. */
#define LATITUDE INT64_C(180316000000)
#define LONGITUDE INT64_C(51915000000)

/* UT1-UTC in ms: kept by hand, from the bulletins. */
#define UT1_MINUS_UTC 0

/* The mount reaches down to 10 degrees, as they are observed. */
#define LOWEST INT64_C(36000000000)

/* A line of the probe, its LF and the end of the text. */
#define LINE_BYTES 64

/* A list of as many stars as there may be, and one byte more, which tells a file that is too long. */
#define MOST_BYTES (TURBELICUS_HEAD_BYTES + TURBELICUS_RECORD_BYTES * TURBELICUS_MOST_RECORDS + 1)

enum { YEAR, MONTH, DAY, HOUR, MINUTE, SECOND, PARTS };

struct list {
    uint8_t bytes[MOST_BYTES];
    size_t length, count;
};

static int fail(const char *what, const char *which) {
    fprintf(stderr, "firmware: %s: %s\n", what, which);
    return EXIT_FAILURE;
}

static int refuse(const char *what, int64_t refused) {
    fprintf(stderr, "firmware: %s refused %d\n", what, (int)refused);
    return EXIT_FAILURE;
}

/* A whole number of 32 bits, alone in its word. */
static int is_number(const char *word, int32_t *number) {
    char *end;
    long value = strtol(word, &end, 10);
    if (end == word || *end != '\0' || value < INT32_MIN || value > INT32_MAX) return 0;
    *number = (int32_t)value;
    return 1;
}

static int read_list(const char *name, struct list *list) {
    FILE *file = fopen(name, "rb");
    if (file == NULL) return fail("cannot open", name);
    list->length = fread(list->bytes, 1, sizeof list->bytes, file);
    int failed = ferror(file);
    fclose(file);
    if (failed) return fail("cannot read", name);

    struct turbelicus_counted counted = turbelicus_list_count(list->bytes, list->length);
    if (counted.refused != 0) return refuse("list", counted.refused);
    list->count = counted.count;
    return EXIT_SUCCESS;
}

/* A whole line of the probe. One that has no LF is cut off: its number may have lost digits. */
static int is_reading(const char *line, int32_t *kind, float *reading) {
    char *end;
    *reading = strtof(line + 1, &end);
    switch (line[0]) {
    case 'P':
        *kind = TURBELICUS_PRESSURE;
        return end != line + 1 && *end == '\n';
    case 'T':
        *kind = TURBELICUS_TEMPERATURE;
        return end != line + 1 && *end == '\n';
    default:
        *kind = TURBELICUS_NOTHING;
        return line[0] == '\n';
    }
}

/* Takes the probe's readings into the weather, one at a time. A refused one gives the weather back as it was. */
static int take_readings(const char *name, struct turbelicus_weathered *weather) {
    FILE *file = fopen(name, "r");
    if (file == NULL) return fail("cannot open", name);
    char line[LINE_BYTES];
    int status = EXIT_SUCCESS;
    while (status == EXIT_SUCCESS && fgets(line, sizeof line, file) != NULL) {
        int32_t kind;
        float reading;
        if (is_reading(line, &kind, &reading)) {
            *weather = turbelicus_weather(weather->pressure, weather->temperature, weather->has_pressure,
                                          weather->has_temperature, kind, reading);
            if (weather->refused != 0) refuse("reading", weather->refused);
        } else {
            status = fail("a line is no reading", name);
        }
    }
    if (ferror(file)) status = fail("cannot read", name);
    fclose(file);
    return status;
}

static void print_arcseconds(int64_t angle) {
    long long size = angle < 0 ? -angle : angle;
    printf(" %s%lld.%06lld", angle < 0 ? "-" : "", size / 1000000, size % 1000000);
}

static void print_target(size_t number, const struct turbelicus_observed *observed) {
    printf("%u", (unsigned)number);
    if (observed->observed_altitude < LOWEST) {
        printf(" below\n");
        return;
    }
    if (observed->has_azimuth)
        print_arcseconds(observed->azimuth);
    else
        printf(" stays");
    print_arcseconds(observed->observed_altitude);
    printf("\n");
}

static int print_targets(const struct list *list, const int32_t *at, const struct turbelicus_weathered *weather) {
    for (size_t i = 0; i < list->count; i++) {
        struct turbelicus_starred star = turbelicus_list_star(list->bytes, list->length, i);
        if (star.refused != 0) return refuse("star", star.refused);
        struct turbelicus_observed observed = turbelicus_observed_place(
            at[YEAR], at[MONTH], at[DAY], at[HOUR], at[MINUTE], at[SECOND], 0, UT1_MINUS_UTC, LATITUDE, LONGITUDE,
            star.ra, star.declination, star.ra_motion, star.declination_motion, weather->pressure, weather->temperature,
            weather->has_pressure, weather->has_temperature);
        if (observed.refused != 0) return refuse("place", observed.refused);
        print_target(i, &observed);
    }
    return EXIT_SUCCESS;
}

int main(int count, char **words) {
    static struct list list;
    static struct turbelicus_weathered weather; /* all noughts: nothing has come */
    int32_t at[PARTS];
    if (count != 2 + PARTS && count != 3 + PARTS)
        return fail("usage", "firmware LIST YEAR MONTH DAY HOUR MINUTE SECOND [WEATHER]");
    for (int i = 0; i < PARTS; i++) {
        if (!is_number(words[2 + i], &at[i])) return fail("not a number", words[2 + i]);
    }
    if (read_list(words[1], &list) != EXIT_SUCCESS) return EXIT_FAILURE;
    if (count == 3 + PARTS && take_readings(words[2 + PARTS], &weather) != EXIT_SUCCESS) return EXIT_FAILURE;
    return print_targets(&list, at, &weather);
}
