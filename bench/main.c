/* Measures the module beside ERFA on the same dates, sites and stars.
 *
 *   bench agree         prints the largest difference of the two chains' answers, in arcseconds
 *   bench speed         prints each work and its places a second
 *   bench count WORK    does the work once, for a tool that counts instructions, and prints how many places it has */
#include <math.h>
#include <stdio.h>
#include <string.h>
#include <time.h>

#include "module.h"
#include "sky.h"

#define CIRCLE 1296000000000LL
#define ARCSECONDS_OF_RADIAN (648000.0 / 3.14159265358979323846)

enum { NIGHTS = 64, PLACES = NIGHTS * STARS };

static struct moment moments[NIGHTS];
static struct site sites[NIGHTS];
static struct star stars[STARS];
static struct entry entries[STARS];

/* Numbers that look drawn by lot and are the same in every run (Knuth's MMIX). */
static uint64_t drawn = 1;

static int64_t draw(int64_t low, int64_t high) {
    drawn = drawn * 6364136223846793005u + 1442695040888963407u;
    return low + (int64_t)((drawn >> 11) % (uint64_t)(high - low + 1));
}

/* One statement for each, so that they are drawn in the same order by every compiler. */
static void draw_night(struct moment *moment, struct site *site) {
    moment->year = draw(1972, 2099);
    moment->month = draw(1, 12);
    moment->day = draw(1, 28);
    moment->hour = draw(0, 23);
    moment->minute = draw(0, 59);
    moment->second = draw(0, 59);
    moment->ms = draw(0, 999);
    moment->ut1_minus_utc = draw(-900, 900);
    site->latitude = draw(-CIRCLE / 4, CIRCLE / 4);
    site->longitude = draw(-CIRCLE / 2, CIRCLE / 2);
}

static void draw_star(struct star *star) {
    star->ra = draw(0, CIRCLE - 1);
    star->declination = draw(-CIRCLE / 4, CIRCLE / 4);
    star->ra_motion = draw(-1000000, 1000000);
    star->declination_motion = draw(-1000000, 1000000);
}

static void draw_all(void) {
    for (int k = 0; k < NIGHTS; k++) draw_night(&moments[k], &sites[k]);
    for (int k = 0; k < STARS; k++) {
        draw_star(&stars[k]);
        entries[k].star = stars[k];
    }
}

/* Keeps an answer from being left out. */
static void used(const void *answer) { __asm__ volatile("" : : "g"(answer) : "memory"); }

static void module_places(void) {
    for (int k = 0; k < PLACES; k++) {
        struct turbelicus_placed placed = module_place(&moments[k / STARS], &sites[k / STARS], &stars[k % STARS]);
        used(&placed);
    }
}

static void erfa_places(void) {
    for (int k = 0; k < PLACES; k++) {
        struct spot spot = erfa_place(&moments[k / STARS], &sites[k / STARS], &stars[k % STARS]);
        used(&spot);
    }
}

/* The entries keep their stars from night to night. */
static void module_nights(void) {
    for (int k = 0; k < NIGHTS; k++) {
        struct tests_listed listed = module_night(&moments[k], &sites[k], entries);
        used(&listed);
        used(entries);
    }
}

static void erfa_nights(void) {
    struct spot spots[STARS];
    for (int k = 0; k < NIGHTS; k++) {
        erfa_night(&moments[k], &sites[k], stars, spots);
        used(spots);
    }
}

/* Each does PLACES places. */
static const struct {
    const char *name;
    void (*run)(void);
} works[] = {{"module_places", module_places},
             {"erfa_places", erfa_places},
             {"module_nights", module_nights},
             {"erfa_nights", erfa_nights}};

enum { WORKS = sizeof works / sizeof *works };

static double seconds(void) {
    struct timespec now;
    clock_gettime(CLOCK_MONOTONIC, &now);
    return now.tv_sec + now.tv_nsec * 1e-9;
}

/* The best of many turns, the works one after another, so that a slow moment of the machine meets all alike. */
static void speed(void) {
    double best[WORKS];
    for (int turn = 0; turn < 60; turn++) {
        for (int k = 0; k < WORKS; k++) {
            double begun = seconds();
            works[k].run();
            double taken = seconds() - begun;
            if (turn == 0 || taken < best[k]) best[k] = taken;
        }
    }
    for (int k = 0; k < WORKS; k++) printf("%s %.0f\n", works[k].name, PLACES / best[k]);
}

/* How far apart two directions are, in arcseconds: around the pole a longitude counts less. */
static double apart(int64_t around, int64_t height, double around_radians, double height_radians) {
    double circle = CIRCLE * 1e-6;
    double across = remainder(around * 1e-6 - around_radians * ARCSECONDS_OF_RADIAN, circle) * cos(height_radians);
    return hypot(across, height * 1e-6 - height_radians * ARCSECONDS_OF_RADIAN);
}

/* The larger of the two distances of a place; what is no number is no agreement. */
static double apart_in(int64_t ra, int64_t declination, int64_t azimuth, int64_t altitude, const struct spot *spot) {
    double sky = apart(ra, declination, spot->ra, spot->declination);
    double horizon = apart(azimuth, altitude, spot->azimuth, spot->altitude);
    return isnan(sky) || isnan(horizon) ? INFINITY : fmax(sky, horizon);
}

/* The largest difference of the two chains, place by place and night by night; no tolerance allows a refused one. */
static void agree(void) {
    double largest = 0;
    struct spot spots[STARS];
    for (int k = 0; k < NIGHTS; k++) {
        struct tests_listed listed = module_night(&moments[k], &sites[k], entries);
        erfa_night(&moments[k], &sites[k], stars, spots);
        for (int j = 0; j < STARS; j++) {
            struct turbelicus_placed placed = module_place(&moments[k], &sites[k], &stars[j]);
            struct spot spot = erfa_place(&moments[k], &sites[k], &stars[j]);
            struct entry *entry = &entries[j];
            double one = apart_in(placed.ra, placed.declination, placed.azimuth, placed.altitude, &spot);
            double listed_one = apart_in(entry->ra, entry->declination, entry->azimuth, entry->altitude, &spots[j]);
            largest = fmax(largest, fmax(one, listed_one));
            if (placed.refused != 0 || listed.refused != 0 || listed.count != STARS) largest = INFINITY;
        }
    }
    printf("%.6f\n", largest);
}

int main(int argc, char **argv) {
    draw_all();
    if (argc == 2 && strcmp(argv[1], "agree") == 0) {
        agree();
        return 0;
    }
    if (argc == 2 && strcmp(argv[1], "speed") == 0) {
        speed();
        return 0;
    }
    if (argc == 3 && strcmp(argv[1], "count") == 0) {
        for (int k = 0; k < WORKS; k++) {
            if (strcmp(argv[2], works[k].name) == 0) {
                works[k].run();
                printf("%d\n", PLACES);
                return 0;
            }
        }
    }
    fprintf(stderr, "usage: bench agree | speed | count WORK\n");
    return 2;
}
