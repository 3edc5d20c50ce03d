/* The weather record, which C keeps and lends to each call: readings taken and refused, and what is observed. */
#include "check.h"
#include "turbelicus.h"
#include <string.h>

static const int64_t QUARTER = 324000000000, TEN_DEGREES = 36000000000, LOWEST = -3600000000;

_Static_assert(sizeof(struct turbelicus_weathered) == 24, "a number, two floats and two flags");

static float of_bits(uint32_t bits) {
    float number;
    memcpy(&number, &bits, sizeof number);
    return number;
}

static int same_bits(float left, float right) {
    return memcmp(&left, &right, sizeof left) == 0;
}

static int is_record(struct turbelicus_weathered record, int64_t refused, float pressure, float temperature,
                     int32_t has_pressure, int32_t has_temperature) {
    return record.refused == refused && same_bits(record.pressure, pressure) &&
           same_bits(record.temperature, temperature) && record.has_pressure == has_pressure &&
           record.has_temperature == has_temperature;
}

static int is_altitude(struct turbelicus_altitude answer, int64_t refused, int64_t altitude) {
    return answer.refused == refused && answer.altitude == altitude;
}

static struct turbelicus_weathered take(struct turbelicus_weathered record, int32_t kind, float reading) {
    return turbelicus_weather(record.pressure, record.temperature, record.has_pressure, record.has_temperature, kind,
                              reading);
}

static struct turbelicus_altitude at(struct turbelicus_weathered record, int64_t altitude) {
    return turbelicus_observed_altitude(altitude, record.pressure, record.temperature, record.has_pressure,
                                        record.has_temperature);
}

/* A star over a latitude at J2000.0. */
static struct turbelicus_observed over(int32_t year, int64_t latitude, struct turbelicus_weathered record) {
    return turbelicus_observed_place(year, 1, 1, 12, 0, 0, 0, 0, latitude, 0, 0, 0, 0, 0, record.pressure,
                                     record.temperature, record.has_pressure, record.has_temperature);
}

static int is_refused(struct turbelicus_observed observed, int64_t refused) {
    return observed.refused == refused && observed.ra == 0 && observed.declination == 0 && observed.azimuth == 0 &&
           observed.altitude == 0 && observed.observed_altitude == 0 && observed.has_ra == 0 &&
           observed.has_azimuth == 0;
}

static void readings(void) {
    const float nan = of_bits(0x7fc00001), infinity = of_bits(0x7f800000);
    struct turbelicus_weathered record = {0, 0.0f, 0.0f, 0, 0};

    /* nothing has come: nothing is lifted, and a refused reading leaves the noughts */
    CHECK(is_altitude(at(record, TEN_DEGREES), 0, TEN_DEGREES));
    CHECK(is_record(take(record, TURBELICUS_PRESSURE, 499.0f), 14, 0.0f, 0.0f, 0, 0));
    record = take(record, TURBELICUS_NOTHING, nan);
    CHECK(is_record(record, 0, 1010.0f, 10.0f, 0, 0));
    CHECK(is_altitude(at(record, TEN_DEGREES), 0, TEN_DEGREES));

    /* one has come: still nothing */
    record = take(record, TURBELICUS_PRESSURE, 1013.25f);
    CHECK(is_record(record, 0, 1013.25f, 10.0f, 1, 0));
    CHECK(is_altitude(at(record, TEN_DEGREES), 0, TEN_DEGREES));

    /* what is not accepted leaves the record, and every answer may be kept */
    CHECK(is_record(take(record, TURBELICUS_PRESSURE, 1100.0001f), 14, 1013.25f, 10.0f, 1, 0));
    CHECK(is_record(take(record, TURBELICUS_PRESSURE, 499.99997f), 14, 1013.25f, 10.0f, 1, 0));
    CHECK(is_record(take(record, TURBELICUS_PRESSURE, infinity), 14, 1013.25f, 10.0f, 1, 0));
    CHECK(is_record(take(record, TURBELICUS_TEMPERATURE, nan), 14, 1013.25f, 10.0f, 1, 0));
    CHECK(is_record(take(record, TURBELICUS_TEMPERATURE, -50.000004f), 14, 1013.25f, 10.0f, 1, 0));
    CHECK(is_record(take(record, 3, 10.0f), 14, 1013.25f, 10.0f, 1, 0));
    CHECK(is_record(take(record, -1, 10.0f), 14, 1013.25f, 10.0f, 1, 0));
    record = take(record, TURBELICUS_TEMPERATURE, 51.0f);
    CHECK(is_record(take(record, TURBELICUS_NOTHING, 0.0f), 0, 1013.25f, 10.0f, 1, 0));

    /* both have come; minus nought is a temperature */
    record = take(record, TURBELICUS_TEMPERATURE, -10.25f);
    CHECK(is_record(record, 0, 1013.25f, -10.25f, 1, 1));
    CHECK(is_altitude(at(record, TEN_DEGREES), 0, 36350675425));
    CHECK(is_record(take(record, TURBELICUS_TEMPERATURE, -0.0f), 0, 1013.25f, -0.0f, 1, 1));
}

static void altitudes(void) {
    struct turbelicus_weathered record = {0, 1013.25f, -10.25f, 1, 1};
    CHECK(is_altitude(at(record, 0), 0, 1879410046));
    CHECK(is_altitude(at(record, LOWEST), 0, -1084245717));
    CHECK(is_altitude(at(record, LOWEST - 1), 0, LOWEST - 1));
    CHECK(is_altitude(at(record, QUARTER), 0, QUARTER));
    CHECK(is_altitude(at(record, QUARTER + 1), 0, QUARTER + 1));
    CHECK(is_altitude(at(record, INT64_MIN), 0, INT64_MIN));
    CHECK(is_altitude(at(record, INT64_MAX), 0, INT64_MAX));

    /* the air that lifts most, and least */
    CHECK(is_altitude(turbelicus_observed_altitude(LOWEST, 1100.0f, -50.0f, 1, 1), 0, -382799904));
    CHECK(is_altitude(turbelicus_observed_altitude(LOWEST, 500.0f, 50.0f, 1, 1), 0, -2590380493));
}

/* Numbers that no call has answered. */
static void records(void) {
    const float nan = of_bits(0xffc12345);
    CHECK(is_altitude(turbelicus_observed_altitude(0, nan, 10.0f, 1, 1), 14, 0));
    CHECK(is_altitude(turbelicus_observed_altitude(5, nan, 10.0f, 0, 1), 0, 5));
    CHECK(is_altitude(turbelicus_observed_altitude(0, 1013.25f, -10.25f, -1, 256), 0, 1879410046));
    CHECK(is_record(turbelicus_weather(1010.0f, 51.0f, 7, INT32_MIN, TURBELICUS_PRESSURE, 1000.0f), 14, 1010.0f, 51.0f,
                    1, 1));
    CHECK(is_record(turbelicus_weather(1010.0f, 51.0f, 7, 0, TURBELICUS_PRESSURE, 1000.0f), 0, 1000.0f, 10.0f, 1, 0));

    struct turbelicus_weathered record = turbelicus_weather(nan, 10.0f, 1, 1, TURBELICUS_PRESSURE, 1000.0f);
    CHECK(record.refused == 14 && record.pressure != record.pressure && record.temperature == 10.0f);
}

static void places(void) {
    const int64_t latitude = 180000000000;
    struct turbelicus_weathered none = {0, 0.0f, 0.0f, 0, 0}, record = {0, 1013.25f, -10.25f, 1, 1}, bad = record;
    bad.temperature = 51.0f;
    struct turbelicus_placed placed = turbelicus_place(2000, 1, 1, 12, 0, 0, 0, 0, latitude, 0, 0, 0, 0, 0);
    struct turbelicus_observed observed = over(2000, latitude, record);
    CHECK(placed.refused == 0 && observed.refused == 0);
    CHECK(observed.ra == placed.ra && observed.declination == placed.declination);
    CHECK(observed.azimuth == placed.azimuth && observed.altitude == placed.altitude);
    CHECK(observed.observed_altitude > observed.altitude);
    CHECK(is_altitude(at(record, observed.altitude), 0, observed.observed_altitude));
    CHECK(over(2000, latitude, none).observed_altitude == placed.altitude);
    CHECK(observed.has_ra == 1 && observed.has_azimuth == 1);

    /* 14 after all others */
    CHECK(is_refused(over(2000, latitude, bad), 14));
    CHECK(is_refused(over(2000, QUARTER + 1, bad), 6));
    CHECK(is_refused(over(2100, QUARTER + 1, bad), 1));
    CHECK(is_refused(over(2100, latitude, record), 1));
}

/* Over the pole, at the pole of date: the air lifts nothing there, and the flags are those of the place. */
static void zenith(void) {
    struct turbelicus_observed observed = turbelicus_observed_place(
        2026, 3, 20, 20, 0, 0, 0, 0, QUARTER, 51915000000, 10315798983, 323471053674, 0, 0, 1013.25f, -10.25f, 1, 1);
    CHECK(observed.refused == 0 && observed.declination == QUARTER && observed.altitude == QUARTER);
    CHECK(observed.observed_altitude == QUARTER);
    CHECK(observed.ra == 0 && observed.azimuth == 0 && observed.has_ra == 0 && observed.has_azimuth == 0);
}

int main(void) {
    readings();
    altitudes();
    records();
    places();
    zenith();
    return verdict("weather");
}
