/* The driver: answers the Rust tests where they cannot link the archives. It reads batches of calls from standard input and
 * writes their answers to standard output, in 64-bit words; tests/bridge/src/driver.rs tells the form. */
#include <stddef.h>
#include <stdint.h>
#include <stdio.h>
#include <stdlib.h>
#include <string.h>

#include "tests_exports.h"
#include "turbelicus.h"

struct call {
    const int64_t *given;
    const void *read; /* both begin at a whole word, so that numbers may stand there */
    size_t read_length;
    void *room;
    size_t room_length;
};

_Static_assert(sizeof(struct tests_entry) == TESTS_ENTRY_BYTES, "the bridge sends so many bytes for an entry");

static _Noreturn void fail(const char *what, const char *name) {
    fprintf(stderr, "driver: %s: %.64s\n", what, name);
    exit(EXIT_FAILURE);
}

/* A word for a parameter of 32 bits. */
static int32_t narrow(int64_t word) {
    if (word < INT32_MIN || word > INT32_MAX) fail("a number", "does not fit 32 bits");
    return (int32_t)word;
}

/* A word for a float: its bits. */
static float float_of(int64_t word) {
    if (word < 0 || word > UINT32_MAX) fail("a float", "has 32 bits");
    uint32_t bits = (uint32_t)word;
    float number;
    memcpy(&number, &bits, sizeof number);
    return number;
}

/* Every exported function: its name, how many words it is given, the type of its answer, and what it is called with. */
#define FUNCTIONS(FUNCTION)                                                                                            \
    FUNCTION(tests_rnd_quotient, 2, struct tests_tried, given[0], given[1])                                            \
    FUNCTION(tests_rnd_product_quotient, 3, struct tests_tried, given[0], given[1], given[2])                          \
    FUNCTION(tests_whole_root, 1, struct tests_tried, given[0])                                                        \
    FUNCTION(tests_on_circle, 1, struct tests_tried, given[0])                                                         \
    FUNCTION(tests_pair, 1, struct tests_pair, given[0])                                                               \
    FUNCTION(turbelicus_turn, 5, struct turbelicus_turned, given[0], given[1], given[2], given[3], given[4])           \
    FUNCTION(turbelicus_reading, 2, struct turbelicus_read, narrow(given[0]), narrow(given[1]))                        \
    FUNCTION(tests_day_of, 3, struct tests_day, narrow(given[0]), narrow(given[1]), narrow(given[2]))                  \
    FUNCTION(tests_date_of, 1, struct tests_date, given[0])                                                            \
    FUNCTION(tests_instants, 8, struct tests_instants, narrow(given[0]), narrow(given[1]), narrow(given[2]),           \
             narrow(given[3]), narrow(given[4]), narrow(given[5]), narrow(given[6]), narrow(given[7]))                 \
    FUNCTION(tests_times_line, 0, size_t, call->read, call->read_length, call->room, call->room_length)                \
    FUNCTION(tests_precession, 1, struct tests_precessed, given[0])                                                    \
    FUNCTION(tests_obliquity, 1, struct tests_angle, given[0])                                                         \
    FUNCTION(tests_arguments, 1, struct tests_five_arguments, given[0])                                                        \
    FUNCTION(tests_nutation, 1, struct tests_nutated, given[0])                                                        \
    FUNCTION(tests_sun, 1, struct tests_angle, given[0])                                                               \
    FUNCTION(tests_mean_longitude, 1, struct tests_angle, given[0])                                                    \
    FUNCTION(tests_perihelion, 1, struct tests_angle, given[0])                                                        \
    FUNCTION(tests_aberration, 1, struct tests_aberration, given[0])                                                   \
    FUNCTION(tests_sidereal, 1, struct tests_angle, given[0])                                                          \
    FUNCTION(tests_sidereal_polynomial, 1, struct tests_angle, given[0])                                               \
    FUNCTION(turbelicus_place, 14, struct turbelicus_placed, narrow(given[0]), narrow(given[1]), narrow(given[2]),     \
             narrow(given[3]), narrow(given[4]), narrow(given[5]), narrow(given[6]), narrow(given[7]), given[8],       \
             given[9], given[10], given[11], narrow(given[12]), narrow(given[13]))                                     \
    FUNCTION(turbelicus_utc, 1, struct turbelicus_clocked, given[0])                                                   \
    FUNCTION(turbelicus_weather, 6, struct turbelicus_weathered, float_of(given[0]), float_of(given[1]),               \
             narrow(given[2]), narrow(given[3]), narrow(given[4]), float_of(given[5]))                                 \
    FUNCTION(turbelicus_observed_altitude, 5, struct turbelicus_altitude, given[0], float_of(given[1]),                \
             float_of(given[2]), narrow(given[3]), narrow(given[4]))                                                   \
    FUNCTION(turbelicus_observed_place, 18, struct turbelicus_observed, narrow(given[0]), narrow(given[1]),            \
             narrow(given[2]), narrow(given[3]), narrow(given[4]), narrow(given[5]), narrow(given[6]),                 \
             narrow(given[7]), given[8], given[9], given[10], given[11], narrow(given[12]), narrow(given[13]),         \
             float_of(given[14]), float_of(given[15]), narrow(given[16]), narrow(given[17]))                           \
    FUNCTION(turbelicus_list_count, 0, struct turbelicus_counted, call->read, call->read_length)                       \
    FUNCTION(turbelicus_list_star, 1, struct turbelicus_starred, call->read, call->read_length, (size_t)given[0])      \
    FUNCTION(turbelicus_list_write, 0, struct turbelicus_written, call->read, call->read_length / sizeof(int64_t),     \
             call->room, call->room_length)                                                                            \
    FUNCTION(tests_list_read, 0, struct turbelicus_counted, call->read, call->read_length, call->room,                 \
             call->room_length / sizeof(struct tests_entry))                                                           \
    FUNCTION(tests_list_write, 0, struct turbelicus_counted, call->read,                                               \
             call->read_length / sizeof(struct tests_entry), call->room, call->room_length)                            \
    FUNCTION(tests_night_list, 10, struct turbelicus_counted, narrow(given[0]), narrow(given[1]), narrow(given[2]),    \
             narrow(given[3]), narrow(given[4]), narrow(given[5]), narrow(given[6]), narrow(given[7]), given[8],       \
             given[9], call->room, call->room_length / sizeof(struct tests_entry))

/* A weak name is null where no archive has the function, so that the driver can be built before all of them stand. */
#define CALLER(function, count, type, ...)                                                                             \
    extern __typeof__(function) function __attribute__((weak));                                                        \
    static void call_##function(const struct call *call, int64_t *answered) {                                          \
        const int64_t *given = call->given;                                                                            \
        (void)given;                                                                                                   \
        type answer = function(__VA_ARGS__);                                                                           \
        memcpy(answered, &answer, sizeof answer);                                                                      \
    }
FUNCTIONS(CALLER)

struct row {
    const char *name;
    int64_t given, answered;
    void (*call)(const struct call *call, int64_t *answered);
    int stands;
};

#define ROW(function, count, type, ...)                                                                                \
    {#function, count, sizeof(type) / sizeof(int64_t), call_##function, function != NULL},

struct batch {
    char name[64];
    int64_t calls, given, answered, bytes;
};

/* The bridge sends no larger batch: 2^21 bytes. */
#define MOST_WORDS ((int64_t)1 << 18)
static int64_t body[MOST_WORDS], answers[MOST_WORDS];

static struct row row_of(const struct batch *batch) {
    const struct row rows[] = {FUNCTIONS(ROW)};
    for (size_t i = 0; i < sizeof rows / sizeof rows[0]; i++) {
        if (strncmp(rows[i].name, batch->name, sizeof batch->name) == 0) {
            if (!rows[i].stands) fail("no archive has the function", batch->name);
            if (rows[i].given != batch->given || rows[i].answered != batch->answered)
                fail("the bridge declares another number of words", batch->name);
            return rows[i];
        }
    }
    fail("the driver does not know the function", batch->name);
}

static int64_t whole_words(int64_t bytes) {
    return (bytes + 7) / 8;
}

/* The room of a call stands between guards, which none may write. */
#define GUARD_BYTES 64
#define GUARD_BYTE 0xa5
static _Alignas(int64_t) unsigned char guarded[GUARD_BYTES + sizeof answers + GUARD_BYTES];

/* Makes the call in a room of exactly its length, which is as lent before and is put into room afterwards. */
static void call_guarded(const struct row *row, struct call *call, const void *lent, void *room, int64_t *answered) {
    unsigned char *middle = guarded + GUARD_BYTES, *end = middle + call->room_length;
    memset(guarded, GUARD_BYTE, GUARD_BYTES);
    memcpy(middle, lent, call->room_length);
    memset(end, GUARD_BYTE, GUARD_BYTES);
    call->room = middle;
    row->call(call, answered);
    for (size_t i = 0; i < GUARD_BYTES; i++) {
        if (guarded[i] != GUARD_BYTE || end[i] != GUARD_BYTE) fail("it writes past its room", row->name);
    }
    memcpy(room, middle, call->room_length);
}

/* Answers all the calls of the body; returns how many words that made. */
static int64_t answer(const struct batch *batch, const struct row *row) {
    int64_t at = 0, made = 0;
    for (int64_t i = 0; i < batch->calls; i++) {
        const int64_t *words = body + at;
        int64_t read_length = words[row->given], room_length = words[row->given + 1];
        const int64_t *read = words + row->given + 2;
        const int64_t *lent = read + whole_words(read_length);
        at += row->given + 2 + whole_words(read_length) + whole_words(room_length);
        int64_t *answered = answers + made, *room = answered + row->answered;
        made += row->answered + whole_words(room_length);
        if (at > MOST_WORDS || made > MOST_WORDS) fail("the batch is too large", batch->name);

        struct call call = {words, read, (size_t)read_length, NULL, (size_t)room_length};
        call_guarded(row, &call, lent, room, answered);
    }
    if (at * 8 != batch->bytes) fail("the calls do not fill the batch", batch->name);
    return made;
}

int main(void) {
    struct batch batch;
    while (fread(&batch, sizeof batch, 1, stdin) == 1) {
        struct row row = row_of(&batch);
        if (batch.bytes > (int64_t)sizeof body) fail("the batch is too large", batch.name);
        if (fread(body, 1, (size_t)batch.bytes, stdin) != (size_t)batch.bytes) fail("the batch ends early", batch.name);
        int64_t made = answer(&batch, &row);
        if (fwrite(answers, sizeof answers[0], (size_t)made, stdout) != (size_t)made || fflush(stdout) != 0)
            fail("the answers cannot be written", batch.name);
    }
    return EXIT_SUCCESS;
}
