/* Rounded quotients, the whole root and the circle, called from C. */
#include "check.h"
#include "tests_exports.h"

static int is(struct tests_tried answer, int64_t value) {
    return answer.met == 1 && answer.value == value;
}

static int is_unmet(struct tests_tried answer) {
    return answer.met == 0 && answer.value == 0;
}

int main(void) {
    CHECK(is(tests_rnd_quotient(5, 2), 3));
    CHECK(is(tests_rnd_quotient(-5, 2), -3));
    CHECK(is(tests_rnd_quotient(4, 3), 1));
    CHECK(is(tests_rnd_quotient(INT64_MIN, 1), INT64_MIN));
    CHECK(is(tests_rnd_quotient(INT64_MAX, INT64_C(1) << 62), 2));
    CHECK(is_unmet(tests_rnd_quotient(1, 0)));
    CHECK(is_unmet(tests_rnd_quotient(1, (INT64_C(1) << 62) + 1)));

    /* document 01: 45 degrees in parts of 2^30 of a radian */
    CHECK(is(tests_rnd_product_quotient(162000000000, 3373259426, 648000000000), 843314857));
    CHECK(is(tests_rnd_product_quotient(-(INT64_C(1) << 42), INT64_C(1) << 60, INT64_C(1) << 42), -(INT64_C(1) << 60)));
    CHECK(is_unmet(tests_rnd_product_quotient((INT64_C(1) << 42) + 1, 1, 1)));

    CHECK(is(tests_whole_root(0), 0));
    CHECK(is(tests_whole_root(90), 9));
    CHECK(is(tests_whole_root(INT64_C(1) << 60), INT64_C(1) << 30));
    CHECK(is(tests_whole_root((INT64_C(1) << 60) - 1), (INT64_C(1) << 30) - 1));
    CHECK(is(tests_whole_root(INT64_MAX), 3037000499));
    CHECK(is_unmet(tests_whole_root(-1)));

    CHECK(is(tests_on_circle(-1), 1295999999999));
    CHECK(is(tests_on_circle(1296000000000), 0));
    return verdict("whole");
}
