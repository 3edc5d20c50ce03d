/* What the C tests share: a check that says which one failed, and the verdict at the end. */
#ifndef CHECK_H
#define CHECK_H
#include <stdio.h>
#include <stdlib.h>

static int checks, failures;

/* The condition holds; else its text is printed. */
#define CHECK(condition)                                                                           \
    do {                                                                                           \
        checks++;                                                                                  \
        if (!(condition)) {                                                                        \
            failures++;                                                                            \
            printf("%s:%d: failed: %s\n", __FILE__, __LINE__, #condition);                         \
        }                                                                                          \
    } while (0)

/* Prints the count of checks; what main returns. */
static int verdict(const char *subject) {
    printf("%s: %d checks, %d failed\n", subject, checks, failures);
    return checks > 0 && failures == 0 ? EXIT_SUCCESS : EXIT_FAILURE;
}

#endif
