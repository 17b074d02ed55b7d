/* A test counts what it checks and ends in one line, 'N passed, M failed'. Comparisons that come by the hundred thousand are counted apart, and are one check
   together. */
#ifndef CHECK_H
#define CHECK_H

#include <signal.h>
#include <stdio.h>
#include <unistd.h>

enum { SHOWN = 10 };    /* of the comparisons that differ */

static unsigned checks_passed, checks_failed;
static unsigned long compared, differing;

#define CHECK(condition)                                                                     \
    do {                                                                                     \
        if (condition) {                                                                     \
            checks_passed++;                                                                 \
        } else {                                                                             \
            checks_failed++;                                                                 \
            fprintf(stderr, "%s:%d: %s\n", __FILE__, __LINE__, #condition);                  \
        }                                                                                    \
    } while (0)

#define COMPARE(condition)                                                                   \
    do {                                                                                     \
        compared++;                                                                          \
        if (!(condition) && differing++ < SHOWN)                                             \
            fprintf(stderr, "%s:%d: comparison %lu: %s\n", __FILE__, __LINE__, compared, #condition); \
    } while (0)

static inline int checks_report(void) {
    if (compared > 0) {
        fprintf(stderr, "%lu comparisons, %lu differ\n", compared, differing);
        CHECK(differing == 0);
    }
    printf("%u passed, %u failed\n", checks_passed, checks_failed);
    return checks_failed != 0;
}

static void out_of_time(int signal) {
    (void)signal;
    static const char line[] = "0 passed, 1 failed\n";
    _exit(write(STDOUT_FILENO, line, sizeof line - 1) < 0 ? 2 : 1);
}

/* A call that does not end ends the test, as a failure. */
static inline void checks_limit(unsigned seconds) {
    signal(SIGALRM, out_of_time);
    alarm(seconds);
}

#endif
