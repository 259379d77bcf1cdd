/* A check of the tests: what fails is told with the place, the seed and the record's number, and
 * ends the program. */
#ifndef Check_h
#define Check_h

#include <stdint.h>
#include <stdio.h>
#include <stdlib.h>

/* Where the tests are. A worked case has a name, a lent record a number. */
typedef struct {
    uint64_t seed;
    uint64_t record;
    const char *what;
    uint64_t checks;
} Place;

extern Place place;

#define Check(condition)                                                                           \
    do {                                                                                           \
        place.checks++;                                                                            \
        if (!(condition)) {                                                                        \
            fflush(stdout);                                                                        \
            fprintf(stderr, "%s:%d: %s: not so: %s (seed %llu, record %llu)\n", __FILE__,          \
                __LINE__, place.what, #condition, (unsigned long long)place.seed,                  \
                (unsigned long long)place.record);                                                 \
            exit(1);                                                                               \
        }                                                                                          \
    } while (0)

#endif
