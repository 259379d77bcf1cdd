/* Records for the tests: random ones, accepted ones that traffic leads to, and accepted ones with
 * one field changed. All of it follows from a seed. */
#ifndef Records_h
#define Records_h

#include "rawdhusaq.h"

#include <stdbool.h>

typedef struct {
    uint64_t state;
} Random;

uint64_t random_next(Random *random);
size_t random_below(Random *random, size_t bound);
void random_fill(Random *random, void *to, size_t size);

/* Byte for byte the same in every field; padding is passed over. */
bool records_equal(const RawdhusaqState *a, const RawdhusaqState *b);

/* Random bytes between the fields. */
void scramble_padding(Random *random, RawdhusaqState *state);

/* One call more of a session with a host, from power-on on; nothing is half read after it. */
void session_step(Random *random, RawdhusaqState *state);

/* Bytes that leave a frame half read, if they do not end it. */
void half_read(Random *random, RawdhusaqState *state);

/* Bytes as a line may bring them, legal or not; how many. */
size_t line_bytes(Random *random, uint8_t *bytes, size_t room);
uint8_t line_byte(Random *random);

/* A message whose data are often legal. */
void likely_message(Random *random, RawdhusaqMessage *message);

/* The changes of one field: each place of the record (a field, or an element of an array) with each
 * of its odd values. Of a place the last two values are its neighbours, one more and one less. */
size_t change_count(void);
void change(RawdhusaqState *state, size_t which);
/* One of the changes, the small fields as often as the long arrays. */
size_t likely_change(Random *random);

#endif
