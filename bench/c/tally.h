/* What is written of the calls of a file: docs/CALLS.md. */
#ifndef Tally_h
#define Tally_h

#include "rawdhusaq.h"

typedef enum { FormDigest, FormBare, FormTrace } Form;

enum { Numbers = 10 };

/* What there is to write of the calls so far. */
typedef struct {
    Form form;
    uint64_t calls;
    uint64_t numbers[Numbers];
    uint64_t bytes;
    uint64_t digest;
} Tally;

/* Nothing so far. */
Tally empty_tally(Form form);

/* A call gave this, with these bytes of answer, and left this record. Its number is below
 * Numbers. */
void tally_call(Tally *tally, const RawdhusaqRunReply *given, const uint8_t *answer,
    const RawdhusaqState *state);

/* The line at the end, where the form has one. */
void tally_end(const Tally *tally);

#endif
