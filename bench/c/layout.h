/* The state record and the writer's message in bytes: docs/CALLS.md. */
#ifndef Layout_h
#define Layout_h

#include "rawdhusaq.h"
#include "records.h"

/* The record of these bytes. Any are one, good or bad. */
void state_from_bytes(RawdhusaqState *state, const uint8_t bytes[StateSize]);

/* The bytes of this record. What two bytes can't hold of its counts is cut off; no record that
 * was made from bytes, and none that the library accepts, has such a count. */
void state_to_bytes(const RawdhusaqState *state, uint8_t bytes[StateSize]);

/* The message of these bytes. */
void message_from_bytes(RawdhusaqMessage *message, const uint8_t bytes[MessageSize]);

#endif
