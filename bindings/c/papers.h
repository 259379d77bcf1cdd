/* The rules a second time, in C, written from the project's papers and sharing nothing with the
 * library's source: the tests hold the library against them. */
#ifndef Papers_h
#define Papers_h

#include "rawdhusaq.h"

#include <stdbool.h>

/* Whether a record is one that the board takes. */
bool papers_accept(const RawdhusaqState *state);

/* What a safety report leaves of an accepted record. */
void papers_report(RawdhusaqState *state, bool drop, bool cliff, bool charger);

/* The frame of a message: its length, or 0 where the writer refuses it with 4. */
size_t papers_frame(const RawdhusaqMessage *message, uint8_t frame[RawdhusaqLongestFrame]);

/* The speed of each wheel. */
RawdhusaqWheelSpeeds papers_speeds(uint8_t kind, int16_t first, int16_t second);

/* The data of a packet, of any id of 0 to 42; how many bytes. */
size_t papers_packet(uint8_t id, const RawdhusaqState *state, const uint8_t *image, uint8_t *to);

/* The chunk of an accepted record; how many bytes, 0 where there is none to send. */
size_t papers_chunk(const RawdhusaqState *state, const uint8_t *image, uint8_t *to);

#endif
