/* The records of a file of calls, one after the other: docs/CALLS.md. */
#ifndef Records_h
#define Records_h

#include <stddef.h>
#include <stdint.h>
#include <stdio.h>

/* ---- Kinds of records. */
enum {
    KindByte = 1,
    KindReport = 2,
    KindTick = 3,
    KindSongEnd = 4,
    KindImage = 5,
    KindRun = 129,
    KindRoom = 130,
    KindState = 131,
    KindMessage = 132
};

/* ---- Limits and sizes. */
enum {
    LargestFlags = 7,
    LongestRun = 1024,
    LargestRoom = 1024,
    StateSize = 602,
    MessageSize = 40
};

enum { LongestRecord = 1 + 2 + LongestRun, WindowSize = 65536 };

/* A file, read piece by piece: a window of it stands in memory, which takes less time than all of
 * a long file. */
typedef struct {
    FILE *file;
    int ended;     /* whether there is nothing to read any more */
    int error;     /* errno, where reading failed; else 0 */
    size_t offset; /* in the file, of the window's first byte */
    size_t start;  /* in the window, of the next record */
    size_t end;    /* in the window, of what was read */
    uint8_t window[WindowSize];
} Records;

/* A record. Its body is lent from the window, until the next record is asked for. */
typedef struct {
    uint8_t kind;
    const uint8_t *body; /* of a run its slice */
    size_t number;       /* of a run its length, of a room the room */
} Record;

/* A number of two bytes. */
static inline uint16_t two_bytes(const uint8_t *bytes)
{
    return (uint16_t)(bytes[0] << 8 | bytes[1]);
}

/* Moves the window on, so that the next record is its first. */
void move_window(Records *records);

/* Whether the file goes on. Then the window holds its next record, or as much as there is. */
static inline int has_record(Records *records)
{
    if (records->end - records->start < LongestRecord && !records->ended) {
        move_window(records);
    }
    return records->start < records->end;
}

/* The next record, where there is one. Gives null; or why the record is at fault, and then it is
 * left where it is. */
const char *read_record(Records *records, Record *record);

#endif
