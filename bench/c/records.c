#include "records.h"

#include <errno.h>
#include <string.h>

#include "rawdhusaq.h"

/* How many bytes a record of each kind has, its kind with them, and of a run those before its
 * slice. 0: there is no such kind. */
static const uint16_t Sizes[256] = {
    [KindByte] = 1 + 1,
    [KindReport] = 1 + 1,
    [KindTick] = 1,
    [KindSongEnd] = 1,
    [KindImage] = 1 + RawdhusaqImageSize,
    [KindRun] = 1 + 2,
    [KindRoom] = 1 + 2,
    [KindState] = 1 + StateSize,
    [KindMessage] = 1 + MessageSize,
};

_Static_assert(1 + StateSize <= LongestRecord && LongestRecord <= WindowSize, "window");

void move_window(Records *records)
{
    size_t held = records->end - records->start;
    memmove(records->window, records->window + records->start, held);
    records->offset += records->start;
    records->start = 0;
    records->end = held + fread(records->window + held, 1, WindowSize - held, records->file);
    records->ended = records->end < WindowSize;
    records->error = ferror(records->file) ? errno : 0;
}

/* A run's length is judged before its slice is there. */
static const char *read_run(Records *records, Record *record, size_t left)
{
    record->number = two_bytes(record->body);
    if (record->number > LongestRun) {
        return "run above 1024";
    }
    if (record->number > left) {
        return "cut short";
    }
    record->body += 2;
    records->start += record->number;
    return NULL;
}

static const char *read_room(Record *record)
{
    record->number = two_bytes(record->body);
    return record->number > LargestRoom ? "room above 1024" : NULL;
}

const char *read_record(Records *records, Record *record)
{
    const uint8_t *start = records->window + records->start;
    size_t left = records->end - records->start;
    size_t size = Sizes[*start];
    const char *why = NULL;
    if (size == 0) {
        return "unknown kind";
    }
    if (size > left) {
        return "cut short";
    }
    record->kind = *start;
    record->body = start + 1;
    if (record->kind == KindRun) {
        why = read_run(records, record, left - size);
    } else if (record->kind == KindRoom) {
        why = read_room(record);
    } else if (record->kind == KindReport && *record->body > LargestFlags) {
        why = "flags above 7";
    }
    if (why == NULL) {
        records->start += size;
    }
    return why;
}
