/* Performs a file of calls from standard input through the C library, and writes what it gave:
 *
 *   perform [bare|trace] < FILE
 *
 * docs/CALLS.md says what a file is and what is written. It ends with 0, with a file at fault too;
 * with 1 where it can't read or write, or where the library breaks its promise; with 2 where it is
 * not called so. */
#include <errno.h>
#include <stdio.h>
#include <stdlib.h>
#include <string.h>

#include "layout.h"
#include "rawdhusaq.h"
#include "records.h"
#include "tally.h"

enum { FirstRoom = 832 };

/* The board and its surroundings. */
typedef struct {
    RawdhusaqState state; /* lent to each call in its place, and never copied */
    uint8_t image[RawdhusaqImageSize];
    size_t room;
    uint8_t buffer[LargestRoom]; /* all 0 between two calls */
} Bench;

/* ---- Calls. */

static RawdhusaqRunReply given(RawdhusaqReply reply, size_t read)
{
    return (RawdhusaqRunReply){ .number = reply.number, .length = reply.length, .read = read };
}

static RawdhusaqRunReply call_byte(Bench *bench, uint8_t byte)
{
    RawdhusaqReply reply =
        board_byte(&bench->state, byte, bench->image, bench->buffer, bench->room);
    return given(reply, reply.number != RawdhusaqBadRecord);
}

static RawdhusaqRunReply call_run(Bench *bench, const uint8_t *bytes, size_t count)
{
    return board_run(&bench->state, bytes, count, bench->image, bench->buffer, bench->room);
}

static RawdhusaqRunReply call_report(Bench *bench, uint8_t flags)
{
    uint8_t number = board_safety_report(&bench->state, flags & 1, flags >> 1 & 1, flags >> 2 & 1);
    return (RawdhusaqRunReply){ .number = number };
}

static RawdhusaqRunReply call_writer(Bench *bench, const uint8_t *bytes)
{
    RawdhusaqMessage message;
    message_from_bytes(&message, bytes);
    return given(host_write(&message, bench->buffer, bench->room), 0);
}

/* ---- Performing. */

/* Tallies a call, and makes the buffer ready for the next. Gives 0, or -1 where the library gave
 * what no call gives. */
static int tally_reply(Bench *bench, const RawdhusaqRunReply *reply, Tally *tally)
{
    if (reply->number >= Numbers || reply->length > bench->room || reply->read > LongestRun) {
        fprintf(stderr, "perform: the library gave number %u, length %zu and bytes read %zu\n",
            (unsigned)reply->number, reply->length, reply->read);
        return -1;
    }
    tally_call(tally, reply, bench->buffer, &bench->state);
    /* A call writes no more than its answer, so that this clears the buffer. */
    if (reply->length != 0) {
        memset(bench->buffer, 0, reply->length);
    }
    return 0;
}

/* Makes a setting; or a call, and tallies it. Gives 0 or -1. */
static int perform_record(Bench *bench, const Record *record, Tally *tally)
{
    RawdhusaqRunReply reply;
    switch (record->kind) {
    case KindImage:
        memcpy(bench->image, record->body, sizeof bench->image);
        return 0;
    case KindRoom:
        bench->room = record->number;
        return 0;
    case KindState:
        state_from_bytes(&bench->state, record->body);
        return 0;
    case KindByte:
        reply = call_byte(bench, record->body[0]);
        break;
    case KindReport:
        reply = call_report(bench, record->body[0]);
        break;
    case KindTick:
        reply = given(board_tick(&bench->state, bench->image, bench->buffer, bench->room), 0);
        break;
    case KindSongEnd:
        reply = (RawdhusaqRunReply){ .number = board_song_end(&bench->state) };
        break;
    case KindRun:
        reply = call_run(bench, record->body, record->number);
        break;
    default:
        reply = call_writer(bench, record->body);
    }
    return tally_reply(bench, &reply, tally);
}

/* Performs a file up to its end or its first fault, and writes what it gave. Gives 0, or -1 where
 * that can't be, which it says. */
static int perform(Records *records, Form form)
{
    Bench bench = { .room = FirstRoom };
    Tally tally = empty_tally(form);
    const char *why = NULL;
    board_power_on(&bench.state);
    while (why == NULL && has_record(records)) {
        Record record;
        why = read_record(records, &record);
        if (why == NULL && perform_record(&bench, &record, &tally) != 0) {
            return -1;
        }
    }
    if (records->error != 0) {
        fprintf(stderr, "perform: can't read: %s\n", strerror(records->error));
        return -1;
    }
    tally_end(&tally);
    if (why != NULL) {
        printf("offset %zu: %s\n", records->offset + records->start, why);
    }
    return 0;
}

/* Performs standard input. Gives the status to end with. */
static int perform_input(Form form)
{
    Records records = { .file = stdin };
    int performed = perform(&records, form);
    if (fflush(stdout) != 0 || ferror(stdout)) {
        fprintf(stderr, "perform: can't write: %s\n", strerror(errno));
        return EXIT_FAILURE;
    }
    return performed == 0 ? EXIT_SUCCESS : EXIT_FAILURE;
}

int main(int count, char **arguments)
{
    if (count == 1) {
        return perform_input(FormDigest);
    }
    if (count == 2 && strcmp(arguments[1], "bare") == 0) {
        return perform_input(FormBare);
    }
    if (count == 2 && strcmp(arguments[1], "trace") == 0) {
        return perform_input(FormTrace);
    }
    fputs("usage: perform [bare|trace] < FILE\n", stderr);
    return 2;
}
