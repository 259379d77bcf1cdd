/* How many bytes of stack each public call needs: it is run on a stack of its own that was painted
 * before, and what is no longer paint was used. Of each call the most over several inputs is told,
 * in lines `NAME BYTES`. Status 1 where a call needs more than the limit.
 *
 *   stack [LIMIT] */
#define _XOPEN_SOURCE 600

#include "rawdhusaq.h"

#include <stdbool.h>
#include <stdio.h>
#include <stdlib.h>
#include <string.h>
#include <ucontext.h>

enum { StackSize = 256 * 1024, Paint = 0xA5, DefaultLimit = 8192 };

static uint8_t stack[StackSize];
static ucontext_t here, there;

/* ---- What the calls are given. */

static RawdhusaqState state;
static uint8_t image[RawdhusaqImageSize], buffer[RawdhusaqLongestAnswer];
static RawdhusaqMessage message;
static uint8_t bytes[RawdhusaqLogOutBytes];
static size_t count;

/* Results go here, so that no call is left out. */
static volatile size_t kept;

static void nothing(void) { kept = 0; }
static void power_on(void) { board_power_on(&state); }
static void byte(void) { kept = board_byte(&state, bytes[0], image, buffer, sizeof buffer).number; }
static void run(void) { kept = board_run(&state, bytes, count, image, buffer, sizeof buffer).read; }
static void report(void) { kept = board_safety_report(&state, 1, 1, 1); }
static void tick(void) { kept = board_tick(&state, image, buffer, sizeof buffer).length; }
static void song_end(void) { kept = board_song_end(&state); }
static void accepts(void) { kept = board_accepts(&state); }
static void same(void) { kept = board_same(&state, &state); }
static void write_frame(void) { kept = host_write(&message, buffer, sizeof buffer).length; }
static void speeds(void) { kept = (size_t)wheel_speeds(1, 200, 500).right; }

/* ---- Inputs: each leaves the record, the bytes and the message as one call gets them. */

static void feed(const uint8_t *given, size_t length)
{
    size_t at = 0;
    while (at < length) {
        at += board_run(&state, given + at, length - at, image, buffer, sizeof buffer).read;
    }
}

#define Feed(...) feed((const uint8_t[]){__VA_ARGS__}, sizeof((const uint8_t[]){__VA_ARGS__}))

static void give(uint8_t b)
{
    memset(bytes, b, sizeof bytes);
    count = sizeof bytes;
}

static void at_rest(void)
{
    board_power_on(&state);
    Feed(128);
    give(128);
    message = (RawdhusaqMessage){.opcode = 128};
}

/* The longest answer is a byte away, a song plays, and chunks are long. */
static void at_work(void)
{
    at_rest();
    Feed(132, 140, 0, 1, 60, 32, 141, 0, 137, 0, 200, 1, 244, 148, 7, 6, 6, 6, 6, 4, 4, 5);
    Feed(149, 16, 6, 6, 6, 6, 6, 6, 6, 6, 6, 6, 6, 6, 6, 6, 6);
    give(6);
    message = (RawdhusaqMessage){.opcode = 148, .a = 7, .payload = {6, 6, 6, 6, 4, 4, 5}};
}

/* A song is a byte away. */
static void at_song(void)
{
    at_work();
    Feed(6, 131);
    Feed(140, 0, 1, 60);
    give(32);
    message = (RawdhusaqMessage){.opcode = 140, .a = 1, .b = 16};
}

/* A Drive is a byte away. */
static void at_drive(void)
{
    at_song();
    Feed(32, 137, 0, 200, 1);
    give(244);
    message = (RawdhusaqMessage){.opcode = 137, .first = 200, .second = 500};
}

static void skipping(void)
{
    at_rest();
    Feed(132, 140, 0, 255);
    message.opcode = 0;
}

static void bad(void)
{
    at_rest();
    state.mode = 9;
}

/* ---- Measuring. */

static size_t used(void)
{
    size_t paint = 0; /* a stack grows down */
    while (paint < StackSize && stack[paint] == Paint) {
        paint++;
    }
    return StackSize - paint;
}

static size_t need(void (*call)(void))
{
    memset(stack, Paint, sizeof stack);
    if (getcontext(&there) != 0) {
        exit(1);
    }
    there.uc_stack.ss_sp = stack;
    there.uc_stack.ss_size = sizeof stack;
    there.uc_link = &here;
    makecontext(&there, call, 0);
    if (swapcontext(&here, &there) != 0) {
        exit(1);
    }
    return used();
}

static const struct {
    const char *name;
    void (*call)(void);
} calls[] = {
    {"board_power_on", power_on}, {"board_byte", byte}, {"board_run", run},
    {"board_safety_report", report}, {"board_tick", tick}, {"board_song_end", song_end},
    {"board_accepts", accepts}, {"board_same", same}, {"host_write", write_frame},
    {"wheel_speeds", speeds},
};

static void (*const inputs[])(void) = {at_rest, at_work, at_song, at_drive, skipping, bad};

static size_t most(void (*call)(void))
{
    size_t most = 0;
    for (size_t i = 0; i < sizeof inputs / sizeof inputs[0]; i++) {
        inputs[i]();
        call(); /* once before it counts: the first call of memcpy has the linker look for it */
        inputs[i]();
        size_t bytes_used = need(call);
        if (bytes_used > most) {
            most = bytes_used;
        }
    }
    return most;
}

int main(int argc, char **argv)
{
    size_t limit = argc > 1 ? strtoull(argv[1], NULL, 10) : DefaultLimit;
    size_t without = need(nothing);
    bool over = false;
    for (size_t i = 0; i < sizeof calls / sizeof calls[0]; i++) {
        size_t bytes_used = most(calls[i].call);
        bytes_used -= bytes_used > without ? without : bytes_used;
        printf("%s %zu\n", calls[i].name, bytes_used);
        over |= bytes_used > limit;
    }
    if (over) {
        fprintf(stderr, "a call needs more than %zu bytes\n", limit);
    }
    return over ? 1 : 0;
}
