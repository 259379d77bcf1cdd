/* The tests: the worked cases (cases.c), and then records by the million, good ones and bad ones,
 * lent to every call. What a call gives is held against the papers' rules (papers.c).
 *
 *   tests [COUNT [SEED]] */
#define _DEFAULT_SOURCE

#include "cases.h"
#include "check.h"
#include "papers.h"
#include "rawdhusaq.h"
#include "records.h"

#include <signal.h>
#include <string.h>
#include <sys/mman.h>
#include <unistd.h>

Place place;

/* ---- What is lent ends where a page ends, and the next page may not be touched: a call that reads
 * or writes past it stops the program. Before a buffer stand guard bytes. */

enum { Page = 4096, Guard = 64, Pattern = 0xA5, MostRoom = 1000, MostBytes = 600 };

static uint8_t *fenced(void)
{
    uint8_t *pages = mmap(NULL, 3 * Page, PROT_NONE, MAP_PRIVATE | MAP_ANONYMOUS, -1, 0);
    Check(pages != MAP_FAILED);
    Check(mprotect(pages + Page, Page, PROT_READ | PROT_WRITE) == 0);
    return pages + 2 * Page;
}

static RawdhusaqState *lent;
static uint8_t *image, *buffer_end, *bytes_end;
static uint8_t pattern[Guard + MostRoom];

static void past_the_fence(int signal)
{
    char text[160];
    int length = snprintf(text, sizeof text, "%s: signal %d (seed %llu, record %llu)\n", place.what,
        signal, (unsigned long long)place.seed, (unsigned long long)place.record);
    (void)!write(2, text, (size_t)length);
    _exit(1);
}

static void set_up(void)
{
    lent = (RawdhusaqState *)(void *)(fenced() - sizeof *lent);
    image = fenced() - RawdhusaqImageSize;
    buffer_end = fenced();
    bytes_end = fenced();
    memset(pattern, Pattern, sizeof pattern);
    signal(SIGSEGV, past_the_fence);
    signal(SIGBUS, past_the_fence);
}

/* ---- One record, and what the calls are given with it. */

typedef struct {
    RawdhusaqState given;
    bool good;
    size_t room;
} Record;

static uint8_t *lend(const Record *record, const char *what)
{
    place.what = what;
    *lent = record->given;
    uint8_t *buffer = buffer_end - record->room;
    memcpy(buffer - Guard, pattern, Guard + record->room);
    return buffer;
}

/* Nothing is written but the first `length` bytes. */
static bool written_only(const uint8_t *buffer, const Record *record, size_t length)
{
    return memcmp(buffer - Guard, pattern, Guard) == 0
        && memcmp(buffer + length, pattern, record->room - length) == 0;
}

static bool lent_is(const RawdhusaqState *state)
{
    return records_equal(lent, state) && board_same(lent, state) == 1;
}

/* ---- How often each call gave each number. */

enum { CallByte, CallRun, CallReport, CallTick, CallSongEnd, CallCount };

static const char *const call_names[CallCount] = {"board_byte", "board_run", "board_safety_report",
    "board_tick", "board_song_end"};
/* Bit n: the call may give the number n. */
static const unsigned may_give[CallCount] = {0x3FF, 0x3FF, 0x101, 0x189, 0x101};

static uint64_t given[CallCount][10];
/* Answers of 142, and chunks, are compared byte for byte. */
static uint64_t queries, chunks;

/* What holds of every call that is lent a record and a buffer. */
static void check_call(int call, const Record *record, const uint8_t *buffer, uint8_t number,
    size_t length)
{
    Check(number <= 9 && (may_give[call] >> number & 1) == 1);
    given[call][number]++;
    Check((number == RawdhusaqBadRecord) == !record->good);
    Check(number == RawdhusaqDone || length == 0);
    Check(length <= record->room);
    Check(written_only(buffer, record, length));
    if (!record->good) {
        Check(lent_is(&record->given));
    } else {
        Check(board_accepts(lent) == 1);
        Check(papers_accept(lent));
    }
}

/* Of a byte or a run: a refusal reads the frame past, and 9 keeps it. */
static void check_frame(const Record *record, uint8_t number)
{
    RawdhusaqState expected = record->given;
    if (!record->good || number == RawdhusaqDone) {
        return;
    }
    memset(&expected.partial, 0, sizeof expected.partial);
    if (number == RawdhusaqWaiting) {
        expected.partial = lent->partial;
    }
    Check(lent_is(&expected));
}

/* What a query answers, of which the id is the byte that was lent. */
static void check_query(const Record *record, uint8_t id, const uint8_t *buffer,
    RawdhusaqReply reply)
{
    uint8_t data[52];
    bool asked = record->given.mode != RawdhusaqOff && id <= 42;
    size_t length = asked ? papers_packet(id, &record->given, image, data) : 0;
    uint8_t number = record->given.mode == RawdhusaqOff ? 3
        : id > 42 ? 4 : length > record->room ? 7 : 0;
    Check(reply.number == number && reply.length == (number == 0 ? length : 0));
    Check(memcmp(buffer, data, reply.length) == 0);
    queries += number == 0;
}

static void try_byte(const Record *record, uint8_t b)
{
    uint8_t *buffer = lend(record, "board_byte");
    RawdhusaqReply reply = board_byte(lent, b, image, buffer, record->room);
    check_call(CallByte, record, buffer, reply.number, reply.length);
    check_frame(record, reply.number);
    const RawdhusaqPartial *held = &record->given.partial;
    if (record->good && held->count == 1 && held->bytes[0] == 142) {
        check_query(record, b, buffer, reply);
    }
}

/* What the bytes do one by one, until one gives a number other than 9. */
static RawdhusaqRunReply one_by_one(RawdhusaqState *state, const uint8_t *bytes, size_t count,
    uint8_t *buffer, size_t room)
{
    RawdhusaqRunReply ran = {.number = RawdhusaqWaiting};
    while (ran.number == RawdhusaqWaiting && ran.read < count) {
        RawdhusaqReply reply = board_byte(state, bytes[ran.read], image, buffer, room);
        ran.number = reply.number;
        ran.length = reply.length;
        ran.read++;
    }
    return ran;
}

static void try_run(const Record *record, const uint8_t *bytes, size_t count)
{
    uint8_t *buffer = lend(record, "board_run");
    RawdhusaqRunReply reply = board_run(lent, bytes, count, image, buffer, record->room);
    check_call(CallRun, record, buffer, reply.number, reply.length);
    check_frame(record, reply.number);
    if (!record->good) {
        Check(reply.read == 0);
        return;
    }
    Check(reply.read <= count);
    Check(reply.number == RawdhusaqWaiting ? reply.read == count : reply.read >= 1);
    RawdhusaqState other = record->given;
    uint8_t answer[MostRoom];
    RawdhusaqRunReply ran = one_by_one(&other, bytes, count, answer, record->room);
    Check(ran.number == reply.number && ran.length == reply.length && ran.read == reply.read);
    Check(lent_is(&other));
    Check(memcmp(buffer, answer, reply.length) == 0);
}

static uint8_t any_flag(Random *random)
{
    static const uint8_t flags[] = {0, 0, 0, 1, 2, 255};
    return flags[random_below(random, sizeof flags)];
}

static void try_report(const Record *record, Random *random)
{
    uint8_t drop = any_flag(random), cliff = any_flag(random), charger = any_flag(random);
    uint8_t *buffer = lend(record, "board_safety_report");
    uint8_t number = board_safety_report(lent, drop, cliff, charger);
    check_call(CallReport, record, buffer, number, 0);
    RawdhusaqState expected = record->given;
    if (record->good) {
        papers_report(&expected, drop != 0, cliff != 0, charger != 0);
    }
    Check(lent_is(&expected));
}

static void try_tick(const Record *record)
{
    uint8_t *buffer = lend(record, "board_tick");
    RawdhusaqReply reply = board_tick(lent, image, buffer, record->room);
    check_call(CallTick, record, buffer, reply.number, reply.length);
    Check(lent_is(&record->given));
    if (!record->good) {
        return;
    }
    uint8_t chunk[RawdhusaqLongestChunk];
    size_t length = papers_chunk(&record->given, image, chunk);
    uint8_t number = record->given.mode == RawdhusaqOff ? 3 : length > record->room ? 7 : 0;
    Check(reply.number == number && reply.length == (number == 0 ? length : 0));
    Check(memcmp(buffer, chunk, reply.length) == 0);
    chunks += reply.length > 0;
}

static void try_song_end(const Record *record)
{
    uint8_t *buffer = lend(record, "board_song_end");
    uint8_t number = board_song_end(lent);
    check_call(CallSongEnd, record, buffer, number, 0);
    RawdhusaqState expected = record->given;
    if (record->good) {
        expected.songs.playing = 0;
    }
    Check(lent_is(&expected));
}

/* The calls that answer no number: accepts, same and power-on. */
static void try_others(const Record *record, const RawdhusaqState *other, Random *random)
{
    (void)lend(record, "board_accepts");
    Check(board_accepts(lent) == (papers_accept(&record->given) ? 1 : 0));
    scramble_padding(random, lent);
    Check(board_accepts(lent) == (record->good ? 1 : 0));
    place.what = "board_same";
    Check(lent_is(&record->given));
    Check(board_same(&record->given, lent) == 1 && board_same(lent, lent) == 1);
    Check(board_same(lent, other) == (records_equal(lent, other) ? 1 : 0));
    Check(board_same(other, lent) == (records_equal(lent, other) ? 1 : 0));
    place.what = "board_power_on";
    board_power_on(lent);
    check_power_on(lent);
}

/* A message of any bytes, and a wheel order of any numbers. */
static void try_host_side(const Record *record, Random *random)
{
    RawdhusaqMessage message;
    if (place.record % 2 == 0) {
        likely_message(random, &message);
    } else {
        random_fill(random, &message, sizeof message);
    }
    uint8_t *buffer = lend(record, "host_write");
    uint8_t frame[RawdhusaqLongestFrame];
    size_t length = papers_frame(&message, frame);
    RawdhusaqReply reply = host_write(&message, buffer, record->room);
    Check(reply.number == (length == 0 ? 4 : length > record->room ? 7 : 0));
    Check(reply.length == (reply.number == RawdhusaqDone ? length : 0));
    Check(memcmp(buffer, frame, reply.length) == 0);
    Check(written_only(buffer, record, reply.length));

    place.what = "wheel_speeds";
    uint8_t kind = (uint8_t)(random_below(random, 8) ? random_below(random, 4) : message.c);
    RawdhusaqWheelSpeeds speeds = wheel_speeds(kind, message.first, message.second);
    RawdhusaqWheelSpeeds expected = papers_speeds(kind, message.first, message.second);
    Check(speeds.number == expected.number && speeds.right == expected.right
        && speeds.left == expected.left && speeds.capped == expected.capped);
}

static void try_all(const Record *record, const RawdhusaqState *other, Random *random)
{
    uint8_t bytes[MostBytes];
    size_t count = line_bytes(random, bytes, sizeof bytes);
    memcpy(bytes_end - count, bytes, count);
    try_byte(record, line_byte(random));
    try_run(record, bytes_end - count, count);
    try_report(record, random);
    try_tick(record);
    try_song_end(record);
    try_others(record, other, random);
    try_host_side(record, random);
}

/* ---- The records. */

typedef struct {
    uint64_t good, bad;
} Tally;

static Tally random_tally, changed_tally, mode_tally[4];
static uint64_t held_count;

static void run_record(Record *record, const RawdhusaqState *other, Random *random, Tally *tally)
{
    static const size_t rooms[] = {0, 1, 51, 52, 257, 258, 831, 832, MostRoom};
    place.what = "board_accepts";
    record->room = rooms[random_below(random, sizeof rooms / sizeof rooms[0])];
    record->good = board_accepts(&record->given) == 1;
    Check(record->good == papers_accept(&record->given));
    *(record->good ? &tally->good : &tally->bad) += 1;
    if (record->good) {
        mode_tally[record->given.mode].good++;
        held_count += record->given.partial.count > 0;
    }
    try_all(record, other, random);
}

static void run_records(uint64_t count, Random *random)
{
    RawdhusaqState session, before;
    board_power_on(&session);
    size_t next_change = 0;
    Record record;
    for (place.record = 0; place.record < count; place.record++) {
        random_fill(random, image, RawdhusaqImageSize);
        if (place.record % 2 == 0) {
            before = session;
            random_fill(random, &record.given, sizeof record.given);
            run_record(&record, &before, random, &random_tally);
            continue;
        }
        place.what = "traffic";
        session_step(random, &session);
        before = session;
        if (random_below(random, 3) != 0) {
            half_read(random, &before);
        }
        Check(board_accepts(&before) == 1 && papers_accept(&before));
        record.given = before;
        /* By turns the next of all changes, and one of any field. */
        bool in_turn = place.record % 4 == 1;
        change(&record.given, in_turn ? next_change : likely_change(random));
        next_change = (next_change + in_turn) % change_count();
        run_record(&record, &before, random, &changed_tally);
    }
}

/* ---- The end. */

/* With fewer records than this, a class may be empty by chance. */
enum { EnoughRecords = 60000 };

static uint64_t tell_calls(bool enough)
{
    uint64_t calls = 0;
    for (int call = 0; call < CallCount; call++) {
        printf("%-20s", call_names[call]);
        for (int number = 0; number < 10; number++) {
            if (may_give[call] >> number & 1) {
                printf(" %d: %llu ", number, (unsigned long long)given[call][number]);
                place.what = call_names[call];
                Check(!enough || given[call][number] > 0);
            }
            calls += given[call][number];
        }
        printf("\n");
    }
    return calls;
}

static void tell(uint64_t count)
{
    bool enough = count >= EnoughRecords;
    printf("random records: %llu good, %llu bad; changed in one field: %llu good, %llu bad\n",
        (unsigned long long)random_tally.good, (unsigned long long)random_tally.bad,
        (unsigned long long)changed_tally.good, (unsigned long long)changed_tally.bad);
    printf("good in Off, Passive, Safe, Full: %llu, %llu, %llu, %llu; half-read %llu\n",
        (unsigned long long)mode_tally[0].good, (unsigned long long)mode_tally[1].good,
        (unsigned long long)mode_tally[2].good, (unsigned long long)mode_tally[3].good,
        (unsigned long long)held_count);
    uint64_t calls = tell_calls(enough);
    printf("compared byte for byte: %llu answers of 142, %llu chunks\n",
        (unsigned long long)queries, (unsigned long long)chunks);
    place.what = "classes";
    if (enough) {
        Check(random_tally.bad > 0);
        Check(changed_tally.good > count / 20 && changed_tally.bad > count / 20);
        Check(mode_tally[0].good && mode_tally[1].good && mode_tally[2].good && mode_tally[3].good);
        Check(held_count > 0 && count / 4 >= change_count() && queries > 0 && chunks > 0);
    } else {
        printf("fewer than %d records: that no class is empty is not asked\n", EnoughRecords);
    }
    printf("tests passed: %llu records, %llu calls that took one, %llu checks\n",
        (unsigned long long)count, (unsigned long long)calls, (unsigned long long)place.checks);
}

int main(int argc, char **argv)
{
    uint64_t count = argc > 1 ? strtoull(argv[1], NULL, 10) : 1000000;
    place.seed = argc > 2 ? strtoull(argv[2], NULL, 10) : 1;
    printf("seed %llu\n", (unsigned long long)place.seed);
    fflush(stdout);
    set_up();
    worked_cases();
    Random random = {place.seed};
    run_records(count, &random);
    tell(count);
    return 0;
}
