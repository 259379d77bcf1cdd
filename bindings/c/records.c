#include "records.h"

#include <string.h>

/* ---- Random numbers: splitmix64, so that a seed gives the same records everywhere. */

uint64_t random_next(Random *random)
{
    uint64_t z = random->state += 0x9E3779B97F4A7C15u;
    z = (z ^ (z >> 30)) * 0xBF58476D1CE4E5B9u;
    z = (z ^ (z >> 27)) * 0x94D049BB133111EBu;
    return z ^ (z >> 31);
}

size_t random_below(Random *random, size_t bound)
{
    return (size_t)(random_next(random) % bound);
}

void random_fill(Random *random, void *to, size_t size)
{
    uint8_t *bytes = to;
    for (size_t at = 0; at < size; at += 8) {
        uint64_t word = random_next(random);
        memcpy(bytes + at, &word, size - at < 8 ? size - at : 8);
    }
}

/* ---- The fields of a record, by the header's offsets; what lies between them is padding. */

typedef enum { Byte, Signed, Size } Width;

static const size_t width_size[] = {[Byte] = 1, [Signed] = 2, [Size] = 8};

typedef struct {
    size_t offset;
    Width width;
    size_t count;
} Field;

#define At(member) offsetof(RawdhusaqState, member)

static const Field fields[] = {
    {At(mode), Byte, 1},
    {At(motors.order), Byte, 1},
    {At(motors.first), Signed, 1},
    {At(motors.second), Signed, 1},
    {At(motors.duties), Byte, 3},
    {At(kept.baud), Byte, 1},
    {At(kept.leds), Byte, 3},
    {At(kept.outputs), Byte, 1},
    {At(kept.ir), Byte, 1},
    {At(songs.table), Byte, sizeof(RawdhusaqSong) * 16}, /* bytes alone, with no padding */
    {At(songs.selected), Byte, 1},
    {At(songs.playing), Byte, 1},
    {At(stream.ids), Byte, 16},
    {At(stream.count), Byte, 1},
    {At(stream.on), Byte, 1},
    {At(partial.bytes), Byte, 35},
    {At(partial.count), Size, 1},
    {At(partial.remaining), Size, 1},
};

enum { FieldCount = sizeof fields / sizeof fields[0] };

bool records_equal(const RawdhusaqState *a, const RawdhusaqState *b)
{
    const uint8_t *left = (const uint8_t *)a, *right = (const uint8_t *)b;
    for (size_t i = 0; i < FieldCount; i++) {
        size_t size = width_size[fields[i].width] * fields[i].count;
        if (memcmp(left + fields[i].offset, right + fields[i].offset, size) != 0) {
            return false;
        }
    }
    return true;
}

void scramble_padding(Random *random, RawdhusaqState *state)
{
    uint8_t *bytes = (uint8_t *)state;
    size_t at = 0;
    for (size_t i = 0; i <= FieldCount; i++) {
        size_t next = i < FieldCount ? fields[i].offset : sizeof *state;
        random_fill(random, bytes + at, next - at);
        if (i < FieldCount) {
            at = next + width_size[fields[i].width] * fields[i].count;
        }
    }
}

/* ---- Changes. */

static const uint8_t odd_bytes[] = {0, 1, 2, 3, 4, 7, 8, 9, 11, 12, 15, 16, 17, 42, 43, 127, 128,
    129, 140, 148, 152, 254, 255};
static const int16_t odd_signed[] = {0, 1, -1, 164, 165, -164, -165, 499, 500, 501, -500, -501,
    1999, 2000, 2001, -2000, -2001, 32766, 32767, -32767, INT16_MIN};
static const size_t odd_sizes[] = {0, 1, 2, 3, 4, 5, 17, 18, 33, 34, 35, 36, 255, 256, 509, 510,
    511, (size_t)1 << 32, SIZE_MAX / 2, SIZE_MAX / 2 + 1, SIZE_MAX - 34, SIZE_MAX - 1, SIZE_MAX};

static const size_t odd_count[] = {[Byte] = sizeof odd_bytes,
    [Signed] = sizeof odd_signed / sizeof odd_signed[0],
    [Size] = sizeof odd_sizes / sizeof odd_sizes[0]};

enum { Neighbours = 2 };

static size_t changes_of(const Field *field)
{
    return field->count * (odd_count[field->width] + Neighbours);
}

size_t change_count(void)
{
    size_t count = 0;
    for (size_t i = 0; i < FieldCount; i++) {
        count += changes_of(&fields[i]);
    }
    return count;
}

static void change_byte(uint8_t *at, size_t value)
{
    *at = value < sizeof odd_bytes ? odd_bytes[value]
        : value == sizeof odd_bytes ? (uint8_t)(*at + 1) : (uint8_t)(*at - 1);
}

static void change_signed(uint8_t *at, size_t value)
{
    uint16_t number;
    memcpy(&number, at, sizeof number);
    number = value < odd_count[Signed] ? (uint16_t)odd_signed[value]
        : value == odd_count[Signed] ? (uint16_t)(number + 1) : (uint16_t)(number - 1);
    memcpy(at, &number, sizeof number);
}

static void change_size(uint8_t *at, size_t value)
{
    size_t number;
    memcpy(&number, at, sizeof number);
    number = value < odd_count[Size] ? odd_sizes[value]
        : value == odd_count[Size] ? number + 1 : number - 1;
    memcpy(at, &number, sizeof number);
}

void change(RawdhusaqState *state, size_t which)
{
    const Field *field = fields;
    while (which >= changes_of(field)) {
        which -= changes_of(field);
        field++;
    }
    size_t values = odd_count[field->width] + Neighbours;
    size_t element = which / values, value = which % values;
    uint8_t *at = (uint8_t *)state + field->offset + element * width_size[field->width];
    switch (field->width) {
    case Byte: change_byte(at, value); break;
    case Signed: change_signed(at, value); break;
    case Size: change_size(at, value); break;
    }
}

size_t likely_change(Random *random)
{
    size_t chosen = random_below(random, FieldCount), before = 0;
    for (size_t i = 0; i < chosen; i++) {
        before += changes_of(&fields[i]);
    }
    return before + random_below(random, changes_of(&fields[chosen]));
}

/* ---- Traffic. */

/* Opcodes as a session has them: many that leave something in the record, few that stop. */
static const uint8_t session_opcodes[] = {128, 129, 130, 131, 131, 131, 132, 132, 132, 133, 134,
    135, 136, 137, 137, 137, 137, 138, 138, 139, 140, 140, 140, 140, 140, 141, 141, 141, 142, 143,
    144, 144, 144, 145, 145, 145, 145, 147, 148, 148, 148, 149, 150, 150, 151};

static const uint8_t image[RawdhusaqImageSize];
static uint8_t answer[RawdhusaqLongestAnswer];

static int16_t likely_number(Random *random)
{
    switch (random_below(random, 4)) {
    case 0: return odd_signed[random_below(random, odd_count[Signed])];
    case 1: return (int16_t)((int)random_below(random, 4005) - 2002);
    default: return (int16_t)((int)random_below(random, 1005) - 502);
    }
}

static uint8_t likely_data(Random *random)
{
    switch (random_below(random, 8)) {
    case 0: return (uint8_t)random_below(random, 256);
    case 1: return odd_bytes[random_below(random, sizeof odd_bytes)];
    case 2:
    case 3: return (uint8_t)random_below(random, 17);
    default: return (uint8_t)random_below(random, 43);
    }
}

void likely_message(Random *random, RawdhusaqMessage *message)
{
    random_fill(random, message, sizeof *message);
    message->opcode = session_opcodes[random_below(random, sizeof session_opcodes)];
    message->a = (uint8_t)random_below(random, random_below(random, 2) ? 18 : 130);
    message->b = (uint8_t)random_below(random, random_below(random, 2) ? 18 : 130);
    message->c = (uint8_t)random_below(random, 130);
    message->first = likely_number(random);
    message->second = likely_number(random);
    if (message->opcode == 148 || message->opcode == 149) {
        for (size_t i = 0; i < sizeof message->payload; i++) {
            message->payload[i] = likely_data(random);
        }
    }
}

/* The frame of a command with legal data. */
static size_t legal_frame(Random *random, uint8_t frame[RawdhusaqLongestFrame])
{
    for (;;) {
        RawdhusaqMessage message;
        likely_message(random, &message);
        RawdhusaqReply reply = host_write(&message, frame, RawdhusaqLongestFrame);
        if (reply.number == RawdhusaqDone) {
            return reply.length;
        }
    }
}

void session_step(Random *random, RawdhusaqState *state)
{
    size_t which = random_below(random, 256);
    if (which == 0) {
        board_power_on(state);
    } else if (which < 8) {
        board_song_end(state);
    } else if (which < 12) {
        board_safety_report(state, which & 1, which & 2, 0);
    } else {
        uint8_t frame[RawdhusaqLongestFrame];
        size_t length = legal_frame(random, frame);
        board_run(state, frame, length, image, answer, sizeof answer);
    }
}

uint8_t line_byte(Random *random)
{
    switch (random_below(random, 4)) {
    case 0: return (uint8_t)random_below(random, 256);
    case 1: return (uint8_t)(128 + random_below(random, 31));
    default: return likely_data(random);
    }
}

void half_read(Random *random, RawdhusaqState *state)
{
    static const uint8_t opcodes[] = {129, 136, 137, 138, 139, 140, 140, 140, 141, 141, 142, 142,
        144, 145, 147, 148, 148, 149, 149, 149, 150, 151, 152, 155, 156, 157, 158};
    uint8_t bytes[512];
    for (size_t i = 0; i < sizeof bytes; i++) {
        bytes[i] = likely_data(random);
    }
    bytes[0] = opcodes[random_below(random, sizeof opcodes)];
    if (random_below(random, 4) == 0) {
        bytes[bytes[0] == 140 ? 2 : 1] = (uint8_t)random_below(random, 256);
    }
    size_t header = 1 + random_below(random, 3);
    board_run(state, bytes, header, image, answer, sizeof answer);
    if (state->partial.remaining > 1) {
        /* Often all but the last byte, so that one byte more is judged. */
        size_t owed = state->partial.remaining;
        size_t left = random_below(random, 2) ? 1 : 1 + random_below(random, owed);
        board_run(state, bytes, owed - left, image, answer, sizeof answer);
    }
}

size_t line_bytes(Random *random, uint8_t *bytes, size_t room)
{
    size_t kind = random_below(random, 16);
    size_t count = kind == 0 ? 0 : kind == 1 ? room : random_below(random, 24);
    for (size_t i = 0; i < count; i++) {
        bytes[i] = kind == 1 ? RawdhusaqStart : line_byte(random);
    }
    if (kind >= 6) {
        size_t length = legal_frame(random, bytes);
        return length > count ? length : count;
    }
    return count;
}
