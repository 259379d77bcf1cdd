#include "layout.h"

#include <string.h>

/* ---- Where the fields stand. */
enum {
    AtMode = 0,
    AtOrder = 1,
    AtFirst = 2,
    AtSecond = 4,
    AtDuties = 6,
    AtBaud = 9,
    AtLeds = 10,
    AtOutputs = 13,
    AtIr = 14,
    AtSongs = 15,
    AtSelected = 543,
    AtPlaying = 544,
    AtIds = 545,
    AtIdCount = 561,
    AtStreaming = 562,
    AtHeld = 563,
    AtHeldCount = 598,
    AtOwed = 600
};

enum { Songs = 16, SongSize = 33, NotesSize = 32 };

_Static_assert(AtSongs + Songs * SongSize == AtSelected, "songs");
_Static_assert(AtOwed + 2 == StateSize, "state");

/* A number of two bytes with a sign. Not a cast: what that does with one above 32767 is the
 * compiler's choice. */
static int16_t signed_two_bytes(const uint8_t *bytes)
{
    int number = two_bytes(bytes);
    return (int16_t)(number > INT16_MAX ? number - 65536 : number);
}

static void put_two_bytes(uint8_t *bytes, size_t number)
{
    bytes[0] = (uint8_t)(number >> 8);
    bytes[1] = (uint8_t)number;
}

static void songs_from_bytes(RawdhusaqSongs *songs, const uint8_t *bytes)
{
    for (size_t i = 0; i < Songs; i++) {
        const uint8_t *song = bytes + AtSongs + i * SongSize;
        songs->table[i].len = song[0];
        memcpy(songs->table[i].notes, song + 1, NotesSize);
    }
    songs->selected = bytes[AtSelected];
    songs->playing = bytes[AtPlaying];
}

static void songs_to_bytes(const RawdhusaqSongs *songs, uint8_t *bytes)
{
    for (size_t i = 0; i < Songs; i++) {
        uint8_t *song = bytes + AtSongs + i * SongSize;
        song[0] = songs->table[i].len;
        memcpy(song + 1, songs->table[i].notes, NotesSize);
    }
    bytes[AtSelected] = songs->selected;
    bytes[AtPlaying] = songs->playing;
}

void state_from_bytes(RawdhusaqState *state, const uint8_t bytes[StateSize])
{
    state->mode = bytes[AtMode];
    state->motors.order = bytes[AtOrder];
    state->motors.first = signed_two_bytes(bytes + AtFirst);
    state->motors.second = signed_two_bytes(bytes + AtSecond);
    memcpy(state->motors.duties, bytes + AtDuties, sizeof state->motors.duties);
    state->kept.baud = bytes[AtBaud];
    memcpy(state->kept.leds, bytes + AtLeds, sizeof state->kept.leds);
    state->kept.outputs = bytes[AtOutputs];
    state->kept.ir = bytes[AtIr];
    songs_from_bytes(&state->songs, bytes);
    memcpy(state->stream.ids, bytes + AtIds, sizeof state->stream.ids);
    state->stream.count = bytes[AtIdCount];
    state->stream.on = bytes[AtStreaming];
    memcpy(state->partial.bytes, bytes + AtHeld, sizeof state->partial.bytes);
    state->partial.count = two_bytes(bytes + AtHeldCount);
    state->partial.remaining = two_bytes(bytes + AtOwed);
}

void state_to_bytes(const RawdhusaqState *state, uint8_t bytes[StateSize])
{
    bytes[AtMode] = state->mode;
    bytes[AtOrder] = state->motors.order;
    put_two_bytes(bytes + AtFirst, (uint16_t)state->motors.first);
    put_two_bytes(bytes + AtSecond, (uint16_t)state->motors.second);
    memcpy(bytes + AtDuties, state->motors.duties, sizeof state->motors.duties);
    bytes[AtBaud] = state->kept.baud;
    memcpy(bytes + AtLeds, state->kept.leds, sizeof state->kept.leds);
    bytes[AtOutputs] = state->kept.outputs;
    bytes[AtIr] = state->kept.ir;
    songs_to_bytes(&state->songs, bytes);
    memcpy(bytes + AtIds, state->stream.ids, sizeof state->stream.ids);
    bytes[AtIdCount] = state->stream.count;
    bytes[AtStreaming] = state->stream.on;
    memcpy(bytes + AtHeld, state->partial.bytes, sizeof state->partial.bytes);
    put_two_bytes(bytes + AtHeldCount, state->partial.count);
    put_two_bytes(bytes + AtOwed, state->partial.remaining);
}

void message_from_bytes(RawdhusaqMessage *message, const uint8_t bytes[MessageSize])
{
    message->opcode = bytes[0];
    message->a = bytes[1];
    message->b = bytes[2];
    message->c = bytes[3];
    message->first = signed_two_bytes(bytes + 4);
    message->second = signed_two_bytes(bytes + 6);
    memcpy(message->payload, bytes + 8, sizeof message->payload);
}
