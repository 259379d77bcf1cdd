/* Worked cases: each is small enough to be checked by hand against docs/HOST.md. */
#include "cases.h"

#include "check.h"
#include "papers.h"

#include <string.h>

enum { Off = RawdhusaqOff, Passive = RawdhusaqPassive, Safe = RawdhusaqSafe, Full = RawdhusaqFull };

static uint8_t image[RawdhusaqImageSize];
static uint8_t buffer[RawdhusaqLongestAnswer];

/* ---- Helpers. */

/* Feeds all bytes by runs and gives back the last run's reply, with all that were read. */
static RawdhusaqRunReply feed(RawdhusaqState *state, const uint8_t *bytes, size_t count,
    size_t room)
{
    RawdhusaqRunReply reply = {.number = RawdhusaqWaiting};
    size_t at = 0;
    while (at < count) {
        reply = board_run(state, bytes + at, count - at, image, buffer, room);
        Check(reply.number != RawdhusaqBadRecord);
        at += reply.read;
    }
    reply.read = at;
    return reply;
}

/* The bytes, as an array and its length. */
#define Bytes(...) (const uint8_t[]){__VA_ARGS__}, sizeof((const uint8_t[]){__VA_ARGS__})

static uint8_t send(RawdhusaqState *state, const uint8_t *bytes, size_t count)
{
    return feed(state, bytes, count, sizeof buffer).number;
}

/* A record as traffic from power-on leaves it in a mode. */
static RawdhusaqState started(uint8_t mode)
{
    static const uint8_t ways[4][2] = {{0, 0}, {128, 128}, {128, 131}, {128, 132}};
    RawdhusaqState state;
    board_power_on(&state);
    if (mode != Off) {
        Check(send(&state, ways[mode], 2) == RawdhusaqDone);
    }
    Check(state.mode == mode);
    return state;
}

static bool motors_are_off(const RawdhusaqState *state)
{
    return state->motors.order == RawdhusaqNoOrder && state->motors.duties[0] == 0
        && state->motors.duties[1] == 0 && state->motors.duties[2] == 0;
}

static bool idle(const RawdhusaqState *state)
{
    return state->mode == Passive && motors_are_off(state) && state->partial.count == 0
        && state->partial.remaining == 0;
}

static bool order_is(const RawdhusaqState *state, uint8_t order, int16_t first, int16_t second)
{
    return state->motors.order == order && state->motors.first == first
        && state->motors.second == second;
}

/* ---- Power-on. */

void check_power_on(const RawdhusaqState *state)
{
    static const RawdhusaqState zero;
    Check(state->mode == Off && motors_are_off(state) && order_is(state, 0, 0, 0));
    Check(state->kept.baud == 10 && state->kept.outputs == 0 && state->kept.ir == 0);
    Check(memcmp(state->kept.leds, zero.kept.leds, 3) == 0);
    Check(memcmp(&state->songs, &zero.songs, sizeof zero.songs) == 0);
    Check(memcmp(&state->stream, &zero.stream, sizeof zero.stream) == 0);
    Check(memcmp(state->partial.bytes, zero.partial.bytes, 35) == 0);
    Check(state->partial.count == 0 && state->partial.remaining == 0);
    Check(board_accepts(state) == 1);
}

/* ---- The shown cases W1 to W13 (docs/RULES.md). */

static void modes_and_drives(void)
{
    place.what = "W1 to W7";
    RawdhusaqState state = started(Off);
    Check(send(&state, Bytes(128)) == 0 && state.mode == Passive);
    state = started(Off);
    Check(send(&state, Bytes(131)) == 3 && state.mode == Off);
    state = started(Safe);
    Check(send(&state, Bytes(137, 255, 56, 1, 244)) == 0);
    Check(order_is(&state, RawdhusaqDrive, -200, 500));
    state = started(Passive);
    Check(send(&state, Bytes(137, 255, 56, 1, 244)) == 3 && motors_are_off(&state));
    state = started(Safe);
    Check(send(&state, Bytes(137, 0, 100, 128, 0)) == 0);
    Check(order_is(&state, RawdhusaqDrive, 100, -32768));
    state = started(Full);
    Check(send(&state, Bytes(145, 1, 244, 254, 12)) == 0);
    Check(order_is(&state, RawdhusaqDirect, 500, -500));
    state = started(Full);
    Check(send(&state, Bytes(145, 1, 245, 0, 0)) == 4 && motors_are_off(&state));
}

static void songs_and_queries(void)
{
    place.what = "W8 to W12";
    RawdhusaqState state = started(Passive);
    Check(board_byte(&state, 140, image, buffer, sizeof buffer).number == 9);
    Check(board_byte(&state, 0, image, buffer, sizeof buffer).number == 9);
    Check(board_byte(&state, 0, image, buffer, sizeof buffer).number == 4);
    state = started(Passive);
    Check(send(&state, Bytes(140, 0, 255)) == 9 && state.partial.remaining == 510);
    state = started(Passive);
    memset(buffer, 7, sizeof buffer);
    RawdhusaqRunReply reply = feed(&state, Bytes(149, 0), sizeof buffer);
    Check(reply.number == 0 && reply.length == 0 && buffer[0] == 7);
    reply = feed(&state, Bytes(142, 6), 51);
    Check(reply.number == 7 && reply.length == 0 && buffer[0] == 7);
    memset(image, 9, sizeof image);
    reply = feed(&state, Bytes(142, 6), 52);
    Check(reply.number == 0 && reply.length == 52);
    Check(buffer[0] == 9 && buffer[39] == 9 && buffer[40] == Passive && buffer[52] == 7);
    Check(send(&state, Bytes(148, 4, 6, 6, 6, 6)) == 0 && state.stream.count == 4);
    Check(send(&state, Bytes(148, 5, 6, 6, 6, 6, 6)) == 4 && state.stream.count == 4);
}

static void chunk(void)
{
    place.what = "W13";
    static const uint8_t expected[] = {19, 5, 29, 2, 25, 13, 0, 182};
    memset(image, 0, sizeof image);
    image[30] = 2;
    image[31] = 25;
    RawdhusaqState state = started(Passive);
    Check(send(&state, Bytes(148, 2, 29, 13)) == 0);
    RawdhusaqReply reply = board_tick(&state, image, buffer, sizeof expected - 1);
    Check(reply.number == 7 && reply.length == 0);
    reply = board_tick(&state, image, buffer, sizeof expected);
    Check(reply.number == 0 && reply.length == sizeof expected);
    Check(memcmp(buffer, expected, sizeof expected) == 0);
    Check(send(&state, Bytes(150, 0)) == 0);
    reply = board_tick(&state, image, buffer, sizeof buffer);
    Check(reply.number == 0 && reply.length == 0);
    state = started(Off);
    Check(board_tick(&state, image, buffer, sizeof buffer).number == 3);
}

/* ---- The other shown cases. */

static void duties(void)
{
    place.what = "duties";
    RawdhusaqState state = started(Safe);
    Check(send(&state, Bytes(144, 128, 0, 1)) == 0);
    Check(state.motors.duties[0] == 1 && state.motors.duties[1] == 0);
    Check(state.motors.duties[2] == 128);
    Check(send(&state, Bytes(144, 129, 0, 0)) == 4 && state.motors.duties[2] == 128);
    Check(send(&state, Bytes(144, 0, 129, 0)) == 4 && send(&state, Bytes(144, 0, 0, 129)) == 4);
    Check(send(&state, Bytes(138, 7)) == 0 && state.motors.duties[0] == 128);
    Check(state.motors.duties[1] == 128 && state.motors.duties[2] == 128);
    Check(send(&state, Bytes(138, 8)) == 4);
}

/* Drives in Safe at -100 along a radius, and meets a cliff. */
static bool stops_at(int16_t radius)
{
    RawdhusaqState state = started(Safe);
    RawdhusaqMessage message = {.opcode = 137, .first = -100, .second = radius};
    uint8_t frame[5];
    Check(host_write(&message, frame, sizeof frame).number == 0);
    Check(send(&state, frame, sizeof frame) == 0);
    Check(board_safety_report(&state, 0, 1, 0) == 0);
    Check(idle(&state) || order_is(&state, RawdhusaqDrive, -100, radius));
    return idle(&state);
}

static void cliffs(void)
{
    place.what = "cliffs";
    Check(stops_at(164) && !stops_at(165) && stops_at(-164) && !stops_at(-165));
    Check(stops_at(1) && stops_at(-1) && !stops_at(32767) && !stops_at(-32768));
    RawdhusaqState state = started(Safe); /* back on Direct: right -500 with left -50, and -100 */
    Check(send(&state, Bytes(145, 254, 12, 255, 156)) == 0);
    Check(board_safety_report(&state, 0, 1, 0) == 0 && state.mode == Safe);
    Check(send(&state, Bytes(145, 254, 12, 255, 206)) == 0);
    Check(board_safety_report(&state, 0, 1, 0) == 0 && idle(&state));
}

/* Any number but 0 is a flag that is set. */
static void flags(void)
{
    place.what = "flags";
    static const uint8_t values[] = {0, 1, 2, 255};
    for (int flag = 0; flag < 3; flag++) {
        for (size_t i = 0; i < sizeof values; i++) {
            uint8_t given[3] = {0, 0, 0};
            given[flag] = values[i];
            RawdhusaqState state = started(Safe);
            Check(send(&state, Bytes(137, 0, 100, 127, 255)) == 0);
            Check(send(&state, Bytes(140, 0)) == 9); /* half read, and it stays so */
            Check(board_safety_report(&state, given[0], given[1], given[2]) == 0);
            Check(state.mode == (values[i] == 0 ? Safe : Passive));
            Check(motors_are_off(&state) == (values[i] != 0));
            Check(state.partial.count == 2);
            state = started(Full);
            Check(send(&state, Bytes(137, 0, 100, 127, 255)) == 0);
            Check(board_safety_report(&state, given[0], given[1], given[2]) == 0);
            Check(state.mode == Full && order_is(&state, RawdhusaqDrive, 100, 32767));
        }
    }
}

/* ---- 511 bytes, and no fewer. */

/* The worst that can be: 140 0 255 in Full, with wheels and drivers on. */
static RawdhusaqState worst(void)
{
    RawdhusaqState state = started(Full);
    Check(send(&state, Bytes(137, 0, 200, 128, 0)) == 0 && send(&state, Bytes(138, 7)) == 0);
    Check(send(&state, Bytes(140, 0, 255)) == 9);
    Check(state.partial.remaining == 510 && state.partial.count == 3);
    return state;
}

static void log_out_by_bytes(void)
{
    place.what = "511 bytes, one by one";
    RawdhusaqState state = worst();
    for (int i = 1; i <= RawdhusaqLogOutBytes; i++) {
        RawdhusaqReply reply = board_byte(&state, RawdhusaqStart, image, buffer, sizeof buffer);
        Check(reply.number == (i < 510 ? 9 : i == 510 ? 4 : 0) && reply.length == 0);
        Check(idle(&state) == (i == 511));
        Check(order_is(&state, RawdhusaqDrive, 200, -32768) == (i < 511));
    }
}

static void log_out_by_runs(void)
{
    place.what = "511 bytes, by runs";
    uint8_t starts[RawdhusaqLogOutBytes];
    memset(starts, RawdhusaqStart, sizeof starts);
    RawdhusaqState state = worst();
    RawdhusaqRunReply reply = board_run(&state, starts, 511, image, buffer, sizeof buffer);
    Check(reply.number == 4 && reply.read == 510 && state.mode == Full && !motors_are_off(&state));
    reply = board_run(&state, starts, 1, image, buffer, sizeof buffer);
    Check(reply.number == 0 && reply.read == 1 && idle(&state));
    state = worst();
    Check(feed(&state, starts, 510, sizeof buffer).number == 4 && !idle(&state));
    state = worst();
    Check(feed(&state, starts, 511, 0).number == 0 && idle(&state)); /* room for nothing will do */
}

/* ---- Buffers and bytes of length 0, and bad records. */

static void nothing_lent(void)
{
    place.what = "length 0";
    RawdhusaqState state = started(Passive);
    uint8_t *none = buffer;
    RawdhusaqRunReply reply = board_run(&state, none, 0, image, none, 0);
    Check(reply.number == 9 && reply.read == 0 && reply.length == 0);
    Check(feed(&state, Bytes(149, 0), 0).number == 0);
    Check(feed(&state, Bytes(142, 6), 0).number == 7);
    Check(board_tick(&state, image, none, 0).number == 0);
    Check(send(&state, Bytes(148, 1, 7)) == 0);
    Check(board_tick(&state, image, none, 0).number == 7);
}

static void bad_records(void)
{
    place.what = "bad records";
    RawdhusaqState state = started(Safe), copy;
    Check(send(&state, Bytes(137, 0, 100, 127, 255)) == 0);
    state.mode = 9;
    copy = state;
    Check(board_accepts(&state) == 0);
    Check(board_byte(&state, 128, image, buffer, sizeof buffer).number == 8);
    RawdhusaqRunReply reply = board_run(&state, buffer, 0, image, buffer, 0);
    Check(reply.number == 8 && reply.read == 0 && reply.length == 0);
    Check(board_tick(&state, image, buffer, sizeof buffer).number == 8);
    Check(board_safety_report(&state, 1, 1, 1) == 8 && board_song_end(&state) == 8);
    Check(board_same(&state, &copy) == 1);
    copy.mode = 2;
    Check(board_same(&state, &copy) == 0 && board_accepts(&copy) == 1);
    board_power_on(&state);
    check_power_on(&state);
}

/* ---- Every field, set by commands and read by its name: so the header's places are the
 * library's. */

static void fields_read_back(void)
{
    place.what = "fields read back";
    RawdhusaqState state = started(Passive);
    Check(send(&state, Bytes(129, 3)) == 0 && send(&state, Bytes(132)) == 0);
    Check(send(&state, Bytes(139, 11, 12, 13)) == 0 && send(&state, Bytes(147, 5)) == 0);
    Check(send(&state, Bytes(151, 99)) == 0 && send(&state, Bytes(144, 1, 2, 3)) == 0);
    Check(send(&state, Bytes(145, 0, 21, 255, 234)) == 0);
    Check(send(&state, Bytes(140, 15, 2, 31, 32, 33, 34)) == 0);
    Check(send(&state, Bytes(141, 15)) == 0);
    Check(send(&state, Bytes(148, 3, 7, 42, 8)) == 0 && send(&state, Bytes(140, 6, 4, 77)) == 9);
    Check(state.mode == Full && order_is(&state, RawdhusaqDirect, 21, -22));
    Check(memcmp(state.motors.duties, (const uint8_t[]){3, 2, 1}, 3) == 0);
    Check(state.kept.baud == 3 && memcmp(state.kept.leds, (const uint8_t[]){11, 12, 13}, 3) == 0);
    Check(state.kept.outputs == 5 && state.kept.ir == 99);
    Check(state.songs.table[15].len == 2 && state.songs.table[14].len == 0);
    Check(memcmp(state.songs.table[15].notes, (const uint8_t[]){31, 32, 33, 34, 0}, 5) == 0);
    Check(state.songs.selected == 15 && state.songs.playing == 1);
    Check(memcmp(state.stream.ids, (const uint8_t[]){7, 42, 8, 0}, 4) == 0);
    Check(state.stream.count == 3 && state.stream.on == 1);
    Check(memcmp(state.partial.bytes, (const uint8_t[]){140, 6, 4, 77, 0}, 5) == 0);
    Check(state.partial.count == 4 && state.partial.remaining == 7);
    Check(send(&state, Bytes(0, 0, 0, 0, 0, 0, 0)) == 0 && send(&state, Bytes(141, 9)) == 5);
    Check(send(&state, Bytes(141, 15)) == 6 && board_song_end(&state) == 0);
    Check(state.songs.playing == 0 && send(&state, Bytes(141, 6)) == 0);
}

/* ---- The writer. */

typedef struct {
    RawdhusaqMessage message;
    uint8_t length; /* of the frame; 0: refused with 4 */
    uint8_t frame[7];
} Written;

static const Written writes[] = {
    {{.opcode = 128}, 1, {128}},
    {{.opcode = 129, .a = 11}, 2, {129, 11}},
    {{.opcode = 129, .a = 12}, 0, {0}},
    {{.opcode = 130}, 1, {130}},
    {{.opcode = 131}, 1, {131}},
    {{.opcode = 132}, 1, {132}},
    {{.opcode = 133}, 1, {133}},
    {{.opcode = 134}, 1, {134}},
    {{.opcode = 135, .a = 99}, 1, {135}},
    {{.opcode = 136, .a = 255}, 2, {136, 255}},
    {{.opcode = 136, .a = 9}, 2, {136, 9}},
    {{.opcode = 136, .a = 10}, 0, {0}},
    {{.opcode = 136, .a = 254}, 0, {0}},
    {{.opcode = 137, .first = -200, .second = 500}, 5, {137, 255, 56, 1, 244}},
    {{.opcode = 137, .first = 500, .second = -2000}, 5, {137, 1, 244, 248, 48}},
    {{.opcode = 137, .first = 501, .second = 500}, 0, {0}},
    {{.opcode = 137, .first = 200, .second = 0}, 0, {0}},
    {{.opcode = 137, .first = 200, .second = -2001}, 0, {0}},
    {{.opcode = 138, .a = 7}, 2, {138, 7}},
    {{.opcode = 138, .a = 8}, 0, {0}},
    {{.opcode = 139, .a = 255, .b = 1, .c = 2}, 4, {139, 255, 1, 2}},
    {{.opcode = 140, .a = 15, .b = 2, .payload = {1, 2, 3, 4, 5}}, 7, {140, 15, 2, 1, 2, 3, 4}},
    {{.opcode = 140, .a = 16, .b = 2}, 0, {0}},
    {{.opcode = 140, .a = 0, .b = 0}, 0, {0}},
    {{.opcode = 140, .a = 0, .b = 17}, 0, {0}},
    {{.opcode = 141, .a = 15}, 2, {141, 15}},
    {{.opcode = 141, .a = 16}, 0, {0}},
    {{.opcode = 142, .a = 42}, 2, {142, 42}},
    {{.opcode = 142, .a = 43}, 0, {0}},
    {{.opcode = 143}, 1, {143}},
    {{.opcode = 144, .a = 128, .b = 1, .c = 0}, 4, {144, 128, 1, 0}},
    {{.opcode = 144, .a = 0, .b = 0, .c = 129}, 0, {0}},
    {{.opcode = 145, .first = 500, .second = -500}, 5, {145, 1, 244, 254, 12}},
    {{.opcode = 145, .first = 0, .second = -501}, 0, {0}},
    {{.opcode = 147, .a = 7}, 2, {147, 7}},
    {{.opcode = 147, .a = 8}, 0, {0}},
    {{.opcode = 148, .a = 2, .payload = {29, 13, 99}}, 4, {148, 2, 29, 13}},
    {{.opcode = 148, .a = 0}, 2, {148, 0}},
    {{.opcode = 148, .a = 4, .payload = {6, 6, 6, 6}}, 6, {148, 4, 6, 6, 6, 6}},
    {{.opcode = 148, .a = 5, .payload = {6, 6, 6, 6, 6}}, 0, {0}},
    {{.opcode = 148, .a = 17}, 0, {0}},
    {{.opcode = 149, .a = 5, .payload = {6, 6, 6, 6, 6}}, 7, {149, 5, 6, 6, 6, 6, 6}},
    {{.opcode = 149, .a = 1, .payload = {43}}, 0, {0}},
    {{.opcode = 149, .a = 17}, 0, {0}},
    {{.opcode = 150, .a = 1}, 2, {150, 1}},
    {{.opcode = 150, .a = 2}, 0, {0}},
    {{.opcode = 151, .a = 255}, 2, {151, 255}},
};

/* With each room from 0 to one more than it needs. */
static void write_in_rooms(const RawdhusaqMessage *message, const uint8_t *frame, size_t length)
{
    for (size_t room = 0; room <= length + 1; room++) {
        uint8_t written[RawdhusaqLongestFrame + 2];
        memset(written, 0xA5, sizeof written);
        RawdhusaqReply reply = host_write(message, written, room);
        size_t fits = length > 0 && length <= room ? length : 0;
        Check(reply.number == (length == 0 ? 4 : length > room ? 7 : 0));
        Check(reply.length == fits && memcmp(written, frame, fits) == 0);
        for (size_t i = fits; i < sizeof written; i++) {
            Check(written[i] == 0xA5);
        }
    }
}

static void writer(void)
{
    place.what = "host_write";
    bool met[256] = {false};
    for (size_t i = 0; i < sizeof writes / sizeof writes[0]; i++) {
        uint8_t frame[RawdhusaqLongestFrame];
        Check(papers_frame(&writes[i].message, frame) == writes[i].length);
        Check(memcmp(frame, writes[i].frame, writes[i].length) == 0);
        write_in_rooms(&writes[i].message, writes[i].frame, writes[i].length);
        met[writes[i].message.opcode] = true;
    }
    for (int opcode = 0; opcode < 256; opcode++) {
        bool command = 128 <= opcode && opcode <= 151 && opcode != 146;
        Check(met[opcode] == command);
        if (!command) {
            RawdhusaqMessage message = {.opcode = (uint8_t)opcode};
            write_in_rooms(&message, buffer, 0);
        }
    }
    RawdhusaqMessage longest = {.opcode = 140, .a = 1, .b = 16};
    memset(longest.payload, 60, sizeof longest.payload);
    uint8_t frame[RawdhusaqLongestFrame] = {140, 1, 16};
    memset(frame + 3, 60, 32);
    write_in_rooms(&longest, frame, sizeof frame);
}

/* ---- Wheel speeds. */

static bool speeds_are(uint8_t kind, int16_t first, int16_t second, int right, int left, int capped)
{
    RawdhusaqWheelSpeeds speeds = wheel_speeds(kind, first, second);
    return speeds.number == 0 && speeds.right == right && speeds.left == left
        && speeds.capped == capped;
}

static bool speeds_refused(uint8_t kind, int16_t first, int16_t second)
{
    RawdhusaqWheelSpeeds speeds = wheel_speeds(kind, first, second);
    return speeds.number == 4 && speeds.right == 0 && speeds.left == 0 && speeds.capped == 0;
}

static void wheels(void)
{
    place.what = "wheel_speeds";
    Check(speeds_are(0, 0, 0, 0, 0, 0) && speeds_are(0, 32767, -32768, 0, 0, 0));
    Check(speeds_are(1, 200, 500, 252, 148, 0) && speeds_are(1, -200, 500, -252, -148, 0));
    Check(speeds_are(1, 200, 1, 200, -200, 0) && speeds_are(1, 200, -1, -200, 200, 0));
    Check(speeds_are(1, 200, 32767, 200, 200, 0) && speeds_are(1, 200, -32768, 200, 200, 0));
    Check(speeds_are(1, 500, 2, 500, -500, 1) && speeds_are(1, 1, 258, 2, 1, 0));
    Check(speeds_are(2, 500, -500, 500, -500, 0));
    Check(speeds_refused(3, 0, 0) && speeds_refused(255, 0, 0) && speeds_refused(1, 501, 500));
    Check(speeds_refused(1, 0, 0) && speeds_refused(1, 0, 2001) && speeds_refused(2, 0, -501));
    /* Every velocity with every radius of -2000 to 2000, against the rule a second time. */
    for (int velocity = -500; velocity <= 500; velocity++) {
        for (int radius = -2000; radius <= 2000; radius++) {
            RawdhusaqWheelSpeeds a = wheel_speeds(1, (int16_t)velocity, (int16_t)radius);
            RawdhusaqWheelSpeeds b = papers_speeds(1, (int16_t)velocity, (int16_t)radius);
            Check(a.number == b.number && a.right == b.right && a.left == b.left
                && a.capped == b.capped);
        }
    }
}

void worked_cases(void)
{
    modes_and_drives();
    songs_and_queries();
    chunk();
    duties();
    cliffs();
    flags();
    log_out_by_bytes();
    log_out_by_runs();
    nothing_lent();
    bad_records();
    fields_read_back();
    writer();
    wheels();
    printf("worked cases passed: %llu checks\n", (unsigned long long)place.checks);
}
