/* A firmware loop over the board, to be copied. What stands under "The loop" is meant for a real
 * robot; what stands under "The bench" takes the place of its hardware: a line, sensors and a
 * motor stage, driven by a table of events, so that the program runs and ends by itself.
 *
 * It ends with status 0 only if every event of the table led to what the table says. */
#include "rawdhusaq.h"

#include <stdbool.h>
#include <stdio.h>
#include <string.h>

/* ---- What the loop needs of the hardware. The bench below defines it. */

static size_t line_read(uint8_t *bytes, size_t room);
static void line_discard(void);
static void line_send(const uint8_t *bytes, size_t length);
static void motors_set(int right, int left, const uint8_t duties[3]);
static void motors_cut(void);
static void note(const char *what, int number);

/* What the sensors say now, and whether the radio has lost its link. A bump is in the image alone:
 * it is no part of a safety report. */
static struct {
    bool drop, cliff, charger;
    bool song_ended;
    bool link_lost;
} seen;

/* ==== The loop ================================================================================ */

/* In milliseconds: how often a chunk is sent, and how long a host may be silent. */
enum { TickEvery = 15, SilenceLimit = 25 };
enum { FifoSize = 16 };

static RawdhusaqState board;
static uint8_t image[RawdhusaqImageSize];
/* As long as the longest answer, so that no call ever gives 7. */
static uint8_t answer[RawdhusaqLongestAnswer];

static uint8_t last_number;

/* A damaged record answers 8 to every call, 128 too: no command can stop this robot any more. So
 * the motors are cut at the hardware first, and only then is the board started anew, in Off. What
 * the line still holds was meant for the board as it was. The host sees the board fall silent, and
 * has to begin with 128. */
static void restart_board(void)
{
    motors_cut();
    line_discard();
    board_power_on(&board);
    last_number = RawdhusaqBadRecord;
    note("record damaged: motors cut, board started anew", RawdhusaqBadRecord);
}

/* Brings the motors to what the record says: a call that stops them does so in the record alone. A
 * real robot likewise takes outputs, LEDs and infrared from `kept`, and the song from `songs`. */
static void hand_to_motors(void)
{
    /* Each call asks the same; this one is for what hit the record since the last of them. */
    if (!board_accepts(&board)) {
        restart_board();
        return;
    }
    const RawdhusaqMotors *motors = &board.motors;
    RawdhusaqWheelSpeeds speeds = wheel_speeds(motors->order, motors->first, motors->second);
    motors_set(speeds.right, speeds.left, motors->duties);
}

/* What is logged of a refusal. The host hears nothing of it: it asks for packets if it wants to
 * know. All but the frame that was read past is as it was, so a robot that moves moves on. */
static const char *refusal(uint8_t number)
{
    switch (number) {
    case RawdhusaqUnknown: /* most likely a byte was lost, and data are read as opcodes */
        return "refused: no such opcode";
    case RawdhusaqNotOffered: /* a host that wants scripts or waits */
        return "refused: not offered";
    case RawdhusaqWrongMode: /* after a safety stop, say: the host has to enter Safe again */
        return "refused: not in this mode";
    case RawdhusaqNotLegal: /* a host that does not write its frames with host_write, or damage */
        return "refused: data not legal";
    case RawdhusaqNoSong: /* songs are gone after power-on */
        return "refused: no such song";
    case RawdhusaqBusy: /* until board_song_end is called */
        return "refused: a song plays";
    case RawdhusaqNoRoom: /* never with a buffer of 832 bytes; with a shorter one, lend more */
        return "refused: answer too long for the buffer";
    default:
        return NULL;
    }
}

/* What to do with each number that a call gives back. */
static void settle(uint8_t number, size_t length)
{
    last_number = number;
    switch (number) {
    case RawdhusaqDone: /* the answer's bytes, no more than its length: what follows is old */
        if (length > 0) {
            line_send(answer, length);
        }
        break;
    case RawdhusaqWaiting: /* the frame's other bytes are still to come; no time-out ends it */
        break;
    case RawdhusaqUnknown: case RawdhusaqNotOffered: case RawdhusaqWrongMode:
    case RawdhusaqNotLegal: case RawdhusaqNoSong: case RawdhusaqBusy: case RawdhusaqNoRoom:
        note(refusal(number), number);
        break;
    case RawdhusaqBadRecord: /* motors off first, and then a new start */
    default: /* no other number is given; if one comes, nothing here is to be trusted */
        restart_board();
        break;
    }
}

/* Feeds bytes until all of them are read, and says whether they were. A run ends at each number
 * other than 9, with its answer in the buffer: send that, and go on with the rest. A bad record
 * reads nothing, so the loop ends at 8 too; else it would never end. */
static bool feed(const uint8_t *bytes, size_t count)
{
    size_t at = 0;
    while (at < count) {
        RawdhusaqRunReply reply =
            board_run(&board, bytes + at, count - at, image, answer, sizeof answer);
        settle(reply.number, reply.length);
        if (reply.number == RawdhusaqBadRecord) {
            return false;
        }
        at += reply.read;
    }
    return true;
}

static bool motors_off(void)
{
    const RawdhusaqMotors *motors = &board.motors;
    return motors->order == RawdhusaqNoOrder && motors->duties[0] == 0 && motors->duties[1] == 0
        && motors->duties[2] == 0;
}

/* Whatever frame is half read, 511 bytes 128 lead to Passive with the motors off; fewer would not
 * always do. The motors are not set between them: one of them can end a frame that starts one. */
static void stop_board(const char *why)
{
    uint8_t starts[RawdhusaqLogOutBytes];
    memset(starts, RawdhusaqStart, sizeof starts);
    /* After an 8 the board is in Off, and its motors are cut: that is a stop as well. It is looked
     * at all the same, since this is the last moment at which somebody can. To cut the motors
     * alone would not do: the order would stay in the record, and come back with the next pass. */
    uint8_t mode = feed(starts, sizeof starts) ? RawdhusaqPassive : RawdhusaqOff;
    if (board.mode != mode || !motors_off()) {
        restart_board();
    }
    note(why, board.mode);
}

/* Whether a driver is there. The board has no clock, and drives on when a host falls silent, so
 * this is the firmware's to see: by the radio's word, or by the time since the last byte. */
static bool driver_there(unsigned pass, bool bytes_came)
{
    static unsigned last_byte;
    if (bytes_came) {
        last_byte = pass;
    }
    return !seen.link_lost && pass - last_byte < SilenceLimit;
}

/* The line's part of a pass. Once the driver is gone the board is stopped, and what the line's
 * buffer still holds is thrown away: an old Safe and Drive would move the robot once more. */
static void serve_line(unsigned pass)
{
    static bool stopped;
    uint8_t bytes[FifoSize];
    size_t count = line_read(bytes, sizeof bytes);
    if (driver_there(pass, count > 0)) {
        stopped = false;
        (void)feed(bytes, count); /* after an 8 the rest is gone: the host starts anew anyway */
        return;
    }
    line_discard();
    if (!stopped && board.mode != RawdhusaqOff) {
        stop_board(seen.link_lost ? "link lost: stopped" : "no byte came: stopped");
    }
    stopped = true;
}

/* One pass of the loop. `pass` is the loop's own counter, here of milliseconds. */
static void loop_once(unsigned pass)
{
    serve_line(pass);

    /* On every pass, and not when a sensor changes: a host may enter Safe and drive off while the
     * wheel still hangs over the edge. A report of nothing changes nothing. */
    settle(board_safety_report(&board, seen.drop, seen.cliff, seen.charger), 0);

    if (seen.song_ended) {
        seen.song_ended = false;
        settle(board_song_end(&board), 0);
    }
    if (pass % TickEvery == 0 && board.mode != RawdhusaqOff) {
        /* In Off a tick gives 3, which is nothing to log. */
        RawdhusaqReply reply = board_tick(&board, image, answer, sizeof answer);
        settle(reply.number, reply.length);
    }

    /* Once a pass and behind the report, so that no order turns a wheel which the report stops. */
    hand_to_motors();
}

/* ==== The bench =============================================================================== */

typedef enum {
    Sends, SendsBytes, Cliff, CliffGone, SongEnds, LinkDrops, LinkBack, Silence, RecordHit
} Kind;

/* What happens at a time, and what is to be so when the next event comes. */
typedef struct {
    unsigned at;
    Kind kind;
    const char *what;
    RawdhusaqMessage message; /* of Sends; of LinkDrops, what still waits in the line's buffer */
    uint8_t bytes[5];         /* of SendsBytes: what host_write would not write */
    size_t count;
    uint8_t number; /* of the first call after it that gave another than 0 and 9, or 0 */
    uint8_t mode;
    int right, left;
} Event;

enum { SafeMode = 131, FullMode = 132, Drive = 137, Song = 140, Play = 141, Query = 142 };
enum { Duties = 144, Direct = 145, Stream = 148 };

static const Event events[] = {
    {.at = 2, .kind = Sends, .what = "Safe", .message = {.opcode = SafeMode}, .number = 3},
    {.at = 5, .kind = Sends, .what = "Start", .message = {.opcode = RawdhusaqStart}, .mode = 1},
    {.at = 8, .kind = Sends, .what = "Stream of 35 and 39", .mode = 1,
        .message = {.opcode = Stream, .a = 2, .payload = {35, 39}}},
    {.at = 20, .kind = Sends, .what = "Safe", .message = {.opcode = SafeMode}, .mode = 2},
    {.at = 22, .kind = Sends, .what = "Drive 200 500", .mode = 2, .right = 252, .left = 148,
        .message = {.opcode = Drive, .first = 200, .second = 500}},
    {.at = 24, .kind = Sends, .what = "Query of 35", .mode = 2, .right = 252, .left = 148,
        .message = {.opcode = Query, .a = 35}},
    {.at = 31, .kind = SendsBytes, .what = "Drive 501 500", .bytes = {137, 1, 245, 1, 244},
        .count = 5, .number = 4, .mode = 2, .right = 252, .left = 148},
    {.at = 33, .kind = SendsBytes, .what = "146", .bytes = {146}, .count = 1, .number = 1,
        .mode = 2, .right = 252, .left = 148},
    {.at = 35, .kind = SendsBytes, .what = "153", .bytes = {153}, .count = 1, .number = 2,
        .mode = 2, .right = 252, .left = 148},
    {.at = 37, .kind = Sends, .what = "Play 3", .number = 5, .mode = 2, .right = 252,
        .left = 148, .message = {.opcode = Play, .a = 3}},
    {.at = 39, .kind = Sends, .what = "Song 3 of 16 notes", .mode = 2, .right = 252, .left = 148,
        .message = {.opcode = Song, .a = 3, .b = 16, .payload = {60, 32, 64, 32, 67, 32}}},
    {.at = 46, .kind = Sends, .what = "Play 3", .mode = 2, .right = 252, .left = 148,
        .message = {.opcode = Play, .a = 3}},
    {.at = 48, .kind = Sends, .what = "Play 3", .number = 6, .mode = 2, .right = 252,
        .left = 148, .message = {.opcode = Play, .a = 3}},
    {.at = 50, .kind = SongEnds, .what = "song ends", .mode = 2, .right = 252, .left = 148},
    {.at = 52, .kind = Cliff, .what = "cliff ahead", .mode = 1},
    {.at = 54, .kind = Sends, .what = "Drive 200 500", .number = 3, .mode = 1,
        .message = {.opcode = Drive, .first = 200, .second = 500}},
    {.at = 56, .kind = CliffGone, .what = "cliff gone", .mode = 1},
    {.at = 58, .kind = Sends, .what = "Full", .message = {.opcode = FullMode}, .mode = 3},
    {.at = 60, .kind = Sends, .what = "Duties 0 64 128", .mode = 3,
        .message = {.opcode = Duties, .a = 0, .b = 64, .c = 128}},
    {.at = 62, .kind = Sends, .what = "Direct 300 -300", .mode = 3, .right = 300, .left = -300,
        .message = {.opcode = Direct, .first = 300, .second = -300}},
    {.at = 64, .kind = SendsBytes, .what = "140 0 255, and no more", .bytes = {140, 0, 255},
        .count = 3, .mode = 3, .right = 300, .left = -300},
    {.at = 66, .kind = LinkDrops, .what = "link drops, with orders on the way", .number = 4,
        .mode = 1, .message = {.opcode = Direct, .first = 200, .second = 200}},
    {.at = 67, .kind = LinkBack, .what = "link is back", .mode = 1},
    {.at = 72, .kind = Sends, .what = "Safe", .message = {.opcode = SafeMode}, .mode = 2},
    {.at = 74, .kind = Sends, .what = "Direct 100 100", .mode = 2, .right = 100, .left = 100,
        .message = {.opcode = Direct, .first = 100, .second = 100}},
    {.at = 76, .kind = Silence, .what = "the host falls silent", .mode = 1},
    {.at = 106, .kind = Sends, .what = "Safe", .message = {.opcode = SafeMode}, .mode = 2},
    {.at = 108, .kind = Sends, .what = "Direct 100 100", .mode = 2, .right = 100, .left = 100,
        .message = {.opcode = Direct, .first = 100, .second = 100}},
    {.at = 110, .kind = RecordHit, .what = "a bit of the record flips", .number = 8},
    {.at = 112, .kind = Sends, .what = "Start", .message = {.opcode = RawdhusaqStart}, .mode = 1},
};

enum { EventCount = sizeof events / sizeof events[0] };

static unsigned now;
static bool wrong;

/* The line: what the host sent and the board has not read yet. */
static uint8_t waiting[64];
static size_t waiting_count;
static unsigned chunks;

static struct {
    int right, left;
    uint8_t duties[3];
} stage;

/* The first number since the last event that was neither 0 nor 9. */
static uint8_t first_refusal;

static size_t line_read(uint8_t *bytes, size_t room)
{
    size_t count = waiting_count < room ? waiting_count : room;
    memcpy(bytes, waiting, count);
    memmove(waiting, waiting + count, waiting_count - count);
    waiting_count -= count;
    return count;
}

static void line_discard(void)
{
    waiting_count = 0;
}

static void line_send(const uint8_t *bytes, size_t length)
{
    /* A chunk is told once: there is one every 15 ms. */
    if (bytes[0] == 19 && chunks++ > 0) {
        return;
    }
    printf(" -> board sends");
    for (size_t i = 0; i < length; i++) {
        printf(" %d", bytes[i]);
    }
}

static void motors_set(int right, int left, const uint8_t duties[3])
{
    stage.right = right;
    stage.left = left;
    memcpy(stage.duties, duties, sizeof stage.duties);
}

static void motors_cut(void)
{
    memset(&stage, 0, sizeof stage);
}

static void note(const char *what, int number)
{
    printf(" -> %s (%d)", what, number);
    if (first_refusal == 0) {
        first_refusal = last_number;
    }
}

static void arrive(const uint8_t *bytes, size_t count)
{
    if (count > sizeof waiting - waiting_count) {
        printf(" WRONG: the line is full");
        wrong = true;
        return;
    }
    memcpy(waiting + waiting_count, bytes, count);
    waiting_count += count;
}

/* The host's side: a frame is made by host_write, which refuses data that are not legal. */
static void host_sends(const RawdhusaqMessage *message)
{
    uint8_t frame[RawdhusaqLongestFrame];
    RawdhusaqReply reply = host_write(message, frame, sizeof frame);
    if (reply.number != RawdhusaqDone) {
        printf(" WRONG: host_write gives %d", reply.number);
        wrong = true;
    }
    arrive(frame, reply.length);
}

/* More than a pass reads, so that some of it is still there when the next one comes. */
static void orders_arrive(const RawdhusaqMessage *order)
{
    for (int i = 0; i < 4; i++) {
        host_sends(&(RawdhusaqMessage){.opcode = SafeMode});
        host_sends(order);
    }
}

static void happen(const Event *event)
{
    printf("%s%2u ms: %s", now > events[0].at ? "\n" : "", now, event->what);
    first_refusal = 0;
    switch (event->kind) {
    case Sends:
        host_sends(&event->message);
        break;
    case SendsBytes:
        arrive(event->bytes, event->count);
        break;
    case Cliff:
    case CliffGone:
        seen.cliff = event->kind == Cliff;
        image[3] = seen.cliff; /* packet 10 */
        break;
    case SongEnds:
        seen.song_ended = true;
        break;
    case LinkDrops:
        orders_arrive(&event->message);
        seen.link_lost = true;
        break;
    case LinkBack:
        seen.link_lost = false;
        break;
    case Silence:
        break;
    case RecordHit:
        ((uint8_t *)&board)[0] ^= 64;
        break;
    }
}

static bool motors_as_in_record(void)
{
    return memcmp(stage.duties, board.motors.duties, sizeof stage.duties) == 0;
}

/* Whether the event led to what the table says. */
static void look_back(const Event *event)
{
    if (first_refusal != event->number || board.mode != event->mode
        || stage.right != event->right || stage.left != event->left || waiting_count != 0
        || !motors_as_in_record()) {
        printf(" WRONG: number %d, mode %d, wheels %d %d, %zu bytes waiting", first_refusal,
            board.mode, stage.right, stage.left, waiting_count);
        wrong = true;
    }
}

int main(void)
{
    board_power_on(&board);
    hand_to_motors();
    unsigned end = events[EventCount - 1].at + TickEvery;
    size_t next = 0;
    for (now = 0; now <= end; now++) {
        if (next < EventCount && now == events[next].at) {
            if (next > 0) {
                look_back(&events[next - 1]);
            }
            happen(&events[next++]);
        }
        loop_once(now);
    }
    look_back(&events[EventCount - 1]);
    printf("\n%u chunks sent; %s\n", chunks, wrong ? "NOT as expected" : "all as expected");
    return wrong ? 1 : 0;
}
