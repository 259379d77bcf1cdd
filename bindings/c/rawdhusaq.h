/* Rawdhusaq: the proved core of a telepresence robot, for firmware in C and C++.
 *
 * The archive is target/staticlib/libfirmware.a, made by `tools/archive`, for Linux on
 * x86-64; docs/FIRMWARE.md says how to build, what to call when, and what to do with each number.
 * The rules are docs/HOST.md's; what a call promises here is the contract that stands at its
 * function in crates/firmware_c/src/lib.rt, and is proved there. Not proved, and trusted: that this
 * header says what that source says (bindings/test compares what can be compared), and what stands
 * under "Pointers".
 *
 * THE BOARD HAS NO CLOCK. It does not stop because a host falls silent. Firmware that sees the
 * link drop feeds it 511 bytes 128 (see board_run), and where that gives an 8 cuts the motors and
 * calls board_power_on. To cut the motors alone is not enough: the order stays in the record.
 * The board only writes down what the motors are to do: firmware turns them and stops them.
 *
 * Pointers. A record, an image, a message, bytes and a buffer are lent for the time of a call.
 * - None may be null, and a record or message is aligned as its type is (8 and 2 bytes). The
 *   library cannot tell a wrong pointer from a right one: that is the caller's part.
 * - A buffer or bytes of length 0 may be lent, with a pointer that is not null all the same.
 * - What a call writes, the record and the buffer, overlaps nothing else that is lent to it. What
 *   it only reads may overlap: board_same may get one record twice.
 * - A lent buffer is written only in its first `length` bytes, and only with number 0.
 *
 * Any bytes that are lent as a record are a record, good or bad, and so with a message: there is no
 * bool and no enum in them. A bad record is answered with 8, and comes back as it was. Bytes
 * between two fields (padding) are not part of a record and may change; compare two by board_same,
 * never by memcmp.
 *
 * The library keeps nothing between two calls, allocates nothing, and asks the host for memcpy and
 * memset alone. Two boards are two records; two threads may call at once on different records. */
#ifndef Rawdhusaq_h
#define Rawdhusaq_h

#if !(defined __linux__ && defined __x86_64__ && defined __LP64__)
#error "the archive that this header is for is made for Linux on x86-64 alone"
#endif

#include <stddef.h>
#include <stdint.h>

#ifdef __cplusplus
#define RawdhusaqAssert static_assert
#define RawdhusaqAlign alignof
#else
#define RawdhusaqAssert _Static_assert
#define RawdhusaqAlign _Alignof
#endif

/* ---- Numbers that calls give back. 1 to 8 are refusals: nothing is written, and nothing changes
 * but the frame that is read past; with 8 not even that. */
enum {
    RawdhusaqDone = 0,       /* the command's or call's effect; `length` bytes of answer */
    RawdhusaqUnknown = 1,    /* an opcode that does not exist */
    RawdhusaqNotOffered = 2, /* 152 to 158: scripts, waits */
    RawdhusaqWrongMode = 3,  /* the command is not for this mode; a tick in Off */
    RawdhusaqNotLegal = 4,   /* data outside their range */
    RawdhusaqNoSong = 5,     /* Play of a song never set */
    RawdhusaqBusy = 6,       /* Play while one plays */
    RawdhusaqNoRoom = 7,     /* the answer is longer than the lent buffer */
    RawdhusaqBadRecord = 8,  /* the record is damaged; no byte was read */
    RawdhusaqWaiting = 9     /* the byte was taken, and the frame is not complete */
};

/* ---- Sizes. */
enum {
    RawdhusaqImageSize = 40,      /* a sensor image: packets 7 to 34 */
    RawdhusaqLongestAnswer = 832, /* no byte and no run answers with more */
    RawdhusaqLongestChunk = 258,  /* no tick writes more */
    RawdhusaqLongestFrame = 35,   /* host_write never writes more */
    RawdhusaqLogOutBytes = 511    /* so many bytes 128 stop the board for certain */
};

/* ---- The byte that stops, and enters Passive, wherever it is read as an opcode. */
enum { RawdhusaqStart = 128 };

/* ---- Modes of a record, and its kinds of wheel order. */
enum { RawdhusaqOff = 0, RawdhusaqPassive = 1, RawdhusaqSafe = 2, RawdhusaqFull = 3 };
enum { RawdhusaqNoOrder = 0, RawdhusaqDrive = 1, RawdhusaqDirect = 2 };

/* ---- The state record. Firmware reads it (mode, motors, kept) and changes it by calls alone. */

/* What the motors are to do. Motors are off where order is 0 and the three duties are 0. */
typedef struct {
    uint8_t order;     /* the kind of wheel order: none, Drive or Direct */
    int16_t first;     /* of a Drive the velocity, of a Direct the right wheel, mm/s */
    int16_t second;    /* of a Drive the radius in mm, of a Direct the left wheel, mm/s */
    uint8_t duties[3]; /* of driver outputs 0, 1 and 2, each 0 to 128; 128 is full */
} RawdhusaqMotors;

/* What is kept as it was sent. */
typedef struct {
    uint8_t baud;    /* code for the serial speed, 0 to 11; 10 at power-on */
    uint8_t leds[3]; /* bits, color and intensity */
    uint8_t outputs; /* digital outputs, 0 to 7 */
    uint8_t ir;      /* the byte to send by infrared */
} RawdhusaqKept;

/* A song. */
typedef struct {
    uint8_t len;       /* how many notes, 0 to 16; 0: not set */
    uint8_t notes[32]; /* two bytes a note, pitch and duration; 0 past the last */
} RawdhusaqSong;

typedef struct {
    RawdhusaqSong table[16];
    uint8_t selected; /* 0 to 15 */
    uint8_t playing;  /* 1 yes, 0 no; any other is a bad record */
} RawdhusaqSongs;

/* What a tick sends. */
typedef struct {
    uint8_t ids[16]; /* packet ids in the first places, 0 past them */
    uint8_t count;   /* how many */
    uint8_t on;      /* streaming: 1 yes, 0 no; any other is a bad record */
} RawdhusaqStream;

/* The frame that is half read. */
typedef struct {
    uint8_t bytes[35]; /* what is kept of it, 0 past that */
    size_t count;      /* how many bytes of it are kept; 0: nothing is half read */
    size_t remaining;  /* how many bytes are still to come, where that is known; at most 510 */
} RawdhusaqPartial;

typedef struct {
    uint8_t mode; /* Off, Passive, Safe or Full */
    RawdhusaqMotors motors;
    RawdhusaqKept kept;
    RawdhusaqSongs songs;
    RawdhusaqStream stream;
    RawdhusaqPartial partial;
} RawdhusaqState;

/* ---- What calls give back. */

typedef struct {
    uint8_t number; /* see above */
    size_t length;  /* of the answer, at the buffer's start; 0 with every number but 0 */
} RawdhusaqReply;

typedef struct {
    uint8_t number;
    size_t length;
    size_t read; /* how many of the bytes were read; those after them are to be given again */
} RawdhusaqRunReply;

typedef struct {
    uint8_t number; /* 0, or 4 where the order is not legal; then both speeds are 0 */
    int16_t right;  /* mm/s, -500 to 500 */
    int16_t left;
    uint8_t capped; /* 1 where either was cut down to 500, so that the base leaves its curve */
} RawdhusaqWheelSpeeds;

/* ---- A message for host_write, in flat fields. a, b and c are data bytes as they are sent:
 *   129, 136, 138, 141, 142, 147, 150, 151    a (of a 136, -1 is 255)
 *   139                                       a, b, c
 *   144                                       a, b, c: of drivers 2, 1, 0, as they are sent
 *   140                                       a the song's number, b its length in notes
 *   148, 149                                  a the count of ids
 * What is not among a command's data is ignored. */
typedef struct {
    uint8_t opcode; /* 128 to 145, 147 to 151; any other is refused with 4 */
    uint8_t a;
    uint8_t b;
    uint8_t c;
    int16_t first;       /* of 137 the velocity, of 145 the right wheel */
    int16_t second;      /* of 137 the radius, of 145 the left wheel */
    uint8_t payload[32]; /* of 140 the notes, of 148 and 149 the ids, in the first places */
} RawdhusaqMessage;

/* ---- The layout is the library's. */
RawdhusaqAssert(sizeof(size_t) == 8, "size_t");
RawdhusaqAssert(sizeof(RawdhusaqMotors) == 10 && RawdhusaqAlign(RawdhusaqMotors) == 2, "Motors");
RawdhusaqAssert(offsetof(RawdhusaqMotors, order) == 0 && offsetof(RawdhusaqMotors, first) == 2
    && offsetof(RawdhusaqMotors, second) == 4 && offsetof(RawdhusaqMotors, duties) == 6, "Motors");
RawdhusaqAssert(sizeof(RawdhusaqKept) == 6 && RawdhusaqAlign(RawdhusaqKept) == 1, "Kept");
RawdhusaqAssert(offsetof(RawdhusaqKept, baud) == 0 && offsetof(RawdhusaqKept, leds) == 1
    && offsetof(RawdhusaqKept, outputs) == 4 && offsetof(RawdhusaqKept, ir) == 5, "Kept");
RawdhusaqAssert(sizeof(RawdhusaqSong) == 33 && RawdhusaqAlign(RawdhusaqSong) == 1, "Song");
RawdhusaqAssert(offsetof(RawdhusaqSong, len) == 0 && offsetof(RawdhusaqSong, notes) == 1, "Song");
RawdhusaqAssert(sizeof(RawdhusaqSongs) == 530 && RawdhusaqAlign(RawdhusaqSongs) == 1, "Songs");
RawdhusaqAssert(offsetof(RawdhusaqSongs, table) == 0 && offsetof(RawdhusaqSongs, selected) == 528
    && offsetof(RawdhusaqSongs, playing) == 529, "Songs");
RawdhusaqAssert(sizeof(RawdhusaqStream) == 18 && RawdhusaqAlign(RawdhusaqStream) == 1, "Stream");
RawdhusaqAssert(offsetof(RawdhusaqStream, ids) == 0 && offsetof(RawdhusaqStream, count) == 16
    && offsetof(RawdhusaqStream, on) == 17, "Stream");
RawdhusaqAssert(sizeof(RawdhusaqPartial) == 56 && RawdhusaqAlign(RawdhusaqPartial) == 8, "Partial");
RawdhusaqAssert(offsetof(RawdhusaqPartial, bytes) == 0 && offsetof(RawdhusaqPartial, count) == 40
    && offsetof(RawdhusaqPartial, remaining) == 48, "Partial");
RawdhusaqAssert(sizeof(RawdhusaqState) == 624 && RawdhusaqAlign(RawdhusaqState) == 8, "State");
RawdhusaqAssert(offsetof(RawdhusaqState, mode) == 0 && offsetof(RawdhusaqState, motors) == 2
    && offsetof(RawdhusaqState, kept) == 12 && offsetof(RawdhusaqState, songs) == 18
    && offsetof(RawdhusaqState, stream) == 548 && offsetof(RawdhusaqState, partial) == 568,
    "State");
RawdhusaqAssert(sizeof(RawdhusaqReply) == 16 && RawdhusaqAlign(RawdhusaqReply) == 8, "Reply");
RawdhusaqAssert(offsetof(RawdhusaqReply, number) == 0 && offsetof(RawdhusaqReply, length) == 8,
    "Reply");
RawdhusaqAssert(sizeof(RawdhusaqRunReply) == 24 && RawdhusaqAlign(RawdhusaqRunReply) == 8,
    "RunReply");
RawdhusaqAssert(offsetof(RawdhusaqRunReply, number) == 0 && offsetof(RawdhusaqRunReply, length) == 8
    && offsetof(RawdhusaqRunReply, read) == 16, "RunReply");
RawdhusaqAssert(sizeof(RawdhusaqWheelSpeeds) == 8 && RawdhusaqAlign(RawdhusaqWheelSpeeds) == 2,
    "WheelSpeeds");
RawdhusaqAssert(offsetof(RawdhusaqWheelSpeeds, number) == 0
    && offsetof(RawdhusaqWheelSpeeds, right) == 2 && offsetof(RawdhusaqWheelSpeeds, left) == 4
    && offsetof(RawdhusaqWheelSpeeds, capped) == 6, "WheelSpeeds");
RawdhusaqAssert(sizeof(RawdhusaqMessage) == 40 && RawdhusaqAlign(RawdhusaqMessage) == 2, "Message");
RawdhusaqAssert(offsetof(RawdhusaqMessage, opcode) == 0 && offsetof(RawdhusaqMessage, a) == 1
    && offsetof(RawdhusaqMessage, b) == 2 && offsetof(RawdhusaqMessage, c) == 3
    && offsetof(RawdhusaqMessage, first) == 4 && offsetof(RawdhusaqMessage, second) == 6
    && offsetof(RawdhusaqMessage, payload) == 8, "Message");

#ifdef __cplusplus
extern "C" {
#endif

/* The record at power-on, whatever stood there: Off, motors off, nothing half read. Call it once
 * before any other call, and again after an 8. A record of zeros, as every static one is, is not a
 * powered-on one (its baud code is 0), and is not answered with 8. */
void board_power_on(RawdhusaqState *state);

/* One byte from the line. 9 until a frame is complete; then the command's number, with its effect
 * and its answer where that is 0. `image` is what the sensors say now. A buffer of 832 bytes always
 * has room. */
RawdhusaqReply board_byte(RawdhusaqState *state, uint8_t b, const uint8_t image[40],
    uint8_t *buffer, size_t room);

/* Bytes from the line, until one gives a number other than 9 or they end. `read` says how many it
 * took: send the answer, and call it again with the rest. No bytes give 9 and 0; a bad record gives
 * 8 and 0, so that a loop over the rest must end at 8.
 *
 * Proved: from every record but a bad one, after any calls that read 511 bytes, all 128, the board
 * is in Passive, nothing is half read and all motors are off. Fewer would not always do. */
RawdhusaqRunReply board_run(RawdhusaqState *state, const uint8_t *bytes, size_t count,
    const uint8_t image[40], uint8_t *buffer, size_t room);

/* A safety report: wheel drop, cliff, powered charger; of each 0 is clear and any other number set.
 * In Safe it stops the motors and enters Passive where wheel drop or charger is set, or where cliff
 * is set and the base moves into it. In every other mode it changes nothing. Gives 0, or 8. */
uint8_t board_safety_report(RawdhusaqState *state, uint8_t drop, uint8_t cliff, uint8_t charger);

/* A tick, as often as chunks are to be sent: where streaming is on and there is a list, its chunk
 * is written. Gives 0 (and length 0 where there is nothing to send), 3 in Off, 7 or 8; the record
 * stays as it is. A buffer of 258 bytes always has room. */
RawdhusaqReply board_tick(RawdhusaqState *state, const uint8_t image[40], uint8_t *buffer,
    size_t room);

/* The song that plays has ended. Gives 0, or 8. */
uint8_t board_song_end(RawdhusaqState *state);

/* Whether a record is one that the board takes: 1 yes; 0 no, and then a byte, a run, a report, a
 * tick and a song end all answer 8. */
uint8_t board_accepts(const RawdhusaqState *state);

/* Whether two records are the same in every field: 1 yes, 0 no. */
uint8_t board_same(const RawdhusaqState *a, const RawdhusaqState *b);

/* For a host, or a test: the frame of a command. 4 where the opcode is none of a command's or the
 * data are not legal, then 7, then 0 and the frame. It asks no mode and no record. A buffer of 35
 * bytes always has room. */
RawdhusaqReply host_write(const RawdhusaqMessage *message, uint8_t *buffer, size_t room);

/* The speed of each wheel for a wheel order: a record's motors.order, motors.first, motors.second.
 * Above 0 is forwards. Each is the nearest whole number to the curve's, halves away from zero, and
 * at most 500 either way; the curve is that of wheel centres 258 mm apart. The order of a record
 * that board_accepts takes is never refused, and in Off and Passive both wheels stand. */
RawdhusaqWheelSpeeds wheel_speeds(uint8_t kind, int16_t first, int16_t second);

#ifdef __cplusplus
}
#endif

#endif
