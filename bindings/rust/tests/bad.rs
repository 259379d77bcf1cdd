//! Bad records: 8 from every call, with nothing changed and nothing written.

mod common;

use common::{busy_board, image, MARK};
use rawdhusaq::*;

/// What is done to a good record to make it a bad one.
type Damage = (&'static str, fn(&mut State));

const MODE_AND_MOTORS: &[Damage] = &[
    ("mode", |s| s.mode = 4),
    ("mode, far out", |s| s.mode = 255),
    ("motors not off in Off", |s| s.mode = OFF),
    ("motors not off in Passive", |s| s.mode = PASSIVE),
    ("order's kind", |s| s.motors.order = 3),
    ("Drive's velocity", |s| s.motors.first = 501),
    ("Drive's velocity, below", |s| s.motors.first = -501),
    ("Drive's radius", |s| s.motors.second = 0),
    ("Drive's radius, above", |s| s.motors.second = 2001),
    ("Direct's left", |s| {
        s.motors.order = DIRECT;
        s.motors.second = 501;
    }),
    ("duty 0", |s| s.motors.duties[0] = 129),
    ("duty 1", |s| s.motors.duties[1] = 129),
    ("duty 2", |s| s.motors.duties[2] = 255),
    ("baud", |s| s.kept.baud = 12),
    ("outputs", |s| s.kept.outputs = 8),
];

const SONGS_AND_STREAM: &[Damage] = &[
    ("song's length", |s| s.songs.table[3].len = 17),
    ("song's length, far out", |s| s.songs.table[15].len = 255),
    ("song's place past its notes", |s| {
        s.songs.table[3].notes[4] = 1
    }),
    ("place of a song not set", |s| {
        s.songs.table[15].notes[31] = 1
    }),
    ("selected", |s| s.songs.selected = 16),
    ("playing a song not set", |s| s.songs.selected = 4),
    ("playing", |s| s.songs.playing = 2),
    ("playing, far out", |s| s.songs.playing = 255),
    ("stream's id", |s| s.stream.ids[1] = 43),
    ("stream's place past its ids", |s| s.stream.ids[2] = 7),
    ("stream's count", |s| s.stream.count = 17),
    ("stream's count, far out", |s| s.stream.count = 255),
    ("stream's sizes", |s| {
        s.stream.ids[..5].fill(6);
        s.stream.count = 5;
    }),
    ("streaming", |s| s.stream.on = 2),
    ("streaming, far out", |s| s.stream.on = 255),
];

const HALF_READ: &[Damage] = &[
    ("held bytes: an opcode with no data", |s| {
        s.partial.bytes[0] = 128
    }),
    ("held bytes: past those kept", |s| s.partial.bytes[34] = 1),
    ("kept count", |s| s.partial.count = 4),
    ("kept count 0", |s| s.partial.count = 0),
    ("kept count past the places", |s| s.partial.count = 36),
    ("kept count, far out", |s| s.partial.count = usize::MAX),
    ("owed 0", |s| s.partial.remaining = 0),
    ("owed", |s| s.partial.remaining = 3),
    ("owed past 510", |s| s.partial.remaining = 511),
    ("owed, far out", |s| s.partial.remaining = usize::MAX),
];

/// Every call refuses the record with 8 and leaves it and the buffer as they were.
fn assert_refused(bad: &State, name: &str) {
    let mut board = *bad;
    let mut buffer = [MARK; LONGEST_ANSWER];
    let reply = board.byte(START, &image(), &mut buffer);
    assert_eq!((reply.number, reply.length), (BAD_RECORD, 0), "{name}");
    for bytes in [&[][..], &[START], &[142, 6], &[START; LOG_OUT_BYTES]] {
        let reply = board.run(bytes, &image(), &mut buffer);
        assert_eq!(
            (reply.number, reply.length, reply.read),
            (BAD_RECORD, 0, 0),
            "{name}"
        );
    }
    let reply = board.tick(&image(), &mut buffer);
    assert_eq!((reply.number, reply.length), (BAD_RECORD, 0), "{name}");
    assert_eq!(board.safety_report(true, true, true), BAD_RECORD, "{name}");
    assert_eq!(board.song_end(), BAD_RECORD, "{name}");
    assert!(!board.accepts() && !board.stop(&image()), "{name}");
    assert_eq!(board, *bad, "{name}");
    assert_eq!(buffer, [MARK; LONGEST_ANSWER], "{name}");
}

/// A good record is refused by no call.
fn assert_taken(good: &State) {
    let mut buffer = [0; LONGEST_ANSWER];
    let (mut a, mut b, mut c, mut d, mut e) = (*good, *good, *good, *good, *good);
    assert_ne!(a.byte(START, &image(), &mut buffer).number, BAD_RECORD);
    assert_eq!(b.run(&[], &image(), &mut buffer).number, WAITING);
    assert_ne!(c.tick(&image(), &mut buffer).number, BAD_RECORD);
    assert_eq!(
        (d.safety_report(true, true, true), e.song_end()),
        (DONE, DONE)
    );
    assert!([a, b, c, d, e].iter().all(State::accepts));
}

#[test]
fn each_field() {
    let good = busy_board();
    assert_taken(&good);
    for (name, damage) in [MODE_AND_MOTORS, SONGS_AND_STREAM, HALF_READ].concat() {
        let mut bad = good;
        damage(&mut bad);
        assert_ne!(bad, good, "{name}");
        assert_refused(&bad, name);
    }
}

#[test]
fn leds_and_infrared_may_be_anything() {
    let mut board = busy_board();
    for value in 0..=255 {
        board.kept.leds = [value; 3];
        board.kept.ir = value;
        assert!(board.accepts());
    }
}

#[test]
fn the_numbers_of_no_order_may_be_anything() {
    let mut board = State::power_on();
    board.motors.first = i16::MIN;
    board.motors.second = i16::MAX;
    assert_taken(&board);
}

#[test]
fn any_bytes_are_a_record() {
    const SIZE: usize = std::mem::size_of::<State>();
    let mut bytes = [0u8; SIZE];
    let mut seed = 1u64;
    for _ in 0..2000 {
        for byte in &mut bytes {
            seed = seed
                .wrapping_mul(6364136223846793005)
                .wrapping_add(1442695040888963407);
            *byte = (seed >> 56) as u8;
        }
        // SAFETY: a record is numbers alone, so that any bytes of its size are one.
        let board: State = unsafe { std::mem::transmute(bytes) };
        assert_refused(&board, "random bytes");
    }
}

#[test]
fn a_byte_changed_anywhere() {
    let good = busy_board();
    for place in 0..std::mem::size_of::<State>() {
        for value in [0, 1, 2, 4, 17, 128, 137, 255] {
            let mut board = good;
            let at: *mut State = &mut board;
            // SAFETY: the place is inside the record, in which any byte may stand.
            unsafe { at.cast::<u8>().add(place).write(value) };
            if board.accepts() {
                assert_taken(&board);
            } else {
                assert_refused(&board, "a byte changed");
            }
        }
    }
}

#[test]
fn power_on_makes_it_good_again() {
    let mut board = busy_board();
    board.mode = 4;
    assert!(!board.accepts());
    board = State::power_on();
    assert_taken(&board);
    assert_eq!(board.byte(START, &image(), &mut []).number, DONE);
}
