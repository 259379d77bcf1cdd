//! Demo: 136 and its number.

mod common;

use common::{give, give_frame, image, in_mode, motors_off};
use twin::board::{Answer, Board, Mode, Number, RunAnswer, SafetyReport, WheelOrder};
use twin::check::is_good;
use twin::writer::{self, Message};

const MODES: [Mode; 4] = [Mode::Off, Mode::Passive, Mode::Safe, Mode::Full];

/// The legal numbers, written down once more: -1 to 9 as they are sent.
const LEGAL: [u8; 11] = [255, 0, 1, 2, 3, 4, 5, 6, 7, 8, 9];

/// A board in a mode with something in every field, and with the motors running
/// where they may.
fn busy_in(mode: Mode) -> Board {
    let mut board = in_mode(Mode::Full);
    let frames: [&[u8]; 9] = [
        &[139, 1, 2, 3],
        &[147, 5],
        &[151, 77],
        &[140, 3, 2, 60, 32, 61, 33],
        &[141, 3],
        &[148, 2, 29, 13],
        &[137, 0, 100, 1, 44],
        &[144, 1, 2, 128],
        &[140, 15, 1, 9, 9],
    ];
    for frame in frames {
        assert_eq!(give_frame(&mut board, frame), Number::Done);
    }
    board.baud = 7;
    board.mode = mode as u8;
    if matches!(mode, Mode::Off | Mode::Passive) {
        board.wheels = WheelOrder::none();
        board.duties = [0; 3];
    }
    assert!(is_good(&board) && board.playing == 1 && board.streaming == 1);
    board
}

/// What a Demo gives in a mode.
fn expected(mode: Mode, demo: u8) -> Number {
    match mode {
        Mode::Off => Number::WrongMode,
        _ if LEGAL.contains(&demo) => Number::Done,
        _ => Number::Data,
    }
}

/// The record after a Demo: Passive and stopped where it was done, and all else
/// as it was.
fn after(before: &Board, number: Number) -> Board {
    if number != Number::Done {
        return before.clone();
    }
    Board {
        mode: Mode::Passive as u8,
        wheels: WheelOrder::none(),
        duties: [0; 3],
        ..before.clone()
    }
}

#[test]
fn every_number_in_every_mode() {
    for mode in MODES {
        for demo in 0..=255 {
            let before = busy_in(mode);
            let number = expected(mode, demo);
            let mut board = before.clone();
            assert_eq!(give_frame(&mut board, &[136, demo]), number, "{demo}");
            assert_eq!(board, after(&before, number), "{demo} in {mode:?}");
            assert!(number != Number::Done || motors_off(&board));
        }
    }
}

#[test]
fn cut_as_two_bytes() {
    for mode in MODES {
        for demo in 0..=255 {
            let before = busy_in(mode);
            let number = expected(mode, demo);
            // A run ends with the number, and asks for no room.
            let mut board = before.clone();
            let answer = board.run(&[136, demo, 128, 128], &image(), &mut []);
            let ended = RunAnswer {
                number,
                length: 0,
                read: 2,
            };
            assert_eq!(answer, ended, "{demo} in {mode:?}");
            assert_eq!(board, after(&before, number));
        }
    }
}

#[test]
fn held_alone() {
    for mode in MODES {
        let before = busy_in(mode);
        let mut board = before.clone();
        assert_eq!(give_frame(&mut board, &[136]), Number::Waiting);
        let mut held = before.clone();
        held.held.places[0] = 136;
        held.held.used = 1;
        held.held.owed = 1;
        assert_eq!(board, held);
        assert!(is_good(&board));
        // A record that comes so is read on like one that was left so.
        for demo in [255, 0, 9, 10, 136] {
            let mut board = held.clone();
            let number = expected(mode, demo);
            assert_eq!(give_frame(&mut board, &[demo]), number);
            assert_eq!(board, after(&before, number));
        }
    }
}

#[test]
fn start_taken_for_the_number() {
    for mode in MODES {
        let before = busy_in(mode);
        let mut board = before.clone();
        let first = match mode {
            Mode::Off => Number::WrongMode,
            _ => Number::Data,
        };
        assert_eq!(give_frame(&mut board, &[136, 128]), first);
        assert_eq!(board, before);
        // The next one begins a frame.
        assert_eq!(give_frame(&mut board, &[128]), Number::Done);
        assert_eq!(board, after(&before, Number::Done));
    }
}

#[test]
fn calls_before_the_number_leave_the_frame() {
    let ample = &mut [0; 1024];
    for mode in MODES {
        for flags in 0..8 {
            let mut board = busy_in(mode);
            give(&mut board, &[136]);
            let held = board.held.clone();
            let report = SafetyReport {
                wheel_drop: flags & 1 != 0,
                cliff: flags & 2 != 0,
                charger: flags & 4 != 0,
            };
            assert_eq!(board.report(report), Number::Done);
            assert_eq!(board.held, held);
            // The base drives forward, so that every flag stops it in Safe.
            let stopped = mode == Mode::Safe && flags != 0;
            let now = if stopped { Mode::Passive } else { mode };
            assert_eq!(board.mode, now as u8);
            assert_eq!(motors_off(&board), now == Mode::Passive || now == Mode::Off);

            let tick = board.tick(&image(), ample);
            assert_eq!(tick.number == Number::WrongMode, mode == Mode::Off);
            assert_eq!(board.song_end(), Number::Done);
            assert_eq!(board.held, held);
            // The mode now in force judges the number.
            assert_eq!(give_frame(&mut board, &[9]), expected(now, 9));
            assert!(motors_off(&board));
        }
    }
}

#[test]
fn writer_of_every_number() {
    for demo in 0..=255 {
        // What isn't among its data is ignored.
        let message = Message {
            opcode: 136,
            a: demo,
            b: 99,
            c: 99,
            first: -1,
            second: 0,
            payload: [99; 32],
        };
        let legal = LEGAL.contains(&demo);
        for room in 0..4 {
            let mut buffer = [7; 4];
            let answer = writer::write(&message, &mut buffer[..room]);
            let (expected, bytes) = match (legal, room) {
                (false, _) => (Number::Data.into(), [7; 4]),
                (true, 0 | 1) => (Number::NoRoom.into(), [7; 4]),
                (true, _) => (Answer::written(2), [136, demo, 7, 7]),
            };
            assert_eq!(answer, expected, "{demo} in room {room}");
            assert_eq!(buffer, bytes);
        }
    }
}

#[test]
fn writer_writes_what_the_reader_takes() {
    for demo in LEGAL {
        let message = Message {
            opcode: 136,
            a: demo,
            b: 0,
            c: 0,
            first: 0,
            second: 0,
            payload: [0; 32],
        };
        let mut frame = [0; 2];
        assert_eq!(writer::write(&message, &mut frame), Answer::written(2));
        let mut board = busy_in(Mode::Safe);
        assert_eq!(give_frame(&mut board, &frame), Number::Done);
    }
}
