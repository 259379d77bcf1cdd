//! Safety reports.

mod common;

use common::{frame, image, in_mode, numbers, written, STILL};
use rawdhusaq::*;

/// A board in Safe or Full that was given an order.
fn ordered(mode: u8, message: Message) -> State {
    let mut board = in_mode(mode);
    assert_eq!(frame(&mut board, &written(&message)), DONE);
    board
}

/// All three flags of the reports there are.
fn reports() -> impl Iterator<Item = (bool, bool, bool)> {
    (0..8).map(|bits| (bits & 1 != 0, bits & 2 != 0, bits & 4 != 0))
}

/// Whether a cliff stops a board in Safe that was given this order.
fn cliff_stops(message: Message) -> bool {
    let mut board = ordered(SAFE, message);
    let before = board;
    assert_eq!(board.safety_report(false, true, false), DONE);
    if board.mode == PASSIVE {
        assert!(board.motors.are_off());
        return true;
    }
    assert_eq!(board, before);
    false
}

#[test]
fn off_passive_and_full_stay() {
    let boards = [
        in_mode(OFF),
        in_mode(PASSIVE),
        in_mode(FULL),
        ordered(FULL, Message::drive(200, 500)),
        ordered(FULL, Message::drivers(7)),
    ];
    for before in boards {
        for (drop, cliff, charger) in reports() {
            let mut board = before;
            assert_eq!(board.safety_report(drop, cliff, charger), DONE);
            assert_eq!(board, before);
        }
    }
}

#[test]
fn in_safe_each_flag_is_its_own() {
    // Backing away on a wide curve, so that a cliff alone does not count.
    let before = ordered(SAFE, Message::drive(-200, 500));
    for (drop, cliff, charger) in reports() {
        let mut board = before;
        assert_eq!(board.safety_report(drop, cliff, charger), DONE);
        if drop || charger {
            assert_eq!(board, in_mode(PASSIVE));
        } else {
            assert_eq!(board, before);
        }
    }
}

#[test]
fn a_stop_turns_the_drivers_off_too() {
    let mut board = ordered(SAFE, Message::duties(32, 0, 128));
    let before = board;
    assert_eq!(board.safety_report(false, true, false), DONE);
    assert_eq!(board, before);
    assert_eq!(board.safety_report(true, false, false), DONE);
    assert_eq!(board.motors, STILL);
}

#[test]
fn a_cliff_and_a_drive() {
    for (velocity, radius, stops) in [
        (200, 500, true),
        (-200, 500, false),
        (-100, 164, true),
        (-100, 165, false),
        (-100, -164, true),
        (-100, -165, false),
        (0, 32767, false),
        (-100, -32768, false),
    ] {
        let order = Message::drive(velocity, radius);
        assert_eq!(cliff_stops(order), stops, "{velocity} {radius}");
    }
}

#[test]
fn a_cliff_and_a_direct() {
    for (right, left, stops) in [
        (-100, 1, true),
        (-100, 0, true),
        (-500, -50, true),
        (-500, -100, false),
        (-50, -500, true),
        (-49, -6, false),
        (-7, -7, false),
        (0, 0, false),
    ] {
        assert_eq!(
            cliff_stops(Message::direct(right, left)),
            stops,
            "{right} {left}"
        );
    }
}

#[test]
fn a_half_read_frame_stays() {
    let mut board = ordered(SAFE, Message::drive(200, 500));
    assert_eq!(numbers(&mut board, &[137, 0]), [WAITING, WAITING]);
    let held = board.partial;
    assert_eq!(board.safety_report(true, false, false), DONE);
    assert_eq!((board.mode, board.partial), (PASSIVE, held));
    // Its command is then judged in Passive.
    let reply = board.run(&[100, 1, 244], &image(), &mut []);
    assert_eq!((reply.number, reply.read), (WRONG_MODE, 3));
}
