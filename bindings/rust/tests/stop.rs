//! Stopping for certain: 511 bytes 128, and no fewer.

mod common;

use common::{busy_board, image, numbers, STILL};
use rawdhusaq::*;

/// In Full with wheels and drivers on, and these bytes half sent.
fn half_sent(bytes: &[u8]) -> State {
    let mut board = State::power_on();
    numbers(&mut board, &[128, 132, 137, 0, 200, 1, 244, 138, 7]);
    assert!(numbers(&mut board, bytes).iter().all(|&n| n == WAITING));
    assert!(board.mode == FULL && !board.motors.are_off());
    board
}

/// Whether it has stopped: Passive, nothing half read, motors off.
fn is_stopped(board: &State) -> bool {
    let nothing_held = board.partial == State::power_on().partial;
    board.mode == PASSIVE && nothing_held && board.motors.are_off()
}

/// Gives so many bytes 128 by runs, as a slice of them allows.
fn by_runs(board: &mut State, bytes: &[u8]) {
    let mut left = bytes;
    while !left.is_empty() {
        let reply = board.run(left, &image(), &mut []);
        assert!(reply.read > 0 && reply.number != BAD_RECORD);
        left = reply.rest(left);
    }
}

/// How many bytes 128 it takes until the board has stopped.
fn needed(half: &[u8]) -> usize {
    let mut board = half_sent(half);
    for count in 1..=LOG_OUT_BYTES {
        numbers(&mut board, &[START]);
        if is_stopped(&board) {
            return count;
        }
    }
    panic!("{half:?}: not stopped after 511 bytes");
}

#[test]
fn byte_by_byte_510_do_not_stop_and_511_do() {
    let mut board = half_sent(&[140, 0, 255]);
    let given = numbers(&mut board, &[START; 510]);
    // The last of them ends the song, which is past its legal length.
    assert!(given[..509].iter().all(|&n| n == WAITING));
    assert_eq!(given[509], NOT_LEGAL);
    assert!(board.mode == FULL && !board.motors.are_off());
    assert_eq!(numbers(&mut board, &[START]), [DONE]);
    assert!(is_stopped(&board));
}

#[test]
fn by_runs_510_do_not_stop_and_511_do() {
    let mut board = half_sent(&[140, 0, 255]);
    let first = board.run(&[START; 511], &image(), &mut []);
    assert_eq!((first.number, first.read), (NOT_LEGAL, 510));
    assert!(board.mode == FULL && !board.motors.are_off());
    let second = board.run(&[START], &image(), &mut []);
    assert_eq!((second.number, second.read), (DONE, 1));
    assert!(is_stopped(&board));
}

#[test]
fn runs_of_any_lengths() {
    for step in [1, 2, 7, 100, 509, 510, 511] {
        let mut board = half_sent(&[140, 0, 255]);
        for part in [START; 510].chunks(step) {
            by_runs(&mut board, part);
        }
        assert!(board.mode == FULL && !board.motors.are_off());
        by_runs(&mut board, &[START]);
        assert!(is_stopped(&board), "{step}");
    }
}

#[test]
fn the_least_numbers() {
    assert_eq!(needed(&[]), 1);
    assert_eq!(needed(&[137, 0]), 4);
    assert_eq!(needed(&[149]), 130);
    assert_eq!(needed(&[149, 255]), 256);
    assert_eq!(needed(&[140, 0]), 258);
    assert_eq!(needed(&[140]), 259);
    assert_eq!(needed(&[140, 0, 255]), LOG_OUT_BYTES);
}

#[test]
fn other_calls_between_do_no_harm() {
    let mut board = half_sent(&[140, 0, 255]);
    for _ in 0..LOG_OUT_BYTES {
        assert_eq!(board.safety_report(true, true, true), DONE);
        assert_eq!(board.tick(&image(), &mut []).number, DONE);
        assert_eq!(board.song_end(), DONE);
        numbers(&mut board, &[START]);
    }
    assert!(is_stopped(&board));
}

#[test]
fn stop_from_whatever_is_half_sent() {
    let frames: [&[u8]; 9] = [
        &[],
        &[129],
        &[137, 0, 100],
        &[140],
        &[140, 0],
        &[140, 0, 255],
        &[144, 1],
        &[149, 16, 6],
        &[152, 255],
    ];
    for half in frames {
        let mut board = half_sent(half);
        assert!(board.stop(&image()));
        assert!(is_stopped(&board), "{half:?}");
    }
    let mut off = State::power_on();
    assert!(off.stop(&image()) && is_stopped(&off));
}

#[test]
fn stop_leaves_the_rest() {
    let mut board = busy_board();
    let before = board;
    assert!(board.stop(&image()));
    assert_eq!(board.motors, STILL);
    assert_eq!(
        (board.songs, board.stream, board.kept),
        (before.songs, before.stream, before.kept)
    );
}

#[test]
fn stop_ends_for_a_bad_record() {
    let mut board = half_sent(&[140, 0, 255]);
    board.mode = 4;
    let before = board;
    assert!(!board.stop(&image()));
    assert_eq!(board, before);
    board = State::power_on();
    assert!(board.stop(&image()));
}
