//! The cases that the rules show.

mod common;

use common::{answer, frame, image, in_mode, numbers, MARK};
use rawdhusaq::*;

/// The kind and the two numbers of the wheel order.
fn order(board: &State) -> (u8, i16, i16) {
    (board.motors.order, board.motors.first, board.motors.second)
}

#[test]
fn w1_start_in_off() {
    let mut board = State::power_on();
    assert_eq!(frame(&mut board, &[128]), DONE);
    assert_eq!(board, in_mode(PASSIVE));
}

#[test]
fn w2_safe_in_off() {
    let mut board = State::power_on();
    assert_eq!(frame(&mut board, &[131]), WRONG_MODE);
    assert_eq!(board, State::power_on());
}

#[test]
fn w3_drive_in_safe() {
    let mut board = in_mode(SAFE);
    assert_eq!(frame(&mut board, &[137, 255, 56, 1, 244]), DONE);
    assert_eq!(order(&board), (DRIVE, -200, 500));
}

#[test]
fn w3_by_a_run() {
    let mut board = in_mode(SAFE);
    let bytes = [137, 255, 56, 1, 244, 137];
    let reply = board.run(&bytes, &image(), &mut []);
    assert_eq!((reply.number, reply.length, reply.read), (DONE, 0, 5));
    assert_eq!(reply.rest(&bytes), [137]);
    assert_eq!(order(&board), (DRIVE, -200, 500));
}

#[test]
fn w4_drive_in_passive() {
    let mut board = in_mode(PASSIVE);
    assert_eq!(frame(&mut board, &[137, 255, 56, 1, 244]), WRONG_MODE);
    assert_eq!(board, in_mode(PASSIVE));
}

#[test]
fn w5_straight() {
    let mut board = in_mode(SAFE);
    assert_eq!(frame(&mut board, &[137, 0, 100, 128, 0]), DONE);
    assert_eq!(order(&board), (DRIVE, 100, -32768));
}

#[test]
fn w6_w7_direct() {
    let mut board = in_mode(FULL);
    assert_eq!(frame(&mut board, &[145, 1, 244, 254, 12]), DONE);
    assert_eq!(order(&board), (DIRECT, 500, -500));
    let before = board;
    assert_eq!(frame(&mut board, &[145, 1, 245, 0, 0]), NOT_LEGAL);
    assert_eq!(board, before);
}

#[test]
fn w8_a_song_of_no_notes() {
    let mut board = in_mode(PASSIVE);
    assert_eq!(
        numbers(&mut board, &[140, 0, 0]),
        [WAITING, WAITING, NOT_LEGAL]
    );
    assert_eq!(board, in_mode(PASSIVE));
}

#[test]
fn w9_510_bytes_owed() {
    let mut board = in_mode(PASSIVE);
    assert_eq!(numbers(&mut board, &[140, 0, 255]), [WAITING; 3]);
    assert_eq!((board.partial.count, board.partial.remaining), (3, 510));
}

#[test]
fn w10_a_list_of_no_ids() {
    let mut board = in_mode(PASSIVE);
    assert_eq!(answer(&mut board, &[149, 0]), (DONE, vec![]));
}

#[test]
fn w11_room_for_all_packets() {
    for (room, number) in [(51, NO_ROOM), (52, DONE)] {
        let mut board = in_mode(PASSIVE);
        let mut buffer = [MARK; 60];
        let reply = board.run(&[142, 6], &image(), &mut buffer[..room]);
        assert_eq!((reply.number, reply.read), (number, 2));
        let length = if number == DONE { 52 } else { 0 };
        assert_eq!(reply.length, length);
        assert_eq!(buffer[..length.min(40)], image()[..length.min(40)]);
        assert!(buffer[length..].iter().all(|&b| b == MARK));
        assert_eq!(board, in_mode(PASSIVE));
    }
}

#[test]
fn w12_a_stream_by_its_sizes() {
    let mut board = in_mode(PASSIVE);
    assert_eq!(frame(&mut board, &[148, 4, 6, 6, 6, 6]), DONE);
    assert_eq!((board.stream.count, board.stream.on), (4, 1));
    let before = board;
    assert_eq!(frame(&mut board, &[148, 5, 6, 6, 6, 6, 6]), NOT_LEGAL);
    assert_eq!(board, before);
}

#[test]
fn w13_a_chunk() {
    let mut board = in_mode(PASSIVE);
    assert_eq!(frame(&mut board, &[148, 2, 29, 13]), DONE);
    let mut image = [0; IMAGE_SIZE];
    image[30..32].copy_from_slice(&[2, 25]);
    let before = board;
    let mut buffer = [MARK; LONGEST_CHUNK];
    let reply = board.tick(&image, &mut buffer);
    assert_eq!(reply.number, DONE);
    assert_eq!(reply.answer(&buffer), [19, 5, 29, 2, 25, 13, 0, 182]);
    assert!(buffer[8..].iter().all(|&b| b == MARK));
    assert_eq!(board, before);
}

#[test]
fn a_tick_with_nothing_to_send() {
    let mut buffer = [MARK; 8];
    let mut board = State::power_on();
    assert_eq!(board.tick(&image(), &mut buffer).number, WRONG_MODE);
    let mut board = in_mode(PASSIVE);
    let reply = board.tick(&image(), &mut buffer);
    assert_eq!((reply.number, reply.length), (DONE, 0));
    assert_eq!(frame(&mut board, &[148, 1, 7]), DONE);
    assert_eq!(board.tick(&image(), &mut buffer[..4]).number, NO_ROOM);
    assert_eq!(frame(&mut board, &[150, 0]), DONE);
    assert_eq!(board.tick(&image(), &mut buffer).length, 0);
    assert_eq!(buffer, [MARK; 8]);
}

#[test]
fn duties_and_drivers() {
    let mut board = in_mode(SAFE);
    assert_eq!(frame(&mut board, &[144, 128, 0, 1]), DONE);
    assert_eq!(board.motors.duties, [1, 0, 128]);
    assert_eq!(frame(&mut board, &[144, 129, 0, 1]), NOT_LEGAL);
    assert_eq!(board.motors.duties, [1, 0, 128]);
    assert_eq!(frame(&mut board, &[138, 7]), DONE);
    assert_eq!(board.motors.duties, [128; 3]);
}

#[test]
fn every_number_is_given() {
    let mut board = in_mode(SAFE);
    assert_eq!(frame(&mut board, &[146]), UNKNOWN);
    assert_eq!(frame(&mut board, &[153]), NOT_OFFERED);
    assert_eq!(frame(&mut board, &[130]), WRONG_MODE);
    assert_eq!(frame(&mut board, &[129, 12]), NOT_LEGAL);
    assert_eq!(frame(&mut board, &[141, 3]), NO_SONG);
    assert_eq!(board, in_mode(SAFE));
    assert_eq!(frame(&mut board, &[140, 3, 1, 69, 64]), DONE);
    assert_eq!(frame(&mut board, &[141, 3]), DONE);
    assert_eq!(frame(&mut board, &[141, 3]), BUSY);
    assert_eq!(board.song_end(), DONE);
    assert_eq!(frame(&mut board, &[141, 3]), DONE);
    assert_eq!(board.byte(142, &image(), &mut []).number, WAITING);
    assert_eq!(board.byte(35, &image(), &mut []).number, NO_ROOM);
    board.mode = 4;
    assert_eq!(board.byte(128, &image(), &mut []).number, BAD_RECORD);
}

#[test]
fn the_longest_answer_has_room() {
    let mut board = in_mode(PASSIVE);
    let list = [&[149, 16][..], &[6; 16]].concat();
    let (number, bytes) = answer(&mut board, &list);
    assert_eq!((number, bytes.len()), (DONE, LONGEST_ANSWER));
}

#[test]
fn the_longest_chunk_has_room() {
    let mut board = in_mode(PASSIVE);
    assert_eq!(frame(&mut board, &[148, 7, 6, 6, 6, 6, 4, 4, 5]), DONE);
    let mut buffer = [0; LONGEST_CHUNK];
    let reply = board.tick(&image(), &mut buffer);
    assert_eq!((reply.number, reply.length), (DONE, LONGEST_CHUNK));
    let sum = buffer[1..]
        .iter()
        .fold(0, |sum: u8, &b| sum.wrapping_add(b));
    assert_eq!((buffer[0], sum), (19, 0));
}

#[test]
fn no_bytes() {
    let mut board = in_mode(PASSIVE);
    let reply = board.run(&[], &image(), &mut []);
    assert_eq!((reply.number, reply.length, reply.read), (WAITING, 0, 0));
    assert_eq!(board, in_mode(PASSIVE));
}

#[test]
fn a_buffer_of_length_0() {
    let mut board = in_mode(PASSIVE);
    let none: &mut [u8] = &mut [];
    assert_eq!(board.run(&[142, 35], &image(), none).number, NO_ROOM);
    assert_eq!(board.run(&[149, 0], &image(), none).number, DONE);
    assert_eq!(board.run(&[148, 1, 35], &image(), none).number, DONE);
    assert_eq!(board.tick(&image(), none).number, NO_ROOM);
    assert_eq!(Message::start().write(none).number, NO_ROOM);
    assert_eq!(Message::play(16).write(none).number, NOT_LEGAL);
}

#[test]
fn bytes_and_image_may_be_one() {
    // Both are read alone, so that Rust lets them share memory.
    let mut shared = [0; IMAGE_SIZE];
    shared[..2].copy_from_slice(&[142, 7]);
    let mut buffer = [MARK; 4];
    let reply = in_mode(SAFE).run(&shared, &shared, &mut buffer);
    assert_eq!((reply.number, reply.length, reply.read), (DONE, 1, 2));
    assert_eq!(buffer, [142, MARK, MARK, MARK]);
}
