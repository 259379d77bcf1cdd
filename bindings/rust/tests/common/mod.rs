//! What the tests share.
#![allow(dead_code)]

use rawdhusaq::{Message, Motors, State, FULL, LONGEST_ANSWER, NO_ORDER, WAITING};

/// What a buffer is filled with, to see what a call writes.
pub const MARK: u8 = 0xA5;

/// Motors as at power-on.
pub const STILL: Motors = Motors {
    order: NO_ORDER,
    first: 0,
    second: 0,
    duties: [0; 3],
};

/// An image in which byte i is i.
pub fn image() -> [u8; 40] {
    std::array::from_fn(|place| place as u8)
}

/// A board in a mode, otherwise as at power-on.
pub fn in_mode(mode: u8) -> State {
    State {
        mode,
        ..State::power_on()
    }
}

/// Gives bytes one at a time with ample room, and the number of each.
pub fn numbers(board: &mut State, bytes: &[u8]) -> Vec<u8> {
    let mut buffer = [0; LONGEST_ANSWER];
    let mut give = |&b| board.byte(b, &image(), &mut buffer).number;
    bytes.iter().map(&mut give).collect()
}

/// Gives bytes one at a time: all must wait but the last, whose number and answer it
/// gives.
pub fn answer(board: &mut State, frame: &[u8]) -> (u8, Vec<u8>) {
    let (&last, before) = frame.split_last().expect("a frame has bytes");
    let waits = numbers(board, before);
    assert!(waits.iter().all(|&number| number == WAITING), "{frame:?}");
    let mut buffer = [MARK; LONGEST_ANSWER];
    let reply = board.byte(last, &image(), &mut buffer);
    assert!(buffer[reply.length..].iter().all(|&b| b == MARK));
    (reply.number, reply.answer(&buffer).to_vec())
}

/// The same of a frame that is not answered: its number.
pub fn frame(board: &mut State, frame: &[u8]) -> u8 {
    let (number, bytes) = answer(board, frame);
    assert_eq!(bytes, []);
    number
}

/// The frame of a message, which must be legal.
pub fn written(message: &Message) -> Vec<u8> {
    let mut buffer = [MARK; 40];
    let reply = message.write(&mut buffer);
    assert_eq!(reply.number, 0, "{message:?}");
    assert!(buffer[reply.length..].iter().all(|&b| b == MARK));
    reply.answer(&buffer).to_vec()
}

/// A board in Full on which all that can be set is set, and that is half way through a
/// Drive.
pub fn busy_board() -> State {
    let mut board = State::power_on();
    let bytes = [
        &[
            128, 132, 137, 0, 100, 0, 200, 144, 10, 20, 30, 139, 8, 9, 10,
        ][..],
        &[147, 5, 151, 77, 129, 11, 132, 137, 0, 100, 0, 200, 138, 7],
        &[140, 3, 2, 60, 32, 64, 32, 141, 3, 148, 2, 29, 13, 137, 1, 2],
    ]
    .concat();
    for number in numbers(&mut board, &bytes) {
        assert!([0, WAITING].contains(&number));
    }
    assert!(board.accepts() && board.mode == FULL && board.partial.remaining == 2);
    board
}
