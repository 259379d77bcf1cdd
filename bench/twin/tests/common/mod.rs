//! What the tests share.
#![allow(dead_code)]

use twin::board::{Answer, Board, Mode, Number};
use twin::packet::{Image, IMAGE_BYTES};

/// An image in which every byte tells its place.
pub fn image() -> Image {
    let mut image = [0; IMAGE_BYTES];
    for (place, byte) in image.iter_mut().enumerate() {
        *byte = 100 + place as u8;
    }
    image
}

/// A board in a mode, otherwise as after power-on.
pub fn in_mode(mode: Mode) -> Board {
    Board {
        mode: mode as u8,
        ..Board::power_on()
    }
}

/// Gives bytes one at a time with ample room, and the answer of each.
pub fn give(board: &mut Board, bytes: &[u8]) -> Vec<Answer> {
    let mut buffer = [0; 1024];
    bytes
        .iter()
        .map(|&byte| board.byte(byte, &image(), &mut buffer))
        .collect()
}

/// Gives bytes one at a time: all must wait but the last, whose number it gives.
pub fn give_frame(board: &mut Board, bytes: &[u8]) -> Number {
    let answers = give(board, bytes);
    let (last, before) = answers.split_last().expect("a frame has bytes");
    for answer in before {
        assert_eq!(*answer, Answer::from(Number::Waiting));
    }
    last.number
}

/// Whether nothing is half read.
pub fn holds_nothing(board: &Board) -> bool {
    board.held == Board::power_on().held
}

/// Whether the motors are off.
pub fn motors_off(board: &Board) -> bool {
    board.wheels.kind == 0 && board.duties == [0; 3]
}
