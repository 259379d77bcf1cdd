//! The host-side writer of commands.

use crate::board::{Answer, Number};
use crate::command;
use crate::frame::{FRAME_PLACES, MOST_COUNTED};

/// The payload places of a message: the notes of the longest song.
pub const PAYLOAD_PLACES: usize = 32;

/// A command for the writer. Which fields are its data depends on the opcode;
/// the others are ignored.
#[derive(Clone, Copy, Debug, PartialEq, Eq)]
pub struct Message {
    pub opcode: u8,
    pub a: u8,
    pub b: u8,
    pub c: u8,
    pub first: i16,
    pub second: i16,
    pub payload: [u8; PAYLOAD_PLACES],
}

/// Writes the message's frame at the buffer's start: done, with the frame's
/// length; 4 if it isn't an offered command with legal data; 7 if the frame is
/// longer than the buffer. It asks no mode.
pub fn write(message: &Message, buffer: &mut [u8]) -> Answer {
    let mut places = [0; FRAME_PLACES];
    let Some(length) = lay_out(message, &mut places) else {
        return Number::Data.into();
    };
    let frame = &places[..length];
    if command::parse(frame[0], &frame[1..]).is_none() {
        return Number::Data.into();
    }
    if length > buffer.len() {
        return Number::NoRoom.into();
    }
    buffer[..length].copy_from_slice(frame);
    Answer::written(length)
}

/// Lays out the frame of an offered opcode and gives its length. The data may
/// still be illegal, but for a count past its limit: no frame of such a count
/// fits the places.
fn lay_out(message: &Message, places: &mut [u8; FRAME_PLACES]) -> Option<usize> {
    places[0] = message.opcode;
    let mut length = 1;
    let mut add = |bytes: &[u8]| {
        places[length..length + bytes.len()].copy_from_slice(bytes);
        length += bytes.len();
    };
    match message.opcode {
        128 | 130..=135 | 143 => {}
        129 | 136 | 138 | 141 | 142 | 147 | 150 | 151 => add(&[message.a]),
        139 | 144 => add(&[message.a, message.b, message.c]),
        137 | 145 => {
            add(&message.first.to_be_bytes());
            add(&message.second.to_be_bytes());
        }
        140 if message.b <= MOST_COUNTED => {
            add(&[message.a, message.b]);
            add(&message.payload[..2 * usize::from(message.b)]);
        }
        148 | 149 if message.a <= MOST_COUNTED => {
            add(&[message.a]);
            add(&message.payload[..usize::from(message.a)]);
        }
        _ => return None,
    }
    Some(length)
}
