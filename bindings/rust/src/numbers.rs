//! The numbers that cross the border, by name.

/// Done: the command's or the call's effect, and an answer of the given length.
pub const DONE: u8 = 0;
/// An opcode that does not exist. From here to [`BAD_RECORD`] the numbers are
/// refusals: nothing is written, and nothing changes but the frame that is read past.
pub const UNKNOWN: u8 = 1;
/// An opcode that is not offered: 152 to 158, scripts and waits.
pub const NOT_OFFERED: u8 = 2;
/// The command is not for this mode; also a tick in Off.
pub const WRONG_MODE: u8 = 3;
/// Data outside their range.
pub const NOT_LEGAL: u8 = 4;
/// Play of a song that was never set.
pub const NO_SONG: u8 = 5;
/// Play while a song plays.
pub const BUSY: u8 = 6;
/// The answer is longer than the lent buffer.
pub const NO_ROOM: u8 = 7;
/// The record is damaged: no byte was read, and it is as it was. Every later call
/// answers this too, until the board is powered on anew.
pub const BAD_RECORD: u8 = 8;
/// The byte was taken, and its frame is not complete. This is no refusal.
pub const WAITING: u8 = 9;

/// The mode after power-on, which takes [`START`] alone.
pub const OFF: u8 = 0;
/// The mode in which nothing moves, lights or sounds.
pub const PASSIVE: u8 = 1;
/// The mode in which a safety report can stop the robot.
pub const SAFE: u8 = 2;
/// The mode in which no safety report changes anything.
pub const FULL: u8 = 3;

/// The kind of no wheel order.
pub const NO_ORDER: u8 = 0;
/// The kind of a Drive: a velocity and a radius.
pub const DRIVE: u8 = 1;
/// The kind of a Direct: a speed for the right and for the left wheel.
pub const DIRECT: u8 = 2;

/// The byte that stops and enters Passive wherever it is read as an opcode.
pub const START: u8 = 128;

/// The bytes of a sensor image: packets 7 to 34.
pub const IMAGE_SIZE: usize = 40;
/// No byte and no run answers with more bytes.
pub const LONGEST_ANSWER: usize = 832;
/// No tick writes more bytes.
pub const LONGEST_CHUNK: usize = 258;
/// [`Message::write`](crate::Message::write) never writes more bytes.
pub const LONGEST_FRAME: usize = 35;
/// So many bytes [`START`] stop the board for certain.
pub const LOG_OUT_BYTES: usize = 511;
