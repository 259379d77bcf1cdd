//! The state record, field for field as the archive has it.
//!
//! It holds numbers alone, no bool and no enum, so that any bytes are a record,
//! good or bad. The fields are open to be read, and to be stored and restored; a
//! number outside its range makes a bad record, which the board's calls answer with
//! 8, and any other change is taken. A record that is restored may be one that drives:
//! `State::stop` it before the motors are set. It has no check sum.

use crate::numbers::NO_ORDER;

/// What the motors are to do.
#[repr(C)]
#[derive(Clone, Copy, Debug, PartialEq, Eq)]
pub struct Motors {
    /// The kind of wheel order: [`NO_ORDER`], [`DRIVE`](crate::DRIVE) or
    /// [`DIRECT`](crate::DIRECT).
    pub order: u8,
    /// Of a Drive the velocity, of a Direct the right wheel, mm/s.
    pub first: i16,
    /// Of a Drive the radius in mm, of a Direct the left wheel, mm/s.
    pub second: i16,
    /// Of driver outputs 0, 1 and 2, each 0 to 128; 128 is full.
    pub duties: [u8; 3],
}

impl Motors {
    /// Whether wheels and drivers are off. A Drive of velocity 0 is not off.
    #[must_use]
    pub fn are_off(&self) -> bool {
        self.order == NO_ORDER && self.duties == [0; 3]
    }
}

/// What is kept as it was sent.
#[repr(C)]
#[derive(Clone, Copy, Debug, PartialEq, Eq)]
pub struct Kept {
    /// The code for the serial speed, 0 to 11; 10 at power-on.
    pub baud: u8,
    /// Bits, color and intensity.
    pub leds: [u8; 3],
    /// Digital outputs, 0 to 7.
    pub outputs: u8,
    /// The byte to send by infrared.
    pub ir: u8,
}

/// A song.
#[repr(C)]
#[derive(Clone, Copy, Debug, PartialEq, Eq)]
pub struct Song {
    /// How many notes, 0 to 16; 0: not set.
    pub len: u8,
    /// Two bytes a note, pitch and duration; 0 past the last.
    pub notes: [u8; 32],
}

/// The songs, and which of them plays.
#[repr(C)]
#[derive(Clone, Copy, Debug, PartialEq, Eq)]
pub struct Songs {
    /// All 16 songs.
    pub table: [Song; 16],
    /// The selected song, 0 to 15.
    pub selected: u8,
    /// 1 where it plays, 0 where not; any other number is a bad record.
    pub playing: u8,
}

/// What a tick sends.
#[repr(C)]
#[derive(Clone, Copy, Debug, PartialEq, Eq)]
pub struct Stream {
    /// Packet ids in the first places, 0 past them.
    pub ids: [u8; 16],
    /// How many ids.
    pub count: u8,
    /// 1 where streaming is on, 0 where not; any other number is a bad record.
    pub on: u8,
}

/// The frame that is half read.
#[repr(C)]
#[derive(Clone, Copy, Debug, PartialEq, Eq)]
pub struct Partial {
    /// What is kept of it, 0 past that.
    pub bytes: [u8; 35],
    /// How many bytes of it are kept; 0: nothing is half read.
    pub count: usize,
    /// How many bytes are still to come, where that is known; at most 510.
    pub remaining: usize,
}

/// The state record of a board: plain data, of which each board has one.
///
/// Two records are equal where they are the same in every field, by [`State::same`].
#[repr(C)]
#[derive(Clone, Copy, Debug)]
pub struct State {
    /// [`OFF`](crate::OFF), [`PASSIVE`](crate::PASSIVE), [`SAFE`](crate::SAFE) or
    /// [`FULL`](crate::FULL).
    pub mode: u8,
    /// What the motors are to do.
    pub motors: Motors,
    /// What is kept as it was sent.
    pub kept: Kept,
    /// The songs.
    pub songs: Songs,
    /// What a tick sends.
    pub stream: Stream,
    /// The frame that is half read.
    pub partial: Partial,
}

impl PartialEq for State {
    fn eq(&self, other: &State) -> bool {
        self.same(other)
    }
}

// Every field is a number, and each number is equal to itself.
impl Eq for State {}
