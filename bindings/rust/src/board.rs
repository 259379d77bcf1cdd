//! The board's calls.
//!
//! Of each call below the same is true, and its SAFETY comment says what is its own:
//!
//! - A reference is a pointer that is not null and is aligned for its type, and it
//!   lives longer than the call, which keeps nothing.
//! - A slice's pointer is good for as many bytes as its length says. An empty slice's
//!   may dangle: it is not null, and no byte of it is read or written.
//! - What a call writes, the record and the buffer, is borrowed exclusively, so that
//!   nothing else that is lent overlaps it.
//! - A record holds numbers alone, so that any bytes that a call reads or leaves in
//!   one are a `State`.

use core::mem::MaybeUninit;

use crate::numbers::{IMAGE_SIZE, LOG_OUT_BYTES, START};
use crate::raw;
use crate::record::State;
use crate::reply::{Reply, RunReply, WheelSpeeds};

impl State {
    /// The record at power-on: Off, motors off, nothing half read.
    #[must_use]
    pub fn power_on() -> State {
        // Zeroed, so that the bytes between two fields are not left uninitialised.
        let mut state = MaybeUninit::<State>::zeroed();
        // SAFETY: the pointer is to a local that is as large and as aligned as a record.
        // Zeros are a record already, and the call writes a record over them.
        unsafe {
            raw::board_power_on(state.as_mut_ptr());
            state.assume_init()
        }
    }

    /// One byte from the line: 9 until a frame is complete, then the command's number,
    /// with its effect and its answer where that is 0.
    ///
    /// `image` is what the sensors say now. A buffer of
    /// [`LONGEST_ANSWER`](crate::LONGEST_ANSWER) bytes always has room.
    pub fn byte(&mut self, b: u8, image: &[u8; IMAGE_SIZE], buffer: &mut [u8]) -> Reply {
        // SAFETY: record and buffer are borrowed exclusively; the image is read alone.
        unsafe { raw::board_byte(self, b, image, buffer.as_mut_ptr(), buffer.len()) }
    }

    /// Bytes from the line, until one gives a number other than 9 or they end.
    ///
    /// Send the answer, if there is one, and call it again with the
    /// [rest](RunReply::rest), unless the number is 8: a bad record reads no byte
    /// however often it is asked. No bytes give 9 and 0 read.
    ///
    /// ```
    /// use rawdhusaq::{State, BAD_RECORD, IMAGE_SIZE, LONGEST_ANSWER};
    ///
    /// let mut board = State::power_on();
    /// let mut buffer = [0; LONGEST_ANSWER];
    /// let mut left: &[u8] = &[128, 131, 142, 35];
    /// while !left.is_empty() {
    ///     let reply = board.run(left, &[0; IMAGE_SIZE], &mut buffer);
    ///     if reply.number == BAD_RECORD {
    ///         break;
    ///     }
    ///     println!("send {:?}", reply.answer(&buffer));
    ///     left = reply.rest(left);
    /// }
    /// assert_eq!(buffer[0], board.mode);
    /// ```
    ///
    /// Proved: from every record but a bad one, after any calls that read 511 bytes,
    /// all 128, the board is in Passive, nothing is half read and all motors are off.
    /// Fewer would not always do.
    pub fn run(&mut self, bytes: &[u8], image: &[u8; IMAGE_SIZE], buffer: &mut [u8]) -> RunReply {
        // SAFETY: record and buffer are borrowed exclusively. Bytes and image may share
        // memory, which does no harm, as both are read alone and nothing writes there.
        unsafe {
            raw::board_run(
                self,
                bytes.as_ptr(),
                bytes.len(),
                image,
                buffer.as_mut_ptr(),
                buffer.len(),
            )
        }
    }

    /// A safety report: wheel drop, cliff, powered charger. Gives 0, or 8.
    ///
    /// In Safe it stops the motors and enters Passive where wheel drop or charger is
    /// set, or where cliff is set and the base moves into it. In every other mode it
    /// changes nothing.
    #[must_use = "an 8 asks for a power-on"]
    pub fn safety_report(&mut self, drop: bool, cliff: bool, charger: bool) -> u8 {
        // SAFETY: the record is borrowed exclusively.
        unsafe { raw::board_safety_report(self, drop.into(), cliff.into(), charger.into()) }
    }

    /// A tick, as often as chunks are to be sent: where streaming is on and there is a
    /// list, its chunk is written. Gives 0 (and length 0 where there is nothing to
    /// send), 3 in Off, 7 or 8; the record stays as it is.
    ///
    /// A buffer of [`LONGEST_CHUNK`](crate::LONGEST_CHUNK) bytes always has room.
    pub fn tick(&mut self, image: &[u8; IMAGE_SIZE], buffer: &mut [u8]) -> Reply {
        // SAFETY: record and buffer are borrowed exclusively; the image is read alone.
        unsafe { raw::board_tick(self, image, buffer.as_mut_ptr(), buffer.len()) }
    }

    /// The song that plays has ended. Gives 0, or 8.
    #[must_use = "an 8 asks for a power-on"]
    pub fn song_end(&mut self) -> u8 {
        // SAFETY: the record is borrowed exclusively.
        unsafe { raw::board_song_end(self) }
    }

    /// Whether the board takes this record; where not, a byte, a run, a report, a tick and a
    /// song end all answer 8.
    #[must_use]
    pub fn accepts(&self) -> bool {
        // SAFETY: the record is read alone.
        unsafe { raw::board_accepts(self) != 0 }
    }

    /// Whether two records are the same in every field. Bytes between two fields are
    /// not part of a record.
    #[must_use]
    pub fn same(&self, other: &State) -> bool {
        // SAFETY: both records are read alone, so that they may be one and the same.
        unsafe { raw::board_same(self, other) != 0 }
    }

    /// The speed of each wheel by this record's wheel order. That of a record that
    /// [`accepts`](State::accepts) takes is never refused.
    pub fn wheel_speeds(&self) -> WheelSpeeds {
        wheel_speeds(self.motors.order, self.motors.first, self.motors.second)
    }

    /// Stops for certain, as when the link is lost or a driver logs out: feeds
    /// [`LOG_OUT_BYTES`] bytes [`START`] by runs, whatever is half read.
    ///
    /// True: the board is in Passive, nothing is half read and all motors are off.
    /// False: the record is bad and stays as it was; cut the motors at the hardware and
    /// begin again with [`State::power_on`].
    ///
    /// ```
    /// use rawdhusaq::{State, IMAGE_SIZE, PASSIVE};
    ///
    /// let mut board = State::power_on();
    /// assert!(board.stop(&[0; IMAGE_SIZE]) && board.mode == PASSIVE);
    /// board.mode = 77; // damaged
    /// assert!(!board.stop(&[0; IMAGE_SIZE]));
    /// ```
    #[must_use = "where it is false, the motors were not stopped"]
    pub fn stop(&mut self, image: &[u8; IMAGE_SIZE]) -> bool {
        let mut left: &[u8] = &[START; LOG_OUT_BYTES];
        while !left.is_empty() {
            // No buffer: a frame whose last byte is 128 has no answer.
            let reply = self.run(left, image, &mut []);
            // A bad record reads nothing, and would do so for ever.
            if reply.read == 0 {
                return false;
            }
            left = reply.rest(left);
        }
        true
    }
}

/// The speed of each wheel for a wheel order: a record's `motors.order`,
/// `motors.first` and `motors.second`.
///
/// Each is the nearest whole number to the curve's, halves away from zero, and at most
/// 500 either way. An order that is not legal gives number 4.
pub fn wheel_speeds(kind: u8, first: i16, second: i16) -> WheelSpeeds {
    // SAFETY: numbers go in and numbers come back; nothing is lent.
    unsafe { raw::wheel_speeds(kind, first, second) }
}
