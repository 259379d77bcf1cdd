//! What calls give back.

/// A number, and the length of the answer at the buffer's start.
#[repr(C)]
#[derive(Clone, Copy, Debug, PartialEq, Eq)]
#[must_use = "an answer is to be sent, and an 8 asks for a power-on"]
pub struct Reply {
    /// [`DONE`](crate::DONE) to [`WAITING`](crate::WAITING).
    pub number: u8,
    /// Of the answer; 0 with every number but 0.
    pub length: usize,
}

impl Reply {
    /// The answer's bytes, of the buffer that was lent to the call. Of a buffer that
    /// is too short to be that one, none.
    #[must_use]
    pub fn answer<'a>(&self, buffer: &'a [u8]) -> &'a [u8] {
        buffer.get(..self.length).unwrap_or_default()
    }
}

/// A number, the length of the answer, and how many bytes were read.
#[repr(C)]
#[derive(Clone, Copy, Debug, PartialEq, Eq)]
#[must_use = "the bytes that were not read are to be given again, unless the number is 8"]
pub struct RunReply {
    /// [`DONE`](crate::DONE) to [`WAITING`](crate::WAITING).
    pub number: u8,
    /// Of the answer; 0 with every number but 0.
    pub length: usize,
    /// How many of the bytes were read; those after them are to be given again.
    pub read: usize,
}

impl RunReply {
    /// The answer's bytes, of the buffer that was lent to the call. Of a buffer that
    /// is too short to be that one, none.
    #[must_use]
    pub fn answer<'a>(&self, buffer: &'a [u8]) -> &'a [u8] {
        buffer.get(..self.length).unwrap_or_default()
    }

    /// What is left to be given again, of the bytes that were lent to the call.
    #[must_use]
    pub fn rest<'a>(&self, bytes: &'a [u8]) -> &'a [u8] {
        bytes.get(self.read..).unwrap_or_default()
    }
}

/// The speed of each wheel.
#[repr(C)]
#[derive(Clone, Copy, Debug, PartialEq, Eq)]
#[must_use]
pub struct WheelSpeeds {
    /// [`DONE`](crate::DONE), or [`NOT_LEGAL`](crate::NOT_LEGAL) where the order is
    /// not legal; then both speeds are 0.
    pub number: u8,
    /// Of the right wheel, mm/s, -500 to 500.
    pub right: i16,
    /// Of the left wheel, mm/s, -500 to 500.
    pub left: i16,
    /// 1 where either was cut down to 500, so that the base leaves its curve.
    pub capped: u8,
}
