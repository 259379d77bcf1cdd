//! Commands for the host-side writer.

use crate::raw;
use crate::reply::Reply;

/// A command in flat fields. Which of them are a command's data depends on the opcode;
/// the others are ignored.
///
/// The functions below make one of each command's numbers and refuse nothing: whether
/// they are legal is for [`Message::write`] to say.
#[repr(C)]
#[derive(Clone, Copy, Debug, PartialEq, Eq)]
pub struct Message {
    /// 128 to 145, 147 to 151; any other is refused with 4.
    pub opcode: u8,
    /// The first data byte as it is sent: of 140 the song's number, of 148 and 149 the
    /// count of ids.
    pub a: u8,
    /// The second data byte: of 140 the length in notes.
    pub b: u8,
    /// The third data byte.
    pub c: u8,
    /// Of 137 the velocity, of 145 the right wheel.
    pub first: i16,
    /// Of 137 the radius, of 145 the left wheel.
    pub second: i16,
    /// Of 140 the notes, of 148 and 149 the ids, in the first places.
    pub payload: [u8; 32],
}

impl Message {
    /// Writes the command's frame at the buffer's start: 4 where the opcode is none of a
    /// command's or the data are not legal, then 7 where the buffer is too short, then 0
    /// and the frame. It asks no mode and no record.
    ///
    /// A buffer of [`LONGEST_FRAME`](crate::LONGEST_FRAME) bytes always has room.
    pub fn write(&self, buffer: &mut [u8]) -> Reply {
        // SAFETY: both are references, so that neither pointer is null and the message is
        // aligned; the message is read alone and holds numbers alone. The buffer's pointer
        // is good for its length, and is borrowed exclusively. If it is empty, it may
        // dangle, and no byte of it is written.
        unsafe { raw::host_write(self, buffer.as_mut_ptr(), buffer.len()) }
    }

    /// 128: enters Passive, stop.
    #[must_use]
    pub const fn start() -> Message {
        bytes(128, 0, 0, 0)
    }

    /// 129: a code for the serial speed, 0 to 11; enters Passive, stop.
    #[must_use]
    pub const fn baud(code: u8) -> Message {
        bytes(129, code, 0, 0)
    }

    /// 130: from Passive to Safe.
    #[must_use]
    pub const fn control() -> Message {
        bytes(130, 0, 0, 0)
    }

    /// 131: enters Safe.
    #[must_use]
    pub const fn safe() -> Message {
        bytes(131, 0, 0, 0)
    }

    /// 132: enters Full.
    #[must_use]
    pub const fn full() -> Message {
        bytes(132, 0, 0, 0)
    }

    /// 133: enters Passive, stop.
    #[must_use]
    pub const fn power() -> Message {
        bytes(133, 0, 0, 0)
    }

    /// 134: enters Passive, stop.
    #[must_use]
    pub const fn spot() -> Message {
        bytes(134, 0, 0, 0)
    }

    /// 135: enters Passive, stop.
    #[must_use]
    pub const fn cover() -> Message {
        bytes(135, 0, 0, 0)
    }

    /// 136: a demo's number, -1 to 9; enters Passive, stop.
    #[must_use]
    pub const fn demo(number: i8) -> Message {
        // Sent in two's complement: -1 as 255.
        bytes(136, number as u8, 0, 0)
    }

    /// 137: velocity in mm/s, -500 to 500; radius in mm, -2000 to 2000 but not 0, or
    /// 32767 or -32768 for straight on.
    #[must_use]
    pub const fn drive(velocity: i16, radius: i16) -> Message {
        words(137, velocity, radius)
    }

    /// 138: a bit for each driver, 0 to 7.
    #[must_use]
    pub const fn drivers(bits: u8) -> Message {
        bytes(138, bits, 0, 0)
    }

    /// 139: LED bits, color and intensity.
    #[must_use]
    pub const fn leds(bits: u8, color: u8, intensity: u8) -> Message {
        bytes(139, bits, color, intensity)
    }

    /// 140: a song's number, 0 to 15, and its 1 to 16 notes, each pitch and duration.
    ///
    /// Of more than 16 notes the first 16 are kept, and their count, at most 255: the
    /// writer refuses it with 4, and never shortens a song.
    ///
    /// ```
    /// use rawdhusaq::{Message, LONGEST_FRAME, NOT_LEGAL};
    ///
    /// let mut buffer = [0; LONGEST_FRAME];
    /// let frame = Message::song(0, &[(60, 32), (64, 32)]).write(&mut buffer);
    /// assert_eq!(frame.answer(&buffer), [140, 0, 2, 60, 32, 64, 32]);
    /// let frame = Message::song(0, &[(60, 32); 17]).write(&mut buffer);
    /// assert_eq!(frame.number, NOT_LEGAL);
    /// ```
    #[must_use]
    pub fn song(number: u8, notes: &[(u8, u8)]) -> Message {
        let mut message = bytes(140, number, count(notes.len()), 0);
        let places = message.payload.chunks_exact_mut(2);
        for (place, &(pitch, duration)) in places.zip(notes) {
            place.copy_from_slice(&[pitch, duration]);
        }
        message
    }

    /// 141: plays a song, 0 to 15.
    #[must_use]
    pub const fn play(number: u8) -> Message {
        bytes(141, number, 0, 0)
    }

    /// 142: asks for a packet, 0 to 42.
    #[must_use]
    pub const fn sensors(id: u8) -> Message {
        bytes(142, id, 0, 0)
    }

    /// 143: enters Passive, stop.
    #[must_use]
    pub const fn dock() -> Message {
        bytes(143, 0, 0, 0)
    }

    /// 144: duties of drivers 2, 1 and 0, in this order, each 0 to 128.
    #[must_use]
    pub const fn duties(two: u8, one: u8, zero: u8) -> Message {
        bytes(144, two, one, zero)
    }

    /// 145: the right and the left wheel, mm/s, each -500 to 500.
    #[must_use]
    pub const fn direct(right: i16, left: i16) -> Message {
        words(145, right, left)
    }

    /// 147: the three digital outputs, 0 to 7.
    #[must_use]
    pub const fn outputs(bits: u8) -> Message {
        bytes(147, bits, 0, 0)
    }

    /// 148: the packets that each tick is to send, at most 16 ids of 0 to 42, their sizes
    /// and their number together at most 255. No ids empty the list.
    ///
    /// Of more than 32 ids the first 32 are kept, and their count, at most 255: the
    /// writer refuses it with 4, and never shortens a list.
    #[must_use]
    pub fn stream(ids: &[u8]) -> Message {
        list(148, ids)
    }

    /// 149: asks for packets, at most 16 ids of 0 to 42. Of too many it does as
    /// [`Message::stream`].
    #[must_use]
    pub fn query_list(ids: &[u8]) -> Message {
        list(149, ids)
    }

    /// 150: 0 turns streaming off, 1 on; the list stays.
    #[must_use]
    pub const fn pause(on: u8) -> Message {
        bytes(150, on, 0, 0)
    }

    /// 151: the byte to send by infrared.
    #[must_use]
    pub const fn infrared(byte: u8) -> Message {
        bytes(151, byte, 0, 0)
    }
}

/// A command of up to three data bytes.
const fn bytes(opcode: u8, a: u8, b: u8, c: u8) -> Message {
    Message {
        opcode,
        a,
        b,
        c,
        first: 0,
        second: 0,
        payload: [0; 32],
    }
}

/// A command of two sixteen-bit numbers.
const fn words(opcode: u8, first: i16, second: i16) -> Message {
    Message {
        first,
        second,
        ..bytes(opcode, 0, 0, 0)
    }
}

/// A command of ids.
fn list(opcode: u8, ids: &[u8]) -> Message {
    let mut message = bytes(opcode, count(ids.len()), 0, 0);
    for (place, &id) in message.payload.iter_mut().zip(ids) {
        *place = id;
    }
    message
}

/// A count as it is sent. It must not wrap: 272 notes are not 16.
fn count(length: usize) -> u8 {
    u8::try_from(length).unwrap_or(u8::MAX)
}
