//! The layout is the archive's, or the package does not compile.

use core::mem::{align_of, offset_of, size_of};

use crate::message::Message;
use crate::record::{Kept, Motors, Partial, Song, Songs, State, Stream};
use crate::reply::{Reply, RunReply, WheelSpeeds};

/// Asserts a type's size, its alignment, and where each field starts.
macro_rules! layout {
    ($type:ty, $size:literal, $align:literal, $($field:ident $start:literal),+) => {
        const _: () = {
            assert!(size_of::<$type>() == $size && align_of::<$type>() == $align);
            $(assert!(offset_of!($type, $field) == $start);)+
        };
    };
}

const _: () = assert!(size_of::<usize>() == 8);
layout!(Motors, 10, 2, order 0, first 2, second 4, duties 6);
layout!(Kept, 6, 1, baud 0, leds 1, outputs 4, ir 5);
layout!(Song, 33, 1, len 0, notes 1);
layout!(Songs, 530, 1, table 0, selected 528, playing 529);
layout!(Stream, 18, 1, ids 0, count 16, on 17);
layout!(Partial, 56, 8, bytes 0, count 40, remaining 48);
layout!(State, 624, 8, mode 0, motors 2, kept 12, songs 18, stream 548, partial 568);
layout!(Reply, 16, 8, number 0, length 8);
layout!(RunReply, 24, 8, number 0, length 8, read 16);
layout!(WheelSpeeds, 8, 2, number 0, right 2, left 4, capped 6);
layout!(Message, 40, 2, opcode 0, a 1, b 2, c 3, first 4, second 6, payload 8);
