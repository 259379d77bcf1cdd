//! Whether a record is good.
//!
//! Each item of the rules' list of bad records is a small function of its own,
//! so that a test input can be known to break one item and no other.

use std::ops::RangeInclusive;

use crate::board::{Board, Mode, WheelOrder, LIST_PLACES};
use crate::command;
use crate::frame::{self, HeldFrame, Shape, FRAME_PLACES, MOST_COUNTED};
use crate::packet;

/// An item of the list of bad records.
#[derive(Clone, Copy, Debug, PartialEq, Eq)]
pub enum Item {
    Mode,
    OrderKind,
    MotorNotOff,
    WheelOrder,
    Duty,
    Output,
    Baud,
    Selected,
    StreamCount,
    StreamId,
    StreamSizes,
    SongLength,
    PlayingFlag,
    StreamingFlag,
    PlayingUnset,
    UnusedSong,
    UnusedList,
    UnusedFrame,
    HeldBytes,
    HeldOwed,
}

impl Item {
    /// All items.
    pub const ALL: [Item; 20] = [
        Item::Mode,
        Item::OrderKind,
        Item::MotorNotOff,
        Item::WheelOrder,
        Item::Duty,
        Item::Output,
        Item::Baud,
        Item::Selected,
        Item::StreamCount,
        Item::StreamId,
        Item::StreamSizes,
        Item::SongLength,
        Item::PlayingFlag,
        Item::StreamingFlag,
        Item::PlayingUnset,
        Item::UnusedSong,
        Item::UnusedList,
        Item::UnusedFrame,
        Item::HeldBytes,
        Item::HeldOwed,
    ];

    /// Its name in tables.
    pub fn name(self) -> &'static str {
        match self {
            Item::Mode => "mode",
            Item::OrderKind => "order-kind",
            Item::MotorNotOff => "motor-not-off",
            Item::WheelOrder => "wheel-order",
            Item::Duty => "duty",
            Item::Output => "output",
            Item::Baud => "baud",
            Item::Selected => "selected",
            Item::StreamCount => "stream-list-count",
            Item::StreamId => "stream-list-id",
            Item::StreamSizes => "stream-list-sizes",
            Item::SongLength => "song-length",
            Item::PlayingFlag => "playing-flag",
            Item::StreamingFlag => "streaming-flag",
            Item::PlayingUnset => "playing-unset",
            Item::UnusedSong => "unused-song",
            Item::UnusedList => "unused-list",
            Item::UnusedFrame => "unused-frame",
            Item::HeldBytes => "held-frame-bytes",
            Item::HeldOwed => "held-frame-owed",
        }
    }

    /// Whether a record keeps to this item.
    pub fn kept(self, board: &Board) -> bool {
        match self {
            Item::Mode => mode_named(board),
            Item::OrderKind => order_kind_named(board),
            Item::MotorNotOff => motors_off_at_rest(board),
            Item::WheelOrder => board.wheels.in_range(),
            Item::Duty => duties_in_range(board),
            Item::Output => board.outputs <= 7,
            Item::Baud => board.baud <= 11,
            Item::Selected => board.selected <= 15,
            Item::StreamCount => list_count_in_range(board),
            Item::StreamId => list_ids_in_range(board),
            Item::StreamSizes => list_sizes_in_range(board),
            Item::SongLength => song_lengths_in_range(board),
            Item::PlayingFlag => board.playing <= 1,
            Item::StreamingFlag => board.streaming <= 1,
            Item::PlayingUnset => playing_is_set(board),
            Item::UnusedSong => unused_notes_are_zero(board),
            Item::UnusedList => unused_ids_are_zero(board),
            Item::UnusedFrame => unused_frame_is_zero(&board.held),
            Item::HeldBytes => possible_owed(&board.held).is_some(),
            Item::HeldOwed => owed_is_possible(&board.held),
        }
    }
}

/// Whether a record is good: whether it keeps to every item.
pub fn is_good(board: &Board) -> bool {
    mode_named(board)
        && order_kind_named(board)
        && motors_off_at_rest(board)
        && board.wheels.in_range()
        && duties_in_range(board)
        && board.outputs <= 7
        && board.baud <= 11
        && board.selected <= 15
        && list_count_in_range(board)
        && list_ids_in_range(board)
        && list_sizes_in_range(board)
        && song_lengths_in_range(board)
        && board.playing <= 1
        && board.streaming <= 1
        && playing_is_set(board)
        && unused_notes_are_zero(board)
        && unused_ids_are_zero(board)
        && unused_frame_is_zero(&board.held)
        && possible_owed(&board.held).is_some_and(|owed| owed.contains(&board.held.owed))
}

/// The one item that a record breaks, if it breaks exactly one.
pub fn only_broken(board: &Board) -> Option<Item> {
    let mut broken = Item::ALL.into_iter().filter(|item| !item.kept(board));
    let first = broken.next()?;
    broken.next().is_none().then_some(first)
}

fn mode_named(board: &Board) -> bool {
    Mode::from_code(board.mode).is_some()
}

fn order_kind_named(board: &Board) -> bool {
    matches!(
        board.wheels.kind,
        WheelOrder::NONE | WheelOrder::DRIVE | WheelOrder::DIRECT
    )
}

fn motors_off_at_rest(board: &Board) -> bool {
    let at_rest = board.mode == Mode::Off as u8 || board.mode == Mode::Passive as u8;
    let off = board.wheels.kind == WheelOrder::NONE && board.duties == [0; 3];
    !at_rest || off
}

fn duties_in_range(board: &Board) -> bool {
    board.duties.iter().all(|&duty| duty <= 128)
}

fn list_count_in_range(board: &Board) -> bool {
    usize::from(board.list.used) <= LIST_PLACES
}

/// How many places of the list are in use; never more than there are.
fn list_used(board: &Board) -> usize {
    usize::from(board.list.used).min(LIST_PLACES)
}

fn list_ids_in_range(board: &Board) -> bool {
    board.list.places[..list_used(board)]
        .iter()
        .all(|&id| packet::is_id(id))
}

/// The rule on sizes speaks only of a list whose count and ids are in range.
fn list_sizes_in_range(board: &Board) -> bool {
    !list_count_in_range(board)
        || !list_ids_in_range(board)
        || command::streams(&board.list.places[..list_used(board)])
}

fn song_lengths_in_range(board: &Board) -> bool {
    board.songs.iter().all(|song| song.length <= MOST_COUNTED)
}

/// A selected song that is out of range is another item's fault, and so is a
/// flag that is neither 0 nor 1: it doesn't say that a song plays.
fn playing_is_set(board: &Board) -> bool {
    let selected = board.songs.get(usize::from(board.selected));
    board.playing != 1 || selected.is_none_or(|song| song.length != 0)
}

fn unused_notes_are_zero(board: &Board) -> bool {
    board
        .songs
        .iter()
        .all(|song| unused_are_zero(&song.notes, 2 * usize::from(song.length)))
}

fn unused_ids_are_zero(board: &Board) -> bool {
    unused_are_zero(&board.list.places, usize::from(board.list.used))
}

fn unused_frame_is_zero(held: &HeldFrame) -> bool {
    unused_are_zero(&held.places, usize::from(held.used))
}

/// Whether the places from `used` on are 0. Where more are said to be in use
/// than there are, none is left over.
///
/// Good records are the rule, and in them all places are looked at anyway; with
/// no stop at the first that isn't 0 the compiler takes many at once.
fn unused_are_zero(places: &[u8], used: usize) -> bool {
    let unused = places.get(used..).unwrap_or(&[]);
    unused.iter().fold(0, |seen, &place| seen | place) == 0
}

/// The owed number is judged only beside bytes that can be held.
fn owed_is_possible(held: &HeldFrame) -> bool {
    possible_owed(held).is_none_or(|owed| owed.contains(&held.owed))
}

/// The owed numbers that the frame table can leave beside the held bytes, or
/// none if it can't leave these bytes.
fn possible_owed(held: &HeldFrame) -> Option<RangeInclusive<u16>> {
    let used = usize::from(held.used);
    if used == 0 {
        return Some(0..=0);
    }
    // A frame that fills all places is complete, and no longer held.
    if used >= FRAME_PLACES {
        return None;
    }
    let opcode = held.opcode();
    let Some(count_place) = frame::count_place(opcode) else {
        return match frame::shape(opcode) {
            Shape::Fixed(length) => what_lacks(1 + length, held.used),
            Shape::Counted | Shape::Song => None,
        };
    };
    if used <= count_place {
        return Some(0..=0);
    }
    let count = held.places[count_place];
    let up_to_count = count_place as u16 + 1;
    let after = frame::bytes_after_count(opcode, count);
    if frame::keeps_bytes_after_count(opcode, count) {
        what_lacks(up_to_count + after, held.used)
    } else if held.used == up_to_count && after > 0 {
        // The bytes after the count aren't kept, so that any number of them may
        // have come, short of all.
        Some(1..=after)
    } else {
        None
    }
}

/// What a frame of this length lacks when so many of its bytes are held; it
/// must lack something.
fn what_lacks(length: u16, used: u16) -> Option<RangeInclusive<u16>> {
    (used < length).then(|| length - used..=length - used)
}
