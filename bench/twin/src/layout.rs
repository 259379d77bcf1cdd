//! The state record and the writer's message in bytes.

use crate::board::{Board, Song, StreamList, WheelOrder, NOTE_PLACES};
use crate::frame::HeldFrame;
use crate::writer::Message;

/// The length of a state record.
pub const STATE_BYTES: usize = 602;
/// Where a record says whether a song plays.
pub const PLAYING_AT: usize = 544;
/// Where a record says whether streaming is on.
pub const STREAMING_AT: usize = 562;
/// The length of a message.
pub const MESSAGE_BYTES: usize = 40;

const SONGS_AT: usize = 15;
const SONG_BYTES: usize = 1 + NOTE_PLACES;
const LIST_AT: usize = 545;
const HELD_AT: usize = 563;

/// The state record in bytes.
pub fn state_bytes(board: &Board) -> [u8; STATE_BYTES] {
    let mut bytes = [0; STATE_BYTES];
    bytes[0] = board.mode;
    bytes[1] = board.wheels.kind;
    bytes[2..4].copy_from_slice(&board.wheels.first.to_be_bytes());
    bytes[4..6].copy_from_slice(&board.wheels.second.to_be_bytes());
    bytes[6..9].copy_from_slice(&board.duties);
    bytes[9] = board.baud;
    bytes[10..13].copy_from_slice(&board.leds);
    bytes[13] = board.outputs;
    bytes[14] = board.infrared;
    let songs = bytes[SONGS_AT..].chunks_exact_mut(SONG_BYTES);
    for (song, place) in board.songs.iter().zip(songs) {
        place[0] = song.length;
        place[1..].copy_from_slice(&song.notes);
    }
    bytes[543] = board.selected;
    bytes[PLAYING_AT] = board.playing;
    bytes[LIST_AT..561].copy_from_slice(&board.list.places);
    bytes[561] = board.list.used;
    bytes[STREAMING_AT] = board.streaming;
    bytes[HELD_AT..598].copy_from_slice(&board.held.places);
    bytes[598..600].copy_from_slice(&board.held.used.to_be_bytes());
    bytes[600..].copy_from_slice(&board.held.owed.to_be_bytes());
    bytes
}

/// The state record of these bytes. Any bytes are one, if perhaps a bad one.
pub fn state_from_bytes(bytes: &[u8; STATE_BYTES]) -> Board {
    let mut songs = [Song::UNSET; 16];
    let places = bytes[SONGS_AT..].chunks_exact(SONG_BYTES);
    for (song, place) in songs.iter_mut().zip(places) {
        song.length = place[0];
        song.notes.copy_from_slice(&place[1..]);
    }
    Board {
        mode: bytes[0],
        wheels: WheelOrder {
            kind: bytes[1],
            first: i16::from_be_bytes(part(bytes, 2)),
            second: i16::from_be_bytes(part(bytes, 4)),
        },
        duties: part(bytes, 6),
        baud: bytes[9],
        leds: part(bytes, 10),
        outputs: bytes[13],
        infrared: bytes[14],
        songs,
        selected: bytes[543],
        playing: bytes[PLAYING_AT],
        list: StreamList {
            places: part(bytes, LIST_AT),
            used: bytes[561],
        },
        streaming: bytes[STREAMING_AT],
        held: HeldFrame {
            places: part(bytes, HELD_AT),
            used: u16::from_be_bytes(part(bytes, 598)),
            owed: u16::from_be_bytes(part(bytes, 600)),
        },
    }
}

/// A message in bytes.
pub fn message_bytes(message: &Message) -> [u8; MESSAGE_BYTES] {
    let mut bytes = [0; MESSAGE_BYTES];
    bytes[..4].copy_from_slice(&[message.opcode, message.a, message.b, message.c]);
    bytes[4..6].copy_from_slice(&message.first.to_be_bytes());
    bytes[6..8].copy_from_slice(&message.second.to_be_bytes());
    bytes[8..].copy_from_slice(&message.payload);
    bytes
}

/// The message of these bytes.
pub fn message_from_bytes(bytes: &[u8; MESSAGE_BYTES]) -> Message {
    Message {
        opcode: bytes[0],
        a: bytes[1],
        b: bytes[2],
        c: bytes[3],
        first: i16::from_be_bytes(part(bytes, 4)),
        second: i16::from_be_bytes(part(bytes, 6)),
        payload: part(bytes, 8),
    }
}

/// The `N` bytes from a place on, which the caller knows to be there.
fn part<const N: usize>(bytes: &[u8], start: usize) -> [u8; N] {
    let mut part = [0; N];
    part.copy_from_slice(&bytes[start..start + N]);
    part
}
