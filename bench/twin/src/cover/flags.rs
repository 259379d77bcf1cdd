//! Counting calls on records of which a flag is neither 0 nor 1.

use std::io::{self, Write};

use crate::board::Board;
use crate::check::Item;
use crate::file::Call;

/// The flags: a name, and the item that says what they may be.
const FLAGS: [(&str, Item); 2] = [
    ("playing", Item::PlayingFlag),
    ("streaming", Item::StreamingFlag),
];

/// The bytes that are counted one by one.
const BYTES: [u8; 5] = [2, 3, 128, 254, 255];

/// The calls that get a record.
const CALLS: [&str; 6] = ["byte", "run", "empty-run", "report", "tick", "song-end"];

/// How the rest of the record stands: good but for this flag, with the selected
/// song set or not; the other flag wrong too; or something else wrong too.
const RESTS: [&str; 4] = ["song-set", "song-unset", "both-flags", "otherwise-bad"];

/// The counts.
#[derive(Default)]
pub struct Flags {
    /// By flag: of each byte, where nothing else is wrong.
    bytes: [Counts<{ BYTES.len() }>; FLAGS.len()],
    /// By flag: of any other byte, where nothing else is wrong.
    other: [u64; FLAGS.len()],
    /// By flag: of each call, where nothing else is wrong.
    calls: [Counts<{ CALLS.len() }>; FLAGS.len()],
    /// By flag: of each way in which the rest of the record stands.
    rests: [Counts<{ RESTS.len() }>; FLAGS.len()],
}

type Counts<const N: usize> = [u64; N];

impl Flags {
    /// Counts a call that gets this record.
    pub fn count(&mut self, call: &Call, board: &Board) {
        let Some(call) = call_of(call) else { return };
        for (flag, &(_, item)) in FLAGS.iter().enumerate() {
            if item.kept(board) {
                continue;
            }
            let rest = rest_of(board, item);
            self.rests[flag][rest] += 1;
            if RESTS[rest].starts_with("song") {
                self.calls[flag][call] += 1;
                self.count_byte(flag, [board.playing, board.streaming][flag]);
            }
        }
    }

    fn count_byte(&mut self, flag: usize, byte: u8) {
        match BYTES.iter().position(|&counted| counted == byte) {
            Some(place) => self.bytes[flag][place] += 1,
            None => self.other[flag] += 1,
        }
    }

    pub fn write_rows(&self, out: &mut impl Write) -> io::Result<()> {
        for (flag, (name, _)) in FLAGS.iter().enumerate() {
            for (byte, count) in BYTES.iter().zip(self.bytes[flag]) {
                writeln!(out, "flag {name} {byte} {count}")?;
            }
            writeln!(out, "flag {name} other {}", self.other[flag])?;
            for (call, count) in CALLS.iter().zip(self.calls[flag]) {
                writeln!(out, "flag {name} {call} {count}")?;
            }
            for (rest, count) in RESTS.iter().zip(self.rests[flag]) {
                writeln!(out, "flag {name} {rest} {count}")?;
            }
        }
        Ok(())
    }
}

/// The place of a call in `CALLS`. The writer gets no record.
fn call_of(call: &Call) -> Option<usize> {
    match call {
        Call::Byte(_) => Some(0),
        Call::Run([]) => Some(2),
        Call::Run(_) => Some(1),
        Call::Report(_) => Some(3),
        Call::Tick => Some(4),
        Call::SongEnd => Some(5),
        Call::Write(_) => None,
    }
}

/// The place in `RESTS` of a record that breaks a flag's item.
fn rest_of(board: &Board, item: Item) -> usize {
    let is_flag = |broken: &Item| FLAGS.iter().any(|(_, flag)| flag == broken);
    let others = || {
        let broken = |other: &Item| *other != item && !other.kept(board);
        Item::ALL.into_iter().filter(broken)
    };
    if !others().all(|broken| is_flag(&broken)) {
        3
    } else if others().next().is_some() {
        2
    } else {
        usize::from(board.songs[usize::from(board.selected)].length == 0)
    }
}
