//! Counting frames with a count of their own: every legal count, and held frames
//! of which bytes have come that aren't kept.

use std::io::{self, Write};

use crate::frame::{self, HeldFrame, MOST_COUNTED};

/// The commands with a count, and their least legal one.
const COUNTED: [(u8, u8); 3] = [(140, 1), (148, 0), (149, 0)];

/// The held frames that are told apart: the opcode, and the first and last count.
const PAST: [(u8, u8, u8); 11] = [
    (140, 17, 17),
    (140, 18, 32),
    (140, 33, 255),
    (148, 17, 17),
    (148, 18, 32),
    (148, 33, 255),
    (149, 17, 17),
    (149, 18, 32),
    (149, 33, 255),
    (152, 1, 16),
    (152, 17, 255),
];

/// The opcodes of frames that can be past their count.
const OWING: [u8; 4] = [140, 148, 149, 152];

/// What a frame past its count owes, at the ends of what it may and beside them;
/// or that its count is 0, so that it can't be held.
const OWED: [&str; 5] = ["none", "one", "all", "too-many", "count-0"];

/// The counts.
#[derive(Default)]
pub struct Counts {
    /// By row of `COUNTED` and by count: how often the command was done.
    done: [[u64; MOST_COUNTED as usize + 1]; COUNTED.len()],
    /// By row of `PAST`: how often a call got a record that meets it.
    past: [u64; PAST.len()],
    /// By place in `OWING` and `OWED`: how often a call got a record that is good,
    /// or bad only by its held frame.
    owed: [[u64; OWED.len()]; OWING.len()],
}

impl Counts {
    /// Counts a command that was done, of which these are the first bytes.
    pub fn count_done(&mut self, frame: [u8; 3]) {
        let row = COUNTED.iter().position(|(opcode, _)| *opcode == frame[0]);
        if let (Some(row), Some(place)) = (row, frame::count_place(frame[0])) {
            self.done[row][usize::from(frame[place])] += 1;
        }
    }

    /// Counts a call that gets a good record with this held frame.
    pub fn count_held(&mut self, held: &HeldFrame) {
        if let Some(row) = past(held) {
            self.past[row] += 1;
        }
    }

    /// Counts a call that gets a record of which only this frame may be bad.
    pub fn count_owed(&mut self, held: &HeldFrame) {
        let opcode = OWING.iter().position(|&opcode| opcode == held.opcode());
        if let (Some(opcode), Some(owed)) = (opcode, owed_past(held)) {
            self.owed[opcode][owed] += 1;
        }
    }

    pub fn write_rows(&self, out: &mut impl Write) -> io::Result<()> {
        for ((opcode, least), counts) in COUNTED.iter().zip(self.done) {
            for (count, done) in counts.iter().enumerate().skip(usize::from(*least)) {
                writeln!(out, "count {opcode} {count} {done}")?;
            }
        }
        for ((opcode, first, last), count) in PAST.iter().zip(self.past) {
            writeln!(out, "past {opcode} {first}-{last} {count}")?;
        }
        for (opcode, counts) in OWING.iter().zip(self.owed) {
            for (owed, count) in OWED.iter().zip(counts) {
                writeln!(out, "owed {opcode} {owed} {count}")?;
            }
        }
        Ok(())
    }
}

/// The row of a held frame of which bytes after the count have come, and none of
/// them is kept.
fn past(held: &HeldFrame) -> Option<usize> {
    let place = frame::count_place(held.opcode())?;
    let count = held.places[place];
    let come = usize::from(held.used) == place + 1
        && held.owed < frame::bytes_after_count(held.opcode(), count);
    PAST.iter().position(|&(opcode, first, last)| {
        come && opcode == held.opcode() && (first..=last).contains(&count)
    })
}

/// The place in `OWED` of a frame that holds no more than its count, past which
/// bytes aren't kept.
fn owed_past(held: &HeldFrame) -> Option<usize> {
    let place = frame::count_place(held.opcode())?;
    let count = held.places[place];
    let kept = frame::keeps_bytes_after_count(held.opcode(), count);
    let all = frame::bytes_after_count(held.opcode(), count);
    if usize::from(held.used) != place + 1 || (kept && all > 0) {
        return None;
    }
    if all == 0 {
        return Some(4);
    }
    [0, 1, all, all + 1]
        .iter()
        .position(|&owed| owed == held.owed)
}
