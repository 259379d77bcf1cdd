//! Counting calls that are lent no room at all: what comes before the number 7.

use std::io::{self, Write};

use crate::file::Call;
use crate::perform::Outcome;

/// What is counted: a query of one packet, a query of several, a tick and a
/// message, each with the numbers that it can give without room.
const ROWS: [(&str, &[usize]); 4] = [
    ("142", &[3, 4, 7]),
    ("149", &[0, 3, 4, 7]),
    ("tick", &[0, 3, 7]),
    ("write", &[4, 7]),
];

/// The counts, by row and number.
#[derive(Default)]
pub struct NoRoom {
    counts: [[u64; 10]; ROWS.len()],
}

impl NoRoom {
    /// Counts what a call without room gave; the opcode is that of the frame that
    /// it read on in.
    pub fn count(&mut self, call: &Call, opcode: Option<u8>, outcome: Outcome) {
        let row = match (call, opcode) {
            (Call::Byte(_) | Call::Run(_), Some(142)) => 0,
            (Call::Byte(_) | Call::Run(_), Some(149)) => 1,
            (Call::Tick, _) => 2,
            (Call::Write(_), _) => 3,
            _ => return,
        };
        self.counts[row][outcome.number as usize] += 1;
    }

    pub fn write_rows(&self, out: &mut impl Write) -> io::Result<()> {
        for ((what, numbers), counts) in ROWS.iter().zip(self.counts) {
            for &number in numbers.iter() {
                writeln!(out, "no-room {what} {number} {}", counts[number])?;
            }
        }
        Ok(())
    }
}
