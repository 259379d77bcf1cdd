//! Counting frames by their opcode, the mode at their end, and what they gave.

use std::io::{self, Write};

use crate::board::{Mode, Number};
use crate::command;
use crate::frame::{self, Standing};

const MODES: [Mode; 4] = [Mode::Off, Mode::Passive, Mode::Safe, Mode::Full];

/// The commands whose data can be illegal.
const JUDGED_BY_DATA: [u8; 13] = [
    129, 136, 137, 138, 140, 141, 142, 144, 145, 147, 148, 149, 150,
];

/// The unknown opcodes, in parts: those before the opcodes, within, and after.
const UNKNOWN: [(u8, u8); 3] = [(0, 127), (146, 146), (159, 255)];

/// The counts, by opcode, mode and number.
pub struct Ended {
    counts: Vec<[[u64; 10]; MODES.len()]>,
}

impl Ended {
    pub fn new() -> Ended {
        Ended {
            counts: vec![[[0; 10]; MODES.len()]; 256],
        }
    }

    pub fn count(&mut self, opcode: u8, mode: Mode, number: Number) {
        self.counts[usize::from(opcode)][mode as usize][number as usize] += 1;
    }

    fn of(&self, opcode: u8, mode: Mode, number: Number) -> u64 {
        self.counts[usize::from(opcode)][mode as usize][number as usize]
    }

    pub fn write_rows(&self, out: &mut impl Write) -> io::Result<()> {
        for opcode in 0..=255 {
            match frame::standing(opcode) {
                Standing::Offered => self.write_offered(opcode, out)?,
                Standing::NotOffered => self.write_not_offered(opcode, out)?,
                Standing::Unknown => {}
            }
        }
        for (first, last) in UNKNOWN {
            for mode in MODES {
                let of = |opcode| self.of(opcode, mode, Number::Unknown);
                let count: u64 = (first..=last).map(of).sum();
                writeln!(out, "unknown {first} {mode:?} {count}")?;
            }
        }
        Ok(())
    }

    fn write_offered(&self, opcode: u8, out: &mut impl Write) -> io::Result<()> {
        for mode in MODES {
            if !command::allowed(opcode, mode) {
                let count = self.of(opcode, mode, Number::WrongMode);
                writeln!(out, "wrong-mode {opcode} {mode:?} {count}")?;
                continue;
            }
            let count = self.of(opcode, mode, Number::Done);
            writeln!(out, "done {opcode} {mode:?} {count}")?;
            if JUDGED_BY_DATA.contains(&opcode) {
                let count = self.of(opcode, mode, Number::Data);
                writeln!(out, "data {opcode} {mode:?} {count}")?;
            }
        }
        Ok(())
    }

    fn write_not_offered(&self, opcode: u8, out: &mut impl Write) -> io::Result<()> {
        for mode in MODES {
            let count = self.of(opcode, mode, Number::NotOffered);
            writeln!(out, "not-offered {opcode} {mode:?} {count}")?;
        }
        Ok(())
    }
}
