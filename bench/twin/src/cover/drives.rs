//! Counting cliffs that are reported on a Drive order.

use std::io::{self, Write};

use crate::board::{Mode, WheelOrder};

/// How the base goes: ahead, not at all, or back on a radius at an end of the
/// range that counts, within it, beyond it, or straight.
const WAYS: [&str; 10] = [
    "ahead",
    "still",
    "back-164",
    "back--164",
    "back-165",
    "back--165",
    "back-inside",
    "back-outside",
    "back-32767",
    "back--32768",
];

/// The ways that are counted in Full too, where no cliff counts: one ahead and one
/// back that would stop the base in Safe.
const WAYS_IN_FULL: [usize; 2] = [0, 6];

/// The counts, by way.
#[derive(Default)]
pub struct Drives {
    safe: [u64; WAYS.len()],
    full: [u64; WAYS.len()],
}

impl Drives {
    /// Counts a cliff alone on a good record with this mode and order.
    pub fn count(&mut self, mode: u8, wheels: &WheelOrder) {
        if wheels.kind != WheelOrder::DRIVE {
            return;
        }
        let way = way(wheels.first, wheels.second);
        match Mode::from_code(mode) {
            Some(Mode::Safe) => self.safe[way] += 1,
            Some(Mode::Full) => self.full[way] += 1,
            _ => {}
        }
    }

    pub fn write_rows(&self, out: &mut impl Write) -> io::Result<()> {
        for (way, count) in WAYS.iter().zip(self.safe) {
            writeln!(out, "drive-cliff Safe {way} {count}")?;
        }
        for way in WAYS_IN_FULL {
            writeln!(out, "drive-cliff Full {} {}", WAYS[way], self.full[way])?;
        }
        Ok(())
    }
}

/// The place in `WAYS` of a legal Drive.
fn way(velocity: i16, radius: i16) -> usize {
    match (velocity, radius) {
        (1.., _) => 0,
        (0, _) => 1,
        (_, 164) => 2,
        (_, -164) => 3,
        (_, 165) => 4,
        (_, -165) => 5,
        (_, -163..=163) => 6,
        (_, i16::MAX) => 8,
        (_, i16::MIN) => 9,
        _ => 7,
    }
}
