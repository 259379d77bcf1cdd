//! Writing calls down while performing them, so that the maker of a file knows
//! how the base stands.

use std::io::{self, Write};

use crate::board::{Board, Number, SafetyReport};
use crate::file::{kind, Call, Setting, LONGEST_RUN};
use crate::layout;
use crate::packet::{Image, IMAGE_BYTES};
use crate::perform::{Bench, Outcome};
use crate::writer::Message;

use super::rng::Rng;

/// A file in the making. Once it has its calls it takes no more records.
pub struct Tape<'a> {
    out: &'a mut dyn Write,
    bench: Bench,
    left: u64,
    error: Option<io::Error>,
}

impl<'a> Tape<'a> {
    /// A tape for so many calls.
    pub fn new(out: &'a mut dyn Write, calls: u64) -> Tape<'a> {
        Tape {
            out,
            bench: Bench::new(),
            left: calls,
            error: None,
        }
    }

    /// Whether the tape takes more calls.
    pub fn open(&self) -> bool {
        self.left > 0 && self.error.is_none()
    }

    /// The base as the calls so far have left it.
    pub fn board(&self) -> &Board {
        &self.bench.board
    }

    /// Ends the tape, with the first error of writing if there was one.
    pub fn finish(self) -> io::Result<()> {
        self.error.map_or(Ok(()), Err)
    }

    pub fn byte(&mut self, byte: u8) -> Outcome {
        self.call(Call::Byte(byte), &[kind::BYTE, byte])
    }

    /// Gives bytes one at a time.
    pub fn bytes(&mut self, bytes: &[u8]) {
        for &byte in bytes {
            self.byte(byte);
        }
    }

    /// One run over a slice of any length up to the longest.
    pub fn run(&mut self, slice: &[u8]) -> Outcome {
        let [high, low] = (slice.len() as u16).to_be_bytes();
        let mut record = vec![kind::RUN, high, low];
        record.extend_from_slice(slice);
        self.call(Call::Run(slice), &record)
    }

    /// Runs over a slice until all of it is read, as firmware does.
    pub fn runs(&mut self, slice: &[u8]) {
        let mut rest = slice;
        while !rest.is_empty() && self.open() {
            let next = &rest[..rest.len().min(LONGEST_RUN)];
            let outcome = self.run(next);
            if outcome.number == Number::BadRecord {
                break;
            }
            rest = &rest[outcome.read..];
        }
    }

    pub fn report(&mut self, flags: u8) {
        let report = SafetyReport {
            wheel_drop: flags & 1 != 0,
            cliff: flags & 2 != 0,
            charger: flags & 4 != 0,
        };
        self.call(Call::Report(report), &[kind::REPORT, flags]);
    }

    pub fn tick(&mut self) {
        self.call(Call::Tick, &[kind::TICK]);
    }

    pub fn song_end(&mut self) {
        self.call(Call::SongEnd, &[kind::SONG_END]);
    }

    pub fn message(&mut self, message: &Message) {
        let mut record = vec![kind::MESSAGE];
        record.extend_from_slice(&layout::message_bytes(message));
        self.call(Call::Write(*message), &record);
    }

    /// Sets an image of any bytes.
    pub fn any_image(&mut self, rng: &mut Rng) {
        let mut image = [0; IMAGE_BYTES];
        rng.fill(&mut image);
        self.image(&image);
    }

    pub fn image(&mut self, image: &Image) {
        let mut record = vec![kind::IMAGE];
        record.extend_from_slice(image);
        self.set(Setting::Image(image), &record);
    }

    pub fn room(&mut self, room: usize) {
        let [high, low] = (room as u16).to_be_bytes();
        self.set(Setting::Room(room), &[kind::ROOM, high, low]);
    }

    pub fn state(&mut self, board: &Board) {
        let mut record = vec![kind::STATE];
        record.extend_from_slice(&layout::state_bytes(board));
        self.set(Setting::State(Box::new(board.clone())), &record);
    }

    fn call(&mut self, call: Call, record: &[u8]) -> Outcome {
        if !self.open() {
            return Outcome {
                number: Number::BadRecord,
                length: 0,
                read: 0,
            };
        }
        self.left -= 1;
        self.write(record);
        self.bench.call(&call, |outcome, _, _| outcome)
    }

    fn set(&mut self, setting: Setting, record: &[u8]) {
        if self.open() {
            self.write(record);
            self.bench.set(setting);
        }
    }

    fn write(&mut self, record: &[u8]) {
        if let Err(error) = self.out.write_all(record) {
            self.error = Some(error);
        }
    }
}
