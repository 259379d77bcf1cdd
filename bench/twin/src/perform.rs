//! Performing a file of calls, and what is told of it.

use std::io::{self, Write};

use crate::board::{Board, Number};
use crate::file::{Call, Fault, Record, Records, Setting, LARGEST_ROOM};
use crate::layout;
use crate::packet::{Image, IMAGE_BYTES};
use crate::writer;

/// The room before a file sets one: the longest answer there can be.
const FIRST_ROOM: usize = 832;

/// What a call gave.
#[derive(Clone, Copy, Debug, PartialEq, Eq)]
pub struct Outcome {
    pub number: Number,
    pub length: usize,
    pub read: usize,
}

/// Someone who is told of every call.
pub trait Observer {
    /// A call is about to be made, while things stand so.
    fn before(&mut self, _call: &Call, _bench: &Bench) {}

    /// The call gave this, and left this record.
    fn after(
        &mut self,
        call: &Call,
        outcome: Outcome,
        answer: &[u8],
        board: &Board,
    ) -> io::Result<()>;
}

/// The base and its surroundings while a file is performed.
pub struct Bench {
    pub board: Board,
    pub image: Image,
    pub room: usize,
    /// All 0 between two calls.
    buffer: [u8; LARGEST_ROOM],
}

impl Default for Bench {
    fn default() -> Bench {
        Bench::new()
    }
}

impl Bench {
    /// How things stand before a file's first record.
    pub fn new() -> Bench {
        Bench {
            board: Board::power_on(),
            image: [0; IMAGE_BYTES],
            room: FIRST_ROOM,
            buffer: [0; LARGEST_ROOM],
        }
    }

    /// Makes a setting.
    pub fn set(&mut self, setting: Setting) {
        match setting {
            Setting::Image(image) => self.image = *image,
            Setting::Room(room) => self.room = room,
            Setting::State(board) => self.board = *board,
        }
    }

    /// Makes a call, and shows what it gave and the bytes of its answer.
    pub fn call<T>(&mut self, call: &Call, show: impl FnOnce(Outcome, &[u8], &Board) -> T) -> T {
        let outcome = self.make(call);
        let shown = show(outcome, &self.buffer[..outcome.length], &self.board);
        // A call writes no more than its answer, so that this clears the buffer.
        self.buffer[..outcome.length].fill(0);
        shown
    }

    fn make(&mut self, call: &Call) -> Outcome {
        let buffer = &mut self.buffer[..self.room];
        let (number, length, read) = match *call {
            Call::Byte(byte) => {
                let answer = self.board.byte(byte, &self.image, buffer);
                let read = usize::from(answer.number != Number::BadRecord);
                (answer.number, answer.length, read)
            }
            Call::Run(slice) => {
                let answer = self.board.run(slice, &self.image, buffer);
                (answer.number, answer.length, answer.read)
            }
            Call::Report(report) => (self.board.report(report), 0, 0),
            Call::Tick => {
                let answer = self.board.tick(&self.image, buffer);
                (answer.number, answer.length, 0)
            }
            Call::SongEnd => (self.board.song_end(), 0, 0),
            Call::Write(ref message) => {
                let answer = writer::write(message, buffer);
                (answer.number, answer.length, 0)
            }
        };
        Outcome {
            number,
            length,
            read,
        }
    }
}

/// Performs a file up to its end or its first fault, which is given back.
pub fn perform(bytes: &[u8], observer: &mut impl Observer) -> io::Result<Option<Fault>> {
    let mut bench = Bench::new();
    let mut records = Records::new(bytes);
    loop {
        match records.next_record() {
            Ok(None) => return Ok(None),
            Err(fault) => return Ok(Some(fault)),
            Ok(Some(Record::Setting(setting))) => bench.set(setting),
            Ok(Some(Record::Call(call))) => {
                observer.before(&call, &bench);
                bench.call(&call, |outcome, answer, board| {
                    observer.after(&call, outcome, answer, board)
                })?;
            }
        }
    }
}

/// Adds up the numbers, the lengths and the digest.
pub struct Summary {
    /// Whether the records are left out of the digest.
    bare: bool,
    calls: u64,
    numbers: [u64; 10],
    bytes: u64,
    digest: u64,
}

impl Summary {
    pub fn new(bare: bool) -> Summary {
        Summary {
            bare,
            calls: 0,
            numbers: [0; 10],
            bytes: 0,
            digest: 1,
        }
    }

    fn digest_bytes(&mut self, bytes: &[u8]) {
        for &byte in bytes {
            self.digest = (self.digest * 16_777_619 + u64::from(byte) + 1) % 4_294_967_291;
        }
    }

    /// Writes the one line.
    pub fn write_line(&self, out: &mut impl Write) -> io::Result<()> {
        write!(out, "calls {} numbers", self.calls)?;
        for count in self.numbers {
            write!(out, " {count}")?;
        }
        writeln!(out, " bytes {} digest {}", self.bytes, self.digest)
    }
}

impl Observer for Summary {
    fn after(
        &mut self,
        _call: &Call,
        outcome: Outcome,
        answer: &[u8],
        board: &Board,
    ) -> io::Result<()> {
        self.calls += 1;
        self.numbers[outcome.number as usize] += 1;
        self.bytes += outcome.length as u64;
        let [length_high, length_low] = (outcome.length as u16).to_be_bytes();
        let [read_high, read_low] = (outcome.read as u16).to_be_bytes();
        self.digest_bytes(&[
            outcome.number as u8,
            length_high,
            length_low,
            read_high,
            read_low,
        ]);
        self.digest_bytes(answer);
        if !self.bare {
            self.digest_bytes(&layout::state_bytes(board));
        }
        Ok(())
    }
}

/// Writes a line for each call.
pub struct Trace<W: Write> {
    out: W,
}

impl<W: Write> Trace<W> {
    pub fn new(out: W) -> Trace<W> {
        Trace { out }
    }
}

impl<W: Write> Observer for Trace<W> {
    fn after(
        &mut self,
        _call: &Call,
        outcome: Outcome,
        answer: &[u8],
        board: &Board,
    ) -> io::Result<()> {
        let number = outcome.number as u8;
        write!(self.out, "{number} {} {} ", outcome.length, outcome.read)?;
        if answer.is_empty() {
            self.out.write_all(b"-")?;
        } else {
            write_hex(&mut self.out, answer)?;
        }
        self.out.write_all(b" ")?;
        write_hex(&mut self.out, &layout::state_bytes(board))?;
        self.out.write_all(b"\n")
    }
}

fn write_hex(out: &mut impl Write, bytes: &[u8]) -> io::Result<()> {
    const DIGITS: &[u8; 16] = b"0123456789abcdef";
    for &byte in bytes {
        let high = DIGITS[usize::from(byte >> 4)];
        let low = DIGITS[usize::from(byte & 15)];
        out.write_all(&[high, low])?;
    }
    Ok(())
}
