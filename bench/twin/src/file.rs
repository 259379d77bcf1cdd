//! Reading a file of calls.

use std::fmt;

use crate::board::{Board, SafetyReport};
use crate::layout::{self, MESSAGE_BYTES, STATE_BYTES};
use crate::packet::{Image, IMAGE_BYTES};
use crate::writer::Message;

/// The longest slice of a run.
pub const LONGEST_RUN: usize = 1024;
/// The largest room.
pub const LARGEST_ROOM: usize = 1024;

/// The kinds of records.
pub mod kind {
    pub const BYTE: u8 = 1;
    pub const REPORT: u8 = 2;
    pub const TICK: u8 = 3;
    pub const SONG_END: u8 = 4;
    pub const IMAGE: u8 = 5;
    pub const RUN: u8 = 129;
    pub const ROOM: u8 = 130;
    pub const STATE: u8 = 131;
    pub const MESSAGE: u8 = 132;
}

/// A call of a file.
#[derive(Clone, Copy, Debug, PartialEq, Eq)]
pub enum Call<'a> {
    Byte(u8),
    Run(&'a [u8]),
    Report(SafetyReport),
    Tick,
    SongEnd,
    Write(Message),
}

/// A setting of a file, for the calls after it.
#[derive(Clone, Debug, PartialEq, Eq)]
pub enum Setting<'a> {
    Image(&'a Image),
    Room(usize),
    State(Box<Board>),
}

/// A record of a file.
#[derive(Clone, Debug, PartialEq, Eq)]
pub enum Record<'a> {
    Call(Call<'a>),
    Setting(Setting<'a>),
}

/// Why a record isn't of the form.
#[derive(Clone, Copy, Debug, PartialEq, Eq)]
pub enum Why {
    UnknownKind,
    CutShort,
    Flags,
    Run,
    Room,
}

impl fmt::Display for Why {
    fn fmt(&self, f: &mut fmt::Formatter) -> fmt::Result {
        f.write_str(match self {
            Why::UnknownKind => "unknown kind",
            Why::CutShort => "cut short",
            Why::Flags => "flags above 7",
            Why::Run => "run above 1024",
            Why::Room => "room above 1024",
        })
    }
}

/// The record at fault: where it begins, and why.
#[derive(Clone, Copy, Debug, PartialEq, Eq)]
pub struct Fault {
    pub offset: usize,
    pub why: Why,
}

impl fmt::Display for Fault {
    fn fmt(&self, f: &mut fmt::Formatter) -> fmt::Result {
        write!(f, "offset {}: {}", self.offset, self.why)
    }
}

/// Reads the records of a file one after the other.
pub struct Records<'a> {
    bytes: &'a [u8],
    offset: usize,
}

impl<'a> Records<'a> {
    pub fn new(bytes: &'a [u8]) -> Records<'a> {
        Records { bytes, offset: 0 }
    }

    /// The next record; none at the file's end.
    pub fn next_record(&mut self) -> Result<Option<Record<'a>>, Fault> {
        let start = self.offset;
        let Some((&kind, body)) = self.bytes[start..].split_first() else {
            return Ok(None);
        };
        let mut body = Body { rest: body };
        match read_record(kind, &mut body) {
            Ok(record) => {
                self.offset = self.bytes.len() - body.rest.len();
                Ok(Some(record))
            }
            Err(why) => Err(Fault { offset: start, why }),
        }
    }
}

/// The bytes after a record's kind, to the file's end.
struct Body<'a> {
    rest: &'a [u8],
}

impl<'a> Body<'a> {
    fn array<const N: usize>(&mut self) -> Result<&'a [u8; N], Why> {
        let (first, rest) = self.rest.split_first_chunk().ok_or(Why::CutShort)?;
        self.rest = rest;
        Ok(first)
    }

    fn slice(&mut self, length: usize) -> Result<&'a [u8], Why> {
        let (first, rest) = self.rest.split_at_checked(length).ok_or(Why::CutShort)?;
        self.rest = rest;
        Ok(first)
    }

    fn number(&mut self) -> Result<usize, Why> {
        Ok(usize::from(u16::from_be_bytes(*self.array()?)))
    }
}

fn read_record<'a>(kind: u8, body: &mut Body<'a>) -> Result<Record<'a>, Why> {
    Ok(match kind {
        kind::BYTE => {
            let [byte] = *body.array()?;
            Record::Call(Call::Byte(byte))
        }
        kind::REPORT => {
            let [flags] = *body.array()?;
            Record::Call(Call::Report(read_flags(flags)?))
        }
        kind::TICK => Record::Call(Call::Tick),
        kind::SONG_END => Record::Call(Call::SongEnd),
        kind::IMAGE => Record::Setting(Setting::Image(body.array::<IMAGE_BYTES>()?)),
        kind::RUN => {
            let length = body.number()?;
            if length > LONGEST_RUN {
                return Err(Why::Run);
            }
            Record::Call(Call::Run(body.slice(length)?))
        }
        kind::ROOM => {
            let room = body.number()?;
            if room > LARGEST_ROOM {
                return Err(Why::Room);
            }
            Record::Setting(Setting::Room(room))
        }
        kind::STATE => {
            let bytes = body.array::<STATE_BYTES>()?;
            Record::Setting(Setting::State(Box::new(layout::state_from_bytes(bytes))))
        }
        kind::MESSAGE => {
            let bytes = body.array::<MESSAGE_BYTES>()?;
            Record::Call(Call::Write(layout::message_from_bytes(bytes)))
        }
        _ => return Err(Why::UnknownKind),
    })
}

fn read_flags(flags: u8) -> Result<SafetyReport, Why> {
    if flags > 7 {
        return Err(Why::Flags);
    }
    Ok(SafetyReport {
        wheel_drop: flags & 1 != 0,
        cliff: flags & 2 != 0,
        charger: flags & 4 != 0,
    })
}
