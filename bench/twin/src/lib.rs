//! A plain implementation of the robot board: a reader of serial frames, a
//! base state, safety reports, sensor packets, stream chunks, and a host-side
//! writer of commands.
//!
//! It exists to be held against another implementation of the same rules, so
//! it is written straight from the rules and shares nothing with the other.

pub mod board;
pub mod check;
pub mod command;
pub mod cover;
pub mod drive;
pub mod file;
pub mod frame;
pub mod layout;
pub mod make;
pub mod packet;
pub mod perform;
pub mod writer;

pub use board::{Answer, Board, Mode, Number, RunAnswer, SafetyReport, WheelOrder};
pub use packet::Image;
pub use writer::Message;
