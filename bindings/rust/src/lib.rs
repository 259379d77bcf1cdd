#![doc = include_str!("../README.md")]
#![no_std]
#![deny(missing_docs, unsafe_op_in_unsafe_fn)]
#![deny(clippy::undocumented_unsafe_blocks)]

mod board;
mod layout;
mod message;
mod numbers;
mod raw;
mod record;
mod reply;

pub use board::wheel_speeds;
pub use message::Message;
pub use numbers::*;
pub use record::{Kept, Motors, Partial, Song, Songs, State, Stream};
pub use reply::{Reply, RunReply, WheelSpeeds};
