//! The archive's calls, as `bindings/c/rawdhusaq.h` declares them.
//!
//! What is lent whole is a reference here too, which is a pointer that is not null
//! and is aligned; a slice is its pointer and its length.

use crate::message::Message;
use crate::numbers::IMAGE_SIZE;
use crate::record::State;
use crate::reply::{Reply, RunReply, WheelSpeeds};

extern "C" {
    pub fn board_power_on(state: *mut State);

    pub fn board_byte(
        state: &mut State,
        b: u8,
        image: &[u8; IMAGE_SIZE],
        buffer: *mut u8,
        room: usize,
    ) -> Reply;

    pub fn board_run(
        state: &mut State,
        bytes: *const u8,
        count: usize,
        image: &[u8; IMAGE_SIZE],
        buffer: *mut u8,
        room: usize,
    ) -> RunReply;

    pub fn board_safety_report(state: &mut State, drop: u8, cliff: u8, charger: u8) -> u8;

    pub fn board_tick(
        state: &mut State,
        image: &[u8; IMAGE_SIZE],
        buffer: *mut u8,
        room: usize,
    ) -> Reply;

    pub fn board_song_end(state: &mut State) -> u8;

    pub fn board_accepts(state: &State) -> u8;

    pub fn board_same(a: &State, b: &State) -> u8;

    pub fn host_write(message: &Message, buffer: *mut u8, room: usize) -> Reply;

    pub fn wheel_speeds(kind: u8, first: i16, second: i16) -> WheelSpeeds;
}
