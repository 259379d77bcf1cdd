//! The offered commands: their modes and their legal data.

use crate::board::{Mode, WheelOrder};
use crate::frame::MOST_COUNTED;
use crate::packet;

/// The largest sum of a stream list's ids and their data, which one byte of the
/// chunk must hold.
pub const MOST_STREAMED: usize = 255;

/// A command with legal data.
#[derive(Clone, Copy, Debug, PartialEq, Eq)]
pub enum Command<'a> {
    Start,
    Baud(u8),
    Control,
    Safe,
    Full,
    /// The commands that only lead to Passive: 133 to 136 and 143. The number
    /// of 136 is judged, and no more.
    Rest,
    Drive {
        velocity: i16,
        radius: i16,
    },
    Direct {
        right: i16,
        left: i16,
    },
    /// One bit for each driver.
    Drivers(u8),
    /// The duties of drivers 0, 1 and 2, in this order.
    Duties([u8; 3]),
    Leds([u8; 3]),
    Outputs(u8),
    Infrared(u8),
    Song {
        number: u8,
        notes: &'a [u8],
    },
    Play(u8),
    Sensors(u8),
    List(&'a [u8]),
    Stream(&'a [u8]),
    /// 0 off, 1 on.
    Pause(u8),
}

/// Whether an offered command may be given in a mode.
pub fn allowed(opcode: u8, mode: Mode) -> bool {
    match opcode {
        128 => true,
        130 => mode == Mode::Passive,
        133 | 137..=139 | 141 | 144 | 145 | 147 | 151 => matches!(mode, Mode::Safe | Mode::Full),
        _ => mode != Mode::Off,
    }
}

/// The command of an offered opcode and its data, if the data are legal.
///
/// A frame past its legal count comes with its data up to the count byte only;
/// that count makes it illegal whatever came after.
pub fn parse(opcode: u8, data: &[u8]) -> Option<Command<'_>> {
    match (opcode, data) {
        (128, []) => Some(Command::Start),
        (129, &[code]) => (code <= 11).then_some(Command::Baud(code)),
        (130, []) => Some(Command::Control),
        (131, []) => Some(Command::Safe),
        (132, []) => Some(Command::Full),
        (133..=135 | 143, []) => Some(Command::Rest),
        (136, &[demo]) => is_demo(demo).then_some(Command::Rest),
        (137, &[a, b, c, d]) => parse_drive(number(a, b), number(c, d)),
        (138, &[bits]) => (bits <= 7).then_some(Command::Drivers(bits)),
        (139, &[a, b, c]) => Some(Command::Leds([a, b, c])),
        (140, &[number, count, ref notes @ ..]) => parse_song(number, count, notes),
        (141, &[song]) => (song <= 15).then_some(Command::Play(song)),
        (142, &[id]) => packet::is_id(id).then_some(Command::Sensors(id)),
        (144, &[two, one, zero]) => parse_duties([zero, one, two]),
        (145, &[a, b, c, d]) => parse_direct(number(a, b), number(c, d)),
        (147, &[bits]) => (bits <= 7).then_some(Command::Outputs(bits)),
        (148, &[count, ref ids @ ..]) => {
            (is_list(count, ids) && streams(ids)).then_some(Command::Stream(ids))
        }
        (149, &[count, ref ids @ ..]) => is_list(count, ids).then_some(Command::List(ids)),
        (150, &[state]) => (state <= 1).then_some(Command::Pause(state)),
        (151, &[byte]) => Some(Command::Infrared(byte)),
        _ => None,
    }
}

/// A sixteen-bit number in two's complement, high byte first.
fn number(high: u8, low: u8) -> i16 {
    i16::from_be_bytes([high, low])
}

/// Whether a byte, which has a sign, is a Demo's number.
fn is_demo(byte: u8) -> bool {
    (-1..=9).contains(&(byte as i8))
}

fn parse_drive(velocity: i16, radius: i16) -> Option<Command<'static>> {
    let order = WheelOrder::drive(velocity, radius);
    order
        .in_range()
        .then_some(Command::Drive { velocity, radius })
}

fn parse_direct(right: i16, left: i16) -> Option<Command<'static>> {
    let order = WheelOrder::direct(right, left);
    order.in_range().then_some(Command::Direct { right, left })
}

fn parse_duties(duties: [u8; 3]) -> Option<Command<'static>> {
    duties
        .iter()
        .all(|&duty| duty <= 128)
        .then_some(Command::Duties(duties))
}

fn parse_song(number: u8, count: u8, notes: &[u8]) -> Option<Command<'_>> {
    let legal = number <= 15
        && (1..=MOST_COUNTED).contains(&count)
        && notes.len() == 2 * usize::from(count);
    legal.then_some(Command::Song { number, notes })
}

fn is_list(count: u8, ids: &[u8]) -> bool {
    count <= MOST_COUNTED
        && ids.len() == usize::from(count)
        && ids.iter().all(|&id| packet::is_id(id))
}

/// Whether a chunk of these ids can be told in one byte.
pub fn streams(ids: &[u8]) -> bool {
    ids.len() + packet::sizes(ids) <= MOST_STREAMED
}
