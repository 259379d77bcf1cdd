//! Traffic as hosts and firmware send it, whole and damaged, and noise.

use crate::board::{Board, Mode};

use super::edges::{any_message, frame_at_an_end};
use super::frames;
use super::records;
use super::rng::Rng;
use super::tape::Tape;

/// The mode in which the base is; a bad record counts as Off.
fn mode(tape: &Tape) -> Mode {
    Mode::from_code(tape.board().mode).unwrap_or(Mode::Off)
}

/// Something that isn't a serial byte: a tick, a report, a song end or a new
/// image.
fn between(tape: &mut Tape, rng: &mut Rng) {
    match rng.below(8) {
        0..=2 => tape.tick(),
        3 => tape.any_image(rng),
        4 => tape.song_end(),
        // Most reports tell of nothing.
        5 | 6 => tape.report(0),
        _ => tape.report(rng.byte(0, 7)),
    }
}

/// Now and then the power goes and comes, and no song is set any more.
fn power_cycle(tape: &mut Tape, rng: &mut Rng) {
    if rng.one_in(120) {
        tape.state(&Board::power_on());
    }
}

/// Single bytes of whole frames.
pub fn valid(tape: &mut Tape, rng: &mut Rng) {
    while tape.open() {
        let opcode = frames::command_for(rng, mode(tape));
        let frame = frames::legal(rng, opcode);
        // Firmware ticks and reports while a frame comes in.
        for byte in frame {
            tape.byte(byte);
            if rng.one_in(12) {
                between(tape, rng);
            }
        }
        if rng.one_in(3) {
            between(tape, rng);
        }
        power_cycle(tape, rng);
    }
}

/// Several frames in a row, each fit for the mode that those before it lead to.
fn several(rng: &mut Rng, mut mode: Mode, count: usize) -> Vec<Vec<u8>> {
    let mut several = Vec::new();
    for _ in 0..count {
        let opcode = frames::command_for(rng, mode);
        several.push(frames::legal(rng, opcode));
        mode = frames::mode_after(opcode, mode);
    }
    several
}

/// Runs of whole frames, of several frames, and of frames split anywhere.
pub fn valid_runs(tape: &mut Tape, rng: &mut Rng) {
    while tape.open() {
        let count = rng.pick(&[1, 1, 2, 3, 6, 30]);
        let several = several(rng, mode(tape), count);
        match rng.below(3) {
            0 => several.iter().for_each(|frame| tape.runs(frame)),
            1 => tape.runs(&several.concat()),
            _ => split(tape, rng, &several.concat()),
        }
        if rng.one_in(3) {
            between(tape, rng);
        }
        power_cycle(tape, rng);
    }
}

/// Runs over pieces of varied lengths, with other calls between them.
fn split(tape: &mut Tape, rng: &mut Rng, bytes: &[u8]) {
    let mut rest = bytes;
    while !rest.is_empty() && tape.open() {
        let longest = rng.pick(&[1, 2, 4, 8, 16, 64]);
        let (piece, after) = rest.split_at(rest.len().min(1 + rng.below(longest)));
        tape.runs(piece);
        rest = after;
        if rng.one_in(6) {
            between(tape, rng);
        }
    }
}

/// Mostly ticks, with varied lists and images.
pub fn ticks(tape: &mut Tape, rng: &mut Rng) {
    while tape.open() {
        if mode(tape) == Mode::Off || rng.one_in(8) {
            tape.runs(&[128]);
        }
        if rng.flip() {
            let way = rng.pick(&[131, 132]);
            let order = rng.pick(&[137, 145]);
            tape.runs(&[way]);
            tape.runs(&frames::legal(rng, order));
        }
        tape.runs(&frames::legal(rng, 148));
        if rng.one_in(16) {
            tape.runs(&frames::legal(rng, 150));
        }
        for _ in 0..10 + rng.below(40) {
            if rng.one_in(4) {
                tape.any_image(rng);
            }
            tape.tick();
        }
        if rng.one_in(8) {
            tape.report(rng.byte(0, 7));
        }
    }
}

/// Bytes of which some are dropped, doubled or changed.
fn damage(rng: &mut Rng, bytes: &[u8]) -> Vec<u8> {
    let mut damaged = Vec::new();
    for &byte in bytes {
        match rng.below(40) {
            0 => {}
            1 => damaged.extend_from_slice(&[byte, byte]),
            2 => damaged.push(rng.any()),
            3 => damaged.push(byte ^ (1 << rng.below(8))),
            _ => damaged.push(byte),
        }
    }
    damaged
}

/// A 136 that has lost its number, and frames after it: the next opcode is taken
/// for the number, and that command's data for opcodes.
fn number_lost(rng: &mut Rng, mode: Mode, count: usize) -> Vec<u8> {
    let mut bytes = vec![136];
    bytes.extend(several(rng, mode, count).concat());
    bytes
}

/// Valid traffic with bytes dropped, doubled and changed.
pub fn damaged(tape: &mut Tape, rng: &mut Rng) {
    while tape.open() {
        let count = 1 + rng.below(4);
        let damaged = match rng.below(12) {
            // Damage that just passes a limit, or just doesn't.
            0..=2 => {
                let opcode = frames::command_for(rng, mode(tape));
                frame_at_an_end(rng, opcode)
            }
            // Often enough that each end of a Demo's number comes.
            3 => frame_at_an_end(rng, 136),
            4 => number_lost(rng, mode(tape), count),
            _ => {
                let bytes = several(rng, mode(tape), count).concat();
                damage(rng, &bytes)
            }
        };
        match rng.below(3) {
            0 => tape.runs(&damaged),
            1 => split(tape, rng, &damaged),
            _ => tape.bytes(&damaged),
        }
        if rng.one_in(3) {
            between(tape, rng);
        }
        // A damaged count swallows whatever comes; a host starts anew.
        let owed = usize::from(tape.board().held.owed);
        if owed > 40 && rng.one_in(4) {
            tape.runs(&vec![128; owed + 2]);
        }
        power_cycle(tape, rng);
    }
}

/// Any byte, or one among the opcodes, or one that is often legal data.
fn noise_byte(rng: &mut Rng) -> u8 {
    match rng.below(3) {
        0 => rng.any(),
        1 => rng.byte(128, 158),
        _ => rng.byte(0, 50),
    }
}

/// Random calls with random bytes.
pub fn noise(tape: &mut Tape, rng: &mut Rng) {
    while tape.open() {
        match rng.below(40) {
            0..=17 => {
                tape.byte(noise_byte(rng));
            }
            18..=28 => {
                let longest = rng.pick(&[1, 4, 16, 64, 1025]);
                let bytes: Vec<u8> = (0..rng.below(longest)).map(|_| noise_byte(rng)).collect();
                tape.run(&bytes);
            }
            29..=32 => tape.tick(),
            33 | 34 => tape.report(rng.byte(0, 7)),
            35 => tape.song_end(),
            36 => tape.message(&any_message(rng)),
            37 => tape.any_image(rng),
            38 => tape.room(rng.below(1025)),
            _ => tape.room(832),
        }
    }
}

/// Which byte of a run of 128s is first read as an opcode, the held frame being
/// what it is now.
fn first_opcode(tape: &Tape) -> usize {
    let held = &tape.board().held;
    match (held.used, held.owed, held.places[0]) {
        (0, _, _) => 1,
        (_, 1.., _) => usize::from(held.owed) + 1,
        (2, _, 140) => 258,
        (1, _, 140) => 259,
        _ => 130,
    }
}

/// From every kind of half-read frame: 128s until the base stands, and some
/// more.
pub fn stops(tape: &mut Tape, rng: &mut Rng) {
    while tape.open() {
        half_read_state(tape, rng);
        let more = rng.pick(&[0, 1, 2, 5, 20]);
        let mut due = first_opcode(tape) + more;
        // Long frames are mostly ended by runs: a byte at a time they would be
        // most of the file.
        let by_bytes = if due > 60 { rng.one_in(12) } else { rng.flip() };
        let longest = rng.pick(&[3, 20, 300, 1024]);
        while due > 0 && tape.open() {
            due -= if by_bytes {
                tape.byte(128).read
            } else {
                // What a run leaves unread may have any value.
                let length = 1 + rng.below(longest);
                tape.run(&vec![128; length]).read.min(due)
            };
            match rng.below(48) {
                0 | 1 => tape.tick(),
                2 => tape.song_end(),
                3 => tape.report(rng.byte(0, 7)),
                4 => tape.any_image(rng),
                _ => {}
            }
        }
    }
}

/// Brings the base into some mode with a half-read frame: by a record, or by
/// traffic from the mode in which it is.
fn half_read_state(tape: &mut Tape, rng: &mut Rng) {
    if rng.flip() {
        let mut board = records::good(rng);
        records::hold_any(rng, &mut board);
        tape.state(&board);
        return;
    }
    tape.runs(&[128]);
    if let Some(way) = rng.pick(&[None, Some(131), Some(132)]) {
        tape.runs(&[way]);
        let order = rng.pick(&[137, 145, 144, 138]);
        tape.runs(&frames::legal(rng, order));
    }
    let bytes = frames::half_read(rng);
    if bytes.len() < 40 && rng.flip() {
        tape.bytes(&bytes);
    } else {
        tape.runs(&bytes);
    }
}
