//! Whole frames in every mode: of every command, with legal data and with data at
//! the ends of their ranges, and of opcodes that aren't offered or unknown; with
//! room for an answer and without.

use crate::frame::HeldFrame;

use super::edges::frame_at_an_end;
use super::frames;
use super::records;
use super::rng::Rng;
use super::tape::Tape;

/// The commands whose data can be illegal; those with more ends come more often.
const JUDGED_BY_DATA: [u8; 20] = [
    129, 136, 137, 137, 137, 138, 140, 140, 141, 142, 144, 144, 145, 145, 147, 148, 148, 149, 149,
    150,
];

/// A good record that holds nothing, and a few frames.
pub fn judged(tape: &mut Tape, rng: &mut Rng) {
    while tape.open() {
        let mut board = records::good(rng);
        board.held = HeldFrame::default();
        tape.state(&board);
        for _ in 0..1 + rng.below(3) {
            tape.room(rng.pick(&[832, 832, 832, 0]));
            let frame = any_frame(rng);
            // A byte at a time, a long frame would be most of the file.
            if frame.len() < 8 && rng.one_in(4) {
                tape.bytes(&frame);
            } else {
                tape.runs(&frame);
            }
            other_call(tape, rng);
        }
    }
}

/// Now and then a call that shows how the frame before it left the base.
fn other_call(tape: &mut Tape, rng: &mut Rng) {
    match rng.below(12) {
        0 | 1 => tape.tick(),
        2 => tape.report(rng.byte(0, 7)),
        3 => tape.song_end(),
        _ => {}
    }
}

fn any_frame(rng: &mut Rng) -> Vec<u8> {
    match rng.below(12) {
        0 => not_offered(rng),
        1 => vec![unknown(rng)],
        2..=6 => {
            let opcode = rng.pick(&frames::OFFERED);
            frames::legal(rng, opcode)
        }
        _ => {
            let opcode = rng.pick(&JUDGED_BY_DATA);
            frame_at_an_end(rng, opcode)
        }
    }
}

/// A whole frame that is read past.
fn not_offered(rng: &mut Rng) -> Vec<u8> {
    let opcode = rng.byte(152, 158);
    let mut frame = vec![opcode];
    let data = match opcode {
        152 => {
            let any = rng.any();
            let count = rng.pick(&[0, 1, 2, 16, 17, 255, any]);
            frame.push(count);
            usize::from(count)
        }
        155 | 158 => 1,
        156 | 157 => 2,
        _ => 0,
    };
    frame.extend((0..data).map(|_| rng.any()));
    frame
}

fn unknown(rng: &mut Rng) -> u8 {
    let below = rng.byte(0, 127);
    let above = rng.byte(159, 255);
    rng.pick(&[0, 127, 146, 146, 159, 255, below, above])
}
