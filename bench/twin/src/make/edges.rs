//! Answers, chunks and commands at the edges of room and range.

use crate::board::Board;
use crate::packet;
use crate::writer::Message;

use super::frames;
use super::rng::Rng;
use super::tape::Tape;

/// A room about a length: just enough, one less, none, or any.
fn room_about(rng: &mut Rng, length: usize) -> usize {
    let any = rng.below(1025);
    let about = length + rng.below(4);
    rng.pick(&[length, length, length.saturating_sub(1), 0, about, any])
}

/// Answers and chunks at room that is just enough, and one less.
pub fn rooms(tape: &mut Tape, rng: &mut Rng) {
    tape.byte(128);
    while tape.open() {
        if rng.one_in(8) {
            tape.any_image(rng);
        }
        if rng.one_in(16) {
            mode_and_order(tape, rng);
        }
        match rng.below(4) {
            0 => query(tape, rng),
            1 => query_list(tape, rng),
            _ => chunk(tape, rng),
        }
    }
}

/// Some mode outside Off, with an order where it may have one; seldom Off.
fn mode_and_order(tape: &mut Tape, rng: &mut Rng) {
    if rng.one_in(16) {
        tape.state(&Board::power_on());
        tape.tick();
        tape.tick();
    }
    let way = rng.pick(&[128, 131, 132]);
    tape.runs(&[128]);
    tape.runs(&[way]);
    let order = rng.pick(&[137, 145]);
    tape.runs(&frames::legal(rng, order));
}

/// Gives a whole frame, as a run or by single bytes.
fn give(tape: &mut Tape, rng: &mut Rng, frame: &[u8]) {
    if rng.one_in(4) {
        tape.bytes(frame);
    } else {
        tape.runs(frame);
    }
}

fn query(tape: &mut Tape, rng: &mut Rng) {
    let id = rng.byte(0, packet::LAST_ID);
    tape.room(room_about(rng, packet::size(id)));
    give(tape, rng, &[142, id]);
}

fn query_list(tape: &mut Tape, rng: &mut Rng) {
    let count = rng.below(17);
    let ids = if rng.one_in(8) {
        vec![6; count]
    } else {
        frames::ids(rng, count)
    };
    tape.room(room_about(rng, packet::sizes(&ids)));
    let mut frame = vec![149, count as u8];
    frame.extend_from_slice(&ids);
    give(tape, rng, &frame);
}

/// A list of any length, or with a sum just streamed or just not, and ticks.
fn chunk(tape: &mut Tape, rng: &mut Rng) {
    let count = rng.below(17);
    let ids = match rng.below(4) {
        0 => frames::ids_of_sum(rng, 255),
        1 => frames::ids_of_sum(rng, frames::JUST_TOO_MUCH),
        _ => frames::stream_ids(rng, count),
    };
    let mut frame = vec![148, ids.len() as u8];
    frame.extend_from_slice(&ids);
    give(tape, rng, &frame);
    // The chunk of the list now in force, the new one or the one before it.
    let list = &tape.board().list;
    let ids = &list.places[..usize::from(list.used)];
    let length = ids.len() + packet::sizes(ids) + 3;
    for _ in 0..1 + rng.below(4) {
        tape.room(room_about(rng, length));
        tape.tick();
    }
}

/// A message with any fields.
pub fn any_message(rng: &mut Rng) -> Message {
    let opcode = rng.any();
    let offered = rng.pick(&frames::OFFERED);
    let mut message = Message {
        opcode: rng.pick(&[opcode, offered, offered]),
        a: rng.any(),
        b: rng.any(),
        c: rng.any(),
        first: rng.number(i16::MIN, i16::MAX),
        second: rng.number(i16::MIN, i16::MAX),
        payload: [0; 32],
    };
    rng.fill(&mut message.payload);
    message
}

/// A message of an offered command with legal data; what isn't among them is
/// anything.
fn legal_message(rng: &mut Rng, opcode: u8) -> Message {
    let mut message = any_message(rng);
    message.opcode = opcode;
    let frame = frames::legal(rng, opcode);
    match (opcode, &frame[1..]) {
        (137 | 145, &[a, b, c, d]) => {
            message.first = i16::from_be_bytes([a, b]);
            message.second = i16::from_be_bytes([c, d]);
        }
        (140, &[number, count, ref notes @ ..]) => {
            message.a = number;
            message.b = count;
            message.payload[..notes.len()].copy_from_slice(notes);
        }
        (148 | 149, &[count, ref ids @ ..]) => {
            message.a = count;
            message.payload[..ids.len()].copy_from_slice(ids);
        }
        (_, &[a]) => message.a = a,
        (_, &[a, b, c]) => (message.a, message.b, message.c) = (a, b, c),
        _ => {}
    }
    message
}

/// Sets one of a message's data at an end of its range or beside it.
fn to_an_end(rng: &mut Rng, message: &mut Message) {
    let speeds = [-501, -500, -1, 0, 1, 500, 501, i16::MIN, i16::MAX];
    let radii = [
        i16::MIN,
        i16::MIN + 1,
        -2001,
        -2000,
        -1,
        0,
        1,
        2000,
        2001,
        i16::MAX - 1,
        i16::MAX,
    ];
    let duties = [0, 127, 128, 129, 255];
    match message.opcode {
        129 => message.a = rng.pick(&[0, 11, 12, 255]),
        136 => {
            // A signed byte: 255 is -1, and 128 the least there is.
            let any = rng.any();
            message.a = rng.pick(&[254, 255, 0, 9, 10, 127, 128, any]);
        }
        138 | 147 => message.a = rng.pick(&[0, 7, 8, 255]),
        141 => message.a = rng.pick(&[0, 15, 16, 255]),
        142 => message.a = rng.pick(&[0, 42, 43, 255]),
        150 => message.a = rng.pick(&[0, 1, 2, 255]),
        144 => match rng.below(3) {
            0 => message.a = rng.pick(&duties),
            1 => message.b = rng.pick(&duties),
            _ => message.c = rng.pick(&duties),
        },
        137 if rng.flip() => message.second = rng.pick(&radii),
        137 => message.first = rng.pick(&speeds),
        145 if rng.flip() => message.second = rng.pick(&speeds),
        145 => message.first = rng.pick(&speeds),
        140 if rng.flip() => message.a = rng.pick(&[0, 15, 16, 255]),
        140 => message.b = rng.pick(&[0, 1, 16, 17, 32, 255]),
        148 if rng.flip() => {
            let sum = rng.pick(&[255, 256]);
            let ids = frames::ids_of_sum(rng, sum);
            message.a = ids.len() as u8;
            message.payload[..ids.len()].copy_from_slice(&ids);
        }
        148 | 149 if rng.flip() => {
            // All places legal, so that the count alone decides.
            let count = rng.pick(&[0, 1, 16, 17, 32, 33, 255]);
            for id in &mut message.payload {
                *id = rng.byte(7, packet::LAST_ID);
            }
            message.a = count;
        }
        148 | 149 => {
            // An id in use, or the first that isn't.
            let place = rng.below(usize::from(message.a) + 1);
            message.payload[place] = rng.pick(&[42, 43, 255]);
        }
        _ => {}
    }
}

/// A frame of an offered command with one of its data at an end of its range or
/// beside it. A count past its limit comes with as many bytes as it says.
pub fn frame_at_an_end(rng: &mut Rng, opcode: u8) -> Vec<u8> {
    let mut message = legal_message(rng, opcode);
    to_an_end(rng, &mut message);
    let mut frame = vec![opcode];
    let counted = match opcode {
        129 | 136 | 138 | 141 | 142 | 147 | 150 | 151 => {
            frame.push(message.a);
            0
        }
        139 | 144 => {
            frame.extend_from_slice(&[message.a, message.b, message.c]);
            0
        }
        137 | 145 => {
            frame.extend_from_slice(&message.first.to_be_bytes());
            frame.extend_from_slice(&message.second.to_be_bytes());
            0
        }
        140 => {
            frame.extend_from_slice(&[message.a, message.b]);
            2 * usize::from(message.b)
        }
        148 | 149 => {
            frame.push(message.a);
            usize::from(message.a)
        }
        _ => 0,
    };
    frame.extend(message.payload.iter().cycle().take(counted));
    frame
}

/// The length of an offered command's frame, its counts being legal.
fn frame_length(message: &Message) -> usize {
    match message.opcode {
        129 | 136 | 138 | 141 | 142 | 147 | 150 | 151 => 2,
        139 | 144 => 4,
        137 | 145 => 5,
        140 => 3 + 2 * usize::from(message.b.min(16)),
        148 | 149 => 2 + usize::from(message.a.min(16)),
        _ => 1,
    }
}

/// Messages for the writer.
pub fn writer(tape: &mut Tape, rng: &mut Rng) {
    // Every opcode once with any fields, so that even a short file has them.
    tape.room(35);
    for opcode in 0..=255 {
        let mut message = any_message(rng);
        message.opcode = opcode;
        tape.message(&message);
    }
    while tape.open() {
        let opcode = rng.pick(&frames::OFFERED);
        let message = match rng.below(8) {
            0 => any_message(rng),
            1..=3 => {
                let mut message = legal_message(rng, opcode);
                to_an_end(rng, &mut message);
                message
            }
            _ => legal_message(rng, opcode),
        };
        if rng.one_in(3) {
            tape.room(35);
        } else {
            tape.room(room_about(rng, frame_length(&message)));
        }
        tape.message(&message);
        // The writer leaves the base alone, and the base the writer.
        if rng.one_in(16) {
            tape.byte(rng.pick(&[128, 131, 132]));
        }
    }
}
