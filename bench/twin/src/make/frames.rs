//! Frames with legal data, and frames that are half read.

use crate::board::Mode;
use crate::command::{self, MOST_STREAMED};
use crate::packet;

use super::rng::Rng;

/// The offered commands.
pub const OFFERED: [u8; 23] = [
    128, 129, 130, 131, 132, 133, 134, 135, 136, 137, 138, 139, 140, 141, 142, 143, 144, 145, 147,
    148, 149, 150, 151,
];

/// A legal velocity or wheel speed, often at an end of its range.
pub fn speed(rng: &mut Rng) -> i16 {
    if rng.one_in(3) {
        rng.pick(&[-500, -499, -256, -1, 0, 1, 255, 256, 499, 500])
    } else {
        rng.number(-500, 500)
    }
}

/// A legal radius, often at an end of a range that counts.
pub fn radius(rng: &mut Rng) -> i16 {
    if rng.flip() {
        rng.pick(&[
            -2000,
            -1999,
            -166,
            -165,
            -164,
            -1,
            1,
            164,
            165,
            166,
            1999,
            2000,
            i16::MAX,
            i16::MIN,
        ])
    } else {
        let radius = rng.number(1, 2000);
        if rng.flip() {
            radius
        } else {
            -radius
        }
    }
}

/// A legal number of a Demo, often -1, 0 or 9.
fn demo(rng: &mut Rng) -> u8 {
    let any = rng.number(-1, 9) as u8;
    rng.pick(&[255, 0, 9, any])
}

/// So many ids of packets.
pub fn ids(rng: &mut Rng, count: usize) -> Vec<u8> {
    (0..count).map(|_| rng.byte(0, packet::LAST_ID)).collect()
}

/// So many ids that may be streamed.
pub fn stream_ids(rng: &mut Rng, count: usize) -> Vec<u8> {
    let mut ids = ids(rng, count);
    while !command::streams(&ids) {
        // A single packet for another brings the sum down, in time.
        let place = rng.below(count);
        ids[place] = rng.byte(7, packet::LAST_ID);
    }
    ids
}

/// Ids whose sizes and number make exactly this sum: 255 can be streamed, 256
/// can't.
pub fn ids_of_sum(rng: &mut Rng, sum: usize) -> Vec<u8> {
    loop {
        let count = 5 + rng.below(12);
        let mut ids = ids(rng, count);
        // The large packets are few among the ids, and none sums up without.
        for id in &mut ids {
            if rng.flip() {
                *id = rng.pick(&[6, 6, 0, 4]);
            }
        }
        for place in 0..count {
            let made = ids.len() + packet::sizes(&ids);
            let size = packet::size(ids[place]) + sum;
            let Some(wanted) = size.checked_sub(made) else {
                continue;
            };
            let fitting: Vec<u8> = (0..=packet::LAST_ID)
                .filter(|&id| packet::size(id) == wanted)
                .collect();
            if !fitting.is_empty() {
                ids[place] = rng.pick(&fitting);
                return ids;
            }
        }
    }
}

/// The sum that a chunk's one byte can just not hold.
pub const JUST_TOO_MUCH: usize = MOST_STREAMED + 1;

/// A frame of an offered command with legal data.
pub fn legal(rng: &mut Rng, opcode: u8) -> Vec<u8> {
    let mut frame = vec![opcode];
    match opcode {
        129 => frame.push(rng.byte(0, 11)),
        136 => frame.push(demo(rng)),
        137 => {
            frame.extend_from_slice(&speed(rng).to_be_bytes());
            frame.extend_from_slice(&radius(rng).to_be_bytes());
        }
        145 => {
            frame.extend_from_slice(&speed(rng).to_be_bytes());
            frame.extend_from_slice(&speed(rng).to_be_bytes());
        }
        138 | 147 => frame.push(rng.byte(0, 7)),
        139 => frame.extend_from_slice(&[rng.any(), rng.any(), rng.any()]),
        144 => {
            for _ in 0..3 {
                let duty = rng.byte(0, 128);
                frame.push(rng.pick(&[0, 128, duty, duty]));
            }
        }
        140 => {
            let count = rng.byte(1, 16);
            frame.push(song(rng));
            frame.push(count);
            frame.extend((0..2 * count).map(|_| rng.any()));
        }
        141 => frame.push(song(rng)),
        142 => frame.push(rng.byte(0, packet::LAST_ID)),
        148 => {
            let count = rng.below(17);
            let ids = stream_ids(rng, count);
            frame.push(ids.len() as u8);
            frame.extend_from_slice(&ids);
        }
        149 => {
            let count = rng.below(17);
            frame.push(count as u8);
            frame.extend_from_slice(&ids(rng, count));
        }
        150 => frame.push(rng.byte(0, 1)),
        151 => frame.push(rng.any()),
        _ => {}
    }
    frame
}

/// A song's number; few of them are used most, so that Play finds songs set.
fn song(rng: &mut Rng) -> u8 {
    if rng.flip() {
        rng.byte(0, 3)
    } else {
        rng.byte(0, 15)
    }
}

/// The mode after a command that was done.
pub fn mode_after(opcode: u8, mode: Mode) -> Mode {
    match opcode {
        128 | 129 | 133..=136 | 143 => Mode::Passive,
        130 | 131 => Mode::Safe,
        132 => Mode::Full,
        _ => mode,
    }
}

/// A command that a host would give in this mode: most are allowed, and it
/// soon leaves Off and Passive.
pub fn command_for(rng: &mut Rng, mode: Mode) -> u8 {
    let any = rng.pick(&OFFERED);
    if rng.one_in(20) {
        return any;
    }
    match mode {
        Mode::Off => 128,
        Mode::Passive if rng.one_in(3) => rng.pick(&[130, 131, 132]),
        Mode::Safe | Mode::Full if rng.one_in(3) => rng.pick(&[137, 137, 145, 138, 144, 141]),
        _ if command::allowed(any, mode) => any,
        _ => rng.pick(&[142, 149, 148, 140]),
    }
}

/// The bytes so far of a frame that isn't complete: of every opcode that has
/// data, at every place, with counts of every size.
pub fn half_read(rng: &mut Rng) -> Vec<u8> {
    match rng.below(8) {
        0 => vec![rng.pick(&[136, 140, 148, 149, 152])],
        1 => vec![140, rng.any()],
        2 => counted(rng),
        3 => long_song(rng),
        4 => short_song(rng),
        _ => fixed(rng),
    }
}

/// The bytes so far of a 148, 149 or 152 whose count is known.
fn counted(rng: &mut Rng) -> Vec<u8> {
    let opcode = rng.pick(&[148, 149, 152]);
    let any = rng.byte(1, 255);
    let low = rng.byte(1, 16);
    // A frame's places could hold so many ids, but past 16 none is kept.
    let fits = rng.byte(18, 32);
    let count = rng.pick(&[any, low, low, 1, 16, 17, fits, 255]);
    let mut bytes = vec![opcode, count];
    let come = rng.below(usize::from(count));
    let last = rng.pick(&[42, 255]);
    bytes.extend((0..come).map(|_| rng.byte(0, last)));
    bytes
}

/// The bytes so far of a song past the legal length; often none of the data has
/// come.
fn long_song(rng: &mut Rng) -> Vec<u8> {
    let any = rng.byte(17, 255);
    let few = rng.byte(18, 32);
    let count = rng.pick(&[any, 17, few, 255, 255]);
    let mut bytes = vec![140, rng.any(), count];
    if rng.flip() {
        let come = rng.below(2 * usize::from(count));
        bytes.extend((0..come).map(|_| rng.any()));
    }
    bytes
}

/// The bytes so far of a song of legal length.
fn short_song(rng: &mut Rng) -> Vec<u8> {
    let any = rng.byte(1, 16);
    let count = rng.pick(&[any, any, 1, 16]);
    let last = rng.pick(&[15, 255]);
    let mut bytes = vec![140, rng.byte(0, last), count];
    let come = rng.below(2 * usize::from(count));
    bytes.extend((0..come).map(|_| rng.any()));
    bytes
}

/// The bytes so far of a frame whose opcode fixes its length.
fn fixed(rng: &mut Rng) -> Vec<u8> {
    let opcode = rng.pick(&[
        129, 136, 138, 141, 142, 147, 150, 151, 155, 158, 156, 157, 139, 144, 137, 145,
    ]);
    let data: usize = match opcode {
        156 | 157 => 2,
        139 | 144 => 3,
        137 | 145 => 4,
        _ => 1,
    };
    let mut bytes = vec![opcode];
    let come = rng.below(data);
    let last = rng.pick(&[1, 128, 255]);
    bytes.extend((0..come).map(|_| rng.byte(0, last)));
    bytes
}
