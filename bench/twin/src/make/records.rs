//! State records: good ones, at the ends of every range, and ones that break a
//! single rule.

use crate::board::{Board, Mode, Number, StreamList, WheelOrder, LIST_PLACES};
use crate::check::{self, Item};
use crate::frame::{self, HeldFrame, FRAME_PLACES};
use crate::layout::{self, STATE_BYTES};
use crate::packet::{Image, IMAGE_BYTES};

use super::edges::frame_at_an_end;
use super::frames;
use super::rng::Rng;
use super::tape::Tape;
use super::wheels;

/// Any good record.
pub fn good(rng: &mut Rng) -> Board {
    let mode = rng.pick(&[Mode::Off, Mode::Passive, Mode::Safe, Mode::Full]);
    good_in(rng, mode)
}

/// A good record in a mode.
pub fn good_in(rng: &mut Rng, mode: Mode) -> Board {
    let mut board = Board::power_on();
    board.mode = mode as u8;
    match mode {
        // With no order the two numbers may be anything.
        Mode::Off | Mode::Passive => board.wheels = idle(rng),
        Mode::Safe | Mode::Full => {
            board.wheels = order(rng);
            for duty in &mut board.duties {
                let any = rng.byte(0, 128);
                *duty = rng.pick(&[0, 1, 127, 128, any]);
            }
        }
    }
    let any = rng.byte(0, 11);
    board.baud = rng.pick(&[0, 10, 11, any]);
    rng.fill(&mut board.leds);
    board.outputs = rng.byte(0, 7);
    board.infrared = rng.any();
    for number in 0..16 {
        if rng.one_in(3) {
            set_song(rng, &mut board, number);
        }
    }
    board.selected = rng.byte(0, 15);
    let selected = board.songs[usize::from(board.selected)];
    board.playing = u8::from(selected.length != 0 && rng.flip());
    let count = rng.pick(&[0, 1, 3, 15, 16]);
    let ids = if rng.one_in(4) {
        frames::ids_of_sum(rng, 255)
    } else {
        frames::stream_ids(rng, count)
    };
    set_list(&mut board, &ids);
    board.streaming = rng.byte(0, 1);
    if rng.flip() {
        hold_any(rng, &mut board);
    }
    board
}

fn idle(rng: &mut Rng) -> WheelOrder {
    WheelOrder {
        kind: WheelOrder::NONE,
        first: any_number(rng),
        second: any_number(rng),
    }
}

fn order(rng: &mut Rng) -> WheelOrder {
    match rng.below(4) {
        0 => idle(rng),
        1 => WheelOrder::direct(frames::speed(rng), frames::speed(rng)),
        _ => WheelOrder::drive(frames::speed(rng), frames::radius(rng)),
    }
}

fn any_number(rng: &mut Rng) -> i16 {
    let any = rng.number(i16::MIN, i16::MAX);
    rng.pick(&[0, 0, 1, any, i16::MIN, i16::MAX])
}

fn set_song(rng: &mut Rng, board: &mut Board, number: usize) {
    let song = &mut board.songs[number];
    let any = rng.byte(1, 16);
    song.length = rng.pick(&[1, any, any, 15, 16]);
    song.notes = [0; 32];
    rng.fill(&mut song.notes[..2 * usize::from(song.length)]);
}

fn set_list(board: &mut Board, ids: &[u8]) {
    let mut places = [0; LIST_PLACES];
    places[..ids.len()].copy_from_slice(ids);
    board.list = StreamList {
        places,
        used: ids.len() as u8,
    };
}

/// Lets the record hold a half-read frame of any kind.
pub fn hold_any(rng: &mut Rng, board: &mut Board) {
    let bytes = frames::half_read(rng);
    let image: Image = [0; IMAGE_BYTES];
    board.held = HeldFrame::default();
    // The base itself cuts the bytes; a half-read frame changes nothing else.
    let answer = board.run(&bytes, &image, &mut []);
    debug_assert_eq!(answer.number, Number::Waiting);
}

/// A record that breaks this item and no other.
pub fn broken(rng: &mut Rng, item: Item) -> Board {
    loop {
        // The rules on motors are only alone where motors may run.
        let mode = match item {
            Item::MotorNotOff => rng.pick(&[Mode::Off, Mode::Passive]),
            Item::OrderKind | Item::WheelOrder | Item::Duty => rng.pick(&[Mode::Safe, Mode::Full]),
            _ => rng.pick(&[Mode::Off, Mode::Passive, Mode::Safe, Mode::Full]),
        };
        let mut board = good_in(rng, mode);
        break_item(rng, &mut board, item);
        // Some choices leave the record good or break two items: try again.
        if check::only_broken(&board) == Some(item) {
            return board;
        }
    }
}

fn break_item(rng: &mut Rng, board: &mut Board, item: Item) {
    match item {
        Item::Mode => board.mode = beyond(rng, 4),
        Item::OrderKind => board.wheels.kind = beyond(rng, 3),
        Item::MotorNotOff => run_motor(rng, board),
        Item::WheelOrder => board.wheels = wrong_order(rng),
        Item::Duty => board.duties[rng.below(3)] = beyond(rng, 129),
        Item::Output => board.outputs = beyond(rng, 8),
        Item::Baud => board.baud = beyond(rng, 12),
        Item::Selected => {
            board.selected = beyond(rng, 16);
            board.playing = 0;
        }
        Item::StreamCount => {
            let ids = frames::stream_ids(rng, LIST_PLACES);
            set_list(board, &ids);
            board.list.used = beyond(rng, 17);
        }
        Item::StreamId => {
            let count = 1 + rng.below(LIST_PLACES);
            let mut ids = frames::stream_ids(rng, count);
            ids[rng.below(count)] = beyond(rng, 43);
            set_list(board, &ids);
        }
        Item::StreamSizes => {
            let ids = if rng.flip() {
                frames::ids_of_sum(rng, frames::JUST_TOO_MUCH)
            } else {
                let count = 5 + rng.below(12);
                vec![6; count]
            };
            set_list(board, &ids);
        }
        Item::SongLength => {
            let song = &mut board.songs[first_last_or_any(rng)];
            rng.fill(&mut song.notes);
            song.length = beyond(rng, 17);
        }
        Item::PlayingFlag => board.playing = no_flag(rng),
        Item::StreamingFlag => board.streaming = no_flag(rng),
        Item::PlayingUnset => {
            board.songs[usize::from(board.selected)] = Board::power_on().songs[0];
            board.playing = 1;
        }
        Item::UnusedSong => {
            let song = &mut board.songs[first_last_or_any(rng)];
            let used = 2 * usize::from(song.length);
            touch_unused(rng, &mut song.notes, used);
        }
        Item::UnusedList => {
            let used = usize::from(board.list.used);
            touch_unused(rng, &mut board.list.places, used);
        }
        Item::UnusedFrame => {
            let used = usize::from(board.held.used);
            touch_unused(rng, &mut board.held.places, used);
        }
        Item::HeldBytes => hold_wrong_bytes(rng, board),
        Item::HeldOwed => owe_wrong(rng, board),
    }
}

/// The number of a song.
fn first_last_or_any(rng: &mut Rng) -> usize {
    let any = rng.below(16);
    rng.pick(&[0, 15, any])
}

/// A byte past a range that ends before `first`: the first, the last or any.
fn beyond(rng: &mut Rng, first: u8) -> u8 {
    let any = rng.byte(first, 255);
    rng.pick(&[first, 255, any])
}

/// A byte that is neither 0 nor 1, of which a reader that looks at one bit, or
/// only for 0 or only for 1, makes a flag.
fn no_flag(rng: &mut Rng) -> u8 {
    let any = rng.byte(2, 255);
    rng.pick(&[2, 3, 128, 254, 255, any])
}

/// Makes one place not in use other than 0, the first, the last or any, or two.
fn touch_unused(rng: &mut Rng, places: &mut [u8], used: usize) {
    let unused = &mut places[used..];
    if unused.is_empty() {
        return;
    }
    let any = rng.below(unused.len());
    let place = rng.pick(&[0, unused.len() - 1, any]);
    unused[place] = rng.pick(&[1, 128, 255]);
    // Two of them cancel out where places are added up or held against each other.
    if rng.one_in(4) {
        unused[place] = 128;
        unused[any] = 128;
    }
}

fn run_motor(rng: &mut Rng, board: &mut Board) {
    match rng.below(4) {
        0 => board.wheels = WheelOrder::drive(0, 1),
        1 => board.wheels = WheelOrder::direct(0, 0),
        2 => board.wheels = order(rng),
        _ => board.duties[rng.below(3)] = rng.byte(1, 128),
    }
}

fn wrong_order(rng: &mut Rng) -> WheelOrder {
    let wrong_speed = rng.pick(&[-501, 501, i16::MIN, i16::MAX, 512, -512]);
    let wrong_radius = rng.pick(&[0, -2001, 2001, i16::MAX - 1, i16::MIN + 1]);
    match rng.below(4) {
        0 => WheelOrder::drive(wrong_speed, frames::radius(rng)),
        1 => WheelOrder::drive(frames::speed(rng), wrong_radius),
        2 => WheelOrder::direct(wrong_speed, frames::speed(rng)),
        _ => WheelOrder::direct(frames::speed(rng), wrong_speed),
    }
}

fn hold(board: &mut Board, bytes: &[u8], owed: usize) {
    let mut places = [0; FRAME_PLACES];
    places[..bytes.len()].copy_from_slice(bytes);
    board.held = HeldFrame {
        places,
        used: bytes.len() as u16,
        owed: owed as u16,
    };
}

/// Holds bytes that the frame table can't leave, whatever is owed.
fn hold_wrong_bytes(rng: &mut Rng, board: &mut Board) {
    let owed = rng.pick(&[0, 0, 1, 2, 510]);
    let low = rng.byte(1, 16);
    let mut bytes = match rng.below(9) {
        // Opcodes without data are never held.
        0 => vec![rng.pick(&[
            0, 127, 128, 130, 131, 132, 133, 134, 135, 143, 146, 153, 154, 159, 255,
        ])],
        // As many data as there are.
        1 => {
            let opcode = rng.pick(&frames::OFFERED);
            frames::legal(rng, opcode)
        }
        // A count of 0 ends the frame.
        2 => rng
            .pick(&[
                &[148, 0][..],
                &[149, 0],
                &[152, 0],
                &[140, 0, 0],
                &[140, 255, 0],
            ])
            .to_vec(),
        // Bytes after the count that aren't kept.
        3 => vec![152, low, 0],
        4 => vec![rng.pick(&[148, 149]), beyond(rng, 17), 0],
        5 => vec![140, rng.any(), beyond(rng, 17), 0],
        // A Demo that has its number.
        6 | 7 => vec![136, rng.any()],
        // More places than there are, or all of them.
        _ => {
            hold_any(rng, board);
            board.held.places[1..].fill(1);
            board.held.used = rng.pick(&[35, 36, 255, 256, 258, 65535]);
            return;
        }
    };
    if rng.one_in(4) && bytes.len() < FRAME_PLACES {
        bytes.push(rng.any());
    }
    hold(board, &bytes, owed);
}

/// Owes a number that the frame table can't leave beside the held bytes.
fn owe_wrong(rng: &mut Rng, board: &mut Board) {
    match rng.below(8) {
        0 => hold(board, &[], 0),
        // A Demo alone owes 1; 0 and 2 are beside it.
        1 | 2 => hold(board, &[136], 1),
        _ => hold_any(rng, board),
    }
    let owed = board.held.owed;
    let opcode = board.held.places[0];
    // A frame that is read past may owe up to what its count says.
    let most = match (opcode, board.held.used) {
        (140, 3) => 2 * u16::from(board.held.places[2]),
        (148 | 149 | 152, 2) => u16::from(board.held.places[1]),
        _ => owed,
    };
    board.held.owed = rng.pick(&[
        0,
        owed.wrapping_sub(1),
        owed + 1,
        owed + 256,
        most + 1,
        511,
        65535,
    ]);
}

/// A record with one field at an end of its range or beside it, good or bad.
fn at_an_end(rng: &mut Rng) -> Board {
    let mut board = good(rng);
    let ends = [-501, -500, -499, -1, 0, 1, 499, 500, 501];
    let radii = [
        i16::MIN,
        i16::MIN + 1,
        -2001,
        -2000,
        -1,
        0,
        1,
        2000,
        2001,
        i16::MAX - 1,
        i16::MAX,
    ];
    match rng.below(14) {
        0 => board.mode = rng.pick(&[0, 1, 2, 3, 4]),
        1 => board.wheels.kind = rng.pick(&[0, 1, 2, 3]),
        2 => board.wheels.first = rng.pick(&ends),
        3 => board.wheels.second = rng.pick(&ends),
        4 => board.wheels.second = rng.pick(&radii),
        5 => board.duties[rng.below(3)] = rng.pick(&[0, 1, 127, 128, 129]),
        6 => board.outputs = rng.pick(&[0, 7, 8]),
        7 => board.baud = rng.pick(&[0, 11, 12]),
        8 => board.selected = rng.pick(&[0, 15, 16]),
        9 => board.playing = 1 - board.playing,
        10 => {
            let sum = rng.pick(&[255, 256]);
            let ids = frames::ids_of_sum(rng, sum);
            set_list(&mut board, &ids);
        }
        11 => {
            let count = board.list.used;
            let one_less = count.saturating_sub(1);
            board.list.used = rng.pick(&[one_less, count + 1, 0, 16, 17]);
        }
        12 => {
            let song = &mut board.songs[rng.below(16)];
            let one_less = song.length.saturating_sub(1);
            song.length = rng.pick(&[one_less, song.length + 1, 0, 16, 17]);
        }
        _ => {
            hold_any(rng, &mut board);
            let held = &mut board.held;
            match rng.below(3) {
                0 => held.used = held.used.wrapping_add(rng.pick(&[1, 65535])),
                1 => held.owed = held.owed.wrapping_add(rng.pick(&[1, 65535])),
                _ => held.places[rng.below(3)] = rng.any(),
            }
        }
    }
    board
}

/// A record of which one flag or both are neither 0 nor 1. The rest is good or
/// bad: the flags alone must do, and nothing else may hide behind them.
fn with_no_flag(rng: &mut Rng) -> Board {
    let mut board = if rng.flip() {
        good(rng)
    } else {
        let item = rng.pick(&Item::ALL);
        broken(rng, item)
    };
    let which = rng.byte(1, 3);
    if which & 1 != 0 {
        board.playing = no_flag(rng);
    }
    if which & 2 != 0 {
        board.streaming = no_flag(rng);
    }
    board
}

/// A record past its count that owes what it just may, or just may not; or with a
/// count of 0, which would have ended the frame.
fn past_its_count(rng: &mut Rng) -> Board {
    let mut board = good(rng);
    let opcode = rng.pick(&[140, 148, 149, 152]);
    let least = if opcode == 152 { 1 } else { 17 };
    let any = rng.byte(least, 255);
    let count = rng.pick(&[0, least, 255, any]);
    let all = usize::from(frame::bytes_after_count(opcode, count));
    let owed = rng.pick(&[0, 1, all, all + 1]);
    if opcode == 140 {
        hold(&mut board, &[opcode, rng.any(), count], owed);
    } else {
        hold(&mut board, &[opcode, count], owed);
    }
    board
}

/// A record of any bytes, of which hardly one is good.
fn any(rng: &mut Rng) -> Board {
    let mut bytes = [0; STATE_BYTES];
    rng.fill(&mut bytes);
    layout::state_from_bytes(&bytes)
}

/// A good record in Safe or Full with a Drive about which a cliff is decided.
fn drive_near_a_cliff(rng: &mut Rng) -> Board {
    let mode = rng.pick(&[Mode::Safe, Mode::Safe, Mode::Safe, Mode::Full]);
    let mut board = good_in(rng, mode);
    let velocity = rng.pick(&[-500, -1, -1, -1, -1, 0, 1, 500]);
    let end = rng.pick(&[164, 164, 164, 165, 165, 165, 166, 1, 1, 1, 2000]);
    let radius = match rng.below(13) {
        0 => i16::MIN,
        1 => i16::MAX,
        2 => frames::radius(rng),
        3..=7 => -end,
        _ => end,
    };
    board.wheels = WheelOrder::drive(velocity, radius);
    board
}

/// The same with a Direct order.
fn direct_near_a_cliff(rng: &mut Rng) -> Board {
    let mode = rng.pick(&[Mode::Safe, Mode::Safe, Mode::Safe, Mode::Full]);
    let mut board = good_in(rng, mode);
    board.wheels = wheels::near_a_cliff(rng);
    board
}

/// Records of every sort, each with a few calls after it.
pub fn records(tape: &mut Tape, rng: &mut Rng) {
    while tape.open() {
        if rng.one_in(6) {
            tape.state(&direct_near_a_cliff(rng));
            let any = rng.byte(0, 7);
            tape.report(rng.pick(&[2, 2, 2, 2, 2, any]));
            continue;
        }
        if rng.one_in(5) {
            tape.state(&drive_near_a_cliff(rng));
            let any = rng.byte(0, 7);
            tape.report(rng.pick(&[2, 2, 2, 2, 2, any]));
            continue;
        }
        let board = match rng.below(20) {
            0..=4 => good(rng),
            5..=8 => at_an_end(rng),
            9 => with_no_flag(rng),
            10 => any(rng),
            11 => past_its_count(rng),
            _ => {
                let item = rng.pick(&Item::ALL);
                broken(rng, item)
            }
        };
        tape.state(&board);
        for _ in 0..3 + rng.below(5) {
            any_call(tape, rng);
        }
    }
}

/// Any call, with bytes that often end the held frame or are whole frames.
fn any_call(tape: &mut Tape, rng: &mut Rng) {
    match rng.below(11) {
        0 | 1 => {
            tape.byte(128);
        }
        2 => {
            tape.byte(rng.any());
        }
        3 => {
            tape.run(&[]);
        }
        4 => {
            let opcode = rng.pick(&frames::OFFERED);
            tape.run(&frames::legal(rng, opcode));
        }
        5 => {
            let length = rng.below(40);
            let last = rng.pick(&[42, 128, 255]);
            let bytes: Vec<u8> = (0..length).map(|_| rng.byte(0, last)).collect();
            tape.run(&bytes);
        }
        6 => {
            let owed = usize::from(tape.board().held.owed).min(600);
            tape.run(&vec![rng.byte(0, 7); owed]);
        }
        7 => tape.tick(),
        8 => tape.report(rng.byte(0, 7)),
        9 => {
            tape.run(&frame_at_an_end(rng, 136));
        }
        _ => tape.song_end(),
    }
}
