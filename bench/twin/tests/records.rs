//! Good records and bad ones.

mod common;

use common::{image, in_mode};
use twin::board::{Answer, Board, Mode, Number, SafetyReport, WheelOrder};
use twin::check::{is_good, only_broken, Item};
use twin::frame::HeldFrame;
use twin::layout;

/// A held frame of these bytes that owes so many.
fn held(bytes: &[u8], owed: u16) -> HeldFrame {
    let mut held = HeldFrame::default();
    held.places[..bytes.len()].copy_from_slice(bytes);
    held.used = bytes.len() as u16;
    held.owed = owed;
    held
}

fn holding(bytes: &[u8], owed: u16) -> Board {
    Board {
        held: held(bytes, owed),
        ..in_mode(Mode::Safe)
    }
}

/// All calls must refuse the record and leave it.
fn assert_refused(board: &Board) {
    let refused = Answer::from(Number::BadRecord);
    let mut tried = board.clone();
    let mut buffer = [7; 300];
    for byte in [128, 0, 255] {
        assert_eq!(tried.byte(byte, &image(), &mut buffer), refused);
    }
    for slice in [&[][..], &[128; 20]] {
        let answer = tried.run(slice, &image(), &mut buffer);
        assert_eq!((answer.number, answer.length), (Number::BadRecord, 0));
        assert_eq!(answer.read, 0);
    }
    assert_eq!(tried.tick(&image(), &mut buffer), refused);
    assert_eq!(tried.song_end(), Number::BadRecord);
    let all = SafetyReport {
        wheel_drop: true,
        cliff: true,
        charger: true,
    };
    assert_eq!(tried.report(all), Number::BadRecord);
    assert_eq!(&tried, board);
    assert_eq!(buffer, [7; 300]);
}

fn assert_breaks(board: &Board, item: Item) {
    assert!(!is_good(board), "{item:?}");
    assert_eq!(only_broken(board), Some(item));
    assert_refused(board);
}

/// A change to a record, and the item that it breaks.
type Change = (Item, fn(&mut Board));

#[test]
fn each_item_alone() {
    let changes: [Change; 41] = [
        (Item::Mode, |b| b.mode = 4),
        (Item::Mode, |b| b.mode = 255),
        (Item::OrderKind, |b| b.wheels.kind = 3),
        (Item::MotorNotOff, |b| {
            b.mode = 0;
            b.wheels = WheelOrder::drive(0, 1);
        }),
        (Item::MotorNotOff, |b| {
            b.mode = 1;
            b.duties[2] = 1;
        }),
        (Item::WheelOrder, |b| b.wheels = WheelOrder::drive(501, 1)),
        (Item::WheelOrder, |b| b.wheels = WheelOrder::drive(1, 0)),
        (Item::WheelOrder, |b| b.wheels = WheelOrder::drive(1, -2001)),
        (Item::WheelOrder, |b| b.wheels = WheelOrder::direct(0, -501)),
        (Item::Duty, |b| b.duties[0] = 129),
        (Item::Duty, |b| b.duties[2] = 255),
        (Item::Output, |b| b.outputs = 8),
        (Item::Baud, |b| b.baud = 12),
        (Item::Selected, |b| b.selected = 16),
        (Item::StreamCount, |b| b.list.used = 17),
        (Item::StreamCount, |b| b.list.used = 255),
        (Item::StreamId, |b| {
            b.list.places[0] = 43;
            b.list.used = 1;
        }),
        (Item::StreamSizes, |b| {
            b.list.places[..5].fill(6);
            b.list.used = 5;
        }),
        (Item::SongLength, |b| b.songs[15].length = 17),
        (Item::PlayingFlag, |b| b.playing = 2),
        (Item::PlayingFlag, |b| b.playing = 255),
        (Item::PlayingFlag, |b| {
            b.playing = 3;
            b.songs[0].length = 1;
        }),
        (Item::StreamingFlag, |b| b.streaming = 2),
        (Item::StreamingFlag, |b| b.streaming = 3),
        (Item::StreamingFlag, |b| b.streaming = 255),
        (Item::PlayingUnset, |b| b.playing = 1),
        (Item::UnusedSong, |b| b.songs[0].notes[0] = 1),
        (Item::UnusedSong, |b| {
            b.songs[7].length = 15;
            b.songs[7].notes[30] = 1;
        }),
        (Item::UnusedList, |b| b.list.places[0] = 1),
        (Item::UnusedFrame, |b| b.held.places[0] = 1),
        (Item::UnusedFrame, |b| b.held.places[34] = 1),
        (Item::HeldBytes, |b| b.held = held(&[128], 0)),
        (Item::HeldBytes, |b| b.held = held(&[146], 0)),
        (Item::HeldBytes, |b| b.held = held(&[136, 9], 0)),
        (Item::HeldBytes, |b| b.held.used = 65535),
        (Item::HeldOwed, |b| b.held.owed = 1),
        (Item::HeldOwed, |b| b.held = held(&[136], 0)),
        (Item::HeldOwed, |b| b.held = held(&[136], 2)),
        (Item::HeldOwed, |b| b.held = held(&[137], 3)),
        (Item::HeldOwed, |b| b.held = held(&[140, 0, 255], 511)),
        (Item::HeldOwed, |b| b.held = held(&[148], 1)),
    ];
    for (item, change) in changes {
        let mut board = in_mode(Mode::Safe);
        change(&mut board);
        assert_breaks(&board, item);
    }
}

#[test]
fn held_frames() {
    // Bytes, owed, and whether the frame table can leave them so.
    let longest: Vec<u8> = [&[140, 15, 16][..], &[1; 32]].concat();
    let rows: [(&[u8], u16, bool); 43] = [
        (&[], 0, true),
        (&[129], 1, true),
        (&[129], 0, false),
        (&[129, 0], 0, false),
        (&[129, 0], 1, false),
        (&[136], 1, true),
        (&[136], 0, false),
        (&[136], 2, false),
        (&[136], 510, false),
        (&[136, 0], 0, false),
        (&[136, 255], 1, false),
        (&[136, 10], 0, false),
        (&[137, 1, 2, 3], 1, true),
        (&[137, 1, 2, 3, 4], 0, false),
        (&[156, 1], 1, true),
        (&[156], 2, true),
        (&[140], 0, true),
        (&[140, 200], 0, true),
        (&[140, 200], 1, false),
        (&[140, 200, 0], 0, false),
        (&[140, 200, 1], 2, true),
        (&[140, 200, 1], 1, false),
        (&[140, 200, 1, 9], 1, true),
        (&[140, 200, 16], 32, true),
        (&longest[..34], 1, true),
        (&longest[..34], 2, false),
        (&longest, 0, false),
        (&longest, 1, false),
        (&[140, 200, 17], 34, true),
        (&[140, 200, 17], 1, true),
        (&[140, 200, 17], 35, false),
        (&[140, 200, 17], 0, false),
        (&[140, 200, 17, 1], 33, false),
        (&[148, 0], 0, false),
        (&[149, 16, 99], 15, true),
        (&[149, 17], 17, true),
        (&[149, 17, 0], 16, false),
        (&[152], 0, true),
        (&[152, 0], 0, false),
        (&[152, 1], 1, true),
        (&[152, 3], 1, true),
        (&[152, 3, 0], 2, false),
        (&[152, 255], 256, false),
    ];
    for (bytes, owed, good) in rows {
        let board = holding(bytes, owed);
        assert_eq!(is_good(&board), good, "{bytes:?} {owed}");
        if !good {
            assert_refused(&board);
        }
    }
}

#[test]
fn odd_but_good() {
    let changes: [fn(&mut Board); 5] = [
        |b| {
            b.wheels.first = -32768;
            b.wheels.second = 0;
        },
        |b| {
            b.songs[0].length = 1;
            b.playing = 1;
        },
        |b| b.selected = 15,
        |b| b.streaming = 1,
        |b| b.held = held(&[137, 9], 3),
    ];
    for mode in [Mode::Off, Mode::Passive] {
        for change in changes {
            let mut board = in_mode(mode);
            change(&mut board);
            assert!(is_good(&board));
        }
    }
}

#[test]
fn any_record_can_be_laid_out() {
    let mut bytes = [0; layout::STATE_BYTES];
    for (place, byte) in bytes.iter_mut().enumerate() {
        *byte = (place * 7 + 3) as u8;
    }
    let board = layout::state_from_bytes(&bytes);
    assert_eq!(layout::state_bytes(&board), bytes);
    assert_eq!(
        board.held.owed,
        u16::from_be_bytes([bytes[600], bytes[601]])
    );
    assert_eq!(board.playing, bytes[544]);
    assert_eq!(board.streaming, bytes[562]);
}

/// A record's goodness is one conjunction of the items; random damage to good
/// records must find the two agree.
#[test]
fn goodness_is_all_items() {
    let mut seed = 1u64;
    let mut next = || {
        seed = seed.wrapping_mul(6364136223846793005).wrapping_add(1);
        (seed >> 33) as usize
    };
    for _ in 0..20_000 {
        let mut bytes = layout::state_bytes(&holding(&[140, 3, 17], 9));
        for _ in 0..next() % 4 {
            let place = next() % layout::STATE_BYTES;
            bytes[place] = (next() % 256) as u8;
        }
        let board = layout::state_from_bytes(&bytes);
        let kept = Item::ALL.iter().all(|item| item.kept(&board));
        assert_eq!(is_good(&board), kept);
        if !kept {
            assert_refused(&board);
        }
    }
}
