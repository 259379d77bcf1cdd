//! The writer: the frame of every command, its limits, and the way back through the board.

mod common;

use common::{answer, image, numbers, written, MARK, STILL};
use rawdhusaq::*;

/// A command, its frame, and what it does to a board in Full that moves.
struct Case {
    message: Message,
    frame: &'static [u8],
    effect: fn(&mut State),
}

fn case(message: Message, frame: &'static [u8], effect: fn(&mut State)) -> Case {
    Case {
        message,
        frame,
        effect,
    }
}

/// Enters Passive, stop.
fn to_passive(board: &mut State) {
    board.mode = PASSIVE;
    board.motors = STILL;
}

fn set_order(board: &mut State, order: u8, first: i16, second: i16) {
    board.motors.order = order;
    board.motors.first = first;
    board.motors.second = second;
}

fn changes_of_mode() -> Vec<Case> {
    vec![
        case(Message::start(), &[128], to_passive),
        case(Message::baud(11), &[129, 11], |s| {
            to_passive(s);
            s.kept.baud = 11;
        }),
        case(Message::safe(), &[131], |s| s.mode = SAFE),
        case(Message::full(), &[132], |s| s.mode = FULL),
        case(Message::power(), &[133], to_passive),
        case(Message::spot(), &[134], to_passive),
        case(Message::cover(), &[135], to_passive),
        case(Message::demo(-1), &[136, 255], to_passive),
        case(Message::demo(9), &[136, 9], to_passive),
        case(Message::dock(), &[143], to_passive),
    ]
}

fn actuators() -> Vec<Case> {
    vec![
        case(Message::drive(-200, 500), &[137, 255, 56, 1, 244], |s| {
            set_order(s, DRIVE, -200, 500)
        }),
        case(Message::drive(200, -32768), &[137, 0, 200, 128, 0], |s| {
            set_order(s, DRIVE, 200, -32768)
        }),
        case(Message::direct(500, -500), &[145, 1, 244, 254, 12], |s| {
            set_order(s, DIRECT, 500, -500)
        }),
        case(Message::drivers(5), &[138, 5], |s| {
            s.motors.duties = [128, 0, 128]
        }),
        case(Message::duties(32, 0, 128), &[144, 32, 0, 128], |s| {
            s.motors.duties = [128, 0, 32]
        }),
        case(Message::leds(8, 0, 255), &[139, 8, 0, 255], |s| {
            s.kept.leds = [8, 0, 255]
        }),
        case(Message::outputs(5), &[147, 5], |s| s.kept.outputs = 5),
        case(Message::infrared(142), &[151, 142], |s| s.kept.ir = 142),
    ]
}

fn songs_and_sensors() -> Vec<Case> {
    vec![
        case(
            Message::song(0, &[(60, 32), (64, 33)]),
            &[140, 0, 2, 60, 32, 64, 33],
            |s| {
                s.songs.table[0].len = 2;
                s.songs.table[0].notes[..4].copy_from_slice(&[60, 32, 64, 33]);
            },
        ),
        case(Message::play(3), &[141, 3], |s| {
            s.songs.selected = 3;
            s.songs.playing = 1;
        }),
        case(Message::sensors(35), &[142, 35], |_| {}),
        case(Message::query_list(&[9, 13]), &[149, 2, 9, 13], |_| {}),
        case(Message::query_list(&[]), &[149, 0], |_| {}),
        case(Message::stream(&[29, 13]), &[148, 2, 29, 13], |s| {
            s.stream.ids[..2].copy_from_slice(&[29, 13]);
            s.stream.count = 2;
            s.stream.on = 1;
        }),
        case(Message::pause(1), &[150, 1], |s| s.stream.on = 1),
        case(Message::pause(0), &[150, 0], |s| s.stream.on = 0),
    ]
}

fn cases() -> Vec<Case> {
    let mut cases = changes_of_mode();
    cases.extend(actuators());
    cases.extend(songs_and_sensors());
    cases
}

/// In Full, moving, with song 3 set.
fn moving() -> State {
    let mut board = State::power_on();
    let bytes = [128, 132, 137, 0, 100, 0, 200, 138, 7, 140, 3, 1, 69, 64];
    numbers(&mut board, &bytes);
    assert!(board.mode == FULL && board.songs.table[3].len == 1);
    board
}

/// The number that the writer gives with ample room; a refusal must write nothing.
fn number_of(message: Message) -> u8 {
    let mut buffer = [MARK; 40];
    let reply = message.write(&mut buffer);
    if reply.number != DONE {
        assert_eq!((reply.length, buffer), (0, [MARK; 40]));
    }
    reply.number
}

#[test]
fn the_frame_of_every_command() {
    for case in cases() {
        assert_eq!(written(&case.message), case.frame);
    }
    assert_eq!(written(&Message::control()), [130]);
}

#[test]
fn every_opcode_is_there() {
    let mut opcodes: Vec<u8> = cases().iter().map(|case| case.frame[0]).collect();
    opcodes.push(Message::control().opcode);
    opcodes.sort_unstable();
    opcodes.dedup();
    let offered: Vec<u8> = (128..=145).chain(147..=151).collect();
    assert_eq!(opcodes, offered);
}

#[test]
fn what_is_written_is_read() {
    for case in cases() {
        let mut board = moving();
        let mut expected = board;
        (case.effect)(&mut expected);
        let (number, _) = answer(&mut board, &written(&case.message));
        assert_eq!(number, DONE, "{:?}", case.frame);
        assert_eq!(board, expected, "{:?}", case.frame);
    }
    let mut board = common::in_mode(PASSIVE);
    assert_eq!(answer(&mut board, &written(&Message::control())).0, DONE);
    assert_eq!(board, common::in_mode(SAFE));
}

#[test]
fn queries_are_answered() {
    let mut board = moving();
    assert_eq!(
        answer(&mut board, &written(&Message::sensors(35))),
        (DONE, vec![FULL])
    );
    let list = written(&Message::query_list(&[9, 13, 39, 40]));
    assert_eq!(
        answer(&mut board, &list),
        (DONE, vec![2, 6, 0, 100, 0, 200])
    );
    let (number, all) = answer(&mut board, &written(&Message::sensors(6)));
    assert_eq!((number, &all[..40]), (DONE, &image()[..]));
}

#[test]
fn the_longest_frame() {
    let notes: [(u8, u8); 16] = std::array::from_fn(|i| (60 + i as u8, 100 + i as u8));
    let frame = written(&Message::song(15, &notes));
    assert_eq!(frame.len(), LONGEST_FRAME);
    assert_eq!(frame[..5], [140, 15, 16, 60, 100]);
    assert_eq!(frame[33..], [75, 115]);
    let mut board = moving();
    assert_eq!(answer(&mut board, &frame).0, DONE);
    assert_eq!(
        (board.songs.table[15].len, &board.songs.table[15].notes[..]),
        (16, &frame[3..])
    );
}

#[test]
fn data_that_are_not_legal() {
    let refused = [
        Message::baud(12),
        Message::demo(10),
        Message::demo(-2),
        Message::drive(501, 500),
        Message::drive(-501, 500),
        Message::drive(200, 0),
        Message::drive(200, 2001),
        Message::drive(200, -2001),
        Message::direct(501, 0),
        Message::direct(0, -501),
        Message::drivers(8),
        Message::duties(129, 0, 0),
        Message::duties(0, 0, 129),
        Message::outputs(8),
        Message::song(16, &[(69, 64)]),
        Message::song(0, &[]),
        Message::play(16),
        Message::sensors(43),
        Message::query_list(&[43]),
        Message::stream(&[6; 5]),
        Message::pause(2),
    ];
    for message in refused {
        assert_eq!(number_of(message), NOT_LEGAL, "{message:?}");
    }
    assert_eq!(number_of(Message::stream(&[6, 6, 6, 6, 4, 4, 5])), DONE);
}

#[test]
fn too_many_notes_or_ids() {
    // A count that wrapped at 256 would make a legal one of 272.
    for count in [17, 32, 33, 255, 256, 257, 272, 100_000] {
        let message = Message::song(0, &vec![(60, 32); count]);
        assert_eq!(usize::from(message.b), count.min(255));
        assert_eq!(number_of(message), NOT_LEGAL, "{count} notes");
        for message in [
            Message::stream(&vec![7; count]),
            Message::query_list(&vec![7; count]),
        ] {
            assert_eq!(usize::from(message.a), count.min(255));
            assert_eq!(number_of(message), NOT_LEGAL, "{count} ids");
        }
    }
    assert_eq!(number_of(Message::song(0, &[(60, 32); 16])), DONE);
    assert_eq!(number_of(Message::query_list(&[7; 16])), DONE);
}

#[test]
fn other_opcodes() {
    for opcode in (0..=255).filter(|n| !(128..=145).contains(n) && !(147..=151).contains(n)) {
        let message = Message {
            opcode,
            ..Message::start()
        };
        assert_eq!(number_of(message), NOT_LEGAL, "{opcode}");
    }
}

/// The message with a mark in every field that is not among its command's data.
fn marked(message: Message) -> Message {
    let used = match message.opcode {
        140 => 2 * usize::from(message.b),
        148 | 149 => usize::from(message.a),
        _ => 0,
    };
    let mut marked = message;
    marked.payload[used..].fill(MARK);
    if matches!(message.opcode, 128 | 130..=135 | 137 | 143 | 145) {
        marked.a = MARK;
    }
    if !matches!(message.opcode, 139 | 140 | 144) {
        marked.b = MARK;
    }
    if !matches!(message.opcode, 139 | 144) {
        marked.c = MARK;
    }
    if !matches!(message.opcode, 137 | 145) {
        (marked.first, marked.second) = (i16::MIN, i16::MAX);
    }
    marked
}

#[test]
fn what_is_no_data_is_ignored() {
    for case in cases() {
        assert_ne!(marked(case.message), case.message);
        assert_eq!(written(&marked(case.message)), case.frame);
    }
}

#[test]
fn room() {
    for case in cases() {
        let length = case.frame.len();
        let mut buffer = [MARK; 40];
        let reply = case.message.write(&mut buffer[..length - 1]);
        assert_eq!(
            (reply.number, reply.length, buffer),
            (NO_ROOM, 0, [MARK; 40])
        );
        let reply = case.message.write(&mut buffer[..length]);
        assert_eq!((reply.number, reply.answer(&buffer)), (DONE, case.frame));
    }
    // 4 comes before 7.
    assert_eq!(
        Message::drive(501, 500).write(&mut [0; 4]).number,
        NOT_LEGAL
    );
}
