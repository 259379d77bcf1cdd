//! The cases that the rules show, and others that they speak of.

mod common;

use common::{give, give_frame, holds_nothing, image, in_mode, motors_off};
use twin::board::{Answer, Board, Mode, Number, RunAnswer, SafetyReport, WheelOrder};
use twin::writer::{self, Message};

const MODES: [Mode; 4] = [Mode::Off, Mode::Passive, Mode::Safe, Mode::Full];

#[test]
fn w1_start_in_off() {
    let mut board = Board::power_on();
    assert_eq!(give_frame(&mut board, &[128]), Number::Done);
    assert_eq!(board, in_mode(Mode::Passive));
}

#[test]
fn w2_safe_in_off() {
    let mut board = Board::power_on();
    assert_eq!(give_frame(&mut board, &[131]), Number::WrongMode);
    assert_eq!(board, Board::power_on());
}

#[test]
fn w3_drive_in_safe() {
    let mut board = in_mode(Mode::Safe);
    assert_eq!(
        give_frame(&mut board, &[137, 255, 56, 1, 244]),
        Number::Done
    );
    assert_eq!(board.wheels, WheelOrder::drive(-200, 500));
    let mut whole = in_mode(Mode::Safe);
    let answer = whole.run(&[137, 255, 56, 1, 244, 137], &image(), &mut []);
    let expected = RunAnswer {
        number: Number::Done,
        length: 0,
        read: 5,
    };
    assert_eq!(answer, expected);
    assert_eq!(whole, board);
}

#[test]
fn w4_drive_in_passive() {
    let mut board = in_mode(Mode::Passive);
    let number = give_frame(&mut board, &[137, 255, 56, 1, 244]);
    assert_eq!(number, Number::WrongMode);
    assert_eq!(board, in_mode(Mode::Passive));
}

#[test]
fn w5_straight() {
    let mut board = in_mode(Mode::Safe);
    assert_eq!(give_frame(&mut board, &[137, 0, 100, 128, 0]), Number::Done);
    assert_eq!(board.wheels, WheelOrder::drive(100, -32768));
}

#[test]
fn w6_w7_direct() {
    let mut board = in_mode(Mode::Full);
    let number = give_frame(&mut board, &[145, 1, 244, 254, 12]);
    assert_eq!(number, Number::Done);
    assert_eq!(board.wheels, WheelOrder::direct(500, -500));
    let before = board.clone();
    assert_eq!(give_frame(&mut board, &[145, 1, 245, 0, 0]), Number::Data);
    assert_eq!(board, before);
}

#[test]
fn w8_empty_song() {
    let mut board = in_mode(Mode::Passive);
    assert_eq!(give_frame(&mut board, &[140, 0, 0]), Number::Data);
    assert!(holds_nothing(&board));
}

#[test]
fn w9_longest_frame() {
    let mut board = in_mode(Mode::Passive);
    assert_eq!(give_frame(&mut board, &[140, 0, 255]), Number::Waiting);
    assert_eq!((board.held.used, board.held.owed), (3, 510));
    let answer = board.run(&[128; 600], &image(), &mut []);
    assert_eq!((answer.number, answer.read), (Number::Data, 510));
}

#[test]
fn w10_empty_list() {
    let mut board = in_mode(Mode::Passive);
    let mut buffer = [7; 4];
    board.byte(149, &image(), &mut buffer);
    let answer = board.byte(0, &image(), &mut buffer);
    assert_eq!(answer, Answer::written(0));
    assert_eq!(buffer, [7; 4]);
    // An answer of length 0 fits a buffer of length 0.
    let answer = board.run(&[149, 0], &image(), &mut []);
    assert_eq!(answer.number, Number::Done);
}

#[test]
fn w11_room_for_all_packets() {
    let mut board = in_mode(Mode::Passive);
    let mut short = [7; 51];
    let answer = board.run(&[142, 6], &image(), &mut short);
    assert_eq!((answer.number, answer.length), (Number::NoRoom, 0));
    assert_eq!(short, [7; 51]);
    let mut enough = [7; 53];
    let answer = board.run(&[142, 6], &image(), &mut enough[..52]);
    assert_eq!((answer.number, answer.length), (Number::Done, 52));
    assert_eq!(enough[..40], image());
    assert_eq!(enough[40..], [1, 0, 0, 0, 0, 0, 0, 0, 0, 0, 0, 0, 7]);
}

#[test]
fn w12_stream_sizes() {
    let mut board = in_mode(Mode::Passive);
    let number = give_frame(&mut board, &[148, 4, 6, 6, 6, 6]);
    assert_eq!(number, Number::Done);
    assert_eq!(board.list.used, 4);
    assert_eq!(board.streaming, 1);
    board.streaming = 0;
    let before = board.clone();
    let number = give_frame(&mut board, &[148, 5, 6, 6, 6, 6, 6]);
    assert_eq!(number, Number::Data);
    assert_eq!(board, before);
}

#[test]
fn w13_chunk() {
    let mut image = [0; 40];
    // Packets 27 and 28 come before 29 in its group, which starts at byte 26.
    image[30] = 2;
    image[31] = 25;
    let mut board = in_mode(Mode::Passive);
    board.run(&[148, 2, 29, 13], &image, &mut []);
    let mut buffer = [0; 9];
    let answer = board.tick(&image, &mut buffer[..8]);
    assert_eq!(answer, Answer::written(8));
    assert_eq!(buffer, [19, 5, 29, 2, 25, 13, 0, 182, 0]);
    let mut short = [7; 7];
    assert_eq!(board.tick(&image, &mut short), Answer::from(Number::NoRoom));
    assert_eq!(short, [7; 7]);
}

#[test]
fn cliff_behind_a_tight_turn() {
    for (radius, stops) in [(164, true), (165, false), (-164, true), (-165, false)] {
        let mut board = in_mode(Mode::Safe);
        board.wheels = WheelOrder::drive(-100, radius);
        board.duties = [1, 2, 3];
        let cliff = SafetyReport {
            cliff: true,
            ..SafetyReport::default()
        };
        assert_eq!(board.report(cliff), Number::Done);
        assert_eq!(board.mode == Mode::Passive as u8, stops, "radius {radius}");
        assert_eq!(motors_off(&board), stops);
    }
}

#[test]
fn reports_by_mode_and_order() {
    let orders = [
        (WheelOrder::none(), false),
        (WheelOrder::drive(1, 2000), true),
        (WheelOrder::drive(0, 1), false),
        (WheelOrder::drive(-1, i16::MIN), false),
        (WheelOrder::direct(0, 1), true),
        (WheelOrder::direct(1, -1), true),
        (WheelOrder::direct(0, -500), true),
        (WheelOrder::direct(-500, -500), false),
        (WheelOrder::direct(0, 0), false),
    ];
    for mode in [Mode::Safe, Mode::Full] {
        for (order, into_cliff) in orders {
            for flags in 0..8 {
                let report = SafetyReport {
                    wheel_drop: flags & 1 != 0,
                    cliff: flags & 2 != 0,
                    charger: flags & 4 != 0,
                };
                let mut board = in_mode(mode);
                board.wheels = order;
                give(&mut board, &[137, 0]);
                let before = board.clone();
                assert_eq!(board.report(report), Number::Done);
                let stops =
                    mode == Mode::Safe && (flags & 5 != 0 || (flags & 2 != 0 && into_cliff));
                if stops {
                    assert_eq!(board.mode, Mode::Passive as u8);
                    assert!(motors_off(&board));
                    assert_eq!(board.held, before.held);
                } else {
                    assert_eq!(board, before);
                }
            }
        }
    }
}

#[test]
fn duties_and_drivers() {
    let mut board = in_mode(Mode::Full);
    assert_eq!(give_frame(&mut board, &[144, 128, 1, 2]), Number::Done);
    assert_eq!(board.duties, [2, 1, 128]);
    assert_eq!(give_frame(&mut board, &[144, 0, 129, 0]), Number::Data);
    assert_eq!(board.duties, [2, 1, 128]);
    assert_eq!(give_frame(&mut board, &[138, 7]), Number::Done);
    assert_eq!(board.duties, [128; 3]);
    assert_eq!(give_frame(&mut board, &[138, 4]), Number::Done);
    assert_eq!(board.duties, [0, 0, 128]);
    assert_eq!(give_frame(&mut board, &[138, 8]), Number::Data);
}

#[test]
fn every_way_to_passive_stops() {
    let ways: [&[u8]; 7] = [
        &[128],
        &[129, 11],
        &[133],
        &[134],
        &[135],
        &[136, 255],
        &[143],
    ];
    for way in ways {
        let mut board = in_mode(Mode::Full);
        give(&mut board, &[137, 0, 1, 0, 1, 138, 7, 139, 1, 2, 3]);
        assert_eq!(give_frame(&mut board, way), Number::Done);
        assert_eq!(board.mode, Mode::Passive as u8);
        assert!(motors_off(&board));
        assert_eq!(board.leds, [1, 2, 3]);
    }
}

#[test]
fn songs_and_play() {
    let mut board = in_mode(Mode::Safe);
    assert_eq!(give_frame(&mut board, &[141, 3]), Number::NoSong);
    assert_eq!(give_frame(&mut board, &[141, 16]), Number::Data);
    let song = [140, 3, 2, 60, 32, 61, 33];
    assert_eq!(give_frame(&mut board, &song), Number::Done);
    assert_eq!(give_frame(&mut board, &[141, 3]), Number::Done);
    assert_eq!((board.selected, board.playing), (3, 1));
    assert_eq!(give_frame(&mut board, &[141, 3]), Number::Busy);
    // An unset song while another plays is still an unset song.
    assert_eq!(give_frame(&mut board, &[141, 4]), Number::NoSong);
    // A shorter song leaves nothing of the longer one.
    assert_eq!(give_frame(&mut board, &[140, 3, 1, 9, 8]), Number::Done);
    assert_eq!(board.songs[3].length, 1);
    assert_eq!(board.songs[3].notes[..4], [9, 8, 0, 0]);
    assert_eq!(board.playing, 1);
    assert_eq!(board.song_end(), Number::Done);
    assert_eq!((board.selected, board.playing), (3, 0));
}

#[test]
fn modes_of_every_command() {
    // For each opcode a legal frame, and the modes that allow it.
    let rows: [(&[u8], [bool; 4]); 23] = [
        (&[128], [true, true, true, true]),
        (&[129, 0], [false, true, true, true]),
        (&[130], [false, true, false, false]),
        (&[131], [false, true, true, true]),
        (&[132], [false, true, true, true]),
        (&[133], [false, false, true, true]),
        (&[134], [false, true, true, true]),
        (&[135], [false, true, true, true]),
        (&[136, 9], [false, true, true, true]),
        (&[137, 0, 0, 0, 1], [false, false, true, true]),
        (&[138, 0], [false, false, true, true]),
        (&[139, 255, 255, 255], [false, false, true, true]),
        (&[140, 15, 1, 255, 255], [false, true, true, true]),
        (&[141, 0], [false, false, true, true]),
        (&[142, 42], [false, true, true, true]),
        (&[143], [false, true, true, true]),
        (&[144, 0, 0, 0], [false, false, true, true]),
        (&[145, 0, 0, 0, 0], [false, false, true, true]),
        (&[147, 7], [false, false, true, true]),
        (&[148, 1, 42], [false, true, true, true]),
        (&[149, 1, 42], [false, true, true, true]),
        (&[150, 0], [false, true, true, true]),
        (&[151, 255], [false, false, true, true]),
    ];
    for (frame, allowed) in rows {
        for mode in MODES {
            let mut board = in_mode(mode);
            board.songs[0].length = 1;
            let number = give_frame(&mut board, frame);
            let expected = if allowed[mode as usize] {
                Number::Done
            } else {
                Number::WrongMode
            };
            assert_eq!(number, expected, "{frame:?} in {mode:?}");
            assert!(holds_nothing(&board));
        }
    }
}

#[test]
fn data_at_their_limits() {
    let rows: [(&[u8], bool); 36] = [
        (&[129, 11], true),
        (&[129, 12], false),
        (&[136, 255], true),
        (&[136, 254], false),
        (&[136, 9], true),
        (&[136, 10], false),
        (&[136, 127], false),
        (&[136, 128], false),
        (&[137, 1, 244, 7, 208], true),
        (&[137, 1, 245, 7, 208], false),
        (&[137, 254, 12, 248, 48], true),
        (&[137, 254, 11, 248, 48], false),
        (&[137, 0, 0, 7, 209], false),
        (&[137, 0, 0, 248, 47], false),
        (&[137, 0, 0, 0, 0], false),
        (&[137, 0, 0, 127, 255], true),
        (&[137, 0, 0, 127, 254], false),
        (&[137, 0, 0, 128, 0], true),
        (&[137, 0, 0, 128, 1], false),
        (&[145, 0, 0, 254, 12], true),
        (&[145, 0, 0, 254, 11], false),
        (&[138, 8], false),
        (&[144, 0, 0, 129], false),
        (&[147, 8], false),
        (&[140, 16, 1, 0, 0], false),
        (&[142, 42], true),
        (&[142, 43], false),
        (&[149, 1, 43], false),
        (
            &[149, 17, 0, 0, 0, 0, 0, 0, 0, 0, 0, 0, 0, 0, 0, 0, 0, 0, 0],
            false,
        ),
        (&[148, 0], true),
        (&[148, 1, 43], false),
        // Four 52s, one 26, one 10 and one 2 with seven ids make 253; a further
        // single of one byte makes 255, of two bytes 256.
        (&[148, 8, 6, 6, 6, 6, 0, 1, 19, 7], true),
        (&[148, 8, 6, 6, 6, 6, 0, 1, 19, 19], false),
        (&[150, 1], true),
        (&[150, 2], false),
        (&[141, 16], false),
    ];
    for (frame, legal) in rows {
        let mut board = in_mode(Mode::Full);
        let before = board.clone();
        let number = give_frame(&mut board, frame);
        let expected = if legal { Number::Done } else { Number::Data };
        assert_eq!(number, expected, "{frame:?}");
        if !legal {
            assert_eq!(board, before);
        }
    }
}

#[test]
fn packets_of_the_state() {
    let mut board = in_mode(Mode::Safe);
    board.selected = 9;
    let mut buffer = [0; 12];
    board.run(&[137, 255, 56, 1, 244], &image(), &mut buffer);
    board.run(&[148, 2, 7, 8], &image(), &mut buffer);
    board.run(&[142, 5], &image(), &mut buffer);
    assert_eq!(buffer, [2, 9, 0, 2, 255, 56, 1, 244, 0, 0, 0, 0]);
    board.run(&[145, 255, 56, 1, 244], &image(), &mut buffer);
    board.run(&[142, 5], &image(), &mut buffer);
    assert_eq!(buffer, [2, 9, 0, 2, 0, 0, 0, 0, 255, 56, 1, 244]);
    // The numbers beside no order may be anything, and are not told.
    board.wheels.kind = 0;
    board.run(&[142, 5], &image(), &mut buffer);
    assert_eq!(buffer, [2, 9, 0, 2, 0, 0, 0, 0, 0, 0, 0, 0]);
}

#[test]
fn groups_are_their_members_in_order() {
    let groups: [(u8, std::ops::RangeInclusive<u8>, usize); 7] = [
        (0, 7..=26, 26),
        (1, 7..=16, 10),
        (2, 17..=20, 6),
        (3, 21..=26, 10),
        (4, 27..=34, 14),
        (5, 35..=42, 12),
        (6, 7..=42, 52),
    ];
    let mut board = in_mode(Mode::Full);
    for (group, members, size) in groups {
        let mut whole = [0; 52];
        let answer = board.run(&[142, group], &image(), &mut whole);
        assert_eq!(answer.length, size);
        let mut single = Vec::new();
        for id in members {
            let mut buffer = [0; 2];
            let length = board.run(&[142, id], &image(), &mut buffer).length;
            single.extend_from_slice(&buffer[..length]);
        }
        assert_eq!(whole[..size], single);
    }
}

#[test]
fn ticks() {
    let mut board = Board::power_on();
    assert_eq!(
        board.tick(&image(), &mut []),
        Answer::from(Number::WrongMode)
    );
    board.mode = Mode::Passive as u8;
    assert_eq!(board.tick(&image(), &mut []), Answer::written(0));
    board.streaming = 1;
    assert_eq!(board.tick(&image(), &mut []), Answer::written(0));
    give(&mut board, &[148, 1, 7, 150, 0]);
    assert_eq!(board.tick(&image(), &mut []), Answer::written(0));
    give(&mut board, &[150, 1]);
    assert_eq!(board.tick(&image(), &mut []), Answer::from(Number::NoRoom));
    // The longest chunk there is.
    give(&mut board, &[148, 8, 6, 6, 6, 6, 0, 1, 19, 7]);
    let mut buffer = [0; 258];
    assert_eq!(board.tick(&image(), &mut buffer), Answer::written(258));
    let sum = buffer[1..].iter().map(|&byte| u32::from(byte)).sum::<u32>();
    assert_eq!(sum % 256, 0);
}

#[test]
fn runs() {
    let mut board = in_mode(Mode::Safe);
    let waiting = |read| RunAnswer {
        number: Number::Waiting,
        length: 0,
        read,
    };
    assert_eq!(board.run(&[], &image(), &mut []), waiting(0));
    assert_eq!(board.run(&[137, 0, 1], &image(), &mut []), waiting(3));
    let answer = board.run(&[0, 1, 142, 7], &image(), &mut []);
    assert_eq!((answer.number, answer.read), (Number::Done, 2));
    board.mode = 4;
    let bad = RunAnswer {
        number: Number::BadRecord,
        length: 0,
        read: 0,
    };
    assert_eq!(board.run(&[], &image(), &mut []), bad);
    assert_eq!(board.run(&[128], &image(), &mut []), bad);
}

#[test]
fn judged_at_the_last_byte() {
    // The safety report leaves the half-read frame, and the mode then in force
    // judges it.
    let mut board = in_mode(Mode::Safe);
    give(&mut board, &[137, 0, 1, 0]);
    board.report(SafetyReport {
        wheel_drop: true,
        ..SafetyReport::default()
    });
    assert_eq!(give_frame(&mut board, &[1]), Number::WrongMode);
    assert!(holds_nothing(&board));
}

fn message(opcode: u8) -> Message {
    Message {
        opcode,
        a: 0,
        b: 0,
        c: 0,
        first: 0,
        second: 0,
        payload: [0; 32],
    }
}

#[test]
fn writer_writes_what_the_reader_reads() {
    let mut drive = message(137);
    drive.first = -200;
    drive.second = 500;
    let mut buffer = [7; 6];
    assert_eq!(writer::write(&drive, &mut buffer), Answer::written(5));
    assert_eq!(buffer, [137, 255, 56, 1, 244, 7]);
    let mut short = [7; 4];
    let answer = writer::write(&drive, &mut short);
    assert_eq!(answer, Answer::from(Number::NoRoom));
    assert_eq!(short, [7; 4]);

    let mut song = message(140);
    song.a = 15;
    song.b = 16;
    for (place, byte) in song.payload.iter_mut().enumerate() {
        *byte = place as u8;
    }
    let mut buffer = [0; 35];
    assert_eq!(writer::write(&song, &mut buffer), Answer::written(35));
    let mut board = in_mode(Mode::Passive);
    assert_eq!(give_frame(&mut board, &buffer), Number::Done);
    assert_eq!(board.songs[15].notes, song.payload);

    // Illegal data are told before a lack of room, and what isn't among the
    // data is ignored.
    song.b = 17;
    assert_eq!(writer::write(&song, &mut []), Answer::from(Number::Data));
    song.b = 0;
    assert_eq!(writer::write(&song, &mut []), Answer::from(Number::Data));
    let mut list = message(149);
    list.a = 1;
    list.payload = [99; 32];
    list.payload[0] = 42;
    let mut buffer = [0; 3];
    assert_eq!(writer::write(&list, &mut buffer), Answer::written(3));
    assert_eq!(buffer, [149, 1, 42]);
    let mut stream = message(148);
    stream.a = 5;
    stream.payload = [6; 32];
    assert_eq!(writer::write(&stream, &mut []), Answer::from(Number::Data));
    stream.a = 4;
    assert_eq!(
        writer::write(&stream, &mut []),
        Answer::from(Number::NoRoom)
    );
}

#[test]
fn writer_writes_offered_commands_alone() {
    for opcode in 0..=255 {
        let mut message = message(opcode);
        // Legal for every offered command that the zeros don't serve.
        message.second = 1;
        message.b = 1;
        let answer = writer::write(&message, &mut [0; 35]);
        let offered = (128..=151).contains(&opcode) && opcode != 146;
        let expected = if offered { Number::Done } else { Number::Data };
        assert_eq!(answer.number, expected, "opcode {opcode}");
    }
}
