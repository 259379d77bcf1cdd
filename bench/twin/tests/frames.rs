//! The frame table over all opcodes, and the run table.

mod common;

use common::{give, holds_nothing, image, in_mode, motors_off};
use twin::board::{Board, Mode, Number, WheelOrder};

/// The rules' frame table, written down once more by opcode: the data bytes of
/// an opcode whose length is fixed.
fn fixed(opcode: u8) -> Option<usize> {
    match opcode {
        140 | 148 | 149 | 152 => None,
        128 | 130..=135 | 143 | 153 | 154 => Some(0),
        129 | 136 | 138 | 141 | 142 | 147 | 150 | 151 | 155 | 158 => Some(1),
        156 | 157 => Some(2),
        139 | 144 => Some(3),
        137 | 145 => Some(4),
        _ => Some(0),
    }
}

/// How many bytes a frame takes that is given so many copies of a byte after
/// its opcode.
fn length_given(mut board: Board, opcode: u8, rest: &[u8]) -> (usize, Number) {
    let mut bytes = vec![opcode];
    bytes.extend_from_slice(rest);
    let answer = board.run(&bytes, &image(), &mut [0; 1024]);
    assert!(answer.number == Number::Waiting || holds_nothing(&board));
    (answer.read, answer.number)
}

#[test]
fn all_opcodes_in_all_modes() {
    for mode in [Mode::Off, Mode::Passive, Mode::Safe, Mode::Full] {
        for opcode in 0..=255 {
            let Some(data) = fixed(opcode) else { continue };
            let (read, number) = length_given(in_mode(mode), opcode, &[1; 8]);
            assert_eq!(read, 1 + data, "opcode {opcode}");
            let unknown = !(128..=158).contains(&opcode) || opcode == 146;
            let not_offered = (152..=158).contains(&opcode);
            assert_eq!(number == Number::Unknown, unknown);
            assert_eq!(number == Number::NotOffered, not_offered);
        }
    }
}

#[test]
fn all_counts() {
    for count in 0..=255u8 {
        for opcode in [148, 149, 152] {
            let mut rest = vec![count];
            rest.resize(600, 0);
            let (read, number) = length_given(in_mode(Mode::Passive), opcode, &rest);
            assert_eq!(read, 2 + usize::from(count));
            let expected = match (opcode, count) {
                (152, _) => Number::NotOffered,
                (148, 10..=16) => Number::Data, // ten packets 0 make 270
                (_, 0..=16) => Number::Done,
                _ => Number::Data,
            };
            assert_eq!(number, expected, "{opcode} {count}");
        }
        let mut rest = vec![3, count];
        rest.resize(600, 0);
        let (read, number) = length_given(in_mode(Mode::Passive), 140, &rest);
        assert_eq!(read, 3 + 2 * usize::from(count));
        let legal = (1..=16).contains(&count);
        assert_eq!(number == Number::Done, legal);
        assert_eq!(number == Number::Data, !legal);
    }
}

#[test]
fn what_is_kept() {
    let mut board = in_mode(Mode::Passive);
    give(&mut board, &[140, 16, 3, 1, 2]);
    assert_eq!((board.held.used, board.held.owed), (5, 4));
    let mut board = in_mode(Mode::Passive);
    give(&mut board, &[140, 16, 17, 1, 2]);
    assert_eq!((board.held.used, board.held.owed), (3, 32));
    let mut board = in_mode(Mode::Passive);
    give(&mut board, &[149, 17, 99, 98]);
    assert_eq!((board.held.used, board.held.owed), (2, 15));
    let mut board = in_mode(Mode::Passive);
    give(&mut board, &[149, 16, 99, 98]);
    assert_eq!((board.held.used, board.held.owed), (4, 14));
    let mut board = in_mode(Mode::Passive);
    give(&mut board, &[152, 3, 99, 98]);
    assert_eq!((board.held.used, board.held.owed), (2, 1));
}

/// Gives 128s one at a time, and says which was first read as an opcode: after
/// it the base is in Passive, nothing is held and the motors are off, and all
/// later ones give 0 again.
fn first_opcode(before: &[u8]) -> usize {
    let mut board = in_mode(Mode::Full);
    board.wheels = WheelOrder::drive(100, 100);
    board.duties = [1, 2, 3];
    give(&mut board, before);
    let answers = give(&mut board, &[128; 600]);
    let numbers: Vec<Number> = answers.iter().map(|answer| answer.number).collect();
    let ended = numbers
        .iter()
        .position(|&number| number != Number::Waiting)
        .expect("600 bytes end every frame");
    // Where nothing was held, the first byte ends its own frame.
    let named = if before.is_empty() { 0 } else { ended + 1 };
    assert!(numbers[named..]
        .iter()
        .all(|&number| number == Number::Done));
    assert_eq!(board.mode, Mode::Passive as u8);
    assert!(holds_nothing(&board) && motors_off(&board));
    named + 1
}

#[test]
fn run_table() {
    assert_eq!(first_opcode(&[]), 1);
    assert_eq!(first_opcode(&[148]), 130);
    assert_eq!(first_opcode(&[149]), 130);
    assert_eq!(first_opcode(&[152]), 130);
    assert_eq!(first_opcode(&[140, 5]), 258);
    assert_eq!(first_opcode(&[140]), 259);
    assert_eq!(first_opcode(&[140, 0, 255]), 511);
    assert_eq!(first_opcode(&[137, 1, 1]), 3);
    assert_eq!(first_opcode(&[149, 3, 1]), 3);
    assert_eq!(first_opcode(&[152, 200, 1]), 200);
    assert_eq!(first_opcode(&[155]), 2);
    assert_eq!(first_opcode(&[136]), 2);
}
