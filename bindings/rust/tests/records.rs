//! Records side by side: when two are equal, and that each board is its own.

mod common;

use std::mem::{size_of, MaybeUninit};
use std::ptr::addr_of_mut;
use std::thread;

use common::{busy_board, image, numbers};
use rawdhusaq::*;

/// Writes every field of a record over bytes of one value, which so stay between the
/// fields.
fn with_padding(slot: &mut MaybeUninit<State>, state: &State, padding: u8) {
    let to = slot.as_mut_ptr();
    // SAFETY: each place is a field of the slot, which is as large and as aligned as a
    // record. The fields are written one by one, as a whole part would bring its padding.
    unsafe {
        to.write_bytes(padding, 1);
        addr_of_mut!((*to).mode).write(state.mode);
        addr_of_mut!((*to).motors.order).write(state.motors.order);
        addr_of_mut!((*to).motors.first).write(state.motors.first);
        addr_of_mut!((*to).motors.second).write(state.motors.second);
        addr_of_mut!((*to).motors.duties).write(state.motors.duties);
        addr_of_mut!((*to).kept).write(state.kept);
        addr_of_mut!((*to).songs).write(state.songs);
        addr_of_mut!((*to).stream).write(state.stream);
        addr_of_mut!((*to).partial.bytes).write(state.partial.bytes);
        addr_of_mut!((*to).partial.count).write(state.partial.count);
        addr_of_mut!((*to).partial.remaining).write(state.partial.remaining);
    }
}

/// In how many bytes two slots differ, both of them filled by `with_padding`.
fn differing(a: &MaybeUninit<State>, b: &MaybeUninit<State>) -> usize {
    let byte = |slot: &MaybeUninit<State>, place| {
        // SAFETY: the place is in the slot, every byte of which was written.
        unsafe { slot.as_ptr().cast::<u8>().add(place).read() }
    };
    let differs = |&place: &usize| byte(a, place) != byte(b, place);
    (0..size_of::<State>()).filter(differs).count()
}

/// Bytes of a session: changes of mode, orders, refusals and queries.
fn session(turn: u8) -> Vec<u8> {
    let low = turn % 100;
    [
        &[128, 131, 137, 0, low, 1, 244, 149, 3, 35, 39, 40, 146][..],
        &[
            140,
            turn % 16,
            2,
            60,
            turn,
            64,
            32,
            141,
            turn % 16,
            132,
            138,
            7,
        ],
        &[148, 3, 39, 7, 36, 142, 6, 145, 0, low, 255, 56, 140, 0, 17],
    ]
    .concat()
}

/// All that a byte gives: its number and its answer.
fn give(board: &mut State, b: u8) -> (u8, Vec<u8>) {
    let mut buffer = [0; LONGEST_ANSWER];
    let reply = board.byte(b, &image(), &mut buffer);
    (reply.number, reply.answer(&buffer).to_vec())
}

/// A whole session on a board of its own: what each byte gave, and the last record.
fn alone(turn: u8) -> (Vec<(u8, Vec<u8>)>, State) {
    let mut board = State::power_on();
    let given = session(turn).iter().map(|&b| give(&mut board, b)).collect();
    (given, board)
}

#[test]
fn bytes_between_fields_do_not_count() {
    let mut slots = [MaybeUninit::<State>::uninit(), MaybeUninit::uninit()];
    let [a, b] = &mut slots;
    with_padding(a, &busy_board(), 0x00);
    with_padding(b, &busy_board(), 0xFF);
    assert_eq!(differing(a, b), 10);
    // SAFETY: every field of both was written.
    let (a, b) = unsafe { (a.assume_init_mut(), b.assume_init_mut()) };
    assert!(*a == *b && a.same(b) && a.accepts() && b.accepts());
    for b_in in [0, 100, 142, 6, 128, 131, 140, 0] {
        assert_eq!(give(a, b_in), give(b, b_in));
        assert_eq!(a, b);
    }
    (a.mode, b.mode) = (4, 4);
    assert_eq!(
        (give(a, START), give(b, START)),
        ((BAD_RECORD, vec![]), (BAD_RECORD, vec![]))
    );
    assert_eq!(a, b);
}

#[test]
fn a_difference_in_any_field_counts() {
    let changes: [fn(&mut State); 17] = [
        |s| s.mode ^= 1,
        |s| s.motors.order ^= 1,
        |s| s.motors.first ^= 256,
        |s| s.motors.second ^= 1,
        |s| s.motors.duties[2] ^= 1,
        |s| s.kept.baud ^= 1,
        |s| s.kept.leds[2] ^= 1,
        |s| s.kept.outputs ^= 1,
        |s| s.kept.ir ^= 1,
        |s| s.songs.table[15].len ^= 1,
        |s| s.songs.table[15].notes[31] ^= 1,
        |s| s.songs.selected ^= 1,
        |s| s.songs.playing ^= 1,
        |s| s.stream.ids[15] ^= 1,
        |s| s.stream.count ^= 1,
        |s| s.stream.on ^= 1,
        |s| s.partial.bytes[34] ^= 1,
    ];
    let board = busy_board();
    for change in changes {
        let mut other = board;
        change(&mut other);
        assert!(!board.same(&other) && !other.same(&board) && other.same(&other));
        assert_ne!(board, other);
    }
    for bit in 0..usize::BITS {
        let (mut counted, mut owed) = (board, board);
        counted.partial.count ^= 1 << bit;
        owed.partial.remaining ^= 1 << bit;
        assert!(board != counted && board != owed && counted != owed);
    }
}

#[test]
fn a_record_is_equal_to_itself() {
    let board = busy_board();
    assert!(board.same(&board));
    assert_eq!(State::power_on(), State::power_on());
}

#[test]
fn power_on_is_as_the_rules_say() {
    let board = State::power_on();
    assert!(board.accepts() && board.mode == OFF && board.motors == common::STILL);
    let kept = board.kept;
    assert_eq!(
        (kept.baud, kept.leds, kept.outputs, kept.ir),
        (10, [0; 3], 0, 0)
    );
    assert!(board
        .songs
        .table
        .iter()
        .all(|song| song.len == 0 && song.notes == [0; 32]));
    assert_eq!((board.songs.selected, board.songs.playing), (0, 0));
    assert_eq!(
        (board.stream.ids, board.stream.count, board.stream.on),
        ([0; 16], 0, 0)
    );
    let partial = board.partial;
    assert_eq!(
        (partial.bytes, partial.count, partial.remaining),
        ([0; 35], 0, 0)
    );
}

#[test]
fn a_run_gives_what_its_bytes_give() {
    for turn in 0..50 {
        let (mut one, mut other) = (State::power_on(), State::power_on());
        let bytes = session(turn);
        let mut left = &bytes[..];
        while !left.is_empty() {
            let mut buffer = [0; LONGEST_ANSWER];
            let reply = one.run(left, &image(), &mut buffer);
            let given = left[..reply.read].iter().map(|&b| give(&mut other, b));
            let last = given.last().expect("a byte is read");
            assert_eq!((reply.number, reply.answer(&buffer)), (last.0, &last.1[..]));
            assert_eq!(one, other);
            left = reply.rest(left);
        }
    }
}

#[test]
fn two_boards_in_turn() {
    let (mut a, mut b) = (State::power_on(), State::power_on());
    let (first, second) = (alone(7), alone(42));
    for (i, (&x, &y)) in session(7).iter().zip(&session(42)).enumerate() {
        assert_eq!(give(&mut a, x), first.0[i]);
        assert_eq!(give(&mut b, y), second.0[i]);
    }
    assert_eq!((a, b), (first.1, second.1));
    assert_ne!(a, b);
}

#[test]
fn boards_on_threads() {
    let expected: Vec<_> = (0..8).map(alone).collect();
    thread::scope(|scope| {
        for (turn, expected) in expected.iter().enumerate() {
            scope.spawn(move || {
                for _ in 0..100 {
                    assert_eq!(alone(turn as u8), *expected);
                }
            });
        }
    });
}

#[test]
fn a_record_read_by_threads() {
    let board = busy_board();
    thread::scope(|scope| {
        for _ in 0..4 {
            scope.spawn(|| {
                for _ in 0..200 {
                    assert!(board.accepts() && board.same(&board));
                    assert_eq!(board.wheel_speeds().number, DONE);
                }
            });
        }
    });
}

#[test]
fn a_record_goes_to_another_thread() {
    let mut board = busy_board();
    let moved = thread::spawn(move || {
        assert!(board.stop(&image()));
        board
    });
    let stopped = moved.join().expect("the thread ends");
    let mut here = busy_board();
    numbers(&mut here, &[START; LOG_OUT_BYTES]);
    assert_eq!(stopped, here);
}

#[test]
fn an_answer_of_another_buffer_is_none() {
    let mut board = busy_board();
    assert!(board.stop(&image()));
    let mut buffer = [0; 52];
    let reply = board.run(&[142, 6], &image(), &mut buffer);
    assert_eq!(reply.answer(&buffer).len(), 52);
    assert_eq!(reply.answer(&buffer[..51]), []);
    assert_eq!(reply.rest(&[]), []);
}
