//! Files of calls, whole and malformed.

use twin::board::{Board, Mode, WheelOrder};
use twin::cover::Cover;
use twin::layout;
use twin::perform::{perform, Summary, Trace};

/// What is written of a file: the summary's line or the trace's lines, and the
/// fault's line if there is one.
fn summary(bytes: &[u8], bare: bool) -> String {
    let mut summary = Summary::new(bare);
    let fault = perform(bytes, &mut summary).unwrap();
    let mut out = Vec::new();
    summary.write_line(&mut out).unwrap();
    let line = String::from_utf8(out).unwrap();
    match fault {
        None => line,
        Some(fault) => format!("{line}{fault}\n"),
    }
}

fn trace(bytes: &[u8]) -> String {
    let mut out = Vec::new();
    let fault = perform(bytes, &mut Trace::new(&mut out)).unwrap();
    let lines = String::from_utf8(out).unwrap();
    match fault {
        None => lines,
        Some(fault) => format!("{lines}{fault}\n"),
    }
}

/// The digest as docs/CALLS.md words it, a byte at a time.
fn digest(bytes: &[u8]) -> u64 {
    bytes.iter().fold(1, |digest, &byte| {
        (digest * 16777619 + u64::from(byte) + 1) % 4294967291
    })
}

#[test]
fn empty_file() {
    let line = "calls 0 numbers 0 0 0 0 0 0 0 0 0 0 bytes 0 digest 1\n";
    assert_eq!(summary(&[], false), line);
    assert_eq!(summary(&[], true), line);
    assert_eq!(trace(&[]), "");
}

#[test]
fn tiny_file() {
    // Start; then a query of packets 35 and 36 by a run.
    let file = [1, 128, 129, 0, 5, 149, 2, 35, 36, 200];
    let mut board = Board::power_on();
    board.mode = 1;
    let record = layout::state_bytes(&board);
    let mut told = vec![0, 0, 0, 0, 1];
    told.extend_from_slice(&record);
    told.extend_from_slice(&[0, 0, 2, 0, 4, 1, 0]);
    told.extend_from_slice(&record);
    let counts = "calls 2 numbers 2 0 0 0 0 0 0 0 0 0 bytes 2 digest";
    let expected = format!("{counts} {}\n", digest(&told));
    assert_eq!(summary(&file, false), expected);
    let bare = digest(&[0, 0, 0, 0, 1, 0, 0, 2, 0, 4, 1, 0]);
    assert_eq!(summary(&file, true), format!("{counts} {bare}\n"));
    let hex: String = record.iter().map(|byte| format!("{byte:02x}")).collect();
    assert_eq!(trace(&file), format!("0 0 1 - {hex}\n0 2 4 0100 {hex}\n"));
}

#[test]
fn first_digest_by_hand() {
    // One tick in Off: 3, 0, 0, 0, 0. The first step is 16777619 + 4.
    assert_eq!(digest(&[3]), 16777623);
    let mut expected = 16777623u64;
    for _ in 0..4 {
        expected = (expected * 16777619 + 1) % 4294967291;
    }
    let line = format!("calls 1 numbers 0 0 0 1 0 0 0 0 0 0 bytes 0 digest {expected}\n");
    assert_eq!(summary(&[3], true), line);
}

#[test]
fn settings_hold_for_the_calls_after_them() {
    let mut file = vec![1, 128];
    file.push(5);
    file.extend_from_slice(&[9; 40]);
    file.extend_from_slice(&[130, 0, 1, 129, 0, 2, 142, 7, 129, 0, 2, 142, 19]);
    let mut bad = Board::power_on();
    bad.mode = 9;
    file.push(131);
    file.extend_from_slice(&layout::state_bytes(&bad));
    file.extend_from_slice(&[1, 128, 129, 0, 0, 2, 7, 3, 4]);
    file.push(132);
    let mut message = [0; 40];
    message[0] = 128;
    file.extend_from_slice(&message);
    let trace = trace(&file);
    let heads: Vec<String> = trace
        .lines()
        .map(|line| line.rsplit_once(' ').unwrap().0.to_string())
        .collect();
    let expected = [
        "0 0 1 -", "0 1 2 09", "7 0 2 -", "8 0 0 -", "8 0 0 -", "8 0 0 -", "8 0 0 -", "8 0 0 -",
        "0 1 0 80",
    ];
    assert_eq!(heads, expected);
    assert!(trace.lines().last().unwrap().contains(" 09"));
}

#[test]
fn malformed_files() {
    let mut state = vec![131];
    state.extend_from_slice(&layout::state_bytes(&Board::power_on()));
    let mut playing = state.clone();
    playing[1 + 544] = 2;
    let cut_and_wrong = &playing[..playing.len() - 1];
    let rows: [(&[u8], &str); 24] = [
        (&[0], "unknown kind"),
        (&[6, 1, 1], "unknown kind"),
        (&[128], "unknown kind"),
        (&[133], "unknown kind"),
        (&[255], "unknown kind"),
        (&[1], "cut short"),
        (&[2], "cut short"),
        (&[2, 8], "flags above 7"),
        (&[2, 255, 1], "flags above 7"),
        (&[5], "cut short"),
        (&[5; 40], "cut short"),
        (&[129], "cut short"),
        (&[129, 4], "cut short"),
        (&[129, 255], "cut short"),
        (&[129, 0, 2, 1], "cut short"),
        (&[129, 4, 0, 1], "cut short"),
        (&[129, 4, 1], "run above 1024"),
        (&[129, 255, 255, 1, 1], "run above 1024"),
        (&[130, 4], "cut short"),
        (&[130, 4, 1], "room above 1024"),
        (&[131], "cut short"),
        (&state[..602], "cut short"),
        (cut_and_wrong, "cut short"),
        (&[132; 40], "cut short"),
    ];
    for (fault, why) in rows {
        let mut file = vec![1, 128, 3];
        let whole = summary(&file, false);
        let whole_trace = trace(&file);
        file.extend_from_slice(fault);
        let last = format!("offset 3: {why}\n");
        assert_eq!(summary(&file, false), format!("{whole}{last}"));
        assert_eq!(trace(&file), format!("{whole_trace}{last}"));
    }
}

/// A record whose flags are none is no fault of the file: each call answers 8,
/// and the record stays as it came. The writer doesn't look at it.
#[test]
fn flags_that_are_none() {
    for (place, byte) in [(544, 2), (544, 255), (562, 3), (562, 128)] {
        let mut state = layout::state_bytes(&Board::power_on());
        state[place] = byte;
        let mut file = vec![131];
        file.extend_from_slice(&state);
        file.extend_from_slice(&[1, 128, 129, 0, 0, 129, 0, 1, 128, 2, 7, 3, 4, 132, 128]);
        file.extend_from_slice(&[0; 39]);
        let hex: String = state.iter().map(|byte| format!("{byte:02x}")).collect();
        let refused = format!("8 0 0 - {hex}\n").repeat(6);
        assert_eq!(trace(&file), format!("{refused}0 1 0 80 {hex}\n"));
    }
}

/// The rows of the cover table that a file meets.
fn met(file: &[u8]) -> Vec<String> {
    let mut cover = Cover::new();
    assert_eq!(perform(file, &mut cover).unwrap(), None);
    let mut out = Vec::new();
    cover.write_table(&mut out).unwrap();
    let table = String::from_utf8(out).unwrap();
    let met = table.lines().filter(|line| !line.ends_with(" 0"));
    met.map(str::to_string).collect()
}

#[test]
fn cover_counts() {
    let mut bad = Board::power_on();
    bad.baud = 12;
    let mut file = vec![1, 128, 1, 131, 129, 0, 2, 147, 5];
    file.push(131);
    file.extend_from_slice(&layout::state_bytes(&bad));
    file.extend_from_slice(&[3, 4]);
    let expected = [
        "byte 0 2",
        "run 0 1",
        "tick 8 1",
        "song-end 8 1",
        "done 128 Off 1",
        "done 131 Passive 1",
        "done 147 Safe 1",
        "bad baud 2",
    ];
    assert_eq!(met(&file), expected);
}

#[test]
fn cover_counts_of_demo() {
    // In Off; from Passive with 255, 10, 131 and a run of 128s.
    let mut file = vec![129, 0, 2, 136, 255, 1, 128, 129, 0, 3, 136, 255, 136];
    file.extend_from_slice(&[129, 0, 2, 136, 10, 1, 136, 2, 7, 1, 131]);
    file.extend_from_slice(&[129, 0, 1, 136, 129, 0, 2, 128, 128]);
    // A tick on each of the held frames that are counted, and on one with a
    // second fault.
    let mut board = Board::power_on();
    board.mode = 1;
    for (used, owed, baud) in [(1, 1, 0), (1, 0, 0), (1, 2, 0), (2, 0, 0), (1, 0, 12)] {
        board.held.places[0] = 136;
        board.held.used = used;
        board.held.owed = owed;
        board.baud = baud;
        file.push(131);
        file.extend_from_slice(&layout::state_bytes(&board));
        file.push(3);
    }
    // The writer gets no record, and so none is counted for it.
    board.held.owed = 1;
    board.baud = 0;
    file.push(131);
    file.extend_from_slice(&layout::state_bytes(&board));
    for (room, demo) in [(2, 9), (2, 10), (1, 9), (1, 10)] {
        file.extend_from_slice(&[130, 0, room, 132, 136, demo]);
        file.extend_from_slice(&[0; 38]);
    }
    let expected = [
        "byte 0 1",
        "byte 4 1",
        "byte 9 1",
        "run 0 1",
        "run 3 1",
        "run 4 2",
        "run 9 1",
        "report 0 1",
        "tick 0 1",
        "tick 8 4",
        "write 0 1",
        "write 4 2",
        "write 7 1",
        "done 128 Off 1",
        "wrong-mode 136 Off 1",
        "done 136 Passive 1",
        "data 136 Passive 3",
        "bad held-frame-bytes 1",
        "bad held-frame-owed 2",
        "ended 136 0 1",
        "ended 136 3 1",
        "ended 136 4 3",
        "judged 136 255 1",
        "judged 136 10 1",
        "judged 136 128 1",
        "judged 136 opcode 1",
        // The report, the byte and the run after a 136, and the tick.
        "held 136 alone 4",
        "held 136 owed-0 1",
        "held 136 owed-2 1",
        "held 136 whole 1",
        "write 136 0 1",
        "write 136 4 2",
        "write 136 7 1",
    ];
    assert_eq!(met(&file), expected);
}

#[test]
fn cover_counts_of_flags() {
    // Playing, streaming, whether song 0 is set, the baud code, and the call.
    let rows: [(u8, u8, bool, u8, &[u8]); 5] = [
        (2, 0, true, 0, &[1, 128]),
        (7, 1, false, 0, &[129, 0, 0]),
        (0, 255, true, 0, &[129, 0, 1, 128]),
        (3, 3, true, 0, &[2, 0]),
        (1, 2, false, 12, &[4]),
    ];
    let mut file = Vec::new();
    for (playing, streaming, set, baud, call) in rows {
        let mut board = Board::power_on();
        (board.playing, board.streaming, board.baud) = (playing, streaming, baud);
        board.songs[0].length = u8::from(set);
        file.push(131);
        file.extend_from_slice(&layout::state_bytes(&board));
        file.extend_from_slice(call);
    }
    let expected = [
        "byte 8 1",
        "run 8 2",
        "report 8 1",
        "song-end 8 1",
        "bad playing-flag 2",
        "bad streaming-flag 1",
        "flag playing 2 1",
        "flag playing other 1",
        "flag playing byte 1",
        "flag playing empty-run 1",
        "flag playing song-set 1",
        "flag playing song-unset 1",
        "flag playing both-flags 1",
        "flag streaming 255 1",
        "flag streaming run 1",
        "flag streaming song-set 1",
        "flag streaming both-flags 1",
        "flag streaming otherwise-bad 1",
    ];
    assert_eq!(met(&file), expected);
}

#[test]
fn cover_counts_of_counts() {
    // A song of 1 note by bytes, of 2 in two runs, and lists of 1 and 16.
    let mut file = vec![1, 128, 1, 140, 1, 9, 1, 1, 1, 0, 1, 0];
    file.extend_from_slice(&[129, 0, 2, 140, 9, 129, 0, 5, 2, 0, 0, 0, 0]);
    file.extend_from_slice(&[129, 0, 3, 148, 1, 7, 129, 0, 18, 149, 16]);
    file.extend_from_slice(&[7; 16]);
    // Held frames past their count, of which a byte has come or not, each with a
    // tick: the last holds all of its bytes so far.
    for held in [
        &[148, 17][..],
        &[149, 18, 0],
        &[140, 0, 255, 0],
        &[152, 3, 0],
        &[149, 3, 0],
    ] {
        let mut board = Board::power_on();
        board.mode = 1;
        board.run(held, &[0; 40], &mut []);
        file.push(131);
        file.extend_from_slice(&layout::state_bytes(&board));
        file.push(3);
    }
    // What such a frame may owe at the ends, and just may not.
    for (count, owed) in [(255, 0), (255, 1), (255, 255), (255, 256), (0, 0)] {
        let mut board = Board::power_on();
        board.held.places[..2].copy_from_slice(&[152, count]);
        (board.held.used, board.held.owed) = (2, owed);
        file.push(131);
        file.extend_from_slice(&layout::state_bytes(&board));
        file.push(4);
    }
    let expected = [
        "count 140 1 1",
        "count 140 2 1",
        "count 148 1 1",
        "count 149 16 1",
        "past 140 33-255 1",
        "past 149 18-32 1",
        "past 152 1-16 1",
        "past 152 17-255 1",
        "owed 148 all 1",
        "owed 152 none 1",
        "owed 152 one 1",
        "owed 152 all 1",
        "owed 152 too-many 1",
        "owed 152 count-0 1",
    ];
    let met = met(&file);
    let counts = met.iter().filter(|row| {
        ["count", "past", "owed"]
            .iter()
            .any(|head| row.starts_with(head))
    });
    assert_eq!(counts.collect::<Vec<_>>(), expected);
}

/// A record in a mode under an order, and a report on it.
fn reported(mode: Mode, order: WheelOrder, duty: u8, flags: u8) -> Vec<u8> {
    let mut board = Board::power_on();
    board.mode = mode as u8;
    board.wheels = order;
    board.duties[0] = duty;
    let mut file = vec![131];
    file.extend_from_slice(&layout::state_bytes(&board));
    file.extend_from_slice(&[2, flags]);
    file
}

#[test]
fn cover_counts_of_cliffs() {
    let wheels = [(1, 0), (500, 9), (0, -1), (-49, -6), (-48, -6), (-7, -7)];
    let mut file = Vec::new();
    for mode in [Mode::Safe, Mode::Full] {
        for (right, left) in wheels {
            file.extend(reported(mode, WheelOrder::direct(right, left), 0, 2));
            file.extend(reported(mode, WheelOrder::direct(left, right), 0, 2));
        }
        file.extend(reported(mode, WheelOrder::direct(0, 0), 0, 2));
    }
    // None of these is a cliff alone on a good record with a Direct order.
    let tight = WheelOrder::direct(-500, -50);
    for flags in [0, 1, 3, 4, 6, 7] {
        file.extend(reported(Mode::Safe, tight, 0, flags));
    }
    file.extend(reported(Mode::Safe, tight, 129, 2));
    file.extend(reported(Mode::Safe, WheelOrder::drive(-500, -50), 0, 2));
    let expected = [
        "report 0 33",
        "report 8 1",
        "bad duty 1",
        "cliff Safe ahead right 1",
        "cliff Safe ahead left 1",
        "cliff Safe ahead both 2",
        "cliff Safe tight right 1",
        "cliff Safe tight left 1",
        "cliff Safe border right 1",
        "cliff Safe border left 1",
        "cliff Safe wide right 1",
        "cliff Safe wide left 1",
        "cliff Safe straight both 2",
        "cliff Safe still both 1",
        "cliff Full ahead any 4",
        "cliff Full tight any 2",
        "drive-cliff Safe back-inside 1",
    ];
    assert_eq!(met(&file), expected);
}

#[test]
fn cover_counts_of_drive_cliffs() {
    let drives = [
        (1, -164),
        (0, 164),
        (-1, 164),
        (-500, -164),
        (-1, 165),
        (-1, -165),
        (-1, 1),
        (-1, -166),
        (-1, 32767),
        (-1, -32768),
    ];
    let mut file = Vec::new();
    for mode in [Mode::Safe, Mode::Full] {
        for (velocity, radius) in drives {
            file.extend(reported(mode, WheelOrder::drive(velocity, radius), 0, 2));
        }
    }
    // Not a cliff alone, and not a good record.
    file.extend(reported(Mode::Safe, WheelOrder::drive(1, 1), 0, 3));
    file.extend(reported(Mode::Safe, WheelOrder::drive(-1, 0), 0, 2));
    let expected = [
        "report 0 21",
        "report 8 1",
        "bad wheel-order 1",
        "drive-cliff Safe ahead 1",
        "drive-cliff Safe still 1",
        "drive-cliff Safe back-164 1",
        "drive-cliff Safe back--164 1",
        "drive-cliff Safe back-165 1",
        "drive-cliff Safe back--165 1",
        "drive-cliff Safe back-inside 1",
        "drive-cliff Safe back-outside 1",
        "drive-cliff Safe back-32767 1",
        "drive-cliff Safe back--32768 1",
        "drive-cliff Full ahead 1",
        "drive-cliff Full back-inside 1",
    ];
    assert_eq!(met(&file), expected);
}

#[test]
fn cover_counts_of_refused_frames() {
    // Without room, in Off: a tick, a query, what isn't offered and an unknown one.
    let mut file = vec![
        130, 0, 0, 3, 129, 0, 2, 142, 7, 129, 0, 3, 156, 1, 2, 1, 146,
    ];
    // In Passive: no room, illegal data, an empty list, nothing to send.
    file.extend_from_slice(&[1, 128, 129, 0, 2, 142, 7, 129, 0, 2, 142, 43]);
    file.extend_from_slice(&[129, 0, 2, 149, 0, 3]);
    let expected = [
        "byte 0 1",
        "byte 1 1",
        "run 0 1",
        "run 2 1",
        "run 3 1",
        "run 4 1",
        "run 7 1",
        "tick 0 1",
        "tick 3 1",
        "done 128 Off 1",
        "wrong-mode 142 Off 1",
        "data 142 Passive 1",
        "done 149 Passive 1",
        "not-offered 156 Off 1",
        "unknown 146 Off 1",
        "count 149 0 1",
        "no-room 142 3 1",
        "no-room 142 4 1",
        "no-room 142 7 1",
        "no-room 149 0 1",
        "no-room tick 0 1",
        "no-room tick 3 1",
    ];
    assert_eq!(met(&file), expected);
}
