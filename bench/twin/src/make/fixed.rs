//! Files of a fixed form: for measuring how cost grows, and malformed ones.

use std::io::{self, Write};

use crate::board::{Board, Mode};
use crate::file::kind;
use crate::layout;

use super::rng::Rng;
use super::tape::Tape;
use super::traffic;

/// Makes a file of a fixed form, and says whether there is such a form.
pub fn make(name: &str, rng: &mut Rng, count: u64, out: &mut dyn Write) -> io::Result<bool> {
    let (form, detail) = name.split_once(':').unwrap_or((name, ""));
    match (form, detail, detail.parse::<usize>()) {
        ("malformed", "list", _) => {
            for (name, _) in faults() {
                writeln!(out, "{name}")?;
            }
            Ok(true)
        }
        ("malformed", name, _) => malformed(name, rng, count, out),
        ("held-base", "", _) => held_runs(None, rng, count, out),
        ("held-run", _, Ok(length)) if length <= 510 => held_runs(Some(length), rng, count, out),
        ("query", _, Ok(id)) if id <= 42 => queries(|| vec![142, id as u8], count, out),
        ("query-list", _, Ok(ids)) if ids <= 16 => {
            queries(|| list_of_packets(ids, rng), count, out)
        }
        _ => Ok(false),
    }
}

/// So many times a record that holds `140 0 255`, each with one run over that
/// frame's data after it, or with none: the difference is what the runs cost.
fn held_runs(
    length: Option<usize>,
    rng: &mut Rng,
    count: u64,
    out: &mut dyn Write,
) -> io::Result<bool> {
    let mut board = Board::power_on();
    board.mode = Mode::Passive as u8;
    board.held.places[..3].copy_from_slice(&[140, 0, 255]);
    board.held.used = 3;
    board.held.owed = 510;
    let state = layout::state_bytes(&board);
    for _ in 0..count {
        out.write_all(&[kind::STATE])?;
        out.write_all(&state)?;
        if let Some(length) = length {
            let mut slice = vec![0; length];
            rng.fill(&mut slice);
            let [high, low] = (length as u16).to_be_bytes();
            out.write_all(&[kind::RUN, high, low])?;
            out.write_all(&slice)?;
        }
    }
    Ok(true)
}

/// A Start, and then these queries, each a run of its own.
fn queries(
    mut frame: impl FnMut() -> Vec<u8>,
    count: u64,
    out: &mut dyn Write,
) -> io::Result<bool> {
    let mut tape = Tape::new(out, count);
    tape.byte(128);
    while tape.open() {
        tape.run(&frame());
    }
    tape.finish().map(|()| true)
}

/// A query of so many single packets.
fn list_of_packets(ids: usize, rng: &mut Rng) -> Vec<u8> {
    let mut frame = vec![149, ids as u8];
    frame.extend((0..ids).map(|_| rng.byte(7, 42)));
    frame
}

/// Valid traffic, a record at fault, and more valid calls where the fault isn't
/// that the file ends.
fn malformed(name: &str, rng: &mut Rng, count: u64, out: &mut dyn Write) -> io::Result<bool> {
    let faults = faults();
    let Some((name, bytes)) = faults.iter().find(|(known, _)| *known == name) else {
        return Ok(false);
    };
    let mut tape = Tape::new(out, count);
    traffic::damaged(&mut tape, rng);
    tape.finish()?;
    out.write_all(bytes)?;
    if !name.starts_with("cut") {
        out.write_all(&[kind::TICK; 1024])?;
    }
    Ok(true)
}

/// Records at fault, by name. Those that are cut end the file.
fn faults() -> Vec<(&'static str, Vec<u8>)> {
    let mut state = vec![kind::STATE];
    state.extend_from_slice(&layout::state_bytes(&Board::power_on()));
    let mut no_flag = state.clone();
    no_flag[1 + layout::PLAYING_AT] = 2;
    vec![
        ("kind-0", vec![0]),
        ("kind-6", vec![6]),
        ("kind-128", vec![128]),
        ("kind-133", vec![133]),
        ("kind-255", vec![255]),
        ("cut-after-kind-0", vec![0]),
        ("cut-byte", vec![kind::BYTE]),
        ("cut-report", vec![kind::REPORT]),
        ("cut-image-at-0", vec![kind::IMAGE]),
        ("cut-image-at-39", vec![kind::IMAGE; 40]),
        ("cut-run-at-0", vec![kind::RUN]),
        ("cut-run-at-1", vec![kind::RUN, 0]),
        ("cut-run-at-1-large", vec![kind::RUN, 255]),
        ("cut-run-at-2", vec![kind::RUN, 0, 1]),
        ("cut-run-at-4", vec![kind::RUN, 0, 3, 128, 128]),
        ("cut-run-1024", vec![kind::RUN, 4, 0, 128]),
        ("cut-room-at-0", vec![kind::ROOM]),
        ("cut-room-at-1", vec![kind::ROOM, 255]),
        ("cut-state-at-0", vec![kind::STATE]),
        ("cut-state-at-601", state[..602].to_vec()),
        ("cut-state-with-2", no_flag[..602].to_vec()),
        ("cut-message-at-0", vec![kind::MESSAGE]),
        ("cut-message-at-39", vec![kind::MESSAGE; 40]),
        ("flags-8", vec![kind::REPORT, 8]),
        ("flags-255", vec![kind::REPORT, 255]),
        ("run-1025", vec![kind::RUN, 4, 1]),
        ("run-65535", vec![kind::RUN, 255, 255]),
        ("cut-run-1025", vec![kind::RUN, 4, 1]),
        ("room-1025", vec![kind::ROOM, 4, 1]),
        ("room-65535", vec![kind::ROOM, 255, 255]),
        ("cut-room-1025", vec![kind::ROOM, 4, 1]),
    ]
}
