//! Counting what a file of calls meets of the rules.

mod counts;
mod drives;
mod ended;
mod flags;
mod rooms;

use std::cmp::Ordering;
use std::io::{self, Write};

use crate::board::{Board, Mode, Number, SafetyReport, WheelOrder};
use crate::check::{self, Item};
use crate::file::Call;
use crate::frame::{self, Standing};
use crate::perform::{Bench, Observer, Outcome};
use crate::writer::Message;

use counts::Counts;
use drives::Drives;
use ended::Ended;
use flags::Flags;
use rooms::NoRoom;

/// The kinds of calls and the numbers that each can give.
const KINDS: [(&str, &[u8]); 6] = [
    ("byte", &[0, 1, 2, 3, 4, 5, 6, 7, 8, 9]),
    ("run", &[0, 1, 2, 3, 4, 5, 6, 7, 8, 9]),
    ("report", &[0, 8]),
    ("tick", &[0, 3, 7, 8]),
    ("song-end", &[0, 8]),
    ("write", &[0, 4, 7]),
];

/// The table of counts.
pub struct Cover {
    /// By kind of call and number.
    numbers: [[u64; 10]; KINDS.len()],
    /// Of frames by opcode and mode.
    ended: Ended,
    /// By item: how often a call got a record that breaks it and no other.
    bad: [u64; Item::ALL.len()],
    /// Of records whose flags are none.
    flags: Flags,
    /// Of Demo alone.
    demo: Demo,
    /// By row of `CLIFFS`: how often a report met it.
    cliffs: [u64; CLIFFS.len()],
    /// Of frames with a count.
    counts: Counts,
    /// Of cliffs on a Drive order.
    drives: Drives,
    /// Of calls that are lent no room.
    no_room: NoRoom,
    /// The opcode and mode of the frame that the present call may complete.
    at_hand: Option<(u8, Mode)>,
    /// That frame's first bytes, as far as the present call offers them.
    first_bytes: [u8; 3],
    /// Whether the present call is lent no room.
    without_room: bool,
    /// The one item that the present call's record breaks.
    broken: Option<Item>,
    /// The row of `CLIFFS` that the present call meets if the base does as the
    /// row says.
    cliff: Option<usize>,
}

impl Default for Cover {
    fn default() -> Cover {
        Cover::new()
    }
}

impl Cover {
    pub fn new() -> Cover {
        Cover {
            numbers: [[0; 10]; KINDS.len()],
            ended: Ended::new(),
            bad: [0; Item::ALL.len()],
            flags: Flags::default(),
            demo: Demo::new(),
            cliffs: [0; CLIFFS.len()],
            counts: Counts::default(),
            drives: Drives::default(),
            no_room: NoRoom::default(),
            at_hand: None,
            first_bytes: [0; 3],
            without_room: false,
            broken: None,
            cliff: None,
        }
    }

    /// Writes the table, a row a line.
    pub fn write_table(&self, out: &mut impl Write) -> io::Result<()> {
        for ((kind, can_give), counts) in KINDS.iter().zip(&self.numbers) {
            for &number in can_give.iter() {
                writeln!(out, "{kind} {number} {}", counts[usize::from(number)])?;
            }
        }
        self.ended.write_rows(out)?;
        self.counts.write_rows(out)?;
        self.no_room.write_rows(out)?;
        for (item, count) in Item::ALL.iter().zip(self.bad) {
            writeln!(out, "bad {} {count}", item.name())?;
        }
        self.flags.write_rows(out)?;
        self.demo.write_rows(out)?;
        for ((mode, bend, side, _), count) in CLIFFS.iter().zip(self.cliffs) {
            writeln!(out, "cliff {mode:?} {bend} {side} {count}")?;
        }
        self.drives.write_rows(out)
    }

    /// Counts a Demo that the call ended or that the writer was asked for.
    fn count_demo(&mut self, call: &Call, outcome: Outcome) {
        if let Call::Write(Message { opcode: DEMO, .. }) = call {
            self.demo.written[outcome.number as usize] += 1;
        }
        let last_read = serial_bytes(call)[..outcome.read].last();
        if let (Some((DEMO, _)), Some(&byte)) = (self.at_hand, last_read) {
            if outcome.number != Number::Waiting {
                self.demo.end(byte, outcome.number);
            }
        }
    }

    /// Counts a cliff after which the base stands as its row says.
    fn count_cliff(&mut self, board: &Board) {
        if let Some(row) = self.cliff {
            let (mode, .., stops) = CLIFFS[row];
            let then = if stops { Mode::Passive } else { mode };
            self.cliffs[row] += u64::from(board.mode == then as u8);
        }
    }
}

impl Observer for Cover {
    fn before(&mut self, call: &Call, bench: &Bench) {
        let board = &bench.board;
        self.without_room = bench.room == 0;
        // A call reads on in one frame at most: the held one, or else the one
        // that its first byte begins. Until that frame ends the mode stays.
        let opcode = if board.held.used == 0 {
            serial_bytes(call).first().copied()
        } else {
            Some(board.held.opcode())
        };
        self.at_hand = opcode.zip(Mode::from_code(board.mode));
        self.broken = None;
        self.cliff = cliff(call, board);
        if is_cliff_alone(call, board) {
            self.drives.count(board.mode, &board.wheels);
        }
        // The writer gets no record.
        if matches!(call, Call::Write(_)) {
            return;
        }
        self.first_bytes = first_bytes(call, board);
        if check::is_good(board) {
            self.counts.count_held(&board.held);
            self.counts.count_owed(&board.held);
        } else {
            self.broken = check::only_broken(board);
            if matches!(self.broken, Some(Item::HeldBytes | Item::HeldOwed)) {
                self.counts.count_owed(&board.held);
            }
            self.flags.count(call, board);
        }
        if let Some(row) = held_demo(board) {
            self.demo.held[row] += 1;
        }
    }

    fn after(
        &mut self,
        call: &Call,
        outcome: Outcome,
        _answer: &[u8],
        board: &Board,
    ) -> io::Result<()> {
        let kind = match call {
            Call::Byte(_) => 0,
            Call::Run(_) => 1,
            Call::Report(_) => 2,
            Call::Tick => 3,
            Call::SongEnd => 4,
            Call::Write(_) => 5,
        };
        let number = outcome.number as usize;
        self.numbers[kind][number] += 1;
        if let Some((opcode, mode)) = self.at_hand.filter(|_| outcome.read > 0) {
            self.ended.count(opcode, mode, outcome.number);
            if outcome.number == Number::Done {
                self.counts.count_done(self.first_bytes);
            }
        }
        if self.without_room {
            let opcode = self.at_hand.map(|(opcode, _)| opcode);
            self.no_room.count(call, opcode, outcome);
        }
        if let Some(item) = self.broken {
            self.bad[item as usize] += 1;
        }
        self.count_demo(call, outcome);
        self.count_cliff(board);
        Ok(())
    }
}

/// The first bytes of the frame that a call may complete; 0 where there are none.
fn first_bytes(call: &Call, board: &Board) -> [u8; 3] {
    let held = board.held.places.iter().take(board.held.used.into());
    let mut first = [0; 3];
    for (place, &byte) in first.iter_mut().zip(held.chain(serial_bytes(call))) {
        *place = byte;
    }
    first
}

/// The bytes that a call offers to the reader of frames.
fn serial_bytes<'a>(call: &'a Call) -> &'a [u8] {
    match call {
        Call::Byte(byte) => std::slice::from_ref(byte),
        Call::Run(slice) => slice,
        _ => &[],
    }
}

/// The opcode of Demo, of which more is counted than of the others: it alone has
/// a single byte with a sign.
const DEMO: u8 = 136;

/// What a Demo can give at its end.
const DEMO_ENDS: [u8; 3] = [0, 3, 4];

/// The numbers of a Demo that are counted one by one: the ends of the legal
/// range and of a signed byte, those beside them, and 0.
const DEMO_BYTES: [u8; 7] = [254, 255, 0, 9, 10, 127, 128];

/// The held Demos that are counted: a name, the places in use, the number owed,
/// and the item that a record breaks by it.
const DEMO_HELD: [(&str, u16, u16, Option<Item>); 4] = [
    ("alone", 1, 1, None),
    ("owed-0", 1, 0, Some(Item::HeldOwed)),
    ("owed-2", 1, 2, Some(Item::HeldOwed)),
    ("whole", 2, 0, Some(Item::HeldBytes)),
];

/// What the writer can give for a Demo.
const DEMO_WRITES: [u8; 3] = [0, 4, 7];

/// The counts of Demo.
struct Demo {
    /// By number given: how often a byte or a run ended one.
    ended: [u64; 10],
    /// By byte: how often it came as the number, and decided.
    judged: [u64; 256],
    /// By row of `DEMO_HELD`: how often a call got a record that meets it.
    held: [u64; DEMO_HELD.len()],
    /// By number given: how often the writer was asked for one.
    written: [u64; 10],
}

impl Demo {
    fn new() -> Demo {
        Demo {
            ended: [0; 10],
            judged: [0; 256],
            held: [0; DEMO_HELD.len()],
            written: [0; 10],
        }
    }

    /// Counts a Demo that ended with this byte and gave this number.
    fn end(&mut self, byte: u8, number: Number) {
        self.ended[number as usize] += 1;
        // In a wrong mode the byte isn't looked at.
        if number != Number::WrongMode {
            self.judged[usize::from(byte)] += 1;
        }
    }

    /// How often an opcode came as the number, as it does when the number is
    /// lost; 128 is counted by itself.
    fn opcodes_judged(&self) -> u64 {
        (129..=255)
            .filter(|&byte| frame::standing(byte) != Standing::Unknown)
            .map(|byte| self.judged[usize::from(byte)])
            .sum()
    }

    fn write_rows(&self, out: &mut impl Write) -> io::Result<()> {
        for number in DEMO_ENDS {
            let count = self.ended[usize::from(number)];
            writeln!(out, "ended {DEMO} {number} {count}")?;
        }
        for byte in DEMO_BYTES {
            let count = self.judged[usize::from(byte)];
            writeln!(out, "judged {DEMO} {byte} {count}")?;
        }
        writeln!(out, "judged {DEMO} opcode {}", self.opcodes_judged())?;
        for ((name, ..), count) in DEMO_HELD.iter().zip(self.held) {
            writeln!(out, "held {DEMO} {name} {count}")?;
        }
        for number in DEMO_WRITES {
            let count = self.written[usize::from(number)];
            writeln!(out, "write {DEMO} {number} {count}")?;
        }
        Ok(())
    }
}

/// The row of held Demos that a record meets: it breaks the row's item and no
/// other, or is good where the row has none.
fn held_demo(board: &Board) -> Option<usize> {
    let held = &board.held;
    if held.used == 0 || held.opcode() != DEMO {
        return None;
    }
    DEMO_HELD.iter().position(|&(_, used, owed, item)| {
        held.used == used
            && held.owed == owed
            && check::only_broken(board) == item
            && check::is_good(board) == item.is_none()
    })
}

/// The cliffs on a Direct order that are counted: the mode, the bend, the wheel
/// that is ahead or the faster one, and whether the base stops.
const CLIFFS: [(Mode, &str, &str, bool); 13] = [
    (Mode::Safe, "ahead", "right", true),
    (Mode::Safe, "ahead", "left", true),
    (Mode::Safe, "ahead", "both", true),
    (Mode::Safe, "tight", "right", true),
    (Mode::Safe, "tight", "left", true),
    (Mode::Safe, "border", "right", false),
    (Mode::Safe, "border", "left", false),
    (Mode::Safe, "wide", "right", false),
    (Mode::Safe, "wide", "left", false),
    (Mode::Safe, "straight", "both", false),
    (Mode::Safe, "still", "both", false),
    (Mode::Full, "ahead", ANY_SIDE, false),
    (Mode::Full, "tight", ANY_SIDE, false),
];

/// In a row of `CLIFFS`: whichever wheel it is.
const ANY_SIDE: &str = "any";

/// Whether a call is a report with cliff alone, on a good record.
fn is_cliff_alone(call: &Call, board: &Board) -> bool {
    const CLIFF_ALONE: SafetyReport = SafetyReport {
        wheel_drop: false,
        cliff: true,
        charger: false,
    };
    *call == Call::Report(CLIFF_ALONE) && check::is_good(board)
}

/// The row of a report with cliff alone on a good record with a Direct order.
fn cliff(call: &Call, board: &Board) -> Option<usize> {
    if board.wheels.kind != WheelOrder::DIRECT || !is_cliff_alone(call, board) {
        return None;
    }
    let (bend, side) = bend_of(board.wheels.first, board.wheels.second);
    CLIFFS.iter().position(|&(mode, row_bend, row_side, _)| {
        mode as u8 == board.mode && row_bend == bend && [side, ANY_SIDE].contains(&row_side)
    })
}

/// How legal wheels go: the bend, and the wheel that is ahead or the faster one.
fn bend_of(right: i16, left: i16) -> (&'static str, &'static str) {
    match (right > 0, left > 0) {
        (true, true) => return ("ahead", "both"),
        (true, false) => return ("ahead", "right"),
        (false, true) => return ("ahead", "left"),
        (false, false) => {}
    }
    let (side, fast, slow) = match right.cmp(&left) {
        Ordering::Equal if right == 0 => return ("still", "both"),
        Ordering::Equal => return ("straight", "both"),
        Ordering::Less => ("right", -right, -left),
        Ordering::Greater => ("left", -left, -right),
    };
    // 129 (fast + slow) against 165 (fast - slow), brought to lowest terms.
    match (49 * slow).cmp(&(6 * fast)) {
        Ordering::Less => ("tight", side),
        Ordering::Equal => ("border", side),
        Ordering::Greater => ("wide", side),
    }
}
