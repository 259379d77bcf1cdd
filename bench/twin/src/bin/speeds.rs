//! Holds the wheel speeds of the other implementation's library, `libfirmware.a`,
//! against the twin's, and measures both.
//!
//! It ends with a failure at the first order on which they differ.

use std::fmt;
use std::hint::black_box;
use std::io::{self, Write};
use std::process::ExitCode;
use std::time::Instant;

use twin::board::WheelOrder;
use twin::drive::{self, Fraction};

/// Rounds of timing.
const ROUNDS: usize = 5;

/// Numbers of every sort: zero, plain and special radii, and the limits of speeds
/// and radii with their neighbours.
const SOME: [i16; 33] = [
    -32768, -32767, -32766, -2001, -2000, -1999, -501, -500, -499, -200, -130, -129, -128, -2, -1,
    0, 1, 2, 128, 129, 130, 200, 499, 500, 501, 705, 1548, 1999, 2000, 2001, 32765, 32766, 32767,
];

/// What a call gives, laid out as the library does. What says whether a speed was
/// capped is a number there, 0 or 1; any other shows here.
#[repr(C)]
#[derive(Clone, Copy, PartialEq, Eq)]
struct WheelSpeeds {
    number: u8,
    right: i16,
    left: i16,
    capped: u8,
}

#[link(name = "firmware", kind = "static")]
extern "C" {
    fn wheel_speeds(kind: u8, first: i16, second: i16) -> WheelSpeeds;
}

fn ours(order: WheelOrder) -> WheelSpeeds {
    // SAFETY: it takes any three numbers, and no memory is shared.
    unsafe { wheel_speeds(order.kind, order.first, order.second) }
}

fn twins(order: WheelOrder) -> WheelSpeeds {
    match drive::wheel_speeds(order) {
        Ok(speeds) => WheelSpeeds {
            number: 0,
            right: speeds.right,
            left: speeds.left,
            capped: u8::from(speeds.capped),
        },
        Err(number) => WheelSpeeds {
            number: number as u8,
            right: 0,
            left: 0,
            capped: 0,
        },
    }
}

impl fmt::Display for WheelSpeeds {
    fn fmt(&self, f: &mut fmt::Formatter) -> fmt::Result {
        let WheelSpeeds {
            number,
            right,
            left,
            capped,
        } = self;
        write!(
            f,
            "number {number}, right {right}, left {left}, capped {capped}"
        )
    }
}

fn main() -> ExitCode {
    match hold(&mut io::stdout().lock()) {
        Ok(true) => ExitCode::SUCCESS,
        Ok(false) => ExitCode::FAILURE,
        Err(error) => {
            eprintln!("speeds: {error}");
            ExitCode::FAILURE
        }
    }
}

/// Compares, and measures if all was the same. Whether it was.
fn hold(out: &mut impl Write) -> io::Result<bool> {
    let same = compare_all(out)?;
    if same {
        measure(out)?;
    }
    out.flush()?;
    Ok(same)
}

// --- Comparing ---------------------------------------------------------------

/// Every pair of the numbers, under each of the kinds.
struct Group<'a> {
    name: &'a str,
    kinds: &'a [u8],
    firsts: &'a [i16],
    seconds: &'a [i16],
}

impl<'a> Group<'a> {
    fn new(name: &'a str, kinds: &'a [u8], firsts: &'a [i16], seconds: &'a [i16]) -> Group<'a> {
        Group {
            name,
            kinds,
            firsts,
            seconds,
        }
    }

    fn orders(&self) -> impl Iterator<Item = WheelOrder> + '_ {
        self.kinds.iter().flat_map(move |&kind| {
            self.firsts.iter().flat_map(move |&first| {
                self.seconds.iter().map(move |&second| WheelOrder {
                    kind,
                    first,
                    second,
                })
            })
        })
    }
}

fn legal_speeds() -> Vec<i16> {
    (-500..=500).collect()
}

fn legal_radii() -> Vec<i16> {
    let bent = (-2000..=-1).chain(1..=2000);
    bent.chain([i16::MAX, i16::MIN]).collect()
}

fn compare_all(out: &mut impl Write) -> io::Result<bool> {
    let (speeds, radii) = (&legal_speeds(), &legal_radii());
    let all: &Vec<i16> = &(i16::MIN..=i16::MAX).collect();
    let kinds: &Vec<u8> = &(0..=255).collect();
    let none = &[WheelOrder::NONE];
    let drive = &[WheelOrder::DRIVE];
    let direct = &[WheelOrder::DIRECT];
    let groups = [
        Group::new("Drive, every legal pair", drive, speeds, radii),
        Group::new("Drive, every velocity", drive, all, &SOME),
        Group::new("Drive, every radius", drive, &SOME, all),
        Group::new("Direct, every legal pair", direct, speeds, speeds),
        Group::new("Direct, every right", direct, all, &SOME),
        Group::new("Direct, every left", direct, &SOME, all),
        Group::new("no order, every first", none, all, &SOME),
        Group::new("no order, every second", none, &SOME, all),
        Group::new("every kind", kinds, &SOME, &SOME),
    ];
    for group in &groups {
        if !compare(group, out)? {
            return Ok(false);
        }
    }
    Ok(true)
}

/// What a group met, by the twin.
#[derive(Default)]
struct Tally {
    same: u64,
    refused: u64,
    capped: u64,
    /// Orders of which a wheel's exact speed is a half.
    halves: u64,
}

impl Tally {
    fn add(&mut self, order: WheelOrder, speeds: WheelSpeeds) {
        let exact = drive::exact_speeds(order);
        let half = exact.is_some_and(|speeds| speeds.into_iter().any(Fraction::is_half));
        self.same += 1;
        self.refused += u64::from(speeds.number != 0);
        self.capped += u64::from(speeds.capped);
        self.halves += u64::from(half);
    }
}

/// Compares a group up to the first difference. Whether there was none.
fn compare(group: &Group, out: &mut impl Write) -> io::Result<bool> {
    // The name comes first, so that it stands there if the library ends the program.
    write!(out, "{}: ", group.name)?;
    out.flush()?;
    let mut tally = Tally::default();
    for order in group.orders() {
        let (ours, twin) = (ours(order), twins(order));
        if ours != twin {
            writeln!(out, "different after {} the same", tally.same)?;
            show_difference(order, ours, twin);
            return Ok(false);
        }
        tally.add(order, twin);
    }
    let Tally {
        same,
        refused,
        capped,
        halves,
    } = tally;
    writeln!(
        out,
        "{same} orders the same, {refused} refused, {capped} capped, {halves} with a half"
    )?;
    Ok(true)
}

fn show_difference(order: WheelOrder, ours: WheelSpeeds, twin: WheelSpeeds) {
    let WheelOrder {
        kind,
        first,
        second,
    } = order;
    eprintln!("DIFFERENT: kind {kind}, first {first}, second {second}: ours {ours}; twin {twin}");
}

// --- Measuring ---------------------------------------------------------------

/// Nanoseconds a call over every legal Drive order.
fn time<T>(speeds: &[i16], radii: &[i16], call: impl Fn(WheelOrder) -> T) -> f64 {
    let start = Instant::now();
    for &velocity in speeds {
        for &radius in radii {
            let order = WheelOrder::drive(black_box(velocity), black_box(radius));
            black_box(call(order));
        }
    }
    start.elapsed().as_secs_f64() * 1e9 / (speeds.len() * radii.len()) as f64
}

/// Writes both times and their ratio, the best and the median of the rounds.
fn measure(out: &mut impl Write) -> io::Result<()> {
    let (speeds, radii) = (legal_speeds(), legal_radii());
    let mut times = [Vec::new(), Vec::new()];
    for _ in 0..ROUNDS {
        times[0].push(time(&speeds, &radii, ours));
        times[1].push(time(&speeds, &radii, drive::wheel_speeds));
    }
    for rounds in &mut times {
        rounds.sort_by(f64::total_cmp);
    }
    let orders = speeds.len() * radii.len();
    writeln!(
        out,
        "ns a call, of {orders} Drive orders, in {ROUNDS} rounds by turns"
    )?;
    writeln!(
        out,
        "{:24} {:>12} {:>12} {:>10}",
        "", "ours", "twin", "/twin"
    )?;
    for (name, place) in [("best", 0), ("median", ROUNDS / 2)] {
        let (ours, twin) = (times[0][place], times[1][place]);
        let ratio = ours / twin;
        writeln!(out, "{name:24} {ours:12.1} {twin:12.1} {ratio:10.3}")?;
    }
    Ok(())
}
