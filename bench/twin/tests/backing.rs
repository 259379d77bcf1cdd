//! A cliff on a Direct order: wheels above 0, and backing round a tight curve.

mod common;

use common::{give, give_frame, in_mode, motors_off};
use twin::board::{Board, Mode, Number, SafetyReport, WheelOrder};

const CLIFF: SafetyReport = SafetyReport {
    wheel_drop: false,
    cliff: true,
    charger: false,
};

/// Whether a cliff stops the base in Safe under this order. It must then be in
/// Passive with all motors off, and otherwise as it was.
fn stops(order: WheelOrder) -> bool {
    let before = Board {
        wheels: order,
        duties: [1, 2, 128],
        ..in_mode(Mode::Safe)
    };
    let mut board = before.clone();
    assert_eq!(board.report(CLIFF), Number::Done, "{order:?}");
    if board == before {
        return false;
    }
    assert_eq!(board, in_mode(Mode::Passive), "{order:?}");
    true
}

/// Whether a cliff counts, told by how the base turns. The wheels stand 129 from
/// the axle's middle, and speed changes evenly along the axle's line. A cliff
/// counts when some point of that line nearer than 165 to the middle moves ahead.
fn moves_ahead_within_165(right: i16, left: i16) -> bool {
    let (right, left) = (i64::from(right), i64::from(left));
    // 258 times the speed at a place, counted from the middle to the right.
    let speed = |place: i64| 129 * (right + left) + place * (right - left);
    assert_eq!((speed(129), speed(-129)), (258 * right, 258 * left));
    // It is largest towards one of the two ends.
    speed(165) > 0 || speed(-165) > 0
}

/// Rows of right, left and whether a cliff stops the base; so it must also with
/// the two exchanged.
fn assert_stops(rows: &[(i16, i16, bool)]) {
    for &(right, left, expected) in rows {
        for order in [
            WheelOrder::direct(right, left),
            WheelOrder::direct(left, right),
        ] {
            assert_eq!(stops(order), expected, "{order:?}");
        }
    }
}

#[test]
fn neither_wheel_above_0() {
    assert_stops(&[
        // 70,950 against 74,250, and 77,400 against 66,000.
        (-500, -50, true),
        (-500, -100, false),
        // The last that stops beside -500, and the next.
        (-500, -61, true),
        (-500, -62, false),
        (0, -1, true),
        (0, -500, true),
        (-1, -1, false),
        (-7, -7, false),
        (-500, -500, false),
        (0, 0, false),
        // Equality doesn't count, and one step away decides.
        (-49, -6, false),
        (-50, -6, true),
        (-49, -5, true),
        (-48, -6, false),
        (-49, -7, false),
        (-490, -60, false),
        (-491, -60, true),
        (-490, -59, true),
        (-489, -60, false),
        (-490, -61, false),
    ]);
}

#[test]
fn a_wheel_above_0() {
    assert_stops(&[
        (1, 0, true),
        (1, -1, true),
        (1, -500, true),
        (500, -500, true),
        (500, -499, true),
        (1, 1, true),
        (500, 1, true),
        (500, 500, true),
    ]);
}

#[test]
fn every_legal_pair() {
    for right in -500..=500 {
        for left in -500..=500 {
            let stopped = stops(WheelOrder::direct(right, left));
            let expected = moves_ahead_within_165(right, left);
            assert_eq!(stopped, expected, "right {right}, left {left}");
            assert!(stopped || (right <= 0 && left <= 0));
        }
    }
}

/// Of wheels that back and differ, those as 49 to 6 alone are at equality: ten
/// pairs each way round.
#[test]
fn equality_is_49_to_6() {
    let mut equal = Vec::new();
    for right in -500i32..=0 {
        for left in -500..=0 {
            let sum = 129 * (right + left).abs();
            let difference = 165 * (right - left).abs();
            if right != left && sum == difference {
                equal.push((right, left));
            }
        }
    }
    let mut expected: Vec<(i32, i32)> = (1..=10)
        .flat_map(|times| [(-49 * times, -6 * times), (-6 * times, -49 * times)])
        .collect();
    expected.sort();
    assert_eq!(equal, expected);
}

/// Where a Drive's curve gives both wheels whole and legal speeds, a cliff counts
/// on the one order as it does on the other.
#[test]
fn direct_and_drive_agree() {
    let legal = -500..=500i16;
    let mut counted = [0; 2];
    for velocity in legal.clone() {
        for radius in (-2000..=2000i16).filter(|radius| radius.abs() > 1) {
            let turn = 129 * i32::from(velocity);
            if turn % i32::from(radius) != 0 {
                continue;
            }
            // Velocity (radius + 129) / radius, and with - 129.
            let bend = turn / i32::from(radius);
            let right = i16::try_from(i32::from(velocity) + bend);
            let left = i16::try_from(i32::from(velocity) - bend);
            let (Ok(right), Ok(left)) = (right, left) else {
                continue;
            };
            // Other wheels would make the record bad.
            if legal.contains(&right) && legal.contains(&left) {
                let drive = stops(WheelOrder::drive(velocity, radius));
                let direct = stops(WheelOrder::direct(right, left));
                assert_eq!(direct, drive, "velocity {velocity}, radius {radius}");
                if velocity < 0 && right <= 0 && left <= 0 {
                    counted[usize::from(drive)] += 1;
                }
            }
        }
    }
    // Both answers came often where the new rule decides.
    assert!(counted.iter().all(|&count| count > 500), "{counted:?}");
}

#[test]
fn straight_and_in_place_agree() {
    for velocity in -500..=500 {
        let straight = stops(WheelOrder::direct(velocity, velocity));
        for radius in [i16::MIN, i16::MAX] {
            assert_eq!(stops(WheelOrder::drive(velocity, radius)), straight);
        }
        for radius in [-1, 1] {
            let wheels = WheelOrder::direct(radius * velocity, -radius * velocity);
            let drive = WheelOrder::drive(velocity, radius);
            assert_eq!(stops(wheels), stops(drive), "velocity {velocity}");
        }
    }
}

/// In Full nothing changes, nor in Safe where no cliff is told; and a frame that
/// is half read stays in every case.
#[test]
fn only_a_cliff_in_safe() {
    for mode in [Mode::Safe, Mode::Full] {
        for (right, left) in [(-500, -50), (-50, -500), (0, -1), (-1, 0)] {
            for flags in 0..8 {
                let mut board = in_mode(mode);
                board.wheels = WheelOrder::direct(right, left);
                board.duties = [1, 2, 128];
                give(&mut board, &[145, 0]);
                let before = board.clone();
                let report = SafetyReport {
                    wheel_drop: flags & 1 != 0,
                    cliff: flags & 2 != 0,
                    charger: flags & 4 != 0,
                };
                assert_eq!(board.report(report), Number::Done);
                assert_eq!(board.held, before.held);
                if mode == Mode::Safe && flags != 0 {
                    assert_eq!(board.mode, Mode::Passive as u8);
                    assert!(motors_off(&board));
                } else {
                    assert_eq!(board, before);
                }
            }
        }
    }
}

#[test]
fn orders_that_were_sent() {
    // -500 is 254 12, -50 is 255 206 and -100 is 255 156.
    for (frame, expected) in [
        ([145, 254, 12, 255, 206], true),
        ([145, 255, 206, 254, 12], true),
        ([145, 254, 12, 255, 156], false),
        ([145, 255, 156, 254, 12], false),
    ] {
        let mut board = in_mode(Mode::Safe);
        assert_eq!(give_frame(&mut board, &frame), Number::Done);
        assert_eq!(board.report(CLIFF), Number::Done);
        assert_eq!(board.mode == Mode::Passive as u8, expected, "{frame:?}");
    }
}
