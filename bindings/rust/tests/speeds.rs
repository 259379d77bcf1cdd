//! Wheel speeds.

mod common;

use common::{in_mode, numbers};
use rawdhusaq::*;

/// Number, right, left and whether capped.
fn told(kind: u8, first: i16, second: i16) -> (u8, i16, i16, u8) {
    let speeds = wheel_speeds(kind, first, second);
    (speeds.number, speeds.right, speeds.left, speeds.capped)
}

#[test]
fn curves() {
    assert_eq!(told(DRIVE, 200, 500), (DONE, 252, 148, 0));
    assert_eq!(told(DRIVE, -200, 500), (DONE, -252, -148, 0));
    assert_eq!(told(DRIVE, 200, -500), (DONE, 148, 252, 0));
    assert_eq!(told(DRIVE, 500, 2000), (DONE, 500, 468, 1));
    assert_eq!(told(DRIVE, 100, 129), (DONE, 200, 0, 0));
}

#[test]
fn halves_go_away_from_zero() {
    // 2 * (172 + 129) / 172 is 3.5, and 2 * (172 - 129) / 172 is 0.5.
    assert_eq!(told(DRIVE, 2, 172), (DONE, 4, 1, 0));
    assert_eq!(told(DRIVE, -2, 172), (DONE, -4, -1, 0));
}

#[test]
fn special_radii() {
    assert_eq!(told(DRIVE, 200, 1), (DONE, 200, -200, 0));
    assert_eq!(told(DRIVE, 200, -1), (DONE, -200, 200, 0));
    assert_eq!(told(DRIVE, 200, 32767), (DONE, 200, 200, 0));
    assert_eq!(told(DRIVE, 200, -32768), (DONE, 200, 200, 0));
}

#[test]
fn capped() {
    assert_eq!(told(DRIVE, 500, 2), (DONE, 500, -500, 1));
    assert_eq!(told(DRIVE, 500, -2), (DONE, -500, 500, 1));
    assert_eq!(told(DRIVE, -500, 500), (DONE, -500, -371, 1));
}

#[test]
fn no_order_and_direct() {
    assert_eq!(told(NO_ORDER, 0, 0), (DONE, 0, 0, 0));
    assert_eq!(told(NO_ORDER, i16::MIN, i16::MAX), (DONE, 0, 0, 0));
    assert_eq!(told(DIRECT, -500, 500), (DONE, -500, 500, 0));
    assert_eq!(told(DIRECT, 0, -7), (DONE, 0, -7, 0));
}

#[test]
fn refused() {
    for (kind, first, second) in [
        (3, 0, 0),
        (255, 0, 0),
        (DRIVE, 501, 500),
        (DRIVE, 200, 0),
        (DRIVE, 200, 2001),
        (DIRECT, 501, 0),
        (DIRECT, 0, i16::MIN),
    ] {
        assert_eq!(told(kind, first, second), (NOT_LEGAL, 0, 0, 0));
    }
}

/// The nearest whole number to v(r + side)/r, halves away from zero, and at most 500.
fn nearest(velocity: i16, radius: i16, side: i32) -> i32 {
    let radius = i32::from(radius);
    let numerator = i32::from(velocity) * (radius + side) * radius.signum();
    let twice = 2 * numerator.abs() + radius.abs();
    (twice / (2 * radius.abs()) * numerator.signum()).clamp(-500, 500)
}

#[test]
fn curves_of_every_radius() {
    for velocity in (-500..=500).step_by(25) {
        for radius in (-2000..=-2).chain(2..=2000) {
            let speeds = wheel_speeds(DRIVE, velocity, radius);
            assert_eq!(speeds.number, DONE);
            assert_eq!(i32::from(speeds.right), nearest(velocity, radius, 129));
            assert_eq!(i32::from(speeds.left), nearest(velocity, radius, -129));
        }
    }
}

#[test]
fn of_a_record() {
    let mut board = in_mode(SAFE);
    assert_eq!(board.wheel_speeds(), wheel_speeds(NO_ORDER, 0, 0));
    numbers(&mut board, &[137, 0, 200, 1, 244]);
    assert_eq!(board.wheel_speeds(), wheel_speeds(DRIVE, 200, 500));
    numbers(&mut board, &[145, 1, 244, 254, 12]);
    assert_eq!(board.wheel_speeds(), wheel_speeds(DIRECT, 500, -500));
    numbers(&mut board, &[128]);
    assert_eq!(board.wheel_speeds(), wheel_speeds(NO_ORDER, 0, 0));
}
