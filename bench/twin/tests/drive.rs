//! A speed for each wheel: curves, rounding, capping and what is refused.

use twin::board::{Number, WheelOrder};
use twin::drive::{exact_speeds, wheel_speeds, Fraction, Speeds};

/// Right, left and whether either was capped.
type Given = (i16, i16, bool);

/// What a Drive order gives that is legal.
fn drive(velocity: i16, radius: i16) -> Given {
    let order = WheelOrder::drive(velocity, radius);
    let speeds = wheel_speeds(order).expect("a legal order");
    (speeds.right, speeds.left, speeds.capped)
}

/// Rows of velocity and radius, and what they give.
fn assert_drives(rows: &[((i16, i16), Given)]) {
    for &((velocity, radius), expected) in rows {
        let given = drive(velocity, radius);
        assert_eq!(given, expected, "velocity {velocity}, radius {radius}");
    }
}

/// Whether an order of this kind is refused; it must then be with 4.
fn refused(kind: u8, first: i16, second: i16) -> bool {
    let order = WheelOrder {
        kind,
        first,
        second,
    };
    match wheel_speeds(order) {
        Ok(_) => false,
        Err(number) => {
            assert_eq!(number as u8, 4, "{order:?}");
            true
        }
    }
}

/// Every radius that isn't a special one.
fn plain_radii() -> impl Iterator<Item = i16> {
    (-2000..=-2).chain(2..=2000)
}

#[test]
fn both_signs() {
    assert_drives(&[
        ((200, 500), (252, 148, false)),
        ((-200, 500), (-252, -148, false)),
        ((200, -500), (148, 252, false)),
        ((-200, -500), (-148, -252, false)),
        ((0, 500), (0, 0, false)),
        ((0, -2), (0, 0, false)),
        // On the inner wheel, and a step to each side: 1.008 and -1.008.
        ((130, 129), (260, 0, false)),
        ((131, 130), (261, 1, false)),
        ((129, 128), (259, -1, false)),
        ((-130, -129), (0, -260, false)),
    ]);
}

#[test]
fn halves_go_away_from_0() {
    assert_drives(&[
        // 65.5 and -63.5.
        ((1, 2), (66, -64, false)),
        ((-1, 2), (-66, 64, false)),
        ((1, -2), (-64, 66, false)),
        ((-1, -2), (64, -66, false)),
        // 129.5 and 0.5, then 128.5 and -0.5.
        ((65, 130), (130, 1, false)),
        ((-65, 130), (-130, -1, false)),
        ((64, 128), (129, -1, false)),
        ((-64, -128), (1, -129, false)),
    ]);
}

#[test]
fn rounded_before_capped() {
    assert_drives(&[
        // 500.4 and 345.6.
        ((423, 705), (500, 346, false)),
        ((-423, 705), (-500, -346, false)),
        ((423, -705), (346, 500, false)),
        // 500.5 and 423.5.
        ((462, 1548), (500, 424, true)),
        ((-462, 1548), (-500, -424, true)),
        ((462, -1548), (424, 500, true)),
        // Exactly 500, and the next.
        ((250, 129), (500, 0, false)),
        ((251, 129), (500, 0, true)),
        // Each wheel alone: 532.25 and 467.75, then 32750 and -31750.
        ((500, 2000), (500, 468, true)),
        ((500, 2), (500, -500, true)),
        ((-500, -2), (500, -500, true)),
    ]);
}

#[test]
fn special_radii() {
    for velocity in -500..=500 {
        assert_drives(&[
            ((velocity, 1), (velocity, -velocity, false)),
            ((velocity, -1), (-velocity, velocity, false)),
            ((velocity, 32767), (velocity, velocity, false)),
            ((velocity, -32768), (velocity, velocity, false)),
        ]);
    }
}

#[test]
fn direct_passes_through() {
    for right in -500..=500 {
        for left in -500..=500 {
            let speeds = Speeds {
                right,
                left,
                capped: false,
            };
            assert_eq!(wheel_speeds(WheelOrder::direct(right, left)), Ok(speeds));
        }
    }
}

#[test]
fn no_order_whatever_its_numbers() {
    let still = Speeds {
        right: 0,
        left: 0,
        capped: false,
    };
    assert_eq!(wheel_speeds(WheelOrder::none()), Ok(still));
    for number in i16::MIN..=i16::MAX {
        for (first, second) in [(number, 0), (0, number), (number, number), (501, number)] {
            let order = WheelOrder {
                kind: 0,
                first,
                second,
            };
            assert_eq!(wheel_speeds(order), Ok(still), "{order:?}");
        }
    }
}

/// Legal and illegal numbers, each limit with both its neighbours.
#[test]
fn refused_with_4() {
    assert_eq!(Number::Data as u8, 4);
    let legal_speeds = [-500, -499, -1, 0, 1, 499, 500];
    let illegal_speeds = [i16::MIN, -502, -501, 501, 502, i16::MAX];
    let legal_radii = [i16::MIN, -2000, -1999, -2, -1, 1, 2, 1999, 2000, i16::MAX];
    let illegal_radii = [-32767, -32766, -2002, -2001, 0, 2001, 2002, 32765, 32766];
    for speed in legal_speeds {
        for radius in legal_radii {
            assert!(!refused(1, speed, radius), "{speed} {radius}");
        }
        for radius in illegal_radii {
            assert!(refused(1, speed, radius), "{speed} {radius}");
        }
        for other in legal_speeds {
            assert!(!refused(2, speed, other), "{speed} {other}");
        }
    }
    for speed in illegal_speeds {
        for radius in legal_radii.iter().chain(&illegal_radii) {
            assert!(refused(1, speed, *radius), "{speed} {radius}");
        }
        for other in legal_speeds.iter().chain(&illegal_speeds) {
            assert!(refused(2, speed, *other), "{speed} {other}");
            assert!(refused(2, *other, speed), "{other} {speed}");
        }
    }
}

#[test]
fn kinds_not_named() {
    for kind in 0..=255 {
        for (first, second) in [(0, 0), (0, 1), (200, 500), (501, 0)] {
            let legal = match kind {
                0 => true,
                1 => first <= 500 && second != 0,
                2 => first <= 500,
                _ => false,
            };
            assert_eq!(refused(kind, first, second), !legal, "kind {kind}");
        }
    }
}

/// Whether a speed before capping is the nearest to a numerator over r, a half
/// going away from 0; and whether it is a half.
fn assert_nearest(speed: i64, numerator: i64, r: i64) -> bool {
    let twice_distance = 2 * (r * speed - numerator).abs();
    assert!(twice_distance <= r.abs(), "{numerator}/{r} is not {speed}");
    let half = twice_distance == r.abs();
    // Of the two as near, the one further from 0 lies outside.
    assert!(!half || (r * speed).abs() > numerator.abs());
    half
}

#[test]
fn every_plain_radius() {
    let (mut halves, mut capped) = (0, 0);
    for velocity in -500..=500 {
        for radius in plain_radii() {
            let (v, r) = (i64::from(velocity), i64::from(radius));
            let exact = exact_speeds(WheelOrder::drive(velocity, radius)).expect("a legal order");
            let [right, left] = exact.map(Fraction::nearest);
            let half_right = assert_nearest(right, v * (r + 129), r);
            let half_left = assert_nearest(left, v * (r - 129), r);
            assert_eq!(exact.map(Fraction::is_half), [half_right, half_left]);
            let outside = right.abs() > 500 || left.abs() > 500;
            let expected = (
                right.clamp(-500, 500) as i16,
                left.clamp(-500, 500) as i16,
                outside,
            );
            assert_eq!(drive(velocity, radius), expected);
            halves += u32::from(half_right || half_left);
            capped += u32::from(outside);
        }
    }
    // Both came often.
    assert!(halves > 1000 && capped > 1000, "{halves} {capped}");
}

/// The other way round the wheels are exchanged, and backwards both signs change.
#[test]
fn curves_mirrored() {
    for velocity in 0..=500 {
        for radius in 1..=2000 {
            let (right, left, capped) = drive(velocity, radius);
            assert_drives(&[
                ((velocity, -radius), (left, right, capped)),
                ((-velocity, radius), (-right, -left, capped)),
                ((-velocity, -radius), (-left, -right, capped)),
            ]);
        }
    }
}
