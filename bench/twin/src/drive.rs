//! From a wheel order to a speed for each wheel.
//!
//! The exact speeds are kept as fractions, which are rounded once, and only then
//! capped.

use std::cmp::Ordering;

use crate::board::{Number, WheelOrder};

/// From the middle of the axle to a wheel's centre: half of 258 mm.
const HALF_AXLE: i64 = 129;

/// The most that a wheel is told, ahead or back.
const MOST_SPEED: i64 = 500;

/// What the motor stage is told.
#[derive(Clone, Copy, Debug, PartialEq, Eq)]
pub struct Speeds {
    pub right: i16,
    pub left: i16,
    /// Whether either was capped.
    pub capped: bool,
}

/// The speeds of an order, or the number that refuses it.
pub fn wheel_speeds(order: WheelOrder) -> Result<Speeds, Number> {
    let exact = exact_speeds(order).ok_or(Number::Data)?;
    let [right, left] = exact.map(Fraction::nearest);
    Ok(Speeds {
        right: cap(right),
        left: cap(left),
        capped: is_capped(right) || is_capped(left),
    })
}

/// The exact speeds of the right and the left wheel, if the order is legal.
pub fn exact_speeds(order: WheelOrder) -> Option<[Fraction; 2]> {
    if !order.in_range() {
        return None;
    }
    let (first, second) = (i64::from(order.first), i64::from(order.second));
    match order.kind {
        WheelOrder::NONE => Some([0, 0].map(Fraction::whole)),
        WheelOrder::DRIVE => Some(on_curve(first, second)),
        WheelOrder::DIRECT => Some([first, second].map(Fraction::whole)),
        _ => None,
    }
}

fn on_curve(velocity: i64, radius: i64) -> [Fraction; 2] {
    match radius {
        // Counterclockwise in place, and clockwise.
        1 => [velocity, -velocity].map(Fraction::whole),
        -1 => [-velocity, velocity].map(Fraction::whole),
        // Straight.
        32767 | -32768 => [velocity, velocity].map(Fraction::whole),
        _ => [
            Fraction::new(velocity * (radius + HALF_AXLE), radius),
            Fraction::new(velocity * (radius - HALF_AXLE), radius),
        ],
    }
}

fn is_capped(speed: i64) -> bool {
    speed.abs() > MOST_SPEED
}

fn cap(speed: i64) -> i16 {
    // Within 500 of 0, so that nothing is lost.
    speed.clamp(-MOST_SPEED, MOST_SPEED) as i16
}

/// An exact fraction.
#[derive(Clone, Copy, Debug)]
pub struct Fraction {
    numerator: i64,
    /// Above 0.
    denominator: i64,
}

impl Fraction {
    /// A numerator over a denominator of either sign, but not 0.
    pub fn new(numerator: i64, denominator: i64) -> Fraction {
        assert!(denominator != 0, "a fraction over 0");
        Fraction {
            numerator: numerator * denominator.signum(),
            denominator: denominator.abs(),
        }
    }

    /// A whole number.
    pub fn whole(number: i64) -> Fraction {
        Fraction::new(number, 1)
    }

    /// The nearest whole number; of two as near, the one further from 0.
    pub fn nearest(self) -> i64 {
        let (below, above) = self.between();
        match self.distance(below).cmp(&self.distance(above)) {
            Ordering::Less => below,
            Ordering::Greater => above,
            Ordering::Equal if below.abs() > above.abs() => below,
            Ordering::Equal => above,
        }
    }

    /// Whether it lies in the middle between two whole numbers.
    pub fn is_half(self) -> bool {
        let (below, above) = self.between();
        self.distance(below) == self.distance(above)
    }

    /// The whole numbers around it: the largest that isn't above it, and the next.
    fn between(self) -> (i64, i64) {
        let below = self.numerator.div_euclid(self.denominator);
        (below, below + 1)
    }

    /// How far it is from a whole number, counted in parts of its denominator.
    fn distance(self, number: i64) -> i64 {
        (self.numerator - number * self.denominator).abs()
    }
}
