//! Wheels of Direct orders about which a cliff is decided.

use crate::board::WheelOrder;

use super::rng::Rng;

/// A legal Direct order that a cliff just stops or just doesn't, or that shows
/// one of the rule's cases. Either wheel may be the faster one.
pub fn near_a_cliff(rng: &mut Rng) -> WheelOrder {
    let (one, other) = match rng.below(20) {
        0..=2 => at_the_border(rng),
        3..=5 => beside_the_border(rng),
        6..=8 => about_the_border(rng),
        9 | 10 => straight_back(rng),
        11 | 12 => ahead(rng),
        13 | 14 => of_a_curve(rng),
        _ => (rng.pick(&[-1, 0, 0, 1]), rng.pick(&[-1, 0, 0, 1])),
    };
    if rng.flip() {
        WheelOrder::direct(one, other)
    } else {
        WheelOrder::direct(other, one)
    }
}

/// Wheels as 49 to 6: of all that differ and back, only these have 129 times
/// their sum as large as 165 times their difference.
fn at_the_border(rng: &mut Rng) -> (i16, i16) {
    let times = rng.number(1, 10);
    (-49 * times, -6 * times)
}

/// One step from wheels at the border, on either side of it.
fn beside_the_border(rng: &mut Rng) -> (i16, i16) {
    let (fast, slow) = at_the_border(rng);
    let step = rng.pick(&[-1, 1]);
    if rng.flip() {
        (fast + step, slow)
    } else {
        (fast, slow + step)
    }
}

/// Any faster wheel, with the slower one next to the border on either side.
fn about_the_border(rng: &mut Rng) -> (i16, i16) {
    let fast = rng.number(1, 500);
    let slow = 6 * fast / 49 + rng.number(0, 1);
    (-fast, -slow)
}

fn straight_back(rng: &mut Rng) -> (i16, i16) {
    let any = rng.number(-500, -1);
    let both = rng.pick(&[-1, -7, -500, any]);
    (both, both)
}

/// One wheel above 0, and the other above it or not.
fn ahead(rng: &mut Rng) -> (i16, i16) {
    let any = rng.number(1, 500);
    let one = rng.pick(&[1, 500, any]);
    let other = if rng.flip() {
        rng.number(1, 500)
    } else {
        rng.number(-500, 0)
    };
    (one, other)
}

/// The wheels of a Drive whose radius makes both of them whole; most back.
fn of_a_curve(rng: &mut Rng) -> (i16, i16) {
    let any = rng.number(86, 371);
    let radius = rng.pick(&[129, 164, 165, 166, 172, any, any]);
    // Both wheels are whole at velocities that are multiples of radius / divisor.
    let divisor = [129, 43, 3].into_iter().find(|part| radius % part == 0);
    let divisor = divisor.unwrap_or(1);
    let (outer, inner) = ((radius + 129) / divisor, (radius - 129) / divisor);
    let times = rng.number(1, 500 / outer);
    let times = rng.pick(&[-times, -times, -times, times]);
    (times * outer, times * inner)
}
