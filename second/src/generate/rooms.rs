//! Rooms: their lengths, and what stands in them before a call.

use crate::form::Room;
use crate::point::{HIGHEST, LOWEST};
use crate::random::Random;

/// The longest list or room that is asked for (FORM.md): more than 65,536 points.
const LONGEST: usize = 140_000;

/// A room of this length with numbers that are clearly no result.
pub fn room(random: &mut Random, length: usize) -> Room {
    let first = random.between(1_000_000, 1_900_000);
    Room {
        length: length.min(LONGEST),
        first: random.pick(&[first, -first - 100_000]),
    }
}

/// A room whose numbers could be results, or that lie at the ends of 32 bits: a
/// call must not look at them.
pub fn plausible_room(random: &mut Random, length: usize) -> Room {
    let length = length.min(LONGEST);
    let near = random.between(-9, 9);
    let last_first = i32::MAX - length.saturating_sub(1) as i32;
    let first = random.pick(&[0, near, near, LOWEST, HIGHEST - near, i32::MIN, last_first]);
    Room { length, first }
}

/// The length of a room that is enough for so many points, and now and then far more
/// than that.
pub fn enough(random: &mut Random, points: usize) -> usize {
    if random.chance(1, 200) {
        return 2 * points + 66_001;
    }
    2 * points + random.pick(&[0, 0, 0, 0, 1, 1, 2, 2, 3, 3, 8, 8, 21, 21, 200, 1001])
}

/// The length of a room that is exactly enough, or a number or a pair off.
pub fn almost_exact(random: &mut Random, points: usize) -> usize {
    (2 * points + random.below(5)).saturating_sub(2)
}

/// The length of a room from nothing to one pair more than enough, with an odd
/// last number or without.
pub fn any_length(random: &mut Random, points: usize) -> usize {
    match random.below(10) {
        0 => 0,
        1 => 1,
        2..=6 => almost_exact(random, points),
        _ => random.below(2 * points + 3),
    }
}

/// The length of a room that is enough more often than not.
pub fn often_enough(random: &mut Random, points: usize) -> usize {
    random.pick(&[enough, enough, any_length])(random, points)
}
