//! Numbers that a careless program gets wrong.

use crate::point::{point, Point, MOST_POINTS};
use crate::random::Random;

/// A number of points around a power of two, or any up to 700: where working
/// space or a method changes with the size, it does so at some such number.
pub fn telling_count(random: &mut Random) -> usize {
    if random.chance(1, 2) {
        return random.below(701);
    }
    let power = 32 << random.below(8);
    (power - 1 + random.below(3)).min(MOST_POINTS)
}

/// More points than any call takes: one, two or thousands more, or so many that a
/// count of 16 bits starts again.
pub fn too_many_points(random: &mut Random) -> usize {
    match random.below(12) {
        0 => 32_768 + random.below(3),
        1 => 65_536 + random.below(3),
        _ => MOST_POINTS + random.size(8000),
    }
}

/// The first, a middle or the last of so many.
pub fn first_middle_or_last(random: &mut Random, count: usize) -> usize {
    match random.below(3) {
        0 => 0,
        1 => random.below(count),
        _ => count.saturating_sub(1),
    }
}

/// What a careless reading of coordinates may not notice: a power of two, as where
/// a coordinate is cut to some bits or two of them share a word.
pub fn power_away(random: &mut Random) -> i32 {
    let power = 1 << random.pick(&[14, 14, 14, 15, 16, 16, 24, 28, 30]);
    random.pick(&[power, -power, i32::MIN])
}

/// A point out of range that could be taken for this one.
pub fn alias(random: &mut Random, p: Point) -> Point {
    let away = power_away(random);
    match random.below(4) {
        0 => point(p.x.wrapping_add(away), p.y),
        1 => point(p.x, p.y.wrapping_add(away)),
        2 => point(p.x.wrapping_add(16_384), p.y.wrapping_sub(1)),
        _ => point(p.x.wrapping_sub(16_384), p.y.wrapping_add(1)),
    }
}
