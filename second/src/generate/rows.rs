//! Lists and rows for Row ends and Row.

use super::grains;
use super::traps::{alias, first_middle_or_last, power_away, telling_count, too_many_points};
use crate::point::{numbers_of, points_of, Point, HIGHEST, LOWEST, MOST_POINTS};
use crate::random::Random;

/// The list, and some row for it.
fn asked(random: &mut Random, list: Vec<i32>) -> (Vec<i32>, i32) {
    let y = some_row(random, &points_of(&list));
    (list, y)
}

/// A row that is present, near one that is, below or above all, or far out of
/// range.
fn some_row(random: &mut Random, points: &[Point]) -> i32 {
    let least = points.iter().map(|p| p.y).min().unwrap_or(0);
    let greatest = points.iter().map(|p| p.y).max().unwrap_or(0);
    match random.below(12) {
        0..=4 if !points.is_empty() => random.pick(points).y,
        5..=6 => random.between(least, greatest),
        7 => least.saturating_sub(1),
        8 => greatest.saturating_add(1),
        9 => random.pick(&[least, greatest]),
        10 => random.pick(&[LOWEST, LOWEST - 1, HIGHEST, HIGHEST + 1]),
        _ => random.pick(&[i32::MIN, i32::MIN + 1, i32::MAX - 1, i32::MAX, 0, -1]),
    }
}

/// A grain in row order, often with rows between that hold no point.
fn ordered_grain(random: &mut Random) -> Vec<Point> {
    let mut grain = if random.chance(1, 2) {
        grains::small(random)
    } else {
        let count = random.below(16);
        let (width, height) = (1 + random.below(5), 1 + random.below(30));
        let grain = grains::random_grain(random, count, width, height);
        grains::moved(random, grain)
    };
    grain.sort();
    grain
}

pub fn sorted(random: &mut Random) -> (Vec<i32>, i32) {
    let grain = ordered_grain(random);
    asked(random, numbers_of(&grain))
}

/// Lists that are not strictly in row order, odd, or out of range.
pub fn unfit(random: &mut Random) -> (Vec<i32>, i32) {
    let grain = ordered_grain(random);
    let list = spoiled(random, grain);
    asked(random, list)
}

/// The list of a grain in row order with one fault.
fn spoiled(random: &mut Random, mut grain: Vec<Point>) -> Vec<i32> {
    if grain.is_empty() {
        return Vec::new();
    }
    let place = first_middle_or_last(random, grain.len());
    match random.below(6) {
        0 => random.shuffle(&mut grain),
        1 => {
            let next = (place + 1) % grain.len();
            grain.swap(place, next);
        }
        2 => grain.insert(place, grain[place]),
        _ => {}
    }
    let mut list = numbers_of(&grain);
    match random.below(6) {
        0 => {
            list.pop();
        }
        1 => list.push(random.pick(&[0, i32::MAX])),
        2..=3 => {
            let index = 2 * place + random.below(2);
            list[index] =
                random.pick(&[LOWEST - 1, LOWEST, HIGHEST, HIGHEST + 1, i32::MIN, i32::MAX]);
        }
        _ => {}
    }
    list
}

/// Points out of range that could be taken for points in range, and rows out of
/// range that could be taken for one that is present.
pub fn aliases(random: &mut Random) -> (Vec<i32>, i32) {
    let mut grain = ordered_grain(random);
    let (_, mut y) = asked(random, numbers_of(&grain));
    let which = random.below(3);
    if which != 0 {
        y = y.wrapping_add(power_away(random));
    }
    if which != 1 && !grain.is_empty() {
        let place = first_middle_or_last(random, grain.len());
        let p = alias(random, grain[place]);
        match random.below(3) {
            0 => grain[place] = p,
            1 => grain.insert(place, p),
            _ => grain.insert(place + 1, p),
        }
    }
    (numbers_of(&grain), y)
}

/// Many points, in few rows or in many, and a single fault at times.
pub fn large(random: &mut Random) -> (Vec<i32>, i32) {
    let count = telling_count(random);
    let (width, height) = random.pick(&[(4096, 1), (1, 4096), (70, 70), (3, 5000), (2000, 4)]);
    let grain = grains::random_grain(random, count, width, height);
    let mut grain = grains::moved(random, grain);
    grain.sort();
    let list = match random.chance(1, 3) {
        true => spoiled(random, grain),
        false => numbers_of(&grain),
    };
    asked(random, list)
}

/// 4,095 to 4,098 points in row order, or far more.
pub fn count_edge(random: &mut Random) -> (Vec<i32>, i32) {
    let mut count = MOST_POINTS - 1 + random.below(4);
    let mut size = random.pick(&[(64, 65), (4100, 1), (1, 4100), (16, 300)]);
    if random.chance(1, 5) {
        count = too_many_points(random);
        size = random.pick(&[(300, 300), (8, 16_384)]);
    }
    let mut grain = grains::random_grain(random, count, size.0, size.1);
    grain.sort();
    let grain = grains::moved(random, grain);
    asked(random, numbers_of(&grain))
}
