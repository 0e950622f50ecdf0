//! Grains: sets of distinct points of many shapes, from which requests are made.

use crate::point::{point, Point, HIGHEST, LOWEST};
use crate::quick::{corner_list, HullRows};
use crate::random::Random;
use std::collections::HashSet;

/// `count` distinct points in a box whose least coordinates are 0.
pub fn random_grain(random: &mut Random, count: usize, width: usize, height: usize) -> Vec<Point> {
    let cells = width * height;
    let count = count.min(cells);
    if 2 * count > cells {
        let mut all = rectangle(width, height);
        random.shuffle(&mut all);
        all.truncate(count);
        return all;
    }
    let mut seen = HashSet::new();
    let mut grain = Vec::new();
    while grain.len() < count {
        let p = point(random.below(width) as i32, random.below(height) as i32);
        if seen.insert(p) {
            grain.push(p);
        }
    }
    grain
}

/// A grain moved to some place in range: near (0, 0), anywhere, or touching the
/// ends of the range.
pub fn moved(random: &mut Random, grain: Vec<Point>) -> Vec<Point> {
    if grain.is_empty() {
        return grain;
    }
    let across = shift(random, grain.iter().map(|p| p.x));
    let along = shift(random, grain.iter().map(|p| p.y));
    let place = |p: Point| point(p.x + across, p.y + along);
    grain.into_iter().map(place).collect()
}

fn shift(random: &mut Random, coordinates: impl Iterator<Item = i32> + Clone) -> i32 {
    let least = LOWEST - coordinates.clone().min().unwrap_or(0);
    let greatest = HIGHEST - coordinates.max().unwrap_or(0);
    match random.below(6) {
        0..=2 => random.between(-9, 9).clamp(least, greatest),
        3 => random.between(least, greatest),
        4 => least,
        _ => greatest,
    }
}

/// A grain moved so that its least coordinates are 0.
pub fn at_origin(mut grain: Vec<Point>) -> Vec<Point> {
    let left = grain.iter().map(|p| p.x).min().unwrap_or(0);
    let top = grain.iter().map(|p| p.y).min().unwrap_or(0);
    grain
        .iter_mut()
        .for_each(|p| *p = point(p.x - left, p.y - top));
    grain
}

pub fn rectangle(width: usize, height: usize) -> Vec<Point> {
    let row = |y| (0..width as i32).map(move |x| point(x, y));
    (0..height as i32).flat_map(row).collect()
}

pub fn disc(radius: i32) -> Vec<Point> {
    let side = 2 * radius as usize + 1;
    rectangle(side, side)
        .into_iter()
        .filter(|p| (p.x - radius).pow(2) + (p.y - radius).pow(2) <= radius * radius)
        .collect()
}

/// All lattice points of the hull of a few points.
pub fn polygon(random: &mut Random, side: usize) -> Vec<Point> {
    let count = 3 + random.below(6);
    filled(&random_grain(random, count, side, side))
}

/// All lattice points of the hull of a grain.
pub fn filled(grain: &[Point]) -> Vec<Point> {
    HullRows::of_corners(&corner_list(grain))
        .points_without(&[])
        .collect()
}

/// A filled disc, rectangle or polygon.
pub fn filled_shape(random: &mut Random, side: usize) -> Vec<Point> {
    match random.below(3) {
        0 => disc(random.below(side / 2 + 1) as i32),
        1 => {
            let width = 1 + random.below(side);
            rectangle(width, 1 + random.below(side))
        }
        _ => polygon(random, side),
    }
}

/// Sorted, reversed, by columns, shuffled, or with one pair of neighbours out of
/// order.
pub fn arrange(random: &mut Random, grain: &mut [Point]) {
    match random.below(6) {
        0 => grain.sort(),
        1 => {
            grain.sort();
            grain.reverse();
        }
        2 => grain.sort_by_key(|p| (p.x, p.y)),
        3 if grain.len() > 1 => {
            grain.sort();
            let place = random.below(grain.len() - 1);
            grain.swap(place, place + 1);
        }
        _ => random.shuffle(grain),
    }
}

/// Takes a few points out.
pub fn knock_out(random: &mut Random, grain: &mut Vec<Point>, count: usize) {
    for _ in 0..count.min(grain.len().saturating_sub(1)) {
        grain.remove(random.below(grain.len()));
    }
}

/// A filled rectangle with notches or holes at its first or last row or column.
pub fn notched(random: &mut Random) -> Vec<Point> {
    let (width, height) = (2 + random.below(9), 2 + random.below(9));
    let (last_column, last_row) = (width as i32 - 1, height as i32 - 1);
    let mut grain = rectangle(width, height);
    for _ in 0..1 + random.below(3) {
        let deep = i32::from(random.chance(1, 4));
        let (x, y) = (random.between(0, last_column), random.between(0, last_row));
        let notch = match random.below(4) {
            0 => point(x, deep),
            1 => point(x, last_row - deep),
            2 => point(deep, y),
            _ => point(last_column - deep, y),
        };
        let is_corner =
            (notch.x == 0 || notch.x == last_column) && (notch.y == 0 || notch.y == last_row);
        if !is_corner || random.chance(1, 4) {
            grain.retain(|&p| p != notch);
        }
    }
    grain
}

/// Two points far apart, one row, one column, a slanted line, a needle, a long
/// triangle. The extent is at most `longest`.
pub fn thin(random: &mut Random, longest: usize) -> Vec<Point> {
    let length = random.size(longest);
    let mut grain = match random.below(6) {
        0 => {
            let other = random.size(longest);
            vec![point(0, 0), point(length as i32, other as i32)]
        }
        1 => {
            let count = random.size(12);
            random_grain(random, count, length, 1)
        }
        2 => {
            let count = random.size(12);
            random_grain(random, count, 1, length)
        }
        3 => slanted(random, longest),
        4 => needle(random, longest),
        _ => {
            let width = 1 + random.below(3);
            random_grain(random, 3, width, length)
        }
    };
    if random.chance(1, 2) {
        grain = grain.into_iter().map(|p| point(p.y, p.x)).collect();
    }
    if random.chance(1, 2) {
        grain = grain.into_iter().map(|p| point(-p.x, p.y)).collect();
    }
    grain
}

/// Points on one line with equal steps, some left out.
fn slanted(random: &mut Random, longest: usize) -> Vec<Point> {
    let (across, along) = (random.between(1, 7), random.between(1, 7));
    let steps = (longest / across.max(along) as usize).max(1);
    let last = random.size(steps) as i32;
    let count = 2 + random.below(9);
    let mut chosen: Vec<i32> = (0..count).map(|_| random.between(0, last)).collect();
    chosen.sort();
    chosen.dedup();
    chosen
        .into_iter()
        .map(|step| point(step * across, step * along))
        .collect()
}

/// Two points far apart and one or two close to the line between them.
fn needle(random: &mut Random, longest: usize) -> Vec<Point> {
    let across = random.size(longest) as i32;
    let along = random.size(longest) as i32;
    let mut grain = vec![point(0, 0), point(across, along)];
    for _ in 0..1 + random.below(2) {
        let x = random.between(0, across);
        let near = i64::from(x) * i64::from(along) / i64::from(across);
        let y = near as i32 + random.between(-1, 1);
        let p = point(x, y.clamp(0, along));
        if !grain.contains(&p) {
            grain.push(p);
        }
    }
    grain
}

/// A few points whose coordinates lie at the ends of the range.
pub fn extreme(random: &mut Random) -> Vec<Point> {
    let coordinates = [
        LOWEST,
        LOWEST,
        LOWEST + 1,
        LOWEST + 2,
        HIGHEST - 1,
        HIGHEST,
        HIGHEST,
        0,
    ];
    let mut grain: Vec<Point> = Vec::new();
    for _ in 0..1 + random.below(7) {
        let p = point(random.pick(&coordinates), random.pick(&coordinates));
        if !grain.contains(&p) {
            grain.push(p);
        }
    }
    grain
}

/// Some small grain, of any shape, in no special order.
pub fn small(random: &mut Random) -> Vec<Point> {
    let (width, height) = (1 + random.below(6), 1 + random.below(6));
    let mut grain = match random.below(8) {
        0..=2 => {
            let count = 1 + random.below(12);
            random_grain(random, count, width, height)
        }
        3 => {
            let count = 1 + random.below(width * height);
            random_grain(random, count, width, height)
        }
        4 => notched(random),
        5 => thin(random, 40),
        6 => {
            let mut shape = filled_shape(random, 8);
            let count = random.below(4);
            knock_out(random, &mut shape, count);
            shape
        }
        _ => {
            let (far_width, far_height) = (random.size(200), random.size(200));
            let count = 1 + random.below(8);
            random_grain(random, count, far_width, far_height)
        }
    };
    random.shuffle(&mut grain);
    moved(random, grain)
}
