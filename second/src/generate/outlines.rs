//! Grains whose outline is a trap: chips at the rim, thinnest triangles, full
//! lines, rims alone, parts far apart, all of the range.

use super::grains::{filled_shape, knock_out, random_grain, rectangle, small};
use crate::point::{point, Point, HIGHEST, LOWEST, MOST_POINTS};
use crate::quick::corner_list;
use crate::random::Random;
use std::collections::HashSet;

/// A filled shape or a long strip that lacks a point or two of its rim: in the first
/// or last row or column, or at either end of some row. Its corners stay, so that the
/// grain is not convex.
pub fn chipped(random: &mut Random, side: usize) -> Vec<Point> {
    let mut grain = match random.below(16) {
        0 => rectangle(3, random.size(MOST_POINTS / 3)),
        1 => rectangle(random.size(MOST_POINTS / 3), 3),
        _ => filled_shape(random, side),
    };
    let corners: HashSet<Point> = corner_list(&grain).into_iter().collect();
    let mut chips = 1 + random.below(2);
    for _ in 0..6 {
        let mut rim = some_rim(random, &grain);
        rim.retain(|p| !corners.contains(p));
        if chips > 0 && !rim.is_empty() {
            let chip = random.pick(&rim);
            grain.retain(|&p| p != chip);
            chips -= 1;
        }
    }
    grain
}

/// The points of a grain in its first or last row or column, or those at one end
/// of each row.
fn some_rim(random: &mut Random, grain: &[Point]) -> Vec<Point> {
    let has: HashSet<Point> = grain.iter().copied().collect();
    let greatest = |f: fn(&Point) -> i32| grain.iter().map(f).max().unwrap_or(0);
    let least = |f: fn(&Point) -> i32| grain.iter().map(f).min().unwrap_or(0);
    let (first_row, last_row) = (least(|p| p.y), greatest(|p| p.y));
    let (first_column, last_column) = (least(|p| p.x), greatest(|p| p.x));
    let which = random.below(6);
    let is_on_rim = |p: &Point| match which {
        0 => p.y == first_row,
        1 => p.y == last_row,
        2 => p.x == first_column,
        3 => p.x == last_column,
        4 => !has.contains(&point(p.x - 1, p.y)),
        _ => !has.contains(&point(p.x + 1, p.y)),
    };
    grain.iter().copied().filter(is_on_rim).collect()
}

/// The points of a grain that lack a neighbour.
pub fn hollow(grain: &[Point]) -> Vec<Point> {
    let has: HashSet<Point> = grain.iter().copied().collect();
    let is_inner = |p: &Point| {
        let (across, along) = ([1, -1, 0, 0], [0, 0, 1, -1]);
        (0..4).all(|way| has.contains(&point(p.x + across[way], p.y + along[way])))
    };
    grain.iter().copied().filter(|p| !is_inner(p)).collect()
}

/// Up to 4,096 points with equal steps, in a row, a column, a diagonal or another
/// direction; a few are taken out at times.
pub fn line(random: &mut Random) -> Vec<Point> {
    let directions = [
        (1, 0),
        (0, 1),
        (1, 1),
        (-1, 1),
        (2, 0),
        (2, 1),
        (-1, 3),
        (4, 3),
    ];
    let (across, along): (i32, i32) = random.pick(&directions);
    let count = random.size(MOST_POINTS) as i32;
    let mut grain: Vec<Point> = (0..count)
        .map(|step| point(step * across, step * along))
        .filter(|p| p.x.abs() <= HIGHEST - LOWEST && p.y.abs() <= HIGHEST - LOWEST)
        .collect();
    let taken = random.below(4);
    knock_out(random, &mut grain, taken);
    grain
}

/// A few rows of runs with gaps between them, both of any length and often about a
/// power of two; each row begins and ends with a point. Up to 4,096 points.
pub fn gaps(random: &mut Random) -> Vec<Point> {
    let rows = 1 + random.below(4);
    let most = random.pick(&[100, 1000, MOST_POINTS]) / rows;
    let width = random.pick(&[70, 300, 2000, 16_000]);
    let mut grain = Vec::new();
    for y in 0..rows as i32 {
        let (mut x, mut left) = (0, most);
        while left > 0 && x < width {
            let run = some_run(random).min(left);
            grain.extend((0..run as i32).map(|step| point(x + step, y)));
            left -= run;
            x += (run + some_run(random)) as i32;
        }
    }
    grain.retain(|p| p.x <= width);
    grain
}

fn some_run(random: &mut Random) -> usize {
    match random.chance(1, 2) {
        true => random.size(700),
        false => (1 << random.below(10)) + random.below(3) - 1,
    }
    .max(1)
}

/// Three or four points, two of them steps with a turn of 1: the triangle from the
/// start over both has no other lattice point, and most rows that it crosses have
/// none at all. One step may be taken several times.
pub fn sliver(random: &mut Random, longest: usize) -> Vec<Point> {
    let longest = longest as i32;
    let (mut one, mut other) = (point(1, 0), point(0, 1));
    let steady = 1 + random.below(30);
    let mut first = random.chance(1, 2);
    loop {
        let both = point(one.x + other.x, one.y + other.y);
        if both.x.max(both.y) > longest || random.chance(1, 40) {
            break;
        }
        if random.chance(1, steady) {
            first = !first;
        }
        *(if first { &mut one } else { &mut other }) = both;
    }
    let most = longest / one.x.max(one.y);
    let times = random.size(most.clamp(1, 12) as usize) as i32;
    let mut grain = vec![point(0, 0), point(times * one.x, times * one.y), other];
    let both = point(one.x + other.x, one.y + other.y);
    if random.chance(1, 3) && both.x.max(both.y) <= longest {
        grain.push(both);
    }
    turned(random, grain)
}

/// Mirrored or with rows as columns, or as it is.
fn turned(random: &mut Random, mut grain: Vec<Point>) -> Vec<Point> {
    if random.chance(1, 2) {
        grain.iter_mut().for_each(|p| *p = point(p.y, p.x));
    }
    if random.chance(1, 2) {
        grain.iter_mut().for_each(|p| *p = point(-p.x, p.y));
    }
    grain
}

/// A few small parts with nothing between them, in a square of this side.
pub fn islands(random: &mut Random, side: i32) -> Vec<Point> {
    let mut seen = HashSet::new();
    let mut grain = Vec::new();
    for _ in 0..2 + random.below(3) {
        let (x, y) = (random.between(0, side), random.between(0, side));
        let (width, height) = (1 + random.below(3), 1 + random.below(3));
        for p in rectangle(width, height) {
            let p = point(x + p.x, y + p.y);
            if seen.insert(p) {
                grain.push(p);
            }
        }
    }
    grain
}

/// Points on all four sides of the range, at its corners more often than not, and
/// some anywhere within.
pub fn whole_range(random: &mut Random) -> Vec<Point> {
    let count = random.size(300);
    let side = (HIGHEST - LOWEST + 1) as usize;
    let mut grain = random_grain(random, count, side, side);
    grain
        .iter_mut()
        .for_each(|p| *p = point(p.x + LOWEST, p.y + LOWEST));
    let mut somewhere = || {
        let middle = random.between(LOWEST, HIGHEST);
        random.pick(&[LOWEST, HIGHEST, middle])
    };
    for end in [LOWEST, HIGHEST] {
        grain.push(point(end, somewhere()));
        grain.push(point(somewhere(), end));
    }
    distinct(grain)
}

/// A grain and its mirror image about a column, a row or a point: one sum of
/// coordinates is 0, or both are.
pub fn balanced(random: &mut Random) -> Vec<Point> {
    let mut grain = if random.chance(1, 4) {
        let count = random.size(MOST_POINTS / 2);
        let side = random.pick(&[60, 200, 8000]);
        random_grain(random, count, side, side)
    } else {
        small(random)
    };
    grain.retain(|p| p.x != LOWEST && p.y != LOWEST);
    let (across, along) = random.pick(&[(-1, 1), (1, -1), (-1, -1)]);
    let mirrored: Vec<Point> = grain
        .iter()
        .map(|p| point(across * p.x, along * p.y))
        .collect();
    grain.extend(mirrored);
    distinct(grain)
}

fn distinct(mut grain: Vec<Point>) -> Vec<Point> {
    grain.sort();
    grain.dedup();
    grain
}
