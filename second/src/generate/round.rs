//! Polygons with very many corners.

use super::grains::rectangle;
use super::traps::telling_count;
use crate::point::{point, Point};
use crate::random::Random;
use std::cmp::Ordering;

/// The corners of a polygon with very many of them, less than `side` wide and high,
/// in no order: steps in many directions, one after the other round a full turn. With
/// all short steps, by the sum of both coordinates, no polygon of its size has more.
/// Some of the corners alone are corners too.
pub fn many_corners(random: &mut Random, side: usize) -> Vec<Point> {
    let by_sum = random.chance(1, 2);
    let length = |step: &Point| match by_sum {
        true => step.x.abs() + step.y.abs(),
        false => step.x.abs().max(step.y.abs()),
    };
    let longest = if by_sum { 43 } else { 29 };
    let (reach, kept) = match random.chance(1, 4) {
        true => (longest, 6),
        false => (random.size(longest as usize) as i32, 1 + random.below(6)),
    };
    let mut steps = grid(reach);
    steps.retain(|step| {
        !is_downward(*step) && length(step) <= reach && common_divisor(step.x, step.y) == 1
    });
    steps.retain(|_| random.chance(kept, 6));
    if steps.is_empty() {
        steps.push(point(1, 0));
    }
    random.shuffle(&mut steps);
    steps.sort_by_key(length);
    let mut corners = round_trip(fitting(steps, side as i32));
    random.shuffle(&mut corners);
    if random.chance(1, 3) {
        corners.truncate(telling_count(random).max(1));
    }
    corners
}

/// As many of the steps, from the first on, as a round trip in a square has room
/// for: it goes every step to and fro.
fn fitting(mut steps: Vec<Point>, side: i32) -> Vec<Point> {
    let (mut width, mut height) = (1, 1);
    steps.retain(|step| {
        let (wider, higher) = (width + step.x.abs(), height + step.y.abs());
        let fits = wider <= side && higher <= side;
        if fits {
            (width, height) = (wider, higher);
        }
        fits
    });
    steps
}

/// Where one stands before each of the steps and of their opposites, taken by
/// their directions. A step alone makes a line and no polygon.
fn round_trip(mut steps: Vec<Point>) -> Vec<Point> {
    let opposite: Vec<Point> = steps.iter().map(|step| point(-step.x, -step.y)).collect();
    steps.extend(opposite);
    steps.sort_by(|&a, &b| by_direction(a, b));
    let mut at = point(0, 0);
    let mut corners = Vec::new();
    for step in steps {
        corners.push(at);
        at = point(at.x + step.x, at.y + step.y);
    }
    corners
}

/// All steps of at most `reach` in either coordinate.
fn grid(reach: i32) -> Vec<Point> {
    let side = 2 * reach as usize + 1;
    let centred = |p: Point| point(p.x - reach, p.y - reach);
    rectangle(side, side).into_iter().map(centred).collect()
}

fn common_divisor(a: i32, b: i32) -> i32 {
    if b == 0 {
        a.abs()
    } else {
        common_divisor(b, a % b)
    }
}

/// Whether a step belongs to the second half of a turn that starts along x.
fn is_downward(step: Point) -> bool {
    step.y < 0 || (step.y == 0 && step.x < 0)
}

/// The order in which a full turn that starts along x meets the steps.
fn by_direction(a: Point, b: Point) -> Ordering {
    let first_half_first = is_downward(a).cmp(&is_downward(b));
    first_half_first.then((b.x * a.y).cmp(&(b.y * a.x)))
}
