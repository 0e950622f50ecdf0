//! Corners and missing points as Report gives them, or other sound ones, for
//! Rebuild, in rooms of all lengths.

use super::rebuild_faults::{spoil_corners, spoil_missing};
use super::rooms::{often_enough, plausible_room, room};
use super::traps::telling_count;
use super::{grains, outlines, round};
use crate::form::Request;
use crate::point::{numbers_of, point, Point, MOST_POINTS};
use crate::quick::{corner_list, HullRows};
use crate::random::Random;

/// What Report finds of a grain, and the grain in row order.
pub struct Parts {
    pub corners: Vec<Point>,
    pub missing: Vec<Point>,
    pub points: Vec<Point>,
}

pub fn parts_of(mut points: Vec<Point>) -> Parts {
    points.sort();
    let corners = corner_list(&points);
    let missing = HullRows::of_corners(&corners)
        .points_without(&points)
        .collect();
    Parts {
        corners,
        missing,
        points,
    }
}

pub fn ask(random: &mut Random, corners: &[Point], missing: &[Point], length: usize) -> Request {
    Request::Rebuild {
        corners: numbers_of(corners),
        missing: numbers_of(missing),
        points: room(random, length),
    }
}

/// What Report would give, or the corners alone, and every length of the room. The
/// room may hold what could be points.
pub fn right(random: &mut Random) -> Request {
    let mut parts = parts_of(grains::small(random));
    if random.chance(1, 4) {
        parts.points = grains::filled(&parts.corners);
        parts.missing.clear();
    }
    let length = often_enough(random, parts.points.len());
    if random.chance(1, 5) {
        return Request::Rebuild {
            corners: numbers_of(&parts.corners),
            missing: numbers_of(&parts.missing),
            points: plausible_room(random, length),
        };
    }
    ask(random, &parts.corners, &parts.missing, length)
}

/// Thinnest triangles, with missing points right or next to right.
pub fn slivers(random: &mut Random) -> Request {
    let longest = random.pick(&[50, 50, 300, 2000, 16_383]);
    let grain = outlines::sliver(random, longest);
    let mut parts = parts_of(grains::moved(random, grain));
    if random.chance(1, 2) {
        spoil_missing(random, &mut parts);
    }
    let length = often_enough(random, parts.points.len());
    ask(random, &parts.corners, &parts.missing, length)
}

/// Rows of runs and gaps, with missing points right or next to right.
pub fn gaps(random: &mut Random) -> Request {
    let grain = outlines::gaps(random);
    let mut parts = parts_of(grains::moved(random, grain));
    if random.chance(1, 3) {
        spoil_missing(random, &mut parts);
    }
    let length = often_enough(random, parts.points.len());
    ask(random, &parts.corners, &parts.missing, length)
}

/// A rectangle with as many missing points as may tell something, with a corner or
/// another wrong one among them at times.
pub fn missing_count(random: &mut Random) -> Request {
    let count = telling_count(random);
    let width = random.pick(&[1, 3, 20, 64]);
    let height = (count + random.size(MOST_POINTS)) / width + 2;
    let mut parts = parts_of(grains::rectangle(width, height));
    random.shuffle(&mut parts.points);
    let corners = &parts.corners;
    parts.points.sort_by_key(|p| corners.contains(p));
    parts.missing = parts.points.drain(..count).collect();
    parts.missing.sort();
    if random.chance(1, 3) {
        spoil_missing(random, &mut parts);
    }
    let length = often_enough(random, parts.points.len());
    ask(random, &parts.corners, &parts.missing, length)
}

/// Hulls as wide and high as the range, and some of their points missing: far too
/// many points result, or a missing point is at fault.
pub fn wide(random: &mut Random) -> Request {
    let grain = outlines::whole_range(random);
    let mut corners = corner_list(&grain);
    let mut missing = grain;
    missing.retain(|p| random.chance(1, 20) || !corners.contains(p));
    if random.chance(1, 4) {
        spoil_corners(random, &mut corners);
    }
    ask(random, &corners, &missing, 2 * MOST_POINTS)
}

/// Very many corners, right or almost right, with so many points missing that the
/// result is small enough, where that can be.
pub fn many_corners(random: &mut Random) -> Request {
    let side = random.pick(&[70, 90, 270, 16_384]);
    let grain = round::many_corners(random, side);
    let mut corners = corner_list(&grains::moved(random, grain));
    let hull_points = HullRows::of_corners(&corners).count();
    let mut missing = Vec::new();
    if hull_points < 66_000 {
        missing = grains::filled(&corners);
        missing.retain(|p| !corners.contains(p));
        random.shuffle(&mut missing);
        let left = random.size(MOST_POINTS);
        missing.truncate(missing.len().saturating_sub(left));
        missing.sort();
    }
    let length = often_enough(random, (hull_points - missing.len()).min(MOST_POINTS));
    if random.chance(1, 2) {
        spoil_corners(random, &mut corners);
    }
    ask(random, &corners, &missing, length)
}

/// Close to 4,096 points as the result: lines and rectangles. Far more than that:
/// corners at the ends of the range.
pub fn count(random: &mut Random) -> Request {
    if random.chance(1, 5) {
        let corners = corner_list(&grains::extreme(random));
        return ask(random, &corners, &[], 2 * MOST_POINTS);
    }
    let corners = if random.chance(1, 2) {
        let steps = random.between(4094, 4099);
        let (across, along) = (random.between(-1, 1), random.between(1, 2));
        let line = vec![point(0, 0), point(steps * across, steps * along)];
        corner_list(&grains::moved(random, line))
    } else {
        let (width, height) = random.pick(&[(64, 64), (65, 63), (17, 241), (2, 2049), (4097, 1)]);
        let rectangle = grains::rectangle(width, height);
        corner_list(&grains::moved(random, rectangle))
    };
    let mut points = grains::filled(&corners);
    let mut missing = Vec::new();
    for _ in 0..random.below(5) {
        let taken = points.remove(random.below(points.len()));
        if !corners.contains(&taken) {
            missing.push(taken);
        }
    }
    missing.sort();
    let length = often_enough(random, points.len());
    ask(random, &corners, &missing, length)
}

/// Missing lists longer than 4,096 points, up to more than 65,536, which leave about
/// 4,096 points or only some.
pub fn long(random: &mut Random) -> Request {
    let parts = long_parts(random);
    let length = often_enough(random, parts.points.len());
    ask(random, &parts.corners, &parts.missing, length)
}

/// A rectangle with so many points missing.
pub fn long_parts(random: &mut Random) -> Parts {
    let sizes = [
        (92, 93),
        (93, 92),
        (100, 100),
        (16_384, 1),
        (1, 16_384),
        (140, 142),
        (256, 258),
    ];
    let (width, height) = random.pick(&sizes);
    let all = grains::rectangle(width, height);
    let corners = corner_list(&[
        all[0],
        all[width - 1],
        all[all.len() - width],
        all[all.len() - 1],
    ]);
    let mut points: Vec<Point> = all.into_iter().filter(|p| !corners.contains(p)).collect();
    random.shuffle(&mut points);
    points.truncate(match random.below(3) {
        0 => random.below(400),
        _ => MOST_POINTS - 6 + random.below(6),
    });
    points.extend(&corners);
    parts_of(grains::moved(random, points))
}
