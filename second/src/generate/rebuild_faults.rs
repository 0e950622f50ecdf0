//! Corner lists and missing lists with faults, for Rebuild.

use super::grains;
use super::rebuilds::{ask, long_parts, parts_of, Parts};
use super::rooms::{enough, often_enough, room};
use super::traps::{alias, first_middle_or_last, too_many_points};
use crate::form::Request;
use crate::point::{numbers_of, point, turn, Point, HIGHEST, LOWEST, MOST_POINTS};
use crate::quick::{corner_list, HullRows};
use crate::random::Random;

/// Corner lists that are almost right.
pub fn corners(random: &mut Random) -> Request {
    let mut parts = parts_of(grains::small(random));
    if random.chance(2, 3) {
        parts.missing.clear();
    }
    spoil_corners(random, &mut parts.corners);
    let length = enough(random, parts.points.len() + parts.missing.len());
    ask(random, &parts.corners, &parts.missing, length)
}

pub fn spoil_corners(random: &mut Random, corners: &mut Vec<Point>) {
    let count = corners.len();
    let place = random.below(count);
    match random.below(16) {
        0 => corners.rotate_left(place),
        1 => corners.reverse(),
        2 => corners[1..].reverse(),
        3..=4 => insert_edge_point(random, corners),
        5 => corners.insert(place, corners[place]),
        6 => corners.push(corners[0]),
        7 => corners.swap(place, random.below(count)),
        8 => {
            let inside = middle(corners[place], random.pick(corners));
            corners.insert(1 + place, inside);
        }
        9 => {
            corners.remove(place);
        }
        10 => corners.extend_from_within(..),
        11 => {
            let (across, along) = (random.between(-1, 1), random.between(-1, 1));
            corners[place].x += across;
            corners[place].y += along;
        }
        12 => corners.clear(),
        13 => corners.truncate(1),
        14 => {
            corners.truncate(2);
            corners.reverse();
        }
        _ => {
            corners.truncate(2);
            let last = corners[corners.len() - 1];
            *corners = vec![last, last];
        }
    }
}

/// A lattice point in the middle of two, or next to it.
fn middle(a: Point, b: Point) -> Point {
    point((a.x + b.x).div_euclid(2), (a.y + b.y).div_euclid(2))
}

/// A point on an edge, at its right place between two corners, if an edge holds
/// one.
fn insert_edge_point(random: &mut Random, corners: &mut Vec<Point>) {
    let after = random.below(corners.len());
    let (from, to) = (corners[after], corners[(after + 1) % corners.len()]);
    let on_edge: Vec<Point> = grains::filled(&[from, to])
        .into_iter()
        .filter(|&p| p != from && p != to && turn(from, to, p) == 0)
        .collect();
    if !on_edge.is_empty() {
        corners.insert(after + 1, random.pick(&on_edge));
    }
}

/// Lists that go round more than once: every three neighbours have a turn above
/// 0, and yet the list is no corner list.
pub fn stars(random: &mut Random) -> Request {
    let known = [(0, -10), (6, 8), (-10, -3), (10, -3), (-6, 8)];
    let mut star: Vec<Point> = known.iter().map(|&(x, y)| point(x, y)).collect();
    if random.chance(3, 4) {
        let count = 12 + random.below(40);
        let side = 6 + random.below(30);
        let round = corner_list(&grains::random_grain(random, count, side, side));
        let step = 1 + random.below(round.len() / 2);
        star = (0..round.len())
            .map(|index| round[index * step % round.len()])
            .collect();
    }
    let star = grains::moved(random, star);
    let length = random.below(200);
    ask(random, &star, &[], length)
}

/// Missing lists that are almost right.
pub fn missing(random: &mut Random) -> Request {
    let mut parts = parts_of(grains::small(random));
    for _ in 0..random.pick(&[1, 1, 1, 2, 3]) {
        spoil_missing(random, &mut parts);
    }
    let length = enough(random, parts.points.len() + 2);
    ask(random, &parts.corners, &parts.missing, length)
}

pub fn spoil_missing(random: &mut Random, parts: &mut Parts) {
    let missing = &mut parts.missing;
    match random.below(11) {
        0 if missing.len() > 1 => {
            let place = first_middle_or_last(random, missing.len() - 1);
            missing.swap(place, place + 1);
        }
        1 if !missing.is_empty() => {
            let place = first_middle_or_last(random, missing.len());
            missing.insert(place, missing[place]);
        }
        2 if !missing.is_empty() => {
            missing.remove(random.below(missing.len()));
        }
        3 => random.shuffle(missing),
        4 => missing.reverse(),
        5 => {
            let corner = random.pick(&parts.corners);
            missing.push(corner);
            missing.sort();
        }
        6 => {
            let p = random.pick(&parts.points);
            missing.push(p);
            missing.sort();
        }
        7 => {
            let place = random.below(missing.len() + 1);
            let p = random.pick(&parts.points);
            missing.insert(place, p);
        }
        8 => {
            missing.push(point(
                random.between(LOWEST, HIGHEST),
                random.between(LOWEST, HIGHEST),
            ));
            missing.sort();
        }
        9 => {
            let near = random.pick(&parts.points);
            let (across, along) = (random.between(-2, 2), random.between(-2, 2));
            missing.push(point(near.x + across, near.y + along));
            missing.sort();
            missing.dedup();
        }
        _ => {
            let outside = beside(random, &parts.corners, &parts.points);
            missing.push(outside);
            missing.sort();
        }
    }
}

/// The first point outside a hull, seen from one of its points along a row or a
/// column.
fn beside(random: &mut Random, corners: &[Point], points: &[Point]) -> Point {
    let hull = HullRows::of_corners(corners);
    let (across, along) = random.pick(&[(1, 0), (-1, 0), (0, 1), (0, -1)]);
    let mut p = random.pick(points);
    while hull.holds(p) {
        p = point(p.x + across, p.y + along);
    }
    p
}

/// Points out of range that could be taken for a corner or a missing point.
pub fn aliases(random: &mut Random) -> Request {
    let mut parts = parts_of(grains::small(random));
    let which = random.below(3);
    if which != 0 {
        put_alias(random, &mut parts.corners);
    }
    if which != 1 {
        put_alias(random, &mut parts.missing);
    }
    let length = enough(random, parts.points.len());
    ask(random, &parts.corners, &parts.missing, length)
}

fn put_alias(random: &mut Random, list: &mut Vec<Point>) {
    if list.is_empty() {
        return;
    }
    let place = first_middle_or_last(random, list.len());
    let p = alias(random, list[place]);
    if random.chance(1, 2) {
        list[place] = p;
    } else {
        list.insert(place + random.below(2), p);
    }
}

/// 4,095 to 4,098 corners or far more, which are no corner list, at times with a
/// coordinate out of range or a list of odd length.
pub fn long_corners(random: &mut Random) -> Request {
    let count = match random.below(5) {
        0 => too_many_points(random),
        _ => MOST_POINTS - 1 + random.below(4),
    };
    let mut corners = numbers_of(&grains::random_grain(random, count, 300, 300));
    let mut missing = numbers_of(&grains::small(random));
    for list in [&mut corners, &mut missing] {
        if random.chance(1, 3) {
            let index = random.below(list.len());
            list[index] = random.pick(&[LOWEST - 1, HIGHEST + 1]);
        }
        if random.chance(1, 6) {
            list.push(0);
        }
    }
    Request::Rebuild {
        corners,
        missing,
        points: room(random, 20),
    }
}

/// Missing lists longer than 4,096 points with one fault, or given to a hull that
/// they do not belong to.
pub fn long_missing(random: &mut Random) -> Request {
    let mut parts = long_parts(random);
    match random.below(4) {
        0 => put_alias(random, &mut parts.missing),
        1 => parts.corners = corner_list(&grains::small(random)),
        _ => spoil_missing(random, &mut parts),
    }
    let length = often_enough(random, parts.points.len());
    ask(random, &parts.corners, &parts.missing, length)
}

/// Several faults at once.
pub fn faults(random: &mut Random) -> Request {
    let mut parts = parts_of(grains::small(random));
    for _ in 0..random.below(4) {
        spoil_missing(random, &mut parts);
    }
    if random.chance(1, 3) {
        spoil_corners(random, &mut parts.corners);
    }
    let mut corners = numbers_of(&parts.corners);
    let mut missing = numbers_of(&parts.missing);
    for list in [&mut corners, &mut missing] {
        if random.chance(1, 4) && !list.is_empty() {
            let index = random.below(list.len());
            list[index] = random.pick(&[LOWEST - 1, HIGHEST + 1, LOWEST, HIGHEST, i32::MIN]);
        }
        if random.chance(1, 10) {
            list.push(0);
        }
    }
    let length = often_enough(random, parts.points.len());
    Request::Rebuild {
        corners,
        missing,
        points: room(random, length),
    }
}
