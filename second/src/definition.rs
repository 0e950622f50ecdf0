//! Hull, corners and missing points exactly as document 01 defines them, one
//! function for one sentence. Slow on purpose; fit for small grains only.

use crate::point::{turn, Point};

/// "A lattice point p is in the hull of S when p is in S; or p lies on the
/// segment between two points of S ...; or there are a, b, c in S with ..."
pub fn in_hull(set: &[Point], p: Point) -> bool {
    set.contains(&p) || on_a_segment(set, p) || in_a_triangle(set, p)
}

/// "p lies on the segment between two points of S (turn 0, and both
/// coordinates between theirs)"
fn on_a_segment(set: &[Point], p: Point) -> bool {
    set.iter().any(|&a| {
        set.iter()
            .any(|&b| turn(a, b, p) == 0 && is_between(a.x, p.x, b.x) && is_between(a.y, p.y, b.y))
    })
}

fn is_between(one_end: i32, middle: i32, other_end: i32) -> bool {
    one_end.min(other_end) <= middle && middle <= one_end.max(other_end)
}

/// "there are a, b, c in S with turn(a, b, c) > 0 and turn(a, b, p),
/// turn(b, c, p), turn(c, a, p) all at least 0"
fn in_a_triangle(set: &[Point], p: Point) -> bool {
    set.iter().any(|&a| {
        set.iter().any(|&b| {
            turn(a, b, p) >= 0
                && set
                    .iter()
                    .any(|&c| turn(a, b, c) > 0 && turn(b, c, p) >= 0 && turn(c, a, p) >= 0)
        })
    })
}

/// "A corner is a point of S that is not in the hull of the rest of S."
fn is_corner(set: &[Point], p: Point) -> bool {
    let rest: Vec<Point> = set.iter().copied().filter(|&other| other != p).collect();
    !in_hull(&rest, p)
}

/// Order: the points in row order, each taken as the least of those left.
pub fn row_order(points: &[Point]) -> Vec<Point> {
    let mut left = points.to_vec();
    let mut ordered = Vec::new();
    while let Some(&least) = left.iter().min() {
        let index = left.iter().position(|&p| p == least).unwrap();
        ordered.push(left.remove(index));
    }
    ordered
}

/// "The corner list holds every corner once. It starts with the corner that is
/// first in row order. Two corners stand in row order. With three or more, any
/// three taken in list order have a turn above 0."
pub fn corner_list(set: &[Point]) -> Vec<Point> {
    let corners: Vec<Point> = set.iter().copied().filter(|&p| is_corner(set, p)).collect();
    let Some(&start) = corners.iter().min() else {
        return Vec::new();
    };
    let stands_before =
        |one: Point, other: Point| one != start && other != start && turn(start, one, other) > 0;
    let mut list = vec![start; corners.len()];
    for &corner in corners.iter().filter(|&&corner| corner != start) {
        let before = corners.iter().filter(|&&c| stands_before(c, corner));
        list[1 + before.count()] = corner;
    }
    assert!(is_corner_list(&list));
    list
}

/// Number 8: "corners are not a corner list as above".
pub fn is_corner_list(list: &[Point]) -> bool {
    let starts_with_the_first = list.iter().all(|&corner| list[0] <= corner);
    starts_with_the_first && (list.len() != 2 || list[0] < list[1]) && all_turns_are_above_0(list)
}

/// "any three taken in list order have a turn above 0"
fn all_turns_are_above_0(list: &[Point]) -> bool {
    (0..list.len()).all(|i| {
        (i + 1..list.len())
            .all(|j| (j + 1..list.len()).all(|k| turn(list[i], list[j], list[k]) > 0))
    })
}

/// The rows and the columns that can hold points of the hull: all three clauses
/// keep p between the least and the greatest coordinates of S.
fn rows_and_columns(
    set: &[Point],
) -> (std::ops::RangeInclusive<i32>, std::ops::RangeInclusive<i32>) {
    let least = |f: fn(&Point) -> i32| set.iter().map(f).min().unwrap_or(1);
    let greatest = |f: fn(&Point) -> i32| set.iter().map(f).max().unwrap_or(0);
    (
        least(|p| p.y)..=greatest(|p| p.y),
        least(|p| p.x)..=greatest(|p| p.x),
    )
}

/// The lattice points in the hull of `set` that are not among `others`, in row
/// order. With `others` = `set` these are the missing points ("in the hull of S
/// and not in S"); with the missing points as `others` they are the points that
/// Rebuild gives.
pub fn hull_points_without(set: &[Point], others: &[Point]) -> Vec<Point> {
    let (rows, columns) = rows_and_columns(set);
    let mut found = Vec::new();
    for y in rows {
        for x in columns.clone() {
            let p = Point { x, y };
            if in_hull(set, p) && !others.contains(&p) {
                found.push(p);
            }
        }
    }
    found
}

/// "The search for the first missing point goes through rows and columns and
/// leaves both as soon as it has one."
pub fn first_missing(set: &[Point]) -> Option<Point> {
    let (rows, columns) = rows_and_columns(set);
    for y in rows {
        for x in columns.clone() {
            let p = Point { x, y };
            if in_hull(set, p) && !set.contains(&p) {
                return Some(p);
            }
        }
    }
    None
}
