//! The calls over lists: Order, Hull, Verdict, Report, Row ends, Row, Rebuild
//! and Figures (document 01). A room is written only once nothing can decline
//! the call any more, so a declined call leaves every room as it was.

use crate::point::{first_out_of_row_order, numbers_of, points_of, Point, MOST_POINTS, ORIGIN};
use crate::refusal::{
    check_count, check_even, check_points, check_range, check_room, refusal, Refusal,
};
use crate::way::Way;
use std::collections::HashSet;

/// "yes or no", or "a third verdict that is neither yes nor no".
#[derive(Clone, Copy, PartialEq, Eq, Debug)]
pub enum Verdict {
    No,
    Yes,
    Declined,
}

/// What Order, Hull, Verdict, Report and Rebuild answer; a call leaves what it
/// does not speak of as in `DECLINED`.
#[derive(Clone, Copy, PartialEq, Eq, Debug)]
pub struct Answer {
    pub number: u32,
    pub place: usize,
    pub points: usize,
    pub corners: usize,
    pub missing: usize,
    pub verdict: Verdict,
    pub first_missing: Point,
}

/// "A declined one has its number and place, all counts 0, a third verdict that
/// is neither yes nor no, first missing point (0, 0)."
const DECLINED: Answer = Answer {
    number: 0,
    place: 0,
    points: 0,
    corners: 0,
    missing: 0,
    verdict: Verdict::Declined,
    first_missing: ORIGIN,
};

fn answer_of(outcome: Result<Answer, Refusal>) -> Answer {
    outcome.unwrap_or_else(|declined| Answer {
        number: declined.number,
        place: declined.place,
        ..DECLINED
    })
}

/// "After an accepted call each room begins with its result and the rest of it
/// reads as before."
fn put(room: &mut [i32], result: &[Point]) {
    let numbers = numbers_of(result);
    room[..numbers.len()].copy_from_slice(&numbers);
}

/// The points in row order, with the way that suits them. Numbers 1 to 5.
fn find_ordered(list: &[i32], ordered_room: &[i32]) -> Result<(Way, Vec<Point>), Refusal> {
    let points = check_points(list)?;
    check_room(ordered_room, points.len(), 5)?;
    let way = Way::suited_to(&points);
    Ok((way, way.row_order(&points)))
}

/// What Hull finds. Numbers 1 to 6.
struct Found {
    way: Way,
    ordered: Vec<Point>,
    corners: Vec<Point>,
}

fn find_hull(list: &[i32], ordered_room: &[i32], corner_room: &[i32]) -> Result<Found, Refusal> {
    let (way, ordered) = find_ordered(list, ordered_room)?;
    let corners = way.corner_list(&ordered);
    check_room(corner_room, corners.len(), 6)?;
    Ok(Found {
        way,
        ordered,
        corners,
    })
}

impl Found {
    fn put(&self, ordered_room: &mut [i32], corner_room: &mut [i32]) {
        put(ordered_room, &self.ordered);
        put(corner_room, &self.corners);
    }

    fn first_missing(&self) -> Option<Point> {
        self.way.first_missing(&self.ordered, &self.corners)
    }

    fn missing_count(&self) -> usize {
        self.way.missing_count(&self.ordered, &self.corners)
    }

    fn missing_points(&self) -> Vec<Point> {
        self.way.missing_points(&self.ordered, &self.corners)
    }

    /// The counts, and the verdict with the first missing point: "S is convex
    /// (yes) exactly if it has no missing point." "An accepted Verdict or Report
    /// that says yes also shows (0, 0) there".
    fn answer(&self, first_missing: Option<Point>) -> Answer {
        Answer {
            points: self.ordered.len(),
            corners: self.corners.len(),
            verdict: match first_missing {
                None => Verdict::Yes,
                Some(_) => Verdict::No,
            },
            first_missing: first_missing.unwrap_or(ORIGIN),
            ..DECLINED
        }
    }
}

/// "Order: the points in row order."
pub fn order(list: &[i32], ordered_room: &mut [i32]) -> Answer {
    answer_of(find_ordered(list, ordered_room).map(|(_, ordered)| {
        put(ordered_room, &ordered);
        Answer {
            points: ordered.len(),
            ..DECLINED
        }
    }))
}

/// "Hull: Order, and the corners."
pub fn hull(list: &[i32], ordered_room: &mut [i32], corner_room: &mut [i32]) -> Answer {
    answer_of(find_hull(list, ordered_room, corner_room).map(|found| {
        found.put(ordered_room, corner_room);
        Answer {
            points: found.ordered.len(),
            corners: found.corners.len(),
            ..DECLINED
        }
    }))
}

/// "Verdict: Hull, and yes or no with the first missing point."
pub fn verdict(list: &[i32], ordered_room: &mut [i32], corner_room: &mut [i32]) -> Answer {
    answer_of(find_hull(list, ordered_room, corner_room).map(|found| {
        found.put(ordered_room, corner_room);
        found.answer(found.first_missing())
    }))
}

/// "Report: Verdict, and all missing points."
pub fn report(
    list: &[i32],
    ordered_room: &mut [i32],
    corner_room: &mut [i32],
    missing_room: &mut [i32],
) -> Answer {
    let outcome = find_hull(list, ordered_room, corner_room).and_then(|found| {
        check_room(missing_room, found.missing_count(), 7)?;
        let missing = found.missing_points();
        assert_eq!(missing.len(), found.missing_count());
        assert_eq!(missing.first().copied(), found.first_missing());
        found.put(ordered_room, corner_room);
        put(missing_room, &missing);
        Ok(Answer {
            missing: missing.len(),
            ..found.answer(missing.first().copied())
        })
    });
    answer_of(outcome)
}

/// "If the list has even length, at most 4,096 points, all in range and strictly
/// in row order"
fn is_ordered_list(list: &[i32]) -> bool {
    let points = points_of(list);
    list.len().is_multiple_of(2)
        && points.len() <= MOST_POINTS
        && points.iter().all(|p| p.is_in_range())
        && first_out_of_row_order(&points).is_none()
}

/// "Row ends ... answers both ends of that part as numbers of points from the
/// list's start (for any other list 0 and 0)"; "where the row is empty, the
/// empty part at the place where they would stand".
pub fn row_ends(list: &[i32], y: i32) -> (usize, usize) {
    if !is_ordered_list(list) {
        return (0, 0);
    }
    let points = points_of(list);
    let begin = points.iter().filter(|p| p.y < y).count();
    let end = points.iter().filter(|p| p.y <= y).count();
    (begin, end)
}

/// "it hands back the part of that list holding the points of row y"
pub fn row(list: &[i32], y: i32) -> &[i32] {
    let (begin, end) = row_ends(list, y);
    &list[2 * begin..2 * end]
}

/// "Rebuild: from corners and missing points to points." The points stand in row
/// order, as J shows.
pub fn rebuild(corner_list: &[i32], missing_list: &[i32], point_room: &mut [i32]) -> Answer {
    answer_of(
        find_rebuilt(corner_list, missing_list, point_room).map(|points| {
            put(point_room, &points);
            Answer {
                points: points.len(),
                ..DECLINED
            }
        }),
    )
}

/// "Rebuild: 1 (either list), 2, 3 for corners, 3 for missing points, 8, 9, 10,
/// 11, 12."
fn find_rebuilt(
    corner_list: &[i32],
    missing_list: &[i32],
    point_room: &[i32],
) -> Result<Vec<Point>, Refusal> {
    check_even(corner_list)?;
    check_even(missing_list)?;
    check_count(corner_list)?;
    let corners = check_range(corner_list)?;
    let missing = check_range(missing_list)?;
    let way = Way::suited_to(&corners);
    if !way.is_corner_list(&corners) {
        return Err(refusal(8, 0));
    }
    if let Some(place) = first_out_of_row_order(&missing) {
        return Err(refusal(9, place));
    }
    if let Some(place) = first_impossible_missing_point(way, &corners, &missing) {
        return Err(refusal(10, place));
    }
    // The missing points are now distinct points of the hull.
    let count = way.hull_count(&corners) - missing.len();
    if count > MOST_POINTS {
        return Err(refusal(11, 0));
    }
    check_room(point_room, count, 12)?;
    let points = way.rebuilt_points(&corners, &missing);
    assert_eq!(points.len(), count);
    Ok(points)
}

/// 10: "a missing point is outside the corners' hull, or is a corner", place:
/// "first such point".
fn first_impossible_missing_point(way: Way, corners: &[Point], missing: &[Point]) -> Option<usize> {
    let are_corners: HashSet<Point> = corners.iter().copied().collect();
    let outside = way.first_outside(corners, missing);
    let corner = missing.iter().position(|p| are_corners.contains(p));
    outside.into_iter().chain(corner).min()
}

/// "The centroid is one value of two doubles, x and y".
#[derive(Clone, Copy, PartialEq, Debug)]
pub struct Centroid {
    pub x: f64,
    pub y: f64,
}

/// "Figures answers one of three things: a refusal with number and place; none,
/// for the empty list; or the doubles."
#[derive(Clone, Copy, PartialEq, Debug)]
pub enum Figures {
    Refused(Refusal),
    None,
    Doubles { centroid: Centroid, solidity: f64 },
}

/// "Figures: centroid and solidity."
pub fn figures(list: &[i32], ordered_room: &mut [i32], corner_room: &mut [i32]) -> Figures {
    match find_hull(list, ordered_room, corner_room) {
        Err(declined) => Figures::Refused(declined),
        Ok(found) => {
            found.put(ordered_room, corner_room);
            doubles_of(&found)
        }
    }
}

fn doubles_of(found: &Found) -> Figures {
    let points = found.ordered.len() as i64;
    if points == 0 {
        return Figures::None;
    }
    let sum = |f: fn(&Point) -> i64| found.ordered.iter().map(f).sum::<i64>();
    let hull_points = points + found.missing_count() as i64;
    Figures::Doubles {
        // "the sum of the coordinates divided by the number of points"
        centroid: Centroid {
            x: quotient(sum(|p| i64::from(p.x)), points),
            y: quotient(sum(|p| i64::from(p.y)), points),
        },
        // "the number of points divided by the number of lattice points in the
        // hull"
        solidity: quotient(points, hull_points),
    }
}

/// "Each is a single IEEE 754 division of two whole numbers that are exact as
/// doubles, rounded once."
fn quotient(dividend: i64, divisor: i64) -> f64 {
    dividend as f64 / divisor as f64
}
