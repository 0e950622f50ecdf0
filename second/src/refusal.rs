//! The numbers and places for a declined call, and the checks that several
//! calls share (document 01, "Numbers for a declined call").

use crate::point::{points_of, Point, MOST_POINTS};
use std::collections::HashSet;

/// "A declined one has its number and place".
#[derive(Clone, Copy, PartialEq, Eq, Debug)]
pub struct Refusal {
    pub number: u32,
    pub place: usize,
}

pub fn refusal(number: u32, place: usize) -> Refusal {
    Refusal { number, place }
}

/// Numbers 1 to 4, "The order is 1 to 7 for lists": every check goes over the
/// whole list before the next one starts.
pub fn check_points(list: &[i32]) -> Result<Vec<Point>, Refusal> {
    check_even(list)?;
    check_count(list)?;
    let points = check_range(list)?;
    check_repeats(&points)?;
    Ok(points)
}

/// 1: "a list given has an odd length", place 0.
pub fn check_even(list: &[i32]) -> Result<(), Refusal> {
    if list.len().is_multiple_of(2) {
        Ok(())
    } else {
        Err(refusal(1, 0))
    }
}

/// 2: "more than 4,096 points, or corners for Rebuild", place 0.
pub fn check_count(list: &[i32]) -> Result<(), Refusal> {
    if list.len() / 2 <= MOST_POINTS {
        Ok(())
    } else {
        Err(refusal(2, 0))
    }
}

/// 3: "a coordinate out of range", place: "first such point in its list".
pub fn check_range(list: &[i32]) -> Result<Vec<Point>, Refusal> {
    let points = points_of(list);
    match points.iter().position(|p| !p.is_in_range()) {
        None => Ok(points),
        Some(place) => Err(refusal(3, place)),
    }
}

/// 4: "a point equal to an earlier one", place: "first such point".
fn check_repeats(points: &[Point]) -> Result<(), Refusal> {
    let mut earlier = HashSet::new();
    match points.iter().position(|&p| !earlier.insert(p)) {
        None => Ok(()),
        Some(place) => Err(refusal(4, place)),
    }
}

/// 5, 6, 7 and 12: ""Too small" means fewer pairs than the exact result, never
/// otherwise", and "Room counts whole pairs: an odd last number is never used".
pub fn check_room(room: &[i32], exact_result: usize, number: u32) -> Result<(), Refusal> {
    if room.len() / 2 < exact_result {
        Err(refusal(number, 0))
    } else {
        Ok(())
    }
}
