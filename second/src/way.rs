//! The two ways to the same answers, and which of them suits a grain: the
//! definition itself for small ones, the quick method for all others.

use crate::definition;
use crate::point::Point;
use crate::quick::{self, HullRows};

#[derive(Clone, Copy, PartialEq, Eq, Debug)]
pub enum Way {
    Definition,
    Quick,
}

/// The most steps (triples of points, for each lattice point of the bounding
/// rows and columns) that the definition is given.
const MOST_STEPS: u128 = 2_000_000;

impl Way {
    /// The definition, where it is not too slow.
    pub fn suited_to(points: &[Point]) -> Way {
        let extent = |f: fn(&Point) -> i32| {
            let least = points.iter().map(f).min().unwrap_or(0);
            let greatest = points.iter().map(f).max().unwrap_or(0);
            (i64::from(greatest) - i64::from(least) + 1) as u128
        };
        let cells = extent(|p| p.x) * extent(|p| p.y);
        if (points.len() as u128).pow(3) * cells <= MOST_STEPS {
            Way::Definition
        } else {
            Way::Quick
        }
    }

    pub fn row_order(self, points: &[Point]) -> Vec<Point> {
        match self {
            Way::Definition => definition::row_order(points),
            Way::Quick => {
                let mut ordered = points.to_vec();
                ordered.sort();
                ordered
            }
        }
    }

    pub fn corner_list(self, points: &[Point]) -> Vec<Point> {
        match self {
            Way::Definition => definition::corner_list(points),
            Way::Quick => quick::corner_list(points),
        }
    }

    pub fn is_corner_list(self, list: &[Point]) -> bool {
        match self {
            Way::Definition => definition::is_corner_list(list),
            Way::Quick => quick::is_corner_list(list),
        }
    }

    /// The number of missing points; the list itself is not made.
    pub fn missing_count(self, ordered: &[Point], corners: &[Point]) -> usize {
        match self {
            Way::Definition => definition::hull_points_without(ordered, ordered).len(),
            Way::Quick => HullRows::of_corners(corners).count() - ordered.len(),
        }
    }

    pub fn first_missing(self, ordered: &[Point], corners: &[Point]) -> Option<Point> {
        match self {
            Way::Definition => definition::first_missing(ordered),
            Way::Quick => HullRows::of_corners(corners).points_without(ordered).next(),
        }
    }

    pub fn missing_points(self, ordered: &[Point], corners: &[Point]) -> Vec<Point> {
        match self {
            Way::Definition => definition::hull_points_without(ordered, ordered),
            Way::Quick => HullRows::of_corners(corners)
                .points_without(ordered)
                .collect(),
        }
    }

    /// The place of the first point that is not in the hull of the corners.
    pub fn first_outside(self, corners: &[Point], points: &[Point]) -> Option<usize> {
        match self {
            Way::Definition => points
                .iter()
                .position(|&p| !definition::in_hull(corners, p)),
            Way::Quick => {
                let hull = HullRows::of_corners(corners);
                points.iter().position(|&p| !hull.holds(p))
            }
        }
    }

    /// The number of lattice points in the hull of the corners.
    pub fn hull_count(self, corners: &[Point]) -> usize {
        match self {
            Way::Definition => definition::hull_points_without(corners, &[]).len(),
            Way::Quick => HullRows::of_corners(corners).count(),
        }
    }

    /// The points of the corners' hull without the missing ones, in row order.
    pub fn rebuilt_points(self, corners: &[Point], missing: &[Point]) -> Vec<Point> {
        match self {
            Way::Definition => definition::hull_points_without(corners, missing),
            Way::Quick => HullRows::of_corners(corners)
                .points_without(missing)
                .collect(),
        }
    }
}
