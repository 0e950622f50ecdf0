//! Points, their row order and range, turn, and the lists of numbers that hold
//! points (document 01, "Lattice, order and hull").

use std::cmp::Ordering;

/// "each from -8,192 to 8,191"
pub const LOWEST: i32 = -8192;
pub const HIGHEST: i32 = 8191;

/// "At most 4,096 points or corners go in."
pub const MOST_POINTS: usize = 4096;

/// "A point is a pair of signed 32-bit whole numbers, x then y"
#[derive(Clone, Copy, PartialEq, Eq, Hash, Debug)]
pub struct Point {
    pub x: i32,
    pub y: i32,
}

/// Shows (0, 0) where there is no first missing point.
pub const ORIGIN: Point = Point { x: 0, y: 0 };

pub fn point(x: i32, y: i32) -> Point {
    Point { x, y }
}

impl Point {
    /// "each from -8,192 to 8,191"
    pub fn is_in_range(self) -> bool {
        coordinate_is_in_range(self.x) && coordinate_is_in_range(self.y)
    }
}

pub fn coordinate_is_in_range(coordinate: i32) -> bool {
    (LOWEST..=HIGHEST).contains(&coordinate)
}

/// "Row order: smaller y first; in one row, smaller x first."
impl Ord for Point {
    fn cmp(&self, other: &Point) -> Ordering {
        self.y.cmp(&other.y).then(self.x.cmp(&other.x))
    }
}

impl PartialOrd for Point {
    fn partial_cmp(&self, other: &Point) -> Option<Ordering> {
        Some(self.cmp(other))
    }
}

/// "turn(a, b, c) = (bx - ax)(cy - ay) - (by - ay)(cx - ax)."
pub fn turn(a: Point, b: Point, c: Point) -> i64 {
    let along = |from: i32, to: i32| i64::from(to) - i64::from(from);
    along(a.x, b.x) * along(a.y, c.y) - along(a.y, b.y) * along(a.x, c.x)
}

/// "A list holds x, y, x, y and so on." An odd last number is left out.
pub fn points_of(list: &[i32]) -> Vec<Point> {
    list.chunks_exact(2)
        .map(|pair| point(pair[0], pair[1]))
        .collect()
}

/// The list of numbers that holds these points.
pub fn numbers_of(points: &[Point]) -> Vec<i32> {
    points.iter().flat_map(|p| [p.x, p.y]).collect()
}

/// "strictly in row order": every point follows the one before.
pub fn first_out_of_row_order(points: &[Point]) -> Option<usize> {
    (1..points.len()).find(|&place| points[place - 1] >= points[place])
}
