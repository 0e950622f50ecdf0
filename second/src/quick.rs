//! The quick method, for large grains: corners by gift wrapping, hull points as
//! one span of columns for each row, cut out by the edges of the hull.

use crate::point::{turn, Point};

/// The corner list by gift wrapping: from the first point in row order, always
/// to the point that has all others on its left, until the start is met again.
pub fn corner_list(points: &[Point]) -> Vec<Point> {
    let Some(&start) = points.iter().min() else {
        return Vec::new();
    };
    let mut corners = vec![start];
    let mut from = start;
    while let Some(next) = next_corner(points, from) {
        if next == start {
            break;
        }
        corners.push(next);
        from = next;
    }
    corners
}

/// The point that no other one lies to the right of, seen from `from`; the
/// furthest of them where several stand in one line, since only that one is a
/// corner.
fn next_corner(points: &[Point], from: Point) -> Option<Point> {
    let mut others = points.iter().copied().filter(|&p| p != from);
    let mut best = others.next()?;
    for p in others {
        let side = turn(from, best, p);
        if side < 0 || (side == 0 && distance(from, p) > distance(from, best)) {
            best = p;
        }
    }
    Some(best)
}

fn distance(a: Point, b: Point) -> i64 {
    (i64::from(a.x) - i64::from(b.x)).abs() + (i64::from(a.y) - i64::from(b.y)).abs()
}

/// A list is a corner list as document 01 has it exactly if it is the corner
/// list of its own points.
pub fn is_corner_list(list: &[Point]) -> bool {
    corner_list(list) == list
}

/// The columns from `left` to `right`, both in it; nothing if left > right.
#[derive(Clone, Copy, PartialEq, Eq, Debug)]
struct Span {
    left: i64,
    right: i64,
}

impl Span {
    fn count(self) -> i64 {
        (self.right - self.left + 1).max(0)
    }
}

/// The hull of a corner list, row by row.
pub struct HullRows {
    first_row: i32,
    spans: Vec<Span>,
}

impl HullRows {
    pub fn of_corners(corners: &[Point]) -> HullRows {
        let first_row = corners.iter().map(|c| c.y).min().unwrap_or(0);
        let end_row = corners.iter().map(|c| c.y + 1).max().unwrap_or(0);
        let widest = Span {
            left: least_x(corners),
            right: greatest_x(corners),
        };
        let mut rows = HullRows {
            first_row,
            spans: vec![widest; (end_row - first_row) as usize],
        };
        for (index, &from) in corners.iter().enumerate() {
            rows.cut(from, corners[(index + 1) % corners.len()]);
        }
        rows
    }

    /// Keeps what lies on the left of the edge or on it. With turns above 0 an
    /// edge to greater y bounds its rows on the right, one to smaller y on the
    /// left; an edge within a row bounds no row on either side.
    fn cut(&mut self, from: Point, to: Point) {
        let (low, high) = if from.y < to.y {
            (from, to)
        } else {
            (to, from)
        };
        let rise = i64::from(high.y) - i64::from(low.y);
        let run = i64::from(high.x) - i64::from(low.x);
        if rise == 0 {
            return;
        }
        for y in low.y..=high.y {
            let across = run * (i64::from(y) - i64::from(low.y));
            let span = &mut self.spans[(y - self.first_row) as usize];
            if from.y < to.y {
                let floor = i64::from(low.x) + across.div_euclid(rise);
                span.right = span.right.min(floor);
            } else {
                let ceiling = i64::from(low.x) - (-across).div_euclid(rise);
                span.left = span.left.max(ceiling);
            }
        }
    }

    /// The number of lattice points in the hull.
    pub fn count(&self) -> usize {
        self.spans.iter().map(|span| span.count() as usize).sum()
    }

    /// Whether p is in the hull.
    pub fn holds(&self, p: Point) -> bool {
        let row = i64::from(p.y) - i64::from(self.first_row);
        let Some(span) = usize::try_from(row).ok().and_then(|r| self.spans.get(r)) else {
            return false;
        };
        span.left <= i64::from(p.x) && i64::from(p.x) <= span.right
    }

    /// All lattice points of the hull in row order, one after the other.
    fn points(&self) -> impl Iterator<Item = Point> + '_ {
        (self.first_row..)
            .zip(&self.spans)
            .flat_map(|(y, span)| (span.left..=span.right).map(move |x| Point { x: x as i32, y }))
    }

    /// The points of the hull that are not among `others`, in row order, one
    /// after the other. `others` lie in the hull, strictly in row order.
    pub fn points_without<'a>(&'a self, others: &'a [Point]) -> impl Iterator<Item = Point> + 'a {
        let mut others = others.iter().copied().peekable();
        self.points()
            .filter(move |&p| others.next_if_eq(&p).is_none())
    }
}

fn least_x(points: &[Point]) -> i64 {
    points.iter().map(|p| i64::from(p.x)).min().unwrap_or(1)
}

fn greatest_x(points: &[Point]) -> i64 {
    points.iter().map(|p| i64::from(p.x)).max().unwrap_or(0)
}
