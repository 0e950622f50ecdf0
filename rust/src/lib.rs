//! The proved convexity columns of a grain report, for Rust on x86-64.
//!
//! A grain is a list of numbers x, y, x, y, ..; its points are counted, never its numbers. Every call takes every list and every room and ends, with an
//! answer or a [`Refusal`]. After an accepted call each room begins with its result and the rest of it reads as before; after a refusal every room
//! reads as before. `include/grain.h` has the words, the limits and the table of refusals.
//!
//! ```
//! let (mut ordered, mut corners, mut missing) = ([0; 8], [0; 8], [0; 8]);
//! let report = grain::report(&[0, 1, 1, 0, 2, 1, 1, 2], &mut ordered, &mut corners, &mut missing).unwrap();
//! assert_eq!(report.first_missing, Some((1, 1)));
//! assert_eq!(&corners[..2 * report.corners], &[1, 0, 2, 1, 1, 2, 0, 1]);
//! assert_eq!(&missing[..2 * report.missing], &[1, 1]);
//! ```
#![deny(missing_docs)]

mod archive;

/// At most so many points, or corners for [`rebuild`], are taken.
pub const MOST_POINTS: usize = 4096;
/// Numbers of a list of so many points.
pub const LIST_LENGTH: usize = 2 * MOST_POINTS;
/// Bytes that suffice for the text of any grain with at most 8,192 missing points.
pub const TEXT_LENGTH: usize = 253_979;

/// Why a call was declined: the number and the place of document 01's table.
#[derive(Clone, Copy, Debug, PartialEq, Eq)]
pub struct Refusal {
    /// 1 to 12; 20 to 25 for a picture.
    pub number: u32,
    /// The place of the fault, in points from the list's start; for a picture in bytes.
    pub place: usize,
}

/// What [`hull`] answers.
#[derive(Clone, Copy, Debug, PartialEq, Eq)]
pub struct Hull {
    /// How many points the grain has.
    pub points: usize,
    /// How many corners its hull has.
    pub corners: usize,
}

/// What [`verdict`] answers.
#[derive(Clone, Copy, Debug, PartialEq, Eq)]
pub struct Verdict {
    /// How many points the grain has.
    pub points: usize,
    /// How many corners its hull has.
    pub corners: usize,
    /// The first missing point; none exactly if the grain is convex.
    pub first_missing: Option<(i32, i32)>,
}

/// What [`report`] answers.
#[derive(Clone, Copy, Debug, PartialEq, Eq)]
pub struct Report {
    /// How many points the grain has.
    pub points: usize,
    /// How many corners its hull has.
    pub corners: usize,
    /// How many points are missing.
    pub missing: usize,
    /// The first missing point; none exactly if the grain is convex.
    pub first_missing: Option<(i32, i32)>,
}

/// What [`figures`] answers for a grain that is not empty.
#[derive(Clone, Copy, Debug, PartialEq)]
pub struct Figures {
    /// The sums of the coordinates, each divided by the number of points.
    pub centroid: (f64, f64),
    /// The number of points divided by the number of lattice points in the hull; 1.0 exactly if the grain is convex.
    pub solidity: f64,
}

/// What [`read_picture`] answers.
#[derive(Clone, Copy, Debug, PartialEq, Eq)]
pub struct Picture {
    /// How many pixels are black.
    pub points: usize,
    /// How many columns there are.
    pub width: usize,
    /// How many rows there are.
    pub height: usize,
}

fn accepted<T>(number: u32, place: usize, answer: T) -> Result<T, Refusal> {
    match number {
        0 => Ok(answer),
        _ => Err(Refusal { number, place }),
    }
}

fn first_missing(verdict: u32, x: i32, y: i32) -> Option<(i32, i32)> {
    (verdict == archive::NO).then_some((x, y))
}

/// The points of a list in row order, in `ordered`; how many there are. Numbers 1 to 5.
pub fn order(list: &[i32], ordered: &mut [i32]) -> Result<usize, Refusal> {
    let answer = archive::order(list, ordered);
    accepted(answer.number, answer.place, answer.points)
}

/// Where the points of row `y` begin and end in a list that is strictly in row order; for any other list 0 and 0.
pub fn row_ends(list: &[i32], y: i32) -> (usize, usize) {
    let answer = archive::row_ends(list, y);
    (answer.begin, answer.end)
}

/// The points of row `y`: the part of a list that is strictly in row order; for any other list the empty part at its start.
pub fn row(list: &[i32], y: i32) -> &[i32] {
    let (begin, end) = row_ends(list, y);
    &list[2 * begin..2 * end]
}

/// The points in row order and the corner list. Numbers 1 to 6.
pub fn hull(list: &[i32], ordered: &mut [i32], corners: &mut [i32]) -> Result<Hull, Refusal> {
    let answer = archive::hull(list, ordered, corners);
    let hull = Hull {
        points: answer.points,
        corners: answer.corners,
    };
    accepted(answer.number, answer.place, hull)
}

/// As [`hull`]; and is the grain convex? Numbers 1 to 6.
pub fn verdict(list: &[i32], ordered: &mut [i32], corners: &mut [i32]) -> Result<Verdict, Refusal> {
    let answer = archive::verdict(list, ordered, corners);
    let verdict = Verdict {
        points: answer.points,
        corners: answer.corners,
        first_missing: first_missing(answer.verdict, answer.x, answer.y),
    };
    accepted(answer.number, answer.place, verdict)
}

/// As [`verdict`]; and all missing points in row order. Numbers 1 to 7.
pub fn report(
    list: &[i32],
    ordered: &mut [i32],
    corners: &mut [i32],
    missing: &mut [i32],
) -> Result<Report, Refusal> {
    let answer = archive::report(list, ordered, corners, missing);
    let report = Report {
        points: answer.points,
        corners: answer.corners,
        missing: answer.missing,
        first_missing: first_missing(answer.verdict, answer.x, answer.y),
    };
    accepted(answer.number, answer.place, report)
}

/// From a corner list and missing points back to the points of the grain in row order, in `points`; how many there are. Numbers 1, 2, 3, 8 to 12.
pub fn rebuild(corners: &[i32], missing: &[i32], points: &mut [i32]) -> Result<usize, Refusal> {
    let answer = archive::rebuild(corners, missing, points);
    accepted(answer.number, answer.place, answer.points)
}

/// As [`hull`]; and centroid and solidity, none for the empty list. Numbers 1 to 6.
pub fn figures(
    list: &[i32],
    ordered: &mut [i32],
    corners: &mut [i32],
) -> Result<Option<Figures>, Refusal> {
    let answer = archive::figures(list, ordered, corners);
    let figures = Figures {
        centroid: (answer.x, answer.y),
        solidity: answer.solidity,
    };
    accepted(
        answer.number,
        answer.place,
        (answer.given == 1).then_some(figures),
    )
}

/// The black pixels of a plain PBM as points in row order, at the front of `list`. Numbers 20 to 25, and 2.
pub fn read_picture(bytes: &[u8], list: &mut [i32; LIST_LENGTH]) -> Result<Picture, Refusal> {
    let answer = archive::read_picture(bytes, list);
    let picture = Picture {
        points: answer.points,
        width: answer.width,
        height: answer.height,
    };
    accepted(answer.number, answer.place, picture)
}

/// The CSV text of a report, at the front of `text`; none if it does not fit.
pub fn write_report<'a>(
    corners: &[i32],
    missing: &[i32],
    points: usize,
    text: &'a mut [u8],
) -> Option<&'a [u8]> {
    match archive::write_report(corners, missing, points, text) {
        0 => None,
        length => Some(&text[..length]),
    }
}

/// The line of a declined picture, at the front of `text`; none if it does not fit.
pub fn write_refused(refusal: Refusal, text: &mut [u8]) -> Option<&[u8]> {
    match archive::write_refused(refusal.number, refusal.place, text) {
        0 => None,
        length => Some(&text[..length]),
    }
}

/// All that the report program writes for the bytes of a picture, at the front of `text`.
pub fn respond<'a>(bytes: &[u8], text: &'a mut [u8; TEXT_LENGTH]) -> &'a [u8] {
    let length = archive::respond(bytes, text);
    &text[..length]
}
