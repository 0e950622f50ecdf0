//! The report program: from the bytes of a bitmap to the whole CSV output
//! (document 01, "Plain bitmap in, CSV out").

use crate::bitmap::black_pixels;
use crate::calls::report;
use crate::point::{numbers_of, points_of, Point, MOST_POINTS};
use crate::refusal::{refusal, Refusal};

/// "It has room for 8,192 missing points."
pub const MISSING_ROOM: usize = 8192;

/// The whole output for the bytes of a bitmap file.
pub fn output(bytes: &[u8]) -> String {
    match findings(bytes) {
        Ok(findings) => csv(&findings),
        // "A declined picture gives one line and no heading: refused, number,
        // place."
        Err(declined) => format!("refused,{},{}\r\n", declined.number, declined.place),
    }
}

struct Findings {
    points: usize,
    corners: Vec<Point>,
    missing: Vec<Point>,
}

/// "Checks: 20, 21, then the first fault from the left, then 2, then 7."
fn findings(bytes: &[u8]) -> Result<Findings, Refusal> {
    let list = numbers_of(&black_pixels(bytes)?);
    let mut ordered_room = vec![0; 2 * MOST_POINTS];
    let mut corner_room = vec![0; 2 * MOST_POINTS];
    let mut missing_room = vec![0; 2 * MISSING_ROOM];
    let answer = report(
        &list,
        &mut ordered_room,
        &mut corner_room,
        &mut missing_room,
    );
    if answer.number != 0 {
        return Err(refusal(answer.number, answer.place));
    }
    Ok(Findings {
        points: answer.points,
        corners: points_of(&corner_room[..2 * answer.corners]),
        missing: points_of(&missing_room[..2 * answer.missing]),
    })
}

/// "It writes CSV (RFC 4180, CR LF line ends): a heading, each corner, each
/// missing point, and a total line with the number of points and of missing
/// points."
fn csv(findings: &Findings) -> String {
    let mut text = String::from("kind,x,y\r\n");
    for corner in &findings.corners {
        text += &format!("corner,{},{}\r\n", corner.x, corner.y);
    }
    for missing in &findings.missing {
        text += &format!("missing,{},{}\r\n", missing.x, missing.y);
    }
    text += &format!("total,{},{}\r\n", findings.points, findings.missing.len());
    text
}
