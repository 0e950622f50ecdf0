//! Sound lists of many shapes, in rooms that are enough, for Order, Hull, Verdict,
//! Report and Figures.

use super::rooms::{enough, room};
use super::traps::telling_count;
use super::{grains, outlines, round};
use crate::form::{Call, Request, Room};
use crate::point::{numbers_of, point, Point, MOST_POINTS};
use crate::quick::{corner_list, HullRows};
use crate::random::Random;

/// A list and the three rooms; a call over lists is lent those that it has.
pub struct Lent {
    pub list: Vec<i32>,
    /// The ordered, the corner and the missing list.
    pub rooms: [Room; 3],
}

impl Lent {
    pub fn request(self, call: Call) -> Request {
        let list = self.list;
        let [ordered, corners, missing] = self.rooms;
        match call {
            Call::Order => Request::Order { list, ordered },
            Call::Hull => Request::Hull {
                list,
                ordered,
                corners,
            },
            Call::Verdict => Request::Verdict {
                list,
                ordered,
                corners,
            },
            Call::Report => Request::Report {
                list,
                ordered,
                corners,
                missing,
            },
            _ => Request::Figures {
                list,
                ordered,
                corners,
            },
        }
    }
}

/// How many points each of the three rooms has to take.
pub type Needs = [usize; 3];

pub fn needs_of(grain: &[Point]) -> Needs {
    let corners = corner_list(grain);
    let hull_points = HullRows::of_corners(&corners).count();
    [grain.len(), corners.len(), hull_points - grain.len()]
}

pub fn lent(random: &mut Random, list: Vec<i32>, lengths: [usize; 3]) -> Lent {
    let rooms = lengths.map(|length| room(random, length));
    Lent { list, rooms }
}

fn with_enough_room(random: &mut Random, grain: &[Point]) -> Lent {
    let lengths = needs_of(grain).map(|need| enough(random, need));
    lent(random, numbers_of(grain), lengths)
}

/// A grain in any order, anywhere in range, in rooms that are enough.
fn anywhere(random: &mut Random, mut grain: Vec<Point>) -> Lent {
    grains::arrange(random, &mut grain);
    let grain = grains::moved(random, grain);
    with_enough_room(random, &grain)
}

pub fn small_random(random: &mut Random) -> Lent {
    let (width, height) = (1 + random.below(7), 1 + random.below(7));
    let count = random.below(13);
    let grain = grains::random_grain(random, count, width, height);
    anywhere(random, grain)
}

/// Nearly all points of a small box, or of a small polygon: many convex ones.
pub fn small_dense(random: &mut Random) -> Lent {
    let mut grain = if random.chance(1, 2) {
        grains::rectangle(1 + random.below(5), 1 + random.below(5))
    } else {
        grains::polygon(random, 5)
    };
    let count = random.below(3);
    grains::knock_out(random, &mut grain, count);
    anywhere(random, grain)
}

/// Numbers of points at which something may change.
pub fn every_count(random: &mut Random) -> Lent {
    let count = telling_count(random);
    let side = random.pick(&[65, 80, 300]);
    let grain = grains::random_grain(random, count, side, side);
    anywhere(random, grain)
}

pub fn large_random(random: &mut Random) -> Lent {
    let count = 13 + random.size(MOST_POINTS - 13);
    let side = |random: &mut Random| random.pick(&[4, 20, 70, 100, 300, 2000, 16_384]);
    let (width, height) = (side(random), side(random));
    let grain = grains::random_grain(random, count, width, height);
    anywhere(random, grain)
}

/// How far thin grains reach.
fn some_length(random: &mut Random) -> usize {
    random.pick(&[50, 50, 300, 2000, 16_383])
}

pub fn thin(random: &mut Random) -> Lent {
    let longest = some_length(random);
    let grain = grains::thin(random, longest);
    anywhere(random, grain)
}

pub fn slivers(random: &mut Random) -> Lent {
    let longest = some_length(random);
    let grain = outlines::sliver(random, longest);
    anywhere(random, grain)
}

pub fn gaps(random: &mut Random) -> Lent {
    let grain = outlines::gaps(random);
    anywhere(random, grain)
}

pub fn lines(random: &mut Random) -> Lent {
    let grain = outlines::line(random);
    anywhere(random, grain)
}

/// Most of these have far more missing points than any room takes.
pub fn extremes(random: &mut Random) -> Lent {
    let grain = grains::extreme(random);
    with_enough_room(random, &grain)
}

/// The hull is as wide and as high as the range.
pub fn whole_range(random: &mut Random) -> Lent {
    let mut grain = outlines::whole_range(random);
    grains::arrange(random, &mut grain);
    with_enough_room(random, &grain)
}

pub fn notches(random: &mut Random) -> Lent {
    let grain = grains::notched(random);
    anywhere(random, grain)
}

pub fn chipped(random: &mut Random) -> Lent {
    let side = random.pick(&[6, 10, 20, 64]);
    let grain = outlines::chipped(random, side);
    anywhere(random, grain)
}

pub fn hollow(random: &mut Random) -> Lent {
    let side = random.pick(&[6, 10, 20, 90]);
    let shape = grains::filled_shape(random, side);
    anywhere(random, outlines::hollow(&shape))
}

pub fn islands(random: &mut Random) -> Lent {
    let spread = random.pick(&[12, 40, 40, 140, 140, 1000, 16_000]);
    let grain = outlines::islands(random, spread);
    anywhere(random, grain)
}

/// Sums of coordinates that are 0, of which a centroid has to be made.
pub fn balanced(random: &mut Random) -> Lent {
    let mut grain = outlines::balanced(random);
    grains::arrange(random, &mut grain);
    with_enough_room(random, &grain)
}

fn knocked_shape(random: &mut Random, side: usize) -> Vec<Point> {
    let mut grain = grains::filled_shape(random, side);
    let count = random.below(5);
    grains::knock_out(random, &mut grain, count);
    grain
}

pub fn shapes(random: &mut Random) -> Lent {
    let grain = knocked_shape(random, 14);
    anywhere(random, grain)
}

pub fn large_shapes(random: &mut Random) -> Lent {
    let mut grain = knocked_shape(random, 70);
    grains::arrange(random, &mut grain);
    grain.truncate(MOST_POINTS);
    anywhere(random, grain)
}

/// Very many corners, and points between them at times.
pub fn many_corners(random: &mut Random) -> Lent {
    let mut grain = round::many_corners(random, 16_384);
    if random.chance(1, 2) {
        let inside = HullRows::of_corners(&corner_list(&grain));
        let further = random.pick(&grain);
        for _ in 0..random.below(20) {
            let (across, along) = (random.between(-9, 9), random.between(-9, 9));
            let p = point(further.x + across, further.y + along);
            if inside.holds(p) && !grain.contains(&p) {
                grain.push(p);
            }
        }
    }
    anywhere(random, grain)
}

pub fn input_order(random: &mut Random) -> Lent {
    let mut grain = grains::small(random);
    grains::arrange(random, &mut grain);
    with_enough_room(random, &grain)
}
