//! Lists with faults, and rooms of all lengths, for Order, Hull, Verdict, Report
//! and Figures.

use super::lists::{lent, needs_of, Lent};
use super::rooms::{almost_exact, any_length, enough, plausible_room};
use super::traps::{alias, first_middle_or_last, telling_count, too_many_points};
use super::{grains, outlines, round};
use crate::point::{numbers_of, Point, HIGHEST, LOWEST, MOST_POINTS};
use crate::random::Random;

/// Every length of one room or of all, and else enough.
pub fn rooms(random: &mut Random) -> Lent {
    let grain = grains::small(random);
    narrowed(random, &grain, any_length)
}

/// The lengths of one room or of all are chosen, the others are enough.
fn narrowed(random: &mut Random, grain: &[Point], chosen: fn(&mut Random, usize) -> usize) -> Lent {
    let mut lengths = needs_of(grain);
    let narrow = random.below(4);
    for (index, length) in lengths.iter_mut().enumerate() {
        *length = if narrow == 3 || narrow == index {
            chosen(random, *length)
        } else {
            enough(random, *length)
        };
    }
    lent(random, numbers_of(grain), lengths)
}

/// Many points, corners or missing points, and rooms that just hold them or just
/// do not.
pub fn large_rooms(random: &mut Random) -> Lent {
    let mut grain = match random.below(4) {
        0 => {
            let side = random.pick(&[140, 270, 16_384]);
            round::many_corners(random, side)
        }
        1 => outlines::line(random),
        2 => {
            let radius = random.pick(&[10, 40, 78, 140]);
            outlines::hollow(&grains::disc(random.between(10, radius)))
        }
        _ => outlines::chipped(random, 64),
    };
    grains::arrange(random, &mut grain);
    let grain = grains::moved(random, grain);
    narrowed(random, &grain, almost_exact)
}

/// Rooms that hold what could be results before the call.
pub fn plausible_rooms(random: &mut Random) -> Lent {
    let grain = grains::small(random);
    let rooms = needs_of(&grain).map(|need| {
        let length = random.pick(&[any_length, enough])(random, need);
        plausible_room(random, length)
    });
    let list = numbers_of(&grain);
    Lent { list, rooms }
}

/// One number too many or too few, at times with other faults.
pub fn odd_length(random: &mut Random) -> Lent {
    let grain = grains::small(random);
    let lengths = needs_of(&grain).map(|need| enough(random, need));
    let mut list = numbers_of(&grain);
    if random.chance(1, 2) {
        list.pop();
    } else {
        list.push(random.pick(&[0, 1, HIGHEST, HIGHEST + 1, i32::MIN, i32::MAX]));
    }
    lent(random, list, lengths)
}

/// 4,095 to 4,098 points, now and then with a repeat, a coordinate at the edge of
/// the range or an odd number more.
pub fn count_edge(random: &mut Random) -> Lent {
    let count = MOST_POINTS - 1 + random.below(4);
    let (width, height) = random.pick(&[(64, 65), (65, 65), (4100, 1), (1, 4100), (128, 128)]);
    let mut grain = grains::random_grain(random, count, width, height);
    grains::arrange(random, &mut grain);
    let mut grain = grains::moved(random, grain);
    let lengths = needs_of(&grain).map(|need| enough(random, need));
    if random.chance(1, 5) {
        let place = random.below(grain.len());
        grain[place] = grain[random.below(count)];
    }
    let mut list = numbers_of(&grain);
    if random.chance(1, 5) {
        put_at_range_edge(random, &mut list);
    }
    if random.chance(1, 5) {
        list.push(0);
    }
    lent(random, list, lengths)
}

/// More than 4,096 points, whatever else is wrong with them and in whatever rooms.
pub fn too_many(random: &mut Random) -> Lent {
    let count = too_many_points(random);
    let grain = grains::random_grain(random, count, 300, 300);
    let lengths = [grain.len(), 4, 4].map(|need| any_length(random, need));
    let mut list = numbers_of(&grain);
    if random.chance(1, 3) {
        put_at_range_edge(random, &mut list);
    }
    if random.chance(1, 4) {
        list.pop();
    }
    lent(random, list, lengths)
}

/// Coordinates just in and just out of range, x or y or both, at the first, a
/// middle or the last point.
pub fn range_edge(random: &mut Random) -> Lent {
    let grain = grains::small(random);
    let mut list = numbers_of(&grain);
    for _ in 0..1 + random.below(2) {
        put_at_range_edge(random, &mut list);
    }
    let lengths = [grain.len(); 3].map(|need| enough(random, need));
    lent(random, list, lengths)
}

fn put_at_range_edge(random: &mut Random, list: &mut [i32]) {
    let points = list.len() / 2;
    if points == 0 {
        return;
    }
    let place = first_middle_or_last(random, points);
    let coordinates = [
        LOWEST,
        LOWEST - 1,
        HIGHEST,
        HIGHEST + 1,
        LOWEST - 1,
        HIGHEST + 1,
        i32::MIN,
        i32::MAX,
        65_536,
    ];
    let which = random.below(3);
    if which != 0 {
        list[2 * place] = random.pick(&coordinates);
    }
    if which != 1 {
        list[2 * place + 1] = random.pick(&coordinates);
    }
}

/// Points out of range that could be taken for points in range, or for those that
/// are in the list too.
pub fn aliases(random: &mut Random) -> Lent {
    let mut grain = grains::small(random);
    for _ in 0..1 + random.below(2) {
        let place = first_middle_or_last(random, grain.len());
        let p = alias(random, grain[place]);
        if random.chance(1, 2) {
            grain[place] = p;
        } else {
            grain.insert(first_middle_or_last(random, grain.len() + 1), p);
        }
    }
    let lengths = [grain.len(); 3].map(|need| enough(random, need));
    lent(random, numbers_of(&grain), lengths)
}

/// One or more points equal to an earlier one.
pub fn repeats(random: &mut Random) -> Lent {
    let mut grain = grains::small(random);
    for _ in 0..1 + random.below(2) {
        let repeated = random.pick(&grain);
        let place = match random.below(4) {
            0 => 0,
            1 => 1,
            2 => grain.len(),
            _ => random.below(grain.len() + 1),
        };
        grain.insert(place, repeated);
    }
    let lengths = [grain.len(); 3].map(|need| enough(random, need));
    lent(random, numbers_of(&grain), lengths)
}

/// Some equal points near each other or far apart in long lists, one of them more
/// than twice at times, and at times a point out of range before, between or
/// behind them.
pub fn large_repeats(random: &mut Random) -> Lent {
    let count = 2 + telling_count(random).min(MOST_POINTS - 2);
    let mut grain = grains::random_grain(random, count, 100, 100);
    grains::arrange(random, &mut grain);
    let mut list = numbers_of(&grains::moved(random, grain));
    if random.chance(1, 4) {
        put_at_range_edge(random, &mut list);
    }
    let mut place = first_middle_or_last(random, count);
    for _ in 0..1 + random.below(4) {
        let further = match random.below(3) {
            0 => 1,
            1 => count - 1,
            _ => 1 + random.below(count - 1),
        };
        let other = (place + further) % count;
        list.copy_within(2 * place..2 * place + 2, 2 * other);
        if random.chance(1, 2) {
            place = random.below(count);
        }
    }
    let lengths = [count; 3].map(|need| any_length(random, need));
    lent(random, list, lengths)
}

/// Several faults at once.
pub fn faults(random: &mut Random) -> Lent {
    let grain = grains::small(random);
    let lengths = needs_of(&grain).map(|need| any_length(random, need));
    let mut list = numbers_of(&grain);
    if random.chance(1, 2) {
        put_at_range_edge(random, &mut list);
    }
    if random.chance(1, 2) {
        let place = 2 * random.below(grain.len());
        let repeated = [list[place], list[place + 1]];
        let at = 2 * random.below(grain.len() + 1);
        list.splice(at..at, repeated);
    }
    if random.chance(1, 8) {
        list.pop();
    }
    lent(random, list, lengths)
}
