//! The quick method held to the definition, on random small grains and on thin
//! ones.

mod common;

use second::definition;
use second::point::{numbers_of, point, turn, Point};
use second::random::Random;
use second::way::Way;

/// All that either way can be asked about one grain.
fn check(grain: &[Point]) {
    let ordered = Way::Definition.row_order(grain);
    assert_eq!(ordered, Way::Quick.row_order(grain));
    let corners = Way::Definition.corner_list(grain);
    assert_eq!(corners, Way::Quick.corner_list(grain));
    let missing = Way::Definition.missing_points(&ordered, &corners);
    assert_eq!(missing, Way::Quick.missing_points(&ordered, &corners));
    for way in [Way::Definition, Way::Quick] {
        assert_eq!(way.missing_count(&ordered, &corners), missing.len());
        let first = way.first_missing(&ordered, &corners);
        assert_eq!(first, missing.first().copied());
        let hull_count = grain.len() + missing.len();
        assert_eq!(way.hull_count(&corners), hull_count);
        assert_eq!(way.rebuilt_points(&corners, &missing), ordered);
        assert!(way.is_corner_list(&corners));
    }
}

/// The hull of the corners is the hull of the grain, by the definition, in a box
/// with a margin around the grain.
fn check_margin(grain: &[Point]) {
    let corners = definition::corner_list(grain);
    let missing = definition::hull_points_without(grain, grain);
    for y in -3..11 {
        for x in -3..11 {
            let p = point(x, y);
            let expected = grain.contains(&p) || missing.contains(&p);
            assert_eq!(definition::in_hull(grain, p), expected);
            assert_eq!(definition::in_hull(&corners, p), expected);
            let outside = Way::Quick.first_outside(&corners, &[p]);
            assert_eq!(outside.is_none(), expected);
        }
    }
}

fn random_grain(random: &mut Random, most: usize, width: i32, height: i32) -> Vec<Point> {
    let mut grain = Vec::new();
    for _ in 0..random.below(most + 1) {
        let p = point(random.between(0, width - 1), random.between(0, height - 1));
        if !grain.contains(&p) {
            grain.push(p);
        }
    }
    grain
}

#[test]
fn on_small_grains() {
    let mut random = Random::new(1);
    for round in 0..40_000 {
        let (width, height) = (random.between(1, 8), random.between(1, 8));
        let grain = random_grain(&mut random, 12, width, height);
        check(&grain);
        if round % 20 == 0 {
            check_margin(&grain);
        }
    }
}

#[test]
fn on_dense_grains() {
    let mut random = Random::new(2);
    for _ in 0..2000 {
        let (width, height) = (random.between(1, 5), random.between(1, 5));
        let most = (2 * width * height) as usize;
        let grain = random_grain(&mut random, most, width, height);
        check(&grain);
    }
}

#[test]
fn on_thin_grains() {
    let mut random = Random::new(3);
    for _ in 0..10_000 {
        let (width, height) = random.pick(&[(1, 60), (60, 1), (2, 40), (40, 2), (3, 30), (30, 30)]);
        let grain = random_grain(&mut random, 4, width, height);
        check(&grain);
    }
    for steps in 1..12 {
        for (across, along) in [(1, 1), (2, 1), (-1, 2), (-3, 2), (1, 0), (0, 1), (4, -2)] {
            let line: Vec<Point> = (0..steps).map(|n| point(n * across, n * along)).collect();
            check(&line);
            check(&[line[0], line[line.len() - 1]][..steps.min(2) as usize]);
        }
    }
}

/// All 512 grains in a square of 3 by 3.
#[test]
fn on_every_grain_of_nine_places() {
    for set in 0..512 {
        let grain: Vec<Point> = (0..9)
            .filter(|place| set >> place & 1 == 1)
            .map(|place| point(place % 3, place / 3))
            .collect();
        check(&grain);
    }
}

/// Lists in any order, with repeats: both ways tell corner lists from others.
#[test]
fn on_corner_lists() {
    let mut random = Random::new(4);
    let mut right = 0;
    for _ in 0..60_000 {
        let count = random.below(7);
        let side = random.between(1, 7);
        let list: Vec<Point> = (0..count)
            .map(|_| point(random.between(0, side), random.between(0, side)))
            .collect();
        let expected = definition::is_corner_list(&list);
        assert_eq!(Way::Quick.is_corner_list(&list), expected, "{list:?}");
        right += usize::from(expected);
    }
    assert!(right > 10_000);
}

/// Large grains have no definition to be held to in reasonable time; the corner
/// list is checked by its turns, and a count by the points of every row.
#[test]
fn large_grains_are_sound() {
    let mut random = Random::new(5);
    for side in [70, 500, 16_384] {
        let mut grain: Vec<Point> = (0..4096)
            .map(|_| point(random.between(0, side - 1), random.between(0, side - 1)))
            .collect();
        grain.sort();
        grain.dedup();
        let corners = Way::Quick.corner_list(&grain);
        assert!(definition::is_corner_list(&corners));
        for (index, &from) in corners.iter().enumerate() {
            let to = corners[(index + 1) % corners.len()];
            assert!(grain.iter().all(|&p| turn(from, to, p) >= 0));
        }
        check_area(&corners);
        assert_eq!(numbers_of(&grain).len(), 2 * grain.len());
    }
}

/// Pick's formula on a hull with area: lattice points = area + boundary / 2 + 1.
fn check_area(corners: &[Point]) {
    let (mut twice_area, mut boundary) = (0, 0);
    for (index, &from) in corners.iter().enumerate() {
        let to = corners[(index + 1) % corners.len()];
        twice_area += turn(point(0, 0), from, to);
        boundary += common_divisor(i64::from(to.x - from.x), i64::from(to.y - from.y));
    }
    let expected = (twice_area + boundary + 2) / 2;
    assert_eq!(Way::Quick.hull_count(corners) as i64, expected);
}

fn common_divisor(a: i64, b: i64) -> i64 {
    if b == 0 {
        a.abs()
    } else {
        common_divisor(b, a % b)
    }
}
