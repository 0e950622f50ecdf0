//! Rebuild: its numbers at their exact edges, their order, and Rebuild as the
//! inverse of Report.

mod common;

use common::*;
use second::calls;
use second::point::{numbers_of, points_of, Point};
use second::random::Random;
use std::collections::HashSet;

const G: [(i32, i32); 3] = [(0, 0), (3, 0), (0, 3)];

fn check(corners: &[i32], missing: &[i32], length: usize, expected: (u32, usize)) {
    let (answer, points) = rebuild(corners, missing, length);
    assert_eq!(number_and_place(answer), expected);
    if expected.0 != 0 {
        assert_eq!(answer.points, 0);
        assert_eq!(points, room(length));
    }
}

#[test]
fn numbers_1_to_3() {
    check(&[0, 0, 1], &[], 20, (1, 0));
    check(&list(&G), &[1], 20, (1, 0));
    // 1 for either list before 2, 3, 8.
    check(&many(4097), &[1], 0, (1, 0));
    check(&many(4097), &[], 0, (2, 0));
    check(&many(4096), &[], 0, (8, 0));
    let mut far = many(4097);
    far[0] = 9000;
    check(&far, &[], 0, (2, 0));
    check(&list(&[(0, 0), (8192, 0)]), &list(&[(0, 9000)]), 0, (3, 1));
    check(&list(&[(0, -8193), (8192, 0)]), &[], 0, (3, 0));
    check(&list(&G), &list(&[(1, 0), (1, 9000)]), 0, (3, 1));
    // 3 for a missing point before 8.
    check(&list(&[(3, 0), (0, 0)]), &list(&[(1, 9000)]), 0, (3, 0));
}

#[test]
fn number_8_no_corner_list() {
    check(&[], &[], 0, (0, 0));
    check(&list(&[(4, 4)]), &[], 2, (0, 0));
    check(&list(&[(0, 0), (1, 4)]), &[], 4, (0, 0));
    for no_corner_list in [
        &[(1, 4), (0, 0)][..],
        &[(1, 4), (1, 4)],
        &[(3, 0), (0, 3), (0, 0)],
        &[(0, 0), (0, 3), (3, 0)],
        &[(0, 0), (1, 0), (3, 0), (0, 3)],
        &[(0, 0), (1, 0), (2, 0)],
        &[(0, 0), (3, 0), (0, 3), (0, 0)],
        &[(0, 0), (3, 0), (3, 0), (0, 3)],
        &[(0, 0), (3, 0), (0, 3), (0, 0), (3, 0), (0, 3)],
        &[(0, -10), (6, 8), (-10, -3), (10, -3), (-6, 8)],
        &[(0, 0), (4, 0), (1, 1), (0, 4)],
    ] {
        check(&list(no_corner_list), &[], 400, (8, 0));
        // 8 before 9.
        let out_of_order = list(&[(1, 1), (0, 0)]);
        check(&list(no_corner_list), &out_of_order, 400, (8, 0));
    }
}

#[test]
fn numbers_9_and_10() {
    check(&list(&G), &list(&[(1, 0), (1, 0)]), 20, (9, 1));
    check(
        &list(&G),
        &list(&[(1, 0), (2, 0), (1, 0), (0, 0)]),
        20,
        (9, 2),
    );
    check(&list(&G), &list(&[(0, 1), (1, 0)]), 20, (9, 1));
    // 9 before 10, though the outside point stands first.
    check(&list(&G), &list(&[(-1, 0), (0, 1), (1, 0)]), 20, (9, 2));
    check(&list(&G), &list(&[(1, 0), (3, 0), (2, 2)]), 20, (10, 1));
    check(&list(&G), &list(&[(1, 0), (2, 2), (0, 3)]), 20, (10, 1));
    check(&list(&G), &list(&[(1, 0), (0, 4)]), 20, (10, 1));
    check(&list(&G), &list(&[(0, -1)]), 20, (10, 0));
    check(&list(&G), &list(&[(1, 0), (1, 1), (1, 2)]), 14, (0, 0));
    check(&[], &list(&[(0, 0)]), 20, (10, 0));
    check(&[], &list(&[(0, 0), (0, 0)]), 20, (9, 1));
    check(&[], &[0], 20, (1, 0));
    check(&[], &list(&[(0, 0), (8192, 0)]), 20, (3, 1));
    // 10 before 11 and 12.
    let all = [(-8192, -8192), (8191, -8192), (8191, 8191), (-8192, 8191)];
    check(&list(&all), &list(&[(8191, 8191)]), 0, (10, 0));
}

#[test]
fn numbers_11_and_12() {
    let square = |width: i32, height: i32| {
        let (x, y) = (width - 1, height - 1);
        list(&[(0, 0), (x, 0), (x, y), (0, y)])
    };
    check(&square(64, 64), &[], 8192, (0, 0));
    check(&square(64, 64), &[], 8191, (12, 0));
    check(&square(17, 241), &[], 20_000, (11, 0));
    check(&square(17, 241), &[], 0, (11, 0));
    check(&square(17, 241), &list(&[(1, 0)]), 8192, (0, 0));
    check(&square(17, 241), &list(&[(1, 0)]), 8190, (12, 0));
    let all = [(-8192, -8192), (8191, -8192), (8191, 8191), (-8192, 8191)];
    check(&list(&all), &[], 0, (11, 0));
    check(&list(&G), &[], 20, (0, 0));
    check(&list(&G), &[], 19, (12, 0));
    // The missing list may be longer than 4,096.
    let inside: Vec<i32> = (0..100 * 100).flat_map(|n| [n % 100, n / 100]).collect();
    let corners = square(100, 100);
    let are_corners: HashSet<Point> = points_of(&corners).into_iter().collect();
    let missing: Vec<Point> = points_of(&inside)
        .into_iter()
        .filter(|p| !are_corners.contains(p))
        .collect();
    check(&corners, &numbers_of(&missing), 8, (0, 0));
    check(&corners, &numbers_of(&missing[4092..]), 8192, (0, 0));
    check(&corners, &numbers_of(&missing[4093..]), 8192, (11, 0));
}

/// Report, and then Rebuild: the points in row order again. Rebuild, and then
/// Report: the corners and missing points again.
#[test]
fn rebuild_is_the_inverse_of_report() {
    let mut random = Random::new(7);
    for _ in 0..4000 {
        let side = 1 + random.below(9);
        let count = 1 + random.below(side * side);
        let mut grain: Vec<Point> = Vec::new();
        for _ in 0..count {
            let p = Point {
                x: random.between(-4, side as i32),
                y: random.between(-4, side as i32),
            };
            if !grain.contains(&p) {
                grain.push(p);
            }
        }
        let (first, rooms) = report(&numbers_of(&grain), [500, 500, 500]);
        assert_eq!(first.number, 0);
        let corners = &rooms[1][..2 * first.corners];
        let missing = &rooms[2][..2 * first.missing];
        let (answer, points) = rebuild(corners, missing, 500);
        assert_eq!((answer.number, answer.points), (0, grain.len()));
        assert_eq!(points[..2 * grain.len()], rooms[0][..2 * grain.len()]);

        rebuild_some(&mut random, corners, grain.len() + first.missing);
    }
}

/// Corners with some other missing points: Report gives them back.
fn rebuild_some(random: &mut Random, corners: &[i32], hull_points: usize) {
    let mut all = vec![0; 2 * hull_points];
    let whole = calls::rebuild(corners, &[], &mut all);
    assert_eq!((whole.number, whole.points), (0, hull_points));
    let are_corners = points_of(corners);
    let missing: Vec<Point> = points_of(&all)
        .into_iter()
        .filter(|p| !are_corners.contains(p) && random.chance(1, 3))
        .collect();
    let (answer, points) = rebuild(corners, &numbers_of(&missing), 500);
    assert_eq!(answer.number, 0);
    let (again, rooms) = report(&points[..2 * answer.points], [500, 500, 500]);
    assert_eq!(again.missing, missing.len());
    assert_eq!(&rooms[1][..2 * again.corners], corners);
    assert_eq!(rooms[2][..2 * again.missing], numbers_of(&missing));
}
