//! Every row of the table of numbers for lists at its exact edge, the order
//! between them, and what stands in the rooms of a declined call.

mod common;

use common::*;
use second::calls::{figures, Figures, Verdict};
use second::point::point;
use second::refusal::refusal;

/// The number and the place that all five calls give; Order with its room alone,
/// Report with all three.
fn check_all(given: &[i32], lengths: [usize; 3], expected: (u32, usize)) {
    let (answer, rooms) = report(given, lengths);
    assert_eq!(number_and_place(answer), expected);
    if expected.0 != 0 {
        assert_eq!((answer.points, answer.corners, answer.missing), (0, 0, 0));
        assert_eq!(answer.verdict, Verdict::Declined);
        assert_eq!(answer.first_missing, point(0, 0));
        assert_eq!(rooms, lengths.map(room));
    }
    let two = [lengths[0], lengths[1]];
    let without_7 = if expected.0 == 7 { (0, 0) } else { expected };
    assert_eq!(number_and_place(hull(given, two).0), without_7);
    assert_eq!(number_and_place(verdict(given, two).0), without_7);
    let mut rooms = two.map(room);
    let [ordered, corners] = &mut rooms;
    match figures(given, ordered, corners) {
        Figures::Refused(declined) => {
            assert_eq!(declined, refusal(without_7.0, without_7.1));
            assert_eq!(rooms, two.map(room));
        }
        _ => assert_eq!(without_7.0, 0),
    }
    let without_6 = if expected.0 >= 6 { (0, 0) } else { expected };
    let (answer, ordered) = order(given, lengths[0]);
    assert_eq!(number_and_place(answer), without_6);
    if without_6.0 != 0 {
        assert_eq!(ordered, room(lengths[0]));
    }
}

const ENOUGH: [usize; 3] = [8192, 8192, 40_000];

#[test]
fn number_1_odd_length() {
    check_all(&[0], ENOUGH, (1, 0));
    check_all(&[0, 0, 1], ENOUGH, (1, 0));
    check_all(&[], ENOUGH, (0, 0));
    let mut given = many(4096);
    given.push(0);
    assert_eq!(given.len(), 8193);
    check_all(&given, ENOUGH, (1, 0));
    // 1 before 3, 4 and 5.
    check_all(&[9000, 0, 9000, 0, 1], [0, 0, 0], (1, 0));
}

#[test]
fn number_2_more_than_4096_points() {
    check_all(&many(4096), ENOUGH, (0, 0));
    check_all(&many(4097), ENOUGH, (2, 0));
    check_all(&many(4097), [0, 0, 0], (2, 0));
    // 2 before 3 and 4.
    let mut given = many(4097);
    given[0] = 8192;
    check_all(&given, ENOUGH, (2, 0));
    check_all(&vec![0; 2 * 4097], ENOUGH, (2, 0));
    check_all(&vec![0; 2 * 4096], ENOUGH, (4, 1));
}

#[test]
fn number_3_out_of_range() {
    check_all(&list(&[(8191, 8191)]), ENOUGH, (0, 0));
    check_all(&list(&[(-8192, -8192)]), ENOUGH, (0, 0));
    check_all(&list(&[(8192, 0)]), ENOUGH, (3, 0));
    check_all(&list(&[(0, 8192)]), ENOUGH, (3, 0));
    check_all(&list(&[(-8193, 0)]), ENOUGH, (3, 0));
    check_all(&list(&[(0, -8193)]), ENOUGH, (3, 0));
    check_all(&list(&[(i32::MIN, i32::MAX)]), ENOUGH, (3, 0));
    check_all(&list(&[(0, 0), (1, 1), (2, 8192)]), ENOUGH, (3, 2));
    check_all(&list(&[(0, 0), (8192, 1), (2, 8192)]), ENOUGH, (3, 1));
    // 3 before 4, wherever each of them stands.
    check_all(&list(&[(0, 0), (0, 0), (2, 8192)]), ENOUGH, (3, 2));
    check_all(&list(&[(9000, 0), (9000, 0)]), [0, 0, 0], (3, 0));
}

#[test]
fn number_4_repeats() {
    check_all(&list(&[(0, 0), (0, 0)]), ENOUGH, (4, 1));
    check_all(&list(&[(0, 0), (1, 0), (2, 0), (0, 0)]), ENOUGH, (4, 3));
    let twice = [(0, 0), (1, 0), (2, 0), (1, 0), (0, 0)];
    check_all(&list(&twice), ENOUGH, (4, 3));
    // 4 before 5.
    check_all(&list(&[(0, 0), (0, 0)]), [0, 0, 0], (4, 1));
    let mut given = many(4096);
    (given[8190], given[8191]) = (given[0], given[1]);
    check_all(&given, ENOUGH, (4, 4095));
}

#[test]
fn numbers_5_to_7_rooms() {
    // Grain G: 3 points, 3 corners, 7 missing points.
    let g = list(&[(0, 0), (3, 0), (0, 3)]);
    check_all(&g, [6, 6, 14], (0, 0));
    check_all(&g, [7, 7, 15], (0, 0));
    check_all(&g, [5, 6, 14], (5, 0));
    check_all(&g, [4, 6, 14], (5, 0));
    check_all(&g, [0, 0, 0], (5, 0));
    check_all(&g, [6, 5, 14], (6, 0));
    check_all(&g, [6, 5, 0], (6, 0));
    check_all(&g, [6, 6, 13], (7, 0));
    check_all(&g, [6, 6, 0], (7, 0));
    check_all(&[], [0, 0, 0], (0, 0));
    // Corners need no more than their own number.
    check_all(&list(&[(0, 0), (1, 0), (2, 0)]), [6, 4, 0], (0, 0));
    check_all(&list(&[(0, 0), (1, 0), (2, 0)]), [6, 3, 0], (6, 0));
    // 268 million missing points are counted and not listed.
    let all = [(-8192, -8192), (8191, -8192), (8191, 8191), (-8192, 8191)];
    check_all(&list(&all), [8, 8, 40_000], (7, 0));
}

#[test]
fn the_edges_of_document_01() {
    check_all(&many(4096), ENOUGH, (0, 0));
    check_all(&many(4097), ENOUGH, (2, 0));
    check_all(&vec![0; 8193], ENOUGH, (1, 0));
    for edge in [8191, -8192] {
        check_all(&list(&[(edge, 0)]), ENOUGH, (0, 0));
        check_all(&list(&[(0, edge)]), ENOUGH, (0, 0));
    }
    for edge in [8192, -8193] {
        check_all(&list(&[(edge, 0)]), ENOUGH, (3, 0));
        check_all(&list(&[(0, edge)]), ENOUGH, (3, 0));
    }
}
