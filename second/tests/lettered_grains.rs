//! The lettered grains A to L and the two run-only examples of document 01.

mod common;

use common::*;
use second::calls::{Figures, Verdict};
use second::point::point;

type Points<'a> = &'a [(i32, i32)];

/// All calls on one grain, with rooms that are just enough.
fn check(grain: Points, ordered: Points, corners: Points, missing: Points) {
    let lengths = [grain, corners, missing].map(|result| 2 * result.len());
    let (answer, rooms) = report(&list(grain), lengths);
    assert_eq!(number_and_place(answer), (0, 0));
    assert_eq!(answer.points, grain.len());
    assert_eq!(answer.corners, corners.len());
    assert_eq!(answer.missing, missing.len());
    let expected = match missing {
        [] => (Verdict::Yes, point(0, 0)),
        [(x, y), ..] => (Verdict::No, point(*x, *y)),
    };
    assert_eq!((answer.verdict, answer.first_missing), expected);
    assert_eq!(rooms, [ordered, corners, missing].map(list));

    let (answer, rooms) = verdict(&list(grain), [lengths[0] + 3, lengths[1] + 3]);
    assert_eq!((answer.verdict, answer.first_missing), expected);
    assert_eq!(
        (answer.points, answer.corners),
        (grain.len(), corners.len())
    );
    assert_eq!(rooms[0], room_with(lengths[0] + 3, ordered));
    assert_eq!(rooms[1], room_with(lengths[1] + 3, corners));

    let (answer, again) = hull(&list(grain), [lengths[0] + 3, lengths[1] + 3]);
    assert_eq!(
        (answer.points, answer.corners),
        (grain.len(), corners.len())
    );
    assert_eq!(again, rooms);

    let (answer, ordered_room) = order(&list(grain), lengths[0] + 3);
    assert_eq!((answer.number, answer.points), (0, grain.len()));
    assert_eq!(ordered_room, rooms[0]);
    check_figures(grain, ordered, corners, missing);
}

fn check_figures(grain: Points, ordered: Points, corners: Points, missing: Points) {
    let mut ordered_room = room(2 * ordered.len() + 1);
    let mut corner_room = room(2 * corners.len() + 1);
    let figures = second::calls::figures(&list(grain), &mut ordered_room, &mut corner_room);
    assert_eq!(ordered_room, room_with(2 * ordered.len() + 1, ordered));
    assert_eq!(corner_room, room_with(2 * corners.len() + 1, corners));
    match figures {
        Figures::None => assert!(grain.is_empty()),
        Figures::Refused(_) => panic!("a sound grain is refused"),
        Figures::Doubles { centroid, solidity } => {
            let count = grain.len() as f64;
            let sum_x: i32 = grain.iter().map(|p| p.0).sum();
            let sum_y: i32 = grain.iter().map(|p| p.1).sum();
            assert_eq!(centroid.x, f64::from(sum_x) / count);
            assert_eq!(centroid.y, f64::from(sum_y) / count);
            assert_eq!(solidity, count / (grain.len() + missing.len()) as f64);
            assert_eq!(solidity == 1.0, missing.is_empty());
        }
    }
}

#[test]
fn a_to_f() {
    check(&[], &[], &[], &[]);
    check(&[(5, 5)], &[(5, 5)], &[(5, 5)], &[]);
    let c = [(0, 0), (1, 4)];
    check(&c, &c, &c, &[]);
    let d = [(0, 0), (2, 4)];
    check(&d, &d, &d, &[(1, 2)]);
    let e = [(0, 0), (1, 0), (2, 0)];
    check(&e, &e, &[(0, 0), (2, 0)], &[]);
    let f = [(0, 0), (1, 0), (0, 1)];
    check(&f, &f, &f, &[]);
}

#[test]
fn g_to_i() {
    let g = [(0, 0), (3, 0), (0, 3)];
    let missing = [(1, 0), (2, 0), (0, 1), (1, 1), (2, 1), (0, 2), (1, 2)];
    check(&g, &g, &g, &missing);
    let h = [(0, 1), (1, 0), (2, 1), (1, 2)];
    let ordered = [(1, 0), (0, 1), (2, 1), (1, 2)];
    check(&h, &ordered, &[(1, 0), (2, 1), (1, 2), (0, 1)], &[(1, 1)]);
    let i = [(0, 0), (2, 1), (1, 2)];
    check(&i, &i, &i, &[(1, 1)]);
}

#[test]
fn the_order_of_the_input_does_not_matter() {
    let g = [(0, 3), (3, 0), (0, 0)];
    let ordered = [(0, 0), (3, 0), (0, 3)];
    let missing = [(1, 0), (2, 0), (0, 1), (1, 1), (2, 1), (0, 2), (1, 2)];
    check(&g, &ordered, &ordered, &missing);
}

#[test]
fn j_to_l() {
    let corners = list(&[(0, 0), (2, 1), (1, 2)]);
    let (answer, points) = rebuild(&corners, &[], 11);
    assert_eq!((answer.number, answer.place, answer.points), (0, 0, 4));
    assert_eq!(points, room_with(11, &[(0, 0), (1, 1), (2, 1), (1, 2)]));

    let (answer, points) = rebuild(&list(&[(0, 0), (1, 2), (2, 1)]), &[], 11);
    assert_eq!((answer.number, answer.place, answer.points), (8, 0, 0));
    assert_eq!(points, room(11));

    let corners = list(&[(0, 0), (3, 0), (0, 3)]);
    let (answer, points) = rebuild(&corners, &list(&[(3, 0)]), 30);
    assert_eq!((answer.number, answer.place, answer.points), (10, 0, 0));
    assert_eq!(points, room(30));
}

#[test]
fn run_only() {
    let (answer, rooms) = report(&list(&[(0, 0), (0, 0)]), [9, 9, 9]);
    assert_eq!(number_and_place(answer), (4, 1));
    assert_eq!(answer.verdict, Verdict::Declined);
    assert_eq!(rooms, [room(9), room(9), room(9)]);

    let far = list(&[(-8192, -8192), (8191, 8191)]);
    let (answer, rooms) = report(&far, [4, 4, 2 * 16_382]);
    assert_eq!((answer.number, answer.missing), (0, 16_382));
    assert_eq!(answer.first_missing, point(-8191, -8191));
    let all: Vec<i32> = (-8191..=8190).flat_map(|n| [n, n]).collect();
    assert_eq!(rooms[2], all);
}
