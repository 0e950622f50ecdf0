//! Row and Row ends.

mod common;

use common::*;
use second::calls::{row, row_ends};

fn check(given: &[i32], y: i32, begin: usize, end: usize) {
    assert_eq!(row_ends(given, y), (begin, end));
    let part = row(given, y);
    assert_eq!(part, &given[2 * begin..2 * end]);
    // "the empty part at the place where they would stand"
    assert_eq!(part.as_ptr(), given[2 * begin..].as_ptr());
}

#[test]
fn a_list_in_row_order() {
    let given = list(&[(3, -1), (0, 2), (1, 2), (7, 2), (-5, 4)]);
    check(&given, -1, 0, 1);
    check(&given, 2, 1, 4);
    check(&given, 4, 4, 5);
    check(&given, 0, 1, 1);
    check(&given, 3, 4, 4);
    check(&given, -2, 0, 0);
    check(&given, 5, 5, 5);
    check(&given, i32::MIN, 0, 0);
    check(&given, i32::MAX, 5, 5);
    check(&[], 0, 0, 0);
}

#[test]
fn any_other_list() {
    check(&list(&[(1, 2), (0, 2)]), 2, 0, 0);
    check(&list(&[(0, 3), (0, 2)]), 5, 0, 0);
    check(&list(&[(0, 2), (0, 2)]), 2, 0, 0);
    check(&[0, 2, 1], 2, 0, 0);
    check(&[0, 2, 1], 9, 0, 0);
    check(&list(&[(0, 2), (8192, 2)]), 2, 0, 0);
    check(&list(&[(0, 2), (0, 8192)]), 2, 0, 0);
    check(&list(&[(0, -8193), (0, 2)]), 2, 0, 0);
    check(&list(&[(-8193, 2)]), 2, 0, 0);
    check(&list(&[(-8192, -8192), (8191, 8191)]), 8191, 1, 2);
}

#[test]
fn at_most_4096_points() {
    check(&many(4096), 63, 4032, 4096);
    check(&many(4096), 64, 4096, 4096);
    check(&many(4097), 63, 0, 0);
}
