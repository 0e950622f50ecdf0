//! Short ways to write lists and rooms in tests, and the calls with their rooms.
#![allow(dead_code)]

use second::calls::{self, Answer};
use second::point::{point, Point};

/// What a room holds before a call: numbers that are no result.
pub const BEFORE: i32 = 1_000_000;

pub fn list(points: &[(i32, i32)]) -> Vec<i32> {
    points.iter().flat_map(|&(x, y)| [x, y]).collect()
}

pub fn points(points: &[(i32, i32)]) -> Vec<Point> {
    points.iter().map(|&(x, y)| point(x, y)).collect()
}

pub fn room(length: usize) -> Vec<i32> {
    (BEFORE..).take(length).collect()
}

/// A room that begins with the result and else reads as before.
pub fn room_with(length: usize, result: &[(i32, i32)]) -> Vec<i32> {
    let mut room = room(length);
    let numbers = list(result);
    room[..numbers.len()].copy_from_slice(&numbers);
    room
}

/// Report with three rooms of these lengths, and the rooms afterwards.
pub fn report(list: &[i32], lengths: [usize; 3]) -> (Answer, [Vec<i32>; 3]) {
    let mut rooms = lengths.map(room);
    let [ordered, corners, missing] = &mut rooms;
    let answer = calls::report(list, ordered, corners, missing);
    (answer, rooms)
}

pub fn hull(list: &[i32], lengths: [usize; 2]) -> (Answer, [Vec<i32>; 2]) {
    let mut rooms = lengths.map(room);
    let [ordered, corners] = &mut rooms;
    let answer = calls::hull(list, ordered, corners);
    (answer, rooms)
}

pub fn verdict(list: &[i32], lengths: [usize; 2]) -> (Answer, [Vec<i32>; 2]) {
    let mut rooms = lengths.map(room);
    let [ordered, corners] = &mut rooms;
    let answer = calls::verdict(list, ordered, corners);
    (answer, rooms)
}

pub fn order(list: &[i32], length: usize) -> (Answer, Vec<i32>) {
    let mut ordered = room(length);
    (calls::order(list, &mut ordered), ordered)
}

pub fn rebuild(corners: &[i32], missing: &[i32], length: usize) -> (Answer, Vec<i32>) {
    let mut room = room(length);
    (calls::rebuild(corners, missing, &mut room), room)
}

pub fn number_and_place(answer: Answer) -> (u32, usize) {
    (answer.number, answer.place)
}

/// So many distinct points, in rows of 64.
pub fn many(count: usize) -> Vec<i32> {
    (0..count as i32).flat_map(|n| [n % 64, n / 64]).collect()
}
