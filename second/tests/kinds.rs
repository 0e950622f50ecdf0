//! The kinds of generated requests: repeatable, met for every call that they can
//! reach, as large as matters, and what their names say.

use second::form::{Answer, Call, Outcome, Request};
use second::generate::{Requests, KINDS};
use second::point::{points_of, turn, Point, HIGHEST, LOWEST};
use second::quick::{corner_list, HullRows};
use std::collections::HashSet;

fn of_kind(name: &str, places: u64) -> Vec<Request> {
    let requests = Requests::new(8, Some(name)).unwrap();
    requests.at(0..places).map(|made| made.request).collect()
}

/// The lists of a kind of lists, as points.
fn grains(name: &str, places: u64) -> Vec<Vec<Point>> {
    of_kind(name, places)
        .into_iter()
        .filter_map(|request| match request {
            Request::Report { list, .. } => Some(points_of(&list)),
            _ => None,
        })
        .collect()
}

#[test]
fn requests_are_repeatable() {
    for kind in std::iter::once(None).chain(KINDS.iter().map(|kind| Some(kind.name))) {
        let lines = |seed, places| -> Vec<String> {
            let made = Requests::new(seed, kind).unwrap();
            made.at(places).map(|made| made.request.line()).collect()
        };
        let some = lines(5, 0..4);
        assert_eq!(some, [lines(5, 0..1), lines(5, 1..4)].concat());
        assert_ne!(some, lines(6, 0..4), "{kind:?}");
    }
    assert!(Requests::new(1, Some("no such kind")).is_none());
}

/// Every place has one request for each call, all kinds are met, and each call is
/// declined with every number that document 01 has for it, and with no other.
#[test]
fn every_kind_and_every_number_of_every_call() {
    let mut kinds = HashSet::new();
    let mut numbers: Vec<HashSet<u32>> = vec![HashSet::new(); Call::ALL.len()];
    let calls = Call::ALL.iter().cycle();
    for (made, &call) in Requests::new(3, None).unwrap().at(0..2000).zip(calls) {
        kinds.insert(made.kind.name);
        assert_eq!(made.request.call(), call);
        if let Outcome::Refused(number) = made.request.answer().outcome() {
            numbers[call as usize].insert(number);
        }
    }
    assert_eq!(kinds.len(), KINDS.len());
    for (call, numbers) in Call::ALL.iter().zip(numbers) {
        let expected: Vec<u32> = match call {
            Call::Order => (1..=5).collect(),
            Call::Hull | Call::Verdict | Call::Figures => (1..=6).collect(),
            Call::Report => (1..=7).collect(),
            Call::RowEnds | Call::Row => vec![],
            Call::Rebuild => (1..=3).chain(8..=12).collect(),
            Call::Picture => [2, 7].into_iter().chain(20..=25).collect(),
        };
        assert_eq!(numbers, expected.into_iter().collect(), "{call:?}");
    }
    let reached = |kind| -> Vec<Call> { Requests::new(3, Some(kind)).unwrap().calls().collect() };
    assert_eq!(reached("rooms").len(), 5);
    assert_eq!(reached("row"), [Call::RowEnds, Call::Row]);
}

/// Of the grains of some kinds: the most points, corners, missing points that are
/// listed, and rows.
#[test]
fn large_grains() {
    let (mut points, mut corners, mut missing, mut rows) = (0, 0, 0, 0);
    for name in ["many-corners", "large-rooms", "count-edge", "extremes"] {
        for request in of_kind(name, 40) {
            let Answer::Report {
                number: 0, rooms, ..
            } = request.answer()
            else {
                continue;
            };
            let [ordered, corner_list, missing_list] = rooms.map(|room| points_of(&room));
            points = points.max(ordered.len());
            corners = corners.max(corner_list.len());
            missing = missing.max(missing_list.len());
            rows = rows.max(ordered[ordered.len() - 1].y - ordered[0].y + 1);
        }
    }
    assert!(points == 4096 && missing > 15_000 && rows > 15_000);
    assert!(corners > 60, "{corners}");
    let round = grains("many-corners", 100);
    let corners = round.iter().map(|grain| corner_list(grain).len()).max();
    assert!(corners > Some(2250), "{corners:?}");
}

/// Rooms of large results that are one pair too small, exact, and one number more.
#[test]
fn rooms_around_the_exact_size() {
    let mut met = HashSet::new();
    for request in of_kind("large-rooms", 250) {
        let Request::Report { list, missing, .. } = request else {
            continue;
        };
        let grain = points_of(&list);
        let hull = HullRows::of_corners(&corner_list(&grain));
        let exact = 2 * (hull.count() - grain.len());
        if exact > 2000 {
            met.insert(missing.length as i64 - exact as i64);
        }
    }
    assert!(
        [-2, -1, 0, 1, 2].iter().all(|off| met.contains(off)),
        "{met:?}"
    );
}

/// The numbers of a Rebuild's missing list and of its result.
#[test]
fn large_rebuilds() {
    let (mut longest, mut results) = (0, HashSet::new());
    for name in ["rebuild-long", "rebuild-count"] {
        for request in of_kind(name, 60) {
            let answer = request.answer();
            let Request::Rebuild { missing, .. } = request else {
                panic!("no Rebuild");
            };
            longest = longest.max(missing.len() / 2);
            if let Answer::Rebuild {
                number: 0, points, ..
            } = answer
            {
                results.insert(points);
            }
        }
    }
    assert!(longest > 15_000 && results.contains(&4095) && results.contains(&4096));
}

#[test]
fn large_pictures() {
    let mut lengths = HashSet::new();
    let mut totals = HashSet::new();
    for name in [
        "bitmap-long",
        "bitmap-full",
        "bitmap-black",
        "bitmap-missing",
    ] {
        for request in of_kind(name, 60) {
            let Answer::Picture { output } = request.answer() else {
                panic!("no picture");
            };
            let text = String::from_utf8(output).unwrap();
            let last = text.lines().last().unwrap();
            totals.extend(
                last.strip_prefix("total,")
                    .unwrap_or(last)
                    .split(',')
                    .map(str::to_string),
            );
            totals.insert(last.to_string());
            if let Request::Picture { bytes } = request {
                lengths.insert(bytes.len());
            }
        }
    }
    assert!((65_535..=65_538).all(|length| lengths.contains(&length)));
    for met in [
        "4096",
        "8192",
        "8191",
        "refused,2,0",
        "refused,7,0",
        "refused,20,65536",
    ] {
        assert!(totals.contains(met), "{met}");
    }
}

#[test]
fn grains_are_what_their_kind_says() {
    let hull_of = |grain: &[Point]| HullRows::of_corners(&corner_list(grain));
    let lacks = |grain: &Vec<Point>| hull_of(grain).count() - grain.len();
    let chipped = grains("chipped", 200);
    assert!(chipped.iter().filter(|grain| lacks(grain) > 0).count() > 140);
    for grain in grains("slivers", 200) {
        let corners = corner_list(&grain);
        let twice_area: i64 = (2..corners.len())
            .map(|n| turn(corners[0], corners[n - 1], corners[n]))
            .sum();
        assert!((1..=24).contains(&twice_area), "{grain:?}");
    }
    for grain in grains("lines", 100) {
        assert!(corner_list(&grain).len() <= 2);
    }
    for grain in grains("whole-range", 100) {
        for end in [LOWEST, HIGHEST] {
            assert!(grain.iter().any(|p| p.x == end) && grain.iter().any(|p| p.y == end));
        }
    }
    for grain in grains("balanced", 100) {
        let sum = |f: fn(&Point) -> i32| grain.iter().map(f).sum::<i32>();
        assert!(sum(|p| p.x) == 0 || sum(|p| p.y) == 0);
    }
    let hollow = grains("hollow", 100);
    assert!(hollow.iter().any(|grain| lacks(grain) > 5000));
}

/// The kinds that only have one number, or one of a few.
#[test]
fn faults_are_what_their_kind_says() {
    for (kind, numbers) in [
        ("odd-length", &[1][..]),
        ("too-many", &[1, 2]),
        ("repeats", &[4]),
        ("large-repeats", &[4, 3]),
        ("aliases", &[3, 4, 7, 0]),
        ("rebuild-aliases", &[3, 0, 8, 9, 10, 12]),
        ("rebuild-long-corners", &[2, 1, 3, 8]),
    ] {
        let mut met = 0;
        for request in of_kind(kind, 60) {
            let number = match request.answer().outcome() {
                Outcome::Refused(number) => number,
                _ => 0,
            };
            assert!(numbers.contains(&number), "{kind} {number}");
            met += usize::from(number == numbers[0]);
        }
        assert!(met > 15, "{kind} {met}");
    }
}

/// Every byte is met among the pictures of that kind, and more than one picture is
/// sound.
#[test]
fn every_byte() {
    let mut bytes_met = HashSet::new();
    let mut sound = 0;
    for request in of_kind("bitmap-every-byte", 4000) {
        sound += usize::from(request.answer().outcome() == Outcome::Accepted);
        if let Request::Picture { bytes } = request {
            bytes_met.extend(bytes);
        }
    }
    assert_eq!(bytes_met.len(), 256);
    assert!(sound > 100);
}
