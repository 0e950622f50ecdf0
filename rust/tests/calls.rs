//! The calls through the archive: document 01's lettered grains, a refusal of every number, rooms that read as before, pictures and texts.
use grain::*;

/// What stands in a room before a call.
const FILL: i32 = 77_777;

fn room(pairs: usize) -> Vec<i32> {
    vec![FILL; 2 * pairs]
}

fn refusal(number: u32, place: usize) -> Refusal {
    Refusal { number, place }
}

/// Corners, first missing point and missing points of a grain, by Report in rooms of one pair more than it needs.
fn reported(list: &[i32]) -> (Vec<i32>, Option<(i32, i32)>, Vec<i32>) {
    let (mut ordered, mut corners, mut missing) =
        (room(list.len() / 2 + 1), room(list.len() / 2 + 1), room(20));
    let report = report(list, &mut ordered, &mut corners, &mut missing).unwrap();
    assert_eq!(report.points, list.len() / 2);
    assert!(ordered[2 * report.points..].iter().all(|n| *n == FILL));
    assert!(corners[2 * report.corners..].iter().all(|n| *n == FILL));
    assert!(missing[2 * report.missing..].iter().all(|n| *n == FILL));
    corners.truncate(2 * report.corners);
    missing.truncate(2 * report.missing);

    let mut points = room(report.points);
    assert_eq!(rebuild(&corners, &missing, &mut points), Ok(report.points));
    assert_eq!(points, ordered[..2 * report.points]);
    (corners, report.first_missing, missing)
}

#[test]
fn lettered_grains() {
    let grains: [(&[i32], &[i32], &[i32]); 9] = [
        (&[], &[], &[]),
        (&[5, 5], &[5, 5], &[]),
        (&[0, 0, 1, 4], &[0, 0, 1, 4], &[]),
        (&[0, 0, 2, 4], &[0, 0, 2, 4], &[1, 2]),
        (&[0, 0, 1, 0, 2, 0], &[0, 0, 2, 0], &[]),
        (&[0, 0, 1, 0, 0, 1], &[0, 0, 1, 0, 0, 1], &[]),
        (
            &[0, 0, 3, 0, 0, 3],
            &[0, 0, 3, 0, 0, 3],
            &[1, 0, 2, 0, 0, 1, 1, 1, 2, 1, 0, 2, 1, 2],
        ),
        (
            &[0, 1, 1, 0, 2, 1, 1, 2],
            &[1, 0, 2, 1, 1, 2, 0, 1],
            &[1, 1],
        ),
        (&[0, 0, 2, 1, 1, 2], &[0, 0, 2, 1, 1, 2], &[1, 1]),
    ];
    for (list, corners, missing) in grains {
        let first = missing.first().map(|x| (*x, missing[1]));
        assert_eq!(reported(list), (corners.to_vec(), first, missing.to_vec()));
    }
}

#[test]
fn order_hull_verdict() {
    let list = [2, 4, 0, 0];
    let (mut ordered, mut corners) = (room(3), room(3));
    assert_eq!(order(&list, &mut ordered), Ok(2));
    assert_eq!(ordered, [0, 0, 2, 4, FILL, FILL]);
    assert_eq!(
        hull(&list, &mut ordered, &mut corners),
        Ok(Hull {
            points: 2,
            corners: 2
        })
    );
    assert_eq!(corners, [0, 0, 2, 4, FILL, FILL]);
    let verdict = verdict(&list, &mut ordered, &mut corners).unwrap();
    assert_eq!(
        verdict,
        Verdict {
            points: 2,
            corners: 2,
            first_missing: Some((1, 2))
        }
    );
}

#[test]
fn rows() {
    let list = [0, 0, 3, 0, 1, 2];
    assert_eq!(row(&list, 0), [0, 0, 3, 0]);
    assert_eq!(row_ends(&list, 1), (2, 2));
    assert_eq!(row(&list, 2), [1, 2]);
    assert_eq!(row(&[3, 0, 0, 0], 0), [0; 0]);
    assert_eq!(row_ends(&list, i32::MIN), (0, 0));
    assert_eq!(row_ends(&list, i32::MAX), (3, 3));
}

#[test]
fn figures_of_grains() {
    let (mut ordered, mut corners) = (room(8), room(8));
    let of =
        |list: &[i32], ordered: &mut [i32], corners: &mut [i32]| figures(list, ordered, corners);
    assert_eq!(of(&[], &mut ordered, &mut corners), Ok(None));
    let one = Figures {
        centroid: (-5.0, 7.0),
        solidity: 1.0,
    };
    assert_eq!(of(&[-5, 7], &mut ordered, &mut corners), Ok(Some(one)));
    let chipped = Figures {
        centroid: (1.0, 2.0),
        solidity: 2.0 / 3.0,
    };
    assert_eq!(
        of(&[0, 0, 2, 4], &mut ordered, &mut corners),
        Ok(Some(chipped))
    );
    assert_eq!(of(&[0], &mut ordered, &mut corners), Err(refusal(1, 0)));
}

#[test]
fn refusals_of_lists_leave_the_rooms() {
    let many: Vec<i32> = (0..4097).flat_map(|i| [i % 100, i / 100]).collect();
    let cases: [(&[i32], [usize; 3], Refusal); 7] = [
        (&[1, 2, 3], [9, 9, 9], refusal(1, 0)),
        (&many, [9, 9, 9], refusal(2, 0)),
        (&[0, 0, 8192, 0, 0, 0], [9, 9, 9], refusal(3, 1)),
        (&[0, 0, 1, 1, 0, 0], [9, 9, 9], refusal(4, 2)),
        (&[0, 0, 3, 0, 0, 3], [2, 9, 9], refusal(5, 0)),
        (&[0, 0, 3, 0, 0, 3], [3, 2, 9], refusal(6, 0)),
        (&[0, 0, 3, 0, 0, 3], [3, 3, 6], refusal(7, 0)),
    ];
    for (list, rooms, expected) in cases {
        let [mut ordered, mut corners, mut missing] = rooms.map(room);
        assert_eq!(
            report(list, &mut ordered, &mut corners, &mut missing),
            Err(expected)
        );
        for (lent, pairs) in [
            (ordered, rooms[0]),
            (corners, rooms[1]),
            (missing, rooms[2]),
        ] {
            assert_eq!(lent, room(pairs));
        }
    }
}

#[test]
fn refusals_of_rebuild() {
    let square: &[i32] = &[0, 0, 3, 0, 3, 3, 0, 3];
    let large: &[i32] = &[0, 0, 100, 0, 100, 100, 0, 100];
    let cases: [(&[i32], &[i32], usize, Refusal); 8] = [
        (square, &[1], 16, refusal(1, 0)),
        (square, &[1, 1, 9999, 0], 16, refusal(3, 1)),
        (&[0, 0, 1, 2, 2, 1], &[], 16, refusal(8, 0)),
        (square, &[2, 1, 1, 1], 16, refusal(9, 1)),
        (square, &[1, 1, 3, 3], 16, refusal(10, 1)),
        (&[], &[0, 0], 16, refusal(10, 0)),
        (large, &[], 16, refusal(11, 0)),
        (square, &[1, 1], 14, refusal(12, 0)),
    ];
    for (corners, missing, pairs, expected) in cases {
        let mut points = room(pairs);
        assert_eq!(rebuild(corners, missing, &mut points), Err(expected));
        assert_eq!(points, room(pairs));
    }
}

#[test]
fn pictures_and_texts() {
    let ring = b"P1\n3 3\n111\n101\n111\n";
    let text: &[u8] = b"kind,x,y\r\ncorner,0,0\r\ncorner,2,0\r\ncorner,2,2\r\ncorner,0,2\r\nmissing,1,1\r\ntotal,8,1\r\n";
    let mut list = [FILL; LIST_LENGTH];
    assert_eq!(
        read_picture(ring, &mut list),
        Ok(Picture {
            points: 8,
            width: 3,
            height: 3
        })
    );
    assert_eq!(list[..16], [0, 0, 1, 0, 2, 0, 0, 1, 2, 1, 0, 2, 1, 2, 2, 2]);
    assert!(list[16..].iter().all(|n| *n == FILL));
    assert_eq!(read_picture(&ring[..10], &mut list), Err(refusal(24, 10)));

    let mut out = Box::new([0; TEXT_LENGTH]);
    assert_eq!(respond(ring, &mut out), text);
    assert_eq!(respond(&ring[..10], &mut out), b"refused,24,10\r\n");
    assert_eq!(
        write_report(
            &[0, 0, 2, 0, 2, 2, 0, 2],
            &[1, 1],
            8,
            &mut out[..text.len()]
        ),
        Some(text)
    );
    assert_eq!(
        write_report(
            &[0, 0, 2, 0, 2, 2, 0, 2],
            &[1, 1],
            8,
            &mut out[..text.len() - 1]
        ),
        None
    );
    assert_eq!(
        write_refused(refusal(22, 4), &mut out[..]),
        Some(&b"refused,22,4\r\n"[..])
    );
}
