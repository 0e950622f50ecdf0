//! Plain bitmaps and the report program: the example byte for byte, numbers 20 to
//! 25 and then 2 and 7 at their exact edges, and every header rule.

use second::bitmap::black_pixels;
use second::point::point;
use second::program::output;

fn refused(bytes: &[u8], number: u32, place: usize) {
    let expected = format!("refused,{number},{place}\r\n");
    let shown = String::from_utf8_lossy(&bytes[..bytes.len().min(60)]);
    assert_eq!(output(bytes), expected, "{shown:?}");
}

/// The picture is sound and has this many black pixels.
fn sound(bytes: &[u8], black: usize) {
    let shown = String::from_utf8_lossy(&bytes[..bytes.len().min(60)]);
    assert_eq!(black_pixels(bytes).map(|b| b.len()), Ok(black), "{shown:?}");
}

#[test]
fn the_example() {
    let expected = "kind,x,y\r\ncorner,0,0\r\ncorner,2,0\r\ncorner,2,2\r\ncorner,0,2\r\n\
                    missing,1,1\r\ntotal,8,1\r\n";
    assert_eq!(output(b"P1\n3 3\n111\n101\n111\n"), expected);
}

#[test]
fn columns_and_rows() {
    let black = black_pixels(b"P1 3 2 001 100").unwrap();
    assert_eq!(black, [point(2, 0), point(0, 1)]);
    assert_eq!(output(b"P1 2 1 00"), "kind,x,y\r\ntotal,0,0\r\n");
    assert_eq!(
        output(b"P1 1 1 1"),
        "kind,x,y\r\ncorner,0,0\r\ntotal,1,0\r\n"
    );
}

/// A sound picture with white space after it up to this length.
fn of_length(length: usize) -> Vec<u8> {
    let mut bytes = b"P1\n1 1\n1".to_vec();
    bytes.resize(length, b'\n');
    bytes
}

#[test]
fn number_20_too_long() {
    sound(&of_length(65_536), 1);
    refused(&of_length(65_537), 20, 65_536);
    refused(&of_length(70_000), 20, 65_536);
    refused(&vec![b'x'; 65_537], 20, 65_536);
    refused(&vec![b'x'; 65_536], 21, 0);
}

#[test]
fn number_21_no_p1() {
    for bytes in [&b""[..], b"P", b"P4\n1 1\n1", b"p1 1 1 1", b" P1 1 1 1"] {
        refused(bytes, 21, 0);
    }
    refused(b"P#\n1 1 1 1", 21, 0);
    refused(b"#c\nP1 1 1 1", 21, 0);
}

#[test]
fn number_22_white_space() {
    refused(b"P1", 22, 2);
    refused(b"P11 1 1", 22, 2);
    refused(b"P1x", 22, 2);
    refused(b"P1 ", 22, 3);
    refused(b"P1 x", 22, 3);
    refused(b"P1 -1 1 1", 22, 3);
    refused(b"P1 +1 1 1", 22, 3);
    refused(b"P1\x0b1 1 1", 22, 2);
    refused(b"P1\x0c1 1 1", 22, 2);
    refused(b"P1 1", 22, 4);
    refused(b"P1 1x", 22, 4);
    refused(b"P1 1 ", 22, 5);
    refused(b"P1 1 x", 22, 5);
    refused(b"P1 1 1", 22, 6);
    refused(b"P1 1 1x", 22, 6);
    refused(b"P1 1 1.0 1", 22, 6);
    refused(b"P1 1,1 1", 22, 4);
    refused(b"P1 1 1\x00", 22, 6);
    for gap in [&b" "[..], b"\t", b"\n", b"\r", b"\r\n", b" \t\r\n  "] {
        sound(&[b"P1", gap, b"1", gap, b"1", gap, b"1", gap].concat(), 1);
    }
}

#[test]
fn number_22_comments() {
    sound(b"P1#c\n1 1 1", 1);
    sound(b"P1 #c\n#d\r1#\n1#\n1", 1);
    sound(b"P1\n# 1 2 3 # P1\n1 1 1", 1);
    sound(b"P1#\r\n1#\r\n1#\r\n1", 1);
    sound(b"P1 1 1#c\r1", 1);
    // A comment after a size ends its digits.
    sound(b"P1 1#c\n2 11", 2);
    // A comment that meets the end of the file.
    refused(b"P1#", 22, 3);
    refused(b"P1#abc", 22, 6);
    refused(b"P1 1#abc", 22, 8);
    refused(b"P1 1 1#1 1 1", 22, 12);
    refused(b"P1 #1\n", 22, 6);
    // After the white space that ends the header there are no comments.
    refused(b"P1 1 1 #c\n1", 23, 7);
    refused(b"P1 1 1#c\n#d\n1", 23, 9);
    refused(b"P1 2 1 1#c\n1", 23, 8);
    refused(b"P1 1 1 1#c\n", 25, 8);
    // Nothing is bad within a comment.
    sound(b"P1#\x00\xff\x0b#\n1 1 1", 1);
}

#[test]
fn number_22_sizes() {
    refused(b"P1 0 1 1", 22, 3);
    refused(b"P1 1 0 1", 22, 5);
    refused(b"P1 1025 1 1", 22, 3);
    refused(b"P1 1 1025 1", 22, 5);
    refused(b"P1   1025 1 1", 22, 5);
    refused(b"P1 0000 1 1", 22, 3);
    refused(b"P1 0001025 1 1", 22, 3);
    sound(b"P1 0001 00000000000000000000000000000000001 1", 1);
    let wide = [b"P1 1024 1 ".to_vec(), vec![b'1'; 1024]].concat();
    sound(&wide, 1024);
    let high = [b"P1 1 01024 ".to_vec(), vec![b'1'; 1024]].concat();
    sound(&high, 1024);
    // Judged on the whole run, whatever follows and wherever the file ends.
    refused(b"P1 0", 22, 3);
    refused(b"P1 0x", 22, 3);
    refused(b"P1 1025", 22, 3);
    refused(b"P1 1025x", 22, 3);
    refused(b"P1 1025#", 22, 3);
    refused(b"P1 1 0", 22, 5);
    refused(b"P1 1 1025x", 22, 5);
    refused(b"P1 0 0", 22, 3);
    refused(b"P1 4294967297 1 1", 22, 3);
    refused(b"P1 18446744073709551617 1 1", 22, 3);
    let zeros = [b"P1 ".to_vec(), vec![b'0'; 60_000], b"1 1 1".to_vec()].concat();
    sound(&zeros, 1);
    let nines = [b"P1 ".to_vec(), vec![b'9'; 60_000]].concat();
    refused(&nines, 22, 3);
    // The first fault from the left.
    refused(b"P1 0 x", 22, 3);
    refused(b"P1 1x0", 22, 4);
}

#[test]
fn numbers_23_to_25() {
    refused(b"P1 2 2 1121", 23, 9);
    refused(b"P1 2 2 x", 23, 7);
    refused(b"P1 2 2 11\x0b11", 23, 9);
    refused(b"P1 2 2 111", 24, 10);
    refused(b"P1 2 2 111 \n", 24, 12);
    refused(b"P1 2 2 ", 24, 7);
    refused(b"P1 1024 1024 1", 24, 14);
    refused(b"P1 2 2 11110", 25, 11);
    refused(b"P1 2 2 1111 \nx", 25, 13);
    refused(b"P1 2 2 1111#", 25, 11);
    refused(b"P1 2 2 1111 2", 25, 12);
    sound(b"P1 2 2 1111 \t\r\n", 4);
    sound(b"P1 2 2\n\n 1\n1\r1\t1", 4);
    // The first fault from the left.
    refused(b"P1 2 2 1x", 23, 8);
    refused(b"P1 2 2 1xy1111", 23, 8);
}

/// A rectangle with the first `black` pixels in row order black.
fn rectangle(width: usize, height: usize, black: usize) -> Vec<u8> {
    let mut bytes = format!("P1 {width} {height} ").into_bytes();
    bytes.extend((0..width * height).map(|n| if n < black { b'1' } else { b'0' }));
    bytes
}

#[test]
fn number_2_after_all_faults_of_the_file() {
    assert!(output(&rectangle(64, 65, 4096)).ends_with("total,4096,0\r\n"));
    refused(&rectangle(64, 65, 4097), 2, 0);
    let mut junk = rectangle(64, 65, 4097);
    junk.push(b'x');
    refused(&junk, 25, junk.len() - 1);
    junk.truncate(junk.len() - 2);
    refused(&junk, 24, junk.len());
}

#[test]
fn number_7_room_for_8192_missing_points() {
    // 128 x 65 = 8,320 lattice points, the last row with its right end black.
    let with = |black: usize| {
        let mut bytes = rectangle(128, 65, black - 2);
        let end = bytes.len();
        bytes[end - 1] = b'1';
        bytes[end - 128] = b'1';
        bytes
    };
    let text = output(&with(130));
    assert!(text.ends_with("total,130,8190\r\n"));
    let mut bytes = with(130);
    // Two pixels of the first row less, not at its ends.
    let first = bytes.len() - 128 * 65;
    bytes[first + 5] = b'0';
    bytes[first + 6] = b'0';
    let text = output(&bytes);
    assert!(text.ends_with("total,128,8192\r\n"));
    assert_eq!(
        text.lines()
            .filter(|line| line.starts_with("missing,"))
            .count(),
        8192
    );
    bytes[first + 7] = b'0';
    refused(&bytes, 7, 0);
}

/// A cut before the byte that is at fault leaves a file that only ends early,
/// or a sound one: at every byte of many damaged files.
#[test]
fn faults_and_cuts() {
    let file = b"P1#a\n 02 #b\r\t3#c\n1 0\n1\r\n01 1 ";
    for place in 0..file.len() {
        for byte in b"019P# \t\n\r\x0b\x0cx-\x00\xff" {
            let mut bytes = file.to_vec();
            bytes[place] = *byte;
            check_cut(&bytes);
            bytes.insert(place, *byte);
            check_cut(&bytes);
        }
    }
}

fn check_cut(bytes: &[u8]) {
    let Err(declined) = black_pixels(bytes) else {
        return;
    };
    if declined.place >= bytes.len() || declined.number == 21 {
        return;
    }
    let cut = black_pixels(&bytes[..declined.place]).map_err(|cut| (cut.number, cut.place));
    match declined.number {
        22 => assert_eq!(cut, Err((22, declined.place))),
        23 => assert_eq!(cut, Err((24, declined.place))),
        25 => assert!(cut.is_ok()),
        other => panic!("{other} has no byte at fault"),
    }
}
