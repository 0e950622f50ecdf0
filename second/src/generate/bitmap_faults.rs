//! Bitmap files with faults: damaged, cut, with bad sizes, too long.

use super::bitmaps::{comment, dressed_header, small_picture, some_picture, white_space};
use crate::bitmap::MOST_BYTES;
use crate::random::Random;

/// A byte deleted, replaced or inserted, or the file cut, anywhere in a small file;
/// at times a second time.
pub fn damaged(random: &mut Random) -> Vec<u8> {
    let picture = small_picture(random, 5);
    let mut bytes = picture.dressed_file(random);
    if bytes.len() > 80 || random.chance(1, 4) {
        bytes = picture.plain_file(b"\n");
    }
    damage(random, &mut bytes);
    if random.chance(1, 8) {
        damage(random, &mut bytes);
    }
    bytes
}

fn damage(random: &mut Random, bytes: &mut Vec<u8>) {
    let place = random.below(bytes.len() + 1);
    let other = random.pick(b"0123456789P1# \t\n\r\x0b\x0c-+.,ax\x00\x80\xff\xa0");
    let in_file = place < bytes.len();
    match random.below(4) {
        0 if in_file => {
            bytes.remove(place);
        }
        1 if in_file => bytes[place] = other,
        2 => bytes.insert(place, other),
        _ => bytes.truncate(place),
    }
}

/// Larger files, with a fault or white space where a program that takes many bytes at
/// a time begins or ends a part: some bytes about a multiple of 8, counted from the
/// file's start, from the first pixel or from the end.
pub fn parts(random: &mut Random) -> Vec<u8> {
    let (width, height) = (1 + random.below(80), 1 + random.below(20));
    let picture = some_picture(random, width, height);
    let line_end: &[u8] = random.pick(&[&b"\n"[..], b"", b"\r\n", b"  \t"]);
    let header = format!("P1 {width} {height}\n").into_bytes();
    let begin = random.pick(&[0, header.len()]);
    let mut bytes = [header, picture.plain_pixels(line_end)].concat();
    for _ in 0..random.below(3) {
        let away = 8 * random.below(bytes.len() / 8 + 1) + random.below(3);
        let place = random.pick(&[
            (begin + away).saturating_sub(1),
            bytes.len().saturating_sub(away),
        ]);
        let place = place.min(bytes.len());
        match random.below(4) {
            0 => bytes.insert(place, white_space(random)),
            1 => bytes.insert(place, random.pick(b"012#x\x00\x80\xb1")),
            2 if place < bytes.len() => bytes[place] = random.pick(b"01 2/x\x0b\xff"),
            _ => bytes.truncate(place.max(bytes.len().saturating_sub(70))),
        }
    }
    bytes
}

/// Any byte, all 256, anywhere in a very small file; those next to a byte that has a
/// meaning more often.
pub fn every_byte(random: &mut Random) -> Vec<u8> {
    let files: [&[u8]; 3] = [
        b"P1 2 1 10",
        b"P1\n#c\r02\t1#\n0 1\n",
        b"P1\r\n1 2\r\n1\r\n0",
    ];
    let mut bytes = random.pick(&files).to_vec();
    let any = random.below(256) as u8;
    let next = random.pick(b"019P#\t\n\r ") - 1 + 2 * random.below(2) as u8;
    let byte = random.pick(&[any, next]);
    let place = random.below(bytes.len());
    if random.chance(1, 2) {
        bytes[place] = byte;
    } else {
        bytes.insert(place + random.below(2), byte);
    }
    bytes
}

/// A comment anywhere in a file, where it may stand and where not, with its line
/// end or without.
pub fn comments(random: &mut Random) -> Vec<u8> {
    let picture = small_picture(random, 4);
    let mut bytes = match random.below(3) {
        0 => picture.dressed_file(random),
        1 => picture.plain_file(b"\r\n"),
        _ => picture.plain_file(b"\n"),
    };
    let most = random.pick(&[12, bytes.len() + 1]);
    let place = random.below(most).min(bytes.len());
    let mut inserted = comment(random);
    if random.chance(1, 4) {
        inserted.pop();
    }
    bytes.splice(place..place, inserted);
    bytes
}

/// Widths and heights in and out of range, with any number of digits, and any
/// continuation.
pub fn sizes(random: &mut Random) -> Vec<u8> {
    let width = some_size(random);
    let height = some_size(random);
    let mut bytes = match random.below(3) {
        0 => dressed_header(random, &width, &height),
        _ => format!("P1\n{width} {height}\n").into_bytes(),
    };
    let pixels = match (width.parse::<usize>(), height.parse::<usize>()) {
        (Ok(width), Ok(height)) => width.saturating_mul(height).min(1100),
        _ => 3,
    };
    let cut = random.below(bytes.len() + 1);
    match random.below(8) {
        0 => bytes.truncate(cut),
        1 => {
            bytes.pop();
        }
        2 => *bytes.last_mut().unwrap() = random.pick(b"x#-\x00"),
        3 => bytes.push(random.pick(b"x#2")),
        _ => bytes.extend((0..pixels).map(|_| random.pick(b"00000001"))),
    }
    bytes
}

fn some_size(random: &mut Random) -> String {
    let usual = [
        "0",
        "00",
        "1",
        "1",
        "1",
        "2",
        "01",
        "007",
        "1023",
        "1024",
        "01024",
        "1025",
        "1100",
        "2000",
        "9999",
        "10240",
        "65537",
        "4294967297",
        "18446744073709551617",
        "-1",
        "+1",
        "1.0",
        "x",
        "",
    ];
    match random.below(16) {
        0 => {
            let many = random.pick(&[10, 20, 1000]);
            "0".repeat(many) + random.pick(&usual)
        }
        1 => {
            let many = random.pick(&[5, 19, 20, 21, 1000]);
            random.pick(&["1", "9", "0"]).repeat(many)
        }
        _ => random.pick(&usual).to_string(),
    }
}

/// Files that end anywhere, and files that do not begin with P1.
pub fn ends(random: &mut Random) -> Vec<u8> {
    let starts: [&[u8]; 12] = [
        b"",
        b"P",
        b"P1",
        b"P4\n1 1\n1",
        b"p1\n1 1\n1",
        b" P1\n1 1\n1",
        b"#\nP1\n1 1\n1",
        b"P#\n1\n1 1\n1",
        b"P11 1 1",
        b"P1#",
        b"P1 1 1#",
        b"1P 1 1 1",
    ];
    if random.chance(1, 4) {
        return random.pick(&starts).to_vec();
    }
    let mut bytes = small_picture(random, 4).dressed_file(random);
    bytes.truncate(random.below(bytes.len() + 1));
    bytes
}

/// Junk after the picture, white space before it or not.
pub fn after(random: &mut Random) -> Vec<u8> {
    let mut bytes = small_picture(random, 6).dressed_file(random);
    for _ in 0..random.below(6) {
        bytes.push(white_space(random));
    }
    if random.chance(3, 4) {
        bytes.push(random.pick(b"01#2P\x00\xff\x0bx"));
    }
    for _ in 0..random.below(4) {
        bytes.push(random.pick(b" \n01#x"));
    }
    bytes
}

/// 65,535 to 65,538 bytes, or far more, filled up with white space, a comment,
/// leading zeros or pixels.
pub fn long(random: &mut Random) -> Vec<u8> {
    let length = MOST_BYTES - 1 + random.pick(&[0, 1, 1, 2, 2, 3, 4000]);
    let mut bytes = small_picture(random, 5).plain_file(b"\n");
    let (place, filling) = match random.below(4) {
        0 => (bytes.len(), b' '),
        1 => (3, b'0'),
        2 => {
            bytes.splice(2..2, *b"#");
            (3, b'c')
        }
        _ => {
            bytes = b"P1 1024 64\n".to_vec();
            (bytes.len(), b'0')
        }
    };
    let count = length - bytes.len();
    bytes.splice(place..place, vec![filling; count]);
    if random.chance(1, 4) {
        bytes[0] = b'Q';
    }
    bytes
}
