//! Sound bitmap files of all sizes, and those that only their number of black or
//! missing pixels declines.

use super::{grains, outlines, round};
use crate::bitmap::MOST_BYTES;
use crate::point::{point, Point};
use crate::random::Random;
use std::collections::HashSet;

/// The pixels of a picture by rows from the top, true for black.
pub struct Picture {
    width: usize,
    height: usize,
    black: Vec<bool>,
}

fn picture_of(width: usize, height: usize, points: &[Point]) -> Picture {
    let points: HashSet<Point> = points.iter().copied().collect();
    let all = grains::rectangle(width, height);
    Picture {
        width,
        height,
        black: all.iter().map(|p| points.contains(p)).collect(),
    }
}

/// A picture of this size: all black, all white, of random density, or a shape
/// with a few pixels knocked out.
pub fn some_picture(random: &mut Random, width: usize, height: usize) -> Picture {
    let pixels = width * height;
    match random.below(6) {
        0 => picture_of(width, height, &grains::rectangle(width, height)),
        1 => picture_of(width, height, &[]),
        2..=3 => {
            let count = random.below(pixels + 1).min(random.size(pixels + 1));
            let grain = grains::random_grain(random, count, width, height);
            picture_of(width, height, &grain)
        }
        _ => {
            let mut shape = grains::filled_shape(random, width.min(height));
            let count = random.below(4);
            grains::knock_out(random, &mut shape, count);
            picture_of(width, height, &shape)
        }
    }
}

impl Picture {
    /// One row a line, as most programs write it.
    pub fn plain_pixels(&self, line_end: &[u8]) -> Vec<u8> {
        let row = |row: &[bool]| [&digits(row)[..], line_end].concat();
        self.black.chunks(self.width).flat_map(row).collect()
    }

    /// White space anywhere, before the first pixel and after the last one too.
    fn scattered_pixels(&self, random: &mut Random) -> Vec<u8> {
        let mut bytes = Vec::new();
        let rare = 1 + random.below(12);
        for digit in digits(&self.black) {
            while random.chance(1, 1 + rare) {
                bytes.push(white_space(random));
            }
            bytes.push(digit);
        }
        for _ in 0..random.below(3) {
            bytes.push(white_space(random));
        }
        bytes
    }

    pub fn plain_file(&self, line_end: &[u8]) -> Vec<u8> {
        let (width, height) = (self.width.to_string(), self.height.to_string());
        [
            b"P1",
            line_end,
            width.as_bytes(),
            b" ",
            height.as_bytes(),
            line_end,
            &self.plain_pixels(line_end),
        ]
        .concat()
    }

    /// Comments, white space of all sorts and leading zeros wherever they may
    /// stand.
    pub fn dressed_file(&self, random: &mut Random) -> Vec<u8> {
        let mut bytes = dressed_header(random, &self.width.to_string(), &self.height.to_string());
        bytes.extend(self.scattered_pixels(random));
        bytes
    }
}

fn digits(pixels: &[bool]) -> Vec<u8> {
    pixels
        .iter()
        .map(|&black| if black { b'1' } else { b'0' })
        .collect()
}

pub fn white_space(random: &mut Random) -> u8 {
    random.pick(b" \t\n\r")
}

/// From # to the next LF or CR, that line end with it.
pub fn comment(random: &mut Random) -> Vec<u8> {
    let mut bytes = vec![b'#'];
    for _ in 0..random.below(8) {
        let byte = random.pick(b" \t#01259P-.\x00\xff\x0b\x0cab");
        bytes.push(byte);
    }
    bytes.push(random.pick(b"\n\r"));
    bytes
}

fn one_white_space(random: &mut Random) -> Vec<u8> {
    if random.chance(1, 3) {
        comment(random)
    } else {
        vec![white_space(random)]
    }
}

/// What stands between two parts of a header: one or more.
fn gap(random: &mut Random) -> Vec<u8> {
    let count = 1 + random.below(3);
    (0..count).flat_map(|_| one_white_space(random)).collect()
}

pub fn dressed_header(random: &mut Random, width: &str, height: &str) -> Vec<u8> {
    let zeros = |random: &mut Random| match random.below(12) {
        0..=7 => 0,
        8..=10 => 1 + random.below(4),
        _ => 30,
    };
    let mut bytes = b"P1".to_vec();
    for size in [width, height] {
        bytes.extend(gap(random));
        bytes.extend(vec![b'0'; zeros(random)]);
        bytes.extend(size.as_bytes());
    }
    bytes.extend(one_white_space(random));
    bytes
}

/// Sound pictures of all sizes from 1 to 40, with the usual line ends.
pub fn sound(random: &mut Random) -> Vec<u8> {
    let (width, height) = (random.size(40), random.size(40));
    let picture = some_picture(random, width, height);
    let line_end: &[u8] = random.pick(&[&b"\n"[..], b"\r\n", b"\r", b" ", b"\t"]);
    picture.plain_file(line_end)
}

pub fn small_picture(random: &mut Random, side: usize) -> Picture {
    let (width, height) = (1 + random.below(side), 1 + random.below(side));
    some_picture(random, width, height)
}

pub fn dressed(random: &mut Random) -> Vec<u8> {
    let picture = small_picture(random, 8);
    picture.dressed_file(random)
}

/// A few black pixels in the first and last rows and columns of a picture, which
/// is often as wide or as high as can be.
pub fn sides(random: &mut Random) -> Vec<u8> {
    let any = random.size(1024);
    let long = random.pick(&[any, 1023, 1024]);
    let short = random.size((1 + 3000 / long).min(1024));
    let (width, height) = random.pick(&[(long, short), (short, long)]);
    let mut at_ends = |length: usize| {
        let last = length as i32 - 1;
        let any = random.between(0, last);
        random.pick(&[0, 0, last, last, any])
    };
    let grain: Vec<Point> = (0..5)
        .map(|_| point(at_ends(width), at_ends(height)))
        .collect();
    let count = 1 + random.below(grain.len());
    picture_of(width, height, &grain[..count]).plain_file(b"\n")
}

/// A polygon with many corners: all its pixels, its rim or its corners alone.
pub fn round(random: &mut Random) -> Vec<u8> {
    let side = random.pick(&[50, 100, 180, 250]);
    let corners = grains::at_origin(round::many_corners(random, side));
    let grain = match random.below(3) {
        0 => grains::filled(&corners),
        1 => outlines::hollow(&grains::filled(&corners)),
        _ => corners,
    };
    let end = |f: fn(&Point) -> i32| grain.iter().map(f).max().unwrap_or(0) as usize + 1;
    let (right, below) = (random.below(3), random.below(3));
    picture_of(end(|p| p.x) + right, end(|p| p.y) + below, &grain).plain_file(b"\n")
}

/// Up to 200 by 200 pixels.
pub fn large(random: &mut Random) -> Vec<u8> {
    let (width, height) = (1 + random.below(200), 1 + random.below(200));
    let picture = some_picture(random, width, height);
    picture.plain_file(b"\n")
}

/// Nearly 65,536 pixels, with white space somewhere among them up to the longest
/// file that is read, or a byte less.
pub fn full(random: &mut Random) -> Vec<u8> {
    let (width, height) = random.pick(&[(1023, 64), (1024, 63), (64, 1023), (255, 256)]);
    let pixels = width * height;
    let count = match random.below(4) {
        0 => random.below(5),
        1 => random.pick(&[4096, 4097, pixels]),
        _ => random.size(4096),
    };
    let grain = grains::random_grain(random, count, width, height);
    let header = format!("P1 {width} {height}\n").into_bytes();
    let place = header.len() + random.below(pixels + 1);
    let mut bytes = [header, digits(&picture_of(width, height, &grain).black)].concat();
    let filling = MOST_BYTES - random.below(2) - bytes.len();
    bytes.splice(place..place, vec![white_space(random); filling]);
    bytes
}

/// About 4,096 black pixels, and some far above; other faults with them at times.
pub fn black(random: &mut Random) -> Vec<u8> {
    let (width, height) = random.pick(&[(64, 65), (70, 70), (100, 100), (1024, 5)]);
    let most = width * height;
    let count = match random.below(4) {
        0 => 4096,
        1 => 4097,
        2 => 4094 + random.below(6),
        _ => random.below(most + 1),
    };
    let grain = grains::random_grain(random, count, width, height);
    let mut bytes = picture_of(width, height, &grain).plain_file(b"\n");
    if random.chance(1, 5) {
        bytes.push(random.pick(b"0x "));
    }
    if random.chance(1, 8) {
        bytes.truncate(bytes.len() - 2);
    }
    bytes
}

/// About 8,192 missing points: a rectangle's corners and some further pixels.
pub fn missing(random: &mut Random) -> Vec<u8> {
    let (width, height) = random.pick(&[(100, 82), (82, 100), (91, 91), (128, 65), (1024, 9)]);
    let exact = width * height - 8192;
    let wanted = match random.below(4) {
        0 => exact,
        1 => exact + 1,
        2 => exact - 1,
        _ => exact + random.below(40),
    };
    let mut all = grains::rectangle(width, height);
    let is_corner =
        |p: &Point| (p.x == 0 || p.x == width as i32 - 1) && (p.y == 0 || p.y == height as i32 - 1);
    random.shuffle(&mut all);
    all.sort_by_key(|p| !is_corner(p));
    all.truncate(wanted.max(4));
    picture_of(width, height, &all).plain_file(b"\n")
}
