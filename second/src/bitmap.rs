//! Reading a plain bitmap (document 01, "Plain bitmap in, CSV out"): numbers 20
//! to 25 and the black pixels.

use crate::point::{point, Point};
use crate::refusal::{refusal, Refusal};

/// 20: "bitmap longer than 65,536 bytes".
pub const MOST_BYTES: usize = 65_536;

/// "Width and height are decimal, 1 to 1,024".
const GREATEST_SIZE: usize = 1024;

/// The black pixels of a sound bitmap as points, by rows from the top: "A black
/// pixel in column x and row y, both from 0, is the point (x, y)." Otherwise the
/// refusal: "Checks: 20, 21, then the first fault from the left".
pub fn black_pixels(bytes: &[u8]) -> Result<Vec<Point>, Refusal> {
    if bytes.len() > MOST_BYTES {
        return Err(refusal(20, MOST_BYTES));
    }
    if !bytes.starts_with(b"P1") {
        return Err(refusal(21, 0));
    }
    let mut header = Header { bytes, at: 2 };
    header.pass_white_space()?;
    let width = header.read_size()?;
    header.pass_white_space()?;
    let height = header.read_size()?;
    header.pass_one_white_space()?;
    read_pixels(bytes, header.at, width, height)
}

/// "White space is blank, TAB, LF, CR".
fn is_white_space(byte: u8) -> bool {
    matches!(byte, b' ' | b'\t' | b'\n' | b'\r')
}

/// "P1, white space, width, white space, height, one white space".
struct Header<'a> {
    bytes: &'a [u8],
    at: usize,
}

impl Header<'_> {
    fn next(&self) -> Option<u8> {
        self.bytes.get(self.at).copied()
    }

    /// "between the header's parts one or more"
    fn pass_white_space(&mut self) -> Result<(), Refusal> {
        self.pass_one_white_space()?;
        while matches!(self.next(), Some(byte) if is_white_space(byte) || byte == b'#') {
            self.pass_one_white_space()?;
        }
        Ok(())
    }

    /// One white space, or a comment: "In the header a comment, from # to the
    /// next LF or CR, is read as that one line end, which after the height is
    /// the white space that ends the header."
    ///
    /// 22: "the place is the first byte that can't continue a header, or the
    /// file length if it ended".
    fn pass_one_white_space(&mut self) -> Result<(), Refusal> {
        match self.next() {
            Some(b'#') => self.pass_comment(),
            Some(byte) if is_white_space(byte) => {
                self.at += 1;
                Ok(())
            }
            _ => Err(refusal(22, self.at)),
        }
    }

    fn pass_comment(&mut self) -> Result<(), Refusal> {
        let is_line_end = |&byte: &u8| byte == b'\n' || byte == b'\r';
        match self.bytes[self.at..].iter().position(is_line_end) {
            None => Err(refusal(22, self.bytes.len())),
            Some(length) => {
                self.at += length + 1;
                Ok(())
            }
        }
    }

    /// Width or height. 22: "the first digit of a size out of range". "A size is
    /// judged on its whole run of digits, no matter what follows or whether the
    /// file ends there."
    fn read_size(&mut self) -> Result<usize, Refusal> {
        let first_digit = self.at;
        while matches!(self.next(), Some(byte) if byte.is_ascii_digit()) {
            self.at += 1;
        }
        if self.at == first_digit {
            return Err(refusal(22, self.at));
        }
        match size_of(&self.bytes[first_digit..self.at]) {
            None => Err(refusal(22, first_digit)),
            Some(size) => Ok(size),
        }
    }
}

/// "decimal, 1 to 1,024, leading zeros allowed". The value stops growing once it
/// is out of range, so any number of digits can be judged.
fn size_of(digits: &[u8]) -> Option<usize> {
    let value = digits.iter().fold(0, |value, digit| {
        let longer = 10 * value + usize::from(digit - b'0');
        longer.min(GREATEST_SIZE + 1)
    });
    (1..=GREATEST_SIZE).contains(&value).then_some(value)
}

/// "then the pixels by rows from the top, 1 black and 0 white, white space
/// ignored between them".
fn read_pixels(
    bytes: &[u8],
    begin: usize,
    width: usize,
    height: usize,
) -> Result<Vec<Point>, Refusal> {
    let pixels = width * height;
    let mut black = Vec::new();
    let mut pixel = 0;
    for (place, &byte) in bytes.iter().enumerate().skip(begin) {
        if is_white_space(byte) {
            continue;
        }
        if pixel == pixels {
            // 25: "something other than white space after the last pixel".
            return Err(refusal(25, place));
        }
        match byte {
            b'0' => {}
            b'1' => black.push(point((pixel % width) as i32, (pixel / width) as i32)),
            // 23: "bad byte among the pixels", place: "that byte".
            _ => return Err(refusal(23, place)),
        }
        pixel += 1;
    }
    if pixel < pixels {
        // 24: "pixels end early", place: "file length".
        return Err(refusal(24, bytes.len()));
    }
    Ok(black)
}
