//! The second program: an independent implementation of document 01, written
//! from that document alone, against which the library is compared.
//!
//! - `point`: points, row order, turn, range, and lists of numbers.
//! - `definition`: hull, corners and missing points, word for word (slow).
//! - `quick`: the same by gift wrapping and row spans, for large grains.
//! - `way`: chooses between the two.
//! - `refusal`: the numbers and places for a declined call.
//! - `calls`: Order, Hull, Verdict, Report, Row, Row ends, Rebuild, Figures.
//! - `bitmap`: reading a plain PBM.
//! - `program`: the report program, from the bytes to the CSV.
//! - `form`: the request form and the answer form (see FORM.md).
//! - `random`, `generate`: seeded requests, by kind.
//! - `compare`, `counts`: this program's answers against those of another one.
//! - `ask`, `smaller`: another program asked, and small requests that show where it
//!   differs.

pub mod ask;
pub mod bitmap;
pub mod calls;
pub mod compare;
pub mod counts;
pub mod definition;
pub mod form;
pub mod generate;
pub mod point;
pub mod program;
pub mod quick;
pub mod random;
pub mod refusal;
pub mod smaller;
pub mod way;
