//! The request form and the answer form, both plain lines of decimal numbers
//! (FORM.md), and the answer of this program to a request.

use crate::calls::{self, Centroid, Figures, Verdict};
use crate::point::{point, Point};
use crate::program;
use crate::refusal::{refusal, Refusal};
use std::fmt::{self, Display, Write};

/// The calls, in the order of their numbers.
#[derive(Clone, Copy, PartialEq, Eq, PartialOrd, Ord, Hash, Debug)]
pub enum Call {
    Order,
    Hull,
    Verdict,
    Report,
    RowEnds,
    Row,
    Rebuild,
    Figures,
    Picture,
}

impl Call {
    pub const ALL: [Call; 9] = [
        Call::Order,
        Call::Hull,
        Call::Verdict,
        Call::Report,
        Call::RowEnds,
        Call::Row,
        Call::Rebuild,
        Call::Figures,
        Call::Picture,
    ];

    /// The name of the call, as document 01 has it.
    pub fn name(self) -> &'static str {
        match self {
            Call::Order => "Order",
            Call::Hull => "Hull",
            Call::Verdict => "Verdict",
            Call::Report => "Report",
            Call::RowEnds => "Row ends",
            Call::Row => "Row",
            Call::Rebuild => "Rebuild",
            Call::Figures => "Figures",
            Call::Picture => "Picture",
        }
    }
}

/// A room of `length` numbers that holds `first`, `first` + 1, and so on.
#[derive(Clone, Copy, PartialEq, Eq, Debug)]
pub struct Room {
    pub length: usize,
    pub first: i32,
}

impl Room {
    pub fn numbers(self) -> Vec<i32> {
        (0..self.length)
            .map(|index| self.first + index as i32)
            .collect()
    }

    /// Whether all numbers of the room are signed 32-bit numbers.
    fn fits(self) -> bool {
        self.length == 0 || self.length as u64 <= i32::MAX.abs_diff(self.first) as u64 + 1
    }
}

/// One call with all that is lent to it.
#[derive(Clone, PartialEq, Eq, Debug)]
pub enum Request {
    Order {
        list: Vec<i32>,
        ordered: Room,
    },
    Hull {
        list: Vec<i32>,
        ordered: Room,
        corners: Room,
    },
    Verdict {
        list: Vec<i32>,
        ordered: Room,
        corners: Room,
    },
    Report {
        list: Vec<i32>,
        ordered: Room,
        corners: Room,
        missing: Room,
    },
    RowEnds {
        list: Vec<i32>,
        y: i32,
    },
    Row {
        list: Vec<i32>,
        y: i32,
    },
    Rebuild {
        corners: Vec<i32>,
        missing: Vec<i32>,
        points: Room,
    },
    Figures {
        list: Vec<i32>,
        ordered: Room,
        corners: Room,
    },
    Picture {
        bytes: Vec<u8>,
    },
}

/// What a call answered. A room stands as its beginning up to the last number
/// that the call changed.
#[derive(Clone, PartialEq, Debug)]
pub enum Answer {
    Order {
        number: u32,
        place: usize,
        points: usize,
        ordered: Vec<i32>,
    },
    Hull {
        number: u32,
        place: usize,
        points: usize,
        corners: usize,
        rooms: [Vec<i32>; 2],
    },
    Verdict {
        number: u32,
        place: usize,
        points: usize,
        corners: usize,
        verdict: Verdict,
        first_missing: Point,
        rooms: [Vec<i32>; 2],
    },
    Report {
        number: u32,
        place: usize,
        points: usize,
        corners: usize,
        missing: usize,
        verdict: Verdict,
        first_missing: Point,
        rooms: [Vec<i32>; 3],
    },
    RowEnds {
        begin: usize,
        end: usize,
    },
    Row {
        part: Vec<i32>,
    },
    Rebuild {
        number: u32,
        place: usize,
        points: usize,
        room: Vec<i32>,
    },
    Figures {
        figures: Figures,
        rooms: [Vec<i32>; 2],
    },
    Picture {
        output: Vec<u8>,
    },
}

/// The numbers of a room after a call, up to the last one that changed.
fn changed_beginning(room: Room, after: &[i32]) -> Vec<i32> {
    let before = room.numbers();
    let last_changed = (0..after.len()).rev().find(|&i| after[i] != before[i]);
    after[..last_changed.map_or(0, |index| index + 1)].to_vec()
}

/// Lends a call its rooms and gives its answer with what then stands in them.
fn with_rooms<T, const N: usize>(
    rooms: [Room; N],
    call: impl FnOnce(&mut [Vec<i32>; N]) -> T,
) -> (T, [Vec<i32>; N]) {
    let mut lent = rooms.map(Room::numbers);
    let answer = call(&mut lent);
    let mut index = 0;
    let after = rooms.map(|room| {
        let beginning = changed_beginning(room, &lent[index]);
        index += 1;
        beginning
    });
    (answer, after)
}

impl Request {
    /// This program's answer.
    pub fn answer(&self) -> Answer {
        match self {
            Request::Order { list, ordered } => {
                let (a, [ordered]) =
                    with_rooms([*ordered], |rooms| calls::order(list, &mut rooms[0]));
                Answer::Order {
                    number: a.number,
                    place: a.place,
                    points: a.points,
                    ordered,
                }
            }
            Request::Hull {
                list,
                ordered,
                corners,
            } => {
                let (a, rooms) = with_rooms([*ordered, *corners], |[ordered, corners]| {
                    calls::hull(list, ordered, corners)
                });
                Answer::Hull {
                    number: a.number,
                    place: a.place,
                    points: a.points,
                    corners: a.corners,
                    rooms,
                }
            }
            Request::Verdict {
                list,
                ordered,
                corners,
            } => {
                let (a, rooms) = with_rooms([*ordered, *corners], |[ordered, corners]| {
                    calls::verdict(list, ordered, corners)
                });
                Answer::Verdict {
                    number: a.number,
                    place: a.place,
                    points: a.points,
                    corners: a.corners,
                    verdict: a.verdict,
                    first_missing: a.first_missing,
                    rooms,
                }
            }
            Request::Report {
                list,
                ordered,
                corners,
                missing,
            } => {
                let (a, rooms) = with_rooms(
                    [*ordered, *corners, *missing],
                    |[ordered, corners, missing]| calls::report(list, ordered, corners, missing),
                );
                Answer::Report {
                    number: a.number,
                    place: a.place,
                    points: a.points,
                    corners: a.corners,
                    missing: a.missing,
                    verdict: a.verdict,
                    first_missing: a.first_missing,
                    rooms,
                }
            }
            Request::RowEnds { list, y } => {
                let (begin, end) = calls::row_ends(list, *y);
                Answer::RowEnds { begin, end }
            }
            Request::Row { list, y } => Answer::Row {
                part: calls::row(list, *y).to_vec(),
            },
            Request::Rebuild {
                corners,
                missing,
                points,
            } => {
                let (a, [room]) = with_rooms([*points], |rooms| {
                    calls::rebuild(corners, missing, &mut rooms[0])
                });
                Answer::Rebuild {
                    number: a.number,
                    place: a.place,
                    points: a.points,
                    room,
                }
            }
            Request::Figures {
                list,
                ordered,
                corners,
            } => {
                let (figures, rooms) = with_rooms([*ordered, *corners], |[ordered, corners]| {
                    calls::figures(list, ordered, corners)
                });
                Answer::Figures { figures, rooms }
            }
            Request::Picture { bytes } => Answer::Picture {
                output: program::output(bytes).into_bytes(),
            },
        }
    }

    pub fn call(&self) -> Call {
        match self {
            Request::Order { .. } => Call::Order,
            Request::Hull { .. } => Call::Hull,
            Request::Verdict { .. } => Call::Verdict,
            Request::Report { .. } => Call::Report,
            Request::RowEnds { .. } => Call::RowEnds,
            Request::Row { .. } => Call::Row,
            Request::Rebuild { .. } => Call::Rebuild,
            Request::Figures { .. } => Call::Figures,
            Request::Picture { .. } => Call::Picture,
        }
    }

    /// The line of this request, without its line end.
    pub fn line(&self) -> String {
        let mut line = Line::default();
        match self {
            Request::Order { list, ordered } => line.number(1).list(list).room(*ordered),
            Request::Hull {
                list,
                ordered,
                corners,
            } => line.number(2).list(list).room(*ordered).room(*corners),
            Request::Verdict {
                list,
                ordered,
                corners,
            } => line.number(3).list(list).room(*ordered).room(*corners),
            Request::Report {
                list,
                ordered,
                corners,
                missing,
            } => line
                .number(4)
                .list(list)
                .room(*ordered)
                .room(*corners)
                .room(*missing),
            Request::RowEnds { list, y } => line.number(5).list(list).number(y),
            Request::Row { list, y } => line.number(6).list(list).number(y),
            Request::Rebuild {
                corners,
                missing,
                points,
            } => line.number(7).list(corners).list(missing).room(*points),
            Request::Figures {
                list,
                ordered,
                corners,
            } => line.number(8).list(list).room(*ordered).room(*corners),
            Request::Picture { bytes } => line.number(9).list(bytes),
        };
        line.text
    }

    /// The request of a line, or what is wrong with the line.
    pub fn read(line: &str) -> Result<Request, String> {
        let mut words = Words::of(line);
        let request = match words.number("the call")? {
            1 => Request::Order {
                list: words.list()?,
                ordered: words.room()?,
            },
            2 => Request::Hull {
                list: words.list()?,
                ordered: words.room()?,
                corners: words.room()?,
            },
            3 => Request::Verdict {
                list: words.list()?,
                ordered: words.room()?,
                corners: words.room()?,
            },
            4 => Request::Report {
                list: words.list()?,
                ordered: words.room()?,
                corners: words.room()?,
                missing: words.room()?,
            },
            5 => Request::RowEnds {
                list: words.list()?,
                y: words.number("y")?,
            },
            6 => Request::Row {
                list: words.list()?,
                y: words.number("y")?,
            },
            7 => Request::Rebuild {
                corners: words.list()?,
                missing: words.list()?,
                points: words.room()?,
            },
            8 => Request::Figures {
                list: words.list()?,
                ordered: words.room()?,
                corners: words.room()?,
            },
            9 => Request::Picture {
                bytes: words.list()?,
            },
            other => return Err(format!("no call has the number {other}")),
        };
        words.end()?;
        Ok(request)
    }
}

/// What became of a call, for counting. Refusals sort by number.
#[derive(Clone, Copy, PartialEq, Eq, PartialOrd, Ord, Hash, Debug)]
pub enum Outcome {
    Accepted,
    /// Accepted, with the case of an answer that has several.
    Case(&'static str),
    Refused(u32),
}

impl Display for Outcome {
    fn fmt(&self, form: &mut fmt::Formatter) -> fmt::Result {
        match self {
            Outcome::Accepted => form.pad("accepted"),
            Outcome::Case(case) => form.pad(&format!("accepted, {case}")),
            Outcome::Refused(number) => form.pad(&format!("refusal {number:2}")),
        }
    }
}

impl Answer {
    pub fn outcome(&self) -> Outcome {
        let refused_or = |number: u32, accepted: Outcome| match number {
            0 => accepted,
            _ => Outcome::Refused(number),
        };
        let named = |verdict: Verdict| match verdict {
            Verdict::No => Outcome::Case("no"),
            _ => Outcome::Case("yes"),
        };
        match self {
            Answer::Order { number, .. }
            | Answer::Hull { number, .. }
            | Answer::Rebuild { number, .. } => refused_or(*number, Outcome::Accepted),
            Answer::Verdict {
                number, verdict, ..
            }
            | Answer::Report {
                number, verdict, ..
            } => refused_or(*number, named(*verdict)),
            Answer::RowEnds { begin, end } if begin < end => Outcome::Case("points"),
            Answer::RowEnds { begin: 0, .. } => Outcome::Case("empty at start"),
            Answer::RowEnds { .. } => Outcome::Case("empty further on"),
            Answer::Row { part } if part.is_empty() => Outcome::Case("empty"),
            Answer::Row { .. } => Outcome::Case("points"),
            Answer::Figures { figures, .. } => match figures {
                Figures::Refused(declined) => Outcome::Refused(declined.number),
                Figures::None => Outcome::Case("none"),
                Figures::Doubles { .. } => Outcome::Case("doubles"),
            },
            Answer::Picture { output } => {
                refused_number(output).map_or(Outcome::Accepted, Outcome::Refused)
            }
        }
    }

    /// The line of this answer, without its line end.
    pub fn line(&self) -> String {
        let mut line = Line::default();
        match self {
            Answer::Order {
                number,
                place,
                points,
                ordered: room,
            }
            | Answer::Rebuild {
                number,
                place,
                points,
                room,
            } => line.number(number).number(place).number(points).list(room),
            Answer::Hull {
                number,
                place,
                points,
                corners,
                rooms,
            } => line
                .number(number)
                .number(place)
                .number(points)
                .number(corners)
                .lists(rooms),
            Answer::Verdict {
                number,
                place,
                points,
                corners,
                verdict,
                first_missing,
                rooms,
            } => line
                .number(number)
                .number(place)
                .number(points)
                .number(corners)
                .verdict(*verdict, *first_missing)
                .lists(rooms),
            Answer::Report {
                number,
                place,
                points,
                corners,
                missing,
                verdict,
                first_missing,
                rooms,
            } => line
                .number(number)
                .number(place)
                .number(points)
                .number(corners)
                .number(missing)
                .verdict(*verdict, *first_missing)
                .lists(rooms),
            Answer::RowEnds { begin, end } => line.number(begin).number(end),
            Answer::Row { part } => line.list(part),
            Answer::Figures { figures, rooms } => line.figures(figures).lists(rooms),
            Answer::Picture { output } => line.list(output),
        };
        line.text
    }

    /// The answer that a line holds for a request, or what is wrong with it.
    pub fn read(request: &Request, line: &str) -> Result<Answer, String> {
        let mut words = Words::of(line);
        let answer = match request {
            Request::Order { .. } => Answer::Order {
                number: words.number("number")?,
                place: words.number("place")?,
                points: words.number("points")?,
                ordered: words.list()?,
            },
            Request::Hull { .. } => Answer::Hull {
                number: words.number("number")?,
                place: words.number("place")?,
                points: words.number("points")?,
                corners: words.number("corners")?,
                rooms: [words.list()?, words.list()?],
            },
            Request::Verdict { .. } => Answer::Verdict {
                number: words.number("number")?,
                place: words.number("place")?,
                points: words.number("points")?,
                corners: words.number("corners")?,
                verdict: words.verdict()?,
                first_missing: words.point()?,
                rooms: [words.list()?, words.list()?],
            },
            Request::Report { .. } => Answer::Report {
                number: words.number("number")?,
                place: words.number("place")?,
                points: words.number("points")?,
                corners: words.number("corners")?,
                missing: words.number("missing")?,
                verdict: words.verdict()?,
                first_missing: words.point()?,
                rooms: [words.list()?, words.list()?, words.list()?],
            },
            Request::RowEnds { .. } => Answer::RowEnds {
                begin: words.number("begin")?,
                end: words.number("end")?,
            },
            Request::Row { .. } => Answer::Row {
                part: words.list()?,
            },
            Request::Rebuild { .. } => Answer::Rebuild {
                number: words.number("number")?,
                place: words.number("place")?,
                points: words.number("points")?,
                room: words.list()?,
            },
            Request::Figures { .. } => Answer::Figures {
                figures: words.figures()?,
                rooms: [words.list()?, words.list()?],
            },
            Request::Picture { .. } => Answer::Picture {
                output: words.list()?,
            },
        };
        words.end()?;
        Ok(answer)
    }
}

/// The number in the output of a declined picture.
fn refused_number(output: &[u8]) -> Option<u32> {
    let text = std::str::from_utf8(output).ok()?;
    let mut fields = text.split(',');
    if fields.next()? != "refused" {
        return None;
    }
    fields.next()?.parse().ok()
}

/// A line that is being written: numbers separated by single blanks.
#[derive(Default)]
struct Line {
    text: String,
}

impl Line {
    fn number(&mut self, number: impl Display) -> &mut Line {
        if !self.text.is_empty() {
            self.text.push(' ');
        }
        write!(self.text, "{number}").expect("a string takes all that is written");
        self
    }

    /// The count of numbers, then the numbers.
    fn list<T: Display>(&mut self, list: &[T]) -> &mut Line {
        self.number(list.len());
        for number in list {
            self.number(number);
        }
        self
    }

    fn lists(&mut self, lists: &[Vec<i32>]) -> &mut Line {
        for list in lists {
            self.list(list);
        }
        self
    }

    fn room(&mut self, room: Room) -> &mut Line {
        self.number(room.length).number(room.first)
    }

    fn verdict(&mut self, verdict: Verdict, first_missing: Point) -> &mut Line {
        let shown = match verdict {
            Verdict::No => 0,
            Verdict::Yes => 1,
            Verdict::Declined => 2,
        };
        self.number(shown)
            .number(first_missing.x)
            .number(first_missing.y)
    }

    fn figures(&mut self, figures: &Figures) -> &mut Line {
        match figures {
            Figures::Refused(Refusal { number, place }) => {
                self.number(0).number(number).number(place)
            }
            Figures::None => self.number(1),
            Figures::Doubles { centroid, solidity } => self
                .number(2)
                .number(centroid.x.to_bits())
                .number(centroid.y.to_bits())
                .number(solidity.to_bits()),
        }
    }
}

/// A line that is being read.
struct Words<'a> {
    words: std::str::Split<'a, char>,
}

impl<'a> Words<'a> {
    fn of(line: &'a str) -> Words<'a> {
        Words {
            words: line.split(' '),
        }
    }

    fn number<T: std::str::FromStr>(&mut self, what: &str) -> Result<T, String> {
        let word = self
            .words
            .next()
            .ok_or_else(|| format!("the line ends before {what}"))?;
        word.parse()
            .map_err(|_| format!("{what} cannot be {word:?}"))
    }

    fn list<T: std::str::FromStr>(&mut self) -> Result<Vec<T>, String> {
        let count: usize = self.number("the count of a list")?;
        (0..count)
            .map(|_| self.number("a number of a list"))
            .collect()
    }

    fn room(&mut self) -> Result<Room, String> {
        let room = Room {
            length: self.number("the length of a room")?,
            first: self.number("the first number of a room")?,
        };
        if room.fits() {
            Ok(room)
        } else {
            Err("a room holds a number beyond 32 bits".to_string())
        }
    }

    fn point(&mut self) -> Result<Point, String> {
        Ok(point(self.number("x")?, self.number("y")?))
    }

    fn verdict(&mut self) -> Result<Verdict, String> {
        match self.number("the verdict")? {
            0 => Ok(Verdict::No),
            1 => Ok(Verdict::Yes),
            2 => Ok(Verdict::Declined),
            other => Err(format!("no verdict has the number {other}")),
        }
    }

    fn double(&mut self) -> Result<f64, String> {
        Ok(f64::from_bits(self.number("the bits of a double")?))
    }

    fn figures(&mut self) -> Result<Figures, String> {
        match self.number("the case of Figures")? {
            0 => Ok(Figures::Refused(refusal(
                self.number("number")?,
                self.number("place")?,
            ))),
            1 => Ok(Figures::None),
            2 => Ok(Figures::Doubles {
                centroid: Centroid {
                    x: self.double()?,
                    y: self.double()?,
                },
                solidity: self.double()?,
            }),
            other => Err(format!("Figures has no case {other}")),
        }
    }

    fn end(&mut self) -> Result<(), String> {
        match self.words.next() {
            None => Ok(()),
            Some(word) => Err(format!("{word:?} stands after the end")),
        }
    }
}
