//! Generated requests: named kinds, each with its share among those that reach a
//! call. A request depends on the seed, its call and its place alone.

mod bitmap_faults;
mod bitmaps;
mod grains;
mod list_faults;
mod lists;
mod outlines;
mod rebuild_faults;
mod rebuilds;
mod rooms;
mod round;
mod rows;
mod traps;

use crate::form::{Call, Request};
use crate::random::{mix, Random};
use lists::Lent;
use std::ops::Range;

/// A kind of requests: its name, its share among the kinds for a call, and what
/// it makes.
pub struct Kind {
    pub name: &'static str,
    share: usize,
    make: Make,
}

/// What a kind makes, and with that the calls that it reaches.
enum Make {
    /// A list and three rooms: every call over lists is lent those that it has.
    List(fn(&mut Random) -> Lent),
    /// A list and a row.
    Row(fn(&mut Random) -> (Vec<i32>, i32)),
    Rebuild(fn(&mut Random) -> Request),
    /// The bytes of a picture.
    Picture(fn(&mut Random) -> Vec<u8>),
}

impl Make {
    fn calls(&self) -> &'static [Call] {
        match self {
            Make::List(_) => &[
                Call::Order,
                Call::Hull,
                Call::Verdict,
                Call::Report,
                Call::Figures,
            ],
            Make::Row(_) => &[Call::RowEnds, Call::Row],
            Make::Rebuild(_) => &[Call::Rebuild],
            Make::Picture(_) => &[Call::Picture],
        }
    }
}

impl Kind {
    fn reaches(&self, call: Call) -> bool {
        self.make.calls().contains(&call)
    }

    fn request(&self, random: &mut Random, call: Call) -> Request {
        match self.make {
            Make::List(make) => make(random).request(call),
            Make::Row(make) => {
                let (list, y) = make(random);
                match call {
                    Call::RowEnds => Request::RowEnds { list, y },
                    _ => Request::Row { list, y },
                }
            }
            Make::Rebuild(make) => make(random),
            Make::Picture(make) => Request::Picture {
                bytes: make(random),
            },
        }
    }
}

const fn list(name: &'static str, share: usize, make: fn(&mut Random) -> Lent) -> Kind {
    let make = Make::List(make);
    Kind { name, share, make }
}

const fn row(name: &'static str, share: usize, make: fn(&mut Random) -> (Vec<i32>, i32)) -> Kind {
    let make = Make::Row(make);
    Kind { name, share, make }
}

const fn rebuild(name: &'static str, share: usize, make: fn(&mut Random) -> Request) -> Kind {
    let make = Make::Rebuild(make);
    Kind { name, share, make }
}

const fn picture(name: &'static str, share: usize, make: fn(&mut Random) -> Vec<u8>) -> Kind {
    let make = Make::Picture(make);
    Kind { name, share, make }
}

/// All kinds. Those with long lines have a small share.
pub const KINDS: &[Kind] = &[
    list("small-random", 100, lists::small_random),
    list("small-dense", 60, lists::small_dense),
    list("every-count", 20, lists::every_count),
    list("large-random", 12, lists::large_random),
    list("thin", 50, lists::thin),
    list("slivers", 30, lists::slivers),
    list("lines", 6, lists::lines),
    list("gaps", 8, lists::gaps),
    list("extremes", 30, lists::extremes),
    list("whole-range", 10, lists::whole_range),
    list("notches", 60, lists::notches),
    list("chipped", 40, lists::chipped),
    list("hollow", 20, lists::hollow),
    list("islands", 20, lists::islands),
    list("balanced", 20, lists::balanced),
    list("shapes", 60, lists::shapes),
    list("large-shapes", 6, lists::large_shapes),
    list("many-corners", 8, lists::many_corners),
    list("input-order", 30, lists::input_order),
    list("rooms", 70, list_faults::rooms),
    list("large-rooms", 8, list_faults::large_rooms),
    list("plausible-rooms", 20, list_faults::plausible_rooms),
    list("odd-length", 25, list_faults::odd_length),
    list("count-edge", 3, list_faults::count_edge),
    list("too-many", 1, list_faults::too_many),
    list("range-edge", 40, list_faults::range_edge),
    list("aliases", 20, list_faults::aliases),
    list("repeats", 40, list_faults::repeats),
    list("large-repeats", 8, list_faults::large_repeats),
    list("list-faults", 50, list_faults::faults),
    row("row", 60, rows::sorted),
    row("row-unfit", 40, rows::unfit),
    row("row-aliases", 20, rows::aliases),
    row("row-large", 8, rows::large),
    row("row-count-edge", 2, rows::count_edge),
    rebuild("rebuild-right", 50, rebuilds::right),
    rebuild("rebuild-slivers", 30, rebuilds::slivers),
    rebuild("rebuild-gaps", 10, rebuilds::gaps),
    rebuild("rebuild-wide", 10, rebuilds::wide),
    rebuild("rebuild-many-corners", 8, rebuilds::many_corners),
    rebuild("rebuild-count", 5, rebuilds::count),
    rebuild("rebuild-missing-count", 8, rebuilds::missing_count),
    rebuild("rebuild-long", 2, rebuilds::long),
    rebuild("rebuild-corners", 60, rebuild_faults::corners),
    rebuild("rebuild-stars", 15, rebuild_faults::stars),
    rebuild("rebuild-missing", 50, rebuild_faults::missing),
    rebuild("rebuild-aliases", 15, rebuild_faults::aliases),
    rebuild("rebuild-long-corners", 2, rebuild_faults::long_corners),
    rebuild("rebuild-long-missing", 2, rebuild_faults::long_missing),
    rebuild("rebuild-faults", 40, rebuild_faults::faults),
    picture("bitmap-sound", 30, bitmaps::sound),
    picture("bitmap-dressed", 40, bitmaps::dressed),
    picture("bitmap-sides", 20, bitmaps::sides),
    picture("bitmap-round", 4, bitmaps::round),
    picture("bitmap-large", 2, bitmaps::large),
    picture("bitmap-full", 2, bitmaps::full),
    picture("bitmap-black", 3, bitmaps::black),
    picture("bitmap-missing", 3, bitmaps::missing),
    picture("bitmap-comments", 25, bitmap_faults::comments),
    picture("bitmap-damaged", 80, bitmap_faults::damaged),
    picture("bitmap-every-byte", 40, bitmap_faults::every_byte),
    picture("bitmap-parts", 20, bitmap_faults::parts),
    picture("bitmap-sizes", 30, bitmap_faults::sizes),
    picture("bitmap-ends", 25, bitmap_faults::ends),
    picture("bitmap-after", 15, bitmap_faults::after),
    picture("bitmap-long", 2, bitmap_faults::long),
];

/// Requests without end: for every call that is reached one at each place.
pub struct Requests {
    seed: u64,
    kinds: Vec<&'static Kind>,
}

/// A request and the kind that made it.
pub struct Made {
    pub kind: &'static Kind,
    pub request: Request,
}

impl Requests {
    /// Of all kinds, or of the one with a name; nothing if there is no such kind.
    pub fn new(seed: u64, name: Option<&str>) -> Option<Requests> {
        let wanted = |kind: &&Kind| name.is_none_or(|name| name == kind.name);
        let kinds: Vec<&Kind> = KINDS.iter().filter(wanted).collect();
        (!kinds.is_empty()).then_some(Requests { seed, kinds })
    }

    /// The calls that the kinds reach.
    pub fn calls(&self) -> impl Iterator<Item = Call> + '_ {
        let reached = |call: &Call| self.kinds.iter().any(|kind| kind.reaches(*call));
        Call::ALL.into_iter().filter(reached)
    }

    /// The requests at some places, for each call in turn.
    pub fn at(&self, places: Range<u64>) -> impl Iterator<Item = Made> + '_ {
        places.flat_map(move |place| self.calls().map(move |call| self.request(call, place)))
    }

    fn request(&self, call: Call, place: u64) -> Made {
        let of_call = mix(self.seed).wrapping_add(call as u64);
        let mut random = Random::new(mix(of_call).wrapping_add(place));
        let kind = self.some_kind(&mut random, call);
        let request = kind.request(&mut random, call);
        Made { kind, request }
    }

    /// One of the kinds for a call, by their shares.
    fn some_kind(&self, random: &mut Random, call: Call) -> &'static Kind {
        let reaching = || self.kinds.iter().filter(|kind| kind.reaches(call));
        let mut left = random.below(reaching().map(|kind| kind.share).sum());
        for kind in reaching() {
            if left < kind.share {
                return kind;
            }
            left -= kind.share;
        }
        unreachable!("the shares add up")
    }
}
