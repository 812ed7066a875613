//! Lines about maps that are made of places and any two numbers, so that they may say what is not so.

use crate::code::*;
use crate::image;
use crate::numbers::C1;
use crate::requests::{Request, bytes_of};
use std::ops::Range;

const MAX: usize = usize::MAX;

/// A name, the places that are present, and four pairs of numbers: how many are present, and the highest.
pub const GROUPS: [(&str, Range<usize>, [(usize, usize); 4]); 11] = [
    ("five", 0..5, [(5, 4), (4, 4), (6, 4), (4, 5)]),
    ("five", 0..5, [(5, 3), (5, 5), (5, 129), (0, 0)]),
    ("five", 0..5, [(261, 4), (5, 260), (5, 0), (0, 129)]),
    ("five", 0..5, [(MAX, 4), (5, MAX), (MAX, MAX), (4, 3)]),
    ("none", 0..0, [(0, 129), (0, 0), (0, 128), (1, 129)]),
    ("none", 0..0, [(0, 130), (256, 129), (0, MAX), (MAX, MAX)]),
    ("stray", 0..6, [(6, 5), (6, 4), (5, 5), (5, 4)]),
    ("two-absent", 2..5, [(3, 4), (2, 4), (5, 4), (3, 2)]),
    ("three-absent", 3..5, [(2, 4), (3, 4), (5, 4), (2, 129)]),
    ("all", 0..129, [(129, 128), (129, 129), (128, 128), (130, 128)]),
    ("last", 128..129, [(1, 128), (1, 127), (1, 129), (2, 128)]),
];

/// Places that are marked present one after another, and then absent in the same order; each group goes on from the map of the one before.
pub const WALK: [[usize; 4]; 3] = [[3, 1, 1, 3], [0, 128, 127, 0], [5, 129, MAX, 128]];

pub fn map_of(present: Range<usize>, count: usize, highest: usize) -> Map {
    let mut places = [false; PLACES];
    places[present].fill(true);
    Map::from_parts(places, count, highest)
}

/// What a call is made with: C1 and a bench, unless some of it is changed.
struct Call { shape: Shape, stripe: Vec<u8>, bench: Vec<u8>, column: usize }

impl Call {
    fn on_c1() -> Call {
        let stripe = bytes_of(C1).expect("the bytes are written rightly");
        Call { shape: Shape { m: 3, k: 3, b: 1 }, stripe, bench: vec![0xa1, 0xa2, 0xa3, 0xa4], column: 0 }
    }
    fn restore(self, name: &str, map: Map) -> String {
        let answer = Request::Restore(self.shape, map, self.stripe, self.bench).answer();
        format!("{name} restore {answer}")
    }
    /// How many bytes of the column are handed out.
    fn part(self, map: Map) -> usize { show(self.shape, &map, &self.stripe, &self.bench, self.column).length }
    /// Into 58 bytes, which are enough for C1: of these the first, the state of column 0, the first of the bodies and the last are told.
    fn write(self, name: &str, map: Map) -> String {
        let mut lent = [0xa1; 58];
        let done = image::write(self.shape, &map, &self.stripe, &mut lent);
        let told: String = [0, 10, 48, 57].iter().map(|&at| format!("{:02x}", lent[at])).collect();
        format!("{name} write {} {} {told}", done.number, done.length)
    }
    fn show(self, name: &str, map: Map) -> String {
        let answer = Request::Show(self.shape, map, self.stripe, self.bench, self.column).answer();
        format!("{name} show {answer}")
    }
}

/// A number for a line: a large one is the word `far`.
fn told(number: usize) -> String {
    if number > 9_999 { "far".to_string() } else { number.to_string() }
}

/// A map with what it says.
fn whole(map: &Map) -> String { format!("{} {} {map}", told(map.present), told(map.highest)) }

fn marked(map: Map, place: usize, present: bool) -> String {
    let done = mark(map, place, present);
    format!("{} {}", done.number, whole(&done.map))
}

fn questions(map: &Map) -> String {
    let (present, stray) = (map.is_present(4) as u8, map.strays(5) as u8);
    let Gaps { absent, first, second } = map.gaps(5);
    format!("{present} {stray} {absent} {first} {second} {}", whole(&Map::from_bytes(map.bytes())))
}

/// The lines of one map, which is named by its places and its two numbers.
fn case(places: &str, map: Map) -> [String; 9] {
    let name = &format!("{places} {} {}", told(map.present), told(map.highest));
    [
        format!("{name} true {}", map.is_true() as u8),
        Call::on_c1().restore(name, map),
        Call::on_c1().show(name, map),
        format!("{name} part {}", Call::on_c1().part(map)),
        Call::on_c1().write(name, map),
        format!("{name} present-0 {}", marked(map, 0, true)),
        format!("{name} absent-4 {}", marked(map, 4, false)),
        format!("{name} present-129 {}", marked(map, 129, true)),
        format!("{name} questions {}", questions(&map)),
    ]
}

/// A false map together with another fault.
fn with_faults() -> Vec<String> {
    let (lie, stray) = (map_of(0..5, 4, 4), map_of(0..6, 5, 5));
    let shaped = |m: usize, k: usize, b: usize| Call { shape: Shape { m, k, b }, ..Call::on_c1() };
    let cut = || Call { stripe: Call::on_c1().stripe[..9].to_vec(), ..Call::on_c1() };
    let small = || Call { bench: vec![0xa1], ..Call::on_c1() };
    let beyond = || Call { column: 9, ..Call::on_c1() };
    let longer = || Call { shape: Shape { m: 3, k: 3, b: 2 }, stripe: vec![0xa5; 20], ..Call::on_c1() };
    vec![
        shaped(9, 3, 1).restore("m+lie", lie),
        shaped(3, 4, 1).restore("k+lie", lie),
        shaped(3, 3, 0).restore("b+lie", lie),
        cut().restore("length+lie", lie),
        shaped(9, 3, 1).show("m+lie", lie),
        small().show("bench+lie", lie),
        beyond().show("column+lie", lie),
        beyond().show("column+lie+stray", stray),
        shaped(9, 3, 1).write("m+lie", lie),
        cut().write("length+lie", lie),
        longer().write("lie+short", lie),
        longer().write("lie+stray+short", stray),
    ]
}

/// Each mark is of the map that the one before handed back.
fn walk() -> Vec<String> {
    let mut map = Map::new();
    let mut lines = Vec::new();
    for places in WALK {
        for (word, present) in [("present", true), ("absent", false)] {
            for place in places {
                lines.push(format!("{word} {} {}", told(place), marked(map, place, present)));
                map = mark(map, place, present).map;
            }
        }
    }
    lines
}

pub fn lines() -> Vec<String> {
    let maps = GROUPS.into_iter().flat_map(|(name, places, pairs)| {
        pairs.into_iter().flat_map(move |(count, highest)| case(name, map_of(places.clone(), count, highest)))
    });
    maps.chain(with_faults()).chain(walk()).collect()
}
