//! Requests and images made from a seed. Where the making settles the refusal number, it is kept with
//! the case, so that the selftest can hold it against the answer.

use crate::code::*;
use crate::image::INPUT_LIMIT;
use crate::requests::{Bytes, Request};
use std::ops::RangeInclusive;

pub struct Case { pub request: Request, pub expected: Option<u8> }

pub struct Random(pub u64);

impl Random {
    fn next(&mut self) -> u64 {
        self.0 = self.0.wrapping_add(0x9e37_79b9_7f4a_7c15);
        let mut z = self.0;
        z = (z ^ (z >> 30)).wrapping_mul(0xbf58_476d_1ce4_e5b9);
        z = (z ^ (z >> 27)).wrapping_mul(0x94d0_49bb_1331_11eb);
        z ^ (z >> 31)
    }
    pub fn below(&mut self, limit: usize) -> usize { (self.next() % limit as u64) as usize }
    pub fn one_of<T: Copy>(&mut self, list: &[T]) -> T { list[self.below(list.len())] }
    fn byte(&mut self) -> u8 { self.next() as u8 }
    fn nonzero(&mut self) -> u8 { 1 + self.below(255) as u8 }
    pub fn bytes(&mut self, count: usize) -> Vec<u8> { (0..count).map(|_| self.byte()).collect() }
    /// Two different numbers below the limit.
    pub fn two(&mut self, limit: usize) -> [usize; 2] {
        let first = self.below(limit);
        [first, (first + 1 + self.below(limit - 1)) % limit]
    }
}

const MAX: usize = usize::MAX;
pub const SIZES: [usize; 16] = [1, 2, 3, 5, 7, 8, 16, 31, 64, 100, 128, 129, 200, 257, 1000, 4096];
const SMALL: [(usize, usize, usize); 12] = [
    (3, 1, 1), (3, 2, 2), (3, 3, 1), (3, 3, 17), (5, 1, 3), (5, 2, 1), (5, 4, 2), (5, 5, 1), (5, 5, 130), (7, 3, 1), (7, 6, 2),
    (7, 7, 1),
];
/// More bytes than the drawn shapes have: long cells beside more than eight data columns, and long columns.
const LARGE: [(usize, usize, usize); 3] = [(11, 9, 130), (17, 2, 4096), (19, 17, 257)];
/// Where columns are rewritten: cells on both sides of 128 bytes, with many columns or long ones, up to 64 KiB.
const LARGE_REWRITES: [(usize, usize, usize); 4] = [(11, 9, 130), (19, 17, 257), (127, 3, 100), (17, 3, 4096)];
/// So many columns, and such cells, that the library sums lines in bands, more than one.
const WIDE: (usize, usize, usize) = (37, 33, 1400);
/// Where stripes are zero or nearly so: as many columns as there can be, and long cells, up to data of more than 256 KiB.
const FAINT: [(usize, usize, usize); 4] = [(127, 127, 1), (5, 5, 4096), (17, 16, 512), (17, 17, 1024)];
/// Where cells are changed: as many columns as there can be, with short cells, and long cells.
const LARGE_CHANGES: [(usize, usize, usize); 5] = [(127, 127, 1), (127, 127, 9), (17, 16, 512), (5, 4, 4095), (5, 5, 4096)];
pub const BAD_M: [usize; 36] = [
    0, 1, 2, 4, 6, 8, 9, 15, 21, 25, 27, 33, 35, 49, 51, 57, 77, 87, 91, 93, 119, 121, 123, 125, 126, 128, 129, 131,
    137, 256, 257, 259, 65_539, (1 << 32) + 3, MAX - 1, MAX,
];
pub const BAD_K: [usize; 8] = [0, 128, 129, 257, 65_537, (1 << 32) + 1, MAX - 1, MAX];
pub const BAD_B: [usize; 8] = [0, 4097, 4098, 8192, 65_535, 65_537, (1 << 32) + 1, MAX];

/// Values of k that `gaps` is asked for beside a drawn one below 125 and a large one.
pub const GAP_KS: [usize; 9] = [0, 1, 125, 126, 127, 128, 129, MAX - 1, MAX];
/// Maps that `gaps` is asked of. Those with few gaps have them below k+2, and `above` has nothing present there.
const GAP_MAPS: [&str; 9] = ["none", "all", "only-0", "only-128", "drawn", "no-gap", "one-gap", "two-gaps", "above"];
/// These are asked of for every k from 0 to 130.
const EVERY_GAP_MAPS: [&str; 4] = ["drawn", "no-gap", "two-gaps", "above"];
/// For every m from 0 to 140 lengths are asked with each of these, and with k = 0, 1, m and m+1.
const EVERY_LENGTH_B: [usize; 4] = [0, 1, 4096, 4097];

pub const PATTERNS: [&str; 9] = ["none", "data", "H", "D", "data+data", "data+H", "data+D", "H+D", "three-or-more"];
pub const AT_MOST_ONE: [&str; 4] = ["none", "data", "H", "D"];
/// Kinds of columns that are rewritten.
pub const KINDS: [&str; 3] = ["data", "H", "D"];

const SHAPE_ORDER: [u8; 3] = [1, 12, 13];
pub const PLAIN_ORDER: [u8; 4] = [1, 12, 13, 2];
pub const RESTORE_ORDER: [u8; 8] = [1, 12, 13, 2, 3, 9, 4, 5];
pub const REWRITE_ORDER: [u8; 6] = [1, 12, 13, 2, 7, 5];
pub const CHANGE_ORDER: [u8; 7] = [1, 12, 13, 2, 7, 11, 14];
/// Of a list of changes. 7 and 11 are of an item, and the first item that bears one is given; within one 7 is before 11.
pub const LIST_ORDER: [u8; 7] = [1, 12, 13, 2, 15, 7, 11];
pub const SHOW_ORDER: [u8; 8] = [1, 12, 13, 2, 3, 9, 7, 4];
pub const WRITE_ORDER: [u8; 6] = [1, 12, 13, 2, 9, 16];
/// How an image's first eight bytes are judged.
pub const HEADER_ORDER: [u8; 4] = [8, 1, 12, 13];

/// Every two faults of an order that can be made together, and the three of a shape.
pub fn together(order: &[u8]) -> Vec<Vec<u8>> {
    let mut list = vec![SHAPE_ORDER.to_vec()];
    for (n, &x) in order.iter().enumerate() {
        // 5 needs a good shape, a stripe of its length, and at most two columns absent. Beside 7 it means that the stripe is
        // not valid: no column has the number that is to be rewritten.
        let beside = [BAD_BENCH, STRAY_PLACE, BAD_NUMBER];
        let later = order[n + 1..].iter().filter(|&&y| y != NONE_FITS || beside.contains(&x));
        list.extend(later.map(|&y| vec![x, y]));
    }
    list
}

fn alone_and_together(order: &[u8]) -> Vec<Vec<u8>> {
    order.iter().map(|&number| vec![number]).chain(together(order)).collect()
}

/// Kinds of shapes at which blank stripes are made, and stripes with two wrong columns.
pub const EXTENTS: [&str; 3] = ["small", "long cells", "many columns"];

pub fn extent(shape: Shape) -> &'static str {
    match shape {
        Shape { b, .. } if b >= 128 => EXTENTS[1],
        Shape { k, .. } if k > 8 => EXTENTS[2],
        _ => EXTENTS[0],
    }
}

/// Of which stripes a cell is changed.
pub const CHANGED_STRIPES: [&str; 3] = ["valid", "broken", "zero"];
/// Which cell it is: one of the first or of the last data column, on the diagonal of S, or where row and column add up to m or
/// more.
pub const CHANGED_CELLS: [&str; 4] = ["first", "last", "on S", "wrapping"];
/// What is put there: what it holds, zeros, it with one byte changed, or with all of them changed.
pub const NEW_CELLS: [&str; 4] = ["same", "zeros", "one byte", "all bytes"];
/// The ways to make a fault of a change: the columns, the rows and the lengths of a cell that are refused.
pub const CHANGE_WAYS: [(u8, &[&str]); 4] = [
    (2, &["length"]),
    (7, &["k", "k+1", "k+2", "between", "max"]),
    (11, &["m-1", "m", "between", "max"]),
    (14, &["0", "b-1", "b+1", "a column"]),
];

/// Columns and rows between are one of these above a right one, or 129.
pub const FAR: [usize; 3] = [1 << 8, 1 << 32, 1 << 63];

/// How many items a list of changes has that is not refused; some are 8 to 40.
pub const LIST_COUNTS: [&str; 6] = ["0", "1", "2", "some", "255", "256"];
/// How often a list names one cell, and what that cell ends with: what it held before, what the first of these items puts there,
/// or neither.
pub const TIMES: [(&str, usize); 2] = [("twice", 2), ("three times", 3)];
pub const ENDINGS: [&str; 3] = ["another", "held", "first"];
/// The ways in which lists disagree, or hold too many items.
pub const LIST_WAYS: [&str; 14] = [
    "a column more", "a column less", "a row more", "a row less", "no columns", "no rows", "a byte more", "a byte less",
    "a cell more", "a cell less", "no cells", "cells alone", "257", "many",
];
/// So many are many: cut to eight bits they would be few, or none.
const MANY: [usize; 3] = [258, 512, 513];
/// The ways to make a fault of an item: the columns and the rows that are refused. Cut to fewer bits, some would be right.
pub const ITEM_WAYS: [(u8, &[&str]); 2] = [
    (7, &["k", "k+1", "k+2", "129", "2^8 above", "2^32 above", "2^63 above", "max"]),
    (11, &["m-1", "m", "129", "2^8 above", "2^32 above", "2^63 above", "max"]),
];
/// Where in its list an item stands that is refused.
pub const ITEM_PLACES: [&str; 3] = ["first", "middle", "last"];
/// Two faults of items: of an item and of a later one, or of the same.
pub const ITEM_PAIRS: [&str; 5] = ["7 then 11", "11 then 7", "7 and 11", "7 then 7", "11 then 11"];
/// A request's cells have at most so many bytes.
const LIST_BYTES: usize = 80_000;

/// How many columns are absent in an image that is written or walked; more are at least four, and not all.
pub const LACKING: [&str; 6] = ["none", "one", "two", "three", "more", "all"];
/// How long the buffer is that an image is written into.
pub const ROOMS: [&str; 3] = ["exact", "one more", "much more"];
/// The ways to make a fault of a write: the places that are refused, and the buffers that are too short.
pub const WRITE_WAYS: [(u8, &[&str]); 2] =
    [(9, &["k+2", "between", "128"]), (16, &["one less", "a body less", "contents", "header", "empty"])];
/// The places from which an image is walked: the first, one whose column is present, one whose column is not but a later one is,
/// one from which on all are absent, and the end; and how many columns can then be absent.
pub const WALK_PLACES: [(&str, &[&str]); 5] = [
    ("0", &LACKING),
    ("present", &["none", "one", "two", "three", "more"]),
    ("absent", &["one", "two", "three", "more"]),
    ("no more", &["one", "two", "three", "more", "all"]),
    ("k+2", &LACKING),
];
/// The places that are refused. Cut to fewer bits, some would be right.
pub const BAD_PLACES: [&str; 7] = ["k+3", "129", "130", "2^8 above", "2^32 above", "2^63 above", "max"];
/// Of an image that is refused the place does not matter: it is one that every image has, or one that none has.
pub const REFUSED_PLACES: [&str; 2] = ["low", "high"];

/// The bytes of an image with these columns, for any three numbers; as many as there can be where they are too many.
pub fn room_needed(Shape { m, k, b }: Shape, map: &Map) -> usize {
    let columns = k.saturating_add(2);
    let present = map.places.iter().take(columns).filter(|&&present| present).count();
    let bodies = m.saturating_sub(1).saturating_mul(b).saturating_mul(present);
    columns.saturating_mul(8).saturating_add(8).saturating_add(bodies)
}

/// The kinds of so many absent columns, of so many in all. With three columns three are all.
pub fn lacking(absent: usize, columns: usize) -> Vec<&'static str> {
    let more = absent > 3 && absent < columns;
    let kinds = LACKING.into_iter().zip([absent == 0, absent == 1, absent == 2, absent == 3, more, absent == columns]);
    kinds.filter(|(_, is)| *is).map(|(kind, _)| kind).collect()
}

/// What of a stripe is not zero.
#[derive(Clone, Copy, PartialEq)]
#[rustfmt::skip]
enum Faint {
    Nothing,
    // One byte: the first or the last of the stripe, any, or one of H or D. Two bytes of a column, which add up to zero.
    First, Last, Any, H, D, Pair,
    // Of the data the last byte, the last column, one lane, the last byte of each cell, or one cell; H and D fit to it.
    LastByte, LastColumn, Lane, LastLane, Cell,
    // One byte of the data, on the diagonal of S, and H and D that fit: all bytes add up to zero.
    Diagonal,
    // Data for which H and D are zero.
    NoParity,
}

/// What comes in the place of a valid stripe, or is done to it.
#[derive(Clone, Copy, PartialEq)]
#[rustfmt::skip]
enum Damage { None, OneColumn, TwoColumns, Lanes, Imaginary, Garbage, H, D, Faint(Faint) }

impl Damage {
    fn can_be_at(self, shape: Shape) -> bool {
        match self {
            Damage::Lanes | Damage::Faint(Faint::Lane | Faint::LastLane) => shape.b > 1,
            Damage::Imaginary => shape.k < shape.m,
            Damage::Faint(Faint::LastColumn | Faint::Diagonal) => shape.k > 1,
            Damage::Faint(Faint::NoParity) => shape.k > 2,
            _ => true,
        }
    }
}

const BLANK: Damage = Damage::Faint(Faint::Nothing);

/// How a stripe is broken before a cell of it is changed.
#[derive(Clone, Copy)]
#[rustfmt::skip]
enum Break {
    // One byte: of the cell itself, of the cell of H or of a cell of D that depend on it, or of another one of H.
    Itself, OwnRow, OwnDiagonal, Elsewhere,
    Any(Damage),
}

#[rustfmt::skip]
const BREAKS: [Break; 11] = {
    use Break::*;
    [
        Itself, OwnRow, OwnDiagonal, Elsewhere,
        Any(Damage::OneColumn), Any(Damage::TwoColumns), Any(Damage::Lanes), Any(Damage::Imaginary), Any(Damage::Garbage),
        Any(Damage::H), Any(Damage::D),
    ]
};

#[derive(Clone, Copy, PartialEq)]
#[rustfmt::skip]
enum Flaw {
    /// A wrong number of the shape, named by its refusal.
    Wrong(u8),
    Short, Fourth, EightOnly, ContentsCut, BodyCut, Trailing, Gap, Offset, State, Flip, Column, Swap, Pad,
}

#[rustfmt::skip]
const FLAWS: [Flaw; 16] = {
    use Flaw::*;
    [
        Wrong(WRONG_M), Wrong(WRONG_K), Wrong(WRONG_B),
        Short, Fourth, EightOnly, ContentsCut, BodyCut, Trailing, Gap, Offset, State, Flip, Column, Swap, Pad,
    ]
};

/// A wrong number of the shape, which the first three flaws are, with each flaw after it, and all three wrong.
fn wrong_and_more() -> Vec<Vec<Flaw>> {
    let pairs = (0..3).flat_map(|n| FLAWS[n + 1..].iter().map(move |&other| vec![FLAWS[n], other]));
    pairs.chain([FLAWS[..3].to_vec()]).collect()
}

/// The refusals of the shape that these flaws are for, in order.
fn wrong_numbers(flaws: &[Flaw]) -> Vec<u8> {
    SHAPE_ORDER.into_iter().filter(|&number| flaws.contains(&Flaw::Wrong(number))).collect()
}

/// The kinds of images for `shelf`.
pub const IMAGE_KINDS: usize = 120;
/// Those that are all zero, with at most two columns absent.
pub const BLANK_KINDS: RangeInclusive<usize> = 91..=101;

enum Recipe {
    /// Encode, check or locate.
    Plain(fn(Shape, Vec<u8>) -> Request, Vec<u8>, Damage),
    Restore(Vec<u8>, &'static str, Damage),
    /// The column that is to be rewritten is the absent one, and with none absent any.
    Rewrite(Vec<u8>, &'static str, Damage),
    Show(Vec<u8>, &'static str),
    /// With cells of this size, which few of the drawn shapes have, a locate or a rewrite of one wrong column.
    LongCells(usize, bool),
    /// A check or a locate of a stripe that is all zero, at a shape of this kind.
    Blank(fn(Shape, Vec<u8>) -> Request, &'static str),
    /// A check of a valid stripe. Then two columns of it are changed, so that a locate names a third, or at random.
    Sound(bool),
    /// A request about the stripe that the last `Sound` left: check, locate, rewrite or restore, and which columns it is to
    /// rewrite or lacks.
    TwoWrong(&'static str, &'static str),
    Mark(bool),
    Gaps,
    Lengths,
    Contents(Vec<Flaw>, &'static str),
    /// The last says whether the lent stripe has the right length.
    Read(Vec<Flaw>, &'static str, bool),
}

fn code_recipes() -> Vec<Recipe> {
    use Damage::*;
    let mut list = Vec::new();
    for faults in alone_and_together(&PLAIN_ORDER).into_iter().chain([vec![]]) {
        list.push(Recipe::Plain(Request::Encode, faults.clone(), Garbage));
        list.push(Recipe::Plain(Request::Check, faults.clone(), OneColumn));
        list.push(Recipe::Plain(Request::Locate, faults, OneColumn));
    }
    // Most of those encodes are refused.
    list.extend((0..8).map(|_| Recipe::Plain(Request::Encode, vec![], Garbage)));
    for damage in [None, OneColumn, TwoColumns, Lanes, Imaginary, Garbage, H, D] {
        list.push(Recipe::Plain(Request::Check, vec![], damage));
        list.push(Recipe::Plain(Request::Locate, vec![], damage));
        list.push(Recipe::Plain(Request::Locate, vec![], damage));
    }
    for kind in KINDS {
        list.push(Recipe::Rewrite(vec![], kind, None));
        list.push(Recipe::Rewrite(vec![], kind, None));
        list.push(Recipe::Rewrite(vec![5], kind, None));
        list.extend([Lanes, Imaginary].map(|damage| Recipe::Rewrite(vec![], kind, damage)));
    }
    // Of any column; nothing is put in its place before. Without damage the stripe is valid.
    for damage in [None, None, None, OneColumn, TwoColumns, Lanes, Imaginary, Garbage] {
        list.push(Recipe::Rewrite(vec![], "none", damage));
    }
    for pattern in PATTERNS {
        list.push(Recipe::Restore(vec![], pattern, None));
        list.push(Recipe::Restore(vec![], pattern, None));
        list.push(Recipe::Restore(vec![], pattern, Garbage));
        list.push(Recipe::Show(vec![], pattern));
    }
    for pattern in AT_MOST_ONE {
        list.push(Recipe::Restore(vec![5], pattern, None));
        list.push(Recipe::Restore(vec![], pattern, TwoColumns));
    }
    list.extend(alone_and_together(&RESTORE_ORDER).into_iter().map(|faults| Recipe::Restore(faults, "any", None)));
    list.extend(alone_and_together(&REWRITE_ORDER).into_iter().map(|faults| Recipe::Rewrite(faults, "any", None)));
    list.extend(alone_and_together(&SHOW_ORDER).into_iter().map(|faults| Recipe::Show(faults, "any")));
    list.extend([(1000, false), (1000, true), (4096, false), (4096, true)].map(|(b, told)| Recipe::LongCells(b, told)));
    list.extend([Recipe::Mark(true), Recipe::Mark(true), Recipe::Mark(false)]);
    list
}

/// About 6 of 100 requests.
fn faint_recipes() -> Vec<Recipe> {
    use Faint::*;
    let mut list = Vec::new();
    for operation in [Request::Check as fn(Shape, Vec<u8>) -> Request, Request::Locate] {
        list.extend(EXTENTS.map(|kind| Recipe::Blank(operation, kind)));
        list.extend(PLAIN_ORDER.map(|number| Recipe::Plain(operation, vec![number], BLANK)));
        let faint = [First, Last, Any, H, D, Pair, LastByte, LastColumn, Lane, LastLane, Cell, Diagonal, NoParity];
        list.extend(faint.map(|faint| Recipe::Plain(operation, vec![], Damage::Faint(faint))));
    }
    list.extend(["none", "any", "any"].map(|pattern| Recipe::Restore(vec![], pattern, BLANK)));
    list.extend(["none", "any", "any"].map(|pattern| Recipe::Rewrite(vec![], pattern, BLANK)));
    list
}

/// They stand twice among the others: about 4 of 100 requests.
fn two_wrong_recipes() -> Vec<Recipe> {
    let of_both = [
        ("check", "none"), ("locate", "none"), ("rewrite", "one"), ("restore", "one"), ("restore", "both"),
        ("restore", "other pair"),
    ];
    let of_named = [("rewrite", "third"), ("rewrite", "other"), ("restore", "third")];
    let asked = |list: &[(&'static str, &'static str)]| -> Vec<Recipe> {
        list.iter().map(|&(word, columns)| Recipe::TwoWrong(word, columns)).collect()
    };
    let named = [vec![Recipe::Sound(true)], asked(&of_both), asked(&of_named)];
    let at_random = [vec![Recipe::Sound(false)], asked(&of_both)];
    named.into_iter().chain(at_random).flatten().collect()
}

/// About 4 of 100 requests.
fn gap_recipes() -> Vec<Recipe> { (0..28).map(|_| Recipe::Gaps).collect() }

/// About 6 of 100 requests.
fn length_recipes() -> Vec<Recipe> { (0..44).map(|_| Recipe::Lengths).collect() }

/// A change of one cell: its faults and, where they can be made in several ways, in which; a kind of shapes; and which stripe,
/// which cell and what is put there, as far as no fault settles it. Ways to break a stripe and kinds of rows come in turn.
struct Change {
    faults: Vec<u8>,
    way: usize,
    shape: &'static str,
    stripe: &'static str,
    cell: &'static str,
    new: &'static str,
    turn: usize,
}

/// About 4 of 100 requests. All kinds of stripes, cells and new bytes are met with each other, and each with every extent; then
/// come the shortest and the longest cells, as many columns as there can be and as few, every fault alone in every way, and
/// every two.
fn change_recipes() -> Vec<Change> {
    let mut list: Vec<Change> = Vec::new();
    for (x, stripe) in CHANGED_STRIPES.into_iter().enumerate() {
        for (y, cell) in CHANGED_CELLS.into_iter().enumerate() {
            for (z, new) in NEW_CELLS.into_iter().enumerate() {
                let (shape, turn) = (EXTENTS[(x + y + z) % 3], 4 * y + z);
                list.push(Change { faults: vec![], way: 0, shape, stripe, cell, new, turn });
            }
        }
    }
    let mut add = |faults: &[u8], way: usize, shape: &'static str, cell: &'static str| {
        let turn = list.len();
        let (stripe, new) = (CHANGED_STRIPES[(turn + turn / 3) % 3], "all bytes");
        list.push(Change { faults: faults.to_vec(), way, shape, stripe, cell, new, turn });
    };
    for shape in ["b=1", "b=4096", "k=m"] {
        CHANGED_CELLS.into_iter().for_each(|cell| add(&[], 0, shape, cell));
    }
    add(&[], 0, "k=1", "first");
    // So often that every wrong b is met, and k = 0, k = m+1, one up to 127 and the largest.
    for (number, times) in [(1, 4), (12, 10), (13, 8)] {
        (0..times).for_each(|_| add(&[number], 0, "short", "any"));
    }
    for (number, ways) in CHANGE_WAYS {
        for way in 0..ways.len() {
            EXTENTS.into_iter().for_each(|shape| add(&[number], way, shape, "any"));
        }
        add(&[number], ways.len().saturating_sub(2), "b=1", "any");
        add(&[number], 2, "b=4096", "any");
    }
    for (n, faults) in together(&CHANGE_ORDER).into_iter().enumerate() {
        add(&faults, n, EXTENTS[n % 3], "any");
    }
    list
}

/// The column and the row of a cell.
type Place = (usize, usize);

/// An item that is refused: its place, the number, and the way.
type BadItem = (usize, u8, &'static str);

/// Which cells a list of changes names, and what they get.
#[derive(Clone, Copy)]
#[rustfmt::skip]
enum Named {
    /// Drawn ones.
    Any,
    /// Drawn ones, which get what they hold.
    Held,
    /// Drawn ones on the diagonal of S.
    OnS,
    /// All of the data, each once.
    All,
    /// One of them so many times, with this ending, and drawn others.
    Same(usize, &'static str),
}

/// A list of changes: its faults but those of items, and in which way lists disagree; the places of the items that are refused,
/// each with its number and the way; a kind of shapes; and the stripe, how many items there are, and which cells they name, as
/// far as no fault settles it. Ways to break a stripe come in turn.
struct List {
    faults: Vec<u8>,
    way: &'static str,
    bad: Vec<BadItem>,
    shape: &'static str,
    stripe: &'static str,
    count: &'static str,
    named: Named,
    turn: usize,
}

/// Lists that are not refused. All counts are met with all kinds of stripes and of shapes; one cell is named twice and three
/// times with every ending and in every kind of stripe; many items are on the diagonal of S.
fn right_lists() -> Vec<List> {
    let mut list: Vec<List> = Vec::new();
    let mut add = |count: &'static str, named: Named, shape: &'static str, stripe: usize| {
        let (turn, stripe) = (list.len(), CHANGED_STRIPES[stripe % 3]);
        list.push(List { faults: vec![], way: "", bad: vec![], shape, stripe, count, named, turn });
    };
    for (x, count) in LIST_COUNTS.into_iter().enumerate() {
        EXTENTS.into_iter().enumerate().for_each(|(y, shape)| add(count, Named::Any, shape, x + y));
    }
    for (x, (_, times)) in TIMES.into_iter().enumerate() {
        for (y, ending) in ENDINGS.into_iter().enumerate() {
            (0..3).for_each(|stripe| add("some", Named::Same(times, ending), EXTENTS[(x + y + stripe) % 3], stripe));
        }
    }
    for (y, shape) in EXTENTS.into_iter().enumerate() {
        (0..3).for_each(|stripe| add(if stripe == y { "256" } else { "some" }, Named::OnS, shape, stripe));
        add("some", Named::All, shape, y);
        add("some", Named::Held, shape, y);
    }
    for (n, count) in ["1", "256"].into_iter().enumerate() { add(count, Named::Any, "b=1", n); }
    for (n, count) in ["1", "2", "3"].into_iter().enumerate() { add(count, Named::Any, "b=4096", n); }
    for (n, shape) in ["k=1", "k=m", "m=k=127"].into_iter().enumerate() { add("256", Named::Any, shape, n); }
    add("256", Named::OnS, "m=k=127", 0);
    // One item, and another row of H is wrong.
    let elsewhere = BREAKS.iter().position(|way| matches!(way, Break::Elsewhere)).expect("it is one of them");
    add("1", Named::Any, "small", 1);
    list.last_mut().expect("it was added").turn = elsewhere;
    list
}

/// Lists that are refused: for every fault alone in every way, for an item in every place, for two items, and for every two
/// faults.
fn wrong_lists() -> Vec<List> {
    let mut list: Vec<List> = Vec::new();
    let mut add = |faults: &[u8], way: &'static str, bad: &[BadItem], shape: &'static str, count: &'static str| {
        let turn = list.len();
        let (faults, bad, stripe) = (faults.to_vec(), bad.to_vec(), CHANGED_STRIPES[(turn + turn / 3) % 3]);
        list.push(List { faults, way, bad, shape, stripe, count, named: Named::Any, turn });
    };
    // So often that every wrong b is met, and k = 0, k = m+1, one up to 127 and the largest.
    for (number, times) in [(1, 4), (12, 10), (13, 8)] {
        (0..times).for_each(|_| add(&[number], "", &[], "short", "2"));
    }
    for shape in EXTENTS.into_iter().chain(["b=1", "b=4096"]) { add(&[2], "", &[], shape, "2"); }
    for (x, way) in LIST_WAYS.into_iter().enumerate() {
        for (y, shape) in EXTENTS.into_iter().enumerate() { add(&[15], way, &[], shape, ["2", "some", "256"][(x + y) % 3]); }
    }
    add(&[15], "257", &[], "b=1", "some");
    add(&[15], "a byte less", &[], "b=4096", "2");
    for (number, ways) in ITEM_WAYS {
        for (x, way) in ways.iter().copied().enumerate() {
            for place in 0..3 { add(&[], "", &[(place, number, way)], EXTENTS[(x + place) % 3], ["3", "some", "256"][x % 3]); }
        }
        add(&[], "", &[(0, number, "max")], "small", "1");
        add(&[], "", &[(2, number, "2^8 above")], "b=1", "2");
        add(&[], "", &[(2, number, ways[0])], "b=4096", "2");
        add(&[], "", &[(2, number, ways[0])], "m=k=127", "256");
    }
    let two_items = [
        [(0, 7, "max"), (1, 11, "m")], [(1, 11, "m-1"), (2, 7, "k")], [(1, 7, "k"), (1, 11, "max")],
        [(0, 7, "k+1"), (2, 7, "max")], [(1, 11, "m"), (2, 11, "m-1")],
    ];
    for (x, bad) in two_items.iter().enumerate() {
        for (y, shape) in EXTENTS.into_iter().enumerate() { add(&[], "", bad, shape, ["3", "some", "256"][(x + y) % 3]); }
    }
    for (n, faults) in together(&LIST_ORDER).into_iter().enumerate() {
        let ways = [(7, ["k", "max"]), (11, ["m-1", "max"])].into_iter().filter(|(number, _)| faults.contains(number));
        let bad: Vec<BadItem> = ways.map(|(number, ways)| (n % 3, number, ways[n % 2])).collect();
        let others: Vec<u8> = faults.into_iter().filter(|number| ![7, 11].contains(number)).collect();
        add(&others, ["a row more", "a column more", "a byte more"][n / 3 % 3], &bad, EXTENTS[n % 3], "3");
    }
    // The faults of items are looked at last, wherever they stand.
    for (n, way) in LIST_WAYS.into_iter().filter(|way| !["no columns", "no rows", "cells alone"].contains(way)).enumerate() {
        add(&[15], way, &[(0, [7, 11][n % 2], "max")], EXTENTS[n % 3], "3");
    }
    list
}

/// A write: its faults and, where they can be made in several ways, in which; a kind of shapes; how many columns are absent, or
/// which; and how long the buffer is, as far as no fault settles it. Kinds of stripes come in turn.
struct Writing {
    faults: Vec<u8>,
    way: &'static str,
    shape: &'static str,
    lacking: &'static str,
    room: &'static str,
    turn: usize,
}

/// About 4 of 100 requests. All numbers of absent columns are met with all buffers and all kinds of shapes; then come the kinds of
/// columns, the shortest and the longest cells, as few columns as there can be and as many, large offsets, every fault alone in
/// every way, and every two.
fn write_recipes() -> Vec<Writing> {
    let mut list: Vec<Writing> = Vec::new();
    let mut add = |faults: &[u8], way: &'static str, shape: &'static str, lacking: &'static str, room: &'static str| {
        let turn = list.len();
        list.push(Writing { faults: faults.to_vec(), way, shape, lacking, room, turn: turn + turn / 3 });
    };
    for lacking in LACKING {
        for shape in EXTENTS { ROOMS.into_iter().for_each(|room| add(&[], "", shape, lacking, room)); }
    }
    for (n, pattern) in PATTERNS[1..8].iter().enumerate() { add(&[], "", EXTENTS[n % 3], pattern, ROOMS[n % 2]); }
    for (n, shape) in ["b=1", "b=4096", "k=1", "k=m", "m=k=127"].into_iter().enumerate() {
        add(&[], "", shape, LACKING[n % 3], ROOMS[n % 2]);
    }
    add(&[], "", "far", "one", "exact");
    // So often that every wrong b is met, and k = 0, k = m+1, one up to 127 and the largest.
    for (number, times) in [(1, 4), (12, 10), (13, 8)] {
        (0..times).for_each(|n| add(&[number], "", "short", LACKING[n % 3], "exact"));
    }
    for (n, shape) in EXTENTS.into_iter().enumerate() { add(&[2], "", shape, LACKING[n], ROOMS[n]); }
    for (number, ways) in WRITE_WAYS {
        for (x, way) in ways.iter().copied().enumerate() {
            EXTENTS.into_iter().enumerate().for_each(|(y, shape)| add(&[number], way, shape, LACKING[(x + y) % 5], ROOMS[y]));
        }
    }
    for (n, lacking) in LACKING.into_iter().enumerate() { add(&[16], "one less", EXTENTS[n % 3], lacking, ""); }
    for (n, faults) in together(&WRITE_ORDER).into_iter().enumerate() {
        // With 9 and 16 together the place tells the way.
        let way = if faults.contains(&9) { ["k+2", "128"][n % 2] } else { ["one less", "empty"][n % 2] };
        add(&faults, way, EXTENTS[n % 3], LACKING[n % 4], "exact");
    }
    list
}

/// A step over an image: its flaws; a kind of shapes, and how many columns are absent, where it has none; and a kind of places.
struct Step { flaws: Vec<Flaw>, shape: &'static str, lacking: &'static str, place: &'static str, turn: usize }

/// About 4 of 100 requests. All kinds of places are met with all numbers of absent columns that they can have, and with all kinds
/// of shapes; then come the places that are refused, images with many bytes or many columns, and images that are refused.
fn walk_recipes() -> Vec<Step> {
    let mut list: Vec<Step> = Vec::new();
    let mut add = |flaws: &[Flaw], shape: &'static str, lacking: &'static str, place: &'static str| {
        list.push(Step { flaws: flaws.to_vec(), shape, lacking, place, turn: list.len() });
    };
    for (x, (place, counts)) in WALK_PLACES.into_iter().enumerate() {
        for (y, lacking) in counts.iter().copied().enumerate() { add(&[], EXTENTS[(x + y) % 3], lacking, place); }
    }
    for (x, place) in BAD_PLACES.into_iter().enumerate() {
        EXTENTS.into_iter().enumerate().for_each(|(y, shape)| add(&[], shape, LACKING[(x + y) % 6], place));
    }
    add(&[], "far", "one", "present");
    for (n, shape) in ["b=1", "b=4096", "k=1", "k=m"].into_iter().enumerate() { add(&[], shape, LACKING[n % 2], "present"); }
    for (n, place) in ["present", "no more", "k+2", "k+3", "max"].into_iter().enumerate() {
        add(&[], "m=k=127", LACKING[1 + n % 2], place);
    }
    for flaw in FLAWS { REFUSED_PLACES.into_iter().for_each(|place| add(&[flaw], "", "", place)); }
    for (n, flaws) in wrong_and_more().into_iter().enumerate() { add(&flaws, "", "", REFUSED_PLACES[n % 2]); }
    list
}

fn image_recipes() -> Vec<Recipe> {
    let mut list = vec![Recipe::Contents(vec![], "far"), Recipe::Read(vec![], "any", false)];
    for pattern in PATTERNS.into_iter().chain(["all", "all"]) {
        list.push(Recipe::Contents(vec![], pattern));
        list.push(Recipe::Read(vec![], pattern, true));
    }
    for flaw in FLAWS {
        list.push(Recipe::Contents(vec![flaw], "any"));
        list.push(Recipe::Read(vec![flaw], "any", true));
        list.push(Recipe::Read(vec![flaw], "any", false));
    }
    for flaws in wrong_and_more() {
        list.push(Recipe::Contents(flaws.clone(), "any"));
        list.push(Recipe::Read(flaws, "any", true));
    }
    list
}

/// Puts into two columns what the others leave for them, so that the stripe is valid.
pub fn fit(shape: Shape, stripe: &mut [u8], columns: [usize; 2]) {
    let mut bench = vec![0; shape.bench_length()];
    let done = restore(shape, &Map::all_but(shape.columns(), &columns), stripe, &mut bench);
    for (half, column) in [done.first, done.second].into_iter().enumerate() {
        stripe[shape.column(column)].copy_from_slice(&bench[shape.column(half)]);
    }
}

/// Gives a stripe the length that a bad shape has, where its products are small.
fn follow(shape: Shape, stripe: &mut Vec<u8>) {
    let length = shape.k.wrapping_add(2).wrapping_mul(shape.m.wrapping_sub(1).wrapping_mul(shape.b));
    let filler = if is_blank(stripe) { 0 } else { 7 };
    if length <= 30_000 { stripe.resize(length, filler); }
}

fn check_and_locate(shape: Shape, stripe: Vec<u8>) -> [Request; 2] {
    [Request::Check(shape, stripe.clone()), Request::Locate(shape, stripe)]
}

pub struct Maker {
    random: Random,
    primes: Vec<usize>,
    size_turn: usize,
    prime_turn: usize,
    bad_turns: [usize; 3],
    gap_turn: usize,
    length_turn: usize,
    sound_turns: [usize; 2],
    two_wrong: Option<TwoWrong>,
}

/// A valid stripe that was changed in two columns, and the third column that a locate names, where it was made so.
#[derive(Clone)]
struct TwoWrong { shape: Shape, stripe: Vec<u8>, columns: [usize; 2], third: Option<usize> }

struct Scene { shape: Shape, map: Map, stripe: Vec<u8>, bench: Vec<u8> }

impl Maker {
    pub fn new(seed: u64) -> Maker {
        let primes = (3..=127).filter(|&m| is_odd_prime(m)).collect();
        Maker {
            random: Random(seed),
            primes,
            size_turn: 0,
            prime_turn: 0,
            bad_turns: [0; 3],
            gap_turn: 0,
            length_turn: 0,
            sound_turns: [0; 2],
            two_wrong: None,
        }
    }

    /// Of 25 one is a change of a cell, two are lists of changes, one is a write and one a walk. These are made from seeds of their
    /// own, so that the others stay what they are.
    pub fn cases(mut self, count: usize) -> impl Iterator<Item = Case> {
        let mut changes = Maker::new(!self.random.0).changes();
        let mut lists = Maker::new(self.random.0 ^ 1 << 63).lists();
        let mut writes = Maker::new(self.random.0 ^ 1 << 62).writes();
        let mut walks = Maker::new(self.random.0 ^ 1 << 61).walks();
        let first = [code_recipes(), two_wrong_recipes(), gap_recipes(), length_recipes()];
        let second = [code_recipes(), two_wrong_recipes(), faint_recipes(), image_recipes()];
        let recipes: Vec<Recipe> = first.into_iter().chain(second).flatten().collect();
        let mut turn = 0;
        (0..count).map(move |n| match n % 25 {
            8 | 16 => lists.next().expect("they do not end"),
            24 => changes.next().expect("they do not end"),
            4 => writes.next().expect("they do not end"),
            12 => walks.next().expect("they do not end"),
            _ => {
                turn += 1;
                self.make(&recipes[(turn - 1) % recipes.len()])
            }
        })
    }

    /// Changes of cells, without end. Of the wrong k those that are near to a right one come early.
    pub fn changes(mut self) -> impl Iterator<Item = Case> {
        self.bad_turns[1] = BAD_K.len() - 2;
        let recipes = change_recipes();
        (0..).map(move |n| self.change(&recipes[n % recipes.len()]))
    }

    /// Lists of changes, without end.
    pub fn lists(mut self) -> impl Iterator<Item = Case> {
        self.bad_turns[1] = BAD_K.len() - 2;
        let recipes: Vec<List> = right_lists().into_iter().chain(wrong_lists()).collect();
        (0..).map(move |n| self.list(&recipes[n % recipes.len()]))
    }

    /// Writes, without end.
    pub fn writes(mut self) -> impl Iterator<Item = Case> {
        self.bad_turns[1] = BAD_K.len() - 2;
        let recipes = write_recipes();
        (0..).map(move |n| self.write(&recipes[n % recipes.len()]))
    }

    /// Walks, without end.
    pub fn walks(mut self) -> impl Iterator<Item = Case> {
        let recipes = walk_recipes();
        (0..).map(move |n| self.step(&recipes[n % recipes.len()]))
    }

    /// At each of several small shapes, of a valid stripe and with each column wrong: a check, a locate, a rewrite of
    /// every column, and every set of at most two absent columns; and checks and locates of the stripe that is all zero, and
    /// of it with one byte set; and requests about valid stripes with every two columns wrong. Then a few requests at large
    /// shapes, the gaps of a few maps for every k from 0 to 130, and lengths for every m from 0 to 140. Then come changes of
    /// every cell at the small shapes, and of a few at large ones, and lists of changes. Last are writes and walks, from a seed of
    /// their own.
    pub fn every_pattern(mut self) -> Vec<Request> {
        let mut images = Maker::new(self.random.0 ^ 1 << 60);
        let mut requests = Vec::new();
        for (m, k, b) in SMALL {
            let shape = Shape { m, k, b };
            let columns = shape.columns();
            for wrong in 0..=columns {
                let mut stripe = self.valid_stripe(shape);
                if wrong < columns {
                    self.hurt(shape, &mut stripe, wrong);
                }
                requests.push(Request::Check(shape, stripe.clone()));
                requests.push(Request::Locate(shape, stripe.clone()));
                requests.extend((0..columns).map(|told| Request::Rewrite(shape, stripe.clone(), told)));
                for first in 0..=columns {
                    for second in first..=columns {
                        let map = Map::all_but(columns, &[first, second]);
                        let mut read = stripe.clone();
                        for column in [first, second].into_iter().filter(|&column| column < columns) {
                            self.hurt(shape, &mut read, column);
                        }
                        let bench = self.random.bytes(shape.bench_length());
                        requests.push(Request::Restore(shape, map, read, bench));
                    }
                }
            }
            requests.extend(self.one_byte(shape));
            requests.extend(self.every_two_wrong(shape));
        }
        for (m, k, b) in LARGE {
            requests.extend(self.large(Shape { m, k, b }));
        }
        for (m, k, b) in LARGE_REWRITES {
            requests.extend(self.large_rewrites(Shape { m, k, b }));
        }
        let (m, k, b) = WIDE;
        requests.extend(self.wide(Shape { m, k, b }));
        for (m, k, b) in FAINT {
            let shape = Shape { m, k, b };
            for faint in [Faint::Nothing, Faint::First, Faint::Last, Faint::LastByte] {
                requests.extend(check_and_locate(shape, self.faint(shape, faint)));
            }
        }
        for k in 0..=130 {
            requests.extend(EVERY_GAP_MAPS.map(|kind| Request::Gaps(k, self.gap_map(kind, k))));
        }
        for m in 0..=140 {
            for k in [0, 1, m, m + 1] {
                requests.extend(EVERY_LENGTH_B.map(|b| Request::Lengths(Shape { m, k, b })));
            }
        }
        for (m, k, b) in SMALL {
            let cells = (0..k).flat_map(|column| (0..m - 1).map(move |row| (column, row))).collect();
            requests.extend(self.changes_of(Shape { m, k, b }, cells, true));
        }
        for (m, k, b) in LARGE_CHANGES {
            // Corners of the data, cells on the diagonal of S at both its ends and between, and the first and the last that wrap.
            let (last, middle) = (k - 1, k / 2);
            let corners = [(0, 0), (0, m - 2), (last, m - 2)];
            let on_s = [(1, m - 2), (middle, m - 1 - middle), (last, m - 1 - last)];
            let wrapping = [(2, m - 2), (last, m - last)];
            let cells = corners.into_iter().chain(on_s).chain(wrapping).collect();
            requests.extend(self.changes_of(Shape { m, k, b }, cells, false));
        }
        for (m, k, b) in SMALL {
            requests.extend(self.lists_of_all(Shape { m, k, b }));
        }
        requests.extend(self.every_list());
        for (m, k, b) in LARGE_CHANGES {
            requests.extend(self.large_lists(Shape { m, k, b }));
        }
        for (m, k, b) in SMALL.into_iter().filter(|(_, k, _)| *k < 6) {
            requests.extend(images.every_map(Shape { m, k, b }));
        }
        for (m, k, b) in LARGE {
            requests.extend(images.large_writes(Shape { m, k, b }));
        }
        requests.extend(images.largest_image());
        requests
    }

    /// A stripe of any bytes is written with every map of its columns, into a buffer of the image's length; and each image is
    /// walked from every place, up to one that is refused.
    fn every_map(&mut self, shape: Shape) -> Vec<Request> {
        let columns = shape.columns();
        let mut requests = Vec::new();
        for set in 0..1usize << columns {
            let absent: Vec<usize> = (0..columns).filter(|column| set >> column & 1 == 1).collect();
            let map = Map::all_but(columns, &absent);
            let stripe = self.random.bytes(shape.stripe_length());
            let image = self.draw(shape, &absent, &stripe, &[]);
            let lent = self.random.bytes(image.len());
            requests.push(Request::Write(shape, map, stripe.into(), lent.into()));
            requests.extend((0..=columns + 1).map(|place| Request::Walk(image.clone().into(), place)));
        }
        requests
    }

    /// Each number of absent columns: a write into a buffer of the image's length, and into one that is a byte shorter.
    fn large_writes(&mut self, shape: Shape) -> Vec<Request> {
        let mut requests = Vec::new();
        for kind in LACKING.into_iter().filter(|&kind| kind != "more" || shape.columns() > 4) {
            let absent = self.lacking(shape, kind);
            let map = Map::all_but(shape.columns(), &absent);
            let room = room_needed(shape, &map);
            for room in [room, room - 1] {
                let [stripe, lent] = [shape.stripe_length(), room].map(|count| Bytes::Drawn(count, self.random.next()));
                requests.push(Request::Write(shape, map, stripe, lent));
            }
        }
        requests
    }

    /// As many columns as there can be, with the longest cells: writes with all of them present, one absent and all absent, into
    /// buffers of the image's length, or one byte shorter or longer; and walks of these images, their contents, and a read.
    fn largest_image(&mut self) -> Vec<Request> {
        let shape = Shape { m: 127, k: 127, b: 4096 };
        let (one, seed) = (1 + self.random.below(127), self.random.next());
        let [whole, without, none] = [vec![], vec![one], (0..PLACES).collect()].map(|absent| Map::all_but(PLACES, &absent));
        let mut requests = Vec::new();
        let needed = |map: &Map| room_needed(shape, map);
        let all = needed(&whole);
        for (map, room) in
            [(whole, all), (whole, all - 1), (whole, all + 1), (without, needed(&without)), (none, needed(&none))]
        {
            let (stripe, lent) = (Bytes::Drawn(shape.stripe_length(), seed), Bytes::Drawn(room, self.random.next()));
            requests.push(Request::Write(shape, map, stripe, lent));
        }
        let places: [&[usize]; 3] = [&[0, 1, 64, 128, 129, 130, MAX], &[one - 1, one, one + 1], &[0, 129, 130]];
        for (map, places) in [whole, without, none].into_iter().zip(places) {
            requests.extend(places.iter().map(|&place| Request::Walk(Bytes::Image(shape, map, seed), place)));
            requests.push(Request::Contents(Bytes::Image(shape, map, seed)));
        }
        let lent = Bytes::Drawn(shape.stripe_length(), self.random.next());
        requests.push(Request::Read(Bytes::Image(shape, without, seed), lent));
        requests
    }

    /// A stripe, one of each kind by turns, and the cells named get any bytes.
    fn any_list(&mut self, shape: Shape, named: Vec<Place>, turn: usize) -> (Vec<u8>, Vec<usize>, Vec<usize>, Vec<u8>) {
        let (column, row) = named.first().copied().unwrap_or((0, 0));
        let stripe = self.stripe_to_change(shape, CHANGED_STRIPES[turn % 3], column, row, turn);
        let cells = self.random.bytes(named.len() * shape.b);
        let (columns, rows) = named.into_iter().unzip();
        (stripe, columns, rows, cells)
    }

    /// Every cell of the data once, in order and turned; twice, next to each other and all once more; and three times, so that in
    /// the end it holds what it held.
    fn lists_of_all(&mut self, shape: Shape) -> Vec<Request> {
        let Shape { m, k, b } = shape;
        let all: Vec<Place> = (0..k).flat_map(|column| (0..m - 1).map(move |row| (column, row))).collect();
        let turned: Vec<Place> = all.iter().rev().copied().collect();
        let pairs = all.iter().flat_map(|&cell| [cell, cell]).collect();
        let orders = [all.clone(), turned.clone(), pairs, [&all[..], &turned].concat(), [&all[..], &all, &all].concat()];
        let mut requests = Vec::new();
        let start = self.random.below(BREAKS.len());
        for (n, named) in orders.into_iter().enumerate() {
            for turn in 2 * n..2 * n + 2 {
                let (stripe, columns, rows, mut cells) = self.any_list(shape, named.clone(), start + turn);
                if n == 4 { cells[2 * all.len() * b..].copy_from_slice(&stripe[..all.len() * b]); }
                requests.push(Request::Changes(shape, stripe, columns, rows, cells));
            }
        }
        requests
    }

    /// At small shapes lists of every count from 0 to 260, and one of so many items that cut to sixteen bits it is one; of 256
    /// items every one refused, for its column and for its row, and all at once with the largest numbers there are; of four items
    /// every one and every two, for each; and few columns, rows and bytes, in every number of each.
    fn every_list(&mut self) -> Vec<Request> {
        let mut requests = Vec::new();
        let c1_shape = Shape { m: 3, k: 3, b: 1 };
        for count in (0..=260).chain([(1 << 16) + 1]) {
            let named = self.named(c1_shape, Named::Any, count, 0).0;
            let (stripe, columns, rows, cells) = self.any_list(c1_shape, named, count);
            requests.push(Request::Changes(c1_shape, stripe, columns, rows, cells));
        }
        for largest in [[MAX, MAX], [0, MAX], [MAX, 0]] {
            let (stripe, cells) = (self.valid_stripe(c1_shape), self.random.bytes(MOST_ITEMS));
            let [columns, rows] = largest.map(|number| vec![number; MOST_ITEMS]);
            requests.push(Request::Changes(c1_shape, stripe, columns, rows, cells));
        }
        let mut with_bad = |maker: &mut Maker, shape: Shape, count: usize, bad: &[(usize, u8)], turn: usize| {
            let named = maker.named(shape, Named::Any, count, 0).0;
            let (stripe, mut columns, mut rows, cells) = maker.any_list(shape, named, turn);
            for &(item, number) in bad {
                let (to, limit) = if number == BAD_NUMBER { (&mut columns, shape.k) } else { (&mut rows, shape.m - 1) };
                to[item] = maker.random.one_of(&[limit, limit + 1, MAX]);
            }
            requests.push(Request::Changes(shape, stripe, columns, rows, cells));
        };
        for (item, number) in (0..MOST_ITEMS).flat_map(|item| [(item, BAD_NUMBER), (item, BAD_ROW)]) {
            with_bad(self, c1_shape, MOST_ITEMS, &[(item, number)], item);
        }
        let four: Vec<(usize, u8)> = (0..4).flat_map(|item| [(item, BAD_NUMBER), (item, BAD_ROW)]).collect();
        for (n, &one) in four.iter().enumerate() {
            let shape = Shape { m: 5, k: 3, b: 2 };
            with_bad(self, shape, 4, &[one], n);
            four[n + 1..].iter().for_each(|&other| with_bad(self, shape, 4, &[one, other], n));
        }
        for b in [1, 2] {
            for (columns, rows) in (0..4).flat_map(|columns| (0..4).map(move |rows| (columns, rows))) {
                for bytes in 0..=3 * b + 1 {
                    let shape = Shape { b, ..c1_shape };
                    let stripe = self.stripe_to_change(shape, CHANGED_STRIPES[bytes % 3], 0, 0, bytes);
                    let mut some = |count: usize, limit: usize| (0..count).map(|_| self.random.below(limit)).collect();
                    let (columns, rows) = (some(columns, 3), some(rows, 2));
                    requests.push(Request::Changes(shape, stripe, columns, rows, self.random.bytes(bytes)));
                }
            }
        }
        requests
    }

    /// As many drawn cells as a list can have, in a valid stripe, and one less on the diagonal of S, in a broken one; but with
    /// cells of 4095 bytes, and of 4096 on the diagonal, twenty. With the shortest and the longest cells the first list again,
    /// with its last item refused.
    fn large_lists(&mut self, shape: Shape) -> Vec<Request> {
        let b = shape.b;
        let named = self.named(shape, Named::Any, if b == 4095 { 20 } else { MOST_ITEMS }, 0).0;
        let (stripe, columns, rows, cells) = self.any_list(shape, named, 0);
        let on_s = self.named(shape, Named::OnS, if b > 512 { 20 } else { MOST_ITEMS - 1 }, 0).0;
        let (broken, columns_on_s, rows_on_s, cells_on_s) = self.any_list(shape, on_s, 1);
        let mut requests = vec![
            Request::Changes(shape, stripe.clone(), columns.clone(), rows.clone(), cells.clone()),
            Request::Changes(shape, broken, columns_on_s, rows_on_s, cells_on_s),
        ];
        if b == 1 || b == 4096 {
            let refused = [&columns[..MOST_ITEMS - 1], &[shape.k]].concat();
            requests.push(Request::Changes(shape, stripe, refused, rows, cells));
        }
        requests
    }

    /// Of each cell a change in a valid stripe and in one that is broken, or of the two by turns. Ways to break come in turn.
    fn changes_of(&mut self, shape: Shape, cells: Vec<(usize, usize)>, both: bool) -> Vec<Request> {
        let mut requests = Vec::new();
        let start = self.random.below(BREAKS.len());
        for (n, (column, row)) in cells.into_iter().enumerate() {
            let kinds = if both { 0..2 } else { n % 2..n % 2 + 1 };
            for kind in &["valid", "broken"][kinds] {
                let stripe = self.stripe_to_change(shape, kind, column, row, start + n);
                let new = self.random.bytes(shape.b);
                requests.push(Request::Change(shape, stripe, column, row, new));
            }
        }
        requests
    }

    /// The stripe that is all zero, and it with the first or the last byte of a column set: a check and a locate of each.
    fn one_byte(&mut self, shape: Shape) -> Vec<Request> {
        let zero = self.faint(shape, Faint::Nothing);
        let mut requests = Vec::from(check_and_locate(shape, zero.clone()));
        for column in 0..shape.columns() {
            for place in [shape.column(column).start, shape.column(column).end - 1] {
                let mut stripe = zero.clone();
                stripe[place] = self.random.nonzero();
                requests.extend(check_and_locate(shape, stripe));
            }
        }
        requests
    }

    /// A check of a valid stripe, and with every two of its columns changed in two ways: so that a locate names a third, a
    /// check, the locate and a rewrite of the third; and so that it gives 6, a check and the locate.
    fn every_two_wrong(&mut self, shape: Shape) -> Vec<Request> {
        let columns = shape.columns();
        let valid = self.valid_stripe(shape);
        let mut requests = vec![Request::Check(shape, valid.clone())];
        for (x, y) in (0..columns).flat_map(|x| (x + 1..columns).map(move |y| (x, y))) {
            let others: Vec<usize> = (0..columns).filter(|&column| column != x && column != y).collect();
            let third = self.random.one_of(&others);
            let named = self.accuse(shape, &valid, [x, y], third);
            requests.extend(check_and_locate(shape, named.clone()));
            requests.push(Request::Rewrite(shape, named, third));
            // Most changes are so, and some are at every shape: one bit in one column and another bit in the other.
            loop {
                let mut stripe = valid.clone();
                [x, y].into_iter().for_each(|column| self.hurt(shape, &mut stripe, column));
                if locate(shape, &stripe).number == NONE_NEAR {
                    requests.extend(check_and_locate(shape, stripe));
                    break;
                }
            }
        }
        requests
    }

    /// A valid stripe with two columns changed so that a locate names a third: they come from another valid stripe, which
    /// differs in these three. One of them is changed for it, and the two others are fitted.
    fn accuse(&mut self, shape: Shape, valid: &[u8], [x, y]: [usize; 2], third: usize) -> Vec<u8> {
        let mut stripe = valid.to_vec();
        let [changed, fitted @ ..] = self.random.one_of(&[[x, y, third], [y, third, x], [third, x, y]]);
        self.hurt(shape, &mut stripe, changed);
        fit(shape, &mut stripe, fitted);
        stripe[shape.column(third)].copy_from_slice(&valid[shape.column(third)]);
        stripe
    }

    /// A valid stripe, and it with two columns changed, so that a third one is named or at random. Kinds of shapes come in
    /// turn, and beside them kinds of the third column, which after nine turns were each met with each, or of the two, which
    /// were so after twelve.
    fn sound(&mut self, named: bool) -> (Vec<u8>, TwoWrong) {
        let turn = self.sound_turns[named as usize];
        self.sound_turns[named as usize] += 1;
        let kind = EXTENTS[(if named { turn + turn / 3 } else { turn }) % 3];
        // With two data columns both of them can be changed, and there is one more besides the two and the third.
        let shape = self.shape_where(|s| extent(s) == kind && s.k > 1);
        let valid = self.valid_stripe(shape);
        if named {
            let third = self.absent(shape, KINDS[turn % 3])[0];
            let columns = self.random.two(shape.k + 1).map(|column| column + (column >= third) as usize);
            let stripe = self.accuse(shape, &valid, columns, third);
            return (valid, TwoWrong { shape, stripe, columns, third: Some(third) });
        }
        let two = self.absent(shape, PATTERNS[4 + turn % 4]);
        let mut stripe = valid.clone();
        two.iter().for_each(|&column| self.hurt(shape, &mut stripe, column));
        (valid, TwoWrong { shape, stripe, columns: [two[0], two[1]], third: None })
    }

    /// A request about a stripe with two wrong columns.
    fn about_two_wrong(&mut self, word: &str, columns: &str) -> Case {
        let TwoWrong { shape, stripe, columns: two, third } = self.two_wrong.clone().expect("a `Sound` comes first");
        let others: Vec<usize> = (0..shape.columns()).filter(|c| !two.contains(c) && third != Some(*c)).collect();
        let told = match columns {
            "one" => vec![self.random.one_of(&two)],
            "both" => two.to_vec(),
            "third" => vec![third.expect("a third is named")],
            "other" => vec![self.random.one_of(&others)],
            "other pair" => loop {
                let pair = self.random.two(shape.columns());
                if !pair.iter().all(|column| two.contains(column)) { break pair.to_vec(); }
            },
            _ => vec![],
        };
        let bench = self.random.bytes(shape.bench_length());
        let expected = match (word, columns) {
            ("locate", _) if third.is_none() => None,
            (_, "one" | "other") => Some(NONE_FITS),
            _ => Some(FINE),
        };
        let request = match word {
            "check" => Request::Check(shape, stripe),
            "locate" => Request::Locate(shape, stripe),
            "rewrite" => Request::Rewrite(shape, stripe, told[0]),
            _ => Request::Restore(shape, Map::all_but(shape.columns(), &told), stripe, bench),
        };
        Case { request, expected }
    }

    /// A valid stripe restored with one column absent, and with one data column rewritten that holds anything; with one
    /// byte of the last row wrong in D, a check, a locate, and the restore and the rewrite again, which none fits; and with
    /// one byte of the first row wrong, a check and the restore again.
    fn wide(&mut self, shape: Shape) -> Vec<Request> {
        let Shape { m, k, b } = shape;
        let mut stripe = self.random.bytes(shape.stripe_length());
        encode(shape, &mut stripe);
        let sound = self.large_restore(shape, "data", &stripe);
        let rewritten = self.large_rewrite(shape, "data", &stripe);
        stripe[shape.column(k + 1)][(m - 2) * b + self.random.below(b)] ^= self.random.nonzero();
        let torn = self.large_restore(shape, "data", &stripe);
        let refused = self.large_rewrite(shape, "data", &stripe);
        let mut first = stripe.clone();
        encode(shape, &mut first);
        first[shape.column(k + 1)][self.random.below(b)] ^= self.random.nonzero();
        let torn_first = self.large_restore(shape, "data", &first);
        let (check, locate) = (Request::Check(shape, stripe.clone()), Request::Locate(shape, stripe));
        vec![sound, rewritten, check, locate, torn, refused, Request::Check(shape, first), torn_first]
    }

    /// A rewrite of each kind of column; and, with one byte of the last row wrong in D, in a data column or in H, a rewrite
    /// of another column, which none fits, and where cells are short a locate.
    fn large_rewrites(&mut self, shape: Shape) -> Vec<Request> {
        let Shape { m, k, b } = shape;
        let mut stripe = self.random.bytes(shape.stripe_length());
        encode(shape, &mut stripe);
        let mut requests: Vec<Request> = KINDS.iter().map(|kind| self.large_rewrite(shape, kind, &stripe)).collect();
        for (kind, wrong) in [("data", k + 1), ("H", self.random.below(k)), ("D", k)] {
            let mut stripe = stripe.clone();
            stripe[shape.column(wrong)][(m - 2) * b + self.random.below(b)] ^= self.random.nonzero();
            requests.push(self.large_rewrite(shape, kind, &stripe));
            if b < 128 { requests.push(Request::Locate(shape, stripe)); }
        }
        requests
    }

    /// A rewrite of a column of this kind, which holds anything.
    fn large_rewrite(&mut self, shape: Shape, kind: &str, stripe: &[u8]) -> Request {
        let column = self.absent(shape, kind)[0];
        let mut stripe = stripe.to_vec();
        stripe[shape.column(column)].iter_mut().for_each(|x| *x = self.random.byte());
        Request::Rewrite(shape, stripe, column)
    }

    /// An encode, a restore for each kind of at most two absent columns, and, with one byte of the last row wrong in a
    /// data column, in H or in D, a check, a locate and restores with at most one column absent, but not the wrong H or D.
    fn large(&mut self, shape: Shape) -> Vec<Request> {
        let Shape { m, k, b } = shape;
        let mut requests = vec![Request::Encode(shape, self.random.bytes(shape.stripe_length()))];
        let mut stripe = self.random.bytes(shape.stripe_length());
        encode(shape, &mut stripe);
        for pattern in &PATTERNS[..8] {
            requests.push(self.large_restore(shape, pattern, &stripe));
        }
        for (kind, wrong) in [("any", self.random.below(k)), ("H", k), ("D", k + 1)] {
            let mut stripe = stripe.clone();
            stripe[shape.column(wrong)][(m - 2) * b + self.random.below(b)] ^= self.random.nonzero();
            requests.push(Request::Check(shape, stripe.clone()));
            requests.push(Request::Locate(shape, stripe.clone()));
            for pattern in AT_MOST_ONE.into_iter().filter(|&pattern| pattern != kind) {
                requests.push(self.large_restore(shape, pattern, &stripe));
            }
        }
        requests
    }

    fn large_restore(&mut self, shape: Shape, pattern: &str, stripe: &[u8]) -> Request {
        let absent = self.absent(shape, pattern);
        let mut read = stripe.to_vec();
        for byte in absent.iter().flat_map(|&column| shape.column(column)) {
            read[byte] = self.random.byte();
        }
        let bench = self.random.bytes(shape.bench_length());
        Request::Restore(shape, Map::all_but(shape.columns(), &absent), read, bench)
    }

    pub fn shelf_images(mut self, count: usize) -> impl Iterator<Item = (Vec<u8>, Option<u8>)> {
        (0..count).map(move |turn| self.shelf_image(turn))
    }

    /// Some shapes take the cell sizes in turn, some the primes in turn, the rest are drawn.
    fn shape(&mut self) -> Shape {
        loop {
            let (m, b, budget) = match self.random.below(6) {
                0 => {
                    self.size_turn += 1;
                    let b = SIZES[self.size_turn % SIZES.len()];
                    let small = if b > 100 { 2 } else { 5 };
                    (self.primes[self.random.below(small)], b, 3_000.max(12 * b))
                }
                1 => {
                    self.prime_turn += 1;
                    let m = self.primes[self.prime_turn % self.primes.len()];
                    (m, self.random.one_of(&[1, 1, 2, 3]), 18_000)
                }
                2 => (self.primes[self.random.below(10)], self.random.one_of(&SIZES), 12_000),
                _ => (self.primes[self.random.below(5)], self.random.one_of(&SIZES[..8]), 3_000),
            };
            let k = match self.random.below(6) {
                0 => 1,
                1 => m,
                2 | 3 => 1 + self.random.below(m.min(4)),
                _ => 1 + self.random.below(m),
            };
            if (k + 4) * (m - 1) * b <= budget {
                return Shape { m, k, b };
            }
        }
    }

    fn shape_where(&mut self, wanted: impl Fn(Shape) -> bool) -> Shape {
        loop {
            let shape = self.shape();
            if wanted(shape) { return shape; }
        }
    }

    /// The shape with those of its numbers wrong whose refusals are named, the bad values in turn or drawn.
    fn spoil(&mut self, good: Shape, wrong: &[u8], in_turn: bool, wanted: impl Fn(Shape) -> bool) -> Shape {
        loop {
            let mut shape = good;
            for (n, number) in SHAPE_ORDER.into_iter().enumerate().filter(|(_, number)| wrong.contains(number)) {
                self.bad_turns[n] += in_turn as usize;
                let turn = if in_turn { self.bad_turns[n] } else { self.random.below(1000) };
                match number {
                    WRONG_M => {
                        shape.m = BAD_M[turn % BAD_M.len()];
                        shape.k = good.k.min(shape.m).max(1);
                    }
                    WRONG_K => shape.k = self.bad_k(shape.m, turn),
                    _ => shape.b = BAD_B[turn % BAD_B.len()],
                }
            }
            let k_is_right = 1 <= shape.k && shape.k <= shape.m;
            if !(wrong.contains(&WRONG_K) && k_is_right) && wanted(shape) { return shape; }
        }
    }

    /// A value that no m allows, one that is right for a larger m, or one too many for this m.
    fn bad_k(&mut self, m: usize, turn: usize) -> usize {
        match turn % (BAD_K.len() + 8) {
            n if n < BAD_K.len() => BAD_K[n],
            n if n < BAD_K.len() + 6 && m < 127 => m + 1 + self.random.below(127 - m),
            _ => m.saturating_add(1),
        }
    }

    fn valid_stripe(&mut self, shape: Shape) -> Vec<u8> {
        let mut stripe = vec![0; shape.stripe_length()];
        let way = self.random.below(8);
        for byte in &mut stripe[..shape.k * shape.column_length()] {
            *byte = match way {
                0 => 0,
                1 => self.random.byte() & 1,
                2 if self.random.below(20) > 0 => 0,
                _ => self.random.byte(),
            };
        }
        encode(shape, &mut stripe);
        stripe
    }

    /// A stripe that is zero but for what is named.
    fn faint(&mut self, shape: Shape, faint: Faint) -> Vec<u8> {
        let Shape { m, k, b } = shape;
        let mut stripe = vec![0; shape.stripe_length()];
        let (data, length) = (k * shape.column_length(), stripe.len());
        let (cell, lane) = (b * self.random.below(k * (m - 1)), self.random.below(b));
        let within = self.random.below(shape.column_length());
        let (places, valid): (Vec<usize>, bool) = match faint {
            Faint::Nothing => (vec![], true),
            Faint::First => (vec![0], false),
            Faint::Last => (vec![length - 1], false),
            Faint::Any => (vec![self.random.below(length)], false),
            Faint::H => (vec![shape.column(k).start + within], false),
            Faint::D => (vec![shape.column(k + 1).start + within], false),
            Faint::Pair => {
                let column = shape.column(self.random.below(k + 2)).start;
                (self.random.two(shape.column_length()).map(|place| column + place).to_vec(), false)
            }
            Faint::LastByte => (vec![data - 1], true),
            Faint::LastColumn => (shape.column(k - 1).collect(), true),
            Faint::Lane => ((lane..data).step_by(b).collect(), true),
            Faint::LastLane => ((b - 1..data).step_by(b).collect(), true),
            Faint::Cell => ((cell..cell + b).collect(), true),
            Faint::Diagonal => {
                let t = 1 + self.random.below(k - 1);
                (vec![shape.column(t).start + (m - 1 - t) * b + lane], true)
            }
            Faint::NoParity => return self.no_parity(shape),
        };
        for place in places {
            stripe[place] = if matches!(faint, Faint::Pair | Faint::Diagonal) { 128 } else { self.random.nonzero() };
        }
        if valid {
            encode(shape, &mut stripe);
        }
        stripe
    }

    /// One data column that is not zero, and two more that are fitted to it and to an H and D of zeros.
    fn no_parity(&mut self, shape: Shape) -> Vec<u8> {
        let fitted = self.random.two(shape.k);
        let others: Vec<usize> = (0..shape.k).filter(|column| !fitted.contains(column)).collect();
        let column = self.random.one_of(&others);
        let mut stripe = vec![0; shape.stripe_length()];
        self.hurt(shape, &mut stripe, column);
        fit(shape, &mut stripe, fitted);
        stripe
    }

    /// Makes one column different from what it was: most of it, one lane, one cell or one byte.
    fn hurt(&mut self, shape: Shape, stripe: &mut [u8], column: usize) {
        let b = shape.b;
        let part = &mut stripe[shape.column(column)];
        let before = part.to_vec();
        while part == before {
            let at = self.random.below(part.len());
            match self.random.below(4) {
                0 => part.iter_mut().for_each(|x| *x = self.random.byte()),
                1 => part.iter_mut().skip(at % b).step_by(b).for_each(|x| *x = self.random.byte()),
                2 => part[at / b * b..at / b * b + b].iter_mut().for_each(|x| *x ^= self.random.nonzero()),
                _ => part[at] ^= self.random.nonzero(),
            }
        }
    }

    fn damage(&mut self, shape: Shape, stripe: &mut Vec<u8>, damage: Damage) {
        let Shape { m, k, b } = shape;
        let columns = match damage {
            Damage::OneColumn => vec![self.random.below(k + 2)],
            Damage::TwoColumns => self.random.two(k + 2).to_vec(),
            Damage::H => vec![k],
            Damage::D => vec![k + 1],
            _ => vec![],
        };
        columns.into_iter().for_each(|column| self.hurt(shape, stripe, column));
        match damage {
            Damage::Lanes => {
                for (column, lane) in self.random.two(k + 2).into_iter().zip(self.random.two(b)) {
                    let row = self.random.below(m - 1);
                    stripe[shape.column(column)][row * b + lane] ^= self.random.nonzero();
                }
            }
            // H and D as they would be if an imaginary column were not zero.
            Damage::Imaginary => {
                let wide = Shape { m, k: m, b };
                let mut error = vec![0; wide.stripe_length()];
                let column = k + self.random.below(m - k);
                self.hurt(wide, &mut error, column);
                encode(wide, &mut error);
                let parity = &error[m * wide.column_length()..];
                stripe[k * shape.column_length()..].iter_mut().zip(parity).for_each(|(x, y)| *x ^= y);
            }
            Damage::Garbage => *stripe = self.random.bytes(stripe.len()),
            Damage::Faint(faint) => *stripe = self.faint(shape, faint),
            _ => {}
        }
    }

    fn absent(&mut self, shape: Shape, pattern: &str) -> Vec<usize> {
        let k = shape.k;
        let data = self.random.below(k);
        match pattern {
            "none" => vec![],
            "data" => vec![data],
            "H" => vec![k],
            "D" => vec![k + 1],
            "data+data" => self.random.two(k).to_vec(),
            "data+H" => vec![data, k],
            "data+D" => vec![data, k + 1],
            "H+D" => vec![k, k + 1],
            "all" => (0..k + 2).collect(),
            _ => {
                let mut rest: Vec<usize> = (0..k + 2).collect();
                let left = if self.random.below(2) == 0 { k - 1 } else { self.random.below(k) };
                for _ in 0..left { rest.remove(self.random.below(rest.len())); }
                rest
            }
        }
    }

    /// A map of so many columns, three or more of them absent or at most two.
    fn map(&mut self, columns: usize, many: bool) -> Map {
        let first = self.random.below(columns);
        let count = if many { 3 + self.random.below(columns - 2) } else { self.random.below(3) };
        let absent: Vec<usize> = (first..first + count).map(|column| column % columns).collect();
        Map::all_but(columns, &absent)
    }

    /// Places in a row: all absent, drawn one by one, or all present.
    fn fill(&mut self, places: &mut [bool]) {
        let way = self.random.below(3);
        places.iter_mut().for_each(|state| *state = way == 2 || way == 1 && self.random.below(2) == 0);
    }

    fn gap_k(&mut self, turn: usize) -> usize {
        match turn % (GAP_KS.len() + 2) {
            n if n < GAP_KS.len() => GAP_KS[n],
            n if n == GAP_KS.len() => 2 + self.random.below(123),
            // Cut to fewer bits, most of these would be a usual k.
            _ => self.random.one_of(&[130, 256, 65_536, 1 << 32, 1 << 63]) + self.random.below(126),
        }
    }

    fn gap_map(&mut self, kind: &str, k: usize) -> Map {
        let columns = k.saturating_add(2).min(PLACES);
        let last = columns - 1;
        let drawn = self.random.below(columns);
        let [low, high] = self.random.two(columns);
        let mut places = [false; PLACES];
        let (below, above) = places.split_at_mut(columns);
        match kind {
            "only-0" => places[0] = true,
            "only-128" => places[PLACES - 1] = true,
            "all" => places.fill(true),
            "drawn" => places.iter_mut().for_each(|state| *state = self.random.below(2) == 0),
            "above" => self.fill(above),
            "no-gap" | "one-gap" | "two-gaps" => {
                below.fill(true);
                self.fill(above);
                match kind {
                    "one-gap" => below[self.random.one_of(&[0, drawn, last])] = false,
                    "two-gaps" => {
                        let pair = self.random.one_of(&[[0, last], [low, high], [low, high], [last - 1, last]]);
                        pair.into_iter().for_each(|place| below[place] = false);
                    }
                    _ => {}
                }
            }
            _ => {}
        }
        Map::counted(places)
    }

    /// Three numbers, right or wrong, of any size, since no buffer has to be made for them. There are 71 kinds of m, 36 of
    /// them wrong, 19 of k, 10 of them wrong, and 23 of b, 8 of them wrong: after 71 turns each was met.
    fn any_numbers(&mut self, turn: usize) -> Shape {
        let m = match turn % 71 {
            n if n < BAD_M.len() => BAD_M[n],
            n if n < BAD_M.len() + self.primes.len() => self.primes[n - BAD_M.len()],
            _ => self.random.one_of(&self.primes),
        };
        let k = match turn % 19 {
            n if n < BAD_K.len() => BAD_K[n],
            8 => m.saturating_add(1),
            9 => m.saturating_add(1 + self.random.below(127)).min(127),
            10 => 1,
            11 => m.max(1),
            _ => 1 + self.random.below(m.clamp(1, 127)),
        };
        let b = match turn % 23 {
            n if n < BAD_B.len() => BAD_B[n],
            8 => 1,
            9 => 4096,
            _ => 1 + self.random.below(4096),
        };
        Shape { m, k, b }
    }

    /// A column number that is too large for so many columns: the lowest, the highest, or another.
    fn bad_column(&mut self, columns: usize) -> usize {
        let low = self.random.below(columns.min(PLACES));
        // Cut to fewer bits, some of these would be a column.
        let other = self.random.one_of(&[columns + 1, 128, 129, 256 + low, (1 << 32) + low, (1 << 63) + low]);
        self.random.one_of(&[columns, other.max(columns), MAX])
    }

    fn bad_length(&mut self, bytes: &mut Vec<u8>, column: usize) {
        // What is all zero stays so.
        let (was, filler) = (bytes.len(), if is_zero(bytes) { 0 } else { self.random.byte() });
        let now = match self.random.below(8) {
            0 => 0,
            1 => was + column,
            2 => was.saturating_sub(column),
            3 | 4 => was.saturating_sub(1),
            _ => was + 1,
        };
        bytes.resize(if now == was { was + 1 } else { now }, filler);
    }

    /// What a call is made with, bearing exactly the faults named. But where the numbers are too large for a stripe
    /// or a bench of their length, 2 or 3 comes along, and for m = 0 no k is right.
    fn scene(&mut self, faults: &[u8], pattern: &'static str, damage: Damage) -> Scene {
        let has = |n: u8| faults.contains(&n);
        let pattern = match pattern {
            "any" if has(4) => "three-or-more",
            "any" if has(5) => self.random.one_of(&AT_MOST_ONE),
            "any" => self.random.one_of(&PATTERNS[..8]),
            named => named,
        };
        // Room for the faults that look at k: a place above the columns, a third column, a number above theirs.
        let has_room = |s: Shape| (!has(9) || s.k < PLACES - 2) && (!has(4) || s.k > 0) && (!has(7) || s.k < MAX - 2);
        let good = self.shape_where(|s| (pattern != "data+data" || s.k > 1) && damage.can_be_at(s) && has_room(s));
        let absent = self.absent(good, pattern);
        let mut map = Map::all_but(good.columns(), &absent);
        let mut stripe = self.valid_stripe(good);
        self.damage(good, &mut stripe, damage);
        if has(5) {
            let present: Vec<usize> = (0..good.columns()).filter(|c| !absent.contains(c)).collect();
            let column = self.random.one_of(&present);
            self.hurt(good, &mut stripe, column);
        }
        let stale = self.random.below(6);
        for column in absent {
            let part = &mut stripe[good.column(column)];
            match stale {
                0 => {}
                1 => part.fill(0),
                2 => part.fill(255),
                3 => self.hurt(good, &mut stripe, column),
                _ => part.iter_mut().for_each(|x| *x = self.random.byte()),
            }
        }
        let mut bench = self.random.bytes(good.bench_length());
        // A number that is the only fault takes its bad values in turn, so that all of them are met.
        let shape = self.spoil(good, faults, faults.len() == 1, has_room);
        let columns = shape.k.saturating_add(2).min(PLACES);
        if shape.k != good.k { map = self.map(columns, has(4)); }
        if has(9) {
            let drawn = columns + self.random.below(PLACES - columns);
            map.places[self.random.one_of(&[columns, PLACES - 1, drawn])] = true;
            map = Map::counted(map.places);
        }
        // Where a bad shape still has small products, the lengths follow it.
        let column = shape.m.wrapping_sub(1).wrapping_mul(shape.b);
        if shape != good { follow(shape, &mut stripe); }
        if shape != good && column <= 10_000 { bench.resize(2 * column, 7); }
        if has(2) { self.bad_length(&mut stripe, good.column_length()); }
        if has(3) { self.bad_length(&mut bench, good.column_length()); }
        Scene { shape, map, stripe, bench }
    }

    /// A shape of this kind that has a cell of this kind.
    fn shape_to_change(&mut self, kind: &str, cell: &str) -> Shape {
        loop {
            // Of the drawn shapes with the longest cells none has three data columns.
            let s = match kind {
                "b=4096" => Shape { m: 3, k: 1 + self.random.below(3), b: 4096 },
                "m=k=127" => Shape { m: 127, k: 127, b: 1 },
                _ => self.shape(),
            };
            let is_kind = match kind {
                "b=1" => s.b == 1,
                "b=4096" | "m=k=127" => true,
                "k=1" => s.k == 1,
                "k=m" => s.k == s.m,
                // So short that most wrong numbers leave a stripe that can be made.
                "short" => s.column_length() <= 100,
                _ => extent(s) == kind && s.b > 1,
            };
            let has_cell = match cell {
                "on S" => s.k > 1,
                "wrapping" => s.k > 2,
                _ => true,
            };
            if is_kind && has_cell { return s; }
        }
    }

    /// The column and the row of a cell of this kind.
    fn cell_to_change(&mut self, shape: Shape, kind: &str, turn: usize) -> (usize, usize) {
        let Shape { m, k, .. } = shape;
        let row = match turn % 3 {
            0 => 0,
            1 => m - 2,
            _ => self.random.below(m - 1),
        };
        match kind {
            "on S" => {
                let column = 1 + self.random.below(k - 1);
                (column, m - 1 - column)
            }
            "wrapping" => {
                let column = 2 + self.random.below(k - 2);
                (column, m - column + self.random.below(column - 1))
            }
            "first" => (0, row),
            "last" => (k - 1, row),
            _ => (self.random.below(k), row),
        }
    }

    /// A valid stripe with some byte that is not zero; or such a one, broken; or zeros.
    fn stripe_to_change(&mut self, shape: Shape, kind: &str, column: usize, row: usize, turn: usize) -> Vec<u8> {
        let Shape { m, k, b } = shape;
        let mut stripe = vec![0; shape.stripe_length()];
        if kind == "zero" { return stripe; }
        while is_blank(&stripe) { stripe = self.valid_stripe(shape); }
        if kind == "valid" { return stripe; }
        // On the diagonal of S all cells of D depend on it.
        let diagonal = if column + row == m - 1 { self.random.below(m - 1) } else { (column + row) % m };
        let other = (row + 1 + self.random.below(m - 2)) % (m - 1);
        let place = match BREAKS[turn % BREAKS.len()] {
            Break::Itself => shape.cell_bytes(row, column),
            Break::OwnRow => shape.cell_bytes(row, k),
            Break::OwnDiagonal => shape.cell_bytes(diagonal, k + 1),
            Break::Elsewhere => shape.cell_bytes(other, k),
            Break::Any(damage) => {
                let damage = if damage.can_be_at(shape) { damage } else { Damage::OneColumn };
                self.damage(shape, &mut stripe, damage);
                return stripe;
            }
        };
        stripe[place.start + self.random.below(b)] ^= self.random.nonzero();
        stripe
    }

    /// A change that bears exactly the faults named. But as in a scene others may come along with a wrong number of the shape:
    /// for m = 0 and 1 no row is right, for k = 0 no column, and cells that are too long are not made.
    fn change(&mut self, recipe: &Change) -> Case {
        let Change { ref faults, way, turn, .. } = *recipe;
        let has = |number: u8| faults.contains(&number);
        let good = self.shape_to_change(recipe.shape, recipe.cell);
        let (mut column, mut row) = self.cell_to_change(good, recipe.cell, turn);
        let mut stripe = self.stripe_to_change(good, recipe.stripe, column, row, turn);
        let mut new = stripe[good.cell_bytes(row, column)].to_vec();
        match recipe.new {
            "zeros" => new.fill(0),
            "one byte" => new[self.random.below(good.b)] ^= self.random.nonzero(),
            "all bytes" => new.iter_mut().for_each(|byte| *byte ^= self.random.nonzero()),
            _ => {}
        }
        let shape = self.spoil(good, faults, faults.len() == 1, |s| !has(7) || s.k < MAX - 2);
        let Shape { m, k, b } = shape;
        let rows = m.saturating_sub(1);
        if shape != good {
            follow(shape, &mut stripe);
            column = column.min(k.saturating_sub(1));
            row = row.min(rows.saturating_sub(1));
            if b <= 10_000 { new.resize(b, 7); }
        }
        if has(2) { self.bad_length(&mut stripe, good.column_length()); }
        // Cut to fewer bits, these would be the right ones. With b=1 it is the number that stands for no column.
        let far = |right: usize| if recipe.shape == "b=1" { 129 } else { FAR[turn % 3] + right };
        if has(7) { column = [k, k + 1, k + 2, far(column).max(k + 3), MAX][way % 5]; }
        if has(11) { row = [rows, m, far(row).max(m.saturating_add(1)), MAX][way % 4]; }
        if has(14) {
            let right = new.len();
            let length = [0, right.saturating_sub(1), right + 1, good.column_length()][way % 4];
            new.resize(if length == b { right + 1 } else { length }, 7);
        }
        let expected = CHANGE_ORDER.into_iter().find(|&number| has(number)).unwrap_or(FINE);
        Case { request: Request::Change(shape, stripe, column, row, new), expected: Some(expected) }
    }

    /// The columns and the rows of so many cells; with them, where one is named several times, which that is. It is on the
    /// diagonal of S or off it, and its items stand next to each other or apart, by turns.
    fn named(&mut self, shape: Shape, named: Named, count: usize, turn: usize) -> (Vec<Place>, Option<Place>) {
        let Shape { m, k, .. } = shape;
        let all = k * (m - 1);
        let place = |cell: usize| (cell / (m - 1), cell % (m - 1));
        let (times, one) = match named {
            Named::OnS => return ((0..count).map(|_| self.cell_to_change(shape, "on S", 0)).collect(), None),
            Named::All => {
                let start = self.random.below(all);
                let in_order = (0..all).map(|n| place((start + n) % all));
                return (if turn % 2 == 0 { in_order.collect() } else { in_order.rev().collect() }, None);
            }
            Named::Any | Named::Held => return ((0..count).map(|_| place(self.random.below(all))).collect(), None),
            Named::Same(times, _) if turn % 2 == 0 => (times, self.cell_to_change(shape, "on S", 0)),
            Named::Same(times, _) => loop {
                let (column, row) = place(self.random.below(all));
                if column + row != m - 1 { break (times, (column, row)); }
            },
        };
        let others: Vec<usize> = (0..all).filter(|&cell| place(cell) != one).collect();
        let mut list: Vec<Place> = (times..count).map(|_| place(self.random.one_of(&others))).collect();
        let middle = list.len() / 2;
        let apart = [0, list.len() + 1, middle + 1];
        for at in &apart[..times] { list.insert(if turn / 2 % 2 == 0 { middle } else { *at }, one); }
        (list, Some(one))
    }

    /// Other bytes than these.
    fn other_cell(&mut self, b: usize, than: &[&[u8]]) -> Vec<u8> {
        loop {
            let new = self.random.bytes(b);
            if !than.contains(&&new[..]) { return new; }
        }
    }

    /// New bytes for the cells named, end to end: drawn ones, zeros, what the cell holds, or one byte of it changed.
    fn new_cells(&mut self, shape: Shape, stripe: &[u8], named: &[Place], how: Named, one: Option<Place>) -> Vec<u8> {
        let b = shape.b;
        let mut cells: Vec<Vec<u8>> = Vec::new();
        for &(column, row) in named {
            let mut new = stripe[shape.cell_bytes(row, column)].to_vec();
            match (how, self.random.below(8)) {
                (Named::Held, _) | (_, 0) => {}
                (_, 1) => new.fill(0),
                (_, 2) => new[self.random.below(b)] ^= self.random.nonzero(),
                _ => new = self.random.bytes(b),
            }
            cells.push(new);
        }
        if let (Named::Same(_, ending), Some((column, row))) = (how, one) {
            let held = stripe[shape.cell_bytes(row, column)].to_vec();
            let items: Vec<usize> = (0..named.len()).filter(|&item| named[item] == (column, row)).collect();
            let first = self.other_cell(b, &[&held]);
            for &item in &items { cells[item] = self.other_cell(b, &[&held, &first]); }
            if ending == "held" { cells[items[items.len() - 1]] = held; }
            if ending == "first" { cells[items[items.len() - 1]] = first.clone(); }
            cells[items[0]] = first;
        }
        cells.concat()
    }

    /// A list of changes that bears exactly the faults named. But as in a change others may come along with a wrong number of the
    /// shape.
    fn list(&mut self, recipe: &List) -> Case {
        let List { ref faults, ref bad, way, turn, .. } = *recipe;
        let has = |number: u8| faults.contains(&number);
        let count = match (recipe.count, way) {
            (_, "257") => MOST_ITEMS + 1,
            (_, "many") => MANY[turn % 3],
            ("some", _) => 8 + self.random.below(33),
            (number, _) => number.parse().expect("a number"),
        };
        let cell = if let Named::OnS | Named::Same(..) = recipe.named { "on S" } else { "any" };
        let good = loop {
            let shape = self.shape_to_change(recipe.shape, cell);
            let all = shape.k * (shape.m - 1);
            if count * shape.b <= LIST_BYTES && (all <= MOST_ITEMS || !matches!(recipe.named, Named::All)) { break shape; }
        };
        let (named, one) = self.named(good, recipe.named, count, turn);
        let (column, row) = named.first().copied().unwrap_or((0, 0));
        let mut stripe = self.stripe_to_change(good, recipe.stripe, column, row, turn);
        let mut cells = self.new_cells(good, &stripe, &named, recipe.named, one);
        let (mut columns, mut rows): (Vec<usize>, Vec<usize>) = named.into_iter().unzip();

        let shape = self.spoil(good, faults, faults.len() == 1 && bad.is_empty(), |s| bad.is_empty() || s.k < MAX - 2);
        let Shape { m, k, b } = shape;
        let height = m.saturating_sub(1);
        if shape != good {
            follow(shape, &mut stripe);
            columns.iter_mut().for_each(|column| *column = (*column).min(k.saturating_sub(1)));
            rows.iter_mut().for_each(|row| *row = (*row).min(height.saturating_sub(1)));
            if b <= 10_000 { cells.resize(count * b, 7); }
        }
        if has(2) { self.bad_length(&mut stripe, good.column_length()); }
        if has(15) {
            let bytes = cells.len();
            match way {
                "a column more" => columns.push(0),
                "a column less" => columns.truncate(count - 1),
                "a row more" => rows.push(0),
                "a row less" => rows.truncate(count - 1),
                "no columns" => columns.clear(),
                "no rows" => rows.clear(),
                "a byte more" => cells.push(7),
                "a byte less" => cells.truncate(bytes.saturating_sub(1)),
                "a cell more" => cells.resize(bytes + good.b, 7),
                "a cell less" => cells.truncate(bytes - good.b),
                "no cells" => cells.clear(),
                "cells alone" => {
                    (columns, rows) = (vec![], vec![]);
                    cells.truncate([bytes, good.b, 1][turn % 3]);
                }
                _ => {}
            }
        }
        let middle = if count > 2 { 1 + self.random.below(count - 2) } else { 0 };
        for &(place, number, way) in bad {
            let (list, limit) = if number == BAD_NUMBER { (&mut columns, k) } else { (&mut rows, height) };
            let value = &mut list[[0, middle, count - 1][place]];
            *value = match way {
                "k" | "m-1" => limit,
                "k+1" | "m" => limit + 1,
                "k+2" => limit + 2,
                "129" => 129,
                "2^8 above" => FAR[0] + *value,
                "2^32 above" => FAR[1] + *value,
                "2^63 above" => FAR[2] + *value,
                _ => MAX,
            };
        }
        let of_item = || bad.iter().map(|&(place, number, _)| (place, number)).min().map_or(FINE, |(_, number)| number);
        let expected = LIST_ORDER.into_iter().find(|&number| has(number)).unwrap_or_else(of_item);
        Case { request: Request::Changes(shape, stripe, columns, rows, cells), expected: Some(expected) }
    }

    /// So many absent columns, or such.
    fn lacking(&mut self, shape: Shape, kind: &str) -> Vec<usize> {
        let columns = shape.columns();
        let count = match kind {
            "one" => 1,
            "two" => 2,
            "three" => 3,
            "more" => 4 + self.random.below(columns - 4),
            _ => return self.absent(shape, kind),
        };
        let mut rest: Vec<usize> = (0..columns).collect();
        while rest.len() > count { rest.remove(self.random.below(rest.len())); }
        rest
    }

    /// A shape of this kind of which so many columns can be absent.
    fn shape_that_lacks(&mut self, kind: &str, lacking: &str) -> Shape {
        loop {
            let s = match kind {
                // Offsets that need more than two bytes.
                "far" => Shape { m: 41, k: 37 + self.random.below(5), b: 48 },
                _ => self.shape_to_change(kind, "any"),
            };
            let enough = match lacking {
                "three" | "data+data" => s.k > 1,
                "more" => s.k > 2,
                _ => true,
            };
            if enough { return s; }
        }
    }

    /// A write that bears exactly the faults named. But as in a scene others may come along with a wrong number of the shape: a
    /// stripe or a buffer that is too long is not made.
    fn write(&mut self, recipe: &Writing) -> Case {
        let Writing { ref faults, way, lacking, turn, .. } = *recipe;
        let has = |number: u8| faults.contains(&number);
        // Places above the columns, and one between the first and the last of them.
        let has_room = |s: Shape| !has(9) || s.k < PLACES - 4;
        let good = loop {
            let shape = self.shape_that_lacks(recipe.shape, lacking);
            if has_room(shape) { break shape; }
        };
        let absent = self.lacking(good, lacking);
        let mut places = Map::all_but(good.columns(), &absent).places;
        let mut stripe = self.stripe_to_change(good, CHANGED_STRIPES[turn % 3], 0, 0, turn);
        if turn % 4 > 0 { absent.iter().for_each(|&column| self.hurt(good, &mut stripe, column)); }
        let shape = self.spoil(good, faults, faults.len() == 1, has_room);
        let columns = shape.k.saturating_add(2).min(PLACES);
        places[columns..].fill(false);
        let body = if absent.len() < good.columns() { good.column_length() } else { 0 };
        let needed = room_needed(shape, &Map::counted(places));
        // Where a bad shape still has small products, the buffer follows it.
        let needed = if needed <= 100_000 { needed } else { room_needed(good, &Map::counted(places)) };
        if shape != good { follow(shape, &mut stripe); }
        if has(2) { self.bad_length(&mut stripe, good.column_length()); }
        if has(9) {
            let between = columns + 1 + self.random.below(PLACES - 2 - columns);
            places[match way {
                "between" => between,
                "128" => PLACES - 1,
                _ => columns,
            }] = true;
        }
        let room = match recipe.room {
            _ if has(16) => match way {
                "a body less" if body > 0 => needed - body,
                "contents" if body > 0 => 8 + 8 * good.columns(),
                "header" => 8,
                "empty" => 0,
                _ => needed - 1,
            },
            "one more" => needed + 1,
            "much more" => needed + 2 + self.random.below(300) + good.column_length(),
            _ => needed,
        };
        let lent = self.random.bytes(room);
        let expected = WRITE_ORDER.into_iter().find(|&number| has(number)).unwrap_or(FINE);
        Case { request: Request::Write(shape, Map::counted(places), stripe.into(), lent.into()), expected: Some(expected) }
    }

    /// A step over an image with these flaws, from a place of this kind.
    fn step(&mut self, recipe: &Step) -> Case {
        let Step { ref flaws, place, turn, .. } = *recipe;
        if !flaws.is_empty() {
            // A body can be cut where there is one.
            let pattern = if flaws.contains(&Flaw::BodyCut) { "data" } else { "any" };
            let (image, number, _) = self.image(flaws, pattern, Damage::None);
            let place = if place == "low" { turn % 4 } else { [130, 256, 1 << 32, MAX][turn / 2 % 4] };
            return Case { request: Request::Walk(image.into(), place), expected: Some(number) };
        }
        let (shape, absent, from) = loop {
            let shape = self.shape_that_lacks(recipe.shape, recipe.lacking);
            let absent = self.lacking(shape, recipe.lacking);
            let end = shape.columns();
            let last = (0..end).rev().find(|column| !absent.contains(column));
            let is_of_kind = |&column: &usize| match place {
                "present" => !absent.contains(&column),
                "absent" => absent.contains(&column) && last > Some(column),
                _ => last < Some(column),
            };
            let right = self.random.below(end + 1);
            let from = match place {
                "0" => 0,
                "k+2" => end,
                "k+3" => end + 1,
                "129" | "130" => place.parse().expect("a number"),
                "2^8 above" => FAR[0] + right,
                "2^32 above" => FAR[1] + right,
                "2^63 above" => FAR[2] + right,
                "max" => MAX,
                _ => {
                    let fitting: Vec<usize> = (0..end).filter(is_of_kind).collect();
                    if fitting.is_empty() { continue; }
                    if recipe.shape == "far" { fitting[fitting.len() - 1] } else { self.random.one_of(&fitting) }
                }
            };
            if place != "129" || end < 129 { break (shape, absent, from); }
        };
        let stripe = self.random.bytes(shape.stripe_length());
        let image = self.draw(shape, &absent, &stripe, &[]);
        let expected = if from > shape.columns() { BAD_IMAGE } else { FINE };
        Case { request: Request::Walk(image.into(), from), expected: Some(expected) }
    }

    fn make(&mut self, recipe: &Recipe) -> Case {
        let first = |order: &[u8], faults: &[u8]| order.iter().copied().find(|n| faults.contains(n)).unwrap_or(FINE);
        match recipe {
            Recipe::Plain(operation, faults, damage) => {
                let s = self.scene(faults, "none", *damage);
                let request = operation(s.shape, s.stripe);
                let expected = match (first(&PLAIN_ORDER, faults), damage, request.word()) {
                    (FINE, Damage::Lanes | Damage::Imaginary, "locate") => Some(NONE_NEAR),
                    (FINE, Damage::TwoColumns | Damage::Garbage, "locate") => None,
                    (number, _, _) => Some(number),
                };
                Case { request, expected }
            }
            Recipe::Restore(faults, pattern, damage) => {
                let s = self.scene(faults, pattern, *damage);
                let expected = match (first(&RESTORE_ORDER, faults), damage) {
                    (FINE, _) if *pattern == "three-or-more" => Some(TOO_MANY_ABSENT),
                    (FINE, Damage::TwoColumns) if *pattern == "none" => Some(NONE_FITS),
                    (FINE, Damage::TwoColumns | Damage::Garbage) if AT_MOST_ONE.contains(pattern) => None,
                    (number, _) => Some(number),
                };
                Case { request: Request::Restore(s.shape, s.map, s.stripe, s.bench), expected }
            }
            Recipe::Rewrite(faults, pattern, damage) => {
                let pattern = match *pattern {
                    // 7 comes without 5 where the stripe is valid.
                    "any" if faults.contains(&7) && !faults.contains(&5) => "none",
                    "any" => self.random.one_of(&KINDS),
                    named => named,
                };
                let s = self.scene(faults, pattern, *damage);
                let columns = s.shape.k.saturating_add(2);
                let absent = s.map.absent_below(columns);
                let column = if faults.contains(&7) {
                    self.bad_column(columns)
                } else if !absent.is_empty() {
                    self.random.one_of(&absent)
                } else {
                    self.random.below(columns.min(PLACES))
                };
                // One wrong column may be the one that is named, and two can look like a third one.
                let expected = match (first(&REWRITE_ORDER, faults), damage) {
                    (FINE, Damage::Lanes | Damage::Imaginary) => Some(NONE_FITS),
                    (FINE, Damage::OneColumn | Damage::TwoColumns | Damage::Garbage) => None,
                    (number, _) => Some(number),
                };
                Case { request: Request::Rewrite(s.shape, s.stripe, column), expected }
            }
            Recipe::Show(faults, pattern) => {
                let s = self.scene(faults, pattern, Damage::None);
                let columns = s.shape.k.saturating_add(2);
                let absent = s.map.absent_below(columns);
                let column = if faults.contains(&7) {
                    self.bad_column(columns)
                } else if !absent.is_empty() && self.random.below(2) == 0 {
                    self.random.one_of(&absent)
                } else {
                    self.random.below(columns.min(PLACES))
                };
                let number = first(&SHOW_ORDER, faults);
                let expected = if number == FINE && absent.len() > 2 { TOO_MANY_ABSENT } else { number };
                Case { request: Request::Show(s.shape, s.map, s.stripe, s.bench, column), expected: Some(expected) }
            }
            Recipe::LongCells(b, told) => {
                let shape = Shape { m: 3, k: 1 + self.random.below(2), b: *b };
                let mut stripe = self.valid_stripe(shape);
                let column = self.random.below(shape.columns());
                self.hurt(shape, &mut stripe, column);
                let request =
                    if *told { Request::Rewrite(shape, stripe, column) } else { Request::Locate(shape, stripe) };
                Case { request, expected: Some(FINE) }
            }
            Recipe::Blank(operation, kind) => {
                let shape = self.shape_where(|s| extent(s) == *kind);
                Case { request: operation(shape, vec![0; shape.stripe_length()]), expected: Some(FINE) }
            }
            Recipe::Sound(named) => {
                let (valid, two_wrong) = self.sound(*named);
                let request = Request::Check(two_wrong.shape, valid);
                self.two_wrong = Some(two_wrong);
                Case { request, expected: Some(FINE) }
            }
            Recipe::TwoWrong(word, columns) => self.about_two_wrong(word, columns),
            Recipe::Mark(good) => {
                let mut states = [false; PLACES];
                self.fill(&mut states);
                let map = Map::counted(states);
                let low = self.random.below(PLACES);
                let places = if *good { [low, low, 0, 128] } else { [129, 130, 256 + low, MAX] };
                let request = Request::Mark(map, self.random.one_of(&places), self.random.below(2) == 0);
                Case { request, expected: Some(if *good { FINE } else { BAD_NUMBER }) }
            }
            // Eleven kinds of k and nine of maps: after 99 turns each was met with each.
            Recipe::Gaps => {
                let turn = self.gap_turn;
                self.gap_turn += 1;
                let k = self.gap_k(turn);
                let map = self.gap_map(GAP_MAPS[turn % GAP_MAPS.len()], k);
                Case { request: Request::Gaps(k, map), expected: Some(FINE) }
            }
            // No refusal is given.
            Recipe::Lengths => {
                let turn = self.length_turn;
                self.length_turn += 1;
                Case { request: Request::Lengths(self.any_numbers(turn)), expected: None }
            }
            Recipe::Contents(flaws, pattern) => {
                let (image, number, _) = self.image(flaws, pattern, Damage::None);
                Case { request: Request::Contents(image.into()), expected: Some(number) }
            }
            Recipe::Read(flaws, pattern, right) => {
                let (image, number, shape) = self.image(flaws, pattern, Damage::None);
                let length = shape.stripe_length();
                let mut stripe = self.random.bytes(if length <= 60_000 { length } else { 0 });
                if !right { self.bad_length(&mut stripe, shape.column_length().min(1_000)); }
                let expected = if number == FINE && stripe.len() != length { BAD_STRIPE } else { number };
                Case { request: Request::Read(image.into(), stripe.into()), expected: Some(expected) }
            }
        }
    }

    /// An image with the flaws named, the number its contents must give, and the shape it was made for.
    fn image(&mut self, flaws: &[Flaw], pattern: &str, damage: Damage) -> (Vec<u8>, u8, Shape) {
        let pattern = if pattern == "any" { self.random.one_of(&PATTERNS) } else { pattern };
        let shape = match pattern {
            "all" if self.random.below(2) == 0 => {
                let (m, drawn) = (self.random.one_of(&self.primes), 1 + self.random.below(4096));
                Shape { m, k: 1 + self.random.below(m), b: self.random.one_of(&[1, 255, 256, drawn, 4096]) }
            }
            // Offsets that need more than two bytes.
            "far" => Shape { m: 41, k: 37 + self.random.below(5), b: 48 },
            _ => self.shape_where(|s| pattern != "data+data" || s.k > 1),
        };
        let absent = self.absent(shape, if pattern == "far" { "data+H" } else { pattern });
        let mut stripe = Vec::new();
        if pattern != "all" {
            stripe = self.valid_stripe(shape);
            self.damage(shape, &mut stripe, damage);
        }
        let image = self.draw(shape, &absent, &stripe, flaws);
        let number = match wrong_numbers(flaws).first() {
            _ if flaws.is_empty() => FINE,
            Some(&number) if !flaws.contains(&Flaw::Short) && !flaws.contains(&Flaw::Fourth) => number,
            _ => BAD_IMAGE,
        };
        (image, number, shape)
    }

    fn draw(&mut self, shape: Shape, absent: &[usize], stripe: &[u8], flaws: &[Flaw]) -> Vec<u8> {
        let columns = shape.columns();
        let start = 8 + 8 * columns;
        let Shape { m, k, b } = self.spoil(shape, &wrong_numbers(flaws), false, |s| s.m.max(s.k).max(s.b) < 65_536);
        let mut header = [m, k, b, 0];
        let mut entries = Vec::new();
        let mut body = Vec::new();
        for column in 0..columns {
            if absent.contains(&column) {
                entries.push([column, 0, 0, 0]);
            } else {
                entries.push([column, 1, 0, start + body.len()]);
                body.extend(&stripe[shape.column(column)]);
            }
        }
        let any = self.random.below(columns);
        let one = if absent.is_empty() || self.random.below(2) == 0 { any } else { self.random.one_of(absent) };
        for flaw in flaws {
            let entry = &mut entries[one];
            match flaw {
                Flaw::Fourth => header[3] = self.random.one_of(&[1, 255, 256, 65_535]),
                Flaw::Offset => entry[3] = self.random.one_of(&[entry[3] + 1, entry[3] ^ 256, entry[3] ^ 1 << 24]),
                Flaw::State => entry[1] = self.random.one_of(&[2, 2, 3, 128, 129, 254, 255]),
                Flaw::Flip => entry[1] ^= 1,
                Flaw::Column => entry[0] = self.random.one_of(&[one + 1, one ^ 1, one + 256, 65_535]),
                Flaw::Swap => entries.swap(one, (one + 1) % columns),
                Flaw::Pad => entry[2] = self.random.nonzero() as usize,
                Flaw::Gap => {
                    body.insert(0, 0);
                    entries.iter_mut().filter(|entry| entry[1] == 1).for_each(|entry| entry[3] += 1);
                }
                _ => {}
            }
        }
        let mut image: Vec<u8> = header.iter().flat_map(|&n| (n as u16).to_le_bytes()).collect();
        for [column, state, pad, offset] in entries {
            image.extend((column as u16).to_le_bytes());
            image.extend([state as u8, pad as u8]);
            image.extend((offset as u32).to_le_bytes());
        }
        image.extend(body);
        for flaw in flaws {
            match flaw {
                Flaw::Short => image.truncate(self.random.below(8)),
                Flaw::EightOnly => image.truncate(8),
                Flaw::ContentsCut => image.truncate(8 + self.random.below(start - 8)),
                Flaw::BodyCut if image.len() > start => image.truncate(start + self.random.below(image.len() - start)),
                Flaw::BodyCut => image.truncate(start - 1),
                Flaw::Trailing => image.resize(image.len() + 1 + self.random.below(4), self.random.byte()),
                _ => {}
            }
        }
        image
    }

    /// A well-formed image of exactly this size with at most two columns absent.
    fn sized(&mut self, size: usize, damage: Damage) -> Vec<u8> {
        loop {
            let m = self.random.one_of(&self.primes);
            let k = 1 + self.random.below(m);
            let missing = self.random.below(3);
            let (bodies, unit) = (size - 8 - 8 * (k + 2), (k + 2 - missing) * (m - 1));
            let shape = Shape { m, k, b: bodies / unit };
            if bodies % unit == 0 && shape.judge() == FINE {
                let mut stripe = self.valid_stripe(shape);
                self.damage(shape, &mut stripe, damage);
                let absent = self.random.two(k + 2);
                return self.draw(shape, &absent[..missing], &stripe, &[]);
            }
        }
    }

    /// An image with the answer `shelf` must give for it, where the making settles that.
    fn shelf_case(&mut self, flaws: &[Flaw], pattern: &str, damage: Damage) -> (Vec<u8>, Option<u8>) {
        let (image, number, _) = self.image(flaws, pattern, damage);
        let answer = match number {
            _ if image.len() > INPUT_LIMIT => INPUT_TOO_LONG,
            FINE if pattern == "three-or-more" || pattern == "all" => TOO_MANY_ABSENT,
            FINE if pattern == "none" && damage == Damage::OneColumn => NONE_FITS,
            FINE if AT_MOST_ONE.contains(&pattern) && damage != Damage::None => return (image, None),
            number => number,
        };
        (image, Some(answer))
    }

    /// A shape whose image fits the program's input.
    fn image_shape(&mut self, wanted: impl Fn(Shape) -> bool) -> Shape {
        self.shape_where(|s| wanted(s) && 8 + 8 * s.columns() + s.stripe_length() <= INPUT_LIMIT)
    }

    /// An image without these columns of a stripe that is zero but for what is named.
    fn faint_image(&mut self, shape: Shape, absent: &[usize], faint: Faint) -> Vec<u8> {
        let stripe = self.faint(shape, faint);
        self.draw(shape, absent, &stripe, &[])
    }

    /// All zero, with at most two columns absent.
    fn blank_image(&mut self, kind: &str) -> Vec<u8> {
        let shape = self.image_shape(|s| extent(s) == kind);
        let count = self.random.below(3);
        let absent = self.random.two(shape.columns());
        self.faint_image(shape, &absent[..count], Faint::Nothing)
    }

    /// So many columns absent, and of the others all zero but the first byte of the first or the last of the last.
    fn one_byte_image(&mut self, count: usize, first: bool) -> Vec<u8> {
        let shape = self.image_shape(|_| true);
        let absent = self.random.two(shape.columns());
        let mut image = self.faint_image(shape, &absent[..count], Faint::Nothing);
        let place = if first { 8 + 8 * shape.columns() } else { image.len() - 1 };
        image[place] = self.random.nonzero();
        image
    }

    /// A valid stripe with one data column that is not zero, which is absent, alone or with H, D or another data column.
    fn one_column_image(&mut self, with: &str) -> Vec<u8> {
        let shape = self.image_shape(|s| with != "data" || s.k > 1);
        let column = self.random.below(shape.k);
        let mut stripe = vec![0; shape.stripe_length()];
        self.hurt(shape, &mut stripe, column);
        encode(shape, &mut stripe);
        let absent = match with {
            "H" => vec![column, shape.k],
            "D" => vec![column, shape.k + 1],
            "data" => vec![column, (column + 1 + self.random.below(shape.k - 1)) % shape.k],
            _ => vec![column],
        };
        self.draw(shape, &absent, &stripe, &[])
    }

    fn shelf_image(&mut self, turn: usize) -> (Vec<u8>, Option<u8>) {
        match turn % IMAGE_KINDS {
            n @ 0..=8 => self.shelf_case(&[], PATTERNS[n], Damage::None),
            9 => self.shelf_case(&[], "all", Damage::None),
            n @ 10..=13 => self.shelf_case(&[], PATTERNS[n - 10], Damage::OneColumn),
            n @ 14..=29 => self.shelf_case(&[FLAWS[n - 14]], "any", Damage::None),
            n @ 30..=72 => self.shelf_case(&wrong_and_more()[n - 30], "any", Damage::None),
            n @ 73..=76 => self.shelf_case(&[], PATTERNS[n - 69], Damage::Garbage),
            77 => (self.sized(INPUT_LIMIT, Damage::None), Some(FINE)),
            78 => (self.sized(INPUT_LIMIT, Damage::OneColumn), None),
            79 => ([self.sized(INPUT_LIMIT, Damage::None), vec![0]].concat(), Some(INPUT_TOO_LONG)),
            80 => (self.sized(INPUT_LIMIT + 2, Damage::None), Some(INPUT_TOO_LONG)),
            81 => ([self.sized(INPUT_LIMIT - 2, Damage::None), vec![0, 0]].concat(), Some(BAD_IMAGE)),
            82 => (self.sized(INPUT_LIMIT - 2, Damage::None), Some(FINE)),
            83 => (vec![0; INPUT_LIMIT], Some(WRONG_M)),
            84 => (vec![0; INPUT_LIMIT + 1], Some(INPUT_TOO_LONG)),
            85 => (self.random.bytes(INPUT_LIMIT + 1), Some(INPUT_TOO_LONG)),
            86 => (self.random.bytes(2 * INPUT_LIMIT), Some(INPUT_TOO_LONG)),
            87 => (Vec::new(), Some(BAD_IMAGE)),
            88 => (vec![255; INPUT_LIMIT], Some(BAD_IMAGE)),
            89 | 90 => {
                let flaws = self.random.two(FLAWS.len()).map(|n| FLAWS[n]);
                (self.image(&flaws, "any", Damage::None).0, None)
            }
            n @ 91..=98 => {
                let shape = self.image_shape(|s| n != 95 || s.k > 1);
                let absent = self.absent(shape, PATTERNS[n - 91]);
                (self.faint_image(shape, &absent, Faint::Nothing), Some(FINE))
            }
            n @ 99..=100 => (self.blank_image(EXTENTS[n - 98]), Some(FINE)),
            101 => (self.sized(INPUT_LIMIT, BLANK), Some(FINE)),
            102 => self.shelf_case(&[], "three-or-more", BLANK),
            103 => self.shelf_case(&[], "all", BLANK),
            // Two absent columns can always be had from the others.
            n @ 104..=109 => {
                let count = (n - 104) / 2;
                (self.one_byte_image(count, n % 2 == 0), Some(if count < 2 { NONE_FITS } else { FINE }))
            }
            n @ 110..=113 => (self.one_column_image(["", "H", "D", "data"][n - 110]), Some(FINE)),
            n @ 114..=115 => {
                let shape = self.image_shape(|_| true);
                let absent = [shape.k, shape.k + 1];
                (self.faint_image(shape, &absent[..2 * (n - 114)], Faint::LastByte), Some(FINE))
            }
            n @ 116..=117 => {
                let shape = self.image_shape(|s| s.k > 2);
                let absent = self.random.two(shape.k);
                (self.faint_image(shape, &absent[..2 * (n - 116)], Faint::NoParity), Some(FINE))
            }
            // With k above 2, so that all of the stripe's first half is zero.
            118 => loop {
                let image = self.sized(INPUT_LIMIT, Damage::Faint(Faint::LastByte));
                if image[2] > 2 { break (image, Some(FINE)); }
            },
            _ => {
                let mut image = self.sized(INPUT_LIMIT, BLANK);
                image[INPUT_LIMIT - 1] = self.random.nonzero();
                (image, None)
            }
        }
    }
}
