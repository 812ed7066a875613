//! Counts what a list of requests covers.

use crate::code::*;
use crate::generate::{
    AT_MOST_ONE, BAD_B, BAD_K, BAD_M, BAD_PLACES, CHANGE_ORDER, CHANGE_WAYS, CHANGED_CELLS, CHANGED_STRIPES, ENDINGS, EXTENTS, FAR,
    GAP_KS, HEADER_ORDER, ITEM_PAIRS, ITEM_PLACES, ITEM_WAYS, LACKING, LIST_COUNTS, LIST_ORDER, LIST_WAYS, NEW_CELLS, PATTERNS,
    PLAIN_ORDER, REFUSED_PLACES, RESTORE_ORDER, REWRITE_ORDER, ROOMS, SHOW_ORDER, SIZES, TIMES, WALK_PLACES, WRITE_ORDER,
    WRITE_WAYS, extent, lacking, room_needed, together,
};
use crate::image;
use crate::requests::Request;
use std::collections::BTreeMap;
use std::io::{self, BufRead, Write};

const ANSWERS: [(&str, &[u8]); 14] = [
    ("encode", &[0, 1, 2, 12, 13]),
    ("check", &[0, 1, 2, 12, 13]),
    ("restore", &[0, 1, 2, 3, 4, 5, 9, 12, 13]),
    ("locate", &[0, 1, 2, 6, 12, 13]),
    ("rewrite", &[0, 1, 2, 5, 7, 12, 13]),
    ("change", &[0, 1, 2, 7, 11, 12, 13, 14]),
    ("changes", &[0, 1, 2, 7, 11, 12, 13, 15]),
    ("show", &[0, 1, 2, 3, 4, 7, 9, 12, 13]),
    ("mark", &[0, 7]),
    ("gaps", &[0]),
    ("read", &[0, 1, 2, 8, 12, 13]),
    ("contents", &[0, 1, 8, 12, 13]),
    ("write", &[0, 1, 2, 9, 12, 13, 16]),
    ("walk", &[0, 1, 8, 12, 13]),
];

/// The orders in which faults met together are judged.
const ORDERS: [(&str, &[u8]); 12] = [
    ("encode", &PLAIN_ORDER),
    ("check", &PLAIN_ORDER),
    ("locate", &PLAIN_ORDER),
    ("restore", &RESTORE_ORDER),
    ("rewrite", &REWRITE_ORDER),
    ("change", &CHANGE_ORDER),
    ("changes", &LIST_ORDER),
    ("show", &SHOW_ORDER),
    ("read", &HEADER_ORDER),
    ("contents", &HEADER_ORDER),
    ("write", &WRITE_ORDER),
    ("walk", &HEADER_ORDER),
];

const SINGLE: [&str; 48] = [
    "check intact", "check blank", "check broken", "check refused",
    "check rows-only", "check diagonals-only", "check both",
    "restore stale", "restore zero", "restore zero stale",
    "locate intact", "locate blank", "locate refused",
    "locate data", "locate H", "locate D", "locate 6 imaginary", "locate 6 lanes",
    "rewrite zero", "rewrite zero damaged",
    "rewrite valid data", "rewrite valid H", "rewrite valid D",
    "rewrite damaged data", "rewrite damaged H", "rewrite damaged D",
    "rewrite 5 data", "rewrite 5 H", "rewrite 5 D",
    "rewrite 5 one other", "rewrite 5 more wrong", "rewrite 5 imaginary", "rewrite 5 lanes",
    "rewrite 7 k+2", "rewrite 7 between", "rewrite 7 max", "rewrite 7 valid",
    "show stripe", "show first-half", "show second-half",
    "mark changed", "mark same",
    "k=1", "k=m", "1<k<m", "refused k=m+1", "refused m+1<k<128",
    "contents far",
];

/// Of a check or a locate of a stripe that is zero or nearly so, beside the kinds of shapes of those that are blank. Of an
/// intact one the data is meant: its last byte alone is not zero, or its last column of several, and so on. With `sum zero`
/// all bytes add up to zero, with and without carry.
const FAINT: [&str; 14] = [
    "zero refused", "one byte first", "one byte last", "one byte between", "one byte H", "one byte D", "sum zero",
    "intact last byte", "intact last column", "intact one lane", "intact last lane", "intact one cell",
    "intact sum zero", "intact parity zero",
];

/// Of a stripe that differs in exactly two columns from the stripe of the last check that was valid. From a request alone this
/// cannot be told: every broken stripe differs in exactly two columns from some valid one. `sealed` is a rewrite that is done:
/// it makes the stripe valid, with three columns wrong.
const TWO_WRONG: [&str; 23] = [
    "check two wrong",
    "locate two wrong, a third named", "locate two wrong, a third named small", "locate two wrong, a third named long cells",
    "locate two wrong, a third named many columns",
    "locate two wrong, data named", "locate two wrong, H named", "locate two wrong, D named",
    "locate two wrong, 6", "locate two wrong, 6 small", "locate two wrong, 6 long cells", "locate two wrong, 6 many columns",
    "locate two wrong, data+data", "locate two wrong, data+H", "locate two wrong, data+D", "locate two wrong, H+D",
    "rewrite two wrong, sealed", "rewrite two wrong, 5 one of the two", "rewrite two wrong, 5 another",
    "restore two wrong, 5", "restore two wrong, both absent", "restore two wrong, the third absent",
    "restore two wrong, another pair absent",
];

/// Of a change that is done, beside the kinds of its stripe, its cell and its new bytes. A broken stripe has its own row or
/// diagonal broken, in which the cell is, or only others.
const CHANGES: [&str; 7] = [
    "row 0", "row m-2", "k=1", "k=m", "broken, own row", "broken, own diagonal", "broken, others only",
];

/// Every two kinds that a change can be of: the kinds of its stripe, of its cell, of its new bytes and of its shape.
fn change_kinds() -> Vec<String> {
    let kinds: [&[&str]; 4] = [&CHANGED_STRIPES, &CHANGED_CELLS, &NEW_CELLS, &EXTENTS];
    let mut cells = Vec::new();
    for (n, some) in kinds.iter().enumerate() {
        for others in &kinds[n + 1..] {
            cells.extend(some.iter().flat_map(|x| others.iter().map(move |y| format!("change {x}, {y}"))));
        }
    }
    cells
}

/// The ways in which one fault of a change is made alone, with each kind of shape, and of stripe where that is not refused
/// for its length; and with the shortest and the longest cells. A column or a row is also so far above a right one, and 129.
fn change_faults_alone() -> Vec<String> {
    let mut cells: Vec<String> = [1, 12, 13].map(|number| format!("change {number} alone")).to_vec();
    for (number, ways) in CHANGE_WAYS {
        let kinds = ways.iter().flat_map(|way| EXTENTS.map(|kind| format!("{way}, {kind}")));
        let sizes = ["b=1", "b=4096"].map(str::to_string);
        let stripes = CHANGED_STRIPES.into_iter().filter(|_| number != BAD_STRIPE).map(str::to_string);
        cells.extend(kinds.chain(sizes).chain(stripes).map(|kind| format!("change {number} alone, {kind}")));
    }
    for number in [BAD_NUMBER, BAD_ROW] {
        cells.extend(FAR.iter().map(|far| format!("change {number} alone, {far} above")));
        cells.push(format!("change {number} alone, 129"));
    }
    cells
}

/// Of a list of changes that is done, beside its count and the cells that it names several times. With `nothing new` every item
/// has what its cell holds. A broken stripe has a row or a diagonal broken in which a cell of the list is, or only others.
const LISTS: [&str; 14] = [
    "every cell", "nothing new, valid", "nothing new, broken", "nothing new, zero", "k=1", "k=m", "b=1, 1 items",
    "b=1, 256 items", "b=4096", "m=k=127, 256 items", "m=k=127, often on S", "broken, own row", "broken, own diagonal",
    "broken, others only",
];

/// Lists of each count with each kind of shape and of stripe; cells named twice and three times, with each ending in each kind of
/// stripe; and lists with eight items or more on the diagonal of S.
fn list_kinds() -> Vec<String> {
    let kinds: Vec<&str> = EXTENTS.into_iter().chain(CHANGED_STRIPES).collect();
    let counts = LIST_COUNTS.iter().flat_map(|count| kinds.iter().map(move |kind| format!("changes {count} items, {kind}")));
    let on_s = kinds.iter().map(|kind| format!("changes often on S, {kind}"));
    let mut cells: Vec<String> = counts.chain(on_s).collect();
    for (times, _) in TIMES {
        let endings = ENDINGS.iter().flat_map(|ending| CHANGED_STRIPES.map(|stripe| format!("{ending}, {stripe}")));
        let others = EXTENTS.into_iter().chain(["on S", "off S", "next", "apart"]).map(str::to_string);
        cells.extend(endings.chain(others).map(|kind| format!("changes {times}, {kind}")));
    }
    cells
}

/// The ways in which one fault of a list is made alone: with each kind of shape, and of stripe where that is not refused for its
/// length, and with the shortest and the longest cells; of an item also in each place, in a list of one and of 256, and with as
/// many columns as there can be. Then two items that are refused, or one for both its numbers.
fn list_faults() -> Vec<String> {
    let mut cells: Vec<String> = [1, 12, 13].map(|number| format!("changes {number} alone")).to_vec();
    for number in [BAD_STRIPE, BAD_LISTS, BAD_NUMBER, BAD_ROW] {
        let stripes = CHANGED_STRIPES.into_iter().filter(|_| number != BAD_STRIPE);
        cells.extend(stripes.chain(["b=1", "b=4096"]).map(|kind| format!("changes {number} alone, {kind}")));
    }
    cells.extend(EXTENTS.map(|kind| format!("changes {BAD_STRIPE} alone, {kind}")));
    for way in LIST_WAYS { cells.extend(EXTENTS.map(|kind| format!("changes {BAD_LISTS} alone, {way}, {kind}"))); }
    for (number, ways) in ITEM_WAYS {
        for kind in ITEM_PLACES.into_iter().chain(EXTENTS) {
            cells.extend(ways.iter().map(|way| format!("changes {number} alone, {way}, {kind}")));
        }
        for place in ITEM_PLACES {
            let kinds = EXTENTS.into_iter().chain(["256 items"]);
            cells.extend(kinds.map(|kind| format!("changes {number} alone, {place}, {kind}")));
        }
        cells.extend(["1 items", "m=k=127"].map(|kind| format!("changes {number} alone, {kind}")));
    }
    for pair in ITEM_PAIRS { cells.extend(EXTENTS.map(|kind| format!("changes {pair}, {kind}"))); }
    cells
}

/// Of a write that is done, beside its absent columns and its buffer. With `stale` an absent column has bytes that are not zero,
/// and with `far` the last body starts above 65,536.
const WRITES: [&str; 9] = ["valid", "broken", "zero", "far", "k=1", "k=m", "b=1", "b=4096", "m=k=127"];

/// Writes with each number of absent columns, each buffer and each kind of shapes, and with each pattern; and the ways in which one
/// fault is made alone.
fn write_cells() -> Vec<String> {
    let mut cells: Vec<String> = WRITES.iter().map(|kind| format!("write {kind}")).collect();
    for kind in EXTENTS {
        for room in ROOMS { cells.extend(LACKING.iter().map(|count| format!("write {count} absent, {room}, {kind}"))); }
        cells.push(format!("write stale, {kind}"));
    }
    cells.extend(PATTERNS.iter().map(|pattern| format!("write pattern {pattern}")));
    cells.extend([1, 12, 13].map(|number| format!("write {number} alone")));
    cells.extend(EXTENTS.map(|kind| format!("write {BAD_STRIPE} alone, {kind}")));
    for (number, ways) in WRITE_WAYS {
        let kinds = ways.iter().flat_map(|way| EXTENTS.map(|kind| format!("{way}, {kind}")));
        cells.extend(kinds.map(|kind| format!("write {number} alone, {kind}")));
    }
    cells.extend(LACKING.iter().map(|count| format!("write {BUFFER_TOO_SHORT} alone, {count} absent")));
    cells
}

/// Of a step that is not refused, beside its place: the column that it hands out, and kinds of shapes. With `far` the body starts
/// above 65,536.
const WALKS: [&str; 10] = ["data", "H", "D", "end", "far", "k=1", "k=m", "b=1", "b=4096", "m=k=127"];

/// Steps from each kind of places, with each number of absent columns that it can have and with each kind of shapes; places that
/// are refused; and images that are, with a place that every image has and with one that none has.
fn walk_cells() -> Vec<String> {
    let mut cells: Vec<String> = WALKS.iter().map(|kind| format!("walk {kind}")).collect();
    for (place, counts) in WALK_PLACES {
        cells.extend(counts.iter().map(|count| format!("walk from {place}, {count} absent")));
        cells.extend(EXTENTS.map(|kind| format!("walk from {place}, {kind}")));
    }
    for place in BAD_PLACES { cells.extend(EXTENTS.map(|kind| format!("walk {BAD_IMAGE} from {place}, {kind}"))); }
    cells.extend(["k+3", "130", "max"].map(|place| format!("walk {BAD_IMAGE} from {place}, m=k=127")));
    for fault in &IMAGE_FAULTS[1..] { cells.extend(REFUSED_PLACES.map(|place| format!("walk fault {fault}, {place}"))); }
    cells
}

/// Of a request for gaps beside its k, where that is one of the named.
const GAPS: [&str; 15] = [
    "k ordinary", "k large",
    "map none", "map all", "map some", "map only 0", "map only 128",
    "highest 129", "highest 128", "highest below k+2", "highest at or above k+2",
    "absent 0", "absent 1", "absent 2", "absent more",
];

/// Of a request for lengths: which of its numbers are wrong, and the kinds of k and b. Its m are named one by one.
const LENGTHS: [&str; 16] = [
    "wrong none", "wrong m", "wrong k", "wrong b", "wrong m+k", "wrong m+b", "wrong k+b", "wrong m+k+b",
    "k=1", "k=m", "1<k<m", "k=m+1", "m+1<k<128", "b=1", "1<b<4096", "b=4096",
];

const IMAGE_FAULTS: [&str; 13] = [
    "none", "short", "fourth", "m", "k", "b", "contents-cut", "column", "state", "pad", "offset", "body-cut", "trailing",
];

fn faults_cell(word: &str, faults: &[u8]) -> String {
    let numbers: Vec<String> = faults.iter().map(u8::to_string).collect();
    format!("{word} faults {}", numbers.join("+"))
}

fn expected_cells() -> Vec<String> {
    let mut cells: Vec<String> = Vec::new();
    for (word, answers) in ANSWERS {
        cells.extend(answers.iter().map(|number| format!("{word} {number}")));
    }
    cells.extend(PATTERNS.iter().map(|name| format!("pattern {name}")));
    cells.extend(AT_MOST_ONE.iter().map(|name| format!("pattern {name} refused 5")));
    for (word, order) in ORDERS {
        cells.extend(together(order).iter().map(|faults| faults_cell(word, faults)));
    }
    cells.extend(SINGLE.iter().map(|name| name.to_string()));
    for word in ["check", "locate"] {
        cells.extend(EXTENTS.iter().map(|kind| format!("{word} blank {kind}")));
        cells.extend(FAINT.iter().map(|name| format!("{word} {name}")));
    }
    cells.extend(TWO_WRONG.iter().map(|name| name.to_string()));
    cells.extend(CHANGES.iter().map(|name| format!("change {name}")));
    cells.extend(change_kinds());
    for b in [1, 4096] {
        cells.extend(CHANGED_CELLS.iter().map(|cell| format!("change {cell}, b={b}")));
    }
    cells.extend(change_faults_alone());
    cells.extend(LISTS.iter().map(|name| format!("changes {name}")));
    cells.extend(list_kinds());
    cells.extend(list_faults());
    cells.extend(write_cells());
    cells.extend(walk_cells());
    cells.extend(BAD_M.iter().map(|m| format!("refused m={m}")));
    cells.extend(BAD_K.iter().map(|k| format!("refused k={k}")));
    cells.extend(BAD_B.iter().map(|b| format!("refused b={b}")));
    cells.extend((3..=127).filter(|&m| is_odd_prime(m)).map(|m| format!("m={m}")));
    cells.extend(SIZES.iter().map(|b| format!("b={b}")));
    cells.extend(GAP_KS.iter().map(|k| format!("gaps k={k}")));
    cells.extend(GAPS.iter().map(|name| format!("gaps {name}")));
    cells.extend(LENGTHS.iter().map(|name| format!("lengths {name}")));
    let all_m = BAD_M.into_iter().chain((3..=127).filter(|&m| is_odd_prime(m)));
    cells.extend(all_m.map(|m| format!("lengths m={m}")));
    cells.extend(BAD_K.iter().map(|k| format!("lengths k={k}")));
    cells.extend(BAD_B.iter().map(|b| format!("lengths b={b}")));
    for word in ["read", "contents", "walk"] {
        cells.extend(IMAGE_FAULTS.iter().map(|fault| format!("{word} fault {fault}")));
    }
    cells
}

fn pattern(shape: Shape, absent: &[usize]) -> &'static str {
    let data = absent.iter().filter(|&&c| c < shape.k).count();
    match (data, absent.contains(&shape.k), absent.contains(&(shape.k + 1))) {
        (0, false, false) => "none",
        (1, false, false) => "data",
        (0, true, false) => "H",
        (0, false, true) => "D",
        (2, false, false) => "data+data",
        (1, true, false) => "data+H",
        (1, false, true) => "data+D",
        (0, true, true) => "H+D",
        _ => "three-or-more",
    }
}

fn is_valid(shape: Shape, stripe: &[u8]) -> bool {
    let done = check(shape, stripe);
    (done.number, done.rows, done.diagonals) == (FINE, 0, 0)
}

/// Whether all columns but these are zero.
fn is_zero_without(shape: Shape, stripe: &[u8], absent: &[usize]) -> bool {
    (0..shape.columns()).filter(|column| !absent.contains(column)).all(|column| is_zero(&stripe[shape.column(column)]))
}

/// Whether the only wrong column is an imaginary one; not asked where there are many.
fn imaginary_is_wrong(shape: Shape, stripe: &[u8]) -> bool {
    let Shape { m, k, .. } = shape;
    if m > 31 { return false; }
    // The same stripe with the imaginary columns written out.
    let (data, parity) = stripe.split_at(k * shape.column_length());
    let all = [data, &vec![0; (m - k) * shape.column_length()], parity].concat();
    (k..m).contains(&locate(Shape { k: m, ..shape }, &all).column)
}

/// Each byte lane as a stripe of its own; none where cells are long.
fn lanes(shape: Shape, stripe: &[u8]) -> (Shape, Vec<Vec<u8>>) {
    let lane = |l: usize| stripe.iter().skip(l).step_by(shape.b).copied().collect();
    (Shape { b: 1, ..shape }, (0..shape.b).filter(|_| shape.b <= 16).map(lane).collect())
}

/// The numbers of a shape, each judged for itself.
fn shape_faults(Shape { m, k, b }: Shape) -> [(u8, bool); 3] {
    [(WRONG_M, m > 127 || !is_odd_prime(m)), (WRONG_K, k == 0 || k > m), (WRONG_B, b == 0 || b > 4096)]
}

fn holding<T>(all: impl IntoIterator<Item = (T, bool)>) -> Vec<T> {
    all.into_iter().filter(|(_, holds)| *holds).map(|(what, _)| what).collect()
}

/// Every fault of a call with a map, each judged for itself.
fn faults(shape: Shape, map: &Map, stripe: &[u8], bench: &[u8], column: usize) -> Vec<u8> {
    let length = shape.m.wrapping_sub(1).wrapping_mul(shape.b);
    let columns = shape.k.saturating_add(2);
    let (inside, outside) = map.places.split_at(columns.min(PLACES));
    let none_fits = || {
        let clean = Map::all_but(columns, &map.absent(shape));
        restore(shape, &clean, stripe, &mut vec![0; shape.bench_length()]).number == NONE_FITS
    };
    let others = [
        (BAD_STRIPE, stripe.len() != columns.wrapping_mul(length)),
        (BAD_BENCH, bench.len() != length.wrapping_mul(2)),
        (STRAY_PLACE, outside.iter().any(|&present| present)),
        (BAD_NUMBER, column >= columns),
        (TOO_MANY_ABSENT, inside.iter().filter(|&&present| !present).count() > 2),
        (NONE_FITS, shape.judge() == FINE && none_fits()),
    ];
    holding(shape_faults(shape).into_iter().chain(others))
}

/// Every fault of a change, each judged for itself.
fn faults_of_change(shape: Shape, stripe: &[u8], column: usize, row: usize, cell: &[u8]) -> Vec<u8> {
    let Shape { m, k, b } = shape;
    let length = k.wrapping_add(2).wrapping_mul(m.wrapping_sub(1)).wrapping_mul(b);
    let others = [
        (BAD_STRIPE, stripe.len() != length),
        (BAD_NUMBER, column >= k),
        (BAD_ROW, row >= m.saturating_sub(1)),
        (BAD_CELL, cell.len() != b),
    ];
    holding(shape_faults(shape).into_iter().chain(others))
}

/// Every fault of a list of changes, each judged for itself; those of items, if some item bears them.
fn faults_of_list(shape: Shape, stripe: &[u8], columns: &[usize], rows: &[usize], cells: &[u8]) -> Vec<u8> {
    let Shape { m, k, b } = shape;
    let length = k.wrapping_add(2).wrapping_mul(m.wrapping_sub(1)).wrapping_mul(b);
    let count = columns.len();
    let others = [
        (BAD_STRIPE, stripe.len() != length),
        (BAD_LISTS, rows.len() != count || count > MOST_ITEMS || cells.len() != count.wrapping_mul(b)),
        (BAD_NUMBER, columns.iter().any(|&column| column >= k)),
        (BAD_ROW, rows.iter().any(|&row| row >= m.saturating_sub(1))),
    ];
    holding(shape_faults(shape).into_iter().chain(others))
}

/// Every fault of a write, each judged for itself.
fn faults_of_write(shape: Shape, map: &Map, stripe: &[u8], room: usize) -> Vec<u8> {
    let Shape { m, k, b } = shape;
    let length = k.wrapping_add(2).wrapping_mul(m.wrapping_sub(1)).wrapping_mul(b);
    let stray = map.places.iter().skip(k.saturating_add(2)).any(|&present| present);
    let others = [
        (BAD_STRIPE, stripe.len() != length),
        (STRAY_PLACE, stray),
        (BUFFER_TOO_SHORT, room < room_needed(shape, map)),
    ];
    holding(shape_faults(shape).into_iter().chain(others))
}

/// Which cells of H and D, by column and row, are not what the data gives.
fn breaks_of(shape: Shape, stripe: &[u8]) -> impl Fn(usize, usize) -> bool + '_ {
    let mut fitting = stripe.to_vec();
    encode(shape, &mut fitting);
    move |column, row| {
        let cell = shape.cell_bytes(row, column);
        fitting[cell.clone()] != stripe[cell]
    }
}

fn kind_of_stripe(shape: Shape, stripe: &[u8]) -> &'static str {
    match check(shape, stripe).found {
        FOUND_BLANK => "zero",
        FOUND_BROKEN => "broken",
        _ => "valid",
    }
}

/// The cells met, and the stripe of the last check that was valid.
struct Tally { cells: BTreeMap<String, usize>, valid: Option<(Shape, Vec<u8>)> }

impl Tally {
    fn add(&mut self, name: impl Into<String>) { *self.cells.entry(name.into()).or_insert(0) += 1; }

    /// The two columns in which the stripe differs from the one of the last check that was valid, if it is two.
    fn two_wrong(&self, shape: Shape, stripe: &[u8]) -> Option<[usize; 2]> {
        let (_, valid) = self.valid.as_ref().filter(|(other, valid)| *other == shape && valid.len() == stripe.len())?;
        let differs = |&column: &usize| stripe[shape.column(column)] != valid[shape.column(column)];
        let columns: Vec<usize> = (0..shape.columns()).filter(differs).collect();
        columns.try_into().ok()
    }

    /// What is asked of a stripe with two wrong columns, and the answer.
    fn of_two_wrong(&mut self, request: &Request, answer: &[usize]) {
        let (shape, stripe) = match request {
            Request::Check(n, s) | Request::Locate(n, s) | Request::Rewrite(n, s, _) | Request::Restore(n, _, s, _) => (*n, s),
            _ => return,
        };
        let two = match self.two_wrong(shape, stripe) {
            Some(two) => two,
            None => return,
        };
        let met = match (request, answer[0] as u8) {
            (Request::Check(..), FINE) if answer[3] as u8 == FOUND_BROKEN => vec!["check two wrong".to_string()],
            (Request::Locate(..), number) => {
                let third = answer[1] as u8 == FOUND_COLUMN && !two.contains(&answer[2]);
                let what = match number {
                    NONE_NEAR => "6",
                    _ if third => "a third named",
                    _ => "against the rule",
                };
                let named = third.then(|| format!("{} named", pattern(shape, &answer[2..])));
                let kinds = [what.to_string(), format!("{what} {}", extent(shape)), pattern(shape, &two).to_string()];
                kinds.into_iter().chain(named).map(|kind| format!("locate two wrong, {kind}")).collect()
            }
            (Request::Rewrite(..), FINE) => vec!["rewrite two wrong, sealed".to_string()],
            (Request::Rewrite(.., column), NONE_FITS) => {
                let which = if two.contains(column) { "one of the two" } else { "another" };
                vec![format!("rewrite two wrong, 5 {which}")]
            }
            (Request::Restore(..), NONE_FITS) => vec!["restore two wrong, 5".to_string()],
            (Request::Restore(_, map, ..), FINE) => {
                let absent = map.absent(shape);
                let which = match absent.len() {
                    1 => "the third",
                    _ if absent == two => "both",
                    _ => "another pair",
                };
                vec![format!("restore two wrong, {which} absent")]
            }
            _ => vec![],
        };
        met.into_iter().for_each(|name| self.add(name));
    }

    fn shape(&mut self, shape: Shape) {
        let Shape { m, k, b } = shape;
        match shape.judge() {
            FINE => {
                self.add(if k == 1 { "k=1" } else if k == m { "k=m" } else { "1<k<m" });
                self.add(format!("m={m}"));
                self.add(format!("b={b}"));
            }
            WRONG_M => self.add(format!("refused m={m}")),
            WRONG_K if k == m + 1 => self.add("refused k=m+1"),
            WRONG_K if m < k && k < 128 => self.add("refused m+1<k<128"),
            WRONG_K => self.add(format!("refused k={k}")),
            _ => self.add(format!("refused b={b}")),
        }
    }

    fn plain(&mut self, word: &str, shape: Shape, stripe: &[u8]) {
        self.shape(shape);
        self.add_faults(word, &PLAIN_ORDER, &faults(shape, &Map::new(), stripe, &[], 0));
    }

    fn add_faults(&mut self, word: &str, order: &[u8], found: &[u8]) {
        for faults in together(order) {
            if faults.iter().all(|number| found.contains(number)) { self.add(faults_cell(word, &faults)); }
        }
    }

    fn image(&mut self, word: &str, bytes: &[u8]) {
        self.add(format!("{word} fault {}", image::contents(bytes).fault));
        if let Some([m, k, b, fourth]) = image::header(bytes) {
            let found = shape_faults(Shape { m, k, b }).into_iter().chain([(BAD_IMAGE, fourth != 0)]);
            self.add_faults(word, &HEADER_ORDER, &holding(found));
        }
    }

    /// What of the stripe is not zero, where that is little.
    fn faint(&mut self, word: &str, shape: Shape, stripe: &[u8], found: u8) {
        if found == FOUND_BLANK { return self.add(format!("{word} blank {}", extent(shape))); }
        let places: Vec<usize> = (0..stripe.len()).filter(|&place| stripe[place] != 0).collect();
        if places.is_empty() && !stripe.is_empty() { self.add(format!("{word} zero refused")); }
        if found == FOUND_NOTHING { return; }
        let (k, b, length) = (shape.k, shape.b, shape.column_length());
        let mut met = Vec::new();
        if let [place] = places[..] {
            met.push(match place {
                0 => "one byte first",
                _ if place + 1 == stripe.len() => "one byte last",
                _ => "one byte between",
            });
            if place / length == k { met.push("one byte H"); }
            if place / length == k + 1 { met.push("one byte D"); }
        }
        let (xor, sum) = stripe.iter().fold((0u8, 0u8), |(xor, sum), &byte| (xor ^ byte, sum.wrapping_add(byte)));
        let sum_zero = (xor, sum) == (0, 0);
        if sum_zero && found != FOUND_INTACT { met.push("sum zero"); }
        if found == FOUND_INTACT {
            if sum_zero { met.push("intact sum zero"); }
            if is_zero(&stripe[k * length..]) { met.push("intact parity zero"); }
            let data: Vec<usize> = places.into_iter().filter(|place| place / length < k).collect();
            let one_lane = b > 1 && data.iter().all(|place| place % b == data[0] % b);
            if data == [k * length - 1] { met.push("intact last byte"); }
            if k > 1 && data[0] / length == k - 1 { met.push("intact last column"); }
            if one_lane { met.push("intact one lane"); }
            if one_lane && data[0] % b == b - 1 { met.push("intact last lane"); }
            if data.iter().all(|place| place / b == data[0] / b) { met.push("intact one cell"); }
        }
        met.into_iter().for_each(|name| self.add(format!("{word} {name}")));
    }

    fn checked(&mut self, shape: Shape, stripe: &[u8], answer: &[usize]) {
        let found = answer[3] as u8;
        self.add(match found {
            FOUND_INTACT => "check intact",
            FOUND_BLANK => "check blank",
            FOUND_BROKEN => "check broken",
            _ => "check refused",
        });
        match answer[..3] {
            [0, 0, 0] => {}
            [0, _, 0] => self.add("check rows-only"),
            [0, 0, _] => self.add("check diagonals-only"),
            [0, ..] => self.add("check both"),
            _ => {}
        }
        self.faint("check", shape, stripe, found);
    }

    fn restored(&mut self, shape: Shape, map: &Map, stripe: &[u8], bench: &[u8], number: u8) {
        self.shape(shape);
        self.add_faults("restore", &RESTORE_ORDER, &faults(shape, map, stripe, bench, 0));
        if ![FINE, TOO_MANY_ABSENT, NONE_FITS].contains(&number) { return; }
        let absent = map.absent(shape);
        let refused = if number == NONE_FITS { " refused 5" } else { "" };
        self.add(format!("pattern {}{refused}", pattern(shape, &absent)));
        if number == FINE {
            let mut filled = bench.to_vec();
            restore(shape, map, stripe, &mut filled);
            let stale = |(half, &c): (usize, &usize)| filled[shape.column(half)] != stripe[shape.column(c)];
            let is_stale = absent.iter().enumerate().any(stale);
            if is_stale { self.add("restore stale"); }
            if is_zero_without(shape, stripe, &absent) {
                self.add("restore zero");
                if is_stale { self.add("restore zero stale"); }
            }
        }
    }

    fn gaps(&mut self, k: usize, map: &Map, answer: &[usize]) {
        match k {
            k if GAP_KS.contains(&k) => self.add(format!("gaps k={k}")),
            0..=129 => self.add("gaps k ordinary"),
            _ => self.add("gaps k large"),
        }
        let only = |place: usize| (0..PLACES).all(|other| map.places[other] == (other == place));
        match map.places.iter().filter(|&&present| present).count() {
            0 => self.add("gaps map none"),
            PLACES => self.add("gaps map all"),
            _ => self.add("gaps map some"),
        }
        if only(0) { self.add("gaps map only 0"); }
        if only(PLACES - 1) { self.add("gaps map only 128"); }
        let (highest, absent) = (answer[2], answer[3]);
        if highest >= PLACES - 1 { self.add(format!("gaps highest {highest}")); }
        if highest < PLACES {
            let inside = highest < k.saturating_add(2);
            self.add(if inside { "gaps highest below k+2" } else { "gaps highest at or above k+2" });
        }
        self.add(if absent > 2 { "gaps absent more".to_string() } else { format!("gaps absent {absent}") });
    }

    fn lengths(&mut self, shape: Shape) {
        let Shape { m, k, b } = shape;
        let named = shape_faults(shape).into_iter().zip(["m", "k", "b"]);
        let wrong: Vec<&str> = named.filter(|((_, wrong), _)| *wrong).map(|(_, name)| name).collect();
        self.add(format!("lengths wrong {}", if wrong.is_empty() { "none".to_string() } else { wrong.join("+") }));
        self.add(format!("lengths m={m}"));
        self.add(match k {
            k if BAD_K.contains(&k) => format!("lengths k={k}"),
            1 => "lengths k=1".to_string(),
            k if k == m => "lengths k=m".to_string(),
            k if k < m => "lengths 1<k<m".to_string(),
            k if k == m + 1 => "lengths k=m+1".to_string(),
            _ => "lengths m+1<k<128".to_string(),
        });
        self.add(match b {
            2..=4095 => "lengths 1<b<4096".to_string(),
            _ => format!("lengths b={b}"),
        });
    }

    fn located(&mut self, shape: Shape, stripe: &[u8], answer: &[usize]) {
        let found = answer[1] as u8;
        match found {
            FOUND_INTACT => self.add("locate intact"),
            FOUND_BLANK => self.add("locate blank"),
            FOUND_COLUMN => self.add(format!("locate {}", pattern(shape, &answer[2..]))),
            _ => self.add("locate refused"),
        }
        self.faint("locate", shape, stripe, found);
        match answer[0] as u8 {
            NONE_NEAR => {
                if imaginary_is_wrong(shape, stripe) { self.add("locate 6 imaginary"); }
                let (narrow, lanes) = lanes(shape, stripe);
                if !lanes.is_empty() && lanes.iter().all(|lane| locate(narrow, lane).number == FINE) {
                    self.add("locate 6 lanes");
                }
            }
            _ => {}
        }
    }

    fn rewritten(&mut self, shape: Shape, stripe: &[u8], column: usize, number: u8) {
        self.shape(shape);
        let others = Map::all_but(shape.k.saturating_add(2).min(PLACES), &[column]);
        self.add_faults("rewrite", &REWRITE_ORDER, &faults(shape, &others, stripe, &[], column));
        match number {
            FINE => {
                let state = if is_valid(shape, stripe) { "valid" } else { "damaged" };
                self.add(format!("rewrite {state} {}", pattern(shape, &[column])));
                if is_zero_without(shape, stripe, &[column]) {
                    self.add(if state == "valid" { "rewrite zero" } else { "rewrite zero damaged" });
                }
            }
            NONE_FITS => {
                self.add(format!("rewrite 5 {}", pattern(shape, &[column])));
                let one = locate(shape, stripe).found == FOUND_COLUMN;
                self.add(if one { "rewrite 5 one other" } else { "rewrite 5 more wrong" });
                if imaginary_is_wrong(shape, stripe) { self.add("rewrite 5 imaginary"); }
                let (narrow, mut lanes) = lanes(shape, stripe);
                if lanes.iter_mut().any(|lane| rewrite(narrow, lane, column).number == FINE) {
                    self.add("rewrite 5 lanes");
                }
            }
            BAD_NUMBER => {
                self.add(match column {
                    usize::MAX => "rewrite 7 max",
                    _ if column == shape.columns() => "rewrite 7 k+2",
                    _ => "rewrite 7 between",
                });
                if is_valid(shape, stripe) { self.add("rewrite 7 valid"); }
            }
            _ => {}
        }
    }

    /// The kinds of the cell that is changed, and of what is put there.
    fn changed(&mut self, shape: Shape, stripe: &[u8], column: usize, row: usize, new: &[u8]) {
        let Shape { m, k, b } = shape;
        let old = &stripe[shape.cell_bytes(row, column)];
        let others = old.iter().zip(new).filter(|(x, y)| x != y).count();
        let on_s = column + row == m - 1;
        let stripe_kind = kind_of_stripe(shape, stripe);
        let cells = CHANGED_CELLS.into_iter().zip([column == 0, column == k - 1, on_s, column + row >= m]);
        let contents = NEW_CELLS.into_iter().zip([others == 0, is_zero(new), others == 1, others == b]);
        let (cells, contents) = (holding(cells), holding(contents));
        let kinds = [vec![stripe_kind], cells.clone(), contents, vec![extent(shape)]];
        for (n, some) in kinds.iter().enumerate() {
            for (x, y) in kinds[n + 1..].iter().flatten().flat_map(|y| some.iter().map(move |x| (x, y))) {
                self.add(format!("change {x}, {y}"));
            }
        }
        if b == 1 || b == 4096 { cells.iter().for_each(|cell| self.add(format!("change {cell}, b={b}"))); }
        if row == 0 { self.add("change row 0"); }
        if row == m - 2 { self.add("change row m-2"); }
        if k == 1 { self.add("change k=1"); }
        if k == m { self.add("change k=m"); }
        if stripe_kind == "broken" {
            let breaks = breaks_of(shape, stripe);
            let own_row = breaks(k, row);
            let own_diagonal = (0..m - 1).any(|i| (on_s || i == (column + row) % m) && breaks(k + 1, i));
            if own_row { self.add("change broken, own row"); }
            if own_diagonal { self.add("change broken, own diagonal"); }
            if !own_row && !own_diagonal { self.add("change broken, others only"); }
        }
    }

    /// The ways in which a change bears this one fault.
    fn refused_change(&mut self, shape: Shape, stripe: &[u8], column: usize, row: usize, new: &[u8], number: u8) {
        let Shape { m, k, b } = shape;
        if [WRONG_M, WRONG_K, WRONG_B].contains(&number) { return self.add(format!("change {number} alone")); }
        let (max, length) = (usize::MAX, new.len());
        let met = match number {
            BAD_NUMBER => vec![column == k, column == k + 1, column == k + 2, k + 2 < column && column < max, column == max],
            BAD_ROW => vec![row == m - 1, row == m, m < row && row < max, row == max],
            BAD_CELL => vec![length == 0, length + 1 == b, length == b + 1, length == shape.column_length()],
            _ => vec![true],
        };
        let (_, ways) = CHANGE_WAYS.into_iter().find(|(other, _)| *other == number).expect("a fault of a change");
        for way in holding(ways.iter().zip(met)) {
            self.add(format!("change {number} alone, {way}, {}", extent(shape)));
        }
        let (value, limit) = if number == BAD_NUMBER { (column, k) } else { (row, m - 1) };
        if [BAD_NUMBER, BAD_ROW].contains(&number) {
            let above = FAR.into_iter().filter(|far| (*far..far + limit).contains(&value));
            above.for_each(|far| self.add(format!("change {number} alone, {far} above")));
            if value == 129 { self.add(format!("change {number} alone, 129")); }
        }
        if b == 1 || b == 4096 { self.add(format!("change {number} alone, b={b}")); }
        if number != BAD_STRIPE { self.add(format!("change {number} alone, {}", kind_of_stripe(shape, stripe))); }
    }

    /// The kinds of a list of changes that is done.
    fn listed(&mut self, shape: Shape, stripe: &[u8], named: &[(usize, usize)], cells: &[u8]) {
        let Shape { m, k, b } = shape;
        let (count, stripe_kind) = (named.len(), kind_of_stripe(shape, stripe));
        let exact = count.to_string();
        let name = match LIST_COUNTS.contains(&&exact[..]) {
            true => Some(&exact[..]),
            false if (8..=40).contains(&count) => Some("some"),
            false => None,
        };
        let on_s = |(column, row): (usize, usize)| column + row == m - 1;
        let often = named.iter().filter(|&&cell| on_s(cell)).count() >= 8;
        for kind in [extent(shape), stripe_kind] {
            if let Some(name) = name { self.add(format!("changes {name} items, {kind}")); }
            if often { self.add(format!("changes often on S, {kind}")); }
        }
        let mut met = Vec::new();
        let mut items: BTreeMap<(usize, usize), Vec<usize>> = BTreeMap::new();
        for (item, &cell) in named.iter().enumerate() { items.entry(cell).or_default().push(item); }
        let held = |(column, row): (usize, usize)| &stripe[shape.cell_bytes(row, column)];
        let new = |item: usize| &cells[item * b..(item + 1) * b];
        for (&cell, items) in &items {
            let times = match TIMES.into_iter().find(|(_, times)| *times == items.len()) {
                Some((times, _)) => times,
                None => continue,
            };
            let (first, last) = (items[0], items[items.len() - 1]);
            if new(first) == held(cell) { continue; }
            let ending = match new(last) {
                end if end == held(cell) => "held",
                end if end == new(first) => "first",
                _ => "another",
            };
            let next = if last - first + 1 == items.len() { "next" } else { "apart" };
            let s = if on_s(cell) { "on S" } else { "off S" };
            met.extend([extent(shape), s, next].map(|kind| format!("{times}, {kind}")));
            met.push(format!("{times}, {ending}, {stripe_kind}"));
        }
        if items.len() == k * (m - 1) { met.push("every cell".to_string()); }
        let nothing_new = (0..count).all(|item| new(item) == held(named[item]));
        if count > 0 && nothing_new { met.push(format!("nothing new, {stripe_kind}")); }
        if k == 1 { met.push("k=1".to_string()); }
        if k == m { met.push("k=m".to_string()); }
        if b == 1 && (count == 1 || count == MOST_ITEMS) { met.push(format!("b=1, {count} items")); }
        if b == 4096 { met.push("b=4096".to_string()); }
        if k == 127 {
            met.push(format!("m=k=127, {count} items"));
            if often { met.push("m=k=127, often on S".to_string()); }
        }
        if stripe_kind == "broken" {
            let breaks = breaks_of(shape, stripe);
            let own_row = items.keys().any(|&(_, row)| breaks(k, row));
            let is_on = |cell: (usize, usize), i: usize| on_s(cell) || i == (cell.0 + cell.1) % m;
            let own_diagonal = items.keys().any(|&cell| (0..m - 1).any(|i| is_on(cell, i) && breaks(k + 1, i)));
            if own_row { met.push("broken, own row".to_string()); }
            if own_diagonal { met.push("broken, own diagonal".to_string()); }
            if count > 0 && !own_row && !own_diagonal { met.push("broken, others only".to_string()); }
        }
        met.into_iter().for_each(|kind| self.add(format!("changes {kind}")));
    }

    /// The ways in which a list of changes bears this one fault, which is none of its items'.
    fn refused_list(&mut self, shape: Shape, stripe: &[u8], columns: &[usize], rows: &[usize], cells: &[u8], number: u8) {
        if [WRONG_M, WRONG_K, WRONG_B].contains(&number) { return self.add(format!("changes {number} alone")); }
        let b = shape.b;
        let (of_columns, of_rows, bytes) = (columns.len(), rows.len(), cells.len());
        let (for_columns, for_rows) = (of_columns * b, of_rows * b);
        let equal = of_columns == of_rows;
        let met = [
            of_columns == of_rows + 1 && bytes == for_rows,
            of_columns + 1 == of_rows && bytes == for_rows,
            of_rows == of_columns + 1 && bytes == for_columns,
            of_rows + 1 == of_columns && bytes == for_columns,
            of_columns == 0 && of_rows > 0 && bytes == for_rows,
            of_rows == 0 && of_columns > 0 && bytes == for_columns,
            equal && bytes == for_columns + 1,
            equal && bytes + 1 == for_columns,
            equal && bytes == for_columns + b,
            equal && bytes + b == for_columns,
            equal && of_columns > 0 && bytes == 0,
            equal && of_columns == 0,
            equal && of_columns == MOST_ITEMS + 1 && bytes == for_columns,
            equal && of_columns > MOST_ITEMS + 1 && bytes == for_columns,
        ];
        if number == BAD_STRIPE { self.add(format!("changes {number} alone, {}", extent(shape))); }
        if number == BAD_LISTS {
            for way in holding(LIST_WAYS.into_iter().zip(met)) {
                self.add(format!("changes {number} alone, {way}, {}", extent(shape)));
            }
            self.add(format!("changes {number} alone, {}", kind_of_stripe(shape, stripe)));
        }
        if b == 1 || b == 4096 { self.add(format!("changes {number} alone, b={b}")); }
    }

    /// The ways in which items of a list are refused that has no other fault.
    fn refused_items(&mut self, shape: Shape, stripe: &[u8], named: &[(usize, usize)]) {
        let Shape { m, k, b } = shape;
        let faults = |&(column, row): &(usize, usize)| holding([(BAD_NUMBER, column >= k), (BAD_ROW, row >= m - 1)]);
        let bad: Vec<(usize, Vec<u8>)> = named.iter().map(faults).enumerate().filter(|(_, faults)| !faults.is_empty()).collect();
        let first = &bad[0].1;
        let later: Vec<u8> = bad[1..].iter().flat_map(|(_, faults)| faults.iter().copied()).collect();
        for pair in ITEM_PAIRS {
            let is = |number: &u8, name: &str| number.to_string() == name;
            let met = match pair.split_once(" then ") {
                Some((x, y)) => first.len() == 1 && is(&first[0], x) && later.iter().any(|number| is(number, y)),
                None => first.len() == 2,
            };
            if met { self.add(format!("changes {pair}, {}", extent(shape))); }
        }
        if first.len() > 1 || !later.is_empty() { return; }
        let ((item, number), (count, max)) = ((bad[0].0, first[0]), (named.len(), usize::MAX));
        let (value, limit) = if number == BAD_NUMBER { (named[item].0, k) } else { (named[item].1, m - 1) };
        let above = |n: usize| (FAR[n]..FAR[n] + limit).contains(&value);
        let common = [value == 129, above(0), above(1), above(2), value == max];
        let near: Vec<bool> = (0..if number == BAD_NUMBER { 3 } else { 2 }).map(|more| value == limit + more).collect();
        let (_, ways) = ITEM_WAYS.into_iter().find(|(other, _)| *other == number).expect("a fault of an item");
        let ways = holding(ways.iter().copied().zip(near.into_iter().chain(common)));
        let place = ITEM_PLACES[if item == 0 { 0 } else if item + 1 < count { 1 } else { 2 }];
        let mut met: Vec<String> = Vec::new();
        // An only item is in no place.
        if count > 1 {
            met.extend(ways.iter().map(|way| format!("{way}, {place}")));
            met.push(format!("{place}, {}", extent(shape)));
            if count == MOST_ITEMS { met.push(format!("{place}, 256 items")); }
        } else {
            met.push("1 items".to_string());
        }
        met.extend(ways.iter().map(|way| format!("{way}, {}", extent(shape))));
        met.push(kind_of_stripe(shape, stripe).to_string());
        if b == 1 || b == 4096 { met.push(format!("b={b}")); }
        if k == 127 { met.push("m=k=127".to_string()); }
        met.into_iter().for_each(|kind| self.add(format!("changes {number} alone, {kind}")));
    }

    /// Kinds of shapes by their numbers.
    fn sizes(&mut self, word: &str, Shape { m, k, b }: Shape) {
        let kinds = [("k=1", k == 1), ("k=m", k == m), ("m=k=127", k == 127)];
        holding(kinds).into_iter().for_each(|kind| self.add(format!("{word} {kind}")));
        if b == 1 || b == 4096 { self.add(format!("{word} b={b}")); }
    }

    /// The kinds of a write that is done.
    fn written(&mut self, shape: Shape, map: &Map, stripe: &[u8], room: usize) {
        let (absent, needed) = (map.absent(shape), room_needed(shape, map));
        let way = ROOMS[if room == needed { 0 } else if room == needed + 1 { 1 } else { 2 }];
        for count in lacking(absent.len(), shape.columns()) {
            self.add(format!("write {count} absent, {way}, {}", extent(shape)));
        }
        if absent.iter().any(|&column| !is_zero(&stripe[shape.column(column)])) {
            self.add(format!("write stale, {}", extent(shape)));
        }
        self.add(format!("write pattern {}", pattern(shape, &absent)));
        self.add(format!("write {}", kind_of_stripe(shape, stripe)));
        if needed > 65_536 + shape.column_length() { self.add("write far"); }
        self.sizes("write", shape);
    }

    /// The ways in which a write bears this one fault.
    fn refused_write(&mut self, shape: Shape, map: &Map, room: usize, number: u8) {
        if [WRONG_M, WRONG_K, WRONG_B].contains(&number) { return self.add(format!("write {number} alone")); }
        let (columns, needed) = (shape.columns(), room_needed(shape, map));
        let met = match number {
            STRAY_PLACE => {
                let strays: Vec<usize> = (columns..PLACES).filter(|&place| map.is_present(place)).collect();
                let between = |&place: &usize| columns < place && place < PLACES - 1;
                vec![strays == [columns], strays.iter().all(between), strays == [PLACES - 1]]
            }
            BUFFER_TOO_SHORT => {
                let lengths = [needed - 1, needed.wrapping_sub(shape.column_length()), 8 + 8 * columns, 8, 0];
                lengths.map(|length| room == length).to_vec()
            }
            _ => return self.add(format!("write {number} alone, {}", extent(shape))),
        };
        let (_, ways) = WRITE_WAYS.into_iter().find(|(other, _)| *other == number).expect("a fault of a write");
        for way in holding(ways.iter().zip(met)) {
            self.add(format!("write {number} alone, {way}, {}", extent(shape)));
        }
        if number == BUFFER_TOO_SHORT {
            for count in lacking(map.absent(shape).len(), columns) { self.add(format!("write {number} alone, {count} absent")); }
        }
    }

    /// The kinds of a step over an image, whose answer this is.
    fn walked(&mut self, bytes: &[u8], place: usize, answer: &[usize]) {
        self.image("walk", bytes);
        let found = image::contents(bytes);
        if found.number != FINE {
            let kinds = REFUSED_PLACES.into_iter().zip([place <= 3, place >= 130]);
            holding(kinds).into_iter().for_each(|kind| self.add(format!("walk fault {}, {kind}", found.fault)));
            return;
        }
        let (shape, end) = (found.shape, found.shape.columns());
        if place > end {
            let above = |n: usize| (FAR[n]..=FAR[n] + end).contains(&place);
            let met = [place == end + 1, place == 129, place == 130, above(0), above(1), above(2), place == usize::MAX];
            for way in holding(BAD_PLACES.into_iter().zip(met)) {
                self.add(format!("walk {BAD_IMAGE} from {way}, {}", extent(shape)));
                if shape.k == 127 { self.add(format!("walk {BAD_IMAGE} from {way}, m=k=127")); }
            }
            return;
        }
        let absent = found.map.absent(shape);
        let more = (place..end).any(|column| found.map.is_present(column));
        let here = found.map.is_present(place);
        let met = [place == 0, here, !here && more, place < end && !more, place == end];
        for from in holding(WALK_PLACES.into_iter().map(|(from, _)| from).zip(met)) {
            self.add(format!("walk from {from}, {}", extent(shape)));
            for count in lacking(absent.len(), end) { self.add(format!("walk from {from}, {count} absent")); }
        }
        self.add(match answer[2] {
            NO_COLUMN => "walk end".to_string(),
            column => format!("walk {}", pattern(shape, &[column])),
        });
        if answer[3] > 65_536 { self.add("walk far"); }
        self.sizes("walk", shape);
    }

    fn count(&mut self, request: &Request) {
        // It is not refused: its answer begins with a length.
        if let Request::Lengths(shape) = request { return self.lengths(*shape); }
        let text = request.answer();
        let answer: Vec<usize> = text.split(' ').map_while(|field| field.parse().ok()).collect();
        let number = answer[0] as u8;
        self.add(format!("{} {number}", request.word()));
        self.of_two_wrong(request, &answer);
        match request {
            Request::Encode(shape, stripe) => self.plain("encode", *shape, stripe),
            Request::Check(shape, stripe) => {
                self.plain("check", *shape, stripe);
                self.checked(*shape, stripe, &answer);
                if is_valid(*shape, stripe) { self.valid = Some((*shape, stripe.clone())); }
            }
            Request::Locate(shape, stripe) => {
                self.plain("locate", *shape, stripe);
                self.located(*shape, stripe, &answer);
            }
            Request::Rewrite(shape, stripe, column) => self.rewritten(*shape, stripe, *column, number),
            Request::Change(shape, stripe, column, row, new) => {
                self.shape(*shape);
                let faults = faults_of_change(*shape, stripe, *column, *row, new);
                self.add_faults("change", &CHANGE_ORDER, &faults);
                match faults[..] {
                    [] => self.changed(*shape, stripe, *column, *row, new),
                    [number] => self.refused_change(*shape, stripe, *column, *row, new, number),
                    _ => {}
                }
            }
            Request::Changes(shape, stripe, columns, rows, cells) => {
                self.shape(*shape);
                let faults = faults_of_list(*shape, stripe, columns, rows, cells);
                self.add_faults("changes", &LIST_ORDER, &faults);
                let named: Vec<(usize, usize)> = columns.iter().copied().zip(rows.iter().copied()).collect();
                match faults[..] {
                    [] => self.listed(*shape, stripe, &named, cells),
                    [BAD_NUMBER] | [BAD_ROW] | [BAD_NUMBER, BAD_ROW] => self.refused_items(*shape, stripe, &named),
                    [number] => self.refused_list(*shape, stripe, columns, rows, cells, number),
                    _ => {}
                }
            }
            Request::Restore(shape, map, stripe, bench) => self.restored(*shape, map, stripe, bench, number),
            Request::Show(shape, map, stripe, bench, column) => {
                self.shape(*shape);
                self.add_faults("show", &SHOW_ORDER, &faults(*shape, map, stripe, bench, *column));
                match answer[..] {
                    [0, 0, ..] => self.add("show stripe"),
                    [0, 1, 0, _] => self.add("show first-half"),
                    [0, 1, ..] => self.add("show second-half"),
                    _ => {}
                }
            }
            Request::Mark(map, place, state) => {
                let same = mark(*map, *place, *state).map == *map;
                self.add(if same { "mark same" } else { "mark changed" });
            }
            Request::Gaps(k, map) => self.gaps(*k, map, &answer),
            Request::Read(bytes, _) => self.image("read", &bytes.get()),
            Request::Contents(bytes) => {
                let bytes = bytes.get();
                self.image("contents", &bytes);
                if number == FINE && bytes.len() > 65_536 { self.add("contents far"); }
            }
            Request::Write(shape, map, stripe, lent) => {
                self.shape(*shape);
                let (stripe, room) = (stripe.get(), lent.get().len());
                let faults = faults_of_write(*shape, map, &stripe, room);
                self.add_faults("write", &WRITE_ORDER, &faults);
                match faults[..] {
                    [] => self.written(*shape, map, &stripe, room),
                    [number] => self.refused_write(*shape, map, room, number),
                    _ => {}
                }
            }
            Request::Walk(bytes, place) => self.walked(&bytes.get(), *place, &answer),
            Request::Lengths(_) => {}
        }
    }
}

pub fn run(requests: impl BufRead, out: &mut impl Write) -> io::Result<bool> {
    let mut tally = Tally { cells: BTreeMap::new(), valid: None };
    let mut good = true;
    for line in requests.lines() {
        match Request::parse(&line?) {
            Some(request) => tally.count(&request),
            None => {
                tally.add("malformed");
                good = false;
            }
        }
    }
    for name in expected_cells() {
        let count = tally.cells.remove(&name).unwrap_or(0);
        good &= count > 0;
        writeln!(out, "{name} {count}")?;
    }
    for (name, count) in tally.cells {
        writeln!(out, "other: {name} {count}")?;
    }
    Ok(good)
}
