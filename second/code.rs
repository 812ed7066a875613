//! The stripe code: parity equations as bits, elimination over GF(2), and the operations on a stripe.

use std::ops::Range;

pub const PLACES: usize = 129;
pub const NO_COLUMN: usize = 129;
pub const NO_PLACE: usize = 129;
/// So many changes can be asked for at once. They are counted from 0, and so this number stands for none of them.
pub const MOST_ITEMS: usize = 256;
pub const NO_ITEM: usize = MOST_ITEMS;

pub const FINE: u8 = 0;
pub const WRONG_M: u8 = 1;
pub const BAD_STRIPE: u8 = 2;
pub const BAD_BENCH: u8 = 3;
pub const TOO_MANY_ABSENT: u8 = 4;
pub const NONE_FITS: u8 = 5;
pub const NONE_NEAR: u8 = 6;
pub const BAD_NUMBER: u8 = 7;
pub const BAD_IMAGE: u8 = 8;
pub const STRAY_PLACE: u8 = 9;
pub const INPUT_TOO_LONG: u8 = 10;
pub const BAD_ROW: u8 = 11;
pub const WRONG_K: u8 = 12;
pub const WRONG_B: u8 = 13;
pub const BAD_CELL: u8 = 14;
pub const BAD_LISTS: u8 = 15;
pub const BUFFER_TOO_SHORT: u8 = 16;
pub const LYING_MAP: u8 = 17;

// What a check or a locate found.
pub const FOUND_NOTHING: u8 = 0;
pub const FOUND_INTACT: u8 = 1;
pub const FOUND_BLANK: u8 = 2;
/// Of a check only.
pub const FOUND_BROKEN: u8 = 3;
/// Of a locate only.
pub const FOUND_COLUMN: u8 = 4;

/// Three shape numbers as handed in. The methods other than `judge` are for numbers that were accepted.
#[derive(Clone, Copy, PartialEq, Debug)]
pub struct Shape { pub m: usize, pub k: usize, pub b: usize }

pub fn is_odd_prime(n: usize) -> bool { n >= 3 && (2..n).take_while(|d| d * d <= n).all(|d| n % d != 0) }

impl Shape {
    /// The refusal of the first number that is wrong: m, then k for this m, then b.
    pub fn judge(self) -> u8 {
        let Shape { m, k, b } = self;
        if m > 127 || !is_odd_prime(m) { return WRONG_M; }
        if k < 1 || k > m { return WRONG_K; }
        if b < 1 || b > 4096 { return WRONG_B; }
        FINE
    }
    pub fn columns(self) -> usize { self.k + 2 }
    pub fn column_length(self) -> usize { (self.m - 1) * self.b }
    pub fn stripe_length(self) -> usize { self.columns() * self.column_length() }
    pub fn bench_length(self) -> usize { 2 * self.column_length() }
    /// The bytes of a column within a stripe.
    pub fn column(self, column: usize) -> Range<usize> {
        column * self.column_length()..(column + 1) * self.column_length()
    }
    /// Cells are numbered through the stripe, column after column.
    fn cell_number(self, row: usize, column: usize) -> usize { column * (self.m - 1) + row }
    /// The bytes of a cell within a stripe.
    pub fn cell_bytes(self, row: usize, column: usize) -> Range<usize> {
        let start = self.cell_number(row, column) * self.b;
        start..start + self.b
    }
    fn cell(self, stripe: &[u8], row: usize, column: usize) -> &[u8] { &stripe[self.cell_bytes(row, column)] }
    /// Whether row and column of the paper's data array are really there and not zero by rule.
    fn real(self, row: usize, column: usize) -> bool { row < self.m - 1 && column < self.k }
}

/// The bytes of a stripe for any three numbers, and of a bench, which is two columns whatever k is. 0 where a number that
/// counts is wrong.
pub fn lengths(Shape { m, k, b }: Shape) -> (usize, usize) {
    if m > 127 || !is_odd_prime(m) || b < 1 || b > 4096 { return (0, 0); }
    let column = (m - 1) * b;
    (if k < 1 || k > m { 0 } else { (k + 2) * column }, 2 * column)
}

/// The presence map: its places, where true is present, and what it says of them, how many are present and which is
/// the highest present one. A map made of parts may say what its places do not bear out.
#[derive(Clone, Copy, PartialEq, Debug)]
pub struct Map { pub places: [bool; PLACES], pub present: usize, pub highest: usize }

/// How many places are absent, and the two lowest of them.
#[derive(Clone, Copy, PartialEq, Debug)]
pub struct Gaps { pub absent: usize, pub first: usize, pub second: usize }

impl Map {
    pub fn new() -> Map { Map::counted([false; PLACES]) }
    /// The map of these places that says what they are.
    pub fn counted(places: [bool; PLACES]) -> Map {
        let present = places.iter().filter(|&&present| present).count();
        let highest = places.iter().rposition(|&present| present).unwrap_or(NO_PLACE);
        Map { places, present, highest }
    }
    pub fn from_parts(places: [bool; PLACES], present: usize, highest: usize) -> Map {
        Map { places, present, highest }
    }
    /// 1 is present, any other byte is absent.
    pub fn from_bytes(bytes: [u8; PLACES]) -> Map { Map::counted(bytes.map(|byte| byte == 1)) }
    pub fn all_but(columns: usize, absent: &[usize]) -> Map {
        let mut places = [false; PLACES];
        (0..columns).for_each(|c| places[c] = !absent.contains(&c));
        Map::counted(places)
    }
    /// Whether what the map says is what its places are.
    pub fn is_true(&self) -> bool { *self == Map::counted(self.places) }

    // The questions look at the places alone.
    pub fn is_present(&self, place: usize) -> bool { place < PLACES && self.places[place] }
    pub fn bytes(&self) -> [u8; PLACES] { self.places.map(|present| present as u8) }
    /// Whether a place is present that is at or above the limit.
    pub fn strays(&self, limit: usize) -> bool { (limit..PLACES).any(|place| self.places[place]) }
    pub fn absent_below(&self, limit: usize) -> Vec<usize> {
        (0..PLACES.min(limit)).filter(|&place| !self.places[place]).collect()
    }
    /// The absent ones of the places below the limit.
    pub fn gaps(&self, limit: usize) -> Gaps {
        let absent = self.absent_below(limit);
        let nth = |n: usize| absent.get(n).copied().unwrap_or(NO_PLACE);
        Gaps { absent: absent.len(), first: nth(0), second: nth(1) }
    }

    pub fn absent(&self, shape: Shape) -> Vec<usize> { self.absent_below(shape.columns()) }
    pub fn has_stray(&self, shape: Shape) -> bool { self.strays(shape.columns()) }
}

pub struct Marked { pub number: u8, pub map: Map }

/// The numbers of a true map are stepped and not counted again.
pub fn mark(map: Map, place: usize, present: bool) -> Marked {
    if !map.is_true() { return Marked { number: LYING_MAP, map }; }
    if place >= PLACES { return Marked { number: BAD_NUMBER, map }; }
    let mut map = map;
    match (map.places[place], present) {
        (false, true) => {
            map.present += 1;
            if map.highest == NO_PLACE || map.highest < place { map.highest = place; }
        }
        (true, false) => {
            map.present -= 1;
            // When the highest goes, the next one below it takes its part.
            if map.present == 0 {
                map.highest = NO_PLACE;
            } else if map.highest == place {
                map.highest -= 1;
                while !map.places[map.highest] { map.highest -= 1; }
            }
        }
        _ => {}
    }
    map.places[place] = present;
    Marked { number: FINE, map }
}

/// A row of bits.
#[derive(Clone)]
pub struct Bits(Vec<u64>);

impl Bits {
    fn zero(width: usize) -> Bits { Bits(vec![0; (width + 63) / 64]) }
    fn flip(&mut self, place: usize) { self.0[place / 64] ^= 1 << (place % 64); }
    fn get(&self, place: usize) -> bool { self.0[place / 64] >> (place % 64) & 1 == 1 }
    fn add(&mut self, other: &Bits) { self.0.iter_mut().zip(&other.0).for_each(|(x, y)| *x ^= y); }
    pub fn ones(&self) -> Vec<usize> {
        let mut found = Vec::new();
        for (w, &word) in self.0.iter().enumerate() {
            let mut rest = word;
            while rest != 0 {
                found.push(w * 64 + rest.trailing_zeros() as usize);
                rest &= rest - 1;
            }
        }
        found
    }
}

fn add_bytes(to: &mut [u8], from: &[u8]) { to.iter_mut().zip(from).for_each(|(x, y)| *x ^= y); }

pub fn is_zero(bytes: &[u8]) -> bool { bytes.iter().all(|&x| x == 0) }

/// A stripe is blank when every byte of it is zero.
pub fn is_blank(stripe: &[u8]) -> bool { is_zero(stripe) }

/// The 2(m-1) equations over the (k+2)(m-1) cells: the cells with a one sum to zero.
pub fn equations(shape: Shape) -> Vec<Bits> {
    let Shape { m, k, .. } = shape;
    let mut all = Vec::new();
    // Equation (2): H's cell i is the sum of a(i,t).
    for i in 0..m - 1 {
        let mut line = Bits::zero(shape.columns() * (m - 1));
        (0..k).for_each(|t| line.flip(shape.cell_number(i, t)));
        line.flip(shape.cell_number(i, k));
        all.push(line);
    }
    // Equation (3): D's cell i is the sum of a(m-1-t,t) for t from 1, and of a(i-t mod m,t) for t from 0.
    for i in 0..m - 1 {
        let mut line = Bits::zero(shape.columns() * (m - 1));
        let main = (1..m).map(|t| (m - 1 - t, t));
        let own = (0..m).map(|t| ((i + m - t) % m, t));
        for (row, t) in main.chain(own).filter(|&(row, t)| shape.real(row, t)) {
            line.flip(shape.cell_number(row, t));
        }
        line.flip(shape.cell_number(i, k + 1));
        all.push(line);
    }
    all
}

pub enum Solution {
    /// The absent columns, one after another in the order they were named.
    One(Vec<u8>),
    None,
    Many,
}

struct Line { unknown: Bits, known: Vec<u8> }

/// Solves the equations for the cells of the absent columns. Each byte lane has the same matrix, so
/// the bits are eliminated once and the known sides are carried along as byte vectors.
pub fn solve(shape: Shape, equations: &[Bits], absent: &[usize], stripe: &[u8]) -> Solution {
    let (rows, b) = (shape.m - 1, shape.b);
    let unknowns = absent.len() * rows;
    let mut lines: Vec<Line> = Vec::new();
    for equation in equations {
        let mut line = Line { unknown: Bits::zero(unknowns), known: vec![0; b] };
        for place in equation.ones() {
            let (column, row) = (place / rows, place % rows);
            match absent.iter().position(|&c| c == column) {
                Some(nth) => line.unknown.flip(nth * rows + row),
                None => add_bytes(&mut line.known, shape.cell(stripe, row, column)),
            }
        }
        lines.push(line);
    }
    let mut used = 0;
    for u in 0..unknowns {
        let found = match (used..lines.len()).find(|&l| lines[l].unknown.get(u)) {
            Some(found) => found,
            None => continue,
        };
        lines.swap(used, found);
        let (above, rest) = lines.split_at_mut(used);
        let (pivot, below) = rest.split_first_mut().expect("a pivot line was found");
        for line in above.iter_mut().chain(below).filter(|l| l.unknown.get(u)) {
            line.unknown.add(&pivot.unknown);
            add_bytes(&mut line.known, &pivot.known);
        }
        used += 1;
    }
    if lines[used..].iter().any(|line| !is_zero(&line.known)) { return Solution::None; }
    if used < unknowns { return Solution::Many; }
    Solution::One(lines[..unknowns].iter().flat_map(|line| line.known.iter().copied()).collect())
}

fn judge_plain(shape: Shape, stripe: &[u8]) -> u8 {
    match shape.judge() {
        FINE if stripe.len() != shape.stripe_length() => BAD_STRIPE,
        number => number,
    }
}

/// The refusal of a map for this shape.
fn judge_map(shape: Shape, map: &Map) -> u8 {
    if !map.is_true() { return LYING_MAP; }
    if map.has_stray(shape) { return STRAY_PLACE; }
    FINE
}

fn judge_with_map(shape: Shape, map: &Map, stripe: &[u8], bench: &[u8]) -> u8 {
    match judge_plain(shape, stripe) {
        FINE if bench.len() != shape.bench_length() => BAD_BENCH,
        FINE => judge_map(shape, map),
        number => number,
    }
}

/// The refusal of what is to be written as an image.
pub fn judge_to_write(shape: Shape, map: &Map, stripe: &[u8]) -> u8 {
    match judge_plain(shape, stripe) {
        FINE => judge_map(shape, map),
        number => number,
    }
}

pub struct Encoded { pub number: u8 }

/// H and D are the two columns that the equations give when they are taken as absent.
pub fn encode(shape: Shape, stripe: &mut [u8]) -> Encoded {
    let number = judge_plain(shape, stripe);
    if number != FINE {
        return Encoded { number };
    }
    let parity = match solve(shape, &equations(shape), &[shape.k, shape.k + 1], stripe) {
        Solution::One(parity) => parity,
        _ => panic!("data always has one parity"),
    };
    stripe[shape.k * shape.column_length()..].copy_from_slice(&parity);
    Encoded { number: FINE }
}

pub struct Checked { pub number: u8, pub rows: usize, pub diagonals: usize, pub found: u8 }

/// The paper's a(i,t), zero where it is zero by rule.
fn data_cell(shape: Shape, stripe: &[u8], row: usize, t: usize) -> Vec<u8> {
    if shape.real(row, t) { shape.cell(stripe, row, t).to_vec() } else { vec![0; shape.b] }
}

fn sum(shape: Shape, cells: impl Iterator<Item = Vec<u8>>) -> Vec<u8> {
    cells.fold(vec![0; shape.b], |mut total, cell| {
        add_bytes(&mut total, &cell);
        total
    })
}

pub fn main_sum(shape: Shape, stripe: &[u8]) -> Vec<u8> {
    let m = shape.m;
    sum(shape, (1..m).map(|t| data_cell(shape, stripe, m - 1 - t, t)))
}

/// What the data gives for the cells of H and then of D, by the equations as they are written down, without the bit matrix.
fn parity_on_paper(shape: Shape, stripe: &[u8]) -> Vec<u8> {
    let m = shape.m;
    let s = main_sum(shape, stripe);
    let row = |i: usize| sum(shape, (0..m).map(|t| data_cell(shape, stripe, i, t)));
    let diagonal = |i: usize| {
        let mut right = sum(shape, (0..m).map(|t| data_cell(shape, stripe, (i + m - t) % m, t)));
        add_bytes(&mut right, &s);
        right
    };
    (0..m - 1).flat_map(row).chain((0..m - 1).flat_map(diagonal)).collect()
}

/// By how much each equation breaks, of H and then of D: the cell that stands there and the one that the data gives, added up.
fn amounts(shape: Shape, stripe: &[u8]) -> Vec<u8> {
    let mut amounts = parity_on_paper(shape, stripe);
    add_bytes(&mut amounts, &stripe[shape.k * shape.column_length()..]);
    amounts
}

/// Counts the equations that break by any amount. Intact is a stripe with both counts zero and some byte that is not.
pub fn check(shape: Shape, stripe: &[u8]) -> Checked {
    let number = judge_plain(shape, stripe);
    if number != FINE {
        return Checked { number, rows: 0, diagonals: 0, found: FOUND_NOTHING };
    }
    let amounts = amounts(shape, stripe);
    let broken = |part: &[u8]| part.chunks(shape.b).filter(|amount| !is_zero(amount)).count();
    let (of_h, of_d) = amounts.split_at(shape.column_length());
    let (rows, diagonals) = (broken(of_h), broken(of_d));
    let found = match (rows, diagonals) {
        _ if is_blank(stripe) => FOUND_BLANK,
        (0, 0) => FOUND_INTACT,
        _ => FOUND_BROKEN,
    };
    Checked { number, rows, diagonals, found }
}

pub struct Restored { pub number: u8, pub count: usize, pub first: usize, pub second: usize }

pub fn restore(shape: Shape, map: &Map, stripe: &[u8], bench: &mut [u8]) -> Restored {
    let refused = |number| Restored { number, count: 0, first: NO_COLUMN, second: NO_COLUMN };
    let number = judge_with_map(shape, map, stripe, bench);
    if number != FINE { return refused(number); }
    let absent = map.absent(shape);
    if absent.len() > 2 { return refused(TOO_MANY_ABSENT); }
    match solve(shape, &equations(shape), &absent, stripe) {
        Solution::None => refused(NONE_FITS),
        Solution::Many => panic!("two valid stripes agree in all but two columns"),
        Solution::One(columns) => {
            bench[..columns.len()].copy_from_slice(&columns);
            let nth = |n: usize| absent.get(n).copied().unwrap_or(NO_COLUMN);
            Restored { number, count: absent.len(), first: nth(0), second: nth(1) }
        }
    }
}

pub struct Located { pub number: u8, pub found: u8, pub column: usize }

/// Every column of a stripe that is not valid is in turn taken as absent: wrong is the one without which the others fit.
pub fn locate(shape: Shape, stripe: &[u8]) -> Located {
    let refused = |number| Located { number, found: FOUND_NOTHING, column: NO_COLUMN };
    let number = judge_plain(shape, stripe);
    if number != FINE { return refused(number); }
    if is_blank(stripe) {
        return Located { number, found: FOUND_BLANK, column: NO_COLUMN };
    }
    let equations = equations(shape);
    let fits = |absent: &[usize]| matches!(solve(shape, &equations, absent, stripe), Solution::One(_));
    if fits(&[]) {
        return Located { number, found: FOUND_INTACT, column: NO_COLUMN };
    }
    let wrong: Vec<usize> = (0..shape.columns()).filter(|&column| fits(&[column])).collect();
    match wrong[..] {
        [] => refused(NONE_NEAR),
        [column] => Located { number, found: FOUND_COLUMN, column },
        _ => panic!("two valid stripes differ in fewer than three columns"),
    }
}

pub struct Rewritten { pub number: u8 }

/// The column is taken as absent, and gets what the others leave for it. All of it is known before any is written.
pub fn rewrite(shape: Shape, stripe: &mut [u8], column: usize) -> Rewritten {
    let number = judge_plain(shape, stripe);
    if number != FINE { return Rewritten { number }; }
    if column >= shape.columns() { return Rewritten { number: BAD_NUMBER }; }
    match solve(shape, &equations(shape), &[column], stripe) {
        Solution::None => Rewritten { number: NONE_FITS },
        Solution::Many => panic!("two valid stripes agree in all but one column"),
        Solution::One(content) => {
            stripe[shape.column(column)].copy_from_slice(&content);
            Rewritten { number }
        }
    }
}

/// The data is edited, and H and D become what the edited data gives, each cell with the amount added by which its equation
/// broke before.
fn edit_data(shape: Shape, stripe: &mut [u8], edit: impl FnOnce(&mut [u8])) {
    let before = amounts(shape, stripe);
    edit(stripe);
    let mut parity = parity_on_paper(shape, stripe);
    add_bytes(&mut parity, &before);
    stripe[shape.k * shape.column_length()..].copy_from_slice(&parity);
}

/// The refusal of a cell of the data that is named.
fn judge_named(shape: Shape, column: usize, row: usize) -> u8 {
    if column >= shape.k { return BAD_NUMBER; }
    if row >= shape.m - 1 { return BAD_ROW; }
    FINE
}

pub struct Changed { pub number: u8 }

/// A data cell gets new bytes.
pub fn change(shape: Shape, stripe: &mut [u8], column: usize, row: usize, cell: &[u8]) -> Changed {
    let number = judge_plain(shape, stripe);
    if number != FINE { return Changed { number }; }
    let number = judge_named(shape, column, row);
    if number != FINE { return Changed { number }; }
    if cell.len() != shape.b { return Changed { number: BAD_CELL }; }
    edit_data(shape, stripe, |stripe| stripe[shape.cell_bytes(row, column)].copy_from_slice(cell));
    Changed { number }
}

pub struct ChangedAll { pub number: u8, pub item: usize }

/// Data cells get new bytes one after another, or none does. The amounts are taken down once, before the first of them, and H and
/// D are reckoned once, after the last.
pub fn changes(shape: Shape, stripe: &mut [u8], columns: &[usize], rows: &[usize], cells: &[u8]) -> ChangedAll {
    let of_none = |number| ChangedAll { number, item: NO_ITEM };
    let number = judge_plain(shape, stripe);
    if number != FINE { return of_none(number); }
    let count = columns.len();
    if rows.len() != count || count > MOST_ITEMS || cells.len() != count * shape.b { return of_none(BAD_LISTS); }
    let named = || columns.iter().copied().zip(rows.iter().copied());
    for (item, (column, row)) in named().enumerate() {
        let number = judge_named(shape, column, row);
        if number != FINE { return ChangedAll { number, item }; }
    }
    edit_data(shape, stripe, |stripe| {
        for ((column, row), cell) in named().zip(cells.chunks(shape.b)) {
            stripe[shape.cell_bytes(row, column)].copy_from_slice(cell);
        }
    });
    of_none(FINE)
}

pub struct Shown { pub number: u8, pub from_bench: bool, pub start: usize, pub length: usize }

pub fn show(shape: Shape, map: &Map, stripe: &[u8], bench: &[u8], column: usize) -> Shown {
    let refused = |number| Shown { number, from_bench: false, start: 0, length: 0 };
    let number = judge_with_map(shape, map, stripe, bench);
    if number != FINE { return refused(number); }
    if column >= shape.columns() { return refused(BAD_NUMBER); }
    let absent = map.absent(shape);
    if absent.len() > 2 { return refused(TOO_MANY_ABSENT); }
    let length = shape.column_length();
    match absent.iter().position(|&c| c == column) {
        Some(half) => Shown { number, from_bench: true, start: half * length, length },
        None => Shown { number, from_bench: false, start: column * length, length },
    }
}
