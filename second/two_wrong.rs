//! Counts how often a locate names a third column where exactly two columns of a valid stripe are wrong.

use crate::code::*;
use crate::generate::Random;
use std::io::{self, Write};

/// One of so many answers is held against the locate of `code.rs`.
const HELD: usize = 50;

/// What is done to each of the two columns.
#[derive(Clone, Copy, PartialEq)]
#[rustfmt::skip]
enum Change { SameBit, OneBit, AllBytes }

/// A shape, the change, and how many are tried at random, or none where all ways of it are tried. Of the last kind a third is
/// named so seldom that it takes many to meet it at all, and only at the smallest shapes.
const ROWS: [([usize; 3], Change, Option<usize>); 10] = [
    ([3, 1, 1], Change::SameBit, None),
    ([3, 3, 1], Change::SameBit, None),
    ([5, 5, 1], Change::SameBit, None),
    ([7, 7, 1], Change::SameBit, None),
    ([3, 3, 1], Change::OneBit, None),
    ([5, 5, 1], Change::OneBit, None),
    ([17, 15, 16], Change::OneBit, Some(20_000)),
    ([3, 3, 1], Change::AllBytes, Some(2_000_000)),
    ([5, 5, 1], Change::AllBytes, Some(20_000)),
    ([17, 15, 16], Change::AllBytes, Some(20_000)),
];

impl Change {
    fn text(self) -> &'static str {
        match self {
            Change::SameBit => "any, in bit 0 of the bytes",
            Change::OneBit => "one bit flipped",
            Change::AllBytes => "all bytes, at random",
        }
    }

    /// All ways to change a column, each as what is added to it.
    fn all(self, shape: Shape) -> Vec<Vec<u8>> {
        let (cells, length) = (shape.m - 1, shape.column_length());
        match self {
            // A set of cells that is not empty, in bit 0 of their first bytes.
            Change::SameBit => {
                let bit = |set: usize, place: usize| (place % shape.b == 0 && set >> (place / shape.b) & 1 == 1) as u8;
                (1..1 << cells).map(|set| (0..length).map(|place| bit(set, place)).collect()).collect()
            }
            Change::OneBit => (0..8 * length).map(|bit| one_bit(length, bit)).collect(),
            Change::AllBytes => panic!("there are too many"),
        }
    }

    fn drawn(self, shape: Shape, random: &mut Random) -> Vec<u8> {
        let length = shape.column_length();
        if self == Change::OneBit { return one_bit(length, random.below(8 * length)); }
        loop {
            let bytes = random.bytes(length);
            if !is_zero(&bytes) { return bytes; }
        }
    }
}

/// A column that is zero but for this bit.
fn one_bit(length: usize, bit: usize) -> Vec<u8> {
    (0..length).map(|place| if place == bit / 8 { 1 << (bit % 8) } else { 0 }).collect()
}

/// A locate for many stripes of one shape, where m is at most 31. The equations are eliminated once for each column: left are
/// sums of equations in which no cell of the column stands. Without the column the others fit exactly when all these are zero.
struct Finder { shape: Shape, equations: Vec<Vec<usize>>, left: Vec<Vec<u64>> }

impl Finder {
    fn new(shape: Shape) -> Finder {
        let rows = shape.m - 1;
        let equations: Vec<Vec<usize>> = equations(shape).iter().map(Bits::ones).collect();
        let left_of = |column: usize| {
            // Of each sum the cells of the column that stand in it, and its equations, as bits.
            let mut sums: Vec<(u64, u64)> = Vec::new();
            for (n, cells) in equations.iter().enumerate() {
                let own = cells.iter().filter(|&&cell| cell / rows == column);
                sums.push((own.map(|cell| 1 << (cell % rows)).sum(), 1 << n));
            }
            for row in 0..rows {
                let found = sums.iter().position(|(cells, _)| cells >> row & 1 == 1);
                let pivot = sums.swap_remove(found.expect("the others give every cell of a column"));
                for sum in sums.iter_mut().filter(|(cells, _)| cells >> row & 1 == 1) {
                    *sum = (sum.0 ^ pivot.0, sum.1 ^ pivot.1);
                }
            }
            sums.into_iter().map(|(_, equations)| equations).collect()
        };
        let left = (0..shape.columns()).map(left_of).collect();
        Finder { shape, equations, left }
    }

    fn locate(&self, stripe: &[u8]) -> Located {
        let b = self.shape.b;
        if is_blank(stripe) {
            return Located { number: FINE, found: FOUND_BLANK, column: NO_COLUMN };
        }
        let mut broken = vec![0; self.equations.len() * b];
        for (sum, cells) in broken.chunks_mut(b).zip(&self.equations) {
            for cell in cells.iter().map(|&cell| &stripe[cell * b..(cell + 1) * b]) {
                sum.iter_mut().zip(cell).for_each(|(x, y)| *x ^= y);
            }
        }
        if is_zero(&broken) {
            return Located { number: FINE, found: FOUND_INTACT, column: NO_COLUMN };
        }
        let is_zero = |sum: u64, lane: usize| {
            let equations = (0..self.equations.len()).filter(|n| sum >> n & 1 == 1);
            equations.fold(0, |total, n| total ^ broken[n * b + lane]) == 0
        };
        let fits = |column: &usize| self.left[*column].iter().all(|&sum| (0..b).all(|lane| is_zero(sum, lane)));
        let wrong: Vec<usize> = (0..self.shape.columns()).filter(fits).collect();
        match wrong[..] {
            [] => Located { number: NONE_NEAR, found: FOUND_NOTHING, column: NO_COLUMN },
            [column] => Located { number: FINE, found: FOUND_COLUMN, column },
            _ => panic!("two valid stripes differ in fewer than three columns"),
        }
    }
}

struct Count { finder: Finder, tried: usize, six: usize, third: usize }

impl Count {
    /// Adds these changes to two columns of a valid stripe, and counts what a locate then says. No check and no locate may
    /// say intact or blank, and no locate may name one of the two.
    fn add(&mut self, valid: &[u8], columns: [usize; 2], changes: [&[u8]; 2]) -> Result<(), String> {
        let shape = self.finder.shape;
        let mut stripe = valid.to_vec();
        for (column, change) in columns.into_iter().zip(changes) {
            stripe[shape.column(column)].iter_mut().zip(change).for_each(|(x, y)| *x ^= y);
        }
        let done = self.finder.locate(&stripe);
        let about = || format!("{shape}, columns {columns:?} changed by {changes:?}");
        if self.tried % HELD == 0 {
            let other = locate(shape, &stripe);
            if (done.number, done.found, done.column) != (other.number, other.found, other.column) {
                return Err(format!("{}: the two ways to locate differ", about()));
            }
        }
        self.tried += 1;
        if check(shape, &stripe).found != FOUND_BROKEN {
            return Err(format!("{}: the check does not say broken", about()));
        }
        match (done.number, done.found) {
            (NONE_NEAR, FOUND_NOTHING) => self.six += 1,
            (FINE, FOUND_COLUMN) if !columns.contains(&done.column) => self.third += 1,
            _ => return Err(format!("{}: the locate found {} {}", about(), done.found, done.column)),
        }
        Ok(())
    }
}

fn valid_stripe(shape: Shape, random: &mut Random) -> Vec<u8> {
    let mut stripe = random.bytes(shape.stripe_length());
    encode(shape, &mut stripe);
    assert!(check(shape, &stripe).found == FOUND_INTACT, "drawn data, encoded, is intact");
    stripe
}

fn count(shape: Shape, change: Change, at_random: Option<usize>, random: &mut Random) -> Result<Count, String> {
    let mut count = Count { finder: Finder::new(shape), tried: 0, six: 0, third: 0 };
    let columns = shape.columns();
    if let Some(times) = at_random {
        let mut valid = Vec::new();
        for n in 0..times {
            if n % 100 == 0 { valid = valid_stripe(shape, random); }
            let changes = [change.drawn(shape, random), change.drawn(shape, random)];
            count.add(&valid, random.two(columns), [&changes[0], &changes[1]])?;
        }
    } else {
        let changes = change.all(shape);
        for (x, y) in (0..columns).flat_map(|x| (x + 1..columns).map(move |y| (x, y))) {
            let valid = valid_stripe(shape, random);
            for first in &changes {
                for second in &changes {
                    count.add(&valid, [x, y], [first, second])?;
                }
            }
        }
    }
    // In one bit each change of x goes, for each third column, with exactly one change of y after which that is named.
    let ways = (1 << (shape.m - 1)) - 1;
    if change == Change::SameBit && count.third * ways != count.tried * shape.k {
        return Err(format!("{shape}: a third was named {} times of {}", count.third, count.tried));
    }
    Ok(count)
}

/// A number with a comma before each three digits.
fn grouped(number: usize) -> String {
    if number < 1_000 { number.to_string() } else { format!("{},{:03}", grouped(number / 1_000), number % 1_000) }
}

pub fn run(out: &mut impl Write) -> io::Result<bool> {
    writeln!(out, "| m | k | b | Change in each of the two columns | Tried | 6 | A third |")?;
    writeln!(out, "|---|---|---|---|---|---|---|")?;
    let mut random = Random(13);
    for ([m, k, b], change, at_random) in ROWS {
        match count(Shape { m, k, b }, change, at_random, &mut random) {
            Ok(Count { tried, six, third, .. }) => {
                let tried = grouped(tried) + if at_random.is_none() { ", all" } else { " at random" };
                let (change, six, third) = (change.text(), grouped(six), grouped(third));
                writeln!(out, "| {m} | {k} | {b} | {change} | {tried} | {six} | {third} |")?;
            }
            Err(difference) => {
                eprintln!("two-wrong: {difference}");
                return Ok(false);
            }
        }
    }
    Ok(true)
}
