//! Tests: the document's numbers, exhaustive searches on small stripes, and the generator's own knowledge.

use crate::code::{self, *};
use crate::generate::{BLANK_KINDS, IMAGE_KINDS, Maker, Random, fit};
use crate::image;
use crate::lies;
use crate::numbers;
use crate::requests::{self, Request, bytes_of, hex};
use std::fmt::Debug;
use std::io::{self, Write};

const DOCUMENT_PRIMES: [usize; 30] = [
    3, 5, 7, 11, 13, 17, 19, 23, 29, 31, 37, 41, 43, 47, 53, 59, 61, 67, 71, 73, 79, 83, 89, 97, 101, 103, 107, 109,
    113, 127,
];

#[derive(Default)]
struct Test { run: usize, differences: Vec<String> }

impl Test {
    fn same<T: PartialEq + Debug>(&mut self, what: impl Fn() -> String, got: T, wanted: T) {
        self.run += 1;
        if got != wanted {
            self.differences.push(format!("{}: got {got:?}, wanted {wanted:?}", what()));
        }
    }
}

fn document(test: &mut Test) {
    for number in numbers::all() {
        test.same(|| format!("{} {}", number.name, number.word), number.computed, number.expected);
    }
}

/// What the three rules say of a shape, as they are written down.
fn by_the_rules(m: usize, k: usize, b: usize) -> u8 {
    match (DOCUMENT_PRIMES.contains(&m), (1..=m).contains(&k), (1..=4096).contains(&b)) {
        (false, _, _) => 1,
        (true, false, _) => 12,
        (true, true, false) => 13,
        (true, true, true) => 0,
    }
}

/// The shape check and the lengths against these.
fn shapes(test: &mut Test) {
    for m in 0..70_000 {
        test.same(|| format!("m={m}"), Shape { m, k: 1, b: 1 }.judge(), by_the_rules(m, 1, 1));
    }
    for m in (0..=300).chain([usize::MAX]) {
        for k in (0..=300).chain([usize::MAX]) {
            for b in [0, 1, 2, 4095, 4096, 4097, 65_536, usize::MAX] {
                let shape = Shape { m, k, b };
                test.same(|| format!("shape {shape}"), shape.judge(), by_the_rules(m, k, b));
                let lengths = Request::Lengths(shape).answer();
                test.same(|| format!("lengths {shape}"), lengths, lengths_by_the_rules(m, k, b));
            }
        }
    }
}

/// The lengths of a stripe and of a bench: how many columns there are, how many rows, and how many bytes in a cell.
fn lengths_by_the_rules(m: usize, k: usize, b: usize) -> String {
    let cell = if (1..=4096).contains(&b) { b } else { 0 };
    let rows = if DOCUMENT_PRIMES.contains(&m) { m - 1 } else { 0 };
    let columns = if (1..=m).contains(&k) { k + 2 } else { 0 };
    format!("{} {}", columns * rows * cell, 2 * rows * cell)
}

fn lengths(test: &mut Test) {
    let by_hand = [
        ([3, 3, 1], "10 4"),
        ([3, 1, 1], "6 4"),
        ([5, 5, 1], "28 8"),
        ([3, 3, 2], "20 8"),
        ([5, 1, 3], "36 24"),
        ([127, 1, 1], "378 252"),
        ([3, 1, 4096], "24576 16384"),
        ([127, 127, 4096], "66576384 1032192"),
        ([3, 0, 1], "0 4"),
        ([3, 4, 1], "0 4"),
        ([3, MAX - 1, 4096], "0 16384"),
        ([127, MAX, 4096], "0 1032192"),
        ([2, 1, 1], "0 0"),
        ([9, 1, 1], "0 0"),
        ([129, 1, 1], "0 0"),
        ([131, 1, 1], "0 0"),
        ([3, 1, 0], "0 0"),
        ([3, 1, 4097], "0 0"),
        ([3, 1, (1 << 63) + 1], "0 0"),
        ([MAX, 1, 1], "0 0"),
        ([MAX, MAX, MAX], "0 0"),
    ];
    for ([m, k, b], wanted) in by_hand {
        let line = format!("lengths {m} {k} {b}");
        let request = Request::parse(&line).expect("the request is written rightly");
        test.same(|| "text".to_string(), &request.to_string(), &line);
        test.same(|| line.clone(), &request.answer()[..], wanted);
    }
    for rest in ["", "3", "3 3", "3 3 1 1", "3 3 18446744073709551616", "3 3 -1"] {
        test.same(|| format!("malformed lengths {rest}"), Request::parse(&format!("lengths {rest}")).is_none(), true);
    }
    // A stripe and a bench of these lengths are what a restore asks for, and no others are.
    for (m, k, b) in [(3, 1, 1), (3, 3, 2), (5, 2, 3), (7, 7, 1), (127, 2, 1)] {
        let shape = Shape { m, k, b };
        let answer = Request::Lengths(shape).answer();
        let (stripe, bench) = answer.split_once(' ').expect("two lengths");
        let (stripe, bench): (usize, usize) = (stripe.parse().expect("a length"), bench.parse().expect("a length"));
        let map = Map::all_but(k + 2, &[0]);
        for (more, less, wanted) in [(0, 0, FINE), (1, 0, 2), (0, 1, 3)] {
            let (stripe, mut bench) = (vec![0; stripe + more], vec![0; bench - less]);
            test.same(|| format!("lengths of {shape}"), restore(shape, &map, &stripe, &mut bench).number, wanted);
        }
    }
}

fn is_valid(shape: Shape, stripe: &[u8]) -> bool {
    let counts = check(shape, stripe);
    (counts.number, counts.rows, counts.diagonals) == (0, 0, 0)
}

/// By how much each equation breaks, of H and then of D: byte by byte, as they are written down.
fn amounts_by_the_rules(Shape { m, k, b }: Shape, stripe: &[u8]) -> Vec<u8> {
    let at = |row: usize, column: usize, lane: usize| stripe[(column * (m - 1) + row) * b + lane];
    let a = |row: usize, t: usize, lane: usize| if row < m - 1 && t < k { at(row, t, lane) } else { 0 };
    let mut amounts = vec![0; 2 * (m - 1) * b];
    for lane in 0..b {
        let s = (1..m).fold(0, |sum, t| sum ^ a(m - 1 - t, t, lane));
        for i in 0..m - 1 {
            let (row, diagonal) = (i * b + lane, (m - 1 + i) * b + lane);
            amounts[row] = at(i, k, lane) ^ (0..m).fold(0, |sum, t| sum ^ a(i, t, lane));
            amounts[diagonal] = at(i, k + 1, lane) ^ (0..m).fold(s, |sum, t| sum ^ a((i + m - t) % m, t, lane));
        }
    }
    amounts
}

/// How many equations break, of H and of D.
fn counts_by_the_rules(shape: Shape, stripe: &[u8]) -> (usize, usize) {
    let amounts = amounts_by_the_rules(shape, stripe);
    let count = |part: &[u8]| part.chunks(shape.b).filter(|amount| amount.iter().any(|&x| x != 0)).count();
    let (rows, diagonals) = amounts.split_at(amounts.len() / 2);
    (count(rows), count(diagonals))
}

fn all_zero(bytes: &[u8]) -> bool { bytes.iter().map(|&byte| byte as usize).sum::<usize>() == 0 }

/// The answer to a check by the definitions: blank if every byte is zero, intact if both counts are zero and some byte is
/// not, and otherwise broken.
fn check_by_the_rules(shape: Shape, stripe: &[u8]) -> String {
    match plain_by_the_rules(shape, stripe) {
        0 => {
            let (rows, diagonals) = counts_by_the_rules(shape, stripe);
            let (valid, zero) = ((rows, diagonals) == (0, 0), all_zero(stripe));
            let (intact, blank) = (valid && !zero, zero);
            assert!(valid == (intact || blank) && !(intact && blank), "valid is intact or blank, and never both");
            format!("0 {rows} {diagonals} {}", if blank { 2 } else if intact { 1 } else { 3 })
        }
        number => format!("{number} 0 0 0"),
    }
}

/// The stripe with the one content of a column that may make it valid, where that does so. It comes from the equations as
/// they are written down: for a data column and for H from the rows, for D from the diagonals.
fn filled_in(Shape { m, k, b }: Shape, stripe: &[u8], column: usize) -> Option<Vec<u8>> {
    let place = |row: usize, t: usize, lane: usize| (t * (m - 1) + row) * b + lane;
    let mut filled = stripe.to_vec();
    for lane in 0..b {
        let data = |row: usize, t: usize| if row < m - 1 && t < k { stripe[place(row, t, lane)] } else { 0 };
        let s = (1..m).fold(0, |sum, t| sum ^ data(m - 1 - t, t));
        for i in 0..m - 1 {
            filled[place(i, column, lane)] = if column <= k {
                (0..=k).filter(|&t| t != column).fold(0, |sum, t| sum ^ stripe[place(i, t, lane)])
            } else {
                (0..m).fold(s, |sum, t| sum ^ data((i + m - t) % m, t))
            };
        }
    }
    is_valid(Shape { m, k, b }, &filled).then_some(filled)
}

/// What the rules say of a shape and a stripe that is lent with it.
fn plain_by_the_rules(Shape { m, k, b }: Shape, stripe: &[u8]) -> u8 {
    match by_the_rules(m, k, b) {
        0 if stripe.len() != (k + 2) * (m - 1) * b => 2,
        number => number,
    }
}

/// A rewrite by the rules: its number, and the stripe afterwards.
fn rewrite_by_the_rules(shape: Shape, stripe: &[u8], column: usize) -> (u8, Vec<u8>) {
    let refused = |number: u8| (number, stripe.to_vec());
    match plain_by_the_rules(shape, stripe) {
        0 if column >= shape.k + 2 => refused(7),
        0 => filled_in(shape, stripe, column).map_or_else(|| refused(5), |filled| (0, filled)),
        number => refused(number),
    }
}

/// In which equations a data cell is, of H and then of D: those that break when it is flipped in a stripe of zeros.
fn equations_with(Shape { m, k, .. }: Shape, column: usize, row: usize) -> Vec<usize> {
    let mut stripe = vec![0; (k + 2) * (m - 1)];
    stripe[column * (m - 1) + row] = 1;
    let amounts = amounts_by_the_rules(Shape { m, k, b: 1 }, &stripe);
    (0..2 * (m - 1)).filter(|&equation| amounts[equation] != 0).collect()
}

/// A change by the rules: its number, and the stripe afterwards. What the new cell differs by is added to the cells of H and D
/// in whose equations it is.
fn change_by_the_rules(shape: Shape, stripe: &[u8], column: usize, row: usize, new: &[u8]) -> (u8, Vec<u8>) {
    let Shape { m, k, b } = shape;
    let number = match plain_by_the_rules(shape, stripe) {
        0 if column >= k => 7,
        0 if row >= m - 1 => 11,
        0 if new.len() != b => 14,
        number => number,
    };
    let mut after = stripe.to_vec();
    if number != 0 { return (number, after); }
    let own = column * (m - 1) + row;
    let parity = equations_with(shape, column, row).into_iter().map(|equation| k * (m - 1) + equation);
    for cell in parity.chain([own]) {
        (0..b).for_each(|lane| after[cell * b + lane] ^= stripe[own * b + lane] ^ new[lane]);
    }
    (0, after)
}

/// The items of a list one at a time: the number and the item of the first that is refused, with the stripe as it was; or 0, 256
/// and the stripe after the last.
fn one_at_a_time(
    shape: Shape, stripe: &[u8], columns: &[usize], rows: &[usize], cells: &[u8],
    change: impl Fn(Shape, &[u8], usize, usize, &[u8]) -> (u8, Vec<u8>),
) -> (u8, usize, Vec<u8>) {
    let mut after = stripe.to_vec();
    for (item, cell) in cells.chunks(shape.b).enumerate() {
        match change(shape, &after, columns[item], rows[item], cell) {
            (0, changed) => after = changed,
            (number, _) => return (number, item, stripe.to_vec()),
        }
    }
    (0, 256, after)
}

/// A list of changes by the rules: its number, the item, and the stripe afterwards.
fn list_by_the_rules(shape: Shape, stripe: &[u8], columns: &[usize], rows: &[usize], cells: &[u8]) -> (u8, usize, Vec<u8>) {
    let (count, bytes) = (columns.len(), columns.len().saturating_mul(shape.b));
    let number = match plain_by_the_rules(shape, stripe) {
        0 if count != rows.len() || bytes != cells.len() || count > 256 => 15,
        number => number,
    };
    if number != 0 { return (number, 256, stripe.to_vec()); }
    one_at_a_time(shape, stripe, columns, rows, cells, change_by_the_rules)
}

/// Finding and rewriting joined in one: its number, the column, and the stripe afterwards. A valid stripe stays, with
/// column 129. If a valid stripe differs from this one in exactly one column, that is rewritten.
fn mend(shape: Shape, stripe: &[u8]) -> (u8, usize, Vec<u8>) {
    let number = plain_by_the_rules(shape, stripe);
    if number != 0 || is_valid(shape, stripe) { return (number, 129, stripe.to_vec()); }
    let fitting = |column| Some((column, filled_in(shape, stripe, column)?));
    let mut near: Vec<(usize, Vec<u8>)> = (0..shape.k + 2).filter_map(fitting).collect();
    assert!(near.len() < 2, "two valid stripes lie next to one stripe");
    near.pop().map_or_else(|| (6, 129, stripe.to_vec()), |(column, mended)| (0, column, mended))
}

/// A locate, and after it a rewrite of the column that it names, leave what `mend` leaves. Then rewrites of each column, or
/// of some where there are many, and of what is no column: whatever it holds, the answer and what is put in are the same.
fn locate_and_rewrite(test: &mut Test, random: &mut Random, shape: Shape, stripe: &[u8]) {
    let about = || format!("{shape} {:?}", &stripe[..stripe.len().min(60)]);
    let (number, column, mended) = mend(shape, stripe);
    let found = match (number, column) {
        (0, 129) if all_zero(stripe) => 2,
        (0, 129) => 1,
        (0, _) => 4,
        _ => 0,
    };
    let valid = found == 1 || found == 2;
    let done = locate(shape, stripe);
    test.same(|| format!("locate {}", about()), (done.number, done.found, done.column), (number, found, column));
    let mut after = stripe.to_vec();
    if done.found == 4 {
        test.same(|| format!("rewrite {}", about()), rewrite(shape, &mut after, done.column).number, 0);
    }
    test.same(|| format!("the pair {}", about()), after, mended);
    if ![0, 6].contains(&number) {
        let refused = rewrite(shape, &mut stripe.to_vec(), 0).number;
        return test.same(|| format!("refused rewrite {}", about()), refused, number);
    }
    let columns = shape.k + 2;
    let some = [0, random.below(columns), columns - 3, columns - 2, columns - 1, column.min(columns - 1)];
    let real = if columns <= 9 { (0..columns).collect() } else { some.to_vec() };
    for told in real.into_iter().chain([columns, columns + 1, 129, MAX]) {
        let about = || format!("column {told} of {}", about());
        let (number, wanted) = rewrite_by_the_rules(shape, stripe, told);
        let passes = told < columns && (valid || found == 4 && told == column);
        test.same(about, number, if passes { 0 } else if told < columns { 5 } else { 7 });
        if valid { test.same(about, &wanted[..], stripe); }
        let mut held = vec![stripe.to_vec()];
        if told < columns {
            let contents: [fn(&mut Random) -> u8; 3] = [|_| 0, |_| 255, |random| random.below(256) as u8];
            for content in contents {
                let mut other = stripe.to_vec();
                other[shape.column(told)].iter_mut().for_each(|x| *x = content(random));
                held.push(other);
            }
        }
        for before in held {
            let mut after = before.clone();
            let done = rewrite(shape, &mut after, told);
            test.same(about, (done.number, after), (number, if passes { wanted.clone() } else { before }));
        }
    }
}

/// The columns in which two stripes differ, as bits.
fn difference(shape: Shape, x: &[u8], y: &[u8]) -> u32 {
    let columns = x.chunks(shape.column_length()).zip(y.chunks(shape.column_length()));
    columns.enumerate().filter(|(_, (a, b))| a != b).map(|(n, _)| 1 << n).sum()
}

/// The image of a stripe without the columns that are missing.
fn image_of(shape: Shape, missing: &[usize], stripe: &[u8]) -> Vec<u8> {
    let two = |number: usize| (number as u16).to_le_bytes();
    let mut image = [two(shape.m), two(shape.k), two(shape.b), [0, 0]].concat();
    let mut bodies = Vec::new();
    let start = 8 + 8 * shape.columns();
    for column in 0..shape.columns() {
        let present = !missing.contains(&column);
        let offset = if present { start + bodies.len() } else { 0 };
        image.extend(two(column));
        image.extend([present as u8, 0]);
        image.extend((offset as u32).to_le_bytes());
        if present { bodies.extend(&stripe[shape.column(column)]); }
    }
    [image, bodies].concat()
}

/// One bit to a cell: every stripe (or each `step`th), every column, every map, against the list of all valid stripes.
fn every_bit_stripe(test: &mut Test, m: usize, k: usize, mark: u8, step: usize) {
    let shape = Shape { m, k, b: 1 };
    let (columns, length) = (shape.columns(), shape.column_length());
    let stripe_of = |bits: usize| (0..shape.stripe_length()).map(|c| mark * (bits >> c & 1) as u8).collect::<Vec<u8>>();
    let every: Vec<Vec<u8>> = (0..1 << shape.stripe_length()).map(stripe_of).collect();
    let valid: Vec<&Vec<u8>> = every.iter().filter(|s| is_valid(shape, s)).collect();
    test.same(|| format!("valid stripes m={m} k={k}"), valid.len(), 1 << (k * (m - 1)));
    for stripe in every.iter().step_by(step) {
        let distances: Vec<u32> = valid.iter().map(|v| difference(shape, stripe, v)).collect();
        let about = || format!("m={m} k={k} {stripe:?}");
        let mut encoded = stripe.clone();
        encode(shape, &mut encoded);
        let data = (1u32 << k) - 1;
        let wanted = valid.iter().zip(&distances).find(|(_, d)| **d & data == 0).expect("some parity fits").0;
        test.same(about, &encoded, wanted);
        let near: Vec<usize> = (0..valid.len()).filter(|&v| distances[v].count_ones() <= 1).collect();
        let (number, found, column, mended) = match near[..] {
            [] => (NONE_NEAR, 0, NO_COLUMN, stripe),
            [v] if distances[v] == 0 && stripe.iter().all(|&byte| byte == 0) => (FINE, 2, NO_COLUMN, stripe),
            [v] if distances[v] == 0 => (FINE, 1, NO_COLUMN, stripe),
            [v] => (FINE, 4, distances[v].trailing_zeros() as usize, valid[v]),
            _ => panic!("two valid stripes lie next to one stripe"),
        };
        let done = locate(shape, stripe);
        test.same(about, (done.number, done.found, done.column), (number, found, column));
        let answer = Request::Check(shape, stripe.clone()).answer();
        test.same(about, &answer, &check_by_the_rules(shape, stripe));
        // Valid is what is intact or blank, for a check as for a locate, and of all stripes one is blank.
        let said = answer.rsplit(' ').next().expect("what was found");
        test.same(about, said == "1" || said == "2", distances.contains(&0));
        test.same(about, said == "2", stripe == &every[0]);
        // Two columns away from some valid stripe are exactly those that are broken.
        test.same(about, distances.iter().any(|distance| distance.count_ones() == 2), said == "3");
        let wanted = match found {
            1 => "1",
            2 => "2",
            _ => "3",
        };
        test.same(about, said, wanted);
        test.same(about, mend(shape, stripe), (number, column, mended.clone()));
        for told in (0..columns + 2).chain([129, MAX]) {
            let agrees = |d: u32| told < columns && d & !(1 << told) == 0;
            let fitting: Vec<&Vec<u8>> =
                valid.iter().zip(&distances).filter(|(_, d)| agrees(**d)).map(|(v, _)| *v).collect();
            let wanted = match fitting[..] {
                _ if told >= columns => (BAD_NUMBER, stripe),
                [] => (NONE_FITS, stripe),
                [v] => (FINE, v),
                _ => panic!("two valid stripes agree in all but one column"),
            };
            let mut rewritten = stripe.clone();
            let done = rewrite(shape, &mut rewritten, told);
            test.same(|| format!("rewrite {told} {}", about()), (done.number, &rewritten), wanted);
        }
        for absent in 0..1u32 << columns {
            let missing: Vec<usize> = (0..columns).filter(|c| absent >> c & 1 == 1).collect();
            let fitting: Vec<&Vec<u8>> =
                valid.iter().zip(&distances).filter(|(_, d)| **d & !absent == 0).map(|(v, _)| *v).collect();
            let mut bench = vec![0x55; 2 * length];
            let done = restore(shape, &Map::all_but(columns, &missing), stripe, &mut bench);
            let mut wanted_bench = vec![0x55; 2 * length];
            let wanted = match (missing.len(), fitting.len()) {
                (3.., 2..) => (TOO_MANY_ABSENT, 0, NO_COLUMN, NO_COLUMN),
                (0..=2, 0) => (NONE_FITS, 0, NO_COLUMN, NO_COLUMN),
                (0..=2, 1) => {
                    for (half, &c) in missing.iter().enumerate() {
                        wanted_bench[shape.column(half)].copy_from_slice(&fitting[0][shape.column(c)]);
                    }
                    let nth = |i: usize| missing.get(i).copied().unwrap_or(NO_COLUMN);
                    (FINE, missing.len(), nth(0), nth(1))
                }
                _ => (99, 0, 0, 0),
            };
            let got = (done.number, done.count, done.first, done.second);
            test.same(|| format!("restore {} {missing:?}", about()), (got, bench), (wanted, wanted_bench));
            let mut text = format!("shape {m} {k} 1\n");
            if wanted.0 == FINE {
                let words = (0..columns).map(|c| if missing.contains(&c) { "restored" } else { "present" });
                for (c, word) in words.enumerate() {
                    text += &format!("{c} {word} {}\n", hex(&fitting[0][shape.column(c)]));
                }
            }
            let blank = if wanted.0 == FINE && fitting[0] == &every[0] { " blank" } else { "" };
            text += &format!("answer {}{blank}\n", wanted.0);
            test.same(|| format!("shelf {} {missing:?}", about()), image::shelf(&image_of(shape, &missing, stripe)), text);
        }
    }
}

/// Whole bytes at m=3: every content of one column is tried, which is absent or to be rewritten.
fn every_column_content(test: &mut Test, shape: Shape, stripe: &[u8]) {
    for column in 0..shape.columns() {
        let map = Map::all_but(shape.columns(), &[column]);
        let mut bench = vec![0; 4];
        let done = restore(shape, &map, stripe, &mut bench);
        let mut fitting = Vec::new();
        let mut tried = stripe.to_vec();
        for content in 0..=u16::MAX {
            tried[2 * column..2 * column + 2].copy_from_slice(&content.to_le_bytes());
            if is_valid(shape, &tried) { fitting.push(content.to_le_bytes().to_vec()); }
        }
        let about = || format!("{shape:?} {stripe:?} column {column}");
        let got = if done.number == FINE { vec![bench[..2].to_vec()] } else { vec![] };
        test.same(about, &got, &fitting);
        test.same(|| "0 or 5".to_string(), done.number == FINE || done.number == NONE_FITS, true);
        let mut rewritten = stripe.to_vec();
        let number = rewrite(shape, &mut rewritten, column).number;
        let mut wanted = stripe.to_vec();
        fitting.iter().for_each(|content| wanted[2 * column..2 * column + 2].copy_from_slice(content));
        test.same(about, (number, rewritten), (if fitting.is_empty() { NONE_FITS } else { FINE }, wanted));
    }
}

/// Whole bytes at m=3 and k=1: every data, encoded. One of these stripes is blank, the others are intact.
fn every_valid_stripe(test: &mut Test) {
    let shape = Shape { m: 3, k: 1, b: 1 };
    for content in 0..=u16::MAX {
        let [x, y] = content.to_le_bytes();
        let mut stripe = vec![x, y, 0, 0, 0, 0];
        encode(shape, &mut stripe);
        let about = || format!("valid stripe {stripe:?}");
        let found = if content == 0 { 2 } else { 1 };
        let (checked, located) = (check(shape, &stripe), locate(shape, &stripe));
        test.same(about, (checked.number, checked.rows, checked.diagonals, checked.found), (0, 0, 0, found));
        test.same(about, (located.number, located.found, located.column), (0, found, 129));
    }
}

fn searches(test: &mut Test) {
    every_valid_stripe(test);
    for k in 1..=3 { every_bit_stripe(test, 3, k, 0xa7, 1); }
    every_bit_stripe(test, 5, 1, 1, 1);
    every_bit_stripe(test, 5, 2, 0x80, 61);
    for (k, stripe) in [
        (3, "010204081020152a391e"),
        (3, "010205081020152a391e"),
        (2, "01020408150a191e"),
        (1, "c30fc30fc30f"),
        (1, "c30fc30fc30e"),
    ] {
        every_column_content(test, Shape { m: 3, k, b: 1 }, &bytes_of(stripe).expect("hex"));
    }
}

/// Any two columns are fixed by the rest and any three are not, by the rank of the matrix alone.
fn ranks(test: &mut Test) {
    for m in DOCUMENT_PRIMES {
        let shape = Shape { m, k: m, b: 1 };
        let lines = equations(shape);
        let zero = vec![0; shape.stripe_length()];
        let some = |c: usize| m <= 19 || c >= m || c % 50 == 7;
        for first in (0..m + 2).filter(|&c| some(c)) {
            for second in (first + 1..m + 2).filter(|&c| some(c) || c == first + 1) {
                let one = matches!(solve(shape, &lines, &[first, second], &zero), Solution::One(_));
                test.same(|| format!("rank m={m} {first} {second}"), one, true);
                let third = (second + 1) % (m + 2);
                if third != first && m <= 31 {
                    let many = matches!(solve(shape, &lines, &[first, second, third], &zero), Solution::Many);
                    test.same(|| format!("rank m={m} {first} {second} {third}"), many, true);
                }
            }
        }
    }
}

/// Counts of check against the bit matrix, and each byte lane against the stripe of that lane alone.
fn lanes(test: &mut Test, shape: Shape, stripe: &[u8]) {
    let b = shape.b;
    let breaks = |line: &Bits| {
        let cells = line.ones().into_iter().map(|c| &stripe[c * b..(c + 1) * b]);
        let total = cells.fold(vec![0; b], |sum, cell| sum.iter().zip(cell).map(|(x, y)| x ^ y).collect());
        total.iter().any(|&x| x != 0)
    };
    let lines = equations(shape);
    let (rows, diagonals) = lines.split_at(shape.m - 1);
    let count = |part: &[Bits]| part.iter().filter(|line| breaks(line)).count();
    let counts = check(shape, stripe);
    test.same(|| format!("counts {shape}"), (counts.rows, counts.diagonals), (count(rows), count(diagonals)));
    if b > 8 || shape.m > 31 { return; }
    let lane_of = |bytes: &[u8], lane| bytes.iter().skip(lane).step_by(b).copied().collect::<Vec<u8>>();
    for column in 0..shape.columns() {
        let map = Map::all_but(shape.columns(), &[column]);
        let mut bench = vec![0; shape.bench_length()];
        let whole = restore(shape, &map, stripe, &mut bench).number;
        let mut fits = true;
        for lane in 0..b {
            let mut part = vec![0; 2 * (shape.m - 1)];
            fits &= restore(Shape { b: 1, ..shape }, &map, &lane_of(stripe, lane), &mut part).number == FINE;
            let wanted = if whole == FINE { lane_of(&bench, lane) } else { part.clone() };
            test.same(|| format!("lane {lane} of {shape} column {column}"), part, wanted);
        }
        test.same(|| format!("lanes of {shape} column {column}"), whole == FINE, fits);
    }
}

/// The stripe that is all zero, for every operation; and it with one byte set, at every place or at some where there are
/// many. A byte of H or D breaks one equation. One of the data breaks one of each, and on the diagonal of S all of D.
fn blank(test: &mut Test) {
    let mut random = Random(29);
    let shapes = [
        (3, 1, 1), (3, 2, 3), (3, 3, 1), (5, 1, 2), (5, 3, 1), (5, 5, 2), (7, 4, 1), (7, 7, 1), (11, 9, 130), (3, 2, 4096),
        (31, 31, 1), (127, 1, 1), (127, 127, 1),
    ];
    for (m, k, b) in shapes {
        let shape = Shape { m, k, b };
        let (columns, length) = (k + 2, (k + 2) * (m - 1) * b);
        let zero = vec![0; length];
        let said = |request: Request| request.answer();
        let about = || format!("blank {shape}");
        test.same(about, said(Request::Check(shape, zero.clone())), "0 0 0 2".to_string());
        test.same(about, said(Request::Locate(shape, zero.clone())), "0 2 129".to_string());
        test.same(about, said(Request::Encode(shape, zero.clone())), format!("0 {}", hex(&zero)));
        for column in [0, k - 1, k, k + 1] {
            let rewritten = said(Request::Rewrite(shape, zero.clone(), column));
            test.same(about, rewritten, format!("0 {}", hex(&zero)));
            for other in [column, k, k + 1] {
                let (low, high) = (column.min(other), column.max(other));
                let map = Map::all_but(columns, &[low, high]);
                let restored = said(Request::Restore(shape, map, zero.clone(), vec![0x5a; 2 * (m - 1) * b]));
                let (count, second, kept) = if low == high { (1, 129, 1) } else { (2, high, 0) };
                let bench = [vec![0; (2 - kept) * (m - 1) * b], vec![0x5a; kept * (m - 1) * b]].concat();
                test.same(about, restored, format!("0 {count} {low} {second} {}", hex(&bench)));
            }
        }
        // Of another length, or of a shape that is none, it is refused.
        for (shape, stripe, number) in [
            (shape, vec![0; length - 1], 2),
            (shape, vec![0; length + 1], 2),
            (shape, vec![], 2),
            (Shape { m: 9, ..shape }, zero.clone(), 1),
            (Shape { k: m + 1, ..shape }, zero.clone(), 12),
            (Shape { b: 0, ..shape }, vec![], 13),
        ] {
            test.same(about, said(Request::Check(shape, stripe.clone())), format!("{number} 0 0 0"));
            test.same(about, said(Request::Locate(shape, stripe)), format!("{number} 0 129"));
        }
        let some = [0, (m - 1) * b, k * (m - 1) * b - 1, k * (m - 1) * b, length - 1, random.below(length)];
        let places = if length <= 100 { (0..length).collect() } else { some.to_vec() };
        for place in places {
            let mut stripe = zero.clone();
            stripe[place] = 1 + random.below(255) as u8;
            let (column, row) = (place / b / (m - 1), place / b % (m - 1));
            let (rows, diagonals) = match column {
                _ if column == k => (1, 0),
                _ if column > k => (0, 1),
                _ if column + row == m - 1 => (1, m - 1),
                _ => (1, 1),
            };
            let about = || format!("byte {place} alone of {shape}");
            test.same(about, said(Request::Check(shape, stripe.clone())), format!("0 {rows} {diagonals} 3"));
            test.same(about, said(Request::Locate(shape, stripe.clone())), format!("0 4 {column}"));
            let rewritten = said(Request::Rewrite(shape, stripe, column));
            test.same(about, rewritten, format!("0 {}", hex(&zero)));
        }
    }
}

/// All that is said of a valid stripe of which exactly two columns were changed: what check, locate, every rewrite, and every
/// restore with at most two columns absent give. Its answer is the third column, if a locate names one.
fn two_changed(test: &mut Test, shape: Shape, valid: &[u8], wrong: &[u8], [x, y]: [usize; 2]) -> Option<usize> {
    let (columns, length) = (shape.k + 2, shape.column_length());
    let about = || format!("two wrong, {shape}, {x} and {y}, {:?}", &wrong[..wrong.len().min(60)]);
    test.same(about, (is_valid(shape, valid), difference(shape, valid, wrong)), (true, 1 << x | 1 << y));
    let done = check(shape, wrong);
    test.same(about, (done.number, done.found), (0, 3));
    test.same(about, (done.rows, done.diagonals), counts_by_the_rules(shape, wrong));
    let done = locate(shape, wrong);
    let third = (0..columns).find(|&u| u != x && u != y && done.column == u);
    let wanted = third.map_or((6, 0, 129), |u| (0, 4, u));
    test.same(about, (done.number, done.found, done.column), wanted);
    // The stripe after a rewrite of the third column is valid, and has three wrong columns.
    let mut sealed = wrong.to_vec();
    if let Some(u) = third {
        test.same(about, rewrite(shape, &mut sealed, u).number, 0);
        test.same(about, counts_by_the_rules(shape, &sealed), (0, 0));
        test.same(about, difference(shape, valid, &sealed), 1 << x | 1 << y | 1 << u);
        let found = if all_zero(&sealed) { 2 } else { 1 };
        let (checked, located) = (check(shape, &sealed), locate(shape, &sealed));
        test.same(about, (checked.number, checked.rows, checked.diagonals, checked.found), (0, 0, 0, found));
        test.same(about, (located.number, located.found, located.column), (0, found, 129));
    }
    test.same(about, mend(shape, wrong), (wanted.0, wanted.2, sealed.clone()));
    // The last is none.
    for absent in 0..=columns {
        let about = || format!("without {absent}: {}", about());
        let (mut bench, mut wanted_bench) = (vec![0x5a; 2 * length], vec![0x5a; 2 * length]);
        let done = restore(shape, &Map::all_but(columns, &[absent]), wrong, &mut bench);
        let mut wanted = (5, 0, 129, 129);
        if third == Some(absent) {
            wanted = (0, 1, absent, 129);
            wanted_bench[..length].copy_from_slice(&sealed[shape.column(absent)]);
        }
        test.same(about, ((done.number, done.count, done.first, done.second), bench), (wanted, wanted_bench));
        if absent < columns {
            let mut after = wrong.to_vec();
            let number = rewrite(shape, &mut after, absent).number;
            let wanted = if third == Some(absent) { (0, &sealed[..]) } else { (5, wrong) };
            test.same(about, (number, &after[..]), wanted);
        }
    }
    for (first, second) in pairs(columns) {
        let about = || format!("without {first} and {second}: {}", about());
        let mut bench = vec![0x5a; 2 * length];
        let done = restore(shape, &Map::all_but(columns, &[first, second]), wrong, &mut bench);
        test.same(about, (done.number, done.count, done.first, done.second), (0, 2, first, second));
        let mut whole = wrong.to_vec();
        whole[shape.column(first)].copy_from_slice(&bench[..length]);
        whole[shape.column(second)].copy_from_slice(&bench[length..]);
        test.same(about, counts_by_the_rules(shape, &whole), (0, 0));
        test.same(about, whole == valid, (first, second) == (x.min(y), x.max(y)));
        if third == Some(first) || third == Some(second) { test.same(about, &whole, &sealed); }
    }
    third
}

/// Every two different numbers below the limit, the lower first.
fn pairs(limit: usize) -> Vec<(usize, usize)> {
    (0..limit).flat_map(|first| (first + 1..limit).map(move |second| (first, second))).collect()
}

/// Every change of every two columns in one bit of the cells, at b=1. Each third column is named after as many changes as one
/// column has, and no other is. The answer is how many changes were tried.
fn every_two_changed(test: &mut Test, shape: Shape, valid: &[u8], mark: u8) -> usize {
    let (rows, columns) = (shape.m - 1, shape.k + 2);
    let changes = (1 << rows) - 1;
    let mut tried = 0;
    for (x, y) in pairs(columns) {
        let (mut named, mut six) = (vec![0; columns], 0);
        for (first, second) in (1..=changes).flat_map(|first| (1..=changes).map(move |second| (first, second))) {
            let mut wrong = valid.to_vec();
            for row in 0..rows {
                wrong[x * rows + row] ^= mark * (first >> row & 1) as u8;
                wrong[y * rows + row] ^= mark * (second >> row & 1) as u8;
            }
            match two_changed(test, shape, valid, &wrong, [x, y]) {
                Some(u) => named[u] += 1,
                None => six += 1,
            }
            tried += 1;
        }
        let wanted = (0..columns).map(|u| if u == x || u == y { 0 } else { changes }).collect();
        test.same(|| format!("{shape}, {x} and {y}: named"), (named, six), (wanted, changes * (changes - shape.k)));
    }
    tried
}

/// Another valid stripe that differs in exactly these three columns: one byte of the first is changed, and the others are
/// fitted to it.
fn three_apart(test: &mut Test, random: &mut Random, shape: Shape, valid: &[u8], [u, x, y]: [usize; 3]) -> Vec<u8> {
    let mut other = valid.to_vec();
    other[shape.column(u)][random.below(shape.column_length())] ^= 1 + random.below(255) as u8;
    fit(shape, &mut other, [x, y]);
    let about = || format!("{shape}: apart in {u}, {x} and {y}");
    test.same(about, counts_by_the_rules(shape, &other), (0, 0));
    test.same(about, difference(shape, valid, &other), 1 << x | 1 << y | 1 << u);
    other
}

/// For every two columns and every third there is a change of the two after which a locate names the third.
fn every_third(test: &mut Test, random: &mut Random, shape: Shape, valid: &[u8]) {
    let columns = shape.k + 2;
    let mut tried = 0;
    for (x, y) in pairs(columns) {
        for u in (0..columns).filter(|&u| u != x && u != y) {
            let other = three_apart(test, random, shape, valid, [u, x, y]);
            let mut wrong = valid.to_vec();
            [x, y].into_iter().for_each(|c| wrong[shape.column(c)].copy_from_slice(&other[shape.column(c)]));
            let done = locate(shape, &wrong);
            let about = || format!("{shape}: {x} and {y} wrong, {u} named");
            test.same(about, difference(shape, valid, &wrong), 1 << x | 1 << y);
            test.same(about, (done.number, done.found, done.column), (0, 4, u));
            tried += 1;
        }
    }
    test.same(|| format!("{shape}: threes"), tried, columns * (columns - 1) * (columns - 2) / 2);
}

/// The examples of the numbers are the first. In order: two data columns, by the lower and then by the other; the bit that is
/// flipped in the lower one, row 0 first and bit 0 first; the bit in the other.
fn first_two_wrong(test: &mut Test) {
    let shape = Shape { m: 3, k: 3, b: 1 };
    let c1 = bytes_of(numbers::C1).expect("hex");
    let mut all = Vec::new();
    for (x, y) in pairs(3) {
        for (first, second) in (0..16).flat_map(|first| (0..16).map(move |second| (first, second))) {
            let mut stripe = c1.clone();
            stripe[2 * x + first / 8] ^= 1 << (first % 8);
            stripe[2 * y + second / 8] ^= 1 << (second % 8);
            let done = locate(shape, &stripe);
            all.push((x, y, hex(&stripe), done.number, done.column));
        }
    }
    let third = all.iter().find(|(.., number, column)| *number == 0 && *column < 3);
    test.same(|| "two-wrong".to_string(), third, Some(&(0, 1, numbers::TWO_WRONG.to_string(), 0, 2)));
    let six = all.iter().find(|(x, y, _, number, _)| (*x, *y) == (0, 1) && *number == 6);
    test.same(|| "two-wrong-6".to_string(), six, Some(&(0, 1, numbers::TWO_WRONG_6.to_string(), 6, 129)));
    test.same(|| "two-wrong, all".to_string(), all.len(), 3 * 16 * 16);
}

/// The stripe with two columns changed, in one of four ways: in every byte, in one bit of each, in the same bit of the first
/// byte of a cell of each, or so that a locate names a third.
fn with_two_changed(
    test: &mut Test, random: &mut Random, shape: Shape, valid: &[u8], two: [usize; 2], way: usize,
) -> Vec<u8> {
    let Shape { m, k, b } = shape;
    if way == 3 {
        let others: Vec<usize> = (0..k + 2).filter(|c| !two.contains(c)).collect();
        let u = random.one_of(&others);
        let mut wrong = three_apart(test, random, shape, valid, [two[0], two[1], u]);
        wrong[shape.column(u)].copy_from_slice(&valid[shape.column(u)]);
        return wrong;
    }
    let mut wrong = valid.to_vec();
    let bit = 1 << random.below(8);
    for column in two {
        let part = &mut wrong[shape.column(column)];
        match way {
            0 => part.iter_mut().for_each(|x| *x ^= 1 + random.below(255) as u8),
            1 => part[random.below((m - 1) * b)] ^= 1 << random.below(8),
            _ => part[b * random.below(m - 1)] ^= bit,
        }
    }
    wrong
}

/// Valid stripes changed in exactly two columns.
fn two_wrong(test: &mut Test) {
    let mut random = Random(31);
    first_two_wrong(test);
    // At m=3 every valid stripe of one bit to a cell, at m=5 each so manieth.
    let mut tried = 0;
    for (m, k, step) in [(3, 1, 1), (3, 2, 1), (3, 3, 1), (5, 1, 5), (5, 2, 51)] {
        let shape = Shape { m, k, b: 1 };
        for data in (0..1usize << (k * (m - 1))).step_by(step) {
            let mark = 1 << (data % 8);
            let mut valid = vec![0; shape.stripe_length()];
            (0..k * (m - 1)).for_each(|cell| valid[cell] = mark * (data >> cell & 1) as u8);
            encode(shape, &mut valid);
            tried += every_two_changed(test, shape, &valid, mark);
            every_third(test, &mut random, shape, &valid);
        }
    }
    // A stripe that is zero but for three columns: with two of them zero as well the third is named, and rewritten it leaves
    // a blank one.
    let shape = Shape { m: 3, k: 3, b: 1 };
    for (x, y) in pairs(5) {
        for u in (0..5).filter(|&u| u != x && u != y) {
            let valid = three_apart(test, &mut random, shape, &[0; 10], [u, x, y]);
            let mut wrong = valid.clone();
            [x, y].into_iter().for_each(|column| wrong[shape.column(column)].fill(0));
            let named = two_changed(test, shape, &valid, &wrong, [x, y]);
            let rewritten = Request::Rewrite(shape, wrong, u).answer();
            test.same(|| format!("{u} alone"), (named, rewritten), (Some(u), format!("0 {}", hex(&[0; 10]))));
        }
    }
    // Valid stripes, pairs of columns, and changes of both: m=3 with k=1, 2 and 3, and m=5 with k=1 and 2.
    let wanted = 4 * 3 * 9 + 16 * 6 * 9 + 64 * 10 * 9 + 4 * 3 * 225 + 6 * 6 * 225;
    test.same(|| "two wrong, tried".to_string(), tried, wanted);
    let (mut named, mut six) = (0, 0);
    let shapes = [
        (3, 1, 2), (3, 2, 2), (3, 3, 2), (5, 2, 2), (5, 4, 2), (5, 5, 1), (7, 7, 3), (11, 9, 1), (3, 3, 130), (17, 15, 2),
        (31, 3, 1), (127, 2, 1),
    ];
    for (m, k, b) in shapes {
        let shape = Shape { m, k, b };
        let mut valid = random.bytes(shape.stripe_length());
        encode(shape, &mut valid);
        if k <= 9 { every_third(test, &mut random, shape, &valid); }
        for turn in 0..if k <= 5 { 32 } else { 12 } {
            let two = random.two(k + 2);
            let wrong = with_two_changed(test, &mut random, shape, &valid, two, turn % 4);
            match two_changed(test, shape, &valid, &wrong, two) {
                Some(_) => named += 1,
                None => six += 1,
            }
        }
    }
    test.same(|| format!("two wrong at random: {named} named, {six} not"), named > 50 && six > 100, true);
}

/// All that is said of a change that is not refused. Its answer is the stripe afterwards.
fn one_change(test: &mut Test, shape: Shape, stripe: &[u8], column: usize, row: usize, new: &[u8]) -> Vec<u8> {
    let Shape { m, k, b } = shape;
    let about = || format!("change {shape}, column {column}, row {row}, {:?}", &stripe[..stripe.len().min(60)]);
    let mut after = stripe.to_vec();
    let number = change(shape, &mut after, column, row, new).number;
    test.same(about, (number, after.clone()), change_by_the_rules(shape, stripe, column, row, new));
    test.same(about, number, 0);
    // Every equation breaks by the same amount as before, in every lane.
    test.same(about, amounts_by_the_rules(shape, &after), amounts_by_the_rules(shape, stripe));
    // The cell has the new bytes. One of H and one of D differ by as much, or on the diagonal of S all of D; all others stay.
    let own = column * (m - 1) + row;
    let equations = equations_with(shape, column, row);
    let on_s = column > 0 && column + row == m - 1;
    let (of_h, of_d) = if on_s { (1, m - 1) } else { (1, 1) };
    let count = |of_d: bool| equations.iter().filter(|&&equation| (equation >= m - 1) == of_d).count();
    test.same(about, (count(false), count(true)), (of_h, of_d));
    let cell = |bytes: &[u8], number: usize| bytes[number * b..(number + 1) * b].to_vec();
    let differs = |x: Vec<u8>, y: &[u8]| x.iter().zip(y).map(|(x, y)| x ^ y).collect::<Vec<u8>>();
    let old = cell(stripe, own);
    test.same(about, &cell(&after, own)[..], new);
    for number in (0..(k + 2) * (m - 1)).filter(|&number| number != own) {
        let depends = number >= k * (m - 1) && equations.contains(&(number - k * (m - 1)));
        let wanted = if depends { differs(old.clone(), new) } else { vec![0; b] };
        test.same(about, differs(cell(&after, number), &cell(stripe, number)), wanted);
    }
    // Of a valid stripe it is what an encode of the edited data gives.
    let valid = is_valid(shape, stripe);
    if valid {
        let mut fresh = stripe.to_vec();
        fresh[own * b..(own + 1) * b].copy_from_slice(new);
        fresh[k * (m - 1) * b..].fill(0x5a);
        encode(shape, &mut fresh);
        test.same(about, &after, &fresh);
    }
    // A check counts the same, and a locate says the same; whether a valid stripe is blank, its bytes say.
    let (before, now) = (check(shape, stripe), check(shape, &after));
    let found = if !valid { 3 } else if all_zero(&after) { 2 } else { 1 };
    test.same(about, (now.number, now.rows, now.diagonals), (before.number, before.rows, before.diagonals));
    test.same(about, now.found, found);
    if k < 10 {
        let (before, now) = (locate(shape, stripe), locate(shape, &after));
        test.same(about, (now.number, now.column), (before.number, before.column));
        test.same(about, now.found, if valid { found } else { before.found });
    }
    // Changed back it is the stripe as it was. Of two changes of the cell the last holds.
    let mut back = after.clone();
    test.same(about, change(shape, &mut back, column, row, &old).number, 0);
    test.same(about, &back[..], stripe);
    let mut twice = stripe.to_vec();
    change(shape, &mut twice, column, row, &vec![0x3c; b]);
    change(shape, &mut twice, column, row, new);
    test.same(about, &twice, &after);
    after
}

/// Stripes of a shape: valid, all zero, and at random; and broken in one byte of a data column, of H or of D, in a whole
/// column, in two, and in the first byte and the last.
fn stripes_to_change(random: &mut Random, shape: Shape) -> Vec<Vec<u8>> {
    let Shape { m, k, b } = shape;
    let mut valid = random.bytes(shape.stripe_length());
    encode(shape, &mut valid);
    let mut stripes = vec![valid.clone(), vec![0; valid.len()], random.bytes(valid.len())];
    let mut break_in = |places: Vec<usize>| {
        let mut stripe = valid.clone();
        places.into_iter().for_each(|place| stripe[place] ^= 1 + random.below(255) as u8);
        stripes.push(stripe);
    };
    let column = |t: usize| t * (m - 1) * b..(t + 1) * (m - 1) * b;
    for t in [k - 1, k, k + 1] { break_in(vec![column(t).end - 1]); }
    break_in(column(0).collect());
    break_in(column(0).chain(column(k)).collect());
    break_in(vec![0, column(k + 1).end - 1]);
    stripes
}

/// New bytes for a cell: those that it has, all 0, all 255, one bit changed in its last lane, and any.
fn new_cells(random: &mut Random, old: &[u8]) -> Vec<Vec<u8>> {
    let mut bit = old.to_vec();
    bit[old.len() - 1] ^= 1 << random.below(8);
    vec![old.to_vec(), vec![0; old.len()], vec![255; old.len()], bit, random.bytes(old.len())]
}

/// One bit to a cell: every stripe, and each cell changed to both values. Of all stripes with the edited data just one breaks
/// every equation as before, and that it is.
fn every_bit_changed(test: &mut Test, m: usize, k: usize) {
    let shape = Shape { m, k, b: 1 };
    let (data, length) = (k * (m - 1), shape.stripe_length());
    let every: Vec<Vec<u8>> = (0..1usize << length).map(|bits| (0..length).map(|c| (bits >> c & 1) as u8).collect()).collect();
    let amounts: Vec<Vec<u8>> = every.iter().map(|stripe| amounts_by_the_rules(shape, stripe)).collect();
    for (bits, stripe) in every.iter().enumerate() {
        for (cell, value) in (0..data).flat_map(|cell| [(cell, 0), (cell, 1)]) {
            let edited = (bits & ((1 << data) - 1) & !(1 << cell)) | value << cell;
            let with_it = (0..1usize << (length - data)).map(|parity| edited | parity << data);
            let same: Vec<usize> = with_it.filter(|&other| amounts[other] == amounts[bits]).collect();
            let mut after = stripe.clone();
            let number = change(shape, &mut after, cell / (m - 1), cell % (m - 1), &[value as u8]).number;
            let wanted: Vec<&Vec<u8>> = same.into_iter().map(|other| &every[other]).collect();
            test.same(|| format!("cell {cell} to {value}, {shape}, {stripe:?}"), (number, vec![&after]), (0, wanted));
        }
    }
}

/// Changes of every two cells give the same in both orders.
fn two_changes(test: &mut Test, random: &mut Random, shape: Shape, stripe: &[u8]) {
    let rows = shape.m - 1;
    for (x, y) in pairs(shape.k * rows) {
        let (first, second) = (random.bytes(shape.b), random.bytes(shape.b));
        let both = |steps: [(usize, &[u8]); 2]| {
            let mut after = stripe.to_vec();
            for (cell, new) in steps { change(shape, &mut after, cell / rows, cell % rows, new); }
            after
        };
        let about = || format!("cells {x} and {y} of {shape}, {stripe:?}");
        test.same(about, both([(x, &first), (y, &second)]), both([(y, &second), (x, &first)]));
    }
}

/// Every set of faults, made in every way, on a valid stripe, a broken one and one of zeros: the first in order is given, and
/// nothing changes.
fn refused_changes(test: &mut Test) {
    for faults in sets(&CHANGE_ORDER) {
        let has = |number: u8| faults.contains(&number);
        let number = first_of(&CHANGE_ORDER, &faults);
        for stripe in ["valid", "broken", "zero"] {
            let spoilt = if stripe == "broken" { [&faults[..], &[5]].concat() } else { faults.clone() };
            let (shape, _, mut lent, ..) = with_faults(&spoilt);
            if stripe == "zero" { lent.fill(0); }
            // The shape is 5 4 2 where it is not wrong.
            let columns: &[usize] = if has(7) { &[4, 5, 6, 7, 260, 1 << 32, MAX] } else { &[0, 3] };
            let rows: &[usize] = if has(11) { &[4, 5, 6, 256, 1 << 32, MAX - 1, MAX] } else { &[0, 3] };
            let lengths: &[usize] = if has(14) { &[0, 1, 3, 8, 40] } else { &[2] };
            for (column, row) in columns.iter().flat_map(|&column| rows.iter().map(move |&row| (column, row))) {
                for new in lengths.iter().map(|&length| vec![0x77; length]) {
                    let mut after = lent.clone();
                    let done = change(shape, &mut after, column, row, &new);
                    let about = || format!("change, faults {faults:?}, {stripe}, {column} {row} {}", new.len());
                    let wanted = change_by_the_rules(shape, &lent, column, row, &new);
                    test.same(about, (done.number, &after), (wanted.0, &wanted.1));
                    test.same(about, (done.number, after == lent), (number, number != 0));
                }
            }
        }
    }
}

/// The text of requests.
fn text_of_changes(test: &mut Test) {
    let c1 = numbers::C1;
    for rest in [format!("{c1} 1 0 05"), format!("{c1} {MAX} {MAX} -"), "- 0 0 -".to_string(), format!("{c1} 0 0 0102")] {
        let line = format!("change 3 3 1 {rest}");
        let request = Request::parse(&line).expect("the request is written rightly");
        test.same(|| "text".to_string(), &request.to_string(), &line);
    }
    for rest in ["", "1", "1 0", "1 0 05 0", "1 0 5", "1 0 0A", "1 -1 05", "-1 0 05", "1 18446744073709551616 05", "1 0 "] {
        let line = format!("change 3 3 1 {c1} {rest}");
        test.same(|| format!("malformed {line}"), Request::parse(&line).is_none(), true);
    }
}

fn changes(test: &mut Test) {
    let mut random = Random(37);
    text_of_changes(test);
    refused_changes(test);
    for k in 1..=3 { every_bit_changed(test, 3, k); }
    let shapes = [(3, 1, 1), (3, 2, 2), (3, 3, 1), (5, 1, 3), (5, 2, 1), (5, 3, 2), (5, 5, 1), (7, 1, 1), (7, 4, 1), (7, 7, 2)];
    for (m, k, b) in shapes {
        let shape = Shape { m, k, b };
        for stripe in stripes_to_change(&mut random, shape) {
            for (column, row) in (0..k).flat_map(|column| (0..m - 1).map(move |row| (column, row))) {
                for new in new_cells(&mut random, &stripe[shape.cell_bytes(row, column)]) {
                    one_change(test, shape, &stripe, column, row, &new);
                }
            }
            two_changes(test, &mut random, shape, &stripe);
        }
    }
    // Long cells, and many columns: the corners of the data, the ends of the diagonal of S, and the first cell that wraps.
    for (m, k, b) in [(3, 1, 4096), (3, 3, 4096), (5, 3, 4096), (11, 9, 130), (31, 31, 1), (127, 1, 1), (127, 127, 1)] {
        let shape = Shape { m, k, b };
        let last = k - 1;
        let mut cells = vec![(0, 0), (0, m - 2), (last, 0), (last, m - 2), (random.below(k), random.below(m - 1))];
        if k > 1 { cells.extend([(1, m - 2), (last, m - 1 - last)]); }
        if k > 2 { cells.push((last, m - last)); }
        let stripes = stripes_to_change(&mut random, shape);
        for (n, (column, row)) in cells.into_iter().enumerate() {
            let stripe = if n % 2 == 0 { &stripes[0] } else { &stripes[2 + n % 7] };
            for new in new_cells(&mut random, &stripe[shape.cell_bytes(row, column)]).into_iter().skip(3) {
                one_change(test, shape, stripe, column, row, &new);
            }
        }
    }
    // Lines that are appended to a log: each is a change, and at the end stands what an encode of all of them gives.
    for (m, k, b) in [(5, 4, 3), (7, 7, 16)] {
        let shape = Shape { m, k, b };
        let log = random.bytes(k * (m - 1) * b);
        let mut stripe = vec![0; shape.stripe_length()];
        for (cell, line) in log.chunks(b).enumerate() {
            change(shape, &mut stripe, cell / (m - 1), cell % (m - 1), line);
            test.same(|| format!("line {cell} of {shape}"), is_valid(shape, &stripe), true);
        }
        let mut fresh = [&log[..], &vec![0; 2 * (m - 1) * b]].concat();
        encode(shape, &mut fresh);
        test.same(|| format!("log in {shape}"), stripe, fresh);
    }
    for seed in 1..=3 {
        for case in Maker::new(seed).changes().take(320) {
            if let Request::Change(shape, stripe, column, row, new) = &case.request {
                let (number, after) = change_by_the_rules(*shape, stripe, *column, *row, new);
                let bytes = if after.is_empty() { "-".to_string() } else { hex(&after) };
                let about = || format!("seed {seed} change {shape} {column} {row}, cell of {}", new.len());
                test.same(about, case.request.answer(), format!("{number} {bytes}"));
                test.same(about, Some(number), case.expected);
                if number == 0 && shape.m < 30 && shape.b < 300 { one_change(test, *shape, stripe, *column, *row, new); }
            }
        }
    }
}

/// A change of this program: its number, and the stripe afterwards.
fn changed(shape: Shape, stripe: &[u8], column: usize, row: usize, new: &[u8]) -> (u8, Vec<u8>) {
    let mut after = stripe.to_vec();
    (change(shape, &mut after, column, row, new).number, after)
}

/// A list of changes: its number, the item, and the stripe afterwards.
fn listed(shape: Shape, stripe: &[u8], columns: &[usize], rows: &[usize], cells: &[u8]) -> (u8, usize, Vec<u8>) {
    let mut after = stripe.to_vec();
    let done = code::changes(shape, &mut after, columns, rows, cells);
    (done.number, done.item, after)
}

/// All that is said of a list of changes, refused or not. Held against changes of this program one at a time where that is quick.
fn one_list(test: &mut Test, shape: Shape, stripe: &[u8], columns: &[usize], rows: &[usize], cells: &[u8]) {
    let Shape { m, k, b } = shape;
    let start = |list: &[usize]| list[..list.len().min(20)].to_vec();
    let about = || format!("list {shape}, {:?} {:?}, {:?}", start(columns), start(rows), &stripe[..stripe.len().min(60)]);
    let (number, item, after) = listed(shape, stripe, columns, rows, cells);
    test.same(about, (number, item, after.clone()), list_by_the_rules(shape, stripe, columns, rows, cells));
    // 256 is no item, and an item is given with 7 and 11 only.
    test.same(about, item != 256, [7, 11].contains(&number));
    if number != 0 { test.same(about, &after[..], stripe); }
    if ![0, 7, 11].contains(&number) { return; }
    if columns.len() * stripe.len() < 30_000 {
        let wanted = one_at_a_time(shape, stripe, columns, rows, cells, changed);
        test.same(about, (number, item, after.clone()), wanted);
    }
    if number != 0 { return; }
    // Every equation breaks by the same amount as before. The data is as the last item of each cell has it, and otherwise stays.
    test.same(about, amounts_by_the_rules(shape, &after), amounts_by_the_rules(shape, stripe));
    let mut edited = stripe.to_vec();
    for place in 0..k * (m - 1) {
        let last = (0..columns.len()).rev().find(|&item| columns[item] * (m - 1) + rows[item] == place);
        if let Some(item) = last { edited[place * b..(place + 1) * b].copy_from_slice(&cells[item * b..(item + 1) * b]); }
    }
    let data = k * (m - 1) * b;
    test.same(about, &after[..data], &edited[..data]);
    // Of a valid stripe it is what an encode of the edited data gives; of any the counts of a check stay.
    let (before, now) = (check(shape, stripe), check(shape, &after));
    test.same(about, (now.number, now.rows, now.diagonals), (before.number, before.rows, before.diagonals));
    if is_valid(shape, stripe) {
        edited[data..].fill(0x5a);
        encode(shape, &mut edited);
        test.same(about, &after, &edited);
    }
}

/// One bit to a cell, at m=3: every stripe, or one of five, and every list of at most two items that are not refused.
fn every_bit_listed(test: &mut Test, k: usize) {
    let shape = Shape { m: 3, k, b: 1 };
    let length = shape.stripe_length();
    let items: Vec<(usize, usize, u8)> = (0..4 * k).map(|n| (n / 4, n / 2 % 2, (n % 2) as u8)).collect();
    let mut lists = vec![vec![]];
    lists.extend(items.iter().map(|&item| vec![item]));
    lists.extend(items.iter().flat_map(|&first| items.iter().map(move |&second| vec![first, second])));
    for bits in (0..1usize << length).step_by(if k < 3 { 1 } else { 5 }) {
        let stripe: Vec<u8> = (0..length).map(|c| (bits >> c & 1) as u8).collect();
        for list in &lists {
            let columns: Vec<usize> = list.iter().map(|item| item.0).collect();
            let rows: Vec<usize> = list.iter().map(|item| item.1).collect();
            let cells: Vec<u8> = list.iter().map(|item| item.2).collect();
            let got = listed(shape, &stripe, &columns, &rows, &cells);
            let wanted = one_at_a_time(shape, &stripe, &columns, &rows, &cells, changed);
            test.same(|| format!("{list:?} in {shape}, {stripe:?}"), (got.0, got.1, &got.2), (0, 256, &wanted.2));
        }
    }
}

/// Every list of at most three items, each of them right, or refused for its column, its row or both; and few columns, rows and
/// bytes, in every number of each.
fn every_small_list(test: &mut Test, random: &mut Random) {
    for (m, k, b) in [(3, 1, 2), (3, 3, 1), (5, 4, 3)] {
        let shape = Shape { m, k, b };
        let stripes = stripes_to_change(random, shape);
        for count in 0..=3 {
            for kinds in 0..4usize.pow(count) {
                let stripe = &stripes[random.below(stripes.len())];
                let mut some = |bit: usize, limit: usize| -> Vec<usize> {
                    let value = |item: u32| match kinds / 4usize.pow(item) >> bit & 1 {
                        0 => random.below(limit),
                        _ => random.one_of(&[limit, limit + 1, MAX]),
                    };
                    (0..count).map(value).collect()
                };
                let (columns, rows) = (some(0, k), some(1, m - 1));
                let cells = random.bytes(columns.len() * b);
                one_list(test, shape, stripe, &columns, &rows, &cells);
                let refused = columns.iter().zip(&rows).position(|(&column, &row)| column >= k || row >= m - 1);
                let wanted = refused.map_or((0, 256), |item| (if columns[item] >= k { 7 } else { 11 }, item));
                let (number, item, _) = listed(shape, stripe, &columns, &rows, &cells);
                test.same(|| format!("list {shape} {columns:?} {rows:?}"), (number, item), wanted);
            }
        }
        for (columns, rows) in (0..4).flat_map(|columns| (0..4).map(move |rows| (columns, rows))) {
            for bytes in 0..=3 * b + 1 {
                let (stripe, cells) = (&stripes[bytes % stripes.len()], random.bytes(bytes));
                let (columns, rows) = (vec![k - 1; columns], vec![m - 2; rows]);
                one_list(test, shape, stripe, &columns, &rows, &cells);
                let agree = columns.len() == rows.len() && bytes == columns.len() * b;
                let (number, item, _) = listed(shape, stripe, &columns, &rows, &cells);
                let about = || format!("list {shape}, {} {} {bytes}", columns.len(), rows.len());
                test.same(about, (number, item), (if agree { 0 } else { 15 }, 256));
            }
        }
    }
}

/// Every set of faults, 15 in every way, and 7 and 11 of every item of three or of some of 256: the first in order is given, of
/// items the first, and nothing changes.
fn refused_lists(test: &mut Test) {
    // How many columns, rows and bytes; the shape is 5 4 2 where it is not wrong.
    const DISAGREEING: [[usize; 3]; 15] = [
        [3, 2, 6], [2, 3, 6], [3, 4, 6], [4, 3, 6], [3, 0, 6], [0, 3, 6], [3, 3, 5], [3, 3, 7], [3, 3, 4], [3, 3, 8], [3, 3, 0],
        [3, 3, 3], [257, 257, 514], [257, 256, 512], [512, 512, 1024],
    ];
    for faults in sets(&LIST_ORDER) {
        let has = |number: u8| faults.contains(&number);
        let of_no_item = first_of(&LIST_ORDER[..5], &faults);
        let counts: &[[usize; 3]] = if has(15) { &DISAGREEING } else { &[[3, 3, 6], [256, 256, 512]] };
        for (n, &[of_columns, of_rows, bytes]) in counts.iter().enumerate() {
            let last = of_columns.max(of_rows) - 1;
            let places = [0, last / 2, last];
            for (x, y) in places.into_iter().flat_map(|x| places.map(|y| (x, y))) {
                let spoilt = if n % 3 == 1 { [&faults[..], &[5]].concat() } else { faults.clone() };
                let (shape, _, mut lent, ..) = with_faults(&spoilt);
                if n % 3 == 2 { lent.fill(0); }
                let mut columns: Vec<usize> = (0..of_columns).map(|item| item % 4).collect();
                let mut rows: Vec<usize> = (0..of_rows).map(|item| item % 4).collect();
                if let (true, Some(column)) = (has(7), columns.get_mut(x)) { *column = [4, 260, MAX][n % 3]; }
                if let (true, Some(row)) = (has(11), rows.get_mut(y)) { *row = [4, 1 << 32, MAX][n % 3]; }
                let wanted = match (has(7), has(11)) {
                    _ if of_no_item != 0 => (of_no_item, 256),
                    (true, true) if x <= y => (7, x),
                    (true, false) => (7, x),
                    (_, true) => (11, y),
                    _ => (0, 256),
                };
                let cells = vec![0x77; bytes];
                let (number, item, after) = listed(shape, &lent, &columns, &rows, &cells);
                let about = || format!("list, faults {faults:?}, {of_columns} {of_rows} {bytes}, {x} {y}");
                test.same(about, (number, item), wanted);
                test.same(about, after == lent, number != 0);
                test.same(about, list_by_the_rules(shape, &lent, &columns, &rows, &cells), (number, item, after));
            }
        }
    }
}

/// The text of requests.
fn text_of_lists(test: &mut Test) {
    let c1 = numbers::C1;
    for rest in [
        format!("{c1} - - -"), format!("{c1} 1 0 05"), format!("{c1} 1,{MAX},0 {MAX},0 0102"), "- 1 - 00".to_string(),
        format!("{c1} 0,0,0 - -"),
    ] {
        let line = format!("changes 3 3 1 {rest}");
        let request = Request::parse(&line).expect("the request is written rightly");
        test.same(|| "text".to_string(), &request.to_string(), &line);
    }
    for rest in [
        "", "1", "1 0", "1 0 05 0", "1 0 5", "1, 0 05", ",1 0 05", "1,,1 0 05", "1 0,-1 05", "1 0,- 05", "-1 0 05", "1 0, 05",
        "1;1 0,0 0505", "1,18446744073709551616 0,0 0505", "1 0 05,05", " 0 05", "1  05", "1 0 ",
    ] {
        let line = format!("changes 3 3 1 {c1} {rest}");
        test.same(|| format!("malformed {line}"), Request::parse(&line).is_none(), true);
    }
}

fn lists(test: &mut Test) {
    let mut random = Random(41);
    text_of_lists(test);
    refused_lists(test);
    for k in 1..=3 { every_bit_listed(test, k); }
    every_small_list(test, &mut random);
    let small = [(3, 1, 1), (3, 2, 2), (3, 3, 1), (5, 1, 3), (5, 3, 2), (5, 5, 1), (7, 4, 1), (7, 7, 2)];
    let large = [(3, 3, 4096), (5, 3, 130), (11, 9, 130), (31, 31, 1), (127, 1, 1), (127, 127, 1)];
    for (m, k, b) in small.into_iter().chain(large) {
        let shape = Shape { m, k, b };
        let stripes = stripes_to_change(&mut random, shape);
        let is_small = m * b < 20;
        let counts: &[usize] = if is_small { &[1, 2, 3, 17, 255, 256] } else { &[1, 2, 40] };
        for stripe in &stripes[..if is_small { stripes.len() } else { 3 }] {
            for &count in counts {
                let columns: Vec<usize> = (0..count).map(|_| random.below(k)).collect();
                let rows: Vec<usize> = (0..count).map(|_| random.below(m - 1)).collect();
                let cells = random.bytes(count * b);
                one_list(test, shape, stripe, &columns, &rows, &cells);
                // On the diagonal of S every item, and all of them twice, the second time with what was there before.
                if k == 1 || count > 128 { continue; }
                let mut on_s: Vec<usize> = columns.iter().map(|&column| column.max(1)).collect();
                let mut rows: Vec<usize> = on_s.iter().map(|&column| m - 1 - column).collect();
                one_list(test, shape, stripe, &on_s, &rows, &cells);
                let held = |item: usize| stripe[shape.cell_bytes(m - 1 - on_s[item], on_s[item])].to_vec();
                let back = [cells, (0..count).flat_map(held).collect()].concat();
                on_s.extend(on_s.clone());
                rows.extend(rows.clone());
                let about = || format!("there and back in {shape}, {count} on the diagonal of S");
                test.same(about, listed(shape, stripe, &on_s, &rows, &back), (0, 256, stripe.clone()));
            }
        }
        // Different cells give the same in both orders.
        let all = k * (m - 1);
        let named: Vec<usize> = (0..all.min(256)).collect();
        let cells = random.bytes(named.len() * b);
        let columns: Vec<usize> = named.iter().map(|cell| cell / (m - 1)).collect();
        let rows: Vec<usize> = named.iter().map(|cell| cell % (m - 1)).collect();
        let turned = |list: &[usize]| list.iter().rev().copied().collect::<Vec<usize>>();
        let cells_turned: Vec<u8> = cells.chunks(b).rev().flatten().copied().collect();
        for stripe in &stripes {
            let forth = listed(shape, stripe, &columns, &rows, &cells);
            let back = listed(shape, stripe, &turned(&columns), &turned(&rows), &cells_turned);
            test.same(|| format!("{} cells of {shape} in both orders", named.len()), forth, back);
        }
    }
    // A night's lines: each cell of the data gets one, in several lists, and at the end stands what an encode of all of them gives.
    for (m, k, b, at_once) in [(5, 4, 3, 7), (7, 7, 16, 42), (23, 22, 1, 256)] {
        let shape = Shape { m, k, b };
        let log = random.bytes(k * (m - 1) * b);
        let mut stripe = vec![0; shape.stripe_length()];
        for (n, lines) in log.chunks(at_once * b).enumerate() {
            let named = n * at_once..n * at_once + lines.len() / b;
            let columns: Vec<usize> = named.clone().map(|cell| cell / (m - 1)).collect();
            let rows: Vec<usize> = named.map(|cell| cell % (m - 1)).collect();
            let done = code::changes(shape, &mut stripe, &columns, &rows, lines);
            let about = || format!("lines {n} of {shape}");
            test.same(about, (done.number, done.item, is_valid(shape, &stripe)), (0, 256, true));
        }
        let mut fresh = [&log[..], &vec![0; 2 * (m - 1) * b]].concat();
        encode(shape, &mut fresh);
        test.same(|| format!("log in {shape}"), stripe, fresh);
    }
    for seed in 1..=3 {
        for case in Maker::new(seed).lists().take(260) {
            if let Request::Changes(shape, stripe, columns, rows, cells) = &case.request {
                let (number, item, after) = list_by_the_rules(*shape, stripe, columns, rows, cells);
                let bytes = if after.is_empty() { "-".to_string() } else { hex(&after) };
                let about = || format!("seed {seed} changes {shape}, {} {} {}", columns.len(), rows.len(), cells.len());
                test.same(about, case.request.answer(), format!("{number} {item} {bytes}"));
                test.same(about, Some(number), case.expected);
                if shape.m < 30 && shape.b < 300 { one_list(test, *shape, stripe, columns, rows, cells); }
            }
        }
    }
}

/// The columns that a text of `shelf` prints, without its first and last line.
fn printed_columns(text: &str) -> Vec<&str> {
    let lines = text.lines().filter(|line| !line.starts_with("shape ") && !line.starts_with("answer "));
    lines.map(|line| line.rsplit(' ').next().expect("bytes")).collect()
}

fn generated(test: &mut Test) {
    for seed in 1..=3 {
        let mut random = Random(seed);
        for case in Maker::new(seed).cases(1100) {
            let line = case.request.to_string();
            let request = Request::parse(&line).expect("a generated line can be read");
            test.same(|| "text".to_string(), &request.to_string(), &line);
            let answer = request.answer();
            if let Request::Lengths(Shape { m, k, b }) = request {
                test.same(|| format!("seed {seed} {line}"), answer, lengths_by_the_rules(m, k, b));
                continue;
            }
            let number: u8 = answer.split(' ').next().and_then(|n| n.parse().ok()).expect("a number");
            let head: String = line.chars().take(200).collect();
            if let Request::Check(shape, stripe) = &request {
                test.same(|| format!("seed {seed} {head}"), &answer, &check_by_the_rules(*shape, stripe));
            }
            test.same(|| format!("seed {seed} {head}"), number, case.expected.unwrap_or(number));
            // What is lent is the last field; after it a rewrite has one more, and a change or a list of them three.
            let after = match request.word() {
                "rewrite" => 1,
                "change" | "changes" => 3,
                _ => 0,
            };
            let lent = line.rsplit(' ').nth(after);
            let lends = ["encode", "restore", "rewrite", "change", "changes", "read", "write"];
            if number != FINE && lends.contains(&request.word()) {
                test.same(|| format!("seed {seed} refused, buffer {head}"), answer.rsplit(' ').next(), lent);
            }
            if let (Request::Locate(shape, stripe) | Request::Check(shape, stripe), FINE) = (&request, number) {
                lanes(test, *shape, stripe);
            }
            if let Request::Locate(n, stripe) | Request::Check(n, stripe) | Request::Rewrite(n, stripe, _) = &request {
                locate_and_rewrite(test, &mut random, *n, stripe);
            }
            if let Request::Rewrite(shape, stripe, column) = &request {
                let (number, stripe) = rewrite_by_the_rules(*shape, stripe, *column);
                let bytes = if stripe.is_empty() { "-".to_string() } else { hex(&stripe) };
                test.same(|| format!("seed {seed} {head}"), answer, format!("{number} {bytes}"));
            }
            if let Request::Contents(bytes) | Request::Read(bytes, _) = &request {
                keeps_true(test, "contents", &image::contents(&bytes.get()).map);
            }
            if let (Request::Write(shape, map, stripe, _), FINE) = (&request, number) {
                one_write(test, &mut random, *shape, &map.absent(*shape), &stripe.get());
            }
            if let (Request::Walk(bytes, place), FINE) = (&request, number) {
                let found = image::contents(&bytes.get());
                let present: Vec<usize> = (0..found.shape.columns()).filter(|&c| found.map.is_present(c)).collect();
                let wanted = step_by_the_rules(found.shape, &present, *place);
                test.same(|| format!("seed {seed} {head}"), stepped(&bytes.get(), *place), wanted);
            }
        }
        for (turn, (bytes, expected)) in Maker::new(seed).shelf_images(2 * IMAGE_KINDS).enumerate() {
            let text = image::shelf(&bytes);
            let last = text.lines().last().and_then(|line| line.strip_prefix("answer ")).expect("an answer");
            let number = last.trim_end_matches(" blank").parse().expect("a number");
            test.same(|| format!("seed {seed} image {turn}"), number, expected.unwrap_or(number));
            let columns = printed_columns(&text);
            // The word is there exactly when there are columns and every digit of them is 0.
            let zero = !columns.is_empty() && columns.concat().bytes().all(|digit| digit == b'0');
            let wanted = if zero { "0 blank".to_string() } else { number.to_string() };
            test.same(|| format!("seed {seed} image {turn} blank"), last, &wanted[..]);
            if BLANK_KINDS.contains(&(turn % IMAGE_KINDS)) {
                test.same(|| format!("seed {seed} image {turn} all zero"), last, "0 blank");
            } else if turn % IMAGE_KINDS > *BLANK_KINDS.end() && number == FINE {
                test.same(|| format!("seed {seed} image {turn} not all zero"), last, "0");
            }
            test.same(|| format!("seed {seed} image {turn} lines"), !columns.is_empty(), number == FINE);
            let alone = text == format!("answer {number}\n");
            test.same(|| format!("seed {seed} image {turn} answer"), alone, [1, 8, 10, 12, 13].contains(&number));
            if number == FINE {
                let stripe = bytes_of(&columns.concat()).expect("hex");
                let shape = image::contents(&bytes).shape;
                test.same(|| format!("seed {seed} image {turn} valid"), is_valid(shape, &stripe), true);
            }
        }
    }
}

/// C5's image: every cut, longer ones, and every single changed byte.
fn images(test: &mut Test) {
    let image = bytes_of(numbers::C5_IMAGE).expect("hex");
    for more in 1..20 {
        let longer = [&image[..], &image[..more]].concat();
        test.same(|| format!("{more} longer"), image::contents(&longer).number, BAD_IMAGE);
    }
    for length in 0..image.len() {
        test.same(|| format!("cut to {length}"), image::contents(&image[..length]).number, BAD_IMAGE);
        test.same(|| format!("shelf cut to {length}"), image::shelf(&image[..length]), "answer 8\n".to_string());
    }
    for place in 0..image.len() {
        for change in 1..=255 {
            let mut other = image.clone();
            other[place] ^= change;
            let wanted = match place {
                // m, k and b: no other good shape fits these contents.
                0..=5 => {
                    let half = |at: usize| other[at] as usize + 256 * other[at + 1] as usize;
                    let number = by_the_rules(half(0), half(2), half(4));
                    if number == 0 { BAD_IMAGE } else { number }
                }
                6..=47 => BAD_IMAGE,
                _ => FINE,
            };
            test.same(|| format!("byte {place} changed by {change}"), image::contents(&other).number, wanted);
        }
    }
    let mut stripe = vec![9; 11];
    let done = image::read(&image, &mut stripe);
    let wanted = (BAD_STRIPE, Shape { m: 0, k: 0, b: 0 }, Map::new(), vec![9; 11]);
    test.same(|| "read refused".to_string(), (done.number, done.shape, done.map, stripe), wanted);
}

/// The byte at this place of an image, or none beyond its end: of the header, of an entry, or of the body that lies there.
fn byte_by_the_rules(Shape { m, k, b }: Shape, present: &[usize], stripe: &[u8], at: usize) -> Option<u8> {
    let byte_of = |number: usize, n: usize| (number >> (8 * n) & 255) as u8;
    let (body, start) = ((m - 1) * b, 8 + 8 * (k + 2));
    if at < 8 { return Some(byte_of([m, k, b, 0][at / 2], at % 2)); }
    if at < start {
        let (column, n) = ((at - 8) / 8, (at - 8) % 8);
        let turn = present.iter().position(|&other| other == column);
        return Some(match (n, turn) {
            (0 | 1, _) => byte_of(column, n),
            (2, _) => turn.is_some() as u8,
            (4..=7, Some(turn)) => byte_of(start + turn * body, n - 4),
            _ => 0,
        });
    }
    let column = present.get((at - start) / body)?;
    Some(stripe[column * body + (at - start) % body])
}

/// What a step over such an image gives: number, place, column, start and length.
fn step_by_the_rules(Shape { m, k, b }: Shape, present: &[usize], place: usize) -> (u8, usize, usize, usize, usize) {
    if place > k + 2 { return (8, place, 129, 0, 0); }
    match present.iter().position(|&column| column >= place) {
        Some(turn) => (0, present[turn] + 1, present[turn], 8 + 8 * (k + 2) + turn * (m - 1) * b, (m - 1) * b),
        None => (0, k + 2, 129, 0, 0),
    }
}

fn stepped(image: &[u8], place: usize) -> (u8, usize, usize, usize, usize) {
    let done = image::walk(image, place);
    (done.number, done.place, done.column, done.start, done.length)
}

/// An image without these columns. It is what the rules say, in a buffer of its length and in longer ones, of which the rest stays;
/// in a shorter one nothing changes. What stands in the absent columns does not matter. Reading it gives shape, map and present
/// columns, and what stood in the absent ones; and writing what was read gives the same bytes. A walk hands out each present column
/// once, in order, with its bytes, and then ends; a step from any other place gives what the rules say.
fn one_write(test: &mut Test, random: &mut Random, shape: Shape, absent: &[usize], stripe: &[u8]) {
    let columns = shape.columns();
    let map = Map::all_but(columns, absent);
    let about = || format!("write {shape} without {absent:?}");
    let present: Vec<usize> = (0..columns).filter(|column| !absent.contains(column)).collect();
    let wanted: Vec<u8> = (0..).map_while(|at| byte_by_the_rules(shape, &present, stripe, at)).collect();
    let length = wanted.len();
    test.same(about, length, 8 + 8 * columns + present.len() * shape.column_length());

    for room in [length, length + 1, length + 2 + random.below(40)] {
        let lent = random.bytes(room);
        let mut after = lent.clone();
        let done = image::write(shape, &map, stripe, &mut after);
        test.same(about, (done.number, done.length, &after[..length]), (0, length, &wanted[..]));
        test.same(about, &after[length..], &lent[length..]);
    }
    for room in [0, 7, 8, 8 * columns, 8 + 8 * columns, length - 2, length - 1].into_iter().filter(|&room| room < length) {
        let lent = random.bytes(room);
        let mut after = lent.clone();
        let done = image::write(shape, &map, stripe, &mut after);
        test.same(about, (done.number, done.length, after), (16, 0, lent));
    }
    // Another stripe with the same present columns.
    let mut other = random.bytes(stripe.len());
    for &column in &present { other[shape.column(column)].copy_from_slice(&stripe[shape.column(column)]); }
    let mut image = vec![0; length];
    let done = image::write(shape, &map, &other, &mut image);
    test.same(about, (done.number, done.length, &image), (0, length, &wanted));

    let lent = random.bytes(stripe.len());
    let mut read = lent.clone();
    let done = image::read(&image, &mut read);
    test.same(about, (done.number, done.shape, done.map), (0, shape, map));
    for column in 0..columns {
        let from = if absent.contains(&column) { &lent } else { stripe };
        test.same(about, &read[shape.column(column)], &from[shape.column(column)]);
    }
    let mut again = random.bytes(length);
    let done = image::write(done.shape, &done.map, &read, &mut again);
    test.same(about, (done.number, done.length, again), (0, length, wanted));

    let (mut place, mut handed_out) = (0, Vec::new());
    loop {
        let done = image::walk(&image, place);
        test.same(about, (done.number, done.place > place || done.column == 129), (0, true));
        place = done.place;
        if done.column == 129 || handed_out.len() > columns { break; }
        test.same(about, &image[done.start..done.start + done.length], &stripe[shape.column(done.column)]);
        handed_out.push(done.column);
    }
    test.same(about, (place, &handed_out), (columns, &present));
    let far = [129, 130, 255, 256, 65_536, 1 << 32, (1 << 32) + 1, 1 << 63, (1 << 63) + columns, MAX - 1, MAX];
    for place in (0..=columns + 2).chain(far) {
        test.same(|| format!("{} from {place}", about()), stepped(&image, place), step_by_the_rules(shape, &present, place));
    }
}

/// C5's image cut, longer, or with one byte changed: a step is refused where the contents are, with the same number, and then the
/// place stays.
fn refused_walks(test: &mut Test) {
    let image = bytes_of(numbers::C5_IMAGE).expect("hex");
    let shape = Shape { m: 3, k: 3, b: 1 };
    let mut others = vec![[&image[..], &[0]].concat(), [&image[..], &image].concat()];
    others.extend((0..image.len()).map(|length| image[..length].to_vec()));
    for (place, change) in (0..image.len()).flat_map(|place| (1..=255).map(move |change| (place, change))) {
        let mut other = image.clone();
        other[place] ^= change;
        others.push(other);
    }
    for (n, other) in others.into_iter().enumerate() {
        let number = image::contents(&other).number;
        for place in [0, 1, 4, 5, 6, MAX] {
            let wanted = if number == 0 { step_by_the_rules(shape, &[1, 3, 4], place) } else { (number, place, 129, 0, 0) };
            test.same(|| format!("walk of image {n} from {place}"), stepped(&other, place), wanted);
        }
    }
}

/// Every set of faults of a write, with the map true or false in every way.
fn refused_writes(test: &mut Test) {
    for faults in sets(&[1, 12, 13, 2, 9, 16]) {
        let (shape, sound, stripe, ..) = with_faults(&faults);
        // The shape is 5 4 2 where it is not wrong, and one of six columns is absent: 8+6*8+5*8 bytes.
        let lent = vec![0x5a; if faults.contains(&16) { 95 } else { 96 }];
        for map in false_maps(sound.places).into_iter().chain([sound]) {
            let all = if map == sound { faults.clone() } else { [&faults[..], &[17]].concat() };
            let mut after = lent.clone();
            let done = image::write(shape, &map, &stripe, &mut after);
            let number = first_of(&WRITE_ORDER, &all);
            let about = || format!("write, faults {all:?}, map says {} {}", map.present, map.highest);
            test.same(about, (done.number, done.length), (number, if number == 0 { 96 } else { 0 }));
            test.same(about, after == lent, number != 0);
        }
    }
}

/// The text of requests, bytes told by a seed, and answers with many bytes.
fn text_of_writes(test: &mut Test) {
    let (c1, c5) = (numbers::C1, numbers::C5_IMAGE);
    let map = format!("01011{}", "0".repeat(124));
    for line in [
        format!("write 3 3 1 {map} {c1} {c5}"),
        format!("write 3 3 1 {map} - -"),
        format!("write 3 3 1 {map} 10*1 54*18446744073709551615"),
        format!("walk {c5} 0"),
        format!("walk - {MAX}"),
        format!("walk @3,3,1,{map},7 0"),
        "walk 54*0 0".to_string(),
        format!("read @3,3,1,{map},7 10*8"),
        format!("contents @3,3,1,{map},7"),
    ] {
        let request = Request::parse(&line).expect("the request is written rightly");
        test.same(|| "text".to_string(), &request.to_string(), &line);
    }
    let stray = format!("010111{}", "0".repeat(123));
    for line in [
        format!("write 3 3 1 {map} {c1}"),
        format!("write 3 3 1 {map} {c1} {c5} 0"),
        format!("write 3 3 1 {map}0 {c1} {c5}"),
        format!("write 3 3 1 {map} @3,3,1,{map},7 {c5}"),
        format!("walk {c5}"),
        format!("walk {c5} -1"),
        format!("walk {c5} 18446744073709551616"),
        format!("walk {c5} 0 0"),
        format!("walk @9,3,1,{map},7 0"),
        format!("walk @3,3,1,{stray},7 0"),
        format!("walk @3,3,1,{map} 0"),
        format!("walk @3,3,1,{map},7,7 0"),
        format!("walk @3,3,1,{map}, 0"),
        "walk 5* 0".to_string(),
        "walk *5 0".to_string(),
        "walk 5*5*5 0".to_string(),
        "walk 5*a 0".to_string(),
        "walk 5*18446744073709551616 0".to_string(),
    ] {
        test.same(|| format!("malformed {line}"), Request::parse(&line).is_none(), true);
    }
    // From 0 the first number is the one that is added, 14057b7ef767814f in hex. The others were reckoned apart, as whole numbers of
    // any size and their remainder.
    for (seed, bytes) in [(0, "141a9a66628f145b"), (1, "6c82a562cb808d10"), (u64::MAX, "bbb18f6bf89f9aa5")] {
        let count = bytes.len() / 2;
        test.same(|| format!("drawn from {seed}"), hex(&requests::drawn(count, seed)), bytes.to_string());
        let told = Request::parse(&format!("contents {count}*{seed}")).expect("a request").answer();
        let plain = Request::parse(&format!("contents {bytes}")).expect("a request").answer();
        test.same(|| format!("told by {seed}"), told, plain);
    }
    // As they are published.
    for (text, hash) in [("", 0xcbf2_9ce4_8422_2325), ("a", 0xaf63_dc4c_8601_ec8c), ("foobar", 0x8594_4171_f739_67e8)] {
        test.same(|| format!("hash of {text}"), requests::hash(text.as_bytes()), hash);
    }
    // An empty image is refused, and so the stripe comes back.
    let answer = |count: usize| Request::parse(&format!("read - {count}*3")).expect("a request").answer();
    let bytes = requests::drawn(4_194_305, 3);
    let start = format!("8 0 0 0 {} ", "0".repeat(129));
    test.same(|| "just so many bytes".to_string(), answer(4_194_304) == format!("{start}{}", hex(&bytes[..4_194_304])), true);
    test.same(|| "too many bytes".to_string(), answer(4_194_305), format!("{start}4194305#{:016x}", requests::hash(&bytes)));
}

/// Writes and walks: every map at small shapes, and drawn ones.
fn written(test: &mut Test) {
    let mut random = Random(41);
    let small = [(3, 1, 1), (3, 2, 2), (3, 3, 1), (3, 3, 5), (5, 1, 3), (5, 2, 1), (5, 4, 2), (5, 5, 1), (7, 3, 1), (7, 7, 1)];
    for (m, k, b) in small {
        let shape = Shape { m, k, b };
        for set in 0..1usize << shape.columns() {
            let absent: Vec<usize> = (0..shape.columns()).filter(|column| set >> column & 1 == 1).collect();
            let stripe = random.bytes(shape.stripe_length());
            one_write(test, &mut random, shape, &absent, &stripe);
        }
    }
    let mut shapes = vec![(127, 127, 1), (127, 1, 70), (3, 3, 4096), (5, 2, 4095), (31, 31, 9), (17, 11, 257)];
    for _ in 0..40 {
        let m = random.one_of(&DOCUMENT_PRIMES);
        let b = random.one_of(&[1, 2, 3, 8, 130]);
        shapes.push((m, 1 + random.below(m.min(20_000 / (m * b) + 1)), b));
    }
    for (m, k, b) in shapes {
        let shape = Shape { m, k, b };
        let percents = [0, random.one_of(&[1, 5, 20]), 50, random.one_of(&[80, 95]), 100];
        for percent in percents {
            let absent: Vec<usize> = (0..shape.columns()).filter(|_| random.below(100) < percent).collect();
            let stripe = random.bytes(shape.stripe_length());
            one_write(test, &mut random, shape, &absent, &stripe);
        }
    }
    refused_walks(test);
    refused_writes(test);
    text_of_writes(test);
}

const MAX: usize = usize::MAX;
const RESTORE_ORDER: [u8; 9] = [1, 12, 13, 2, 3, 17, 9, 4, 5];
const SHOW_ORDER: [u8; 9] = [1, 12, 13, 2, 3, 17, 9, 7, 4];
const PLAIN_ORDER: [u8; 4] = [1, 12, 13, 2];
const LOCATE_ORDER: [u8; 5] = [1, 12, 13, 2, 6];
const REWRITE_ORDER: [u8; 6] = [1, 12, 13, 2, 7, 5];
const CHANGE_ORDER: [u8; 7] = [1, 12, 13, 2, 7, 11, 14];
const LIST_ORDER: [u8; 7] = [1, 12, 13, 2, 15, 7, 11];
const WRITE_ORDER: [u8; 7] = [1, 12, 13, 2, 17, 9, 16];

/// How many places are present and which is the highest, place by place.
fn by_the_places(places: &[bool; 129]) -> (usize, usize) {
    let (mut present, mut highest) = (0, 129);
    for place in 0..129 {
        if places[place] {
            present += 1;
            highest = place;
        }
    }
    (present, highest)
}

fn keeps_true(test: &mut Test, what: &str, map: &Map) {
    test.same(|| format!("{what}: numbers of {map}"), (map.present, map.highest), by_the_places(&map.places));
    test.same(|| format!("{what}: truth of {map}"), map.is_true(), true);
}

/// Places that are all absent, all present below a limit, or between.
fn some_places(random: &mut Random) -> [bool; 129] {
    let (percent, limit) = (random.one_of(&[0, 1, 1, 5, 50, 95, 99, 100]), random.one_of(&[1, 6, 128, 129, 129]));
    let mut places = [false; 129];
    places[..limit].iter_mut().for_each(|state| *state = random.below(100) < percent);
    places
}

/// Every kind of false numbers for these places: too small, too large, alike in the low bits, or the other's.
fn false_maps(places: [bool; 129]) -> Vec<Map> {
    let (present, highest) = by_the_places(&places);
    let near = |n: usize| {
        let more = [1, 2, 256, 1 << 16, 1 << 32, 1 << 63].map(|by| n.wrapping_add(by));
        [&[n, n.wrapping_sub(1), present, highest, 0, 1, 127, 128, 129, 130, MAX - 1, MAX][..], &more].concat()
    };
    let mut maps = Vec::new();
    for count in near(present) {
        maps.extend(near(highest).into_iter().map(|top| Map::from_parts(places, count, top)));
    }
    maps.retain(|map| (map.present, map.highest) != (present, highest));
    maps
}

/// Walks of marks, often of the same few places, from a new map and from drawn ones.
fn walks(test: &mut Test, random: &mut Random) {
    for turn in 0..60 {
        let mut map = if turn % 2 == 0 { Map::new() } else { Map::counted(some_places(random)) };
        keeps_true(test, "start", &map);
        for _ in 0..400 {
            let (any, low) = (random.below(129), random.below(5));
            let place = random.one_of(&[any, low, 128 - low, 129 + low, MAX - low, map.highest]);
            let present = random.below(2) == 0;
            let done = mark(map, place, present);
            let mut places = map.places;
            if place < 129 { places[place] = present; }
            let about = || format!("mark {place} {present} of {map}");
            test.same(about, done.number, if place < 129 { 0 } else { 7 });
            test.same(about, done.map.places, places);
            keeps_true(test, "mark", &done.map);
            if place >= 129 { test.same(about, done.map, map); }
            let twice = mark(done.map, place, present);
            test.same(about, (twice.number, twice.map), (done.number, done.map));
            map = done.map;
        }
    }
}

/// A false map is refused by every mark and handed back as it came, and its questions look at the places.
fn false_maps_alone(test: &mut Test, random: &mut Random) {
    for _ in 0..12 {
        let places = some_places(random);
        let sound = Map::counted(places);
        let limits: Vec<usize> = (0..=131).chain([256, MAX - 1, MAX]).collect();
        let answers = |map: &Map| {
            let of = |&limit: &usize| (map.is_present(limit), map.strays(limit), map.gaps(limit));
            (limits.iter().map(of).collect::<Vec<_>>(), map.bytes(), map.to_string())
        };
        let wanted = answers(&sound);
        for (&limit, got) in limits.iter().zip(&wanted.0) {
            let stray = (0..129).any(|place| places[place] && place >= limit);
            test.same(|| format!("{limit} in {sound}"), (got.0, got.1), (limit < 129 && places[limit], stray));
        }
        for map in false_maps(places) {
            let about = || format!("false map {} {} {map}", map.present, map.highest);
            test.same(about, map.is_true(), false);
            let drawn = random.below(129);
            for place in [0, drawn, 128, 129, MAX] {
                for present in [false, true] {
                    let once = mark(map, place, present);
                    let twice = mark(once.map, place, present);
                    test.same(about, (once.number, once.map), (17, map));
                    test.same(about, (twice.number, twice.map), (17, map));
                }
            }
            test.same(about, answers(&map), wanted.clone());
            test.same(about, Map::from_bytes(map.bytes()), sound);
        }
    }
}

/// Every set of these numbers.
fn sets(numbers: &[u8]) -> Vec<Vec<u8>> {
    let set = |bits: usize| (0..numbers.len()).filter(|n| bits >> n & 1 == 1).map(|n| numbers[n]).collect();
    (0..1 << numbers.len()).map(set).collect()
}

/// The first of these faults in an order.
fn first_of(order: &[u8], faults: &[u8]) -> u8 {
    order.iter().copied().find(|number| faults.contains(number)).unwrap_or(0)
}

/// What is handed in with exactly these faults, save that a wrong shape brings wrong lengths along, and that a stripe
/// which nothing fits is not looked at when three columns are absent. The map is true.
fn with_faults(faults: &[u8]) -> (Shape, Map, Vec<u8>, Vec<u8>, usize) {
    let has = |number: u8| faults.contains(&number);
    let good = Shape { m: 5, k: 4, b: 2 };
    let mut stripe: Vec<u8> = (0..good.stripe_length()).map(|n| (37 * n + 5) as u8).collect();
    encode(good, &mut stripe);
    if has(5) { stripe[good.stripe_length() - 1] ^= 1; }
    // Lane 0 of column 0 and lane 1 of column 2.
    if has(6) { [0, 17].into_iter().for_each(|at| stripe[at] ^= 1); }
    if has(2) { stripe.pop(); }
    let bench = vec![0x5a; good.bench_length() + has(3) as usize];
    let mut map = Map::all_but(good.columns(), if has(4) { &[0, 2, 3] } else { &[1] });
    if has(9) { map.places[20] = true; }
    let (m, k, b) = (if has(1) { 9 } else { 5 }, if has(12) { 10 } else { 4 }, if has(13) { 0 } else { 2 });
    (Shape { m, k, b }, Map::counted(map.places), stripe, bench, if has(7) { 20 } else { 1 })
}

/// Every set of faults, and with each the map true or false in every way.
fn false_maps_in_order(test: &mut Test) {
    const OTHERS: [u8; 9] = [1, 12, 13, 2, 3, 9, 7, 4, 5];
    for faults in sets(&OTHERS) {
        let (shape, sound, stripe, bench, column) = with_faults(&faults);
        for map in false_maps(sound.places).into_iter().chain([sound]) {
            let all = if map == sound { faults.clone() } else { [&faults[..], &[17]].concat() };
            let about = || format!("faults {all:?}, map says {} {}", map.present, map.highest);
            let mut written = bench.clone();
            let done = restore(shape, &map, &stripe, &mut written);
            let wanted = match first_of(&RESTORE_ORDER, &all) {
                0 => (0, 1, 1, 129),
                number => (number, 0, 129, 129),
            };
            test.same(about, (done.number, done.count, done.first, done.second), wanted);
            test.same(about, written == bench, wanted.0 != 0);
            let done = show(shape, &map, &stripe, &bench, column);
            let wanted = match first_of(&SHOW_ORDER, &all) {
                0 => (0, true, 0, 8),
                number => (number, false, 0, 0),
            };
            test.same(about, (done.number, done.from_bench, done.start, done.length), wanted);
        }
    }
}

/// Every set of faults of a check, of a locate and of a rewrite, and the text of their requests. Check and locate get also
/// a stripe of zeros instead.
fn orders(test: &mut Test) {
    for faults in sets(&LOCATE_ORDER) {
        let (shape, _, stripe, ..) = with_faults(&faults);
        let done = locate(shape, &stripe);
        let number = first_of(&LOCATE_ORDER, &faults);
        let wanted = (number, if number == 0 { 1 } else { 0 }, 129);
        test.same(|| format!("locate, faults {faults:?}"), (done.number, done.found, done.column), wanted);
        let zero = vec![0; stripe.len()];
        let number = first_of(&PLAIN_ORDER, &faults);
        let done = locate(shape, &zero);
        let wanted = (number, if number == 0 { 2 } else { 0 }, 129);
        test.same(|| format!("locate zeros, faults {faults:?}"), (done.number, done.found, done.column), wanted);
        for (stripe, found) in [(stripe, if faults.contains(&6) { 3 } else { 1 }), (zero, 2)] {
            let done = check(shape, &stripe);
            let about = || format!("check, faults {faults:?}, found {found}");
            test.same(about, (done.number, done.found), (number, if number == 0 { found } else { 0 }));
            test.same(about, (done.rows, done.diagonals) == (0, 0), number != 0 || found != 3);
        }
    }
    let (.., sound, _, _) = with_faults(&[]);
    for faults in sets(&REWRITE_ORDER) {
        let (shape, _, mut stripe, _, column) = with_faults(&faults);
        // Column 1 is the one to be rewritten.
        stripe[8..16].fill(0x3c);
        let mut after = stripe.clone();
        let done = rewrite(shape, &mut after, column);
        let number = first_of(&REWRITE_ORDER, &faults);
        let wanted = (number, if number == 0 { sound.clone() } else { stripe });
        test.same(|| format!("rewrite, faults {faults:?}"), (done.number, after), wanted);
    }
    let c1 = numbers::C1;
    for line in [format!("locate 3 3 1 {c1}"), format!("rewrite 3 3 1 {c1} 0"), format!("rewrite 3 3 1 {c1} {MAX}")] {
        let request = Request::parse(&line).expect("the request is written rightly");
        test.same(|| "text".to_string(), &request.to_string(), &line);
    }
    for line in [
        format!("mend 3 3 1 {c1}"),
        format!("locate 3 3 1 {c1} 0"),
        "locate 3 3 1".to_string(),
        format!("rewrite 3 3 1 {c1}"),
        format!("rewrite 3 3 1 {c1} -1"),
        format!("rewrite 3 3 1 {c1} 18446744073709551616"),
        format!("rewrite 3 3 1 {c1} 0 0"),
    ] {
        test.same(|| format!("malformed {line}"), Request::parse(&line).is_none(), true);
    }
}

/// The answer to a request for gaps, from the highest place down, so that the last two met are the lowest.
fn gaps_by_the_places(k: usize, places: &[bool; 129]) -> String {
    let (present, highest) = by_the_places(places);
    let (mut absent, mut first, mut second) = (0, 129, 129);
    for place in (0..129).rev() {
        if (k >= 127 || place <= k + 1) && !places[place] {
            absent += 1;
            (first, second) = (place, first);
        }
    }
    format!("0 {present} {highest} {absent} {first} {second}")
}

fn gaps(test: &mut Test, random: &mut Random) {
    let ks: Vec<usize> = (0..=131).chain([255, 256, 257, 65_536, 1 << 32, 1 << 63, MAX - 2, MAX - 1, MAX]).collect();
    for _ in 0..60 {
        let places = some_places(random);
        for &k in &ks {
            let line = format!("gaps {k} {}", Map::counted(places));
            let request = Request::parse(&line).expect("the request is written rightly");
            test.same(|| "text".to_string(), &request.to_string(), &line);
            test.same(|| line.clone(), request.answer(), gaps_by_the_places(k, &places));
        }
    }
    let none = "0".repeat(129);
    for rest in ["".to_string(), none.clone(), format!("18446744073709551616 {none}"), format!("3 {none}0")] {
        test.same(|| format!("malformed gaps {rest}"), Request::parse(&format!("gaps {rest}")).is_none(), true);
    }
}

/// The rest of the line that starts with these words.
fn line_of<'a>(lines: &'a [String], start: &str) -> &'a str {
    let mut found = lines.iter().filter_map(|line| line.strip_prefix(start)?.strip_prefix(' '));
    found.next().unwrap_or("no such line")
}

/// The lines of `lies`: the true cases by hand, the false ones by the true case of the same places.
fn lines_of_lies(test: &mut Test) {
    let lines = lies::lines();
    test.same(|| "lines".to_string(), lines.len(), 9 * 44 + 12 + 24);
    let refused = |number: u8| (format!("{number} 0 129 129 a1a2a3a4"), format!("{number} 0 0 0"));
    let answered = |restored: &str, shown: &str| (restored.to_string(), shown.to_string());
    let sound = [
        ("five 5 4", answered("0 0 129 129 a1a2a3a4", "0 0 0 2")),
        ("none 0 129", refused(4)),
        ("stray 6 5", refused(9)),
        ("two-absent 3 4", answered("0 2 0 1 01020408", "0 1 0 2")),
        ("three-absent 2 4", refused(4)),
        ("all 129 128", refused(9)),
        ("last 1 128", refused(9)),
    ];
    let maps = || {
        lies::GROUPS.into_iter().flat_map(|(kind, places, pairs)| {
            pairs.into_iter().map(move |(count, highest)| (kind, places.clone(), count, highest))
        })
    };
    for (kind, places, count, highest) in maps() {
        let short = |number: usize| if number > 9_999 { "far".to_string() } else { number.to_string() };
        let name = &format!("{kind} {} {}", short(count), short(highest))[..];
        let about = || format!("case {name}");
        let said = |word: &str| line_of(&lines, &format!("{name} {word}"));
        let map = lies::map_of(places.clone(), count, highest);
        let unchanged = format!("{} {} {map}", short(count), short(highest));
        let is_sound = by_the_places(&map.places) == (count, highest);
        test.same(about, sound.iter().any(|(other, _)| *other == name), is_sound);
        test.same(about, said("true"), if is_sound { "1" } else { "0" });
        let by_hand = sound.iter().find(|(other, _)| *other == name);
        let (restored, shown) = by_hand.map_or(refused(17), |(_, answers)| answers.clone());
        test.same(about, (said("restore"), said("show")), (&restored[..], &shown[..]));
        test.same(about, said("part"), if shown.starts_with("0 ") { "2" } else { "0" });
        // an image may lack any number of columns; its bodies begin at byte 48
        let written = match name {
            "five 5 4" => "0 58 0301011e",
            "none 0 129" => "0 48 0300a1a1",
            "two-absent 3 4" => "0 54 030010a1",
            "three-absent 2 4" => "0 52 030015a1",
            _ if is_sound => "9 0 a1a1a1a1",
            _ => "17 0 a1a1a1a1",
        };
        test.same(about, said("write"), written);
        test.same(about, said("present-129"), &format!("{} {unchanged}", if is_sound { 7 } else { 17 }));
        for (word, place, present) in [("present-0", 0, true), ("absent-4", 4, false)] {
            let mut after = map.places;
            after[place] = present;
            let (count, highest) = by_the_places(&after);
            let changed = format!("0 {count} {highest} {}", Map::counted(after));
            test.same(about, said(word), &if is_sound { changed } else { format!("17 {unchanged}") });
        }
        let sister = sound.iter().find(|(other, _)| other.starts_with(&format!("{kind} "))).expect("a true one").0;
        test.same(about, said("questions"), line_of(&lines, &format!("{sister} questions")));
    }
    let faults = [("m", 1), ("k", 12), ("b", 13), ("length", 2), ("bench", 3), ("column", 17), ("stray", 17)];
    for (fault, number) in faults {
        let name = if fault == "stray" { "column+lie+stray".to_string() } else { format!("{fault}+lie") };
        let bench = if fault == "bench" { "a1" } else { "a1a2a3a4" };
        let (restored, shown) = (format!("{number} 0 129 129 {bench}"), format!("{number} 0 0 0"));
        let wanted = match fault {
            "k" | "b" | "length" => (&restored[..], "no such line"),
            "m" => (&restored[..], &shown[..]),
            _ => ("no such line", &shown[..]),
        };
        let got = (line_of(&lines, &format!("{name} restore")), line_of(&lines, &format!("{name} show")));
        test.same(|| name.clone(), got, wanted);
    }
    for (name, number) in [("m+lie", 1), ("length+lie", 2), ("lie+short", 17), ("lie+stray+short", 17)] {
        test.same(|| name.to_string(), line_of(&lines, &format!("{name} write")), &format!("{number} 0 a1a1a1a1"));
    }
    let map = |present: &[usize]| Map::counted(std::array::from_fn(|place| present.contains(&place))).to_string();
    let steps: [(&str, u8, usize, usize, &[usize]); 24] = [
        ("present 3", 0, 1, 3, &[3]), ("present 1", 0, 2, 3, &[1, 3]), ("present 1", 0, 2, 3, &[1, 3]),
        ("present 3", 0, 2, 3, &[1, 3]), ("absent 3", 0, 1, 1, &[1]), ("absent 1", 0, 0, 129, &[]),
        ("absent 1", 0, 0, 129, &[]), ("absent 3", 0, 0, 129, &[]),
        ("present 0", 0, 1, 0, &[0]), ("present 128", 0, 2, 128, &[0, 128]), ("present 127", 0, 3, 128, &[0, 127, 128]),
        ("present 0", 0, 3, 128, &[0, 127, 128]), ("absent 0", 0, 2, 128, &[127, 128]), ("absent 128", 0, 1, 127, &[127]),
        ("absent 127", 0, 0, 129, &[]), ("absent 0", 0, 0, 129, &[]),
        ("present 5", 0, 1, 5, &[5]), ("present 129", 7, 1, 5, &[5]), ("present far", 7, 1, 5, &[5]),
        ("present 128", 0, 2, 128, &[5, 128]), ("absent 5", 0, 1, 128, &[128]), ("absent 129", 7, 1, 128, &[128]),
        ("absent far", 7, 1, 128, &[128]), ("absent 128", 0, 0, 129, &[]),
    ];
    for (n, (mark, number, count, highest, present)) in steps.into_iter().enumerate() {
        let wanted = format!("{mark} {number} {count} {highest} {}", map(present));
        test.same(|| format!("walk {n}"), &lines[9 * 44 + 12 + n], &wanted);
    }
}

fn maps(test: &mut Test) {
    let mut random = Random(17);
    keeps_true(test, "new", &Map::new());
    let bytes: [u8; 129] = std::array::from_fn(|place| [0, 1, 2, 255, 129, 1][place % 6]);
    let wanted: [bool; 129] = std::array::from_fn(|place| place % 6 == 1 || place % 6 == 5);
    test.same(|| "bytes".to_string(), Map::from_bytes(bytes).places, wanted);
    keeps_true(test, "bytes", &Map::from_bytes(bytes));
    walks(test, &mut random);
    false_maps_alone(test, &mut random);
    false_maps_in_order(test);
    gaps(test, &mut random);
    lines_of_lies(test);
}

pub fn run(out: &mut impl Write) -> io::Result<bool> {
    let groups: [(&str, fn(&mut Test)); 14] = [
        ("document", document),
        ("shapes", shapes),
        ("lengths", lengths),
        ("searches", searches),
        ("blank", blank),
        ("two wrong", two_wrong),
        ("changes", changes),
        ("lists", lists),
        ("ranks", ranks),
        ("images", images),
        ("written", written),
        ("maps", maps),
        ("orders", orders),
        ("generated", generated),
    ];
    let mut good = true;
    for (name, group) in groups {
        let mut test = Test::default();
        group(&mut test);
        writeln!(out, "{name}: {} comparisons, {} differences", test.run, test.differences.len())?;
        for line in test.differences.iter().take(10) {
            writeln!(out, "  {line}")?;
        }
        good &= test.differences.is_empty();
    }
    Ok(good)
}
