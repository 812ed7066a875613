//! A small stripe from Rust: encode it, lose two columns, restore them, and print every column from where show says that it lies; then put the stripe
//! together, and have check say whether it is intact or blank; then a blank stripe, and a call that is refused. The bytes are those of cases C1, C5, C10
//! and C11; the status is not 0 if others come out.
//!
//!    rustc --edition 2021 -O -L native=DIR -l static=oarwillow example/example.rs      (DIR is where liboarwillow.a is)
//!
//! The wrappers `encode`, `check`, `restore` and `show` are safe. What the header asks of pointers holds of every slice and reference: they are valid for
//! their length and not null, and what is lent by `&mut` overlaps nothing else. The library keeps none of them. All else may be as it will: a
//! wrong shape, length or map is refused by number.

const PLACES: usize = 129;

extern "C" {
    fn oarwillow_encode(m: usize, k: usize, b: usize, stripe: *mut u8, stripe_len: usize) -> u8;
    fn oarwillow_check(
        m: usize, k: usize, b: usize, stripe: *const u8, stripe_len: usize, rows: &mut usize, diagonals: &mut usize, found: &mut u8,
    ) -> u8;
    fn oarwillow_restore(
        m: usize, k: usize, b: usize, places: &[u8; PLACES], stripe: *const u8, stripe_len: usize, bench: *mut u8, bench_len: usize,
        count: &mut usize, first: &mut usize, second: &mut usize,
    ) -> u8;
    fn oarwillow_show(
        m: usize, k: usize, b: usize, places: &[u8; PLACES], stripe: *const u8, stripe_len: usize, bench: *const u8, bench_len: usize,
        column: usize, from_bench: &mut usize, start: &mut usize, length: &mut usize,
    ) -> u8;
}

#[derive(Clone, Copy)]
struct Shape { m: usize, k: usize, b: usize }

impl Shape {
    fn column_length(self) -> usize { (self.m - 1) * self.b }
    fn stripe_length(self) -> usize { (self.k + 2) * self.column_length() }
    fn bench_length(self) -> usize { 2 * self.column_length() }
}

/// A call's refusal; include/oarwillow.h says what its number means.
#[derive(Debug)]
struct Refused { call: &'static str, number: u8 }

fn answer<T>(call: &'static str, number: u8, value: T) -> Result<T, Refused> {
    if number == 0 { Ok(value) } else { Err(Refused { call, number }) }
}

/// Writes H and D.
fn encode(s: Shape, stripe: &mut [u8]) -> Result<(), Refused> {
    // SAFETY: the pointer and the length are one slice's, which is lent to this call alone.
    let number = unsafe { oarwillow_encode(s.m, s.k, s.b, stripe.as_mut_ptr(), stripe.len()) };
    answer("encode", number, ())
}

/// What a stripe is.
#[derive(Debug, PartialEq)]
enum Found { Intact, Blank, Broken }

/// Whether a stripe is intact, blank (every byte is zero) or broken.
fn check(s: Shape, stripe: &[u8]) -> Result<Found, Refused> {
    let ([mut rows, mut diagonals], mut found) = ([0; 2], 0);
    // SAFETY: the pointer and the length are one slice's, which is only read from; the two counts and `found` are lent to this call alone.
    let number = unsafe { oarwillow_check(s.m, s.k, s.b, stripe.as_ptr(), stripe.len(), &mut rows, &mut diagonals, &mut found) };
    // enum oarwillow_found
    answer("check", number, match found { 1 => Found::Intact, 2 => Found::Blank, _ => Found::Broken })
}

/// Writes the absent columns to the bench; gives how many they are, and their numbers. A blank stripe is restored as any other: `check` tells it, once
/// the stripe is put together.
fn restore(s: Shape, places: &[u8; PLACES], stripe: &[u8], bench: &mut [u8]) -> Result<[usize; 3], Refused> {
    let [mut count, mut first, mut second] = [0; 3];
    // SAFETY: each pointer goes with its slice's length; the bench is lent to this call alone, and so are the three numbers.
    let number = unsafe {
        oarwillow_restore(s.m, s.k, s.b, places, stripe.as_ptr(), stripe.len(), bench.as_mut_ptr(), bench.len(),
            &mut count, &mut first, &mut second)
    };
    answer("restore", number, [count, first, second])
}

/// Whether a column is on the bench, and the part of the bench or the stripe that it is.
fn show<'a>(s: Shape, places: &[u8; PLACES], stripe: &'a [u8], bench: &'a [u8], column: usize) -> Result<(bool, &'a [u8]), Refused> {
    let [mut from_bench, mut start, mut length] = [0; 3];
    // SAFETY: each pointer goes with its slice's length, and is only read from; the three numbers are lent to this call alone.
    let number = unsafe {
        oarwillow_show(s.m, s.k, s.b, places, stripe.as_ptr(), stripe.len(), bench.as_ptr(), bench.len(), column,
            &mut from_bench, &mut start, &mut length)
    };
    let part = if from_bench == 1 { bench } else { stripe };
    answer("show", number, (from_bench == 1, &part[start..start + length]))
}

/// Case C1: three data columns, H and D.
const C1: [u8; 10] = [0x01, 0x02, 0x04, 0x08, 0x10, 0x20, 0x15, 0x2a, 0x39, 0x1e];

fn main() -> Result<(), Refused> {
    let shape = Shape { m: 3, k: 3, b: 1 };
    let column_length = shape.column_length();
    let mut stripe = vec![0; shape.stripe_length()];
    let mut bench = vec![0; shape.bench_length()];
    let mut places = [0; PLACES];
    places[..shape.k + 2].fill(1); // every column is present
    stripe[..shape.k * column_length].copy_from_slice(&C1[..6]);
    encode(shape, &mut stripe)?;
    assert_eq!(stripe, C1);

    // columns 0 and 2 are lost: what stands in their places is not read
    for column in [0, 2] {
        places[column] = 0;
        stripe[column * column_length..][..column_length].fill(0xee);
    }
    let [count, first, second] = restore(shape, &places, &stripe, &mut bench)?;
    assert_eq!([count, first, second], [2, 0, 2]);
    println!("restored {count}: columns {first} and {second}");
    for (column, right) in C1.chunks(column_length).enumerate() {
        let (from_bench, part) = show(shape, &places, &stripe, &bench, column)?;
        assert_eq!((from_bench, part), (column == 0 || column == 2, right));
        let bytes: String = part.iter().map(|byte| format!(" {byte:02x}")).collect();
        println!("{column} {}{bytes}", if from_bench { "restored" } else { "present" });
    }

    // put together: check reads every column, so what was restored is copied to its place
    for (half, column) in [first, second].into_iter().enumerate() {
        stripe[column * column_length..][..column_length].copy_from_slice(&bench[half * column_length..][..column_length]);
    }
    assert_eq!(check(shape, &stripe)?, Found::Intact);
    println!("intact");

    // a stripe of zeros, which perhaps no job ever wrote, is restored too, to zeros; check tells it from a good one
    let zeros = vec![0; stripe.len()];
    assert_eq!(restore(shape, &places, &zeros, &mut bench)?, [2, 0, 2]);
    assert_eq!(bench, vec![0; bench.len()]);
    assert_eq!(check(shape, &zeros)?, Found::Blank);
    println!("blank");

    // a third is lost: nobody gets a byte
    places[1] = 0;
    let refused = restore(shape, &places, &stripe, &mut bench).expect_err("three absent columns were not refused");
    assert_eq!(refused.number, 4);
    println!("{}: refused, {}", refused.call, refused.number);
    Ok(())
}
