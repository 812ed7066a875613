//! Shelf images: the contents, reading into a stripe, writing from one, walking, and the text of the program `shelf`.

use crate::code::*;
use crate::requests::hex;

pub const INPUT_LIMIT: usize = 16_384;

/// What the contents of an image say. `fault` is a word for the first departure met, or "none".
pub struct Contents { pub number: u8, pub shape: Shape, pub map: Map, pub fault: &'static str }

fn little_endian(bytes: &[u8]) -> usize { bytes.iter().rev().fold(0, |value, &byte| value * 256 + byte as usize) }

/// The four numbers at the start of an image, if it is long enough to have them.
pub fn header(image: &[u8]) -> Option<[usize; 4]> {
    (image.len() >= 8).then(|| [0, 2, 4, 6].map(|at| little_endian(&image[at..at + 2])))
}

fn judge(image: &[u8]) -> Result<(Shape, Map), (u8, &'static str)> {
    let [m, k, b, fourth] = header(image).ok_or((BAD_IMAGE, "short"))?;
    if fourth != 0 { return Err((BAD_IMAGE, "fourth")); }
    let shape = Shape { m, k, b };
    match shape.judge() {
        WRONG_M => return Err((WRONG_M, "m")),
        WRONG_K => return Err((WRONG_K, "k")),
        WRONG_B => return Err((WRONG_B, "b")),
        _ => {}
    }
    let mut body = 8 + 8 * shape.columns();
    if image.len() < body { return Err((BAD_IMAGE, "contents-cut")); }
    let mut places = [false; PLACES];
    for (column, entry) in image[8..body].chunks(8).enumerate() {
        if little_endian(&entry[0..2]) != column { return Err((BAD_IMAGE, "column")); }
        if entry[2] > 1 { return Err((BAD_IMAGE, "state")); }
        if entry[3] != 0 { return Err((BAD_IMAGE, "pad")); }
        places[column] = entry[2] == 1;
        let expected = if places[column] { body } else { 0 };
        if little_endian(&entry[4..8]) != expected { return Err((BAD_IMAGE, "offset")); }
        if places[column] { body += shape.column_length(); }
    }
    match image.len() {
        length if length < body => Err((BAD_IMAGE, "body-cut")),
        length if length > body => Err((BAD_IMAGE, "trailing")),
        _ => Ok((shape, Map::counted(places))),
    }
}

fn refused(number: u8, fault: &'static str) -> Contents {
    Contents { number, shape: Shape { m: 0, k: 0, b: 0 }, map: Map::new(), fault }
}

pub fn contents(image: &[u8]) -> Contents {
    match judge(image) {
        Ok((shape, map)) => Contents { number: FINE, shape, map, fault: "none" },
        Err((number, fault)) => refused(number, fault),
    }
}

pub fn read(image: &[u8], stripe: &mut [u8]) -> Contents {
    let found = contents(image);
    let shape = found.shape;
    if found.number != FINE { return found; }
    if stripe.len() != shape.stripe_length() { return refused(BAD_STRIPE, "none"); }
    let mut bodies = image[8 + 8 * shape.columns()..].chunks(shape.column_length());
    for column in (0..shape.columns()).filter(|&c| found.map.is_present(c)) {
        stripe[shape.column(column)].copy_from_slice(bodies.next().expect("the image was judged"));
    }
    found
}

/// The image of a stripe that was judged: the header, entry after entry, and then body after body. Where a body will lie is
/// what the bodies before it have come to.
pub fn image_of(shape: Shape, map: &Map, stripe: &[u8]) -> Vec<u8> {
    let mut image = Vec::new();
    for number in [shape.m, shape.k, shape.b, 0] { image.extend((number as u16).to_le_bytes()); }
    let mut bodies = 0;
    for column in 0..shape.columns() {
        let body = &stripe[shape.column(column)];
        image.extend((column as u16).to_le_bytes());
        if map.is_present(column) {
            image.extend([1, 0]);
            image.extend(((8 + 8 * shape.columns() + bodies) as u32).to_le_bytes());
            bodies += body.len();
        } else {
            image.extend([0; 6]);
        }
    }
    image.reserve_exact(bodies);
    for column in (0..shape.columns()).filter(|&column| map.is_present(column)) {
        image.extend_from_slice(&stripe[shape.column(column)]);
    }
    image
}

pub struct Written { pub number: u8, pub length: usize }

/// All of the image is there before any of it is put into the lent buffer.
pub fn write(shape: Shape, map: &Map, stripe: &[u8], lent: &mut [u8]) -> Written {
    let number = judge_to_write(shape, map, stripe);
    if number != FINE { return Written { number, length: 0 }; }
    let image = image_of(shape, map, stripe);
    if lent.len() < image.len() { return Written { number: BUFFER_TOO_SHORT, length: 0 }; }
    lent[..image.len()].copy_from_slice(&image);
    Written { number, length: image.len() }
}

pub struct Walked { pub number: u8, pub place: usize, pub column: usize, pub start: usize, pub length: usize }

/// One step from this place. Of an image that was judged, the entries say which columns have a body and where it starts.
pub fn walk(image: &[u8], place: usize) -> Walked {
    let nothing = |number, place| Walked { number, place, column: NO_COLUMN, start: 0, length: 0 };
    let found = contents(image);
    if found.number != FINE { return nothing(found.number, place); }
    let (shape, end) = (found.shape, found.shape.columns());
    if place > end { return nothing(BAD_IMAGE, place); }
    for entry in image[8..8 + 8 * end].chunks(8).skip(place) {
        if entry[2] == 1 {
            let (column, start) = (little_endian(&entry[0..2]), little_endian(&entry[4..8]));
            return Walked { number: FINE, place: column + 1, column, start, length: shape.column_length() };
        }
    }
    nothing(FINE, end)
}

pub fn shelf(image: &[u8]) -> String {
    if image.len() > INPUT_LIMIT {
        return format!("answer {INPUT_TOO_LONG}\n");
    }
    let (shape, map) = match judge(image) {
        Ok(found) => found,
        Err((number, _)) => return format!("answer {number}\n"),
    };
    let mut text = format!("shape {} {} {}\n", shape.m, shape.k, shape.b);
    if map.absent(shape).len() > 2 {
        return text + &format!("answer {TOO_MANY_ABSENT}\n");
    }
    let mut stripe = vec![0; shape.stripe_length()];
    let mut bench = vec![0; shape.bench_length()];
    read(image, &mut stripe);
    let answer = restore(shape, &map, &stripe, &mut bench).number;
    if answer != FINE {
        return text + &format!("answer {answer}\n");
    }
    // The stripe after restoring: its columns that are present, and those that were restored.
    let mut whole = Vec::new();
    for column in 0..shape.columns() {
        let part = show(shape, &map, &stripe, &bench, column);
        let (word, lent) = if part.from_bench { ("restored", &bench) } else { ("present", &stripe) };
        let bytes = &lent[part.start..part.start + part.length];
        text += &format!("{column} {word} {}\n", hex(bytes));
        whole.extend_from_slice(bytes);
    }
    text + if is_blank(&whole) { "answer 0 blank\n" } else { "answer 0\n" }
}
