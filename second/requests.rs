//! The text protocol: one request on a line, one answer on a line.

use crate::code::*;
use crate::image;
use std::borrow::Cow;
use std::fmt;

/// A field of bytes: as they stand, so many from a seed, or the image of this shape and map with a stripe from a seed. It is
/// printed as it was told, and the bytes of the last two are made where they are needed.
pub enum Bytes { Plain(Vec<u8>), Drawn(usize, u64), Image(Shape, Map, u64) }

impl Bytes {
    pub fn get(&self) -> Cow<'_, [u8]> {
        match self {
            Bytes::Plain(bytes) => Cow::Borrowed(bytes),
            Bytes::Drawn(count, seed) => Cow::Owned(drawn(*count, *seed)),
            Bytes::Image(shape, map, seed) => {
                Cow::Owned(image::image_of(*shape, map, &drawn(shape.stripe_length(), *seed)))
            }
        }
    }
}

impl From<Vec<u8>> for Bytes {
    fn from(bytes: Vec<u8>) -> Bytes { Bytes::Plain(bytes) }
}

/// So many bytes from a seed: each is the top of the next number.
pub fn drawn(count: usize, seed: u64) -> Vec<u8> {
    let mut x = seed;
    let next = || {
        x = x.wrapping_mul(6_364_136_223_846_793_005).wrapping_add(1_442_695_040_888_963_407);
        (x >> 56) as u8
    };
    std::iter::repeat_with(next).take(count).collect()
}

/// An answer with more bytes than this gives their hash.
pub const MOST_SHOWN: usize = 4_194_304;

/// FNV-1a with 64 bits.
pub fn hash(bytes: &[u8]) -> u64 {
    bytes.iter().fold(0xcbf2_9ce4_8422_2325, |hash, &byte| (hash ^ byte as u64).wrapping_mul(0x100_0000_01b3))
}

pub enum Request {
    Encode(Shape, Vec<u8>),
    Check(Shape, Vec<u8>),
    Restore(Shape, Map, Vec<u8>, Vec<u8>),
    Locate(Shape, Vec<u8>),
    Rewrite(Shape, Vec<u8>, usize),
    /// The stripe, a column, a row, and the new cell.
    Change(Shape, Vec<u8>, usize, usize, Vec<u8>),
    /// The stripe, the columns, the rows, and the new cells end to end.
    Changes(Shape, Vec<u8>, Vec<usize>, Vec<usize>, Vec<u8>),
    Show(Shape, Map, Vec<u8>, Vec<u8>, usize),
    Mark(Map, usize, bool),
    Gaps(usize, Map),
    Read(Bytes, Bytes),
    Contents(Bytes),
    /// The stripe, and what the image is written into.
    Write(Shape, Map, Bytes, Bytes),
    /// The image and the place.
    Walk(Bytes, usize),
    Lengths(Shape),
}

use Request::*;

pub fn hex(bytes: &[u8]) -> String {
    const DIGITS: &[u8; 16] = b"0123456789abcdef";
    let mut text = String::with_capacity(2 * bytes.len());
    for byte in bytes {
        text.push(DIGITS[(byte >> 4) as usize] as char);
        text.push(DIGITS[(byte & 15) as usize] as char);
    }
    text
}

/// Hex for a field: an empty byte string is a dash.
fn field(bytes: &[u8]) -> String {
    if bytes.is_empty() { "-".to_string() } else { hex(bytes) }
}

/// The same for an answer, in which many bytes are their count and their hash.
fn told(bytes: &[u8]) -> String {
    if bytes.len() > MOST_SHOWN { format!("{}#{:016x}", bytes.len(), hash(bytes)) } else { field(bytes) }
}

/// A list for a field: numbers parted by commas, and an empty list is a dash.
fn list(numbers: &[usize]) -> String {
    if numbers.is_empty() { return "-".to_string(); }
    numbers.iter().map(usize::to_string).collect::<Vec<String>>().join(",")
}

pub fn bytes_of(text: &str) -> Option<Vec<u8>> {
    if text == "-" { return Some(Vec::new()); }
    if let Some((count, seed)) = text.split_once('*') { return Some(drawn(number_of(count)?, seed_of(seed)?)); }
    let digit = |c: u8| match c {
        b'0'..=b'9' => Some(c - b'0'),
        b'a'..=b'f' => Some(c - b'a' + 10),
        _ => None,
    };
    if text.is_empty() || text.len() % 2 == 1 { return None; }
    text.as_bytes().chunks(2).map(|pair| Some(digit(pair[0])? * 16 + digit(pair[1])?)).collect()
}

/// A field that is kept as it is told; it is no image.
fn told_bytes_of(text: &str) -> Option<Bytes> {
    match text.split_once('*') {
        Some((count, seed)) => Some(Bytes::Drawn(number_of(count)?, seed_of(seed)?)),
        None => bytes_of(text).map(Bytes::Plain),
    }
}

/// A field of an image, which may also be told by `@m,k,b,MAP,SEED`; of that shape and map there must be one.
fn image_of(text: &str) -> Option<Bytes> {
    let parts: Vec<&str> = match text.strip_prefix('@') {
        Some(rest) => rest.split(',').collect(),
        None => return told_bytes_of(text),
    };
    let [m, k, b, map, seed]: [&str; 5] = parts.try_into().ok()?;
    let (shape, map) = (Shape { m: number_of(m)?, k: number_of(k)?, b: number_of(b)? }, map_of(map)?);
    if shape.judge() != FINE || map.has_stray(shape) { return None; }
    Some(Bytes::Image(shape, map, seed_of(seed)?))
}

fn seed_of(text: &str) -> Option<u64> {
    if text.bytes().all(|c| c.is_ascii_digit()) { text.parse().ok() } else { None }
}

fn number_of(text: &str) -> Option<usize> {
    if text.bytes().all(|c| c.is_ascii_digit()) { text.parse().ok() } else { None }
}

fn numbers_of(text: &str) -> Option<Vec<usize>> {
    if text == "-" { return Some(Vec::new()); }
    text.split(',').map(number_of).collect()
}

fn state_of(text: &str) -> Option<bool> {
    match text {
        "0" => Some(false),
        "1" => Some(true),
        _ => None,
    }
}

fn map_of(text: &str) -> Option<Map> {
    if text.len() != PLACES || !text.bytes().all(|c| c == b'0' || c == b'1') { return None; }
    let mut places = [false; PLACES];
    text.bytes().enumerate().for_each(|(place, c)| places[place] = c == b'1');
    Some(Map::counted(places))
}

/// The places alone.
impl fmt::Display for Map {
    fn fmt(&self, f: &mut fmt::Formatter) -> fmt::Result {
        f.write_str(&self.places.iter().map(|&present| if present { '1' } else { '0' }).collect::<String>())
    }
}

impl fmt::Display for Shape {
    fn fmt(&self, f: &mut fmt::Formatter) -> fmt::Result {
        write!(f, "{} {} {}", self.m, self.k, self.b)
    }
}

impl fmt::Display for Bytes {
    fn fmt(&self, f: &mut fmt::Formatter) -> fmt::Result {
        match self {
            Bytes::Plain(bytes) => f.write_str(&field(bytes)),
            Bytes::Drawn(count, seed) => write!(f, "{count}*{seed}"),
            Bytes::Image(Shape { m, k, b }, map, seed) => write!(f, "@{m},{k},{b},{map},{seed}"),
        }
    }
}

impl fmt::Display for Request {
    fn fmt(&self, f: &mut fmt::Formatter) -> fmt::Result {
        let word = self.word();
        match self {
            Encode(n, s) | Check(n, s) | Locate(n, s) => write!(f, "{word} {n} {}", field(s)),
            Rewrite(n, s, column) => write!(f, "{word} {n} {} {column}", field(s)),
            Change(n, s, column, row, cell) => {
                write!(f, "{word} {n} {} {column} {row} {}", field(s), field(cell))
            }
            Changes(n, s, columns, rows, cells) => {
                write!(f, "{word} {n} {} {} {} {}", field(s), list(columns), list(rows), field(cells))
            }
            Restore(n, map, s, bench) => write!(f, "{word} {n} {map} {} {}", field(s), field(bench)),
            Show(n, map, s, bench, column) => {
                write!(f, "{word} {n} {map} {} {} {column}", field(s), field(bench))
            }
            Mark(map, place, state) => write!(f, "{word} {map} {place} {}", *state as u8),
            Gaps(k, map) => write!(f, "{word} {k} {map}"),
            Read(image, s) => write!(f, "{word} {image} {s}"),
            Contents(image) => write!(f, "{word} {image}"),
            Write(n, map, s, image) => write!(f, "{word} {n} {map} {s} {image}"),
            Walk(image, place) => write!(f, "{word} {image} {place}"),
            Lengths(n) => write!(f, "{word} {n}"),
        }
    }
}

impl Request {
    pub fn word(&self) -> &'static str {
        match self {
            Encode(..) => "encode",
            Check(..) => "check",
            Restore(..) => "restore",
            Locate(..) => "locate",
            Rewrite(..) => "rewrite",
            Change(..) => "change",
            Changes(..) => "changes",
            Show(..) => "show",
            Mark(..) => "mark",
            Gaps(..) => "gaps",
            Read(..) => "read",
            Contents(..) => "contents",
            Write(..) => "write",
            Walk(..) => "walk",
            Lengths(..) => "lengths",
        }
    }

    pub fn parse(line: &str) -> Option<Request> {
        let parts: Vec<&str> = line.split(' ').collect();
        let shape = || -> Option<Shape> {
            Some(Shape { m: number_of(parts[1])?, k: number_of(parts[2])?, b: number_of(parts[3])? })
        };
        Some(match (parts[0], parts.len()) {
            ("encode", 5) => Encode(shape()?, bytes_of(parts[4])?),
            ("check", 5) => Check(shape()?, bytes_of(parts[4])?),
            ("locate", 5) => Locate(shape()?, bytes_of(parts[4])?),
            ("rewrite", 6) => Rewrite(shape()?, bytes_of(parts[4])?, number_of(parts[5])?),
            ("change", 8) => {
                let (column, row) = (number_of(parts[5])?, number_of(parts[6])?);
                Change(shape()?, bytes_of(parts[4])?, column, row, bytes_of(parts[7])?)
            }
            ("changes", 8) => {
                let (columns, rows) = (numbers_of(parts[5])?, numbers_of(parts[6])?);
                Changes(shape()?, bytes_of(parts[4])?, columns, rows, bytes_of(parts[7])?)
            }
            ("restore", 7) => {
                Restore(shape()?, map_of(parts[4])?, bytes_of(parts[5])?, bytes_of(parts[6])?)
            }
            ("show", 8) => {
                let (map, column) = (map_of(parts[4])?, number_of(parts[7])?);
                Show(shape()?, map, bytes_of(parts[5])?, bytes_of(parts[6])?, column)
            }
            ("mark", 4) => Mark(map_of(parts[1])?, number_of(parts[2])?, state_of(parts[3])?),
            ("gaps", 3) => Gaps(number_of(parts[1])?, map_of(parts[2])?),
            ("read", 3) => Read(image_of(parts[1])?, told_bytes_of(parts[2])?),
            ("contents", 2) => Contents(image_of(parts[1])?),
            ("write", 7) => {
                Write(shape()?, map_of(parts[4])?, told_bytes_of(parts[5])?, told_bytes_of(parts[6])?)
            }
            ("walk", 3) => Walk(image_of(parts[1])?, number_of(parts[2])?),
            ("lengths", 4) => Lengths(shape()?),
            _ => return None,
        })
    }

    /// The answer line, without its end.
    pub fn answer(&self) -> String {
        match self {
            Encode(n, stripe) => {
                let mut stripe = stripe.clone();
                let done = encode(*n, &mut stripe);
                format!("{} {}", done.number, told(&stripe))
            }
            Check(n, stripe) => {
                let done = check(*n, stripe);
                format!("{} {} {} {}", done.number, done.rows, done.diagonals, done.found)
            }
            Restore(n, map, stripe, bench) => {
                let mut bench = bench.clone();
                let done = restore(*n, map, stripe, &mut bench);
                format!("{} {} {} {} {}", done.number, done.count, done.first, done.second, told(&bench))
            }
            Locate(n, stripe) => {
                let done = locate(*n, stripe);
                format!("{} {} {}", done.number, done.found, done.column)
            }
            Rewrite(n, stripe, column) => {
                let mut stripe = stripe.clone();
                let done = rewrite(*n, &mut stripe, *column);
                format!("{} {}", done.number, told(&stripe))
            }
            Change(n, stripe, column, row, cell) => {
                let mut stripe = stripe.clone();
                let done = change(*n, &mut stripe, *column, *row, cell);
                format!("{} {}", done.number, told(&stripe))
            }
            Changes(n, stripe, columns, rows, cells) => {
                let mut stripe = stripe.clone();
                let done = changes(*n, &mut stripe, columns, rows, cells);
                format!("{} {} {}", done.number, done.item, told(&stripe))
            }
            Show(n, map, stripe, bench, column) => {
                let done = show(*n, map, stripe, bench, *column);
                format!("{} {} {} {}", done.number, done.from_bench as u8, done.start, done.length)
            }
            Mark(map, place, state) => {
                let done = mark(*map, *place, *state);
                format!("{} {}", done.number, done.map)
            }
            Gaps(k, map) => {
                let (map, gaps) = (Map::counted(map.places), map.gaps(k.saturating_add(2)));
                format!("{FINE} {} {} {} {} {}", map.present, map.highest, gaps.absent, gaps.first, gaps.second)
            }
            Read(image, stripe) => {
                let mut stripe = stripe.get().into_owned();
                let done = image::read(&image.get(), &mut stripe);
                format!("{} {} {} {}", done.number, done.shape, done.map, told(&stripe))
            }
            Contents(image) => {
                let done = image::contents(&image.get());
                format!("{} {} {}", done.number, done.shape, done.map)
            }
            Write(n, map, stripe, image) => {
                let mut image = image.get().into_owned();
                let done = image::write(*n, map, &stripe.get(), &mut image);
                format!("{} {} {}", done.number, done.length, told(&image))
            }
            Walk(image, place) => {
                let done = image::walk(&image.get(), *place);
                format!("{} {} {} {} {}", done.number, done.place, done.column, done.start, done.length)
            }
            Lengths(n) => {
                let (stripe, bench) = lengths(*n);
                format!("{stripe} {bench}")
            }
        }
    }
}
