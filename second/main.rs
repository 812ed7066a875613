//! A second program for EVENODD-coded stripes, for comparing with another build.

mod code;
mod generate;
mod image;
mod lies;
mod numbers;
mod requests;
mod selftest;
mod tally;
mod two_wrong;

use requests::Request;
use std::fs::OpenOptions;
use std::io::{self, BufRead, BufWriter, Read, Write};
use std::process::ExitCode;

const USAGE: &str = "usage: model shelf < image
       model numbers
       model asked
       model expected
       model printed DIR
       model lies
       model two-wrong
       model selftest
       model answer < requests
       model tally < requests
       model generate SEED COUNT
       model every SEED
       model images SEED COUNT DIR";

fn answer(out: &mut impl Write) -> io::Result<bool> {
    let mut good = true;
    for line in io::stdin().lock().lines() {
        match Request::parse(&line?) {
            Some(request) => writeln!(out, "{}", request.answer())?,
            None => {
                good = false;
                writeln!(out, "malformed")?;
            }
        }
    }
    Ok(good)
}

fn run(arguments: &[&str], out: &mut impl Write) -> io::Result<bool> {
    match arguments {
        ["shelf"] => {
            let mut image = Vec::new();
            io::stdin().lock().read_to_end(&mut image)?;
            out.write_all(image::shelf(&image).as_bytes())?;
            Ok(true)
        }
        ["numbers"] => {
            for number in numbers::all() {
                writeln!(out, "{} {} {}", number.name, number.word, number.computed)?;
            }
            Ok(true)
        }
        ["asked"] => {
            for number in numbers::all() {
                if let Some(request) = number.request {
                    writeln!(out, "{request}")?;
                }
            }
            Ok(true)
        }
        ["expected"] => {
            for number in numbers::all() {
                if number.request.is_some() {
                    writeln!(out, "{}", number.expected)?;
                }
            }
            Ok(true)
        }
        ["printed", folder] => {
            std::fs::create_dir(folder)?;
            for number in numbers::all() {
                if let Some(image) = number.image {
                    // Fails where two numbers have one name.
                    let path = format!("{folder}/{}.img", number.name);
                    OpenOptions::new().write(true).create_new(true).open(path)?.write_all(&image)?;
                    std::fs::write(format!("{folder}/{}.told", number.name), number.expected.replace('|', "\n"))?;
                }
            }
            Ok(true)
        }
        ["lies"] => {
            for line in lies::lines() {
                writeln!(out, "{line}")?;
            }
            Ok(true)
        }
        ["two-wrong"] => two_wrong::run(out),
        ["selftest"] => selftest::run(out),
        ["answer"] => answer(out),
        ["tally"] => tally::run(io::stdin().lock(), out),
        ["generate", seed, count] => {
            let (seed, count) = match (seed.parse(), count.parse()) {
                (Ok(seed), Ok(count)) => (seed, count),
                _ => return usage(),
            };
            for case in generate::Maker::new(seed).cases(count) {
                writeln!(out, "{}", case.request)?;
            }
            Ok(true)
        }
        ["every", seed] => {
            let seed = match seed.parse() {
                Ok(seed) => seed,
                Err(_) => return usage(),
            };
            for request in generate::Maker::new(seed).every_pattern() {
                writeln!(out, "{request}")?;
            }
            Ok(true)
        }
        ["images", seed, count, folder] => {
            let (seed, count) = match (seed.parse(), count.parse()) {
                (Ok(seed), Ok(count)) => (seed, count),
                _ => return usage(),
            };
            std::fs::create_dir_all(folder)?;
            for (n, (image, _)) in generate::Maker::new(seed).shelf_images(count).enumerate() {
                std::fs::write(format!("{folder}/{n:05}.img"), image)?;
            }
            Ok(true)
        }
        _ => usage(),
    }
}

fn usage() -> io::Result<bool> {
    eprintln!("{USAGE}");
    Ok(false)
}

fn main() -> ExitCode {
    let arguments: Vec<String> = std::env::args().skip(1).collect();
    let arguments: Vec<&str> = arguments.iter().map(String::as_str).collect();
    let mut out = BufWriter::new(io::stdout().lock());
    match run(&arguments, &mut out).and_then(|good| out.flush().map(|()| good)) {
        Ok(true) => ExitCode::SUCCESS,
        Ok(false) => ExitCode::FAILURE,
        Err(error) => {
            eprintln!("{error}");
            ExitCode::FAILURE
        }
    }
}
