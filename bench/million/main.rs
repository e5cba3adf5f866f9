//! A million checks: kind 00 lines on standard input go through the static library and through
//! the Rust's `check`, both in this process. Every reply is compared first; then each side
//! answers all lines, by turns.
//!
//! It ends with status 1 if a line is not accepted, if a reply differs, if less than a quarter
//! of the lines have a yes, or if the port takes more than twice the Rust's time.

mod digits;
#[path = "../compare/port.rs"]
mod port;
mod reader;
mod replies;
#[path = "../compare/rust.rs"]
mod tables;
#[allow(dead_code)]
#[path = "../timing.rs"]
mod timing;

use port::LONGEST_REPLY;
use reader::Reader;
use std::hint::black_box;
use std::io::{stdin, Read};
use std::process;

const TURNS: usize = 21;

/// The port's time over the Rust's that the paper allows.
const BOUND: f64 = 2.0;

const NAMES: [&str; 3] = ["port", "Rust", "Rust, its digits by tables"];

fn main() {
    let mut text = Vec::new();
    stdin().read_to_end(&mut text).expect("standard input");
    let lines: Vec<&[u8]> = text.split(|character| *character == b'\n').collect();
    let lines = lines.strip_suffix(&[&[][..]]).expect("every line ends with a line feed");

    let yeses = replies::compare(lines).unwrap_or_else(|difference| {
        println!("{difference}");
        process::exit(1);
    });
    println!("{} lines, {} different ones, {yeses} with a yes", lines.len(), different(lines));
    println!("the replies of the port and of the Rust, by either reader, are equal");
    if 4 * yeses < lines.len() {
        println!("less than a quarter of the lines have a yes");
        process::exit(1);
    }
    let ratio = measure(lines);
    process::exit(if ratio > BOUND { 1 } else { 0 });
}

fn different(lines: &[&[u8]]) -> usize {
    let mut lines = lines.to_vec();
    lines.sort_unstable();
    lines.dedup();
    lines.len()
}

/// The port's time over the Rust's.
fn measure(lines: &[&[u8]]) -> f64 {
    let mut reader = Reader::default();
    let times = timing::turns(NAMES.len(), TURNS, 1, |way, _| match way {
        0 => answer_all(lines, port::answer),
        1 => answer_all(lines, |request, reply| reader.answer(request, reply)),
        _ => answer_all(lines, tables::answer),
    });
    let milliseconds = |nanoseconds| nanoseconds / 1e6;
    println!("milliseconds for all lines, {TURNS} turns each: median, least");
    for (name, times) in NAMES.iter().zip(&times) {
        let [median, least] = [timing::median(times), times[0]].map(milliseconds);
        println!("  {name:<28}{median:7.1}{least:7.1}");
    }
    let [port, rust, tables] = [0, 1, 2].map(|way| milliseconds(timing::median(&times[way])));
    println!("beside the Rust with tables: ratio {:.2}", port / tables);
    println!("port {port:.0} ms, Rust {rust:.0} ms, ratio {:.2}", port / rust);
    port / rust
}

/// Each reply goes into the same lent places, and none of it may be left out.
fn answer_all(lines: &[&[u8]], mut answer: impl FnMut(&[u8], &mut [u8]) -> (u32, usize)) {
    let mut reply = [0; LONGEST_REPLY];
    for line in lines {
        black_box(answer(line, &mut reply));
        black_box(&reply);
    }
}
