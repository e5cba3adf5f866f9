//! Time of accepted lines, kind by kind. Both sides are timed by turns on the same
//! lines, so that other work on the computer falls on both; the fastest turn counts.

use crate::{port, rust};
use cases::any_line;
use cases::kinds::Kind;
use cases::line::Line;
use cases::random::Random;
use std::time::Instant;

const LINES: usize = 10_000;
const TURNS: usize = 31;

pub fn print(seed: u64, kinds: &[&Kind]) -> u64 {
    println!(
        "seed {seed}, {LINES} accepted lines a kind, nanoseconds a line, fastest of {TURNS} turns"
    );
    println!("kind   Rust   port  ratio");
    let mut differences = 0;
    for kind in kinds {
        let number = kind.number;
        let mut random = Random::new(seed);
        let mut lines = vec![Line::default(); LINES];
        for line in &mut lines {
            any_line::accepted(&mut random, kind, line);
        }
        let mut best = [f64::INFINITY; 2];
        let mut sums = [0; 2];
        for _ in 0..TURNS {
            for (side, entry) in [rust::answer, port::answer].into_iter().enumerate() {
                let start = Instant::now();
                sums[side] = turn(&lines, entry);
                best[side] = best[side].min(start.elapsed().as_nanos() as f64 / LINES as f64);
            }
        }
        println!("  {number:02X} {:6.0} {:6.0} {:6.2}", best[0], best[1], best[1] / best[0]);
        if sums[0] != sums[1] {
            println!("  {number:02X}: the answers differ");
            differences += 1;
        }
    }
    differences
}

/// A number that depends on every answer.
fn turn(lines: &[Line], entry: fn(&[u8], &mut [u8]) -> (u32, usize)) -> u64 {
    let mut reply = [0; port::LONGEST_REPLY];
    let mut sum = 0u64;
    for (index, line) in lines.iter().enumerate() {
        let (number, filled) = entry(&line.characters, &mut reply);
        let place = reply[index % reply.len()] as u64;
        sum = sum.wrapping_mul(31).wrapping_add(number as u64 + filled as u64 + place);
    }
    sum
}
