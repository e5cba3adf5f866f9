//! Writes a list of inputs and the list of what they must give, to be stored as a
//! test program's standard input and output.
//!
//!   lists KIND SEED COUNT INPUT OUTPUT
//!
//! KIND is one of sqrt, cmath, roots, integrate, halving, profile, kind00, shapes, causes, rest,
//! broken. `cmath` takes its cases from CPython's published test vectors and ignores SEED
//! and COUNT.

mod cmath;
mod halving;
mod integrate;
mod lines;
mod profile;
mod roots;
mod sqrt;

use cases::random::Random;
use std::{env, fs, process};

/// The two lists as they grow.
#[derive(Default)]
pub struct Lists {
    input: Vec<u8>,
    output: Vec<u8>,
    count: usize,
}

impl Lists {
    pub fn push(&mut self, input: &str, output: &str) {
        self.push_bytes(input.as_bytes(), output.as_bytes());
    }

    pub fn push_bytes(&mut self, input: &[u8], output: &[u8]) {
        self.input.extend_from_slice(input);
        self.input.push(b'\n');
        self.output.extend_from_slice(output);
        self.output.push(b'\n');
        self.count += 1;
    }
}

/// Digits as in a line, every NaN the same. The bits are tested and not the number:
/// behind a `sqrt`, rustc 1.95 (LLVM 22.1.2) takes a choice by `is_nan` for the number
/// itself and leaves the NaN's own bits.
pub fn written(number: f64) -> String {
    let bits = number.to_bits();
    let is_nan = bits & 0x7FFF_FFFF_FFFF_FFFF > f64::INFINITY.to_bits();
    format!("{:016X}", if is_nan { 0x7FF8_0000_0000_0000 } else { bits })
}

/// Digits of the very bits.
pub fn bits(number: f64) -> String {
    format!("{:016X}", number.to_bits())
}

fn main() {
    let words: Vec<String> = env::args().skip(1).collect();
    let [kind, seed, count, input, output] = words.as_slice() else {
        eprintln!("use: lists KIND SEED COUNT INPUT OUTPUT");
        process::exit(2);
    };
    let mut random = Random::new(seed.parse().expect("SEED is a decimal number"));
    let count: usize = count.parse().expect("COUNT is a decimal number");
    let mut lists = Lists::default();
    match kind.as_str() {
        "sqrt" => sqrt::fill(&mut lists, &mut random, count),
        "cmath" => cmath::fill(&mut lists),
        "roots" => roots::fill(&mut lists, &mut random, count),
        "integrate" => integrate::fill(&mut lists, &mut random, count),
        "halving" => halving::fill(&mut lists, &mut random, count),
        "profile" => profile::fill(&mut lists, &mut random, count),
        "kind00" => lines::fill(&mut lists, &mut random, count, lines::check),
        "shapes" => lines::fill(&mut lists, &mut random, count, lines::shape),
        "causes" => lines::fill(&mut lists, &mut random, count, lines::causes),
        "rest" => lines::fill(&mut lists, &mut random, count, lines::rest_to_rest),
        "broken" => lines::fill(&mut lists, &mut random, count, lines::broken),
        _ => {
            eprintln!("lists: no list is called {kind}");
            process::exit(2);
        }
    }
    fs::write(input, &lists.input).expect("the input list is written");
    fs::write(output, &lists.output).expect("the output list is written");
    eprintln!("{kind}: {} entries", lists.count);
}
