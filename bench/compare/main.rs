//! Compares the port with the Rust, both in this process: the line entry of the
//! static library `lines`, and the oracle's.
//!
//!   compare lines SEED MILLIONS [KINDS]   the generator's lines to both; counts differences
//!   compare speed SEED [KINDS]            time of accepted lines a kind, and the ratios
//!
//! KINDS is a list of kinds such as 00,01,15; all of them if not given.

mod differences;
mod port;
mod rust;
mod speed;

use cases::kinds::{Kind, KINDS};
use std::{env, process};

fn main() {
    let words: Vec<String> = env::args().skip(1).collect();
    let words: Vec<&str> = words.iter().map(String::as_str).collect();
    let differences = match words.as_slice() {
        ["lines", seed, millions, ref list @ ..] if list.len() < 2 => {
            differences::count(number(seed), number(millions), &kinds(list))
        }
        ["speed", seed, ref list @ ..] if list.len() < 2 => {
            speed::print(number(seed), &kinds(list))
        }
        _ => {
            eprintln!("use: compare lines SEED MILLIONS [KINDS] | compare speed SEED [KINDS]");
            process::exit(2);
        }
    };
    process::exit(if differences == 0 { 0 } else { 1 });
}

fn number(word: &str) -> u64 {
    word.parse().expect("SEED and MILLIONS are decimal numbers")
}

fn kinds(list: &[&str]) -> Vec<&'static Kind> {
    let Some(list) = list.first() else {
        return KINDS.iter().collect();
    };
    let kind = |word| {
        let number = u8::from_str_radix(word, 16).expect("a kind is two hexadecimal digits");
        Kind::numbered(number).expect("the number of a kind")
    };
    list.split(',').map(kind).collect()
}
