//! Published square-root vectors: the real ones in CPython's cmath_testcases.txt, as lines of
//! the list of square roots. Debian has the file in libpython3.11-testsuite.

use crate::sqrt::push_root;
use crate::Lists;
use std::fs;

const FILE: &str = "/usr/lib/python3.11/test/cmath_testcases.txt";

/// Their decimals are read by Rust's parser, which rounds correctly. Only real
/// arguments that are not below zero count: elsewhere the complex root is another
/// thing.
pub fn fill(lists: &mut Lists) {
    let text = fs::read_to_string(FILE).unwrap_or_else(|error| {
        eprintln!("lists: {FILE}: {error}; apt-get install libpython3.11-testsuite");
        std::process::exit(1);
    });
    for line in text.lines() {
        let words: Vec<&str> = line.split_whitespace().collect();
        let [_, "sqrt", real, imaginary, "->", root, rest, ..] = words.as_slice() else {
            continue;
        };
        let [real, imaginary, root, rest] = [real, imaginary, root, rest]
            .map(|word| word.parse::<f64>().expect("a number of the file"));
        if imaginary.to_bits() != 0 || real.is_sign_negative() || rest != 0.0 {
            continue;
        }
        assert!(
            real.sqrt().to_bits() == root.to_bits() || root.is_nan() && real.is_nan(),
            "the file's root of {real} is not the nearest f64"
        );
        push_root(lists, real, root);
    }
}
