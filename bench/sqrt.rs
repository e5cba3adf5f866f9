//! A million square roots: the proved one through the static library, Rust's own,
//! and portable ones in Rust. Every result is compared first.
//! With the words `compare SEED COUNT`: so many numbers of all sorts, compared with Rust's own and not timed.

mod portable;
mod timing;

use std::hint::black_box;

extern "C" {
    fn bench_square_root(x: f64) -> f64;
}

const CALLS: usize = 1_000_000;

/// Calls a turn, and how often all of them are gone through.
const PART: usize = 5_000;
const TIMES: usize = 5;

const NAMES: [&str; 4] = [
    "portable Rust, by division",
    "portable Rust, digit by digit",
    "Rust's f64::sqrt, called",
    "crates/sqrt, static library",
];

/// Numbers that look random and are the same in every run (xorshift64*).
struct Random(u64);

impl Random {
    fn bits(&mut self) -> u64 {
        self.0 ^= self.0 >> 12;
        self.0 ^= self.0 << 25;
        self.0 ^= self.0 >> 27;
        self.0.wrapping_mul(0x2545_F491_4F6C_DD1D)
    }
}

#[inline(never)]
fn instruction(x: f64) -> f64 {
    x.sqrt()
}

fn proved(x: f64) -> f64 {
    unsafe { bench_square_root(x) }
}

/// One loop a way, so that each call is to a known function, as a user's is.
macro_rules! sum {
    ($numbers:expr, $root:path) => {{
        let mut sum = 0u64;
        for &x in black_box($numbers) {
            sum = sum.wrapping_add($root(x).to_bits());
        }
        black_box(sum);
    }};
}

fn measure(title: &str, numbers: &[f64]) {
    for &x in numbers {
        let right = x.sqrt().to_bits();
        for root in [portable::by_division(x), portable::by_digit(x), proved(x)] {
            assert_eq!(root.to_bits(), right, "root of {:016X}", x.to_bits());
        }
    }
    let parts: Vec<&[f64]> = numbers.chunks(PART).collect();
    let times = timing::medians(NAMES.len(), TIMES * parts.len(), PART, |way, turn| {
        let part = parts[turn % parts.len()];
        match way {
            0 => sum!(part, portable::by_division),
            1 => sum!(part, portable::by_digit),
            2 => sum!(part, instruction),
            _ => sum!(part, proved),
        }
    });
    timing::print(title, &NAMES, &times, 0);
}

/// The same bits, or both a NaN of any sign and payload.
fn same(x: f64, y: f64) -> bool {
    x.to_bits() == y.to_bits() || (x.is_nan() && y.is_nan())
}

/// Any pattern at all, a number below the smallest normal one, or a square's neighbour or itself, times a power of
/// four: roots that are nearly halfway between two f64s lie there.
fn some(random: &mut Random, turn: u64) -> f64 {
    let any = random.bits();
    match turn % 3 {
        0 => f64::from_bits(any),
        1 => f64::from_bits(any >> 12),
        _ => {
            let root = (any >> 37) as f64;
            let near = f64::from_bits((root * root).to_bits().wrapping_add(any % 3).wrapping_sub(1));
            near * f64::powi(4.0, (any >> 5) as i32 % 400 - 200)
        }
    }
}

fn compare(seed: u64, count: u64) {
    let mut random = Random(seed);
    for turn in 0..count {
        let x = some(&mut random, turn);
        assert!(same(proved(x), x.sqrt()), "root of {:016X}", x.to_bits());
    }
    println!("{count} square roots, seed {seed}: no difference from Rust's");
}

fn main() {
    let words: Vec<String> = std::env::args().collect();
    if let [_, word, seed, count] = &words[..] {
        if word == "compare" {
            let number = |word: &String| word.parse().expect("a number");
            return compare(number(seed), number(count));
        }
    }
    let mut random = Random(1);
    let mut numbers = |low: u64, high: u64| -> Vec<f64> {
        (0..CALLS).map(|_| f64::from_bits(low + random.bits() % (high - low))).collect()
    };
    let sizes = numbers(0.001f64.to_bits(), 1000f64.to_bits());
    measure("a million numbers from 0.001 to 1000: time a call, and beside the first", &sizes);
    let any = numbers(1, f64::INFINITY.to_bits());
    measure("a million numbers of any size above zero", &any);
}
