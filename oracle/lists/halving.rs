//! `integrate` where halving is not exact or numbers are huge, lines as in integrate.rs.
//!
//! rustc too makes a product with one half of a division by 2. So each answer of the
//! Rust is held against the same operations with divisors that the compiler does not
//! know, which the machine divides by.

use crate::{integrate, Lists};
use cases::numbers::anything;
use cases::random::Random;
use std::hint::black_box;

type Numbers = [f64; 5];

/// What the lines came to, and how many of them would show a wrong operation.
const COUNTED: [&str; 8] = [
    "a0 / 2 is not exact",
    "t j / 2 is not exact",
    "a0 or t j is 2^1022 or more",
    "t j is infinite",
    "an answer is NaN",
    "a sixth as a product differs",
    "t (j / 2) differs",
    "the half of another sign differs",
];

pub fn fill(lists: &mut Lists, random: &mut Random, count: usize) {
    let mut counts = [0; COUNTED.len()];
    while lists.count < count {
        let numbers = match lists.count % 4 {
            0 => small_acceleration(random),
            1 => small_jerk(random),
            2 => huge(random),
            _ => std::array::from_fn(|_| anything(random)),
        };
        let state = integrate::push(lists, numbers);
        assert!(same(state, with(numbers, |x| x / black_box(2.0), |x| x / black_box(6.0))));
        for (total, came) in counts.iter_mut().zip(seen(numbers, state)) {
            *total += came as usize;
        }
    }
    for (name, total) in COUNTED.iter().zip(counts) {
        eprintln!("{total:>9} {name}");
        assert!(total > 0 || count < 1000, "no line of {count} where {name}");
    }
}

fn seen(numbers: Numbers, state: [f64; 3]) -> [bool; COUNTED.len()] {
    let [t, _, v0, a0, j] = numbers;
    let [p, _, a] = state;
    let huge = 2f64.powi(1022);
    [
        inexact(a0),
        inexact(t * j),
        [a0, t * j].iter().any(|x| x.is_finite() && x.abs() >= huge),
        (t * j).is_infinite(),
        state.iter().any(|x| x.is_nan()),
        !same(state, with(numbers, |x| x / 2.0, |x| x * (1.0 / 6.0))),
        !same(state, [p, v0 + t * (a0 + t * (j / 2.0)), a]),
        !same(state, with(numbers, |x| x * -0.5, |x| x / 6.0)),
    ]
}

/// The Rust's `integrate` with other operations for its division by 2 and by 6.
fn with(
    [t, p0, v0, a0, j]: Numbers,
    half: impl Fn(f64) -> f64,
    sixth: impl Fn(f64) -> f64,
) -> [f64; 3] {
    [p0 + t * (v0 + t * (half(a0) + sixth(t * j))), v0 + t * (a0 + half(t * j)), a0 + t * j]
}

fn inexact(x: f64) -> bool {
    x.is_finite() && x / 2.0 * 2.0 != x
}

fn same(ours: [f64; 3], theirs: [f64; 3]) -> bool {
    let mut pairs = ours.iter().zip(&theirs);
    pairs.all(|(x, y)| x.to_bits() == y.to_bits() || x.is_nan() && y.is_nan())
}

/// Below the smallest normal number, of 1 to 52 binary digits, or zero.
fn subnormal(random: &mut Random) -> f64 {
    let digits = 12 + random.below(53) as u32;
    f64::from_bits(random.bits().checked_shr(digits).unwrap_or(0)) * random.sign()
}

/// 1 to 2 times a power of two.
fn sized(random: &mut Random, powers: std::ops::Range<i32>) -> f64 {
    let steps = random.below((powers.end - powers.start) as u64) as i32;
    random.between(1.0, 2.0) * 2f64.powi(powers.start + steps)
}

/// Nothing is added that would hide the half of the acceleration.
fn small_acceleration(random: &mut Random) -> Numbers {
    let t = sized(random, -2..530);
    let j = if random.once_in(2) { 0.0 } else { subnormal(random) };
    [t, 0.0, 0.0, subnormal(random), j]
}

/// Nor that of the product.
fn small_jerk(random: &mut Random) -> Numbers {
    let t = sized(random, -1..12);
    let a0 = if random.once_in(2) { 0.0 } else { subnormal(random) };
    [t, 0.0, 0.0, a0, subnormal(random)]
}

fn huge(random: &mut Random) -> Numbers {
    let t = sized(random, -60..2);
    let [p0, v0, a0, j] = std::array::from_fn(|_| sized(random, 1018..1023) * random.sign());
    [t, p0, v0, a0, j]
}
