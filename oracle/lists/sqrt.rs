//! Square roots: a number a line in, its root and the mark a line out. The mark is 01 where
//! the number is below zero or NaN, and 00 where it has a root, as -0 has.

use crate::{bits, written, Lists};
use cases::numbers::{any_finite, step};
use cases::random::Random;

const SPECIALS: [u64; 22] = [
    0x0000_0000_0000_0000,
    0x8000_0000_0000_0000,
    0x7FF0_0000_0000_0000,
    0xFFF0_0000_0000_0000,
    0x7FF8_0000_0000_0000,
    0xFFF8_0000_0000_0000,
    0x7FF0_0000_0000_0001,
    0xFFF0_0000_0000_0001,
    0x7FFF_FFFF_FFFF_FFFF,
    0xFFFF_FFFF_FFFF_FFFF,
    0x0000_0000_0000_0001,
    0x8000_0000_0000_0001,
    0x000F_FFFF_FFFF_FFFF,
    0x800F_FFFF_FFFF_FFFF,
    0x0010_0000_0000_0000,
    0x8010_0000_0000_0000,
    0x7FEF_FFFF_FFFF_FFFF,
    0xFFEF_FFFF_FFFF_FFFF,
    0x3FF0_0000_0000_0000,
    0xBFF0_0000_0000_0000,
    0x4000_0000_0000_0000,
    0x4008_0000_0000_0000,
];

pub fn fill(lists: &mut Lists, random: &mut Random, count: usize) {
    let mut push = |number: f64| push_root(lists, number, number.sqrt());
    for special in SPECIALS {
        push(f64::from_bits(special));
    }
    every_exponent(random, &mut push);
    every_leading_zero_count(random, &mut push);
    squares(random, &mut push);
    near_ties(&mut push);
    while lists.count < count {
        let number = any_finite(random);
        // Few below zero: they all give NaN.
        let number = if random.once_in(20) { number } else { number.abs() };
        push_root(lists, number, number.sqrt());
    }
}

pub fn push_root(lists: &mut Lists, number: f64, root: f64) {
    let marked = number < 0.0 || number.is_nan();
    lists.push(&bits(number), &format!("{}{:02X}", written(root), marked as u8));
}

/// Powers of two, their neighbours and a random number of the same exponent, in
/// turn.
fn every_exponent(random: &mut Random, push: &mut impl FnMut(f64)) {
    const SIGNIFICAND: u64 = (1 << 52) - 1;
    for exponent in 1..2047 {
        let low = match exponent / 2 % 4 {
            0 => 0,
            1 => 1,
            2 => SIGNIFICAND,
            _ => random.bits() & SIGNIFICAND,
        };
        push(f64::from_bits(exponent << 52 | low));
    }
}

fn every_leading_zero_count(random: &mut Random, push: &mut impl FnMut(f64)) {
    for highest in 0..52 {
        let low = (1u64 << highest) - 1;
        for rest in [0, low, random.bits() & low] {
            push(f64::from_bits(1 << highest | rest));
        }
    }
}

/// Squares that are exact, each with both neighbours.
fn squares(random: &mut Random, push: &mut impl FnMut(f64)) {
    for index in 0..250 {
        let root = match index {
            0..=49 => (index + 1) as f64,
            _ => (random.bits() >> (38 + random.below(20))) as f64,
        };
        let power = random.below(480) as i32 * 2 - 480;
        let square = root * root * 2f64.powi(power);
        for steps in [-1, 0, 1] {
            push(step(square, steps).abs());
        }
    }
}

/// Numbers whose root lies as close to the middle of two f64 as it can: y² less a
/// small `distance` is a number of 53 bits with zeros below, where y is odd and
/// has one bit more than a significand.
fn near_ties(push: &mut impl FnMut(f64)) {
    for index in -60i64..=60 {
        let distance = 8 * index + 1;
        for zeros in [54, 55] {
            let root = odd_root(distance as i128, zeros);
            // The other roots modulo 2^zeros.
            let half = 1u128 << (zeros - 1);
            let whole = 1u128 << zeros;
            for y in [root, whole - root, (root + half) % whole, (whole - root + half) % whole] {
                if y >> 53 != 1 {
                    continue;
                }
                let shifted = ((y * y) as i128 - distance as i128) >> zeros;
                // As many bits as fit, or it is no f64.
                if (shifted as f64) as i128 == shifted {
                    push(shifted as f64 * if zeros % 2 == 0 { 1.0 } else { 2.0 });
                }
            }
        }
    }
}

/// y with y² = `number` modulo 2^`zeros`, bit by bit; `number` is 1 modulo 8.
fn odd_root(number: i128, zeros: u32) -> u128 {
    let mut root = 1u128;
    for bit in 3..zeros {
        let mask = (1u128 << (bit + 1)) - 1;
        if (root * root) & mask != number as u128 & mask {
            root |= 1 << (bit - 1);
        }
    }
    root
}
