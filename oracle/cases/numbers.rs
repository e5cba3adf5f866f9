//! The numbers that lines are made of.

use crate::random::Random;

/// The thresholds of the Rust, and the numbers at the edges of the format.
const EDGES: [f64; 22] = [
    0.0,
    f64::EPSILON,
    16.0 * f64::EPSILON,
    1e-8,
    1e-10,
    1e-12,
    1e12,
    1.0,
    2.0,
    0.5,
    3.0,
    5e-324,
    1e-310,
    2.2250738585072009e-308,
    f64::MIN_POSITIVE,
    1e-200,
    1e-160,
    1e160,
    1e200,
    1e300,
    8.98846567431158e307,
    f64::MAX,
];

/// `number` moved by `steps` in the order of the f64, through zero too.
pub fn step(number: f64, steps: i64) -> f64 {
    let bits = number.to_bits() as i64;
    let order = if bits < 0 { i64::MIN - bits } else { bits };
    let moved = order.saturating_add(steps);
    let bits = if moved < 0 { i64::MIN - moved } else { moved };
    f64::from_bits(bits as u64)
}

/// `number` or one of its neighbours.
pub fn near(random: &mut Random, number: f64) -> f64 {
    let steps = random.pick(&[0, 0, 1, -1, 2, -2, 3, -3]);
    step(number, steps)
}

pub fn edge(random: &mut Random) -> f64 {
    let number = random.pick(&EDGES);
    let signed = number * random.sign();
    let moved = near(random, signed);
    if moved.is_finite() {
        moved
    } else {
        signed
    }
}

pub fn any_finite(random: &mut Random) -> f64 {
    loop {
        let number = f64::from_bits(random.bits());
        if number.is_finite() {
            return number;
        }
    }
}

/// Infinities and NaN of several patterns.
pub fn not_finite(random: &mut Random) -> f64 {
    let bits = random.pick(&[
        0x7FF0_0000_0000_0000,
        0xFFF0_0000_0000_0000,
        0x7FF8_0000_0000_0000,
        0xFFF8_0000_0000_0000,
        0x7FF0_0000_0000_0001,
        0xFFFF_FFFF_FFFF_FFFF,
        0x7FFF_0123_4567_89AB,
    ]);
    f64::from_bits(bits)
}

/// Any bits at all.
pub fn anything(random: &mut Random) -> f64 {
    match random.below(4) {
        0 => not_finite(random),
        1 => edge(random),
        2 => ordinary(random),
        _ => f64::from_bits(random.bits()),
    }
}

/// A size that moves have, of either sign.
pub fn ordinary(random: &mut Random) -> f64 {
    let size = random.pick(&[0.1, 1.0, 8.0, 64.0]);
    random.between(-size, size)
}

/// A quarter, or a few of them, where sums and products come out exactly.
pub fn quarters(random: &mut Random, most: u64) -> f64 {
    random.below(4 * most + 1) as f64 / 4.0
}

/// At most 8 in size: 0, quarters, or any.
pub fn within_eight(random: &mut Random) -> f64 {
    match random.below(3) {
        0 => 0.0,
        1 => quarters(random, 8) * random.sign(),
        _ => random.between(-8.0, 8.0),
    }
}

/// From 2^-`range` to 2^`range`.
pub fn scale(random: &mut Random, range: f64) -> f64 {
    random.between(-range, range).exp2()
}

/// `number` made a little wrong: by some steps or by a small part of itself.
pub fn blur(random: &mut Random, number: f64) -> f64 {
    if random.once_in(2) {
        let steps = random.below(9) as i64 - 4;
        step(number, steps)
    } else {
        let part = 10f64.powf(random.between(-15.0, -6.0));
        number * (1.0 + random.sign() * part)
    }
}
