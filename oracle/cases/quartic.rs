//! Quartics with root answers, right and wrong.

use crate::numbers::{anything, blur, edge, near, ordinary, quarters, scale};
use crate::random::Random;
use oracle::quartics::need;
use rsruckig::hand_in::RootAnswer;
use rsruckig::roots::{resolvent_arguments, solve_resolvent};

/// What the Rust's own cube root and `solve_resolvent` answer.
pub fn right_answer(random: &mut Random, polynom: &[f64; 4]) -> RootAnswer {
    let [a, b, c, d] = *polynom;
    match need(polynom) {
        0 => any_answer(random),
        1 => RootAnswer { count: 0, values: [c.cbrt(), anything(random), anything(random)] },
        _ => {
            let [a3, b3, c3] = resolvent_arguments(a, b, c, d);
            let mut values = [0.0; 3];
            let count = solve_resolvent(&mut values, a3, b3, c3) as u8;
            RootAnswer { count, values }
        }
    }
}

/// An answer of the kind that the quartic needs: right, a little wrong, or any
/// bits.
pub fn suited_answer(random: &mut Random, polynom: &[f64; 4]) -> RootAnswer {
    let right = right_answer(random, polynom);
    match random.below(8) {
        0..=3 => right,
        4 => RootAnswer { values: right.values.map(|value| blur(random, value)), ..right },
        // Another root of the resolvent parts the quartic as well.
        5 => {
            let mut values = right.values;
            values.rotate_left(random.below(3) as usize);
            RootAnswer { values, ..right }
        }
        6 => RootAnswer {
            count: if need(polynom) == 2 { 1 + random.below(3) as u8 } else { right.count },
            ..right
        },
        _ => match need(polynom) {
            0 => any_answer(random),
            1 => RootAnswer { count: 0, ..any_answer(random) },
            _ => RootAnswer { count: 1 + random.below(3) as u8, ..any_answer(random) },
        },
    }
}

pub fn any_answer(random: &mut Random) -> RootAnswer {
    RootAnswer { count: random.below(4) as u8, values: std::array::from_fn(|_| anything(random)) }
}

/// A quartic with a suited answer.
pub fn case(random: &mut Random) -> ([f64; 4], RootAnswer) {
    match random.below(8) {
        0..=2 => {
            let polynom = from_roots(random);
            (polynom, suited_answer(random, &polynom))
        }
        3 => {
            let polynom = at_a_need(random);
            (polynom, suited_answer(random, &polynom))
        }
        4 => at_equal_factors(random),
        5 => at_a_double_root(random),
        6 => {
            let polynom = std::array::from_fn(|_| ordinary(random));
            (polynom, suited_answer(random, &polynom))
        }
        _ => {
            let polynom = std::array::from_fn(|_| anything(random));
            (polynom, suited_answer(random, &polynom))
        }
    }
}

/// (x - r)(x - s)(x² + p x + q), with r and s often equal, zero or below zero.
fn from_roots(random: &mut Random) -> [f64; 4] {
    let root = |random: &mut Random| match random.below(4) {
        0 => 0.0,
        1 => quarters(random, 2),
        2 => -quarters(random, 2),
        _ => random.between(-2.0, 4.0),
    };
    let r = root(random);
    let s = if random.once_in(3) { r } else { root(random) };
    let (p, q) = if random.once_in(2) {
        let t = root(random);
        let u = if random.once_in(2) { t } else { root(random) };
        (-(t + u), t * u)
    } else {
        (ordinary(random), ordinary(random))
    };
    let (m, n) = (-(r + s), r * s);
    [m + p, n + q + m * p, m * q + n * p, n * q]
}

/// Coefficients about EPS, where the needs part.
fn at_a_need(random: &mut Random) -> [f64; 4] {
    let coefficient = |random: &mut Random| match random.below(5) {
        0 => 0.0,
        1 => -0.0,
        2 => near(random, f64::EPSILON) * random.sign(),
        3 => f64::EPSILON * scale(random, 4.0) * random.sign(),
        _ => ordinary(random),
    };
    let [a, b, c, d] = std::array::from_fn(|_| coefficient(random));
    let d = if random.once_in(2) { edge(random) } else { d };
    let tiny = |random: &mut Random| f64::EPSILON * random.between(-1.1, 1.1);
    match random.below(5) {
        // The quadratic that is left with equal roots, and about it.
        0 => [a, near(random, a * a / 4.0), 0.0, 0.0],
        1 => [a, b, c, 0.0],
        // The cube root.
        2 => [tiny(random), tiny(random), ordinary(random), tiny(random)],
        _ => [a, b, c, d],
    }
}

/// y² - 4 d about EPS, and a² - 4 (b - y) about EPS after that.
fn at_equal_factors(random: &mut Random) -> ([f64; 4], RootAnswer) {
    let small = |random: &mut Random| match random.below(4) {
        0 => 0.0,
        1 => near(random, f64::EPSILON) * random.sign(),
        _ => f64::EPSILON * scale(random, 3.0) * random.sign(),
    };
    let y = ordinary(random);
    let a = if random.once_in(4) { 0.0 } else { ordinary(random) };
    let d = (y * y - small(random)) / 4.0;
    let b = match random.below(3) {
        0 => ordinary(random),
        _ => y + (a * a - small(random)) / 4.0,
    };
    let c = if random.once_in(2) { a * y / 2.0 } else { ordinary(random) };
    let polynom = [a, b, c, d];
    (polynom, given_y(random, &polynom, y))
}

/// p² - 4 q of one factor about 16 EPS: (x² + p x + q)(x² + r x + s) with the y
/// that parts it so.
fn at_a_double_root(random: &mut Random) -> ([f64; 4], RootAnswer) {
    let p = if random.once_in(4) { 0.0 } else { -random.unit() * 4.0 };
    let small = match random.below(4) {
        0 => 0.0,
        1 => near(random, 16.0 * f64::EPSILON) * random.sign(),
        2 => f64::EPSILON * random.below(20) as f64 * random.sign(),
        _ => 16.0 * f64::EPSILON * scale(random, 2.0) * random.sign(),
    };
    let q = (p * p - small) / 4.0;
    let (r, s) = if p == 0.0 {
        // Exact, so that the factor's root comes out as -0.
        (1.0 + quarters(random, 8), 1.0 + quarters(random, 8))
    } else {
        (ordinary(random), ordinary(random))
    };
    let polynom = [p + r, q + s + p * r, p * s + q * r, q * s];
    (polynom, given_y(random, &polynom, q + s))
}

/// The quartic takes the value of largest size where the count is not 1.
pub fn given_y(random: &mut Random, polynom: &[f64; 4], y: f64) -> RootAnswer {
    if need(polynom) != 2 {
        return suited_answer(random, polynom);
    }
    let count = 1 + random.below(3) as u8;
    let mut values = [y * random.unit(); 3];
    let place = if count == 1 { 0 } else { random.below(3) as usize };
    values[place] = y;
    RootAnswer { count, values }
}
