//! Lines of kind 00.

use crate::line::Line;
use crate::numbers::{any_finite, anything, edge, near, not_finite, ordinary, quarters, step};
use crate::random::Random;
use oracle::check::{LABELS, SIGNS};
use oracle::kinds::Kind;
use rsruckig::profile::Profile;

/// An accepted line.
pub fn write(random: &mut Random, kind: &Kind, line: &mut Line) {
    let signs = random.below(2) as u8;
    let label = random.below(8) as u8;
    let set_limits = random.below(2) as u8;
    let (times, numbers) = match random.below(16) {
        0 => {
            (std::array::from_fn(|_| anything(random)), std::array::from_fn(|_| any_finite(random)))
        }
        1 => (std::array::from_fn(|_| edge(random).abs()), std::array::from_fn(|_| edge(random))),
        2 => (
            std::array::from_fn(|_| ordinary(random).abs()),
            std::array::from_fn(|_| ordinary(random)),
        ),
        _ => planned(random, signs, label, set_limits == 1),
    };
    line.clear();
    for byte in [kind.number, signs, label, set_limits] {
        line.byte(byte);
    }
    line.numbers(&times);
    line.numbers(&numbers);
}

/// Times and a start, with the target where `check` itself ends and the limits
/// about the values that it records.
fn planned(random: &mut Random, signs: u8, label: u8, set_limits: bool) -> ([f64; 7], [f64; 11]) {
    // Half of the moves are meant to pass all tests.
    let careful = random.once_in(2);
    let times = times(random, careful);
    let start = std::array::from_fn(|_| match random.below(3) {
        0 => 0.0,
        1 => quarters(random, 4) * random.sign(),
        _ => random.between(-4.0, 4.0),
    });
    let jf = match random.below(8) {
        0 => edge(random),
        1..=3 => (quarters(random, 4) + 0.25) * random.sign(),
        _ => random.between(-8.0, 8.0),
    };

    // Limits first from the motion under no limits at all, then the end again,
    // because set_limits writes them into the record.
    let free = record(signs, 7, false, &times, start, jf, [0.0; 2]);
    let up = random.once_in(2);
    let a_limits = limits(random, careful, up, &[free.a[1], free.a[3], free.a[5], 0.0]);
    let set = record(signs, label, set_limits, &times, start, jf, a_limits);
    let [v3, v4, v5, v6] = [3, 4, 5, 6].map(|index| set.v[index]);
    // With a zero among the values, UP or DOWN comes out as wanted.
    let [v_max, v_min] = limits(random, careful, up, &[v3, v4, v5, v6, 0.0]);
    let [a_max, a_min] = a_limits;
    let pf = target(random, careful, set.p[7], 1e-8);
    let vf = target(random, careful, set.v[7], 1e-8);
    let af = target(random, careful, set.a[7], 1e-10);
    let [p0, v0, a0] = start;
    let numbers = [p0, v0, a0, pf, vf, af, jf, v_max, v_min, a_max, a_min];
    (times, numbers.map(|number| if number.is_finite() { number } else { 0.0 }))
}

/// What `check` leaves, whatever it says, if it gets past the velocities.
fn record(
    signs: u8,
    label: u8,
    set_limits: bool,
    times: &[f64; 7],
    start: [f64; 3],
    jf: f64,
    [a_max, a_min]: [f64; 2],
) -> Profile {
    let [p0, v0, a0] = start;
    let mut profile = Profile::default();
    profile.set_boundary(p0, v0, a0, 0.0, 0.0, 0.0);
    profile.t = *times;
    profile.check(
        SIGNS[signs as usize],
        LABELS[label as usize],
        set_limits,
        jf,
        f64::MAX,
        f64::MIN,
        a_max,
        a_min,
    );
    profile
}

fn times(random: &mut Random, careful: bool) -> [f64; 7] {
    let mut times = std::array::from_fn(|_| match random.below(if careful { 12 } else { 6 }) {
        0 => 0.0,
        1..=2 => quarters(random, 2),
        _ => random.between(0.0, 1.5),
    });
    if !careful && random.once_in(2) {
        let index = random.below(7) as usize;
        times[index] = match random.below(12) {
            0 => -0.0,
            1 => step(0.0, random.below(5) as i64 - 2),
            2..=3 => near(random, f64::EPSILON),
            4 => near(random, 1e12 - times.iter().sum::<f64>() + times[index]),
            5 => near(random, 1e12),
            6 => edge(random).abs(),
            7 => edge(random),
            8 => not_finite(random),
            9 => -times[index],
            _ => 0.0,
        };
    }
    times
}

/// [max, min] as `check` takes them, UP or DOWN, about the values given: with room,
/// at the tolerance of `check`, or too tight.
fn limits(random: &mut Random, careful: bool, up: bool, values: &[f64]) -> [f64; 2] {
    // Without care the zero that the caller adds is left out at times.
    let values = match values {
        [others @ .., _] if !careful && random.once_in(2) => others,
        _ => values,
    };
    let margin = |random: &mut Random| match random.below(16) {
        _ if careful => random.between(0.0, 8.0),
        0 => -near(random, 1e-12),
        1 => 0.0,
        2 => -random.unit(),
        3 => edge(random),
        _ => random.between(0.0, 8.0),
    };
    let highest = values.iter().copied().fold(f64::NEG_INFINITY, f64::max);
    let lowest = values.iter().copied().fold(f64::INFINITY, f64::min);
    let upper = highest + margin(random);
    let lower = lowest - margin(random);
    if up {
        [upper, lower]
    } else {
        [lower, upper]
    }
}

/// About the recorded end: at it, or at the precision of `check` from it.
fn target(random: &mut Random, careful: bool, end: f64, precision: f64) -> f64 {
    match random.below(10) {
        _ if careful => end,
        0 => {
            let edge = end + precision * random.sign();
            near(random, edge)
        }
        1 => end + precision * random.between(-1.5, 1.5),
        2 => end + ordinary(random),
        _ => end,
    }
}
