//! Moves from rest to rest for kind 08: both end accelerations are below EPS in size. Most of
//! them exist and keep their limits. The jerk is the move's own, since kind 08 works it out.

use crate::attempt::size;
use crate::motion::{forwards, Motion};
use crate::numbers::{edge, near, ordinary, quarters, within_eight};
use crate::random::Random;
use crate::shape_line::mirror;

/// Both ways round: the jerk that kind 08 finds is positive or negative.
pub fn numbers(random: &mut Random) -> [f64; 12] {
    let numbers = if random.once_in(4) { decimals(random) } else { planned(random) };
    if random.once_in(2) {
        mirror(numbers)
    } else {
        numbers
    }
}

/// A motion up to a velocity and down again, worked out forwards.
fn planned(random: &mut Random) -> [f64; 12] {
    let (a_max, a_min) = (size(random, 4), -size(random, 4));
    let j = size(random, 48);
    let (gain, loss) = (a_max / j, -a_min / j);
    let (mut one, mut five) = (hold(random), hold(random));
    let still = random.once_in(2);
    if still {
        // As much velocity is lost as was gained.
        five = (gain + one) * a_max / -a_min - loss;
        if five < 0.0 {
            five = hold(random);
            one = (loss + five) * -a_min / a_max - gain;
        }
    }
    let v0 = if still || random.once_in(4) { zero(random) } else { ordinary(random) };
    let p0 = within_eight(random);
    let times = [gain, one, gain, 0.0, loss, five, loss];
    let motion = forwards(0, j, &times, [p0, v0, 0.0]);
    let [pf, vf, _] = motion.end;
    let vf = if still { zero(random) } else { vf };
    let [v_max, v_min] = room(random, &motion);
    let [a0, af, j_max] = unread(random, j);
    [motion.duration, p0, v0, a0, pf, vf, af, v_max, v_min, a_max, a_min, j_max]
}

/// The numbers that a laboratory writes down: from rest to rest under limits of one size. With
/// the distance from an eighth to a quarter of a_max tf² such a move exists.
fn decimals(random: &mut Random) -> [f64; 12] {
    let decimal = |random: &mut Random, most: f64, parts: f64| {
        (random.between(1.0, most * parts)).floor() / parts
    };
    let a_max = decimal(random, 4.0, 100.0);
    let tf = decimal(random, 8.0, 10.0);
    let p0 = within_eight(random);
    let part = random.between(0.125, 0.25);
    let distance = (part * a_max * tf * tf * 1000.0).round() / 1000.0;
    let v_max = 2.0 * distance / tf + decimal(random, 4.0, 10.0);
    let [a0, af, j_max] = unread(random, 1.0);
    let [v0, vf] = std::array::from_fn(|_| zero(random));
    [tf, p0, v0, a0, p0 + distance, vf, af, v_max, -v_max, a_max, -a_max, j_max]
}

/// What kind 08 does not look at: the end accelerations as long as they are below EPS in size,
/// and j_max.
fn unread(random: &mut Random, j: f64) -> [f64; 3] {
    let [a0, af] = std::array::from_fn(|_| match random.below(4) {
        0 => random.between(-f64::EPSILON, f64::EPSILON),
        1 => -0.0,
        _ => 0.0,
    });
    let j_max = if random.once_in(2) { j } else { edge(random) };
    [a0, af, j_max]
}

/// Limits at the velocities of the motion, within the tolerance of `check`, just beyond it, or
/// with room.
fn room(random: &mut Random, motion: &Motion) -> [f64; 2] {
    let [above, below] = std::array::from_fn(|_| match random.below(16) {
        0 => near(random, 1e-12) * random.pick(&[1.0, -1.0]),
        1 => 0.0,
        _ => random.between(0.0, 4.0),
    });
    // UP is taken from v_max > 0.
    [(motion.fastest + above).max(0.01), motion.slowest - below]
}

/// How long a phase of constant acceleration lasts: seldom too short for `check`.
fn hold(random: &mut Random) -> f64 {
    match random.below(16) {
        0 => f64::EPSILON * random.between(0.5, 2.0),
        1 => random.between(0.0, 1e-6),
        2..=5 => quarters(random, 1) + 0.25,
        _ => random.between(0.0, 1.5),
    }
}

fn zero(random: &mut Random) -> f64 {
    0.0 * random.sign()
}
