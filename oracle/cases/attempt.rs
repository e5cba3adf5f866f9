//! The eleven attempts of the five shapes and the two of kind 08, each with a motion of its own
//! form.

use crate::motion::forwards;
use crate::numbers::{quarters, within_eight};
use crate::random::Random;
use oracle::kinds::Shape;

#[derive(Clone, Copy, PartialEq, Debug)]
pub enum Form {
    Acc0Acc1VelUddu,
    Acc0Acc1VelUdud,
    Acc1VelUddu,
    Acc1VelUdud,
    Acc0VelUddu,
    Acc0VelUdud,
    Acc0Acc1Rest,
    Acc0Acc1Uddu,
    Acc0UdudNone,
    Acc0UdduNone,
    Acc0UdduAcc0,
    RestToRest,
    RestToRestUddu,
}

use Form::*;

/// The shape that makes it, and the signs and the label that it hands to `check`.
#[derive(Clone, Copy)]
pub struct Attempt {
    pub form: Form,
    pub shape: Shape,
    pub signs: u8,
    pub label: u8,
}

pub const ATTEMPTS: [Attempt; 13] = [
    Attempt { form: Acc0Acc1VelUddu, shape: Shape::Acc0Acc1Vel, signs: 0, label: 0 },
    Attempt { form: Acc0Acc1VelUdud, shape: Shape::Acc0Acc1Vel, signs: 1, label: 0 },
    Attempt { form: Acc1VelUddu, shape: Shape::Acc1Vel, signs: 0, label: 6 },
    Attempt { form: Acc1VelUdud, shape: Shape::Acc1Vel, signs: 1, label: 6 },
    Attempt { form: Acc0VelUddu, shape: Shape::Acc0Vel, signs: 0, label: 5 },
    Attempt { form: Acc0VelUdud, shape: Shape::Acc0Vel, signs: 1, label: 5 },
    Attempt { form: Acc0Acc1Rest, shape: Shape::Acc0Acc1, signs: 0, label: 4 },
    Attempt { form: Acc0Acc1Uddu, shape: Shape::Acc0Acc1, signs: 0, label: 4 },
    Attempt { form: Acc0UdudNone, shape: Shape::Acc0, signs: 1, label: 7 },
    Attempt { form: Acc0UdduNone, shape: Shape::Acc0, signs: 0, label: 7 },
    Attempt { form: Acc0UdduAcc0, shape: Shape::Acc0, signs: 0, label: 2 },
    Attempt { form: RestToRest, shape: Shape::RestToRest, signs: 0, label: 4 },
    Attempt { form: RestToRestUddu, shape: Shape::RestToRest, signs: 0, label: 4 },
];

/// How many of them are the Rust's.
pub const RUSTS: usize = 11;

impl Attempt {
    pub fn calls_so(&self, shape: Shape, signs: u8, label: u8) -> bool {
        (self.shape, self.signs, self.label) == (shape, signs, label)
    }

    /// Whether it takes a square root of its own, in a kind that tells of it. Those of quartics
    /// are no attempt's, and kind 08 tells of none.
    pub fn takes_root(&self) -> bool {
        matches!(
            self.form,
            Acc0Acc1VelUddu | Acc0Acc1Uddu | Acc0UdudNone | Acc0UdduNone | Acc0UdduAcc0
        )
    }
}

/// Which attempt called `check` so. The fourth shape's two call it alike, and so do those of
/// kind 08; the one of the rest formula comes first.
pub fn index_of_call(shape: Shape, signs: u8, label: u8, rest: bool) -> usize {
    let so = |attempt: &Attempt| attempt.calls_so(shape, signs, label);
    let index = if rest { ATTEMPTS.iter().position(so) } else { ATTEMPTS.iter().rposition(so) };
    index.unwrap_or_else(|| panic!("{shape:?} calls check with signs {signs}, label {label}"))
}

/// The rest formula is for both end accelerations below EPS.
pub fn at_rest(numbers: &[f64; 12]) -> bool {
    numbers[3].abs() < f64::EPSILON && numbers[6].abs() < f64::EPSILON
}

/// The twelve numbers of a line whose answer should come from `attempt`. The
/// velocity limits lie at the extreme velocities; the caller gives them room.
pub fn twelve(random: &mut Random, attempt: Attempt) -> [f64; 12] {
    let rest = matches!(attempt.form, Acc0Acc1Rest | RestToRest);
    let a_max = if attempt.form == Acc0Acc1Rest { rest_limit(random) } else { size(random, 4) };
    let a_min = -size(random, 4);
    let j = size(random, 8);
    let a0 = if rest { 0.0 } else { acceleration(random, a_min, a_max) };
    let af = if rest { 0.0 } else { acceleration(random, a_min, a_max) };
    let [one, three, five, ramp] = std::array::from_fn(|_| hold(random));

    // Ramps of the jerk between the accelerations.
    let start_max = (a_max - a0) / j;
    let max_zero = a_max / j;
    let zero_min = -a_min / j;
    let min_end = (af - a_min) / j;
    let max_end = (a_max - af) / j;
    // A ramp that starts at `low` and does not pass `high`.
    let within = |low: f64, high: f64| {
        let low = low.max(0.0);
        low + ramp.min((high - low).max(0.0))
    };
    let first = within(-a0 / j, start_max);
    let second = a0 / j + first;
    let down = within(-af / j, zero_min);
    let up = within(af / j, max_zero);

    let times = match attempt.form {
        Acc0Acc1VelUddu => [start_max, one, max_zero, three, zero_min, five, min_end],
        Acc0Acc1VelUdud => [start_max, one, max_zero, three, max_zero, five, max_end],
        Acc1VelUddu => [first, 0.0, second, three, zero_min, five, min_end],
        Acc1VelUdud => [first, 0.0, second, three, max_zero, five, max_end],
        Acc0VelUddu => [start_max, one, max_zero, three, down, 0.0, down + af / j],
        Acc0VelUdud => [start_max, one, max_zero, three, up, 0.0, up - af / j],
        Acc0Acc1Rest | Acc0Acc1Uddu | RestToRest | RestToRestUddu => {
            [start_max, one, max_zero, 0.0, zero_min, five, min_end]
        }
        Acc0UdudNone => [start_max, one, max_end + ramp, 0.0, ramp, 0.0, 0.0],
        Acc0UdduNone => [start_max, one, ramp, three, 0.0, 0.0, five],
        Acc0UdduAcc0 => [start_max, one, ramp, three, five, 0.0, 0.0],
    };

    let [p0, v0] = std::array::from_fn(|_| within_eight(random));
    let motion = forwards(attempt.signs as usize, j, &times, [p0, v0, a0]);
    let [pf, vf, af] = motion.end;
    let tf = motion.duration;
    let (v_max, v_min) = (motion.fastest, motion.slowest);
    [tf, p0, v0, a0, pf, vf, af, v_max, v_min, a_max, a_min, j]
}

pub fn size(random: &mut Random, most: u64) -> f64 {
    match random.below(3) {
        0 => quarters(random, most - 1) + 0.25,
        1 => random.between(0.0, most as f64),
        _ => random.between(-3.0, (most as f64).log2()).exp2(),
    }
}

/// The rest formula's t[1] is not the motion's: with both limits of the usual signs
/// the formula's is always less. The two agree where a_max is zero, and closely
/// enough for `check` where it is tiny.
fn rest_limit(random: &mut Random) -> f64 {
    match random.below(4) {
        0 => 0.0,
        1 => -0.0,
        2 => 10f64.powf(random.between(-14.0, -4.0)),
        _ => size(random, 4),
    }
}

fn acceleration(random: &mut Random, a_min: f64, a_max: f64) -> f64 {
    match random.below(8) {
        0..=2 => 0.0,
        3 => random.pick(&[a_min, a_max, a_min / 2.0, a_max / 2.0]),
        _ => random.between(a_min, a_max),
    }
}

/// How long a phase of constant acceleration or velocity lasts.
fn hold(random: &mut Random) -> f64 {
    match random.below(8) {
        0 => 0.0,
        1 => f64::EPSILON * random.between(0.5, 2.0),
        2 => quarters(random, 2),
        3 => random.between(0.0, 0.1),
        _ => random.between(0.0, 1.5),
    }
}
