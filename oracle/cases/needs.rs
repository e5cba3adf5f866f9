//! Moves whose quartics need nothing or a cube root. Chance does not meet them:
//! two or three coefficients have to vanish together.

use crate::random::Random;
use oracle::kinds::Shape;
use oracle::{quartics, shapes};

pub const A0: usize = 3;
pub const PF: usize = 4;
pub const VF: usize = 5;
pub const AF: usize = 6;
const V_MAX: usize = 7;
const V_MIN: usize = 8;
const A_MAX: usize = 9;
const A_MIN: usize = 10;

/// Moves `numbers` to where one quartic of the shape has d = 0, and c = 0 or
/// a = b = 0 besides.
pub fn steer(random: &mut Random, shape: Shape, mut numbers: [f64; 12]) -> [f64; 12] {
    let signs = random.below(2) as usize;
    if shape == Shape::Acc1Vel {
        if random.once_in(2) {
            // c has the factor a0.
            numbers[A0] = 0.0;
        } else {
            // a is 4 a0 less twice the limit that the pattern reads.
            let limit = [A_MIN, A_MAX][signs];
            numbers[A0] = numbers[limit] / 2.0;
            reach(&mut numbers, Coefficient { shape, signs, index: 1 }, 0.0, VF, 1.0);
        }
    }
    reach(&mut numbers, Coefficient { shape, signs, index: 3 }, 0.0, PF, 1.0);
    // The move is another one now, with other velocities on its way.
    numbers[V_MAX] = random.between(1.0, 40.0);
    numbers[V_MIN] = -random.between(1.0, 40.0);
    numbers
}

/// Of one of the shape's quartics.
#[derive(Clone, Copy)]
pub struct Coefficient {
    pub shape: Shape,
    pub signs: usize,
    pub index: usize,
}

/// Moves the number at `by` to where the coefficient is as wanted. It is linear in the
/// number, up to its rounding and for steps as large as the one given.
pub fn reach(numbers: &mut [f64; 12], of: Coefficient, wanted: f64, by: usize, step: f64) {
    let value = |number: f64| {
        let mut moved = *numbers;
        moved[by] = number;
        let polynoms = quartics::polynoms(of.shape, &shapes::solver(&moved), &moved);
        polynoms[of.signs][of.index] - wanted
    };
    let slope = (value(step) - value(0.0)) / step;
    let mut number = -value(0.0) / slope;
    for _ in 0..3 {
        number -= value(number) / slope;
    }
    if number.is_finite() {
        numbers[by] = number;
    }
}
