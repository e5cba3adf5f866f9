//! Lines of all kinds but 00.

use crate::attempt::{twelve, Attempt, ATTEMPTS, RUSTS};
use crate::line::Line;
use crate::numbers::{any_finite, blur, edge, near, ordinary, quarters};
use crate::quartic::suited_answer;
use crate::random::Random;
use crate::{many_roots, needs, rest_to_rest};
use oracle::kinds::{Asks, Kind, Shape};
use oracle::{quartics, shapes};

/// An accepted line of the kind, which asks of the shape.
pub fn write(random: &mut Random, kind: &Kind, shape: Shape, line: &mut Line) {
    line.clear();
    line.byte(kind.number);
    // Kinds 02 and 03 have none of these, so that a seed gives them the lines it always gave.
    if kind.replies_causes() && kind.has_answers() && random.once_in(16) {
        return many_roots::write(random, shape, line);
    }
    let numbers = match kind.asks {
        Asks::Causes(Shape::Acc0) => sometimes_tiny(random.aside(), numbers(random, shape)),
        // Most of these exist; the others are like those of kind 04.
        Asks::Shape(Shape::RestToRest) if !random.once_in(3) => rest_to_rest::numbers(random),
        Asks::Shape(Shape::RestToRest) => sometimes_tiny(random.aside(), numbers(random, shape)),
        _ => numbers(random, shape),
    };
    line.numbers(&numbers);
    if kind.has_answers() {
        let solver = shapes::solver(&numbers);
        for polynom in quartics::polynoms(shape, &solver, &numbers) {
            line.answer(&suited_answer(random, &polynom));
        }
    }
}

fn numbers(random: &mut Random, shape: Shape) -> [f64; 12] {
    let numbers = match random.below(16) {
        0 if random.once_in(2) => still(random),
        0 => std::array::from_fn(|_| edge(random)),
        1 => std::array::from_fn(|_| any_finite(random)),
        2 => std::array::from_fn(|_| ordinary(random)),
        3 if shape.takes_roots() => {
            let numbers = planned(random, shape);
            needs::steer(random, shape, numbers)
        }
        _ => {
            let numbers = planned(random, shape);
            vary(random, numbers)
        }
    };
    let numbers = if random.once_in(2) { mirror(numbers) } else { numbers };
    numbers.map(|number| if number.is_finite() { number } else { 1.0 })
}

/// Once in sixteen times in a unit of length so small that whatever is missed is within the
/// precision of `check` and the cubes of accelerations are 0. An attempt may say yes then
/// where the one before it had no root. Other lines than these stay what they were.
fn sometimes_tiny(mut random: Random, numbers: [f64; 12]) -> [f64; 12] {
    if !random.once_in(16) {
        return numbers;
    }
    let length = power(&mut random, -250.0, -190.0);
    in_units(numbers, length, 1.0)
}

fn planned(random: &mut Random, shape: Shape) -> [f64; 12] {
    // A seed gives the five shapes the lines that it gave without kind 08.
    let among = if shape == Shape::RestToRest { &ATTEMPTS[..] } else { &ATTEMPTS[..RUSTS] };
    loop {
        let attempt: Attempt = random.pick(among);
        if attempt.shape == shape {
            let numbers = twelve(random, attempt);
            return room(random, numbers);
        }
    }
}

/// Constant velocity under limits so small and a jerk so large that their quotient
/// is 0 or nearly so: `check` may then record no jerk at all.
fn still(random: &mut Random) -> [f64; 12] {
    let tiny = |random: &mut Random| match random.below(4) {
        0 => 0.0,
        _ => 10f64.powf(random.between(-324.0, -10.0)),
    };
    let tf = quarters(random, 4);
    let p0 = quarters(random, 4) * random.sign();
    let v0 = quarters(random, 4) * random.sign();
    let a0 = random.pick(&[0.0, 0.0, 1.0, -1.0]) * tiny(random);
    let af = random.pick(&[0.0, 0.0, 1.0, -1.0]) * tiny(random);
    let pf = p0 + tf * v0 + random.pick(&[0.0, 1e-9, -1e-9]);
    let jerk = 10f64.powf(random.between(0.0, 308.0));
    [tf, p0, v0, a0, pf, v0, af, 8.0, -8.0, tiny(random), -tiny(random), jerk]
}

/// Velocity limits with room, or at the extreme velocities within the tolerance of
/// `check`, or just beyond it.
fn room(random: &mut Random, mut numbers: [f64; 12]) -> [f64; 12] {
    let margin = |random: &mut Random| match random.below(8) {
        0 => near(random, 1e-12) * random.pick(&[1.0, -1.0]),
        1 => 0.0,
        2 => -random.unit() * 0.1,
        _ => random.between(0.0, 4.0),
    };
    numbers[7] += margin(random);
    numbers[8] -= margin(random);
    // UP is taken from v_max > 0.
    if numbers[7] <= 0.0 && !random.once_in(8) {
        numbers[7] = random.unit() + 0.01;
    }
    numbers
}

/// The same move the other way round.
pub fn mirror(numbers: [f64; 12]) -> [f64; 12] {
    let [tf, rest @ ..] = numbers;
    let [p0, v0, a0, pf, vf, af, v_max, v_min, a_max, a_min, j_max] = rest.map(|number| -number);
    [tf, p0, v0, a0, pf, vf, af, v_max, v_min, a_max, a_min, j_max]
}

/// The move as it is, or one or two of its numbers moved.
fn vary(random: &mut Random, mut numbers: [f64; 12]) -> [f64; 12] {
    if random.once_in(2) {
        return numbers;
    }
    if random.once_in(6) {
        return rescale(random, numbers);
    }
    if random.once_in(12) {
        return other_limits(random, numbers);
    }
    for _ in 0..1 + random.below(2) {
        let index = random.below(12) as usize;
        let number = numbers[index];
        numbers[index] = match random.below(10) {
            0 => near(random, number),
            1 => {
                let distance = random.pick(&[1e-8, 1e-10, 1e-12]);
                number + near(random, distance) * random.sign()
            }
            2 => number + 10f64.powf(random.between(-13.0, -6.0)) * random.sign(),
            3 => blur(random, number),
            4 => number * random.between(0.5, 1.5),
            5 => -number,
            6 => random.pick(&numbers),
            7 => ordinary(random),
            8 => 0.0 * random.sign(),
            _ => edge(random),
        };
    }
    numbers
}

/// Limits that are equal, or belong to the other direction. A move too small for
/// the tolerance of `check` passes under the other direction's limits as well.
fn other_limits(random: &mut Random, numbers: [f64; 12]) -> [f64; 12] {
    let numbers = if random.once_in(3) {
        let length = power(random, -48.0, -40.0);
        in_units(numbers, length, 1.0)
    } else {
        numbers
    };
    let [head @ .., v_max, v_min, a_max, a_min, j_max] = numbers;
    let [v_max, v_min, a_max, a_min] = match random.below(6) {
        0 => [v_max, v_max, a_max, a_min],
        1 => [v_max, v_min, a_max, a_max],
        2 => [v_max, v_min, a_min, a_min],
        3 => [v_max, v_min, a_min, a_max],
        _ => [v_min, v_max, a_max, a_min],
    };
    let [tf, p0, v0, a0, pf, vf, af] = head;
    [tf, p0, v0, a0, pf, vf, af, v_max, v_min, a_max, a_min, j_max]
}

/// Other units of length and time, by powers of two: any; so short that velocities
/// or accelerations are large and their roundings exceed the precision of `check`
/// before the position's do; or so long that the total exceeds its bound.
fn rescale(random: &mut Random, numbers: [f64; 12]) -> [f64; 12] {
    let (length, time) = match random.below(6) {
        0 => {
            let range = random.pick(&[3.0, 12.0, 40.0, 200.0]);
            (power(random, -range, range), power(random, -range, range))
        }
        1..=2 => {
            let length = power(random, -10.0, 22.0);
            (length, length / power(random, 24.0, 40.0))
        }
        3..=4 => {
            let velocity = power(random, -20.0, 20.0);
            let time = velocity / power(random, 18.0, 30.0);
            (velocity * time, time)
        }
        _ => {
            let time = power(random, 37.0, 45.0);
            (power(random, -100.0, 120.0), time)
        }
    };
    in_units(numbers, length, time)
}

fn power(random: &mut Random, low: f64, high: f64) -> f64 {
    random.between(low, high).round().exp2()
}

fn in_units(numbers: [f64; 12], length: f64, time: f64) -> [f64; 12] {
    let [tf, p0, v0, a0, pf, vf, af, v_max, v_min, a_max, a_min, j_max] = numbers;
    let velocity = length / time;
    let acceleration = velocity / time;
    let jerk = acceleration / time;
    [
        tf * time,
        p0 * length,
        v0 * velocity,
        a0 * acceleration,
        pf * length,
        vf * velocity,
        af * acceleration,
        v_max * velocity,
        v_min * velocity,
        a_max * acceleration,
        a_min * acceleration,
        j_max * jerk,
    ]
}
