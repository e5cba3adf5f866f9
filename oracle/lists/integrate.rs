//! `integrate`: t p0 v0 a0 j in, p v a out.

use crate::{bits, written, Lists};
use cases::numbers::{anything, edge, ordinary};
use cases::random::Random;
use rsruckig::util::integrate;

pub fn fill(lists: &mut Lists, random: &mut Random, count: usize) {
    while lists.count < count {
        let numbers = std::array::from_fn(|_| match lists.count % 4 {
            0 => ordinary(random),
            1 => edge(random),
            2 if random.once_in(3) => edge(random),
            2 => ordinary(random),
            _ => anything(random),
        });
        push(lists, numbers);
    }
}

/// One line, and the state that the Rust answers.
pub fn push(lists: &mut Lists, numbers: [f64; 5]) -> [f64; 3] {
    let [t, p0, v0, a0, j] = numbers;
    let (p, v, a) = integrate(t, p0, v0, a0, j);
    let state = [p, v, a];
    lists.push(&numbers.map(bits).concat(), &state.map(written).concat());
    state
}
