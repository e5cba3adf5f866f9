//! Where the root answers of a line wait for the quartics. The quartics take no
//! further argument in the Rust, so the answers reach them through this cell.
//!
//! Answer i belongs to the i-th quartic of the shape, whether or not that quartic
//! asks for it: UDDU's is the first, UDUD's the second.

use std::cell::Cell;

#[derive(Clone, Copy, Default)]
pub struct RootAnswer {
    /// 0: the first value is the cube root. 1 to 3: the resolvent's count.
    pub count: u8,
    pub values: [f64; 3],
}

/// What one quartic was given and what it asked for, in document 01's numbers.
#[derive(Clone, Copy, Default, Debug)]
pub struct Quartic {
    pub polynom: [f64; 4],
    pub asked: u8,
    pub arguments: [f64; 3],
}

thread_local! {
    static ANSWERS: Cell<[RootAnswer; 2]> = const {
        Cell::new([RootAnswer { count: 0, values: [0.0; 3] }; 2])
    };
    static CALLS: Cell<usize> = const { Cell::new(0) };
    static QUARTICS: Cell<[Quartic; 2]> = const {
        Cell::new([Quartic { polynom: [0.0; 4], asked: 0, arguments: [0.0; 3] }; 2])
    };
}

/// Called before a shape.
pub fn set(answers: [RootAnswer; 2]) {
    ANSWERS.set(answers);
    CALLS.set(0);
}

/// The quartics that ran since `set`.
pub fn quartics() -> ([Quartic; 2], usize) {
    (QUARTICS.get(), CALLS.get())
}

pub fn next_quartic(polynom: &[f64; 4]) {
    let call = CALLS.get();
    CALLS.set(call + 1);
    record(call, |quartic| *quartic = Quartic { polynom: *polynom, ..Quartic::default() });
}

pub fn cube_root() -> f64 {
    let call = CALLS.get() - 1;
    record(call, |quartic| quartic.asked = 1);
    ANSWERS.get()[call].values[0]
}

pub fn resolvent(x: &mut [f64; 3], a: f64, b: f64, c: f64) -> usize {
    let call = CALLS.get() - 1;
    record(call, |quartic| {
        quartic.asked = 2;
        quartic.arguments = [a, b, c];
    });
    let answer = ANSWERS.get()[call];
    *x = answer.values;
    answer.count as usize
}

fn record(call: usize, change: impl FnOnce(&mut Quartic)) {
    let mut quartics = QUARTICS.get();
    change(&mut quartics[call]);
    QUARTICS.set(quartics);
}
