//! Lines of any kind.

use crate::line::Line;
use crate::random::Random;
use crate::{broken_line, check_line, shape_line};
use oracle::kinds::{Asks, Kind};

/// An accepted line of the kind.
pub fn accepted(random: &mut Random, kind: &Kind, line: &mut Line) {
    match kind.asks {
        Asks::Check => check_line::write(random, kind, line),
        Asks::Shape(shape) | Asks::Quartics(shape) | Asks::Causes(shape) => {
            shape_line::write(random, kind, shape, line)
        }
    }
}

/// The same, with faults once in `often` times.
pub fn sometimes_broken(random: &mut Random, kind: &Kind, often: u64, line: &mut Line) {
    accepted(random, kind, line);
    if random.once_in(often) {
        broken_line::spoil(random, kind, line);
    }
}
