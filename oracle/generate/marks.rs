//! Counts the square roots that an attempt takes in lines of kinds 11 to 15, and what becomes
//! of the calls of `check` that are marked since theirs does not exist.

use crate::coverage::CAUSES;
use rsruckig::trace::Check;

/// What a root is taken of.
pub const ARGUMENTS: [&str; 3] = ["a number that has one", "a number below zero", "a NaN"];

#[derive(Default)]
pub struct Marks {
    /// Calls by the argument of their root.
    pub arguments: [u64; ARGUMENTS.len()],
    /// Marked calls by the cause that they have without the mark.
    pub causes: [u64; CAUSES],
    /// Marked calls that are the last of their line, by the argument.
    pub lasts: [u64; ARGUMENTS.len()],
    /// Marked calls in front of a last one that is not, by its verdict.
    pub earlier: [u64; 2],
}

impl Marks {
    /// A call, and the last one of its line.
    pub fn add(&mut self, check: &Check, is_last: bool, last: &Check) {
        let Some(argument) = check.argument else {
            return;
        };
        let argument = if argument.is_nan() { 2 } else { (argument < 0.0) as usize };
        self.arguments[argument] += 1;
        if !check.marked {
            return;
        }
        self.causes[check.cause as usize] += 1;
        if is_last {
            self.lasts[argument] += 1;
        } else if !last.marked {
            self.earlier[(last.cause == 0) as usize] += 1;
        }
    }
}
