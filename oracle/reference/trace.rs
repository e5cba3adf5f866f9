//! The calls of `check` since `clear`, each with its cause and the test that said no (see
//! edit/profile.rs), and with the square root that the attempt took before it, if it took one
//! (see edit/step2.rs). Where that has no root the call is marked.

use std::cell::Cell;

#[derive(Clone, Copy, Debug)]
pub struct Check {
    pub signs: u8,
    pub label: u8,
    /// By the tests alone, 0 to 11.
    pub cause: u8,
    /// 0 after a yes.
    pub test: u8,
    /// What the attempt took the root of.
    pub argument: Option<f64>,
    /// Whether that is below zero or NaN.
    pub marked: bool,
}

impl Check {
    const NONE: Check =
        Check { signs: 0, label: 0, cause: 0, test: 0, argument: None, marked: false };

    /// The cause with the mark ahead of the tests. A yes stays one.
    pub fn told(&self) -> u8 {
        if self.marked && self.cause != 0 {
            NO_ROOT
        } else {
            self.cause
        }
    }
}

/// Two quartics of four roots each are the most that a shape tries.
const MOST: usize = 8;

/// The cause where no call was made.
pub const NO_CALL: u8 = 12;

/// The cause of a marked call that did not say yes.
pub const NO_ROOT: u8 = 13;

thread_local! {
    static CHECKS: Cell<[Check; MOST]> = const { Cell::new([Check::NONE; MOST]) };
    static COUNT: Cell<usize> = const { Cell::new(0) };
    /// What a root was taken of since the last call, for the next one.
    static ARGUMENT: Cell<Option<f64>> = const { Cell::new(None) };
}

pub fn clear() {
    COUNT.set(0);
    ARGUMENT.set(None);
}

/// Whoever makes more calls than a shape does, with no `clear` between them, must not ask.
pub fn checks() -> ([Check; MOST], usize) {
    let count = COUNT.get();
    assert!(count <= MOST, "{count} calls of check are more than the trace holds");
    (CHECKS.get(), count)
}

/// How many calls there were, and the cause of the last one.
pub fn last() -> (u8, u8) {
    let (checks, count) = checks();
    let cause = checks[..count].last().map_or(NO_CALL, Check::told);
    (count as u8, cause)
}

/// The square root, noted for the next call of `check`.
pub fn root(argument: f64) -> f64 {
    assert!(ARGUMENT.get().is_none(), "a second root is taken before the check of the first");
    ARGUMENT.set(Some(argument));
    argument.sqrt()
}

pub fn check(signs: u8, label: u8) {
    let mut checks = CHECKS.get();
    let count = COUNT.get();
    let argument = ARGUMENT.take();
    let marked = argument.is_some_and(|number| number < 0.0 || number.is_nan());
    checks[count % MOST] = Check { signs, label, argument, marked, ..Check::NONE };
    CHECKS.set(checks);
    COUNT.set(count + 1);
}

pub fn refuse(cause: u8, test: u8) -> bool {
    holds(false, cause, test)
}

pub fn holds(condition: bool, cause: u8, test: u8) -> bool {
    if !condition {
        let mut checks = CHECKS.get();
        let check = &mut checks[(COUNT.get() - 1) % MOST];
        (check.cause, check.test) = (cause, test);
        CHECKS.set(checks);
    }
    condition
}
