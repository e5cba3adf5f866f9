//! The marks of square roots that do not exist, in the calls of `check` of a line of kinds 11
//! to 15.

use cases::attempt::{at_rest, index_of_call, ATTEMPTS};
use cases::kinds::{Asks, Kind, Shape};
use cases::line::Line;
use oracle::{answer_line, frame};
use rsruckig::trace::Check;

/// A move from position 0 and velocity 0 to acceleration 0, under velocity limits of 1.
struct Move {
    shape: Shape,
    tf: f64,
    a0: f64,
    pf: f64,
    vf: f64,
    a_min: f64,
    /// a_max and j_max.
    one: f64,
}

/// Moves worked by hand, each with the count and the cause at the end of the reply. It stops
/// at one that does not hold.
pub fn worked() -> usize {
    let fifth =
        Move { shape: Shape::Acc0, tf: 0.0, a0: 0.0, pf: 2.0, vf: 1.0, a_min: -1.0, one: 1.0 };
    let fourth = Move { shape: Shape::Acc0Acc1, a0: 1.0, pf: 1.0, vf: 0.0, ..fifth };
    let first = Move { shape: Shape::Acc0Acc1Vel, tf: 4.0, vf: 0.0, a_min: -0.5, ..fifth };
    let rows = [
        // The third attempt's root is that of 4 0² - 18 4³.
        (&fifth, "030D"),
        // There the first's is that of 0 / 0, but the third's that of 0: the times are NaN by a
        // quotient.
        (&Move { pf: 0.0, vf: 0.0, a_min: 0.0, one: 0.0, ..fifth }, "0307"),
        // That of 144 0² - 48 11 4.
        (&fourth, "010D"),
        // That of 0, which makes a jerk of 0 / 0.
        (&Move { pf: 0.0, ..fourth }, "0107"),
        // That of 42.25 - 24 pf; UDUD is passed over.
        (&first, "010D"),
        (&Move { pf: 1.0, ..first }, "0101"),
        // That of 72.25 - 24 pf; UDUD's t[5] is -2.
        (&Move { tf: 5.0, pf: 4.0, ..first }, "0201"),
    ];
    for (row, (asked, wanted)) in rows.iter().enumerate() {
        assert_eq!(end_of_reply(asked), wanted.as_bytes(), "row {row} of the marks");
    }
    rows.len()
}

fn end_of_reply(asked: &Move) -> [u8; 4] {
    let Move { shape, tf, a0, pf, vf, a_min, one } = *asked;
    let mut line = Line::default();
    line.byte(Kind::asking(Asks::Causes(shape)).number);
    line.numbers(&[tf, 0.0, 0.0, a0, pf, vf, 0.0, 1.0, -1.0, one, a_min, one]);
    let mut places = [0; frame::CAUSES_PLACES];
    assert_eq!(answer_line(&line.characters, &mut places), 0);
    *places.last_chunk().expect("four places")
}

/// Each call has a root if its attempt takes one, and a mark only if it is no yes. The mark of
/// the fifth shape's first attempt is worked out once more.
pub fn test(shape: Shape, numbers: &[f64; 12], checks: &[Check]) {
    for check in checks {
        let index = index_of_call(shape, check.signs, check.label, at_rest(numbers));
        assert_eq!(check.argument.is_some(), ATTEMPTS[index].takes_root());
        assert!(check.cause != 0 || !check.marked);
    }
    if shape == Shape::Acc0 {
        assert_eq!(checks[0].marked, !has_root(first_of_acc0(numbers)));
    }
}

/// -0 has one, as every number that is not below zero.
fn has_root(number: f64) -> bool {
    number >= 0.0
}

/// The square of that attempt's t[2], which is its root: what a_max for the whole of tf would
/// add to the velocity beyond its change, over j_max, less the part of the ramps. Each
/// operation is rounded as in the Rust.
fn first_of_acc0(numbers: &[f64; 12]) -> f64 {
    let [tf, _, v0, a0, _, vf, af, _, _, a_max, _, j_max] = *numbers;
    let square = j_max * j_max;
    let change = af - a0;
    let ramp = change * change / (2.0 * square) - change * (a_max - a0) / square;
    ramp + (a_max * tf - (vf - v0)) / j_max
}

/// A marked last call: the shape has an attempt that takes a root and may be its last, and the
/// times of the record that the root goes into are NaN.
pub fn test_last(shape: Shape, count: u8, times: &[f64; 7]) {
    let (calls, without): (u8, &[usize]) = match shape {
        Shape::Acc0Acc1Vel => (1, &[1, 3, 5]),
        Shape::Acc0Acc1 => (1, &[0, 1, 2, 4, 5, 6]),
        Shape::Acc0 => (3, &[1, 2, 3, 4]),
        _ => panic!("{shape:?} takes no square root"),
    };
    assert_eq!(count, calls);
    assert!(without.iter().all(|phase| times[*phase].is_nan()));
}
