//! Lines of kinds 11 to 15: the traced copy's reply begins with what the plain copy answers
//! to the same line of kinds 01 to 05, and its last two bytes are what the trace holds, what
//! the verdict allows, and what the record says when `check` is worked through once more. The
//! mark of a root that does not exist is held against the record too (marks.rs).

use crate::marks;
use cases::kinds::{Kind, Shape};
use oracle::{answer, digits, frame};
use rsruckig::trace;

/// The cause, if the line is one that was accepted. It may be any line that begins as one of
/// kinds 11 to 15 does.
pub fn test(request: &[u8], lent: usize) -> Option<u8> {
    let mut places = [b'-'; frame::LONGEST_REPLY];
    let answer = answer(request, &mut places[..lent]);
    let mut shape_line = request.to_vec();
    shape_line[0] = b'0';
    let mut wanted = [b'-'; frame::LONGEST_REPLY];
    let mut number = plain::answer_line(&shape_line, &mut wanted[..lent]);
    if number == 0 && lent < frame::CAUSES_PLACES {
        number = 8;
        wanted.fill(b'-');
    }
    assert_eq!(answer.err().unwrap_or(0), number);
    assert_eq!(places[..frame::RECORD_PLACES], wanted[..frame::RECORD_PLACES]);
    if answer.is_err() {
        assert!(places.iter().all(|place| *place == b'-'));
    }
    answer.ok().map(|kind| last_bytes(kind, request, &places))
}

fn last_bytes(kind: &Kind, request: &[u8], places: &[u8]) -> u8 {
    let mut reply = [0; frame::CAUSES_PLACES / 2];
    assert!(digits::read(places, &mut reply));
    let [verdict, .., count, cause] = reply;
    assert_eq!(cause == 0, verdict == 1);
    assert_eq!(cause == trace::NO_CALL, count == 0);
    let (checks, calls) = trace::checks();
    assert_eq!(calls, count as usize);
    let checks = &checks[..calls];

    let mut bytes = [0; frame::LONGEST];
    digits::read(request, &mut bytes);
    let numbers: [f64; 12] = frame::numbers(&bytes, frame::NUMBERS);
    let shape = kind.shape().expect("a kind that runs a shape");
    let by_tests = worked_through(shape, count, &numbers, &reply);
    let text = String::from_utf8_lossy(request);
    assert_eq!(checks.last().map_or(trace::NO_CALL, |check| check.cause), by_tests, "{text}");
    marks::test(shape, &numbers, checks);
    if checks.last().is_some_and(|check| check.marked) {
        assert_eq!(cause, trace::NO_ROOT, "{text}");
        marks::test_last(shape, count, &frame::numbers(&reply, 4));
    } else {
        assert_eq!(cause, by_tests, "{text}");
    }
    cause
}

/// The cause, but for a mark, by the record that the last call left: it has the times that
/// `check` was given and all that it worked out of them.
fn worked_through(shape: Shape, count: u8, asked: &[f64; 12], reply: &[u8]) -> u8 {
    let [.., pf, vf, af, v_max, v_min, a_max, a_min, _] = *asked;
    let record: [f64; 45] = frame::numbers(reply, 4);
    let (times, rest) = record.split_at(7);
    let (sums, rest) = rest.split_at(7);
    let (j, rest) = rest.split_at(7);
    let (a, rest) = rest.split_at(8);
    let (v, p) = rest.split_at(8);
    let order = |max: f64, min: f64| if v_max > 0.0 { (min, max) } else { (max, min) };
    let outside =
        |number: f64, (low, high): (f64, f64)| !(number >= low - 1e-12 && number <= high + 1e-12);
    let (v_limits, a_limits) = (order(v_max, v_min), order(a_max, a_min));

    let too_short = |phase: usize| times[phase] < f64::EPSILON;
    let [t1, t3, t5] = match shape {
        Shape::Acc0Acc1Vel | Shape::Acc1Vel | Shape::Acc0Vel => [false, true, false],
        Shape::Acc0Acc1 | Shape::RestToRest => [true, false, true],
        // The third attempt alone has a label that asks for it.
        Shape::Acc0 => [count == 3, false, false],
    };
    // Where the acceleration passes through zero.
    let turn = |phase: usize| v[phase] - a[phase] * a[phase] / (2.0 * j[phase]);
    let turns = |phase: &usize| a[phase + 1] * a[*phase] < -f64::EPSILON;
    // A turn that is no number is not outside.
    let turns_outside = |phase: usize| !turn(phase).is_nan() && outside(turn(phase), v_limits);
    let tests = [
        (count == 0, 12),
        (times.iter().any(|time| *time < 0.0), 1),
        (t3 && too_short(3), 2),
        (t1 && too_short(1), 3),
        (t5 && too_short(5), 4),
        (sums[6] > 1e12, 5),
        ((2..7).filter(turns).any(turns_outside), 6),
        (!((p[7] - pf).abs() < 1e-8), 7),
        (!((v[7] - vf).abs() < 1e-8), 8),
        (!((a[7] - af).abs() < 1e-10), 9),
        ([1, 3, 5].iter().any(|phase| outside(a[*phase], a_limits)), 10),
        ([3, 4, 5, 6].iter().any(|phase| outside(v[*phase], v_limits)), 11),
    ];
    tests.iter().find(|(fails, _)| *fails).map_or(0, |(_, cause)| *cause)
}
