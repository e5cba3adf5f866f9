//! Which cases can come up. Each of these has to; each of the others must not, or
//! the reasons below are wrong.

use crate::coverage::{Coverage, CAUSES};
use crate::marks::ARGUMENTS;
use cases::attempt::{Attempt, Form, ATTEMPTS};
use cases::kinds::{Asks, Kind, Shape, KINDS};
use rsruckig::trace::{NO_CALL, NO_ROOT};

/// What is missing, and what should not have come up.
#[derive(Default)]
pub struct Faults {
    pub texts: Vec<String>,
}

/// Of all kinds.
pub fn faults(coverage: &Coverage) -> Faults {
    let mut faults = Faults::default();
    for (number, count) in coverage.refusals.iter().enumerate() {
        faults.hold(true, *count, format!("refusal {number}"));
    }
    faults.checks(coverage);
    faults.attempts(coverage);
    faults.marks(coverage);
    for kind in KINDS.iter().filter(|kind| kind.replies_record()) {
        faults.records(coverage, kind);
    }
    for kind in KINDS.iter().filter(|kind| kind.replies_causes()) {
        faults.calls(coverage, kind);
    }
    faults.rests(coverage);
    faults.quartics(coverage);
    for kind in &KINDS {
        faults.classes(coverage, kind);
    }
    faults
}

/// Of kind 00 alone, where each test has to say no; some are rare among lines of all kinds.
pub fn faults_of_checks(coverage: &Coverage) -> Faults {
    let kind = Kind::asking(Asks::Check);
    let mut faults = Faults::default();
    faults.checks(coverage);
    faults.tests(coverage);
    faults.records(coverage, kind);
    faults.classes(coverage, kind);
    faults
}

impl Faults {
    fn hold(&mut self, can: bool, count: u64, name: String) {
        match (can, count > 0) {
            (true, false) => self.texts.push(format!("never came up: {name}")),
            (false, true) => self.texts.push(format!("should not come up: {name}")),
            _ => {}
        }
    }

    fn checks(&mut self, coverage: &Coverage) {
        for signs in 0..2 {
            for label in 0..8 {
                for set_limits in 0..2 {
                    for cause in 0..CAUSES {
                        self.hold(
                            label_has(label as u8, cause),
                            coverage.checks[signs][label][set_limits][cause],
                            format!(
                                "kind 00, signs {signs}, label {label}, \
                                 set_limits {set_limits}, cause {cause}"
                            ),
                        );
                    }
                }
            }
        }
    }

    fn tests(&mut self, coverage: &Coverage) {
        for (test, count) in coverage.tests.iter().enumerate() {
            self.hold(true, *count, format!("kind 00, test {test}"));
        }
    }

    fn attempts(&mut self, coverage: &Coverage) {
        for (index, attempt) in ATTEMPTS.iter().enumerate() {
            let form = attempt.form;
            for cause in 0..CAUSES {
                let count = coverage.attempts[index][cause];
                self.hold(attempt_has(attempt, cause), count, format!("{form:?}, cause {cause}"));
            }
            for direction in 0..2 {
                let count = coverage.directions[index][direction];
                self.hold(true, count, format!("{form:?}, yes, direction {direction}"));
            }
        }
    }

    fn marks(&mut self, coverage: &Coverage) {
        for (attempt, marks) in ATTEMPTS.iter().zip(&coverage.marks) {
            let form = attempt.form;
            for (of, count) in ARGUMENTS.iter().zip(marks.arguments) {
                self.hold(attempt.takes_root(), count, format!("{form:?}, root of {of}"));
            }
            for (cause, count) in marks.causes.iter().enumerate() {
                let can = marked_has(attempt, cause);
                self.hold(can, *count, format!("{form:?}, marked, cause {cause} but for that"));
            }
            for (argument, count) in marks.lasts.iter().enumerate() {
                let can = argument > 0 && mark_is_last(attempt);
                let of = ARGUMENTS[argument];
                self.hold(can, *count, format!("{form:?}, marked by {of} as last call"));
            }
            for (verdict, count) in marks.earlier.iter().enumerate() {
                let can = mark_is_earlier(attempt);
                let name = format!("{form:?}, marked, last call not marked, verdict {verdict}");
                self.hold(can, *count, name);
            }
        }
    }

    fn records(&mut self, coverage: &Coverage, kind: &Kind) {
        let number = kind.number;
        for verdict in 0..2 {
            for label in 0..8 {
                for signs in 0..2 {
                    for direction in 0..2 {
                        self.hold(
                            record_comes_up(kind, verdict, label as u8, signs as u8),
                            coverage.of(kind).records[verdict][label][direction][signs],
                            format!(
                                "kind {number:02X}, verdict {verdict}, label {label}, \
                                 direction {direction}, signs {signs}"
                            ),
                        );
                    }
                }
            }
        }
    }

    fn calls(&mut self, coverage: &Coverage, kind: &Kind) {
        let number = kind.number;
        let shape = kind.shape().expect("a kind that runs a shape");
        for (count, lines) in coverage.of(kind).calls.iter().enumerate() {
            let can = count_comes_up(shape, count);
            self.hold(can, *lines, format!("kind {number:02X}, {count} calls"));
        }
        for (cause, lines) in coverage.of(kind).lasts.iter().enumerate() {
            let can = last_comes_up(shape, cause);
            self.hold(can, *lines, format!("kind {number:02X}, cause {cause} of the last call"));
        }
    }

    fn rests(&mut self, coverage: &Coverage) {
        let [noes, yeses] = coverage.rests;
        self.hold(true, yeses.saturating_sub(noes), "kind 08 at rest, more yeses than noes".into());
        for (velocities, jerks) in ["not 0", "both 0"].iter().zip(&coverage.rest_yeses) {
            for (jerk, count) in ["not negative", "negative"].iter().zip(jerks) {
                let name = format!("kind 08, yes, velocities {velocities}, jerk {jerk}");
                self.hold(true, *count, name);
            }
        }
    }

    fn quartics(&mut self, coverage: &Coverage) {
        for (kind, shape) in KINDS.iter().filter_map(|kind| Some((kind, kind.quartics_of()?))) {
            let number = kind.number;
            let of_kind = coverage.of(kind);
            for signs in 0..2 {
                for need in 0..3 {
                    let name = format!("kind {number:02X}, signs {signs}, need {need:02X}");
                    let can = need_comes_up(shape, need);
                    self.hold(can, of_kind.needs[signs][need], name.clone());
                    let yes = kind.has_answers() && need != 1;
                    self.hold(yes, of_kind.yes_needs[signs][need], format!("{name}, yes"));
                }
            }
        }
        for need in 0..3 {
            for count in 0..4 {
                let suits = [true, count == 0, count > 0][need];
                let name = format!("need {need:02X}, count {count}");
                self.hold(suits, coverage.counts[need][count], name);
            }
        }
    }

    fn classes(&mut self, coverage: &Coverage, kind: &Kind) {
        let number = kind.number;
        let counts = &coverage.of(kind).classes;
        for (class, count) in ["NaN", "infinity", "-0", "subnormal"].iter().zip(counts) {
            self.hold(true, *count, format!("kind {number:02X}, reply with {class}"));
        }
    }
}

/// Causes 2, 3 and 4 are the tests of t[3], t[1] and t[5], which only some labels
/// have.
fn label_has(label: u8, cause: usize) -> bool {
    match cause {
        2 => matches!(label, 0 | 1 | 5 | 6),
        3 => matches!(label, 2 | 4),
        4 => matches!(label, 3 | 4),
        _ => true,
    }
}

/// In the rest formula, kind 08's too, t[6] is t[4] and a[3] becomes 0, so a[7] is 0 exactly or
/// not finite. Then no product of neighbouring accelerations after phase 1 is
/// below zero (cause 6), and an a[7] that is not finite comes with a p[7] that is
/// not (cause 9 after cause 7).
fn attempt_has(attempt: &Attempt, cause: usize) -> bool {
    let rest = matches!(attempt.form, Form::Acc0Acc1Rest | Form::RestToRest);
    label_has(attempt.label, cause) && !(rest && matches!(cause, 6 | 9))
}

/// What a mark stands ahead of. A root that does not exist is NaN, and so are the times that it
/// goes into. None of those is below zero or too short, and the total is NaN as well. From
/// there on every velocity is NaN, which no limit forbids (cause 6), and so is the last
/// position (cause 7), unless another time is below zero (cause 1). The second attempt of the
/// fourth shape has no such time: its jerk is NaN, and each time but t[3], which is 0, is
/// divided by that.
fn marked_has(attempt: &Attempt, cause: usize) -> bool {
    attempt.takes_root()
        && match cause {
            1 => attempt.form != Form::Acc0Acc1Uddu,
            7 => true,
            _ => false,
        }
}

/// After a no the fifth shape goes on to its third attempt whatever becomes of the others.
/// The second of the first shape may be passed over.
fn mark_is_last(attempt: &Attempt) -> bool {
    attempt.takes_root() && !matches!(attempt.form, Form::Acc0UdudNone | Form::Acc0UdduNone)
}

/// Where an attempt may follow. The first of the fifth shape has no root only where the motions
/// of the other two do not exist either; they say yes all the same to a move so small that
/// nothing is missed by it (`shape_line`'s `sometimes_tiny`).
fn mark_is_earlier(attempt: &Attempt) -> bool {
    matches!(attempt.form, Form::Acc0Acc1VelUddu | Form::Acc0UdudNone | Form::Acc0UdduNone)
}

/// A yes has the label and signs of the attempt that said it. After a no they are
/// those of the last attempt that got past the phases, or the default None and
/// UDDU, where the direction may be set all the same (cause 6). A kind 00 line that
/// stops early leaves None and UDDU whatever its label and signs.
fn record_comes_up(kind: &Kind, verdict: usize, label: u8, signs: u8) -> bool {
    let default = verdict == 0 && label == 7 && signs == 0;
    default
        || match kind.shape() {
            Some(shape) => ATTEMPTS.iter().any(|other| other.calls_so(shape, signs, label)),
            None => true,
        }
}

/// How often a shape can call `check`; a yes ends all of them.
///
/// The first has two attempts, each under a condition of its own, so none, one or both.
/// The fourth has one call, whichever of its two branches it takes, and so has kind 08. The
/// fifth has three attempts and nothing that would pass one over.
///
/// The second and the third call it for each root of two quartics that lies within the
/// times of the attempt. A quartic has four roots at most, two of each of the factors
/// x² + p x + q that it is parted into, and none that is below zero. The second shape can
/// have all eight. In the third's quartics c is 0 and one's a is the other's with the sign
/// changed, so that one has an a not below zero. That one has three roots at most, which
/// leaves seven: if it needs no answer, they are 0 and two more; and else one of its factors,
/// too, has a p not below zero, whose root (-p - r) / 2 is. For the p are a q1 / (q1 - q2)
/// and -a q2 / (q1 - q2), where q1 is not below q2, or (a + r) / 2 and (a - r) / 2; each r is
/// a square root.
fn count_comes_up(shape: Shape, count: usize) -> bool {
    match shape {
        Shape::Acc0Acc1Vel => count <= 2,
        Shape::Acc1Vel => count <= 8,
        Shape::Acc0Vel => count <= 7,
        Shape::Acc0Acc1 | Shape::RestToRest => count == 1,
        Shape::Acc0 => (1..=3).contains(&count),
    }
}

/// After a no the last call was made with the label of the shape's last attempt: the fifth
/// shape gets to its third attempt, and in the other shapes all have the same label. The second
/// shape and the third take no square root but in their quartics.
fn last_comes_up(shape: Shape, cause: usize) -> bool {
    const CALL: usize = NO_CALL as usize;
    const ROOT: usize = NO_ROOT as usize;
    let mut attempts = ATTEMPTS.iter().filter(|attempt| attempt.shape == shape);
    match cause {
        CALL => count_comes_up(shape, 0),
        ROOT => attempts.any(mark_is_last),
        _ => attempt_has(attempts.last().expect("a last attempt"), cause),
    }
}

/// The third shape's quartics have c = 0, so they need no cube root.
///
/// A yes after need 01 does not come up either. There a = b = 0 up to EPS, which
/// makes a_min (UDDU) or a_max (UDUD) twice a0 and fixes vd; UDDU's t[3] is then
/// -(x²/2 + x + 1) |a0 / j_max| with x = t |j_max / a0|, below zero for every t,
/// and UDUD's only root that the motion has is 0, where t[3] is -|a0 / j_max|.
fn need_comes_up(shape: Shape, need: usize) -> bool {
    need != 1 || shape == Shape::Acc1Vel
}
