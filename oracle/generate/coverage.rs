//! Counts what came up, by asking the oracle for each line.

use crate::marks::Marks;
use cases::attempt::{at_rest, index_of_call, ATTEMPTS};
use cases::kinds::{Kind, Shape, COUNT};
use oracle::quartics::{need, polynoms};
use oracle::{answer, answer_line, digits, frame, shapes};
use rsruckig::trace;

/// A yes, and those of the tests of `check`.
pub const CAUSES: usize = 12;

/// These, no call, and no root.
pub const LASTS: usize = CAUSES + 2;

/// A yes, and the tests in the text of `check`.
pub const TESTS: usize = 25;

#[derive(Default)]
pub struct Coverage {
    pub lines: u64,
    /// By number; 0 counts the replies.
    pub refusals: [u64; 9],
    /// Kind 00 by signs, label and set_limits of the line, then by cause.
    pub checks: [[[[u64; CAUSES]; 2]; 8]; 2],
    /// Kind 00 by the test that said no.
    pub tests: [u64; TESTS],
    /// The calls of `check` by attempt and cause.
    pub attempts: [[u64; CAUSES]; ATTEMPTS.len()],
    /// The yeses by attempt and direction.
    pub directions: [[u64; 2]; ATTEMPTS.len()],
    /// The square roots of kinds 11 to 15 by attempt.
    pub marks: [Marks; ATTEMPTS.len()],
    /// Lines of kind 08 with both ends at rest by verdict; and the yeses among them by whether
    /// both velocities are 0, and by whether the jerk is negative.
    pub rests: [u64; 2],
    pub rest_yeses: [[u64; 2]; 2],
    /// Accepted root answers by need and count.
    pub counts: [[u64; 4]; 3],
    kinds: [OfKind; COUNT],
}

/// What is counted for each kind by itself.
#[derive(Default)]
pub struct OfKind {
    /// Lines by how many calls of `check` their shape made.
    pub calls: [u64; 9],
    /// Lines of kinds 11 to 15 by the cause in the reply.
    pub lasts: [u64; LASTS],
    /// Replies by verdict, label, direction and signs.
    pub records: [[[[u64; 2]; 2]; 8]; 2],
    /// Lines with two quartics by signs and need.
    pub needs: [[u64; 3]; 2],
    /// Yeses by signs and by the need of the deciding quartic.
    pub yes_needs: [[u64; 3]; 2],
    /// Replies that hold a NaN, an infinity, a -0, a subnormal.
    pub classes: [u64; 4],
}

impl Coverage {
    pub fn of(&self, kind: &Kind) -> &OfKind {
        &self.kinds[kind.row()]
    }

    pub fn add(&mut self, request: &[u8]) {
        self.lines += 1;
        trace::clear();
        let mut places = [b'-'; frame::LONGEST_REPLY];
        let answer = answer(request, &mut places);
        self.refusals[answer.err().unwrap_or(0) as usize] += 1;
        let Ok(kind) = answer else {
            assert!(places.iter().all(|place| *place == b'-'));
            return;
        };
        let mut bytes = [0; frame::LONGEST];
        digits::read(request, &mut bytes);
        if kind.replies_record() {
            self.add_record(kind, &bytes, &places);
        }
        self.add_needs(kind, &bytes, &places);
        self.add_classes(kind, &places);
        self.add_short(request, kind);
    }

    fn add_record(&mut self, kind: &Kind, bytes: &[u8; frame::LONGEST], places: &[u8]) {
        let mut head = [0; 4];
        digits::read(&places[..8], &mut head);
        let [verdict, label, direction, signs] = head.map(usize::from);
        let of_kind = &mut self.kinds[kind.row()];
        of_kind.records[verdict][label][direction][signs] += 1;

        let (checks, count) = trace::checks();
        let Some(shape) = kind.shape() else {
            let [_, signs, label, set_limits, ..] = bytes.map(usize::from);
            self.checks[signs][label][set_limits][checks[0].cause as usize] += 1;
            self.tests[checks[0].test as usize] += 1;
            return;
        };
        of_kind.calls[count] += 1;
        if kind.replies_causes() {
            let mut calls = [0; 2];
            digits::read(&places[frame::RECORD_PLACES..], &mut calls);
            assert_eq!(calls[0] as usize, count);
            of_kind.lasts[calls[1] as usize] += 1;
        }
        let numbers: [f64; 12] = frame::numbers(bytes, frame::NUMBERS);
        if shape == Shape::RestToRest && at_rest(&numbers) {
            self.add_rest(verdict, &numbers, places);
        }
        for (turn, check) in checks[..count].iter().enumerate() {
            let index = index_of_call(shape, check.signs, check.label, at_rest(&numbers));
            self.attempts[index][check.cause as usize] += 1;
            self.directions[index][direction] += (check.cause == 0) as u64;
            if kind.replies_causes() {
                self.marks[index].add(check, turn + 1 == count, &checks[count - 1]);
            }
        }
    }

    fn add_rest(&mut self, verdict: usize, numbers: &[f64; 12], places: &[u8]) {
        let [_, _, v0, _, _, vf, ..] = *numbers;
        let mut reply = [0; frame::RECORD_PLACES / 2];
        digits::read(&places[..frame::RECORD_PLACES], &mut reply);
        let jerks: [f64; 7] = frame::numbers(&reply, 4 + 2 * 7 * 8);
        let still = v0 == 0.0 && vf == 0.0;
        let negative = jerks[0] < 0.0;
        self.rests[verdict] += 1;
        self.rest_yeses[still as usize][negative as usize] += verdict as u64;
    }

    fn add_needs(&mut self, kind: &Kind, bytes: &[u8; frame::LONGEST], places: &[u8]) {
        let Some(shape) = kind.quartics_of() else {
            return;
        };
        let numbers: [f64; 12] = frame::numbers(bytes, frame::NUMBERS);
        let polynoms = polynoms(shape, &shapes::solver(&numbers), &numbers);
        let of_kind = &mut self.kinds[kind.row()];
        for signs in 0..2 {
            let need = need(&polynoms[signs]) as usize;
            of_kind.needs[signs][need] += 1;
            if kind.has_answers() {
                let count = bytes[frame::ANSWERS + signs * frame::ANSWER_LENGTH];
                self.counts[need][count as usize] += 1;
                let yes = places[1] == b'1' && places[7] == b'0' + signs as u8;
                of_kind.yes_needs[signs][need] += yes as u64;
            }
        }
    }

    fn add_classes(&mut self, kind: &Kind, places: &[u8]) {
        let mut reply = [0; frame::LONGEST_REPLY / 2];
        digits::read(&places[..kind.places], &mut reply);
        let numbers: Vec<f64> = if kind.replies_record() {
            frame::numbers::<45>(&reply, 4).to_vec()
        } else {
            let halves = [frame::numbers::<7>(&reply, 1), frame::numbers::<7>(&reply, 58)];
            halves.concat()
        };
        let any = |class: fn(&f64) -> bool| numbers.iter().any(class) as u64;
        let classes = &mut self.kinds[kind.row()].classes;
        classes[0] += any(|number| number.is_nan());
        classes[1] += any(|number| number.is_infinite());
        classes[2] += any(|number| number.to_bits() == 1 << 63);
        classes[3] += any(|number| number.is_subnormal());
    }

    /// Question 8: the accepted line again, now with one place too few.
    fn add_short(&mut self, request: &[u8], kind: &Kind) {
        let mut places = [b'-'; frame::LONGEST_REPLY];
        let number = answer_line(request, &mut places[..kind.places - 1]);
        assert!(number == 8 && places.iter().all(|place| *place == b'-'));
        self.refusals[8] += 1;
    }
}
