//! Functions that no line reaches. In: the bytes of a kind 00 frame with j_max and tf
//! after them, the first byte saying what is called: 00 `set_boundary`, `check` and
//! then `check_with_timing` on what `check` left, 01 `check_with_timing`, 02
//! `check_with_timing_full`; 04, 05 and 06 the same, with a mark for `check_with_timing` or
//! `check_with_timing_full`; or 03 and a number, for `is_finite`. Out: for each call the
//! verdict and the record as in a line's reply, and as in those of kinds 11 to 15 how many
//! calls of `check` this record has seen and the cause of the last one; or 00 or 01.
//!
//! A mark says that a square root of the attempt does not exist. The Rust has none, so what
//! it alters is written here: the cause is 13 wherever the marked call says no, also where
//! its jerk keeps it from `check`. All else is as without.

use crate::{bits, Lists};
use cases::any_line;
use cases::kinds::{Asks, Kind};
use cases::line::Line;
use cases::numbers::{any_finite, anything, edge, not_finite, ordinary, step};
use cases::random::Random;
use oracle::check::{LABELS, SIGNS};
use oracle::{causes, digits, frame};
use rsruckig::profile::{ControlSigns, Profile, ReachedLimits};
use rsruckig::trace;

/// J_EPS of the Rust.
const TOLERANCE: f64 = 1e-12;

/// The numbers that are asked to be finite, by their bits.
const EDGES: [u64; 16] = [
    0x0000_0000_0000_0000,
    0x8000_0000_0000_0000,
    0x0000_0000_0000_0001,
    0x8000_0000_0000_0001,
    0x000F_FFFF_FFFF_FFFF,
    0x0010_0000_0000_0000,
    0x7FEF_FFFF_FFFF_FFFF,
    0xFFEF_FFFF_FFFF_FFFF,
    0x7FF0_0000_0000_0000,
    0xFFF0_0000_0000_0000,
    0x7FF0_0000_0000_0001,
    0xFFF0_0000_0000_0001,
    0x7FF8_0000_0000_0000,
    0xFFF8_0000_0000_0000,
    0x7FFF_FFFF_FFFF_FFFF,
    0xFFFF_FFFF_FFFF_FFFF,
];

/// The first byte of a marked line is that of the same line without a mark and this.
const MARKED: u8 = 4;

/// By turns, half of them on lines that `check` says yes to, and the others on lines of each
/// cause of a no.
pub fn fill(lists: &mut Lists, random: &mut Random, count: usize) {
    for edge in EDGES {
        push_finite(lists, f64::from_bits(edge));
    }
    let mut came_up = CameUp::default();
    while lists.count < count {
        let turn = lists.count / 7;
        let cause = if turn % 2 == 0 { 0 } else { 1 + (turn / 2 % 11) as u8 };
        match (lists.count % 7) as u8 {
            3 => push_finite(lists, number(random)),
            what => came_up.add(what, push_record(lists, random, what, cause)),
        }
    }
    came_up.report(count);
}

/// What the last call of a line came to, but for its mark: a cause of `check`, or no call.
struct Outcome {
    cause: u8,
    kept_by_jerk: bool,
}

/// The lines that have to be among a thousand.
const WANTED: [(&str, fn(u8, &Outcome) -> bool); 7] = [
    ("02 kept from `check` by its jerk", |what, outcome| what == 2 && outcome.kept_by_jerk),
    ("06 kept from `check` by its jerk", |what, outcome| what == 6 && outcome.kept_by_jerk),
    ("04 with a yes", |what, outcome| what == 4 && outcome.cause == 0),
    ("05 with a yes", |what, outcome| what == 5 && outcome.cause == 0),
    ("06 with a yes", |what, outcome| what == 6 && outcome.cause == 0),
    ("05 with a negative time", |what, outcome| what == 5 && outcome.cause == 1),
    ("05 with another end position", |what, outcome| what == 5 && outcome.cause == 7),
];

#[derive(Default)]
struct CameUp {
    counts: [usize; WANTED.len()],
}

impl CameUp {
    fn add(&mut self, what: u8, outcome: Outcome) {
        for (total, (_, is_so)) in self.counts.iter_mut().zip(WANTED) {
            *total += is_so(what, &outcome) as usize;
        }
    }

    fn report(&self, count: usize) {
        for ((name, _), total) in WANTED.iter().zip(self.counts) {
            eprintln!("{total:>9} {name}");
            assert!(total > 0 || count < 1000, "no line of {count}: {name}");
        }
    }
}

fn number(random: &mut Random) -> f64 {
    match random.below(4) {
        0 => not_finite(random),
        1 => edge(random),
        2 => any_finite(random),
        // Any fraction under the exponent of the NaNs.
        _ => f64::from_bits(random.bits() | 0x7FF0_0000_0000_0000),
    }
}

fn push_finite(lists: &mut Lists, number: f64) {
    let answer = if number.is_finite() { "01" } else { "00" };
    lists.push(&format!("03{}", bits(number)), answer);
}

/// What a line of kind 00 says.
struct Asked {
    bytes: [u8; frame::LONGEST],
    numbers: [f64; 11],
}

impl Asked {
    fn new(characters: &[u8]) -> Self {
        let mut bytes = [0; frame::LONGEST];
        assert!(digits::read(characters, &mut bytes));
        let numbers = frame::numbers(&bytes, frame::CHECK_NUMBERS);
        Asked { bytes, numbers }
    }

    fn labels(&self) -> (ControlSigns, ReachedLimits) {
        let [_, signs, label, ..] = self.bytes;
        (SIGNS[signs as usize], LABELS[label as usize])
    }

    fn profile(&self) -> Profile {
        let [p0, v0, a0, pf, vf, af, ..] = self.numbers;
        let mut profile = Profile::default();
        profile.set_boundary(p0, v0, a0, pf, vf, af);
        profile.t = frame::numbers(&self.bytes, frame::CHECK_TIMES);
        profile
    }

    fn sets_limits(&self) -> bool {
        self.bytes[3] == 1
    }

    fn check(&self, profile: &mut Profile, set_limits: bool) -> bool {
        let [.., jf, v_max, v_min, a_max, a_min] = self.numbers;
        let (signs, label) = self.labels();
        profile.check(signs, label, set_limits, jf, v_max, v_min, a_max, a_min)
    }

    fn check_with_timing(&self, profile: &mut Profile) -> bool {
        let [.., jf, v_max, v_min, a_max, a_min] = self.numbers;
        let (signs, label) = self.labels();
        profile.check_with_timing(signs, label, jf, v_max, v_min, a_max, a_min)
    }

    fn check_full(&self, profile: &mut Profile, j_max: f64, tf: f64) -> bool {
        let [.., jf, v_max, v_min, a_max, a_min] = self.numbers;
        let (signs, label) = self.labels();
        profile.check_with_timing_full(signs, label, tf, jf, v_max, v_min, a_max, a_min, j_max)
    }
}

fn push_record(lists: &mut Lists, random: &mut Random, what: u8, cause: u8) -> Outcome {
    let called = what % MARKED;
    let mut line = Line::default();
    let asked = loop {
        any_line::accepted(random, Kind::asking(Asks::Check), &mut line);
        let asked = Asked::new(&line.characters);
        trace::clear();
        asked.check(&mut asked.profile(), called == 0 && asked.sets_limits());
        if trace::last() == (1, cause) {
            break asked;
        }
    };
    let j_max = limit(random, asked.numbers[6]);
    let tf = if random.once_in(4) { anything(random) } else { ordinary(random).abs() };
    line.characters[1] = b'0' + what;
    line.numbers(&[j_max, tf]);

    let mut profile = asked.profile();
    trace::clear();
    let mut output = Vec::new();
    if called == 0 {
        let yes = asked.check(&mut profile, asked.sets_limits());
        write(yes, false, &profile, &mut output);
    }
    let yes = match called {
        2 => asked.check_full(&mut profile, j_max, tf),
        _ => asked.check_with_timing(&mut profile),
    };
    write(yes, what >= MARKED, &profile, &mut output);
    lists.push_bytes(&line.characters, &output);
    let (count, cause) = trace::last();
    Outcome { cause, kept_by_jerk: count == 0 }
}

fn write(yes: bool, marked: bool, profile: &Profile, output: &mut Vec<u8>) {
    let (count, cause) = trace::last();
    let cause = if marked && !yes { trace::NO_ROOT } else { cause };
    let mut places = [0; frame::CAUSES_PLACES];
    causes::write_calls(yes, profile, (count, cause), &mut places);
    output.extend_from_slice(&places);
}

/// A limit of the jerk: mostly where the tolerance ends, or a step to either side.
fn limit(random: &mut Random, jf: f64) -> f64 {
    let size = match random.below(8) {
        0 => return anything(random),
        1 => jf.abs() + random.unit(),
        2 => 0.0,
        _ => {
            let wanted = step(jf.abs(), random.below(3) as i64 - 1);
            (-8..=8)
                .map(|steps| step(jf.abs() - TOLERANCE, steps).abs())
                .find(|size| size + TOLERANCE == wanted)
                .unwrap_or(jf.abs())
        }
    };
    size * random.sign()
}
