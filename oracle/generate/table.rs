//! The coverage as a table to read.

use crate::coverage::{Coverage, TESTS};
use crate::marks::{Marks, ARGUMENTS};
use cases::attempt::ATTEMPTS;
use cases::kinds::{Asks, Kind, KINDS};
use std::fmt::{Result, Write};

/// In the order of the text of `check`.
const TEST_NAMES: [&str; TESTS] = [
    "yes",
    "t[0] below zero",
    "t[1] to t[6] below zero",
    "t[3] too short",
    "t[1] too short",
    "t[5] too short",
    "total time",
    "velocity at zero acceleration",
    "end position",
    "end velocity",
    "end acceleration",
    "a[1] too low",
    "a[1] too high",
    "a[3] too low",
    "a[3] too high",
    "a[5] too low",
    "a[5] too high",
    "v[3] too high",
    "v[3] too low",
    "v[4] too high",
    "v[4] too low",
    "v[5] too high",
    "v[5] too low",
    "v[6] too high",
    "v[6] too low",
];

pub fn text(coverage: &Coverage) -> String {
    written(|text| {
        writeln!(text, "lines {}", coverage.lines)?;
        writeln!(text, "replies, then refusals 1 to 8 {:?}", coverage.refusals)?;
        checks(coverage, text)?;
        attempts(coverage, text)?;
        marks(coverage, text)?;
        rests(coverage, text)?;
        records(coverage, &KINDS, text)?;
        quartics(coverage, text)?;
        classes(coverage, &KINDS, text)
    })
}

/// Kind 00 alone.
pub fn text_of_checks(coverage: &Coverage) -> String {
    let kinds = &[*Kind::asking(Asks::Check)];
    written(|text| {
        writeln!(text, "lines {}", coverage.lines)?;
        checks(coverage, text)?;
        records(coverage, kinds, text)?;
        classes(coverage, kinds, text)
    })
}

fn written(write: impl Fn(&mut String) -> Result) -> String {
    let mut text = String::new();
    write(&mut text).expect("a string takes all");
    text
}

fn checks(coverage: &Coverage, text: &mut String) -> Result {
    writeln!(
        text,
        "kind 00: signs, label, set_limits; yes, then no by negative time, t[3], t[1], t[5],"
    )?;
    writeln!(
        text,
        "total, velocity at zero acceleration, end position, end velocity, end acceleration,"
    )?;
    writeln!(text, "acceleration limit, velocity limit (causes 0 to 11)")?;
    for signs in 0..2 {
        for label in 0..8 {
            for set_limits in 0..2 {
                let row = coverage.checks[signs][label][set_limits];
                writeln!(text, "  {signs} {label} {set_limits} {row:?}")?;
            }
        }
    }
    writeln!(text, "kind 00: the test of check that says no")?;
    for (name, count) in TEST_NAMES.iter().zip(coverage.tests) {
        writeln!(text, "  {name:<30}{count:>7}")?;
    }
    Ok(())
}

fn attempts(coverage: &Coverage, text: &mut String) -> Result {
    writeln!(text, "calls of check by attempt; by cause 0 (yes) to 11; yeses UP and DOWN")?;
    for (index, attempt) in ATTEMPTS.iter().enumerate() {
        let causes = coverage.attempts[index];
        let directions = coverage.directions[index];
        let kind = Kind::asking(Asks::Shape(attempt.shape)).number;
        writeln!(text, "  {kind:02X} {:?} {causes:?} {directions:?}", attempt.form)?;
    }
    writeln!(text, "lines by how many calls of check, 0 to 8")?;
    for kind in KINDS.iter().filter(|kind| kind.shape().is_some()) {
        writeln!(text, "  {:02X} {:?}", kind.number, coverage.of(kind).calls)?;
    }
    writeln!(text, "lines by the cause of the last call of check, 0 to 13")?;
    for kind in KINDS.iter().filter(|kind| kind.replies_causes()) {
        writeln!(text, "  {:02X} {:?}", kind.number, coverage.of(kind).lasts)?;
    }
    Ok(())
}

fn marks(coverage: &Coverage, text: &mut String) -> Result {
    writeln!(text, "kinds 11 to 15: square roots by attempt; of {}", ARGUMENTS.join(", of "))?;
    let taken = || ATTEMPTS.iter().zip(&coverage.marks).filter(|(attempt, _)| attempt.takes_root());
    for (attempt, marks) in taken() {
        writeln!(text, "  {:?} {:?}", attempt.form, marks.arguments)?;
    }
    writeln!(text, "calls marked for want of a root; by cause 0 to 11 but for the mark; as last")?;
    writeln!(text, "by argument; in front of a last call that is not marked and says no, yes")?;
    for (attempt, Marks { causes, lasts, earlier, .. }) in taken() {
        writeln!(text, "  {:?} {causes:?} {lasts:?} {earlier:?}", attempt.form)?;
    }
    Ok(())
}

fn rests(coverage: &Coverage, text: &mut String) -> Result {
    writeln!(
        text,
        "kind 08 with both ends at rest: no, yes; yeses by jerk not negative, negative"
    )?;
    writeln!(text, "  {:?}", coverage.rests)?;
    for (velocities, jerks) in ["not 0", "both 0"].iter().zip(coverage.rest_yeses) {
        writeln!(text, "  velocities {velocities} {jerks:?}")?;
    }
    Ok(())
}

fn records(coverage: &Coverage, kinds: &[Kind], text: &mut String) -> Result {
    writeln!(text, "replies: kind, verdict, label; by UP UDDU, UP UDUD, DOWN UDDU, DOWN UDUD")?;
    for kind in kinds {
        let number = kind.number;
        for (verdict, labels) in coverage.of(kind).records.iter().enumerate() {
            for (label, [up, down]) in labels.iter().enumerate() {
                if up.iter().chain(down).any(|count| *count > 0) {
                    writeln!(text, "  {number:02X} {verdict} {label} {up:?} {down:?}")?;
                }
            }
        }
    }
    Ok(())
}

fn quartics(coverage: &Coverage, text: &mut String) -> Result {
    writeln!(text, "quartics: kind, signs; by need 00 to 02; yeses by need")?;
    for kind in KINDS.iter().filter(|kind| kind.quartics_of().is_some()) {
        let number = kind.number;
        for signs in 0..2 {
            let needs = coverage.of(kind).needs[signs];
            let yeses = coverage.of(kind).yes_needs[signs];
            writeln!(text, "  {number:02X} {signs} {needs:?} {yeses:?}")?;
        }
    }
    writeln!(text, "root answers: need; by count 0 to 3")?;
    for (need, row) in coverage.counts.iter().enumerate() {
        writeln!(text, "  {need:02X} {row:?}")?;
    }
    Ok(())
}

fn classes(coverage: &Coverage, kinds: &[Kind], text: &mut String) -> Result {
    writeln!(text, "replies that hold NaN, infinity, -0, a subnormal")?;
    for kind in kinds {
        writeln!(text, "  {:02X} {:?}", kind.number, coverage.of(kind).classes)?;
    }
    Ok(())
}
