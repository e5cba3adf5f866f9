//! `profile.rs`, traced copy only: each way out of `check` reports its cause, and which of
//! the tests in the text of `check` it is, counted from 1. Causes are 0 yes, 1 negative
//! time, 2 t[3], 3 t[1], 4 t[5], 5 total, 6 velocity at zero acceleration, 7 end position,
//! 8 end velocity, 9 end acceleration, 10 acceleration limit, 11 velocity limit.
//!
//! Both tables name the tests as they stand in the Rust, in its order, so that no cause is
//! given to another test and the earliest failing one is the one reported.

use crate::text::{between, fail, replace};

/// What stands before each `return false`.
const RETURNS: [(&str, u8); 7] = [
    ("self.t[0] < 0.0", 1),
    ("self.t[i + 1] < 0.0", 1),
    ("self.t[3] < f64::EPSILON", 2),
    ("self.t[1] < f64::EPSILON", 3),
    ("self.t[5] < f64::EPSILON", 4),
    ("self.t_sum[6] > T_MAX", 5),
    ("v_a_zero > v_upp_lim || v_a_zero < v_low_lim", 6),
];

/// The last expression, which holds one comparison a line: the ends, then the
/// accelerations, then the velocities.
const CONJUNCTS: [(&str, u8); 17] = [
    ("(self.p[7] - self.pf).abs() < P_PRECISION", 7),
    ("(self.v[7] - self.vf).abs() < V_PRECISION", 8),
    ("(self.a[7] - self.af).abs() < A_PRECISION", 9),
    ("self.a[1] >= a_low_lim", 10),
    ("self.a[1] <= a_upp_lim", 10),
    ("self.a[3] >= a_low_lim", 10),
    ("self.a[3] <= a_upp_lim", 10),
    ("self.a[5] >= a_low_lim", 10),
    ("self.a[5] <= a_upp_lim", 10),
    ("self.v[3] <= v_upp_lim", 11),
    ("self.v[3] >= v_low_lim", 11),
    ("self.v[4] <= v_upp_lim", 11),
    ("self.v[4] >= v_low_lim", 11),
    ("self.v[5] <= v_upp_lim", 11),
    ("self.v[5] >= v_low_lim", 11),
    ("self.v[6] <= v_upp_lim", 11),
    ("self.v[6] >= v_low_lim", 11),
];

pub fn trace(source: &str) -> String {
    let check =
        between(source, "    pub fn check(\n", "    #[inline]\n    pub fn check_with_timing(");
    let traced = replace(
        check,
        "    ) -> bool {\n",
        "    ) -> bool {\n        crate::trace::check(control_signs as u8, limits as u8);\n",
        1,
    );
    replace(source, check, &conjuncts(&returns(&traced)), 1)
}

fn returns(check: &str) -> String {
    let parts: Vec<&str> = check.split("return false;").collect();
    if parts.len() != RETURNS.len() + 1 {
        fail(&format!("check returns false {} times", parts.len() - 1));
    }
    let mut text = parts[0].to_string();
    for (index, (condition, cause)) in RETURNS.iter().enumerate() {
        let before = parts[index].trim_end().strip_suffix('{').unwrap_or("").trim_end();
        if !before.ends_with(condition) {
            fail(&format!("check does not return false for {condition:?} as test {}", 1 + index));
        }
        let after = parts[1 + index];
        text += &format!("return crate::trace::refuse({cause}, {});{after}", 1 + index);
    }
    text
}

fn conjuncts(check: &str) -> String {
    let last = between(check, "        (self.p[7] - self.pf)", "    }\n");
    let lines: Vec<&str> = last.lines().collect();
    if lines.len() != CONJUNCTS.len() {
        fail(&format!("check ends in {} lines of comparisons", lines.len()));
    }
    let mut text = String::new();
    for (index, ((comparison, cause), line)) in CONJUNCTS.iter().zip(lines).enumerate() {
        let and = if index > 0 { "&& " } else { "" };
        let test = 1 + RETURNS.len() + index;
        if line.trim() != format!("{and}{comparison}") {
            fail(&format!("{line:?} is not test {test} of check, {comparison:?}"));
        }
        text += &format!("        {and}crate::trace::holds({comparison}, {cause}, {test})\n");
    }
    replace(check, last, &text, 1)
}
