//! `position_third_step2.rs`: the five shapes become public, and the lines that
//! work out the four quartics become functions of their own, because a line asks
//! for both quartics even where the shape stops before the second. Kind 08 is the fourth
//! shape once more, with another t[1]. In the traced copy the square roots of the shapes tell
//! what they are taken of.

use crate::text::{after, between, fail, replace};

/// A square root: how its argument begins, and the signs and the label of the attempt that
/// takes it.
struct Root {
    argument: &'static str,
    signs: &'static str,
    label: &'static str,
}

/// The five shapes, each with its roots in the order of the text.
const SHAPES: [(&str, &[Root]); 5] = [
    (
        "time_acc0_acc1_vel",
        &[Root { argument: "(self.a0_p4 + self.af_p4", signs: "UDDU", label: "Acc0Acc1Vel" }],
    ),
    ("time_acc1_vel", &[]),
    ("time_acc0_vel", &[]),
    ("time_acc0_acc1", &[Root { argument: "144.0", signs: "UDDU", label: "Acc0Acc1" }]),
    (
        "time_acc0",
        &[
            Root { argument: "self.ad_ad / (2.0", signs: "UDUD", label: "None" },
            Root { argument: "4.0 * h0b * h0b - 18.0", signs: "UDDU", label: "None" },
            Root { argument: "4.0 * h0a * h0a - 18.0", signs: "UDDU", label: "Acc0" },
        ],
    ),
];

pub fn edit(source: &str) -> String {
    let mut text = source.to_string();
    for (shape, _) in SHAPES {
        let header = format!("    fn {shape}(\n");
        text = replace(&text, &header, &format!("    pub fn {shape}(\n"), 1);
    }
    let rest_to_rest = rest_to_rest(&text);
    text + &polynoms(source) + &rest_to_rest
}

/// For the traced copy, after `edit`.
pub fn trace(edited: &str) -> String {
    let mut text = edited.to_string();
    for (shape, roots) in SHAPES {
        let lines = between(edited, &format!("    pub fn {shape}(\n"), "\n    }\n");
        text = replace(&text, lines, &trace_roots(shape, lines, roots), 1);
    }
    text
}

fn trace_roots(shape: &str, lines: &str, roots: &[Root]) -> String {
    let parts: Vec<&str> = lines.split("f64::sqrt(").collect();
    if parts.len() != roots.len() + 1 || lines.matches("sqrt").count() != roots.len() {
        fail(&format!("{shape} does not take {} square roots", roots.len()));
    }
    let mut text = parts[0].to_string();
    for (Root { argument, signs, label }, part) in roots.iter().zip(&parts[1..]) {
        let call: String = after(part, "check_with_timing(").split_whitespace().collect();
        let so = call.starts_with(&format!("ControlSigns::{signs},ReachedLimits::{label},"));
        if !so || !part.trim_start().starts_with(argument) {
            fail(&format!("{shape} does not take a root of {argument:?} for {signs} {label}"));
        }
        text += &format!("crate::trace::root({part}");
    }
    text
}

/// Document 02, Paper 4: the whole of the fourth shape, where the rest formula's t[1] is the
/// document's. The square is one product (`pow2`).
fn rest_to_rest(edited: &str) -> String {
    let shape = between(edited, "    pub fn time_acc0_acc1(\n", "    fn time_acc1(\n");
    let named = replace(shape, "time_acc0_acc1(", "time_rest_to_rest(", 1);
    let with_t1 = replace(
        &named,
        "profile.t[1] = (-2.0 * a_max * h1 + a_min * a_min * self.g2) / h2;",
        "profile.t[1] = (jf * (self.vd - a_min * self.tf) - pow2(a_max - a_min))\n                \
             / ((a_max - a_min) * jf);",
        1,
    );
    format!("\nimpl PositionThirdOrderStep2 {{\n{with_t1}}}\n")
}

fn polynoms(source: &str) -> String {
    let acc1_vel = between(source, "    fn time_acc1_vel(", "    fn time_acc0_vel(");
    let acc0_vel = between(source, "    fn time_acc0_vel(", "    fn time_vel(");
    // Both quartics of `time_acc0_vel` read the ph1 that stands before them.
    let shared = between(acc0_vel, "        let ph1 = ", "        // Profile UDDU");
    let functions = [
        function("time_acc1_vel_uddu", "", acc1_vel, "// Profile UDDU", "let ph1"),
        function("time_acc1_vel_udud", "", acc1_vel, "// Profile UDUD", "let ph1"),
        function("time_acc0_vel_uddu", shared, acc0_vel, "// Profile UDDU", "let mut polynom"),
        function("time_acc0_vel_udud", shared, acc0_vel, "// Profile UDUD", "let mut polynom"),
    ];
    format!(
        "\n#[allow(unused_variables)]\nimpl PositionThirdOrderStep2 {{\n{}}}\n",
        functions.concat()
    )
}

/// One quartic: from the block's first line to the one before its time bounds.
fn function(name: &str, shared: &str, shape: &str, block: &str, first: &str) -> String {
    if shape.matches(block).count() != 1 {
        fail(&format!("{block:?} does not occur once for {name}"));
    }
    let lines = between(after(shape, block), first, "let t_min");
    if lines.matches("polynom[").count() != 4 || lines.contains("return") {
        fail(&format!("the lines found for {name} are not those of one quartic"));
    }
    format!(
        "    pub fn {name}_polynom(&self, a_max: f64, a_min: f64, j_max: f64) -> [f64; 4] {{\n\
         {shared}{lines}polynom\n    }}\n"
    )
}
