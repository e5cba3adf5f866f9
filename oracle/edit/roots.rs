//! `roots.rs`: the quartic takes its cube root and its resolvent's answer from
//! what the line hands in. `solve_resolvent` itself stays as it is, for the
//! generator, which needs right answers too.

use crate::text::{between, replace};

pub fn edit(source: &str) -> String {
    let text = replace(
        source,
        "roots.insert(-c.cbrt());",
        "roots.insert(-crate::hand_in::cube_root());",
        1,
    );
    let text = replace(
        &text,
        "= solve_resolvent(&mut x3, a3, b3, c3);",
        "= crate::hand_in::resolvent(&mut x3, a3, b3, c3);",
        1,
    );
    // Answer i belongs to call i, also where the call asks for nothing.
    let text = replace(
        &text,
        "    solve_quart_monic_coeffs(polynom[0], polynom[1], polynom[2], polynom[3])\n",
        "    crate::hand_in::next_quartic(polynom);\n    \
             solve_quart_monic_coeffs(polynom[0], polynom[1], polynom[2], polynom[3])\n",
        1,
    );
    text + &resolvent_arguments(source)
}

/// The quartic's own lines for the resolvent's arguments, callable where the
/// quartic does not get as far.
fn resolvent_arguments(source: &str) -> String {
    let quartic =
        between(source, "pub fn solve_quart_monic_coeffs(", "pub fn solve_quart_monic_arr(");
    let products = between(quartic, "    let a_squared", "    if d.abs()");
    let arguments = between(quartic, "    let a3 = ", "    let mut x3");
    format!(
        "\npub fn resolvent_arguments(a: f64, b: f64, c: f64, d: f64) -> [f64; 3] {{\n\
         {products}{arguments}    [a3, b3, c3]\n}}\n"
    )
}
