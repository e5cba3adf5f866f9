//! Quartics. In: the answer's count byte and three values, then a b c d. Out: the
//! need, the resolvent's three arguments, how many roots, and the roots in the
//! order in which a shape tries them.

use crate::{bits, written, Lists};
use cases::quartic;
use cases::random::Random;
use oracle::quartics::need;
use rsruckig::hand_in::{self, RootAnswer};
use rsruckig::roots::{resolvent_arguments, solve_quart_monic_arr};

pub fn fill(lists: &mut Lists, random: &mut Random, count: usize) {
    // The quartic worked through in document 01.
    push(lists, [-3.0, 2.0, 0.0, 0.0], RootAnswer::default());
    while lists.count < count {
        let (polynom, answer) = quartic::case(random);
        push(lists, polynom, answer);
    }
}

fn push(lists: &mut Lists, polynom: [f64; 4], answer: RootAnswer) {
    let mut input = format!("{:02X}", answer.count);
    for number in answer.values.iter().chain(&polynom) {
        input += &bits(*number);
    }

    hand_in::set([answer, RootAnswer::default()]);
    let mut roots = solve_quart_monic_arr(&polynom);
    let tried: Vec<f64> = (&mut roots).into_iter().map(|root| *root).collect();
    let [a, b, c, d] = polynom;
    let mut output = format!("{:02X}", need(&polynom));
    for argument in resolvent_arguments(a, b, c, d) {
        output += &written(argument);
    }
    output += &format!("{:02X}", tried.len());
    for root in tried {
        output += &written(root);
    }
    lists.push(&input, &output);
}
