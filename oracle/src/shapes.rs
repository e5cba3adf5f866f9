//! Kinds 01 to 05 and 08, and what 11 to 15 have in common with them: one shape from a
//! default record.

use crate::kinds::Shape;
use crate::quartics::{need, polynoms};
use crate::{frame, reply};
use rsruckig::hand_in::{self, RootAnswer};
use rsruckig::position_third_step2::PositionThirdOrderStep2;
use rsruckig::profile::Profile;

pub fn answer(shape: Shape, bytes: &[u8; frame::LONGEST], places: &mut [u8]) -> u32 {
    answer_by(reply::write, shape, bytes, places)
}

/// With the reply that `write` makes of the verdict and the record.
pub fn answer_by<const PLACES: usize>(
    write: impl FnOnce(bool, &Profile, &mut [u8; PLACES]),
    shape: Shape,
    bytes: &[u8; frame::LONGEST],
    places: &mut [u8],
) -> u32 {
    let numbers: [f64; 12] = frame::numbers(bytes, frame::NUMBERS);
    let answers = if shape.takes_roots() {
        [0, 1].map(|index| root_answer(bytes, index))
    } else {
        [RootAnswer::default(); 2]
    };
    if answers.iter().any(|answer| answer.count > 3) {
        return 5;
    }
    if !frame::all_finite(&numbers) {
        return 6;
    }
    let mut solver = solver(&numbers);
    if shape.takes_roots() {
        let polynoms = polynoms(shape, &solver, &numbers);
        if (0..2).any(|index| !suits(answers[index].count, need(&polynoms[index]))) {
            return 7;
        }
    }
    let Some(places) = places.first_chunk_mut() else {
        return 8;
    };

    hand_in::set(answers);
    let [_, p0, v0, a0, pf, vf, af, ..] = numbers;
    let mut profile = Profile::default();
    profile.set_boundary(p0, v0, a0, pf, vf, af);
    let yes = ask(shape, &mut solver, &mut profile, &numbers);
    write(yes, &profile, places);
    0
}

pub fn solver(numbers: &[f64; 12]) -> PositionThirdOrderStep2 {
    let [tf, p0, v0, a0, pf, vf, af, v_max, v_min, a_max, a_min, j_max] = *numbers;
    PositionThirdOrderStep2::new(tf, p0, v0, a0, pf, vf, af, v_max, v_min, a_max, a_min, j_max)
}

fn ask(
    shape: Shape,
    solver: &mut PositionThirdOrderStep2,
    profile: &mut Profile,
    numbers: &[f64; 12],
) -> bool {
    let [.., v_max, v_min, a_max, a_min, j_max] = *numbers;
    match shape {
        Shape::Acc0Acc1Vel => solver.time_acc0_acc1_vel(profile, v_max, v_min, a_max, a_min, j_max),
        Shape::Acc1Vel => solver.time_acc1_vel(profile, v_max, v_min, a_max, a_min, j_max),
        Shape::Acc0Vel => solver.time_acc0_vel(profile, v_max, v_min, a_max, a_min, j_max),
        Shape::Acc0Acc1 => solver.time_acc0_acc1(profile, v_max, v_min, a_max, a_min, j_max),
        Shape::Acc0 => solver.time_acc0(profile, v_max, v_min, a_max, a_min, j_max),
        Shape::RestToRest => solver.time_rest_to_rest(profile, v_max, v_min, a_max, a_min, j_max),
    }
}

fn root_answer(bytes: &[u8; frame::LONGEST], index: usize) -> RootAnswer {
    let at = frame::ANSWERS + index * frame::ANSWER_LENGTH;
    RootAnswer { count: bytes[at], values: frame::numbers(bytes, at + 1) }
}

/// Question 7 for one quartic.
fn suits(count: u8, need: u8) -> bool {
    match need {
        0 => true,
        1 => count == 0,
        _ => count >= 1,
    }
}
