//! Kinds 06 and 07: what the quartics of shapes 2 and 3 need.

use crate::kinds::Shape;
use crate::{digits, frame, shapes};
use rsruckig::position_third_step2::PositionThirdOrderStep2;
use rsruckig::roots::resolvent_arguments;

pub fn answer(shape: Shape, bytes: &[u8; frame::LONGEST], places: &mut [u8]) -> u32 {
    let numbers: [f64; 12] = frame::numbers(bytes, frame::NUMBERS);
    if !frame::all_finite(&numbers) {
        return 6;
    }
    let Some(places) = places.first_chunk_mut::<{ frame::QUARTICS_PLACES }>() else {
        return 8;
    };
    let polynoms = polynoms(shape, &shapes::solver(&numbers), &numbers);
    for (polynom, half) in polynoms.iter().zip(places.chunks_exact_mut(frame::QUARTICS_PLACES / 2))
    {
        let (head, body) = half.split_at_mut(2);
        digits::write_byte(need(polynom), head.try_into().unwrap());
        let [a, b, c, d] = *polynom;
        let numbers = polynom.iter().copied().chain(resolvent_arguments(a, b, c, d));
        for (number, places) in numbers.zip(body.chunks_exact_mut(16)) {
            digits::write_number(number, places.try_into().unwrap());
        }
    }
    0
}

/// UDDU's quartic, then UDUD's, of the second shape or of the third.
pub fn polynoms(
    shape: Shape,
    solver: &PositionThirdOrderStep2,
    numbers: &[f64; 12],
) -> [[f64; 4]; 2] {
    let [.., a_max, a_min, j_max] = *numbers;
    match shape {
        Shape::Acc1Vel => [
            solver.time_acc1_vel_uddu_polynom(a_max, a_min, j_max),
            solver.time_acc1_vel_udud_polynom(a_max, a_min, j_max),
        ],
        Shape::Acc0Vel => [
            solver.time_acc0_vel_uddu_polynom(a_max, a_min, j_max),
            solver.time_acc0_vel_udud_polynom(a_max, a_min, j_max),
        ],
        _ => unreachable!("{shape:?} has no quartics"),
    }
}

/// Document 01's three cases; the self-test compares them with what the quartic
/// asks for when it runs.
pub fn need(polynom: &[f64; 4]) -> u8 {
    let [a, b, c, d] = polynom.map(|number| number.abs() < f64::EPSILON);
    if d && c {
        0
    } else if d && a && b {
        1
    } else {
        2
    }
}
