//! The reply that gives a verdict and the whole record.

use crate::{digits, frame};
use rsruckig::profile::Profile;

pub fn write(yes: bool, profile: &Profile, places: &mut [u8; frame::RECORD_PLACES]) {
    let (head, body) = places.split_at_mut(8);
    let bytes =
        [yes as u8, profile.limits as u8, profile.direction as u8, profile.control_signs as u8];
    for (byte, pair) in bytes.into_iter().zip(head.chunks_exact_mut(2)) {
        digits::write_byte(byte, pair.try_into().unwrap());
    }
    let (sevens, eights) = body.split_at_mut(3 * 7 * 16);
    for (row, part) in
        [&profile.t, &profile.t_sum, &profile.j].into_iter().zip(sevens.chunks_exact_mut(7 * 16))
    {
        write_row(row, part);
    }
    for (row, part) in
        [&profile.a, &profile.v, &profile.p].into_iter().zip(eights.chunks_exact_mut(8 * 16))
    {
        write_row(row, part);
    }
}

#[inline]
fn write_row(row: &[f64], part: &mut [u8]) {
    for (number, places) in row.iter().zip(part.chunks_exact_mut(16)) {
        digits::write_number(*number, places.try_into().unwrap());
    }
}
