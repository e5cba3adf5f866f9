//! Kinds 11 to 15: kinds 01 to 05, with the count of the shape's calls of `check` and the
//! cause of the last one after the record. Both are what the traced copy reports.

use crate::kinds::Kind;
use crate::{digits, frame, reply, shapes};
use rsruckig::profile::Profile;
use rsruckig::trace;

/// The shape is read from the frame's kind, as the plain entry has a `Shape` of its own.
pub fn answer(bytes: &[u8; frame::LONGEST], places: &mut [u8]) -> u32 {
    let shape = Kind::numbered(bytes[0]).and_then(Kind::shape).expect("a kind that runs a shape");
    trace::clear();
    shapes::answer_by(write, shape, bytes, places)
}

/// The record, and the calls since the trace was cleared.
fn write(yes: bool, profile: &Profile, places: &mut [u8; frame::CAUSES_PLACES]) {
    write_calls(yes, profile, trace::last(), places);
}

/// The record, and a count of calls with the cause of the last one.
pub fn write_calls(
    yes: bool,
    profile: &Profile,
    (count, cause): (u8, u8),
    places: &mut [u8; frame::CAUSES_PLACES],
) {
    let (record, calls) = places.split_at_mut(frame::RECORD_PLACES);
    reply::write(yes, profile, record.try_into().unwrap());
    for (byte, pair) in [count, cause].into_iter().zip(calls.chunks_exact_mut(2)) {
        digits::write_byte(byte, pair.try_into().unwrap());
    }
}
