//! The Rust's `check` behind a reader of kind 00 lines and a writer of their replies, as fast
//! as could be written: nothing is allocated, one record serves all lines, and each place of
//! the reply is written once. It asks every question of a kind 00 line; where one has a no,
//! and for any other line, the oracle answers.

use crate::{digits, tables};
use plain::check::ask;
use plain::frame;
use rsruckig::profile::{ControlSigns, Direction, Profile, ReachedLimits};

#[derive(Default)]
pub struct Reader {
    profile: Profile,
}

impl Reader {
    /// The number, and how many places the reply fills.
    pub fn answer(&mut self, request: &[u8], reply: &mut [u8]) -> (u32, usize) {
        // SAFETY: every x86-64 has SSE2.
        match unsafe { self.check(request, reply) } {
            Some(()) => (0, frame::RECORD_PLACES),
            None => tables::answer(request, reply),
        }
    }

    /// Nothing, with the reply untouched, where a question has a no.
    #[inline]
    #[target_feature(enable = "sse2")]
    fn check(&mut self, request: &[u8], reply: &mut [u8]) -> Option<()> {
        let mut bytes = [0; frame::LONGEST];
        if !digits::read(request.try_into().ok()?, &mut bytes) {
            return None;
        }
        let [kind, signs, label, set_limits, ..] = bytes;
        if kind != 0 || signs > 1 || label > 7 || set_limits > 1 {
            return None;
        }
        let numbers: [f64; 11] = frame::numbers(&bytes, frame::CHECK_NUMBERS);
        if !numbers.iter().fold(true, |all, number| all & number.is_finite()) {
            return None;
        }
        let places = reply.first_chunk_mut()?;

        let profile = &mut self.profile;
        clear(profile);
        profile.t = frame::numbers(&bytes, frame::CHECK_TIMES);
        let yes = ask(profile, [signs, label, set_limits], &numbers);
        write(yes, profile, places);
        Some(())
    }
}

/// What `check` writes, as in the default record.
#[inline(always)]
fn clear(profile: &mut Profile) {
    profile.t_sum = [0.0; 7];
    profile.j = [0.0; 7];
    profile.a = [0.0; 8];
    profile.v = [0.0; 8];
    profile.p = [0.0; 8];
    profile.limits = ReachedLimits::default();
    profile.direction = Direction::default();
    profile.control_signs = ControlSigns::default();
}

#[inline]
#[target_feature(enable = "sse2")]
fn write(yes: bool, profile: &Profile, places: &mut [u8; frame::RECORD_PLACES]) {
    let (head, body) = places.split_at_mut(8);
    // Each byte is below ten.
    let bytes =
        [yes as u8, profile.limits as u8, profile.direction as u8, profile.control_signs as u8];
    for (byte, pair) in bytes.into_iter().zip(head.as_chunks_mut().0) {
        *pair = [b'0', b'0' + byte];
    }
    let (sevens, eights) = body.split_at_mut(3 * 7 * 16);
    let (sevens, _) = sevens.as_chunks_mut::<{ 7 * 16 }>();
    for (row, part) in [&profile.t, &profile.t_sum, &profile.j].into_iter().zip(sevens) {
        write_pairs(row, part);
        let mut last = [0; 32];
        digits::write([row[6], 0.0], &mut last);
        *part.last_chunk_mut::<16>().unwrap() = *last.first_chunk().unwrap();
    }
    let (eights, _) = eights.as_chunks_mut::<{ 8 * 16 }>();
    for (row, part) in [&profile.a, &profile.v, &profile.p].into_iter().zip(eights) {
        write_pairs(row, part);
    }
}

#[inline]
#[target_feature(enable = "sse2")]
fn write_pairs(row: &[f64], part: &mut [u8]) {
    for (pair, places) in row.as_chunks().0.iter().zip(part.as_chunks_mut().0) {
        digits::write(*pair, places);
    }
}
