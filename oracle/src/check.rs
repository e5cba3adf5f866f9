//! Kind 00: `check` on a record that holds the line's times.

use crate::{frame, reply};
use rsruckig::profile::{ControlSigns, Profile, ReachedLimits};

pub const SIGNS: [ControlSigns; 2] = [ControlSigns::UDDU, ControlSigns::UDUD];

pub const LABELS: [ReachedLimits; 8] = [
    ReachedLimits::Acc0Acc1Vel,
    ReachedLimits::Vel,
    ReachedLimits::Acc0,
    ReachedLimits::Acc1,
    ReachedLimits::Acc0Acc1,
    ReachedLimits::Acc0Vel,
    ReachedLimits::Acc1Vel,
    ReachedLimits::None,
];

pub fn answer(bytes: &[u8; frame::LONGEST], places: &mut [u8]) -> u32 {
    let [_, signs, label, set_limits, ..] = *bytes;
    if signs > 1 || label > 7 || set_limits > 1 {
        return 5;
    }
    let numbers: [f64; 11] = frame::numbers(bytes, frame::CHECK_NUMBERS);
    if !frame::all_finite(&numbers) {
        return 6;
    }
    let Some(places) = places.first_chunk_mut() else {
        return 8;
    };

    let mut profile = Profile::default();
    profile.t = frame::numbers(bytes, frame::CHECK_TIMES);
    let yes = ask(&mut profile, [signs, label, set_limits], &numbers);
    reply::write(yes, &profile, places);
    0
}

/// `check` with the line's choices and eleven numbers, on a record that holds its times.
#[inline(always)]
pub fn ask(profile: &mut Profile, choices: [u8; 3], numbers: &[f64; 11]) -> bool {
    let [signs, label, set_limits] = choices;
    let [p0, v0, a0, pf, vf, af, jf, v_max, v_min, a_max, a_min] = *numbers;
    profile.set_boundary(p0, v0, a0, pf, vf, af);
    profile.check(
        SIGNS[signs as usize],
        LABELS[label as usize],
        set_limits == 1,
        jf,
        v_max,
        v_min,
        a_max,
        a_min,
    )
}
