//! A motion worked out forwards from its start, phase by phase, to get boundary
//! states that a shape should find again.

use rsruckig::util::integrate;

/// The signs of the seven jerks: UDDU, then UDUD.
pub const PATTERNS: [[f64; 7]; 2] =
    [[1.0, 0.0, -1.0, 0.0, -1.0, 0.0, 1.0], [1.0, 0.0, -1.0, 0.0, 1.0, 0.0, -1.0]];

pub struct Motion {
    pub duration: f64,
    /// Position, velocity and acceleration.
    pub end: [f64; 3],
    /// The extreme velocities from the end of phase 2 to the end of phase 5, and
    /// where the acceleration crosses zero after phase 1.
    pub slowest: f64,
    pub fastest: f64,
}

pub fn forwards(signs: usize, jerk: f64, times: &[f64; 7], start: [f64; 3]) -> Motion {
    let [mut p, mut v, mut a] = start;
    let mut slowest = f64::INFINITY;
    let mut fastest = f64::NEG_INFINITY;
    let mut meet = |velocity: f64| {
        slowest = slowest.min(velocity);
        fastest = fastest.max(velocity);
    };
    for phase in 0..7 {
        let j = PATTERNS[signs][phase] * jerk;
        let before = (v, a);
        (p, v, a) = integrate(times[phase], p, v, a, j);
        if (2..=5).contains(&phase) {
            meet(v);
        }
        if phase > 1 && before.1 * a < 0.0 {
            meet(before.0 - before.1 * before.1 / (2.0 * j));
        }
    }
    Motion { duration: times.iter().sum(), end: [p, v, a], slowest, fastest }
}
