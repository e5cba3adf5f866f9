//! Whether a line is one that demand 3 speaks of: a yes of kinds 01 to 05 or 08
//! with start, total time and recorded jerks within its sizes.

use oracle::{answer_line, digits, frame};

pub fn arrives(request: &[u8]) -> bool {
    let mut places = [0; frame::RECORD_PLACES];
    if answer_line(request, &mut places) != 0 || places[..2] != *b"01" {
        return false;
    }
    let mut frame_bytes = [0; frame::LONGEST];
    digits::read(request, &mut frame_bytes);
    let start: [f64; 3] = frame::numbers(&frame_bytes, frame::NUMBERS + 8);
    let mut reply = [0; frame::RECORD_PLACES / 2];
    digits::read(&places, &mut reply);
    let times: [f64; 7] = frame::numbers(&reply, 4);
    let jerks: [f64; 7] = frame::numbers(&reply, 4 + 2 * 7 * 8);
    start.iter().all(|number| number.abs() <= 8.0)
        && jerks.iter().all(|number| number.abs() <= 64.0)
        && at_most_eight(&times)
}

/// The sum without rounding, each time taken up to the next multiple of 2^-100.
fn at_most_eight(times: &[f64; 7]) -> bool {
    let unit = 2f64.powi(100);
    times.iter().all(|time| *time <= 8.0)
        && times.iter().map(|time| (time * unit).ceil() as i128).sum::<i128>() <= 8 << 100
}
