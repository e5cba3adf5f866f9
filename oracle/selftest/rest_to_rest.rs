//! Lines of kind 08: the number is that of the same line of kind 04, and so is the reply, unless
//! both ends are at rest. There the times are kind 04's but for t[1], which is document 02's,
//! worked out once more from the line's numbers, and t[5], which is what is left of tf.

use cases::attempt::at_rest;
use oracle::{digits, frame};

/// Whether the line is accepted, with both ends at rest. It may be any line that begins as one
/// of kind 08 does; `places` is what was answered.
pub fn test(request: &[u8], places: &[u8; frame::LONGEST_REPLY]) -> bool {
    let mut fourth = request.to_vec();
    fourth[1] = b'4';
    let mut wanted = [b'-'; frame::LONGEST_REPLY];
    if plain::answer_line(&fourth, &mut wanted) != 0 {
        assert!(*places == wanted);
        return false;
    }
    let mut bytes = [0; frame::LONGEST];
    digits::read(request, &mut bytes);
    let numbers: [f64; 12] = frame::numbers(&bytes, frame::NUMBERS);
    if !at_rest(&numbers) {
        assert!(*places == wanted);
        return false;
    }
    let text = String::from_utf8_lossy(request);
    let [times, of_04] = [places, &wanted].map(times);
    for phase in [0, 2, 3, 4, 6] {
        assert_eq!(times[phase].to_bits(), of_04[phase].to_bits(), "t[{phase}] of {text}");
    }
    let t1 = document_02(&numbers);
    assert!(same(times[1], t1), "t[1] of {text}");
    let t5 = numbers[0] - (2.0 * times[0] + t1 + 2.0 * times[4]);
    assert!(same(times[5], t5), "t[5] of {text}");
    true
}

/// All NaNs as one.
fn same(one: f64, other: f64) -> bool {
    one.to_bits() == other.to_bits() || one.is_nan() && other.is_nan()
}

/// The seven times of a reply.
fn times(places: &[u8; frame::LONGEST_REPLY]) -> [f64; 7] {
    let mut reply = [0; frame::RECORD_PLACES / 2];
    digits::read(&places[..frame::RECORD_PLACES], &mut reply);
    frame::numbers(&reply, 4)
}

/// t[1], one operation a line.
fn document_02(numbers: &[f64; 12]) -> f64 {
    let [tf, p0, v0, _, pf, vf, _, _, _, a_max, a_min, _] = *numbers;
    let pd = pf - p0;
    let vd = vf - v0;
    let h1 = 2.0 * a_min * (-pd + tf * v0)
        + vd * vd
        + a_max * (2.0 * pd + a_min * (tf * tf) - 2.0 * tf * vf);
    let h2 = (a_max - a_min) * (-a_min * vd + a_max * (a_min * tf - vd));
    let jf = h2 / h1;

    let lost = a_min * tf;
    let gained = vd - lost;
    let first = jf * gained;
    let span = a_max - a_min;
    let square = span * span;
    let above = first - square;
    let below = span * jf;
    above / below
}
