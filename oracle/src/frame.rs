//! Where the parts of a frame stand, in bytes.

/// The longest frame, that of `check`.
pub const LONGEST: usize = 148;

/// Where kind 00's seven times and the eleven numbers after them begin.
pub const CHECK_TIMES: usize = 4;
pub const CHECK_NUMBERS: usize = CHECK_TIMES + 7 * 8;

/// Where the twelve numbers of all other kinds begin.
pub const NUMBERS: usize = 1;

/// Where the two root answers begin, and how long one is: a count and three
/// numbers.
pub const ANSWERS: usize = NUMBERS + 12 * 8;
pub const ANSWER_LENGTH: usize = 1 + 3 * 8;

/// A record's reply, that with the calls of `check` after it, and the quartics' reply, in
/// places.
pub const RECORD_PLACES: usize = 728;
pub const CAUSES_PLACES: usize = RECORD_PLACES + 4;
pub const QUARTICS_PLACES: usize = 228;

pub const LONGEST_REPLY: usize = CAUSES_PLACES;

#[inline]
pub fn number(frame: &[u8], at: usize) -> f64 {
    let mut bytes = [0; 8];
    bytes.copy_from_slice(&frame[at..at + 8]);
    f64::from_bits(u64::from_be_bytes(bytes))
}

#[inline]
pub fn numbers<const N: usize>(frame: &[u8], at: usize) -> [f64; N] {
    std::array::from_fn(|index| number(frame, at + 8 * index))
}

#[inline]
pub fn all_finite(numbers: &[f64]) -> bool {
    numbers.iter().all(|number| number.is_finite())
}
