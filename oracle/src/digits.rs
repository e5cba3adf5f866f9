//! Hexadecimal digits in and out, by table.

/// Above every digit's value, so that one bit over all characters tells whether
/// each was a digit.
const NO_DIGIT: u8 = 0x80;

const VALUES: [u8; 256] = values();
const PAIRS: [[u8; 2]; 256] = pairs();

const fn values() -> [u8; 256] {
    let mut table = [NO_DIGIT; 256];
    let mut digit = 0;
    while digit < 16 {
        table[b"0123456789ABCDEF"[digit] as usize] = digit as u8;
        digit += 1;
    }
    table
}

const fn pairs() -> [[u8; 2]; 256] {
    let digits = b"0123456789ABCDEF";
    let mut table = [[0; 2]; 256];
    let mut byte = 0;
    while byte < 256 {
        table[byte] = [digits[byte >> 4], digits[byte & 15]];
        byte += 1;
    }
    table
}

/// Reads two digits a byte; no if a character is no digit.
#[inline]
pub fn read(characters: &[u8], bytes: &mut [u8]) -> bool {
    let mut seen = 0;
    for (pair, byte) in characters.chunks_exact(2).zip(bytes) {
        let high = VALUES[pair[0] as usize];
        let low = VALUES[pair[1] as usize];
        seen |= high | low;
        *byte = high << 4 | low;
    }
    seen & NO_DIGIT == 0
}

#[inline]
pub fn write_byte(byte: u8, places: &mut [u8; 2]) {
    *places = PAIRS[byte as usize];
}

/// The bits, highest byte first; every NaN as 7FF8000000000000. The bits are tested and
/// not the number, since rustc 1.95 has been seen to drop a choice by `is_nan`
/// (`written` in lists/main.rs).
#[inline]
pub fn write_number(number: f64, places: &mut [u8; 16]) {
    let bits = number.to_bits();
    let is_nan = bits & 0x7FFF_FFFF_FFFF_FFFF > f64::INFINITY.to_bits();
    let bits = if is_nan { 0x7FF8_0000_0000_0000 } else { bits };
    for (byte, pair) in bits.to_be_bytes().into_iter().zip(places.chunks_exact_mut(2)) {
        pair.copy_from_slice(&PAIRS[byte as usize]);
    }
}
