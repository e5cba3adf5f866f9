//! Hexadecimal digits in and out, 32 at a time, by the vector instructions that every
//! x86-64 has (SSE2), as the static library's loops come out too. Tables of digits are
//! slower: docs/BENCHMARKS.md, 'A million checks'.

use std::arch::x86_64::*;

/// The bytes of the characters; no if one of them is no digit.
#[inline]
#[target_feature(enable = "sse2")]
pub fn read(characters: &[u8; 296], bytes: &mut [u8; 148]) -> bool {
    let mut faults = _mm_setzero_si128();
    let (parts, _) = characters.as_chunks::<16>();
    for ([first, second], to) in parts.as_chunks().0.iter().zip(bytes.as_chunks_mut().0) {
        store(sixteen_bytes(load(first), load(second), &mut faults), to);
    }
    // Eight are left: the last sixteen, of which eight are read again.
    let last = load(characters.last_chunk().unwrap());
    let mut twice = [0; 16];
    store(sixteen_bytes(last, last, &mut faults), &mut twice);
    *bytes.last_chunk_mut::<8>().unwrap() = *twice.first_chunk().unwrap();
    _mm_movemask_epi8(_mm_cmpeq_epi8(faults, _mm_setzero_si128())) == 0xFFFF
}

/// Two numbers' bits, highest byte first; every NaN as 7FF8000000000000.
#[inline]
#[target_feature(enable = "sse2")]
pub fn write(numbers: [f64; 2], places: &mut [u8; 32]) {
    let [first, second] = numbers;
    let numbers = _mm_set_pd(second, first);
    let is_nan = _mm_castpd_si128(_mm_cmpunord_pd(numbers, numbers));
    let bits = _mm_or_si128(
        _mm_andnot_si128(is_nan, _mm_castpd_si128(numbers)),
        _mm_and_si128(is_nan, _mm_set1_epi64x(0x7FF8_0000_0000_0000)),
    );
    // Highest byte first: the bytes of each two, then the four twos of each number.
    let twos = _mm_or_si128(_mm_srli_epi16(bits, 8), _mm_slli_epi16(bits, 8));
    let bytes = _mm_shufflehi_epi16(_mm_shufflelo_epi16(twos, 0b00_01_10_11), 0b00_01_10_11);

    let high = _mm_and_si128(_mm_srli_epi16(bytes, 4), _mm_set1_epi8(15));
    let low = _mm_and_si128(bytes, _mm_set1_epi8(15));
    let (halves, _) = places.as_chunks_mut();
    store(digits(_mm_unpacklo_epi8(high, low)), &mut halves[0]);
    store(digits(_mm_unpackhi_epi8(high, low)), &mut halves[1]);
}

/// The bytes of 32 characters. A character that is no digit leaves bits in `faults`: less 48,
/// round 256, a digit is at most 22, and less 65 at most 248, and no other character is both.
#[inline]
#[target_feature(enable = "sse2")]
fn sixteen_bytes(first: __m128i, second: __m128i, faults: &mut __m128i) -> __m128i {
    let mut eight = |characters| {
        let less_48 = _mm_sub_epi8(characters, _mm_set1_epi8(48));
        let less_65 = _mm_sub_epi8(characters, _mm_set1_epi8(65));
        *faults = _mm_or_si128(*faults, _mm_subs_epu8(less_48, _mm_set1_epi8(22)));
        *faults = _mm_or_si128(*faults, _mm_subs_epu8(less_65, _mm_set1_epi8(248u8 as i8)));
        let values = _mm_sub_epi8(less_48, seven_above_nine(less_48));
        let bytes = _mm_or_si128(_mm_slli_epi16(values, 4), _mm_srli_epi16(values, 8));
        _mm_and_si128(bytes, _mm_set1_epi16(0xFF))
    };
    _mm_packus_epi16(eight(first), eight(second))
}

#[inline]
#[target_feature(enable = "sse2")]
fn digits(values: __m128i) -> __m128i {
    _mm_add_epi8(_mm_add_epi8(values, _mm_set1_epi8(48)), seven_above_nine(values))
}

/// What lies between the characters 9 and A, where a value is above 9.
#[inline]
#[target_feature(enable = "sse2")]
fn seven_above_nine(values: __m128i) -> __m128i {
    _mm_and_si128(_mm_cmpgt_epi8(values, _mm_set1_epi8(9)), _mm_set1_epi8(7))
}

#[inline]
#[target_feature(enable = "sse2")]
fn load(from: &[u8; 16]) -> __m128i {
    // SAFETY: the sixteen bytes are there, and the instruction asks for no alignment.
    unsafe { _mm_loadu_si128(from.as_ptr().cast()) }
}

#[inline]
#[target_feature(enable = "sse2")]
fn store(vector: __m128i, to: &mut [u8; 16]) {
    // SAFETY: as in `load`.
    unsafe { _mm_storeu_si128(to.as_mut_ptr().cast(), vector) }
}
