//! Finds the next line feed, eight characters at a time.

const ONES: u64 = 0x0101_0101_0101_0101;
const HIGH: u64 = 0x8080_8080_8080_8080;

pub fn find(characters: &[u8]) -> Option<usize> {
    let mut words = characters.chunks_exact(8);
    for (index, word) in words.by_ref().enumerate() {
        // A zero byte of `other` is a line feed; the lowest marked one is right.
        let other = u64::from_le_bytes(word.try_into().unwrap()) ^ (ONES * b'\n' as u64);
        let marked = other.wrapping_sub(ONES) & !other & HIGH;
        if marked != 0 {
            return Some(8 * index + marked.trailing_zeros() as usize / 8);
        }
    }
    let rest = words.remainder();
    let found = rest.iter().position(|&character| character == b'\n')?;
    Some(characters.len() - rest.len() + found)
}
