//! A byte in a slice, eight bytes at a time.

const LOW: u64 = u64::from_ne_bytes([1; 8]);
const HIGH: u64 = u64::from_ne_bytes([0x80; 8]);

/// The first place of a byte.
pub fn memchr(needle: u8, haystack: &[u8]) -> Option<usize> {
    let sought = u64::from(needle) * LOW;
    let mut at = 0;
    while let Some(piece) = haystack[at..].first_chunk() {
        let unlike = u64::from_le_bytes(*piece) ^ sought;
        // Only in a byte that is 0, or after one, does taking 1 away set a high bit that wasn't set.
        let found = unlike.wrapping_sub(LOW) & !unlike & HIGH;
        if found != 0 {
            return Some(at + found.trailing_zeros() as usize / 8);
        }
        at += 8;
    }
    haystack[at..].iter().position(|byte| *byte == needle).map(|rest| at + rest)
}
