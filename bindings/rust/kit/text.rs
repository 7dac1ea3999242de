//! In the place of the sources' lanes: the first 0 byte of a string. Words of 8 bytes find it in short strings, `memchr` in long ones.

use ::memchr::memchr;

const WORD: usize = 8;
/// Strings of fewer bytes are short.
const SHORT: usize = 128;
/// A 0 byte that is near stands in front of this one.
const NEAR: usize = 32;

/// The high bits of the 0 bytes of a word, of which the lowest is exact.
#[inline(always)]
fn zeros(word: &[u8]) -> u64 {
    let mut bytes = [0; WORD];
    bytes.copy_from_slice(word);
    let word = u64::from_le_bytes(bytes);
    word.wrapping_sub(0x0101_0101_0101_0101) & !word & 0x8080_8080_8080_8080
}

/// The first 0 byte of bytes in which one is expected near.
#[inline]
pub fn first_zero(bytes: &[u8]) -> Option<usize> {
    let mut at = 0;
    while bytes.len() - at >= WORD && at < NEAR {
        let zeros = zeros(&bytes[at..at + WORD]);
        if zeros != 0 {
            return Some(at + zeros.trailing_zeros() as usize / 8);
        }
        at += WORD;
    }
    let rest = &bytes[at..];
    let found = if rest.len() < WORD { rest.iter().position(|byte| *byte == 0) } else { memchr(0, rest) };
    found.map(|place| at + place)
}

/// The first 0 byte of bytes in which none is expected.
#[inline]
pub fn stray_zero(bytes: &[u8]) -> Option<usize> {
    if bytes.len() < SHORT && !has_zero(bytes) {
        return None;
    }
    memchr(0, bytes)
}

/// Whether a byte of a short string is 0.
#[inline(always)]
fn has_zero(bytes: &[u8]) -> bool {
    match bytes.len() {
        0..=7 => bytes.contains(&0),
        8..=16 => has_zero_at_ends::<8>(bytes),
        17..=32 => has_zero_at_ends::<16>(bytes),
        33..=64 => has_zero_at_ends::<32>(bytes),
        _ => has_zero_at_ends::<64>(bytes),
    }
}

/// Whether one of the first or of the last so many bytes is 0: all of them, where there are no more than twice as many.
#[inline(always)]
fn has_zero_at_ends<const COUNT: usize>(bytes: &[u8]) -> bool {
    let mut found = 0;
    for end in [&bytes[..COUNT], &bytes[bytes.len() - COUNT..]] {
        for word in end.chunks_exact(WORD) {
            found |= zeros(word);
        }
    }
    found != 0
}

#[cfg(test)]
mod tests {
    use super::*;

    #[test]
    fn the_first_of_all_places() {
        for len in 0..140 {
            for at in 0..len {
                for other in [1, 0x80, 0xff] {
                    let mut bytes = vec![other; len];
                    bytes[at] = 0;
                    assert_eq!((first_zero(&bytes), stray_zero(&bytes)), (Some(at), Some(at)), "{len} {other}");
                    bytes[len - 1] = 0;
                    assert_eq!((first_zero(&bytes), stray_zero(&bytes)), (Some(at), Some(at)), "{len} {other}");
                }
            }
            for other in [1, 0x80, 0xff] {
                assert_eq!((first_zero(&vec![other; len]), stray_zero(&vec![other; len])), (None, None));
            }
        }
    }
}
