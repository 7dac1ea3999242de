//! What std has since a later Rust than the oldest that compiles this package: `cast_unsigned`, `cast_signed` (1.87), `div_ceil` (1.73),
//! `split_first_chunk` (1.77), `checked_add_unsigned` and `checked_sub_unsigned` (1.66).

/// A number with a sign, as the number of its bits.
pub trait Signed {
    type Bits;

    fn bits(self) -> Self::Bits;
}

/// A number without a sign, as the number with one that has its bits.
pub trait Unsigned {
    type Number;

    fn number(self) -> Self::Number;
}

macro_rules! numbers {
    ($($signed:ident, $unsigned:ident;)*) => {$(
        impl Signed for $signed {
            type Bits = $unsigned;

            #[inline(always)]
            fn bits(self) -> $unsigned {
                self as $unsigned
            }
        }

        impl Unsigned for $unsigned {
            type Number = $signed;

            #[inline(always)]
            fn number(self) -> $signed {
                self as $signed
            }
        }
    )*};
}

numbers! {
    i8, u8;
    i16, u16;
    i32, u32;
    i64, u64;
}

/// The least number of parts of a size that hold all.
pub trait DividedUp {
    fn divided_up(self, by: Self) -> Self;
}

impl DividedUp for usize {
    #[inline(always)]
    fn divided_up(self, by: usize) -> usize {
        self / by + usize::from(self % by != 0)
    }
}

/// A sum or a difference with a number without a sign, where it is a number of the type.
pub trait WithUnsigned: Sized {
    fn plus_unsigned(self, other: u128) -> Option<Self>;
    fn minus_unsigned(self, other: u128) -> Option<Self>;
}

impl WithUnsigned for i128 {
    #[inline(always)]
    fn plus_unsigned(self, other: u128) -> Option<i128> {
        let sum = self.wrapping_add(other as i128);
        if sum >= self && (sum as u128).wrapping_sub(self as u128) == other { Some(sum) } else { None }
    }

    #[inline(always)]
    fn minus_unsigned(self, other: u128) -> Option<i128> {
        let left = self.wrapping_sub(other as i128);
        if left <= self && (self as u128).wrapping_sub(left as u128) == other { Some(left) } else { None }
    }
}

/// The first `N` bytes and the rest, where there are so many.
pub trait FirstBlock {
    fn first_block<const N: usize>(&self) -> Option<(&[u8; N], &[u8])>;
}

impl FirstBlock for [u8] {
    #[inline(always)]
    fn first_block<const N: usize>(&self) -> Option<(&[u8; N], &[u8])> {
        if self.len() < N {
            return None;
        }
        let (front, rest) = self.split_at(N);
        Some((front.try_into().ok()?, rest))
    }
}

/// All bytes, where there are `N`.
pub trait WholeBlock {
    fn whole_block<const N: usize>(&self) -> Option<&[u8; N]>;
}

impl WholeBlock for [u8] {
    #[inline(always)]
    fn whole_block<const N: usize>(&self) -> Option<&[u8; N]> {
        self.try_into().ok()
    }
}

#[cfg(test)]
mod tests {
    use super::*;

    #[test]
    fn bits_stay() {
        assert_eq!((i16::MIN.bits(), (-1i32).bits(), 7i64.bits()), (0x8000, u32::MAX, 7));
        assert_eq!((0x8000u16.number(), u32::MAX.number(), u64::MAX.number()), (i16::MIN, -1, -1));
    }

    #[test]
    fn sizes_are_divided_up() {
        let parts: Vec<usize> = [0, 1, 7, 8, 9, 16, 17].into_iter().map(|bits: usize| bits.divided_up(8)).collect();
        assert_eq!(parts, [0, 1, 1, 1, 2, 2, 3]);
        assert_eq!(usize::MAX.divided_up(3), usize::MAX / 3);
    }

    #[test]
    fn sums_past_the_type_are_none() {
        assert_eq!((0i128.plus_unsigned(5), i128::MIN.plus_unsigned(u128::MAX)), (Some(5), Some(i128::MAX)));
        assert_eq!((0i128.plus_unsigned(i128::MAX as u128 + 1), 1i128.plus_unsigned(u128::MAX)), (None, None));
        assert_eq!((0i128.minus_unsigned(i128::MAX as u128 + 1), i128::MAX.minus_unsigned(u128::MAX)), (Some(i128::MIN), Some(i128::MIN)));
        assert_eq!((0i128.minus_unsigned(i128::MAX as u128 + 2), i128::MIN.minus_unsigned(1)), (None, None));
    }

    #[test]
    fn a_block_is_whole_or_none() {
        let bytes = b"abcd";
        assert_eq!(bytes.first_block::<4>(), Some((b"abcd", &b""[..])));
        assert_eq!(bytes.first_block::<3>(), Some((b"abc", &b"d"[..])));
        assert_eq!(bytes.first_block::<5>(), None);
        assert_eq!(bytes.whole_block::<4>(), Some(b"abcd"));
        assert_eq!(bytes.whole_block::<3>(), None);
    }
}
