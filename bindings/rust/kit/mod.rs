//! What the proved sources call that Rattle's kit has and std or crates.io hasn't, under the kit's names, at the global allocator.
//! It stands for the kit's statements, and isn't proved.
#![allow(unused, missing_docs)]

mod asking;
pub mod base64;
pub mod digests;
pub mod hex;
pub mod lanes;
pub mod later;
mod memory;
pub mod random;
pub mod text;

use ::bytes::{Bytes, BytesMut};
use unicode_normalization::UnicodeNormalization;

pub mod prelude {
    pub use super::later::{DividedUp as _, FirstBlock as _, Signed as _, Unsigned as _, WholeBlock as _, WithUnsigned as _};
    pub use super::{AllocError, AllocFailed, Global, PushReserved as _};
}

/// An allocation failed.
#[derive(Debug, Clone, Copy, PartialEq, Eq)]
pub struct AllocError;

/// The global allocator. Where it has no memory for a list or a text, a call says so; where it has none for the crate `bytes`, the
/// program ends.
#[derive(Debug, Clone, Copy, PartialEq, Eq)]
pub struct Global;

/// An allocation failed, and the value comes back.
pub struct AllocFailed<T> {
    pub value: T,
}

impl<T> From<AllocFailed<T>> for AllocError {
    #[inline]
    fn from(_: AllocFailed<T>) -> AllocError {
        AllocError
    }
}

/// The bytes of a shared or growing buffer.
pub trait AsSlice {
    fn as_slice(&self) -> &[u8];
}

impl AsSlice for Bytes {
    #[inline]
    fn as_slice(&self) -> &[u8] {
        self
    }
}

impl AsSlice for BytesMut {
    #[inline]
    fn as_slice(&self) -> &[u8] {
        self
    }
}

/// `push` where room was reserved.
pub trait PushReserved<T> {
    fn push_reserved(&mut self, value: T);
}

impl<T> PushReserved<T> for Vec<T> {
    #[inline]
    fn push_reserved(&mut self, value: T) {
        self.push(value)
    }
}

/// The text in Unicode's form NFKC.
pub fn to_nfkc(_alloc: Global, text: &str) -> Result<String, AllocError> {
    let mut out = String::new();
    for c in text.nfkc() {
        Global::push_char(&mut out, c)?;
    }
    Ok(out)
}

#[cfg(test)]
mod tests {
    use super::*;

    // U+FB01 and U+2168 by Unicode's form NFKC: two letters, and two letters.
    #[test]
    fn compatible_characters_are_composed() {
        assert_eq!(to_nfkc(Global, "\u{fb01}nal \u{2168}").unwrap(), "final IX");
        assert_eq!(to_nfkc(Global, "cafe\u{301}").unwrap(), "caf\u{e9}");
    }

    #[test]
    fn buffers_show_their_bytes_and_lists_take_items() {
        assert_eq!((Bytes::from_static(b"ab").as_slice(), BytesMut::from(&b"cd"[..]).as_slice()), (&b"ab"[..], &b"cd"[..]));
        let mut list = Vec::with_capacity(1);
        list.push_reserved(7);
        assert_eq!(list, [7]);
    }
}
