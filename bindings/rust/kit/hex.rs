//! Lower-case digits of base 16.

use std::convert::Infallible;

const DIGITS: &[u8; 16] = b"0123456789abcdef";

#[inline]
pub(super) fn digits(byte: u8) -> [u8; 2] {
    [DIGITS[usize::from(byte >> 4)], DIGITS[usize::from(byte & 15)]]
}

pub fn encode_to_slice(bytes: impl AsRef<[u8]>, out: &mut [u8]) -> Result<(), Infallible> {
    for (two, byte) in out.chunks_exact_mut(2).zip(bytes.as_ref()) {
        two.copy_from_slice(&digits(*byte));
    }
    Ok(())
}

#[derive(Debug, Clone, Copy, PartialEq, Eq)]
pub enum FromHexError {
    OutOfMemory,
    Other,
}

/// The bytes of digits in lower or upper case.
pub fn decoded(alloc: super::Global, text: impl AsRef<[u8]>) -> Result<Vec<u8>, FromHexError> {
    let len = text.as_ref().len() / 2;
    let mut bytes = alloc.list_filled(0, len).map_err(|_| FromHexError::OutOfMemory)?;
    decode_to_slice(text.as_ref(), &mut bytes)?;
    Ok(bytes)
}

fn decode_to_slice(text: &[u8], out: &mut [u8]) -> Result<(), FromHexError> {
    let value = |digit: u8| char::from(digit).to_digit(16).ok_or(FromHexError::Other);
    if text.len() != 2 * out.len() {
        return Err(FromHexError::Other);
    }
    for (two, byte) in text.chunks(2).zip(out) {
        *byte = (value(two[0])? << 4 | value(two[1])?) as u8;
    }
    Ok(())
}

pub fn encoded(alloc: super::Global, bytes: impl AsRef<[u8]>) -> Result<String, super::AllocError> {
    alloc.hex_of(bytes.as_ref())
}

pub trait FromHex: Sized {
    fn from_hex(text: &str) -> Result<Self, FromHexError>;
}

impl<const N: usize> FromHex for [u8; N] {
    fn from_hex(text: &str) -> Result<[u8; N], FromHexError> {
        let mut bytes = [0; N];
        decode_to_slice(text.as_bytes(), &mut bytes)?;
        Ok(bytes)
    }
}

#[cfg(test)]
mod tests {
    use super::*;

    #[test]
    fn each_byte_has_two_digits() {
        let mut out = [b'-'; 6];
        encode_to_slice([0x0f, 0xf0, 0xa9], &mut out).unwrap();
        assert_eq!(&out, b"0ff0a9");
        assert_eq!(<[u8; 3]>::from_hex("0FF0a9"), Ok([0x0f, 0xf0, 0xa9]));
        assert!(<[u8; 3]>::from_hex("0ff0").is_err() && <[u8; 3]>::from_hex("0ff0a").is_err() && <[u8; 1]>::from_hex("+f").is_err());
    }
}
