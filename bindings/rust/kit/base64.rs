//! Base64 with padding (RFC 4648) of the crate `base64`, by the two calls that its versions have in common.
#![allow(deprecated)]

use super::asking::asked;

pub struct Standard;

pub const STANDARD: Standard = Standard;

#[derive(Debug)]
pub struct DecodeError;

pub enum DecodeAllocError {
    OutOfMemory,
    DecodeError(DecodeError),
}

pub(super) fn append(bytes: &[u8], text: &mut String) {
    text.push_str(&::base64::encode(bytes))
}

/// Older versions of the crate take a text without its padding.
pub(super) fn decode(text: &[u8]) -> Result<Vec<u8>, DecodeError> {
    if text.len() % 4 != 0 {
        return Err(DecodeError);
    }
    ::base64::decode(text).map_err(|_| DecodeError)
}

impl Standard {
    pub fn encode_slice(&self, bytes: &[u8], out: &mut [u8]) -> Result<usize, DecodeError> {
        let text = asked(false, || ::base64::encode(bytes)).map_err(|_| DecodeError)?;
        out[..text.len()].copy_from_slice(text.as_bytes());
        Ok(text.len())
    }

    pub fn decode_slice_unchecked(&self, text: &[u8], out: &mut [u8]) -> Result<usize, DecodeError> {
        let bytes = asked(false, || decode(text)).map_err(|_| DecodeError)??;
        out[..bytes.len()].copy_from_slice(&bytes);
        Ok(bytes.len())
    }
}

#[cfg(test)]
mod tests {
    use super::*;

    // RFC 4648, section 10.
    const VECTORS: [(&str, &str); 7] =
        [("", ""), ("f", "Zg=="), ("fo", "Zm8="), ("foo", "Zm9v"), ("foob", "Zm9vYg=="), ("fooba", "Zm9vYmE="), ("foobar", "Zm9vYmFy")];

    // python3's base64, of the bytes 0 to 255.
    const ALL: &str = "AAECAwQFBgcICQoLDA0ODxAREhMUFRYXGBkaGxwdHh8gISIjJCUmJygpKissLS4vMDEyMzQ1Njc4OTo7PD0+P0BBQkNERUZHSElKS0xNTk9QUVJTVFVWV1hZWltcXV5fYGFiY2RlZmdoaWprbG1ub3BxcnN0dXZ3eHl6e3x9fn+AgYKDhIWGh4iJiouMjY6PkJGSk5SVlpeYmZqbnJ2en6ChoqOkpaanqKmqq6ytrq+wsbKztLW2t7i5uru8vb6/wMHCw8TFxsfIycrLzM3Oz9DR0tPU1dbX2Nna29zd3t/g4eLj5OXm5+jp6uvs7e7v8PHy8/T19vf4+fr7/P3+/w==";

    #[test]
    fn vectors_both_ways() {
        let all: Vec<u8> = (0..=255).collect();
        let rfc = VECTORS.iter().map(|(bytes, text)| (bytes.as_bytes(), *text));
        for (bytes, text) in rfc.chain([(&all[..], ALL)]) {
            let mut made = String::new();
            append(bytes, &mut made);
            assert_eq!(made, text);
            assert_eq!(decode(text.as_bytes()).ok().as_deref(), Some(bytes));
            let mut out = [0; 344];
            assert_eq!(STANDARD.decode_slice_unchecked(text.as_bytes(), &mut out).ok(), Some(bytes.len()));
            assert_eq!(STANDARD.encode_slice(bytes, &mut out).ok(), Some(text.len()));
            assert_eq!(&out[..text.len()], text.as_bytes());
        }
    }

    #[test]
    fn no_padding_and_no_bits_left() {
        for text in ["Zg", "Zg=", "Zh==", "Zm9=", "Z===", "====", "Zm9v\n", "Zm9v\n   ", "=", "Zg==Zg==", "Zm9_", "Zm9-", "é=="] {
            assert!(decode(text.as_bytes()).is_err(), "{text}");
        }
    }
}
