//! Bytes as lines of hex digits.

/// The bytes of lines, one after the other, and where those of each line end.
pub(crate) struct Frames {
    pub(crate) bytes: Vec<u8>,
    pub(crate) ends: Vec<usize>,
}

fn byte_of(digits: &[u8]) -> u8 {
    u8::from_str_radix(std::str::from_utf8(digits).unwrap(), 16).unwrap()
}

impl Frames {
    /// The bytes of a text, one frame a line, but for empty lines and comments.
    pub(crate) fn parse(text: &str) -> Frames {
        let (mut bytes, mut ends) = (Vec::new(), Vec::new());
        for line in text.lines().filter(|line| !line.is_empty() && !line.starts_with('#')) {
            for word in line.split_ascii_whitespace() {
                bytes.extend(word.as_bytes().chunks(2).map(byte_of));
            }
            ends.push(bytes.len());
        }
        Frames { bytes, ends }
    }
}
