//! What std has since a later Rust than 1.63, Debian 12's: `is_terminal` (1.70), `trim_ascii`, `trim_ascii_end`, `split_at_checked` and
//! `split_at_mut_checked` (1.80). There `read_to_end` ends the program where it has no memory.

use std::fs::File;
use std::io::{self, ErrorKind, Read};

pub trait IsTerminal {
    fn is_terminal(&self) -> bool;
}

impl IsTerminal for File {
    fn is_terminal(&self) -> bool {
        parts::is_terminal(self)
    }
}

/// Bytes or a text without the blanks of ASCII around, or behind, them.
pub trait Trimmed {
    fn trimmed(&self) -> &Self;
    fn end_trimmed(&self) -> &Self;
}

impl Trimmed for [u8] {
    fn trimmed(&self) -> &[u8] {
        let text = self.end_trimmed();
        let front = text.iter().take_while(|byte| byte.is_ascii_whitespace()).count();
        &text[front..]
    }

    fn end_trimmed(&self) -> &[u8] {
        let behind = self.iter().rev().take_while(|byte| byte.is_ascii_whitespace()).count();
        &self[..self.len() - behind]
    }
}

impl Trimmed for str {
    fn trimmed(&self) -> &str {
        self.trim_matches(|c: char| c.is_ascii_whitespace())
    }

    fn end_trimmed(&self) -> &str {
        self.trim_end_matches(|c: char| c.is_ascii_whitespace())
    }
}

pub trait Parted {
    fn parted(&self, place: usize) -> Option<(&str, &str)>;
}

impl Parted for str {
    fn parted(&self, place: usize) -> Option<(&str, &str)> {
        Some((self.get(..place)?, self.get(place..)?))
    }
}

/// How much is asked for ahead, at most.
const AHEAD: usize = 65_536;

/// `read_to_end`, which says that memory lacks.
pub fn read_whole(reader: &mut (impl Read + ?Sized), bytes: &mut Vec<u8>) -> io::Result<usize> {
    let begun = bytes.len();
    loop {
        let have = bytes.len();
        if bytes.capacity() == have {
            bytes.try_reserve(1024).map_err(|_| ErrorKind::OutOfMemory)?;
        }
        bytes.resize(bytes.capacity().min(have + AHEAD), 0);
        let read = reader.read(&mut bytes[have..]);
        bytes.truncate(have + read.as_ref().map_or(0, |len| *len));
        match read {
            Ok(0) => return Ok(have - begun),
            Err(e) if e.kind() != ErrorKind::Interrupted => return Err(e),
            _ => {}
        }
    }
}

pub trait PartedMut {
    fn parted_mut(&mut self, place: usize) -> Option<(&mut [u8], &mut [u8])>;
}

impl PartedMut for [u8] {
    fn parted_mut(&mut self, place: usize) -> Option<(&mut [u8], &mut [u8])> {
        (place <= self.len()).then(|| self.split_at_mut(place))
    }
}
