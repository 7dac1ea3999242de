//! What stands for calls of a later Rust than 1.63, by std's own documentation.
use erased::kit::newer::*;
use std::io::{self, ErrorKind, Read};

// (0x0b is no blank of ASCII for std)
#[test]
fn blanks_go() {
    let bytes = [&b" \t\n\x0c\ra b "[..], b"a \x0b\n", b" "].map(Trimmed::trimmed);
    assert_eq!((bytes, b" a \n".end_trimmed()), ([&b"a b"[..], b"a \x0b", b""], &b" a"[..]));
    assert_eq!((" a\u{a0} ".trimmed(), " a ".end_trimmed(), "".trimmed()), ("a\u{a0}", " a", ""));
}

#[test]
fn bytes_are_parted_where_they_reach() {
    let bytes = &mut [1, 2][..];
    assert_eq!(bytes.parted_mut(2).map(|(front, back)| (front.len(), back.len())), Some((2, 0)));
    assert!(bytes.parted_mut(3).is_none());
}

#[test]
fn a_text_is_parted_between_characters() {
    assert_eq!(("a\u{e9}".parted(1), "a\u{e9}".parted(2)), (Some(("a", "\u{e9}")), None));
    assert_eq!(("a\u{e9}".parted(3), "a\u{e9}".parted(4)), (Some(("a\u{e9}", "")), None));
}

/// Interrupts the first call, then gives three bytes a call.
struct Slow<'a>(bool, &'a [u8]);

impl Read for Slow<'_> {
    fn read(&mut self, buf: &mut [u8]) -> io::Result<usize> {
        if !std::mem::replace(&mut self.0, true) {
            return Err(ErrorKind::Interrupted.into());
        }
        let room = buf.len().min(3);
        self.1.read(&mut buf[..room])
    }
}

#[test]
fn all_is_read() {
    let all: Vec<u8> = (0..=255).cycle().take(100_000).collect();
    let mut bytes = b"ab".to_vec();
    assert_eq!(read_whole(&mut Slow(false, &all), &mut bytes).unwrap(), 100_000);
    assert!(bytes.starts_with(b"ab") && bytes[2..] == all);
    let folder = &mut std::fs::File::open("/").unwrap();
    assert!(read_whole(folder, &mut bytes).is_err() && bytes.len() == 100_002);
}

#[test]
fn a_file_is_no_terminal() {
    assert!(!std::fs::File::open("/dev/null").unwrap().is_terminal());
}
