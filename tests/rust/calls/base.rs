//! Expected bytes are from the message formats of the PostgreSQL manual.

use bytes::BytesMut;
use erased::kit::calls::Fail;
use erased::proved::pgp_base::{
    i16_from_usize, i32_from_usize, put_u8, u16_from_usize, write_body, write_counted, write_cstr, write_nullable,
    BindError, Buffer, Error, IsNull, Window,
};
use std::ops::Range;

// `?` makes a writer's own error from an `Error`.
#[test]
fn an_error_becomes_a_serialization() {
    let made: BindError<u8> = BindError::from(Error::TooLarge);
    assert_eq!(made, BindError::Serialization(Error::TooLarge));
}

#[test]
fn lengths_past_their_fields_are_refused() {
    assert_eq!(i16_from_usize(32_767), Ok(32_767));
    assert_eq!(i16_from_usize(32_768), Err(Error::TooLarge));
    assert_eq!(u16_from_usize(65_535), Ok(65_535));
    assert_eq!(u16_from_usize(65_536), Err(Error::TooLarge));
    assert_eq!(i32_from_usize(2_147_483_647), Ok(2_147_483_647));
    assert_eq!(i32_from_usize(2_147_483_648), Err(Error::TooLarge));
}

// A value of one byte, a null, or one that is rejected after its byte.
fn write_value(is_null: bool, is_refused: bool, buf: &mut BytesMut) -> Result<(), BindError<Error>> {
    let value = |buf: &mut BytesMut| -> Result<IsNull, Error> {
        if is_null {
            return Ok(IsNull::Yes);
        }
        put_u8(buf, b'a')?;
        if is_refused {
            return Err(Error::NotUtf8);
        }
        Ok(IsNull::No)
    };
    write_nullable(value, buf)
}

// A byte for each of these numbers, after their count.
fn write_bytes(numbers: Range<u32>, buf: &mut BytesMut) -> Result<(), BindError<Error>> {
    let item = |n: u32, buf: &mut BytesMut| put_u8(buf, (n % 256) as u8);
    write_counted(numbers, item, buf)
}

// A text after a length.
fn write_text(text: &[u8], buf: &mut BytesMut) -> Result<(), BindError<Error>> {
    write_body(buf, |buf: &mut BytesMut| write_cstr(text, buf))
}

#[test]
fn parts_stand_behind_a_length_or_a_count() {
    let mut buf = BytesMut::new();
    assert_eq!(write_cstr(b"a", &mut buf), Ok(()));
    assert_eq!(buf.as_slice(), b"a\0".as_slice());

    buf.truncate(0);
    assert_eq!(write_text(b"a", &mut buf), Ok(()));
    assert_eq!(buf.as_slice(), b"\0\0\0\x06a\0".as_slice());

    buf.truncate(0);
    assert_eq!(write_value(false, false, &mut buf), Ok(()));
    assert_eq!(write_value(true, false, &mut buf), Ok(()));
    let wanted = b"\0\0\0\x01a\xff\xff\xff\xff";
    assert_eq!(buf.as_slice(), wanted.as_slice());

    buf.truncate(0);
    assert_eq!(write_bytes(97..98, &mut buf), Ok(()));
    assert_eq!(buf.as_slice(), b"\0\x01a".as_slice());
}

#[test]
fn a_refusal_restores_the_buffer() {
    let mut buf = BytesMut::new();
    assert_eq!(write_cstr(b"x", &mut buf), Ok(()));
    assert_eq!(write_cstr(b"a\0b", &mut buf), Err(Error::EmbeddedNull));
    let answer = write_text(b"a\0b", &mut buf);
    assert_eq!(answer, Err(BindError::Conversion(Error::EmbeddedNull)));
    let answer = write_value(false, true, &mut buf);
    assert_eq!(answer, Err(BindError::Conversion(Error::NotUtf8)));
    let answer = write_bytes(0..65_536, &mut buf);
    assert_eq!(answer, Err(BindError::Serialization(Error::TooLarge)));
    assert_eq!(buf.as_slice(), b"x\0".as_slice());
}

// The text of an error is the name of its variant.
const NAMES: [(Error, &str); 20] = [
    (Error::OutOfMemory, "OutOfMemory"),
    (Error::EmbeddedNull, "EmbeddedNull"),
    (Error::TooLarge, "TooLarge"),
    (Error::InvalidLength, "InvalidLength"),
    (Error::UnknownTag(33), "UnknownTag"),
    (Error::UnknownAuthentication(-1), "UnknownAuthentication"),
    (Error::UnexpectedEof, "UnexpectedEof"),
    (Error::NotDrained, "NotDrained"),
    (Error::NotUtf8, "NotUtf8"),
    (Error::InvalidSize, "InvalidSize"),
    (Error::InvalidCount, "InvalidCount"),
    (Error::InvalidKeyLength, "InvalidKeyLength"),
    (Error::InvalidValueLength, "InvalidValueLength"),
    (Error::InvalidDimension, "InvalidDimension"),
    (Error::TooManyElements, "TooManyElements"),
    (Error::InvalidBitLength, "InvalidBitLength"),
    (Error::InvalidNetmask, "InvalidNetmask"),
    (Error::InvalidAddressLength, "InvalidAddressLength"),
    (Error::InvalidFamily, "InvalidFamily"),
    (Error::InvalidVersion, "InvalidVersion"),
];

#[test]
fn refusals_are_reported_by_name() -> Result<(), Fail> {
    for (refusal, name) in NAMES {
        let text = refusal.to_string();
        assert_eq!(text.as_str(), name);
    }
    Ok(())
}

#[test]
fn the_item_past_the_count_is_not_serialized() {
    for (items, written, bytes) in [(65_535u32, true, 65_537usize), (65_536, false, 0)] {
        let mut buf = BytesMut::new();
        let mut calls = 0u32;
        let item = |_: u32, buf: &mut BytesMut| -> Result<(), Error> {
            calls += 1;
            put_u8(buf, b'a')
        };
        let answer = write_counted(0..items, item, &mut buf);
        assert_eq!(answer.is_ok(), written);
        assert_eq!(calls, 65_535);
        assert_eq!(buf.len(), bytes);
    }
}

#[test]
fn a_long_text_finds_memory() {
    let mut buf = BytesMut::new();
    assert_eq!(write_cstr(&[b'a'; 100_000], &mut buf), Ok(()));
    assert_eq!(buf.len(), 100_001);
    assert_eq!(buf.as_slice().last(), Some(&0));
}

// A text in memory of the caller's, which has room for `abc` and its 0, or a byte less. What wasn't lent stays as it was.
#[test]
fn a_text_takes_the_room_of_its_bytes() {
    let mut room = [0xffu8; 6];
    let mut window = Window::new(&mut room[..4]);
    assert_eq!(write_cstr(b"abc", &mut window), Ok(()));
    assert_eq!(window.as_slice(), b"abc\0".as_slice());
    assert_eq!(room.as_slice(), b"abc\0\xff\xff".as_slice());

    let mut room = [0xffu8; 6];
    let mut window = Window::new(&mut room[..3]);
    let answer = write_cstr(b"abc", &mut window);
    assert_eq!(answer, Err(Error::OutOfMemory));
    assert_eq!(window.len(), 0);
    assert_eq!(&room[3..], b"\xff\xff\xff".as_slice());
}

#[test]
fn an_appended_piece_is_drained() {
    let mut buf = BytesMut::new();
    let mut more = b"abc".as_slice();
    assert!(buf.append_from(&mut more).is_ok());
    assert_eq!(more, b"".as_slice());
    assert_eq!(buf.as_slice(), b"abc".as_slice());

    let mut room = [0xffu8; 3];
    let mut window = Window::new(&mut room);
    let mut more = b"abcd".as_slice();
    assert!(window.append_from(&mut more).is_err());
    assert_eq!(more, b"abcd".as_slice());
    let mut more = b"ab".as_slice();
    assert!(window.append_from(&mut more).is_ok());
    assert_eq!(more, b"".as_slice());
    assert_eq!(room.as_slice(), b"ab\xff".as_slice());
}
