//! What no row of `test_rows` says of a server's messages: parsers that go on, what they remember, and what a message keeps.
//! Expected bytes are from the message formats of the PostgreSQL manual.

use crate::reads::{buffer, row};
use bytes::{Bytes, BytesMut};
use erased::kit::calls::Fail;
use erased::kit::Global;
use erased::proved::pgp_base::{Error, FallibleIterator};
use erased::proved::pgp_message::{read_frames, DataRowBody, FrameParser, Header, Message, Messages, Storage};

/// A message that was read, or why there is none.
type Read<S> = Result<Message<S>, Error>;

/// The variant of a message, which is let go.
fn named<S: Storage>(read: Result<Option<Message<S>>, Error>) -> Result<Option<&'static str>, Error> {
    match read {
        Ok(Some(message)) => {
            let name = variant(&message);
            drop(message);
            Ok(Some(name))
        }
        Ok(None) => Ok(None),
        Err(e) => Err(e),
    }
}

/// The variants that these tests distinguish.
fn variant<S: Storage>(message: &Message<S>) -> &'static str {
    match message {
        Message::AuthenticationOk => "AuthenticationOk",
        Message::CommandComplete(_) => "CommandComplete",
        Message::DataRow(_) => "DataRow",
        Message::ParseComplete => "ParseComplete",
        _ => "another",
    }
}

pub(super) const ROW: &[u8] = b"\x44\0\0\0\x13\0\x03\0\0\0\x01\x61\xff\xff\xff\xff\0\0\0\0";

/// The tag and the length of the header at the front.
fn header(bytes: &[u8]) -> Result<Option<(u8, i32)>, Error> {
    match Header::parse(bytes) {
        Ok(Some(header)) => Ok(Some((header.tag(), header.len()))),
        Ok(None) => Ok(None),
        Err(e) => Err(e),
    }
}

#[test]
fn header_reads_a_signed_length() {
    assert_eq!(header(b"\x44\0\0\0"), Ok(None));
    let negative = header(b"\x44\x80\0\0\0");
    assert_eq!(negative, Err(Error::InvalidLength));
    assert_eq!(header(b"\x44\0\0\0\x03"), Err(Error::InvalidLength));
    assert_eq!(header(b"\x44\0\0\0\x13\0"), Ok(Some((0x44, 19))));
}

/// The bytes of `ROW`, by both calls.
fn has_its_bytes(row: &DataRowBody<Bytes>) {
    assert_eq!(row.buffer(), &ROW[7..]);
    assert_eq!(row.buffer_bytes().as_slice(), row.buffer());
}

#[test]
fn a_row_is_cloned() -> Result<(), Fail> {
    let first = row(ROW)?;
    let second = first.clone()?;
    has_its_bytes(&second);
    drop(second);
    has_its_bytes(&first);
    Ok(())
}

#[test]
fn the_places_of_a_row_are_collected() -> Result<(), Fail> {
    let whole = row(ROW)?;
    let places = whole.ranges().collect(Global)?;
    let wanted = [Some(4..5), None, Some(13..13)];
    assert_eq!(places.as_slice(), wanted.as_slice());
    let cut = row(b"\x44\0\0\0\x0a\0\x01\0\0\0\x05")?;
    let places = cut.ranges().collect(Global);
    assert_eq!(places.err(), Some(Error::UnexpectedEof));
    Ok(())
}

#[test]
fn the_bytes_of_a_copy_are_handed_over() {
    let mut buf = buffer(b"\x64\0\0\0\x06ab");
    match Message::parse(&mut buf) {
        Ok(Some(Message::CopyData(body))) => {
            assert_eq!(body.into_bytes().as_slice(), b"ab".as_slice());
        }
        other => {
            drop(other);
            panic!("no bytes of a copy");
        }
    }
}

/// The variant of the message at the front, which is removed, by a parser that goes on.
fn taken(parser: &mut FrameParser, buf: &mut BytesMut) -> Result<Option<&'static str>, Error> {
    if !parser.fits(buf) {
        return Err(Error::InvalidCount);
    }
    named(parser.parse(buf))
}

/// Takes what can be taken, and says how many of these results came then in their order.
fn drain(
    parser: &mut FrameParser,
    buf: &mut BytesMut,
    expected: &[Result<Option<&'static str>, Error>],
    received: usize,
) -> usize {
    let mut received = received;
    for _ in expected {
        let result = taken(parser, buf);
        if result == Ok(None) || result == Err(Error::InvalidLength) {
            return received;
        }
        if received < expected.len() && result == expected[received] {
            received += 1;
        }
    }
    received
}

/// The bytes, cut after those whose bit is set: how many of these results came, what is left, and how many headers were read.
fn read_in_pieces(
    bytes: &[u8],
    cuts: u32,
    expected: &[Result<Option<&'static str>, Error>],
) -> Result<(usize, usize, u64), Error> {
    let mut parser = FrameParser::new();
    let mut buf = BytesMut::new();
    let mut received = 0usize;
    let mut bits = cuts;
    for byte in bytes {
        buf.extend_from_slice(&[*byte]);
        if bits & 1 == 1 {
            received = drain(&mut parser, &mut buf, expected, received);
        }
        bits >>= 1;
    }
    received = drain(&mut parser, &mut buf, expected, received);
    Ok((received, buf.len(), parser.headers()))
}

const REFUSED_THEN_READ: &[u8] = b"\x5a\0\0\0\x06\x49\0\x31\0\0\0\x04";

#[test]
fn a_parser_reads_the_same_however_the_bytes_are_cut() {
    let results = [Err(Error::NotDrained), Ok(Some("ParseComplete"))];
    for cuts in 0..2048u32 {
        let read = read_in_pieces(REFUSED_THEN_READ, cuts, &results);
        assert_eq!(read, Ok((2, 0, 2)));
    }
    let fault: &[u8] = b"\x5a\0\0\0\x03\x31\0\0\0\x04";
    for cuts in 0..512u32 {
        let answer = read_in_pieces(fault, cuts, &results);
        assert_eq!(answer, Ok((0, 10, 1)));
    }
}

#[test]
fn the_header_of_a_long_frame_is_read_once() {
    let row = [Ok(Some("DataRow"))];
    for first in 0..20u32 {
        for second in 0..20u32 {
            let cuts = (1 << first) | (1 << second);
            let answer = read_in_pieces(ROW, cuts, &row);
            assert_eq!(answer, Ok((1, 0, 1)));
        }
    }
    let answer = read_in_pieces(ROW, u32::MAX, &row);
    assert_eq!(answer, Ok((1, 0, 1)));
}

/// What stands there in a list of results.
fn reported(list: &[Read<Bytes>], at: usize) -> Option<Result<&'static str, Error>> {
    match list.get(at) {
        Some(Ok(message)) => Some(Ok(variant(message))),
        Some(Err(e)) => Some(Err(*e)),
        None => None,
    }
}

const FOUR_AND_A_CUT_ROW: &[u8] =
    b"\x5a\0\0\0\x06\x49\0\x31\0\0\0\x04\x43\0\0\0\x06A\0\x52\0\0\0\x08\0\0\0\0\x44\0\0\0\x13\0";

#[test]
fn whole_frames_are_found() {
    let mut parser = FrameParser::new();
    let found = parser.find_all(FOUR_AND_A_CUT_ROW);
    assert_eq!((found.len, found.count, found.stopped), (28, 4, false));
    assert_eq!((parser.headers(), parser.missing(6)), (5, 14));
}

// What is asserted of the parser here is what `find_all` requires next.
#[test]
fn a_remembered_header_is_not_counted_again() {
    let mut parser = FrameParser::new();
    assert_eq!(parser.missing(0), 5);
    let found = parser.find_all(b"\x44\0\0");
    assert_eq!(
        (found.len, found.count, parser.headers(), parser.missing(3)),
        (0, 0, 0, 2)
    );
    let found = parser.find_all(&ROW[..5]);
    assert_eq!(
        (found.len, found.count, parser.headers(), parser.missing(5)),
        (0, 0, 1, 15)
    );
    let found = parser.find_all(ROW);
    assert_eq!((found.len, found.count, parser.headers()), (20, 1, 1));
}

#[test]
fn a_long_frame_is_asked_for_in_parts() {
    let mut parser = FrameParser::new();
    let found = parser.find_all(b"\x64\0\x0f\x42\x40");
    assert_eq!((found.len, found.count, found.stopped), (0, 0, false));
    assert_eq!(parser.missing(5), 65536);
    assert_eq!(parser.missing(1_000_000), 1);
    assert_eq!(parser.missing(1_000_001), 1);
}

#[test]
fn a_length_fault_ends_what_is_found() {
    let mut parser = FrameParser::new();
    let found = parser.find_all(b"\x31\0\0\0\x04\x31\0\0\0\x03\x31\0\0\0\x04");
    assert_eq!((found.len, found.count, found.stopped), (5, 1, true));
    assert_eq!(parser.headers(), 2);
}

/// What the complete frames of the bytes are read as.
fn read_found(bytes: &[u8]) -> Result<Vec<Read<Bytes>>, Error> {
    let found = FrameParser::new().find_all(bytes);
    let (front, _) = bytes.split_at(found.len);
    let frames = Bytes::copy_from_slice(front);
    let mut list = Vec::new();
    read_frames(&frames, found.count, &mut list)?;
    Ok(list)
}

#[test]
fn found_frames_are_read_onto_a_list() -> Result<(), Fail> {
    let results = read_found(FOUR_AND_A_CUT_ROW)?;
    let list = results.as_slice();
    assert_eq!(reported(list, 0), Some(Err(Error::NotDrained)));
    assert_eq!(reported(list, 1), Some(Ok("ParseComplete")));
    assert_eq!(reported(list, 2), Some(Ok("CommandComplete")));
    assert_eq!(reported(list, 3), Some(Ok("AuthenticationOk")));
    assert_eq!(reported(list, 4), None);
    Ok(())
}

#[test]
fn messages_are_taken_off_shared_bytes() -> Result<(), Fail> {
    let mut bytes = Bytes::copy_from_slice(FOUR_AND_A_CUT_ROW);
    for wanted in [
        Err(Error::NotDrained),
        Ok(Some("ParseComplete")),
        Ok(Some("CommandComplete")),
        Ok(Some("AuthenticationOk")),
        Ok(None),
    ] {
        assert_eq!(named(Message::parse_shared(&mut bytes)), wanted);
    }
    assert_eq!(bytes.as_slice(), b"\x44\0\0\0\x13\0".as_slice());
    let mut bytes = Bytes::copy_from_slice(b"\x31\0\0\0\x03");
    let fault = named(Message::parse_shared(&mut bytes));
    assert_eq!((fault, bytes.len()), (Err(Error::InvalidLength), 5));
    Ok(())
}

/// The bytes of a copy that was read in place.
fn copied<'a>(read: &Result<Option<Message<&'a [u8]>>, Error>) -> Option<&'a [u8]> {
    match read {
        Ok(Some(Message::CopyData(body))) => Some(body.data()),
        _ => None,
    }
}

#[test]
fn a_message_is_kept_while_the_reader_goes_on() {
    let mut messages = Messages::new(b"d\0\0\0\x06ab1\0\0\0\x04");
    let read = messages.next();
    let data = copied(&read);
    drop(read);
    assert_eq!(messages.rest().len(), 5);
    assert_eq!(named(messages.next()), Ok(Some("ParseComplete")));
    assert_eq!(data, Some(b"ab".as_slice()));
}
