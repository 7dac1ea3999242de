//! Each example of `pgp_uses` once, on bytes of the message formats of the PostgreSQL manual.

use crate::uses::logins::exchange;
use bytes::BytesMut;
use erased::kit::calls::Fail;
use erased::kit::AsSlice as _;
use erased::kit::Global;
use erased::proved::pgp_base::Window;
use erased::proved::postgres_protocol::message::frontend;
use erased::proved::postgres_protocol::session::{ClientStream, StreamParser};
use erased::proved::postgres_protocol::{BindError, Error};
use std::ops::Range;
use tests::proved::test_alloc::counting::Counting;
use tests::proved::pgp_uses::columns::{column_names, NamesError};
use tests::proved::pgp_uses::filter::{pass, FilterError};
use tests::proved::pgp_uses::login::{begin, equals, respond, set_password};
use tests::proved::pgp_uses::recorder::record;
use tests::proved::pgp_uses::rows::{int4_column, text_column, ColumnError};
use tests::proved::pgp_uses::server::answer;
use tests::proved::pgp_uses::session::{ask_named, one_query, AskError};
use tests::proved::pgp_uses::streams::{completed, frame_count, front_row};
use tests::proved::pgp_uses::values::{bind_int4, parameter, value_of};
use tests::proved::pgp_uses::writing::{ask, ask_in_place};

const QUERY: &[u8; 14] = b"Q\x00\x00\x00\x0dSELECT 1\x00";

/// A row of the int4 7, the text `ab` and a null, and a message that says that the server is ready.
pub(crate) const ROW: &[u8; 31] =
    b"D\x00\x00\x00\x18\x00\x03\x00\x00\x00\x04\x00\x00\x00\x07\x00\x00\x00\x02ab\xff\xff\xff\xffZ\x00\x00\x00\x05I";

#[test]
fn a_query_is_appended() -> Result<(), Fail> {
    let mut buf = BytesMut::new();
    assert_eq!(ask("SELECT 1", &mut buf), Ok(()));
    assert_eq!(ask("a\0b", &mut buf), Err(Error::EmbeddedNull));
    assert_eq!(buf.as_slice(), QUERY.as_slice());
    Ok(())
}

#[test]
fn a_query_is_written_in_place() -> Result<(), Fail> {
    let mut room = [0xffu8; 16];
    assert_eq!(ask_in_place("SELECT 1", &mut room), Ok(14));
    let wanted = b"Q\x00\x00\x00\x0dSELECT 1\x00\xff\xff";
    assert_eq!(room.as_slice(), wanted.as_slice());
    let mut short = [0xffu8; 13];
    let answer = ask_in_place("SELECT 1", &mut short);
    assert_eq!(answer, Err(Error::OutOfMemory));
    let answer = ask_in_place("a\0b", &mut room);
    assert_eq!(answer, Err(Error::EmbeddedNull));
    Ok(())
}

#[test]
fn a_session_of_one_query() -> Result<(), Fail> {
    let stream = one_query(Global, "alice", "SELECT 1")?;
    let wanted = b"\x00\x00\x00\x14\x00\x03\x00\x00user\x00alice\x00\x00Q\x00\x00\x00\x0dSELECT 1\x00X\x00\x00\x00\x04";
    assert_eq!(stream.bytes(), wanted.as_slice());
    Ok(())
}

#[test]
fn a_named_statement_is_asked() -> Result<(), Fail> {
    let mut stream = ClientStream::<BytesMut>::new(Global);
    stream.startup_message(&[("user", "app")])?;
    assert_eq!(ask_named("s", "select $1", -2, &mut stream), Ok(()));
    let wanted =
        b"\x00\x00\x00\x12\x00\x03\x00\x00user\x00app\x00\x00P\x00\x00\x00\x12s\x00select $1\x00\x00\x00B\x00\x00\x00\x19\x00s\x00\x00\x01\x00\x01\x00\x01\x00\x00\x00\x04\xff\xff\xff\xfe\x00\x01\x00\x01D\x00\x00\x00\x06P\x00E\x00\x00\x00\x09\x00\x00\x00\x00\x00S\x00\x00\x00\x04";
    assert_eq!(stream.bytes(), wanted.as_slice());
    Ok(())
}

#[test]
fn a_refused_statement_is_not_asked() -> Result<(), Fail> {
    let mut stream = ClientStream::<BytesMut>::new(Global);
    stream.startup_message(&[("user", "app")])?;
    let answer = ask_named("s", "a\0b", 7, &mut stream);
    assert_eq!(answer, Err(AskError::Message(Error::EmbeddedNull)));
    let wanted = b"\x00\x00\x00\x12\x00\x03\x00\x00user\x00app\x00\x00";
    assert_eq!(stream.bytes(), wanted.as_slice());
    Ok(())
}

/// The memory holds the startup packet, the statement's text, and the binding up to its value, which it lacks.
#[test]
fn a_binding_without_room_is_refused() -> Result<(), Fail> {
    let mut room = [0u8; 56];
    let mut stream = ClientStream::over(Window::new(&mut room));
    stream.startup_message(&[("user", "app")])?;
    let refusal = AskError::Binding(BindError::Conversion(Error::OutOfMemory));
    let answer = ask_named("s", "select $1", -2, &mut stream);
    assert_eq!(answer, Err(refusal));
    let wanted = b"\x00\x00\x00\x12\x00\x03\x00\x00user\x00app\x00\x00P\x00\x00\x00\x12s\x00select $1\x00\x00\x00";
    assert_eq!(stream.bytes(), wanted.as_slice());
    Ok(())
}

#[test]
fn pieces_complete_frames() -> Result<(), Fail> {
    let mut parser = StreamParser::new(Global);
    let (front, back) = ROW.split_at(27);
    let answer = completed(front, &mut parser).map(|got| got.len());
    assert_eq!(answer, Ok(1));
    if parser.failed() {
        return Err(Error::OutOfMemory.into());
    }
    let answer = completed(back, &mut parser).map(|got| got.len());
    assert_eq!(answer, Ok(1));
    assert_eq!(frame_count(Global, &[front, back]), Ok(2));
    assert_eq!(frame_count(Global, &[front]), Ok(1));
    Ok(())
}

#[test]
fn columns_of_a_row() -> Result<(), Fail> {
    let Some((row, rest)) = front_row(ROW) else {
        return Err(Error::UnexpectedEof.into());
    };
    assert_eq!(rest, b"Z\x00\x00\x00\x05I".as_slice());
    let index = row.index(Global)?;
    assert_eq!(int4_column(&index, 0), Ok(Some(7)));
    assert_eq!(text_column(&index, 1), Ok(Some("ab")));
    let answer = int4_column(&index, 1);
    assert_eq!(answer, Err(ColumnError::Value(Error::UnexpectedEof)));
    assert_eq!(int4_column(&index, 2), Ok(None));
    assert_eq!(text_column(&index, 2), Ok(None));
    assert_eq!(text_column(&index, 3), Err(ColumnError::NoColumn));
    assert_eq!(value_of::<i32>(&index, 0), Ok(Some(7)));
    assert_eq!(value_of::<&str>(&index, 1), Ok(Some("ab")));
    assert_eq!(value_of::<&str>(&index, 2), Ok(None));
    let answer = value_of::<i32>(&index, 3);
    assert_eq!(answer, Err(ColumnError::NoColumn));
    assert!(front_row(rest).is_none());
    Ok(())
}

// A parameter's status, that the server is ready, and a description of two columns.
const DESCRIBED: &[u8] =
    b"S\0\0\0\x16server_version\x0016\0Z\0\0\0\x05IT\0\0\0\x32\0\x02id\0\0\0\x40\0\0\x01\0\0\0\x17\0\x04\xff\xff\xff\xff\0\0name\0\0\0\x40\0\0\x02\0\0\0\x19\xff\xff\xff\xff\xff\xff\0\0C\0\0\0\x0dSELECT 0\0";

/// The columns of the first description in these bytes have these names, or are rejected so.
fn has_names(bytes: &[u8], wanted: Result<&[&str], NamesError>) {
    match column_names(Global, bytes) {
        Ok(names) => assert_eq!(Ok(names.as_slice()), wanted),
        Err(e) => assert_eq!(Err(e), wanted),
    }
}

#[test]
fn columns_have_names() {
    has_names(DESCRIBED, Ok(&["id", "name"]));
    let none = Err(NamesError::NoDescription);
    has_names(&DESCRIBED[..29], none);
    // The second column announces more than there is.
    let short = b"T\0\0\0\x1b\0\x02id\0\0\0\x40\0\0\x01\0\0\0\x17\0\x04\xff\xff\xff\xff\0\0";
    let cut = Err(NamesError::Refused(Error::UnexpectedEof));
    has_names(short, cut);
}

#[test]
fn parameters_of_a_statement() -> Result<(), Fail> {
    let mut buf = BytesMut::new();
    let bound = frontend::bind(
        "",
        "s",
        Some(1i16),
        [Some(5i32), None].as_slice(),
        |value: &Option<i32>, buf: &mut BytesMut| parameter(value, buf),
        Some(1i16),
        &mut buf,
    );
    assert!(bound.is_ok());
    let wanted =
        b"B\x00\x00\x00\x1d\x00s\x00\x00\x01\x00\x01\x00\x02\x00\x00\x00\x04\x00\x00\x00\x05\xff\xff\xff\xff\x00\x01\x00\x01";
    assert_eq!(buf.as_slice(), wanted.as_slice());
    Ok(())
}

/// Each length by hand: 4 of its own, two empty names, one format, one value, no format of results.
#[test]
fn one_value_is_bound() -> Result<(), Fail> {
    let mut buf = BytesMut::new();
    assert!(bind_int4(Some(5), &mut buf).is_ok());
    assert!(bind_int4(None, &mut buf).is_ok());
    let wanted =
        b"B\x00\x00\x00\x16\x00\x00\x00\x01\x00\x01\x00\x01\x00\x00\x00\x04\x00\x00\x00\x05\x00\x00B\x00\x00\x00\x12\x00\x00\x00\x01\x00\x01\x00\x01\xff\xff\xff\xff\x00\x00";
    assert_eq!(buf.as_slice(), wanted.as_slice());
    Ok(())
}

/// What is recorded of these bytes: the places of the frames, where the rest begins, and whether the record stopped there.
fn is_recorded(bytes: &[u8], places: &[Range<usize>], rest: (usize, bool)) {
    match record(Global, bytes) {
        Ok(all) => {
            assert_eq!(all.places.as_slice(), places);
            assert_eq!((all.rest, all.stopped), rest);
        }
        Err(_) => panic!("what was wanted didn't come"),
    }
}

#[test]
fn frames_are_recorded() {
    is_recorded(ROW, &[0..25, 25..31], (31, false));
    is_recorded(&ROW[..30], &[0..25], (25, false));
    let wrong = b"?\x00\x00\x00\x041\x00\x00\x00\x03";
    is_recorded(wrong, &[0..5], (5, true));
}

#[test]
fn frames_are_passed_up_to_a_limit() -> Result<(), Fail> {
    let mut out = BytesMut::new();
    assert_eq!(pass(13, QUERY, &mut out), Ok(Some(14)));
    assert_eq!(pass(13, &QUERY[..13], &mut out), Ok(None));
    assert_eq!(pass(12, &QUERY[..4], &mut out), Ok(None));
    let passed = pass(12, &QUERY[..5], &mut out);
    assert_eq!(passed, Err(FilterError::PastLimit));
    let passed = pass(12, b"Q\x00\x00\x00\x03", &mut out);
    assert_eq!(passed, Err(FilterError::InvalidLength));
    assert_eq!(out.as_slice(), QUERY.as_slice());
    Ok(())
}

#[test]
fn answers_are_frames() -> Result<(), Fail> {
    let mut buf = BytesMut::new();
    assert_eq!(answer(b'1', b"", &mut buf), Ok(()));
    assert_eq!(answer(b'Z', b"I", &mut buf), Ok(()));
    let wanted = b"1\x00\x00\x00\x04Z\x00\x00\x00\x05I";
    assert_eq!(buf.as_slice(), wanted.as_slice());
    Ok(())
}

/// The texts of the Rust crate's own test, for the password `foobar`.
#[test]
fn a_challenge_is_answered() -> Result<(), Fail> {
    let mut client = exchange()?;
    let mut out = BytesMut::new();
    let first = b"r=9IZ2O01zb9IgiIZ1WJ/zgpJBjx/oIRLs02gGSHcw1KEty3eY,s=fs3IXBy7U7+IvVjZ,i=4096";
    assert!(respond(first, &mut client, &mut out).is_ok());
    let wanted =
        b"p\x00\x00\x00\x6cc=biws,r=9IZ2O01zb9IgiIZ1WJ/zgpJBjx/oIRLs02gGSHcw1KEty3eY,p=AmNKosjJzS31NTlQYNs5BTeQjdHdk7lOflDo5re2an8=";
    assert_eq!(out.as_slice(), wanted.as_slice());
    let last = b"v=U+ppxD5XUKtradnv8e2MkeupiA8FU87Sg8CXzXHDAzw=";
    assert!(client.finish(last).is_ok());
    Ok(())
}

/// The front is fixed by the manual and RFC 5802; the 24 characters of the nonce stand after it.
#[test]
fn a_login_begins() -> Result<(), Fail> {
    let mut out = BytesMut::new();
    let client = begin(Global, b"foobar", &mut Counting(0), &mut out)?;
    let front = b"p\x00\x00\x00\x36SCRAM-SHA-256\x00\x00\x00\x00\x20n,,n=,r=";
    assert!(out.as_slice().starts_with(front));
    assert_eq!(out.len(), 55);
    assert_eq!(client.message(), out.as_slice().get(23..));
    Ok(())
}

/// The verifier is of the Rust crate's own test: the password `secret` and the salt of the bytes 1 to 16.
#[test]
fn commands_hold_what_they_are_reported() -> Result<(), Fail> {
    let command = set_password(Global, "o\"reilly", b"secret", &mut Counting(0xfffe_fdfd))?;
    assert_eq!(command.as_str(), "ALTER USER \"o\"\"reilly\" PASSWORD 'SCRAM-SHA-256$4096:AQIDBAUGBwgJCgsMDQ4PEA==$8rrDg00OqaiWXJ7p+sCgHEIaBSHY89ZJl3mfIsf32oY=:05L1f+yZbiN8O0AnO40Og85NNRhvzTS57naKRWCcsIA='");
    let part = equals(Global, "name", "O'Reilly")?;
    assert_eq!(part.as_str(), "\"name\" = 'O''Reilly'");
    Ok(())
}
