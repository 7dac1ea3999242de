//! A client's messages: bytes by the PostgreSQL manual's "Message Formats".
use bytes::{BufMut, BytesMut};
use postgres_protocol::IsNull;
use postgres_protocol::message::frontend::{self, BindError, CopyData};
use std::error::Error;
use std::io::ErrorKind;

type Written = Result<IsNull, Box<dyn Error + Sync + Send>>;

fn int4(value: i32, buf: &mut BytesMut) -> Written {
    buf.put_i32(value);
    Ok(IsNull::No)
}

#[test]
fn bind_has_formats_values_and_nulls() {
    let mut buf = BytesMut::from(&b"S"[..]);
    let serializer = |value: Option<i32>, buf: &mut BytesMut| match value {
        Some(value) => int4(value, buf),
        None => Ok(IsNull::Yes),
    };
    assert!(frontend::bind("", "s", [1], [Some(5), None], serializer, [1], &mut buf).is_ok());
    assert_eq!(&buf[..], b"SB\0\0\0\x1d\0s\0\0\x01\0\x01\0\x02\0\0\0\x04\0\0\0\x05\xff\xff\xff\xff\0\x01\0\x01");
}

#[test]
fn a_count_takes_16_bits() {
    let mut buf = BytesMut::new();
    assert!(frontend::bind("", "", [], vec![7; 65_535], int4, [], &mut buf).is_ok());
    assert_eq!((buf.len(), &buf[..11]), (1 + 4 + 2 + 2 + 2 + 65_535 * 8 + 2, &b"B\0\x08\0\x04\0\0\0\0\xff\xff"[..]));
    let mut buf = BytesMut::from(&b"before"[..]);
    let e = frontend::bind("", "", [], vec![7; 65_536], int4, [], &mut buf);
    assert!(matches!(e, Err(BindError::Serialization(e)) if e.kind() == ErrorKind::InvalidInput));
    assert_eq!(&buf[..], b"before");
    assert!(frontend::parse("", "", vec![23; 65_536], &mut buf).is_err());
    assert_eq!(&buf[..], b"before");
}

#[test]
fn on_error_the_buffer_is_unchanged() {
    let mut buf = BytesMut::from(&b"before"[..]);
    assert!(frontend::query("SELECT\0", &mut buf).is_err());
    assert!(frontend::startup_message([("user", "a\0b")], &mut buf).is_err());
    let failing = |value: i32, buf: &mut BytesMut| if value == 3 { Err("three".into()) } else { int4(value, buf) };
    let e = frontend::bind("p", "s", [1], [1, 2, 3], failing, [1], &mut buf);
    assert!(matches!(e, Err(BindError::Conversion(e)) if e.to_string() == "three"));
    assert_eq!(&buf[..], b"before");
}

#[test]
fn the_others() {
    let written = |write: &dyn Fn(&mut BytesMut)| {
        let mut buf = BytesMut::new();
        write(&mut buf);
        buf
    };
    assert_eq!(&written(&|b| frontend::query("SELECT 1", b).unwrap())[..], b"Q\0\0\0\x0dSELECT 1\0");
    assert_eq!(&written(&|b| frontend::parse("", "SELECT 1", [23], b).unwrap())[..], b"P\0\0\0\x14\0SELECT 1\0\0\x01\0\0\0\x17");
    assert_eq!(&written(&|b| frontend::execute("", 0, b).unwrap())[..], b"E\0\0\0\x09\0\0\0\0\0");
    assert_eq!(&written(&|b| frontend::close(b'S', "s", b).unwrap())[..], b"C\0\0\0\x07Ss\0");
    assert_eq!(&written(&|b| frontend::describe(b'P', "", b).unwrap())[..], b"D\0\0\0\x06P\0");
    assert_eq!(&written(&|b| frontend::startup_message([("user", "alice")], b).unwrap())[..], b"\0\0\0\x14\0\x03\0\0user\0alice\0\0");
    assert_eq!(&written(&|b| frontend::cancel_request(1, -2, b))[..], b"\0\0\0\x10\x04\xd2\x16\x2e\0\0\0\x01\xff\xff\xff\xfe");
    assert_eq!(&written(&|b| frontend::ssl_request(b))[..], b"\0\0\0\x08\x04\xd2\x16\x2f");
    assert_eq!(&written(&|b| frontend::sync(b))[..], b"S\0\0\0\x04");
    assert_eq!(&written(&|b| frontend::flush(b))[..], b"H\0\0\0\x04");
    assert_eq!(&written(&|b| frontend::terminate(b))[..], b"X\0\0\0\x04");
    assert_eq!(&written(&|b| frontend::copy_done(b))[..], b"c\0\0\0\x04");
    assert_eq!(&written(&|b| frontend::copy_fail("x", b).unwrap())[..], b"f\0\0\0\x06x\0");
    assert_eq!(&written(&|b| frontend::password_message(b"p", b).unwrap())[..], b"p\0\0\0\x06p\0");
    assert_eq!(&written(&|b| frontend::sasl_initial_response("X", b"ab", b).unwrap())[..], b"p\0\0\0\x0cX\0\0\0\0\x02ab");
    assert_eq!(&written(&|b| frontend::sasl_response(b"ab", b).unwrap())[..], b"p\0\0\0\x06ab");
    assert_eq!(&written(&|b| CopyData::new(&b"ab"[..]).unwrap().write(b))[..], b"d\0\0\0\x06ab");
}
