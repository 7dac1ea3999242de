//! What no row of `test_rows` says of the messages of a client: counts past their fields, and serializers that reject or
//! aren't called. Expected bytes are from the message formats of the PostgreSQL manual.

use bytes::BytesMut;
use erased::kit::AsSlice as _;
use erased::proved::pgp_base::{put_u32, BindError, Error, IsNull};
use erased::proved::pgp_frontend::{bind, over_bytes, parse, sync};

#[test]
fn a_parse_of_too_many_types_is_refused() {
    let mut buf = BytesMut::new();
    assert_eq!(sync(&mut buf), Ok(()));
    let answer = parse("", "", 0..65_536u32, &mut buf);
    assert_eq!(answer, Err(Error::TooLarge));
    assert_eq!(buf.as_slice(), b"S\0\0\0\x04".as_slice());
    assert_eq!(parse("", "", 0..65_535u32, &mut buf), Ok(()));
    assert_eq!(buf.len(), 5 + 5 + 2 + 2 + 4 * 65_535);
}

// Messages with texts in LATIN1, where `é` is the byte E9, and `ñ` F1.
fn write_latin1(buf: &mut BytesMut) -> Result<(), Error> {
    over_bytes::query(b"S\xe9", buf)?;
    over_bytes::parse(b"\xf1", b"\xe9", Some(23u32), buf)?;
    over_bytes::close(b'S', b"\xf1", buf)?;
    over_bytes::describe(b'P', b"\xe9", buf)?;
    over_bytes::execute(b"\xe9", 0, buf)?;
    over_bytes::startup_message([(b"user".as_slice(), b"Ren\xe9".as_slice())], buf)?;
    over_bytes::copy_fail(b"no \xe9", buf)?;
    over_bytes::sasl_initial_response(b"\xe9", b"n", buf)
}

// What isn't UTF-8 is written as it stands.
#[test]
fn texts_of_another_encoding() {
    let mut buf = BytesMut::new();
    assert_eq!(write_latin1(&mut buf), Ok(()));
    let answer = over_bytes::query(b"\xe9\0", &mut buf);
    assert_eq!(answer, Err(Error::EmbeddedNull));
    assert_eq!(
        buf.as_slice(),
        b"Q\0\0\0\x07S\xe9\0\
            P\0\0\0\x0e\xf1\0\xe9\0\0\x01\0\0\0\x17\
            C\0\0\0\x07S\xf1\0D\0\0\0\x07P\xe9\0E\0\0\0\x0a\xe9\0\0\0\0\0\
            \0\0\0\x13\0\x03\0\0user\0Ren\xe9\0\0\
            f\0\0\0\x09no \xe9\0p\0\0\0\x0b\xe9\0\0\0\0\x01n"
            .as_slice()
    );
}

// A closure without a state meets what it owes with no clause of its own: here it rejects.
#[test]
fn a_serializer_refuses() {
    let mut buf = BytesMut::new();
    assert_eq!(sync(&mut buf), Ok(()));
    let answer = bind(
        "",
        "",
        None::<i16>,
        [1u32, 2].as_slice(),
        |n: &u32, buf: &mut BytesMut| -> Result<IsNull, u8> {
            if *n == 2 || put_u32(buf, *n).is_err() {
                return Err(7);
            }
            Ok(IsNull::No)
        },
        None::<i16>,
        &mut buf,
    );
    assert_eq!(answer, Err(BindError::Conversion(7)));
    assert_eq!(buf.as_slice(), b"S\0\0\0\x04".as_slice());
}

// Binds so many values, each other one a null, and counts how often the serializer is called. A closure with a state says what it
// owes: the bytes before it stay, and a null appends nothing.
fn bind_counted(portal: &str, statement: &str, values: u32, buf: &mut BytesMut) -> (Result<(), BindError<Error>>, u32) {
    let mut calls = 0u32;
    let answer = bind(
        portal,
        statement,
        None::<i16>,
        0..values,
        |_: u32, buf: &mut BytesMut| -> Result<IsNull, Error> {
            calls += 1;
            if calls % 2 == 0 {
                put_u32(buf, calls)?;
                Ok(IsNull::No)
            } else {
                Ok(IsNull::Yes)
            }
        },
        None::<i16>,
        buf,
    );
    (answer, calls)
}

#[test]
fn bind_refuses_the_value_past_its_count_unserialized() {
    let mut buf = BytesMut::new();
    assert_eq!(sync(&mut buf), Ok(()));
    let refusal = Err(BindError::Serialization(Error::TooLarge));
    let answer = bind_counted("", "", 65_536, &mut buf);
    assert_eq!(answer, (refusal, 65_535));
    assert_eq!(buf.as_slice(), b"S\0\0\0\x04".as_slice());
}

// Binds these texts with so many formats, and no values.
fn bind_formats(portal: &str, statement: &str, formats: u32, buf: &mut BytesMut) -> Result<(), BindError<Error>> {
    bind(
        portal,
        statement,
        (0..formats).map(|_| 1i16),
        None::<u8>,
        |_: u8, _: &mut BytesMut| -> Result<IsNull, Error> { Ok(IsNull::Yes) },
        None::<i16>,
        buf,
    )
}

#[test]
fn bind_refuses_the_first_cause() {
    let mut buf = BytesMut::new();
    assert_eq!(sync(&mut buf), Ok(()));
    for (portal, statement, formats, refusal) in [
        ("", "", 65_536u32, Error::TooLarge),
        ("a\0b", "", 65_536, Error::EmbeddedNull),
        ("", "a\0b", 65_536, Error::EmbeddedNull),
    ] {
        let answer = bind_formats(portal, statement, formats, &mut buf);
        assert_eq!(answer, Err(BindError::Serialization(refusal)));
        assert_eq!(buf.as_slice(), b"S\0\0\0\x04".as_slice());
    }
    assert_eq!(bind_formats("", "", 65_535, &mut buf), Ok(()));
    assert_eq!(buf.len(), 5 + 131_083);
    let front = b"B\0\x02\0\x0a".as_slice();
    assert_eq!(buf.as_slice().get(5..10), Some(front));
}

#[test]
fn bind_asks_for_no_value_behind_a_bad_name() {
    let refusal = Err(BindError::Serialization(Error::EmbeddedNull));
    let mut buf = BytesMut::new();
    assert_eq!(bind_counted("a\0b", "", 2, &mut buf), (refusal, 0));
    assert_eq!(bind_counted("", "a\0b", 2, &mut buf), (refusal, 0));
    assert_eq!(buf.len(), 0);
}
