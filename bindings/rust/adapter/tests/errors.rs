//! Errors of `std` that are kept: what isn't UTF-8, and what is no number. Their words are those of Rust's own documentation and sources.
use bytes::BytesMut;
use fallible_iterator::FallibleIterator;
use postgres_protocol::authentication::sasl::{ChannelBinding, ScramSha256};
use postgres_protocol::message::backend::Message;
use postgres_protocol::types;
use std::error::Error;
use std::io::{self, ErrorKind};
use std::num::{IntErrorKind, ParseIntError};
use std::str::Utf8Error;

/// The error is `std`'s, of this place, and says it in `std`'s words.
fn is_utf8_error(e: &(dyn Error + Send + Sync + 'static), at: usize) {
    let found = e.downcast_ref::<Utf8Error>().expect("a Utf8Error");
    assert_eq!((found.valid_up_to(), found.error_len()), (at, Some(1)));
    assert_eq!(e.to_string(), format!("invalid utf-8 sequence of 1 bytes from index {at}"));
    assert!(e.source().is_none());
}

fn wraps_utf8_error<T>(read: io::Result<T>, at: usize) {
    let e = read.err().expect("an error");
    assert_eq!((e.kind(), e.to_string()), (ErrorKind::InvalidInput, format!("invalid utf-8 sequence of 1 bytes from index {at}")));
    is_utf8_error(e.get_ref().expect("an inner error"), at);
}

fn message(tag: u8, body: &[u8]) -> Message {
    let mut buf = BytesMut::from(&[tag][..]);
    buf.extend_from_slice(&(body.len() as u32 + 4).to_be_bytes());
    buf.extend_from_slice(body);
    Message::parse(&mut buf).unwrap().unwrap()
}

#[test]
fn values_that_are_not_utf8() {
    is_utf8_error(&*types::text_from_sql(b"abc\xff").unwrap_err(), 3);
    is_utf8_error(&*types::ltree_from_sql(b"\x01ab\xff").unwrap_err(), 2);
    is_utf8_error(&*types::lquery_from_sql(b"\x01\xff").unwrap_err(), 0);
    is_utf8_error(&*types::ltxtquery_from_sql(b"\x01a\xffb").unwrap_err(), 1);
    assert!(types::ltree_from_sql(b"\x02ab\xff").unwrap_err().downcast_ref::<Utf8Error>().is_none());
}

#[test]
fn parts_of_messages_that_are_not_utf8() {
    match message(b'C', b"SELECT\xff\0") {
        Message::CommandComplete(body) => wraps_utf8_error(body.tag(), 6),
        _ => panic!(),
    }
    match message(b'A', b"\0\0\0\x01a\xff\0abc\xff\0") {
        Message::NotificationResponse(body) => {
            wraps_utf8_error(body.channel(), 1);
            wraps_utf8_error(body.message(), 3);
        }
        _ => panic!(),
    }
    match message(b'S', b"\xff\0on\xff\0") {
        Message::ParameterStatus(body) => {
            wraps_utf8_error(body.name(), 0);
            wraps_utf8_error(body.value(), 2);
        }
        _ => panic!(),
    }
}

#[test]
fn names_in_lists_that_are_not_utf8() {
    match message(b'R', b"\0\0\0\x0aPLAIN\0abcd\xff\0\0") {
        Message::AuthenticationSasl(body) => {
            let mut mechanisms = body.mechanisms();
            assert_eq!(mechanisms.next().unwrap(), Some("PLAIN"));
            wraps_utf8_error(mechanisms.next(), 4);
        }
        _ => panic!(),
    }
    let mut columns = b"\0\x02id\0".to_vec();
    columns.extend_from_slice(&[0; 18]);
    columns.extend_from_slice(b"name\xff\0");
    columns.extend_from_slice(&[0; 18]);
    match message(b'T', &columns) {
        Message::RowDescription(body) => {
            let mut fields = body.fields();
            assert_eq!(fields.next().unwrap().unwrap().name(), "id");
            wraps_utf8_error(fields.next().map(|_| ()), 4);
        }
        _ => panic!(),
    }
}

#[test]
fn scram_texts() {
    let client = || ScramSha256::new(b"secret", ChannelBinding::unsupported());
    wraps_utf8_error(client().update(b"r=ab\xff"), 4);
    let cases: [(&[u8], IntErrorKind, &str); 3] = [
        (b"r=x,s=AAAA,i=99999999999", IntErrorKind::PosOverflow, "number too large to fit in target type"),
        (b"r=x,s=AAAA,i=4294967296,more", IntErrorKind::PosOverflow, "number too large to fit in target type"),
        (b"r=x,s=AAAA,i=", IntErrorKind::Empty, "cannot parse integer from empty string"),
    ];
    for (text, kind, words) in cases {
        let e = client().update(text).unwrap_err();
        assert_eq!((e.kind(), e.to_string().as_str()), (ErrorKind::InvalidInput, words));
        let inner = e.get_ref().and_then(|e| e.downcast_ref::<ParseIntError>()).expect("a ParseIntError");
        assert_eq!(inner.kind(), &kind);
        assert!(e.source().is_none());
    }
}
