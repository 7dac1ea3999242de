//! A server's messages: bytes by the PostgreSQL manual's "Message Formats".
use bytes::{Bytes, BytesMut};
use fallible_iterator::FallibleIterator;
use postgres_protocol::message::backend::{Header, Message};
use std::io::ErrorKind;

fn read(bytes: &[u8]) -> Message {
    let mut buf = BytesMut::from(bytes);
    let message = Message::parse(&mut buf).unwrap().unwrap();
    assert!(buf.is_empty());
    message
}

/// What the message holds, which is of this kind.
macro_rules! body {
    ($kind:ident, $bytes:expr) => {
        match read($bytes) {
            Message::$kind(body) => body,
            _ => panic!("no {}", stringify!($kind)),
        }
    };
}

#[test]
fn a_row_and_its_ranges() {
    let row = body!(DataRow, b"D\0\0\0\x13\0\x03\0\0\0\x01a\xff\xff\xff\xff\0\0\0\0");
    assert_eq!(row.ranges().collect::<Vec<_>>().unwrap(), [Some(4..5), None, Some(13..13)]);
    assert_eq!(row.buffer_bytes(), &Bytes::from_static(b"\0\0\0\x01a\xff\xff\xff\xff\0\0\0\0"));
    assert!(format!("{row:?}").contains("len: 3"));
    assert_eq!(row.clone().buffer(), row.buffer());
}

#[test]
fn an_iterator_gives_its_error_again() {
    let row = body!(DataRow, b"D\0\0\0\x0b\0\x02\0\0\0\x01a");
    let mut ranges = row.ranges();
    assert_eq!(ranges.next().unwrap(), Some(Some(4..5)));
    for _ in 0..2 {
        assert_eq!(ranges.next().unwrap_err().kind(), ErrorKind::UnexpectedEof);
        assert_eq!(ranges.size_hint(), (0, Some(0)));
    }
    let row = body!(DataRow, b"D\0\0\0\x07\0\0x");
    let mut ranges = row.ranges();
    for _ in 0..2 {
        assert_eq!(ranges.next().unwrap_err().kind(), ErrorKind::InvalidInput);
    }
}

#[test]
fn the_end_of_an_errors_fields_comes_again() {
    let body = body!(ErrorResponse, b"E\0\0\0\x0cSERROR\0\0");
    let mut fields = body.fields();
    let field = fields.next().unwrap().unwrap();
    assert_eq!((field.type_(), field.value_bytes()), (b'S', &b"ERROR"[..]));
    assert!(fields.next().unwrap().is_none());
    assert!(fields.next().unwrap().is_none());
}

#[test]
fn a_frame_that_is_not_whole_stays() {
    let whole = b"C\0\0\0\x0dSELECT 1\0Z\0\0\0\x05I";
    for cut in 0..14 {
        let mut buf = BytesMut::from(&whole[..cut]);
        assert!(Message::parse(&mut buf).unwrap().is_none());
        assert_eq!(&buf[..], &whole[..cut]);
    }
    let mut buf = BytesMut::from(&whole[..]);
    assert!(matches!(Message::parse(&mut buf).unwrap(), Some(Message::CommandComplete(tag)) if tag.tag().unwrap() == "SELECT 1"));
    assert!(matches!(Message::parse(&mut buf).unwrap(), Some(Message::ReadyForQuery(body)) if body.status() == b'I'));
    assert!(Message::parse(&mut buf).unwrap().is_none());
}

#[test]
fn faults_are_errors() {
    let kind = |bytes: &[u8]| Message::parse(&mut BytesMut::from(bytes)).err().unwrap().kind();
    assert_eq!(kind(b"Z\0\0\0\x03"), ErrorKind::InvalidInput);
    assert_eq!(kind(b"?\0\0\0\x04"), ErrorKind::InvalidInput);
    assert_eq!(kind(b"Z\0\0\0\x04"), ErrorKind::UnexpectedEof);
    assert_eq!(kind(b"Z\0\0\0\x06II"), ErrorKind::InvalidInput);
    assert_eq!(kind(b"v\0\0\0\x0c\0\x03\0\0\0\0\0\0"), ErrorKind::InvalidInput);
    assert_eq!(Header::parse(b"Z\0\0\0\x03").unwrap_err().kind(), ErrorKind::InvalidData);
    let body = body!(CommandComplete, b"C\0\0\0\x06\xff\0");
    assert_eq!(body.tag().unwrap_err().kind(), ErrorKind::InvalidInput);
}

#[test]
fn columns_notifications_and_log_in() {
    let body = body!(RowDescription, b"T\0\0\0\x1a\0\x01a\0\0\0\0\0\0\0\0\0\0\x17\0\x04\xff\xff\xff\xff\0\0");
    let field = body.fields().next().unwrap().unwrap();
    assert_eq!((field.name(), field.type_oid(), field.type_size(), field.type_modifier(), field.format()), ("a", 23, 4, -1, 0));
    let body = body!(NotificationResponse, b"A\0\0\0\x0c\0\0\0\x01c\0m\0");
    assert_eq!((body.process_id(), body.channel().unwrap(), body.message().unwrap()), (1, "c", "m"));
    let body = body!(BackendKeyData, b"K\0\0\0\x0c\0\0\0\x01\xff\xff\xff\xfe");
    assert_eq!((body.process_id(), body.secret_key()), (1, -2));
    let body = body!(AuthenticationSasl, b"R\0\0\0\x17\0\0\0\x0aSCRAM-SHA-256\0\0");
    assert_eq!(body.mechanisms().collect::<Vec<_>>().unwrap(), ["SCRAM-SHA-256"]);
    let body = body!(AuthenticationMd5Password, b"R\0\0\0\x0c\0\0\0\x05\x01\x02\x03\x04");
    assert_eq!(body.salt(), [1, 2, 3, 4]);
}
