//! A proxy, on bytes of the message formats of the PostgreSQL manual.

use bytes::BytesMut;
use erased::kit::calls::Fail;
use erased::kit::AsSlice as _;
use erased::proved::pgp_base::Window;
use erased::proved::pgp_session::proxy::{pass_on, Passed, ProxyError};
use erased::proved::postgres_protocol::message::client::{ClientMessages, PasswordKind};
use tests::proved::pgp_uses::reading::front_query;

/// A Query that is held back, a Parse that isn't, and the first bytes of a Sync.
const SENT: &[u8; 42] = b"Q\0\0\0\x11DROP TABLE t\0P\0\0\0\x12\0DROP TABLE\0\0\0S\0\0\0\x04";

/// What is held back.
const REFUSED: [&[u8]; 2] = [b"SELECT", b"DROP TABLE t"];

#[test]
fn a_refused_statement_is_held_back() -> Result<(), Fail> {
    let (received, _) = SENT.split_at(41);
    let mut from = ClientMessages::resume(received, true);
    let mut to = BytesMut::new();
    let kind = PasswordKind::Password;
    let passed = pass_on(&REFUSED, kind, &mut from, &mut to);
    assert_eq!(passed, Ok(Some(Passed::HeldBack)));
    assert!(to.is_empty());
    let passed = pass_on(&REFUSED, kind, &mut from, &mut to);
    assert_eq!(passed, Ok(Some(Passed::Forwarded)));
    let wanted = b"P\0\0\0\x12\0DROP TABLE\0\0\0";
    assert_eq!(to.as_slice(), wanted.as_slice());
    assert_eq!(pass_on(&REFUSED, kind, &mut from, &mut to), Ok(None));
    assert_eq!(from.rest(), b"S\0\0\0".as_slice());
    Ok(())
}

/// A Parse is no query, nor is one that is cut.
#[test]
fn a_query_at_the_front_is_read() -> Result<(), Fail> {
    let (query, rest) = SENT.split_at(18);
    let (cut, _) = query.split_at(17);
    let answer = front_query(SENT);
    assert_eq!(answer, Some((b"DROP TABLE t".as_slice(), rest)));
    assert_eq!(front_query(rest), None);
    assert_eq!(front_query(cut), None);
    Ok(())
}

/// There is room for no message: it is still to be read then, and is passed on once there is.
#[test]
fn a_message_without_room_is_read_again() -> Result<(), Fail> {
    let (_, last) = SENT.split_at(37);
    let mut from = ClientMessages::resume(last, true);
    let kind = PasswordKind::Password;
    let mut short = [0u8; 4];
    let mut room = [0u8; 5];
    let passed = pass_on(&REFUSED, kind, &mut from, &mut Window::new(&mut short));
    assert_eq!(passed, Err(ProxyError::OutOfMemory));
    let passed = pass_on(&REFUSED, kind, &mut from, &mut Window::new(&mut room));
    assert_eq!(passed, Ok(Some(Passed::Forwarded)));
    assert_eq!(room.as_slice(), b"S\0\0\0\x04".as_slice());
    Ok(())
}

/// A startup packet of protocol 3.1, and a FunctionCall.
const OTHERS: &[u8; 24] = b"\0\0\0\x09\0\x03\0\x01\0F\0\0\0\x0e\0\0\x01\0\0\0\0\0\0\x01";

/// A FunctionCall brings no statement: it is passed on.
#[test]
fn a_function_call_is_passed_on() -> Result<(), Fail> {
    let (_, call) = OTHERS.split_at(9);
    let mut from = ClientMessages::resume(call, true);
    let mut to = BytesMut::new();
    let passed = pass_on(&REFUSED, PasswordKind::Password, &mut from, &mut to);
    assert_eq!(passed, Ok(Some(Passed::Forwarded)));
    assert_eq!(to.as_slice(), call);
    Ok(())
}
