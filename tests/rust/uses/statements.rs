//! Prepared statements of clients that share a server's connection, on bytes of the message formats of the PostgreSQL manual, worked by hand.

use bytes::BytesMut;
use erased::kit::Global;
use erased::proved::postgres_protocol::message::client::{ClientMessages, PasswordKind};
use tests::proved::pgp_uses::statements::pass_on;

/// What a client sends, and what goes on to the server where the client has number 12.
const PASSED: &[(&[u8], &[u8])] = &[
    (b"P\0\0\0\x11s\0SELECT 1\0\0\0", b"P\0\0\0\x1412_s\0SELECT 1\0\0\0"),
    (b"P\0\0\0\x10\0SELECT 1\0\0\0", b"P\0\0\0\x10\0SELECT 1\0\0\0"),
    (
        b"B\0\0\0\x14p\0s\0\0\x01\0\x01\0\x01\0\0\0\0\0\0",
        b"B\0\0\0\x17p\012_s\0\0\x01\0\x01\0\x01\0\0\0\0\0\0",
    ),
    (b"D\0\0\0\x07Ss\0", b"D\0\0\0\x0aS12_s\0"),
    (b"D\0\0\0\x07Ps\0", b"D\0\0\0\x07Ps\0"),
    (b"E\0\0\0\x0as\0\0\0\0\0", b"E\0\0\0\x0as\0\0\0\0\0"),
    (b"C\0\0\0\x07Ss\0", b"C\0\0\0\x0aS12_s\0"),
    (b"C\0\0\0\x07Ps\0", b"C\0\0\0\x07Ps\0"),
    (b"Q\0\0\0\x0dSELECT 1\0", b"Q\0\0\0\x0dSELECT 1\0"),
    (b"S\0\0\0\x04", b"S\0\0\0\x04"),
];

#[test]
fn statements_have_their_clients_number() {
    for (received, wanted) in PASSED {
        let mut out = BytesMut::new();
        let mut messages = ClientMessages::resume(received, true);
        match messages.next(PasswordKind::Password) {
            Ok(Some(message)) => assert_eq!(pass_on(Global, 12, message, &mut out), Ok(())),
            _ => panic!("no message"),
        }
        assert_eq!(&out[..], *wanted);
    }
}
