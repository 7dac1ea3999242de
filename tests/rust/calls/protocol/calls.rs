//! Calls of a client's stream that are rejected (`memory::client_stream` has those that aren't).

use bytes::BytesMut;
use erased::kit::Global;
use erased::proved::pgp_base::Buffer;
use erased::proved::postgres_protocol::session::ClientStream;
use erased::proved::postgres_protocol::{BindError, Error, IsNull};

/// A startup packet with no parameters.
const STARTUP: &[u8] = b"\0\0\0\x09\0\x03\0\0\0";

/// A bind whose serializer rejects the value.
fn bind_rejected<B: Buffer>(stream: &mut ClientStream<B>) -> Result<(), BindError<Error>> {
    if !stream.is_open() {
        return Err(BindError::Serialization(Error::InvalidLength));
    }
    stream.bind(
        "",
        "s",
        Some(1i16),
        Some(5u32),
        |_: u32, _: &mut B| -> Result<IsNull, Error> { Err(Error::InvalidSize) },
        Some(1i16),
    )
}

/// The error of a call, whoever rejected.
pub(crate) fn plain(answer: Result<(), BindError<Error>>) -> Result<(), Error> {
    match answer {
        Ok(()) => Ok(()),
        Err(BindError::Conversion(e)) | Err(BindError::Serialization(e)) => Err(e),
    }
}

/// A call with a text that has no spelling, with too many items, or with a value that is rejected.
#[derive(Debug, Clone, Copy, PartialEq, Eq)]
enum Rejected {
    Query,
    Close,
    Describe,
    Execute,
    CopyFail,
    Password,
    SaslInitialResponse,
    Parse,
    ParseOfManyTypes,
    Bind,
}

fn call<B: Buffer>(rejected: Rejected, stream: &mut ClientStream<B>) -> Result<(), Error> {
    if !stream.is_open() {
        return Err(Error::InvalidLength);
    }
    match rejected {
        Rejected::Query => stream.query("a\0b"),
        Rejected::Close => stream.close(b'S', "a\0b"),
        Rejected::Describe => stream.describe(b'S', "a\0b"),
        Rejected::Execute => stream.execute("a\0b", 0),
        Rejected::CopyFail => stream.copy_fail("a\0b"),
        Rejected::Password => stream.password_message(b"a\0b"),
        Rejected::SaslInitialResponse => stream.sasl_initial_response("a\0b", b""),
        Rejected::Parse => stream.parse("", "a\0b", None::<u32>),
        Rejected::ParseOfManyTypes => stream.parse("", "", 0..65_536u32),
        Rejected::Bind => plain(bind_rejected(stream)),
    }
}

/// A rejected startup packet opens no session, and can be followed by one that isn't rejected.
#[test]
fn refused_startup_packets() {
    let mut stream = ClientStream::<BytesMut>::new(Global);
    let answer = stream.startup_message(&[("user", "al\0ice")]);
    assert_eq!(answer, Err(Error::EmbeddedNull));
    assert!(stream.bytes().is_empty());
    assert!(!stream.is_open());
    assert_eq!(stream.startup_message(&[]), Ok(()));
    assert!(stream.is_open());
}

/// A rejected call leaves what stood there.
#[test]
fn refused_calls_in_a_session() {
    let mut stream = ClientStream::<BytesMut>::new(Global);
    assert_eq!(stream.startup_message(&[]), Ok(()));
    for (rejected, e) in [
        (Rejected::Query, Error::EmbeddedNull),
        (Rejected::Close, Error::EmbeddedNull),
        (Rejected::Describe, Error::EmbeddedNull),
        (Rejected::Execute, Error::EmbeddedNull),
        (Rejected::CopyFail, Error::EmbeddedNull),
        (Rejected::Password, Error::EmbeddedNull),
        (Rejected::SaslInitialResponse, Error::EmbeddedNull),
        (Rejected::Parse, Error::EmbeddedNull),
        (Rejected::ParseOfManyTypes, Error::TooLarge),
        (Rejected::Bind, Error::InvalidSize),
    ] {
        let answer = (rejected, call(rejected, &mut stream));
        assert_eq!(answer, (rejected, Err(e)));
        assert_eq!(stream.bytes(), STARTUP);
        assert!(stream.is_open());
    }
}
