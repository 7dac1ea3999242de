//! Each call of a client's stream. Expected bytes are from the message formats of the PostgreSQL manual.

use crate::calls::protocol::calls::plain;
use crate::memory::refused;
use bytes::BytesMut;
use erased::kit::asking::counted;
use erased::kit::Global;
use erased::proved::pgp_base::{put_u32, BindError, Error, IsNull};
use erased::proved::pgp_frontend::{CopyData, ProtocolVersion};
use erased::proved::postgres_protocol::session::ClientStream;

type Stream = ClientStream<BytesMut>;

/// A call, and what it writes.
type Call = (fn(&mut Stream) -> Result<(), Error>, &'static [u8]);

/// A startup packet with no parameters.
const STARTUP: &[u8] = b"\0\0\0\x09\0\x03\0\0\0";

/// The calls before a session that begin none.
const QUESTIONS: [Call; 3] = [
    (|stream| stream.ssl_request(), b"\0\0\0\x08\x04\xd2\x16\x2f"),
    (
        |stream| stream.cancel_request(1, 2),
        b"\0\0\0\x10\x04\xd2\x16\x2e\0\0\0\x01\0\0\0\x02",
    ),
    (
        |stream| stream.cancel_request_key(1, b"\x01\x02\x03\x04\x05"),
        b"\0\0\0\x11\x04\xd2\x16\x2e\0\0\0\x01\x01\x02\x03\x04\x05",
    ),
];

/// Those that begin one.
const OPENINGS: [Call; 3] = [
    (
        |stream| stream.startup_message(&[("user", "alice")]),
        b"\0\0\0\x14\0\x03\0\0user\0alice\0\0",
    ),
    (|stream| stream.startup_message(&[]), STARTUP),
    (
        |stream| stream.startup_message_version(ProtocolVersion::V3_2, &[("user", "alice")]),
        b"\0\0\0\x14\0\x03\0\x02user\0alice\0\0",
    ),
];

/// The calls in a session. The texts of the SASL exchange are those of the Rust crate's tests.
const CALLS: [Call; 15] = [
    (
        |stream| plain(bind_values(stream)),
        b"B\0\0\0\x1d\0s\0\0\x01\0\x01\0\x02\0\0\0\x04\0\0\0\x05\xff\xff\xff\xff\0\x01\0\x01",
    ),
    (|stream| stream.close(b'S', "s"), b"C\0\0\0\x07Ss\0"),
    (|stream| stream.describe(b'P', ""), b"D\0\0\0\x06P\0"),
    (|stream| stream.execute("", 0), b"E\0\0\0\x09\0\0\0\0\0"),
    (|stream| stream.flush(), b"H\0\0\0\x04"),
    (
        |stream| stream.parse("", "SELECT 1", Some(23u32)),
        b"P\0\0\0\x14\0SELECT 1\0\0\x01\0\0\0\x17",
    ),
    (|stream| stream.query("SELECT 1"), b"Q\0\0\0\x0dSELECT 1\0"),
    (|stream| stream.sync(), b"S\0\0\0\x04"),
    (|stream| stream.terminate(), b"X\0\0\0\x04"),
    (|stream| stream.copy_done(), b"c\0\0\0\x04"),
    (copy_data, b"d\0\0\0\x06ab"),
    (|stream| stream.copy_fail("x"), b"f\0\0\0\x06x\0"),
    (|stream| stream.password_message(b""), b"p\0\0\0\x05\0"),
    (
        |stream| stream.sasl_initial_response("SCRAM-SHA-256", b"n,,n=,r=9IZ2O01zb9IgiIZ1WJ/zgpJB"),
        b"p\0\0\0\x36SCRAM-SHA-256\0\0\0\0\x20n,,n=,r=9IZ2O01zb9IgiIZ1WJ/zgpJB",
    ),
    (|stream| stream.sasl_response(b"ab"), b"p\0\0\0\x06ab"),
];

fn put(value: &Option<u32>, buf: &mut BytesMut) -> Result<IsNull, Error> {
    match *value {
        Some(n) => put_u32(buf, n).map(|()| IsNull::No),
        None => Ok(IsNull::Yes),
    }
}

fn bind_values(stream: &mut Stream) -> Result<(), BindError<Error>> {
    stream.bind("", "s", Some(1i16), [Some(5u32), None].as_slice(), put, Some(1i16))
}

fn copy_data(stream: &mut Stream) -> Result<(), Error> {
    let piece = CopyData::new(b"ab".as_slice())?;
    stream.copy_data(piece).map_err(|_| Error::OutOfMemory)
}

/// A stream in which a call can be made: new, or of a session, with so much room left.
fn stream(in_session: bool, room: usize) -> Stream {
    if !in_session {
        return ClientStream::over(BytesMut::with_capacity(room));
    }
    let mut stream = ClientStream::over(BytesMut::with_capacity(STARTUP.len() + room));
    assert_eq!(stream.startup_message(&[]), Ok(()));
    stream
}

/// A call writes its bytes, and the stream is open then or not. Where a request is refused, it changes neither the bytes nor the phase, and can be made again.
/// Returns how many were.
fn refused_in(room: usize, (call, written): Call, in_session: bool, is_open: bool) -> u64 {
    let front = if in_session { STARTUP } else { b"" };
    refused(|| {
        let mut stream = stream(in_session, room);
        let answer = counted(|| call(&mut stream));
        if answer.is_err() {
            assert_eq!((stream.bytes(), stream.is_open()), (front, in_session));
            assert_eq!(call(&mut stream), Ok(()));
        }
        assert_eq!(stream.bytes(), [front, written].concat());
        assert_eq!(stream.is_open(), is_open);
        answer
    })
}

/// A request is refused at least once where there is no room, and growth comes at the end of each front of what is written.
fn is_refused_memory(call: Call, in_session: bool, is_open: bool) {
    for room in 0..=call.1.len() {
        let asked = refused_in(room, call, in_session, is_open);
        assert!(asked > 0 || room > 0);
    }
}

#[test]
fn requests_with_each_allocation_refused() {
    for call in QUESTIONS {
        is_refused_memory(call, false, false);
    }
    for call in OPENINGS {
        is_refused_memory(call, false, true);
    }
    for call in CALLS {
        is_refused_memory(call, true, true);
    }
}

/// A startup packet with a user, a query, a Sync and a Terminate. Where each call that is refused memory is made again, the session's bytes are the same.
#[test]
fn a_session_with_each_allocation_refused() {
    let calls = [OPENINGS[0], CALLS[6], CALLS[7], CALLS[8]];
    let asked = refused(|| {
        let mut stream = ClientStream::new(Global);
        let mut ended = Ok(());
        for (call, _) in calls {
            if let Err(e) = counted(|| call(&mut stream)) {
                assert_eq!((ended, call(&mut stream)), (Ok(()), Ok(())));
                ended = Err(e);
            }
        }
        assert_eq!(
            stream.bytes(),
            b"\0\0\0\x14\0\x03\0\0user\0alice\0\0Q\0\0\0\x0dSELECT 1\0S\0\0\0\x04X\0\0\0\x04"
        );
        ended
    });
    assert!(asked > 1, "{asked}");
}
