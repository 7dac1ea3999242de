//! When a pooler may lend a session, on messages of the PostgreSQL manual's formats.

use erased::kit::Global;
use erased::proved::pgp_base::Error;
use erased::proved::pgp_frontend_read::{ClientMessages, PasswordKind};
use erased::proved::pgp_message::Messages;
use erased::proved::pgp_session::pooler::Session;
use Side::{Client, Server};

/// Who sent the message.
#[derive(Clone, Copy)]
enum Side {
    Client,
    Server,
}

/// A message, and whether the session is idle after it.
type Row = (Side, &'static [u8], bool);

/// The log-in, and a Query that begins a transaction, with one that ends it.
static QUERIES: [Row; 9] = [
    (Client, b"\0\0\0\x09\0\x03\0\0\0", false),
    (Server, b"R\0\0\0\x08\0\0\0\0", false),
    (Server, b"Z\0\0\0\x05I", true),
    (Client, b"Q\0\0\0\x0aBEGIN\0", false),
    (Server, b"C\0\0\0\x0aBEGIN\0", false),
    (Server, b"Z\0\0\0\x05T", false),
    (Client, b"Q\0\0\0\x0bCOMMIT\0", false),
    (Server, b"C\0\0\0\x0bCOMMIT\0", false),
    (Server, b"Z\0\0\0\x05I", true),
];

/// A Parse, whose answer doesn't end the series: its Sync does.
static SERIES: [Row; 4] = [
    (Client, b"P\0\0\0\x09\0\x31\0\0\0", false),
    (Server, b"1\0\0\0\x04", false),
    (Client, b"S\0\0\0\x04", false),
    (Server, b"Z\0\0\0\x05I", true),
];

/// A Parse that fails: the server skips all that comes before the next Sync.
static FAILED: [Row; 6] = [
    (Client, b"P\0\0\0\x09\0x\0\0\0", false),
    (Client, b"E\0\0\0\x09\0\0\0\0\0", false),
    (Client, b"Q\0\0\0\x05\0", false),
    (Server, b"E\0\0\0\x05\0", false),
    (Client, b"S\0\0\0\x04", false),
    (Server, b"Z\0\0\0\x05I", true),
];

/// A copy to the server by an Execute: the server skips the Sync that stands in its data.
static COPY: [Row; 9] = [
    (Client, b"E\0\0\0\x09\0\0\0\0\0", false),
    (Server, b"G\0\0\0\x07\0\0\0", false),
    (Client, b"d\0\0\0\x06x\n", false),
    (Client, b"S\0\0\0\x04", false),
    (Client, b"c\0\0\0\x04", false),
    (Client, b"S\0\0\0\x04", false),
    (Server, b"C\0\0\0\x0bCOPY 1\0", false),
    (Server, b"N\0\0\0\x05\0", false),
    (Server, b"Z\0\0\0\x05I", true),
];

/// A FunctionCall that fails.
static CALL: [Row; 3] = [
    (Client, b"F\0\0\0\x0e\0\0\x01\0\0\0\0\0\0\x01", false),
    (Server, b"E\0\0\0\x05\0", false),
    (Server, b"Z\0\0\0\x05I", true),
];

/// A FunctionCall that returns a null.
static CALLED: [Row; 3] = [
    (Client, b"F\0\0\0\x0e\0\0\x01\0\0\0\0\0\0\x01", false),
    (Server, b"V\0\0\0\x08\xff\xff\xff\xff", false),
    (Server, b"Z\0\0\0\x05I", true),
];

/// The client ends the session.
static LEFT: [Row; 1] = [(Client, b"X\0\0\0\x04", false)];

/// Takes note of a message; false where there is none, or it has no place. A startup packet has no tag: it begins with a 0 byte of its length.
fn notes(session: &mut Session, side: Side, bytes: &[u8]) -> bool {
    match side {
        Client => {
            let opened = bytes.first() != Some(&0);
            match ClientMessages::resume(bytes, opened).next(PasswordKind::Password) {
                Ok(Some(message)) => {
                    let noted = session.sent(&message).is_ok();
                    drop(message);
                    noted
                }
                _ => false,
            }
        }
        Server => match Messages::new(bytes).next() {
            Ok(Some(message)) => {
                let noted = session.received(&message).is_ok();
                drop(message);
                noted
            }
            Err(Error::UnknownTag(b'V')) => session.received_function_result().is_ok(),
            _ => false,
        },
    }
}

/// Takes note of the messages of a table, after which a byte of either side that isn't taken leaves the session busy.
fn take(session: &mut Session, rows: &[Row]) {
    for (place, (side, bytes, idle)) in rows.iter().enumerate() {
        assert!(notes(session, *side, bytes));
        assert_eq!(session.is_idle(b"", b""), *idle, "{:?}", place);
    }
    assert!(!session.is_idle(b"Q", b""));
    assert!(!session.is_idle(b"", b"Z\0"));
}

#[test]
fn a_session_is_idle_where_nothing_is_awaited() {
    let mut session = Session::new(Global);
    assert!(!session.is_idle(b"", b""));
    for rows in [QUERIES.as_slice(), &SERIES, &FAILED, &COPY, &CALL, &CALLED, &LEFT] {
        take(&mut session, rows);
    }
}

#[test]
fn an_answer_that_nobody_awaits_ends_the_pooling() {
    let mut session = Session::new(Global);
    take(&mut session, &QUERIES);
    assert!(!notes(&mut session, Server, b"Z\0\0\0\x05I"));
    assert!(!session.is_idle(b"", b""));
}
