//! The rows of a request, as a client takes them from its connection, on messages of the PostgreSQL manual's formats.

use crate::uses::logins::{exchange, CHALLENGE, OUTCOME, WELCOME};
use erased::kit::calls::Fail;
use erased::kit::Global;
use erased::proved::postgres_protocol::dialogue::Event;
use erased::proved::postgres_protocol::session::Connection;
use tests::proved::pgp_uses::client::{connect, next_row, Received};

const READY: &[u8] = b"Z\x00\x00\x00\x05I";

/// The mechanisms of a server where nothing is encrypted.
const OFFER: &[u8] = b"R\x00\x00\x00\x17\x00\x00\x00\x0aSCRAM-SHA-256\x00\x00";

/// The server's messages of a log-in by SCRAM-SHA-256.
const LOGIN: [&[u8]; 5] = [OFFER, CHALLENGE, OUTCOME, WELCOME, READY];

/// The answer to a Query: a column, a row, a notice, the tag, and the end.
const ANSWER: &[u8] =
    b"T\0\0\0\x1a\0\x01a\0\0\0\0\0\0\0\0\0\0\x17\0\x04\xff\xff\xff\xff\0\0D\0\0\0\x0b\0\x01\0\0\0\x011N\0\0\0\x05\0C\0\0\0\x0dSELECT 1\0Z\0\0\0\x05I";

/// The answer to a Query that fails: an error without fields, and the end.
const FAILED: &[u8] = b"E\0\0\0\x05\0Z\0\0\0\x05I";

/// How many rows of the request of this name are among the messages that came, and whether nothing else is left.
fn rows_of(connection: &mut Connection<'_>, name: u64) -> (u64, bool) {
    let mut rows = 0_u64;
    for _ in 0..100 {
        match next_row(connection, name) {
            Ok(Received::Row(row)) => {
                drop(row);
                rows += 1;
            }
            Ok(Received::Failed(_, error)) => drop(error),
            Ok(Received::Other(_)) => {}
            Ok(Received::Nothing) => return (rows, true),
            Err(_) => return (rows, false),
        }
    }
    (rows, false)
}

/// Whether the request of this name, which is sent now, fails with its error as the next message.
fn is_failed(connection: &mut Connection<'_>, name: u64) -> bool {
    let asked = match connection.query("x") {
        Ok(asked) => asked == name,
        Err(_) => false,
    };
    if !asked || connection.feed(FAILED).is_err() {
        return false;
    }
    match next_row(connection, name) {
        Ok(Received::Failed(event, error)) => {
            drop(error);
            event == Event::Part(name)
        }
        _ => false,
    }
}

/// A log-in, two Query of a row each, and one that fails.
fn queries(connection: &mut Connection<'_>) {
    for message in &LOGIN {
        assert!(connection.feed(message).is_ok());
        assert_eq!(rows_of(connection, 0), (0, true));
    }
    assert!(connection.query("SELECT 1").is_ok());
    assert!(connection.query("SELECT 1").is_ok());
    assert!(connection.feed(ANSWER).is_ok());
    assert!(connection.feed(ANSWER).is_ok());
    assert_eq!(rows_of(connection, 2), (1, true));
    assert!(is_failed(connection, 3));
    assert_eq!(rows_of(connection, 3), (0, true));
    assert!(connection.is_idle());
}

#[test]
fn a_row_belongs_to_the_request_that_asked_for_it() -> Result<(), Fail> {
    let mut connection = connect(Global, "alice", exchange()?)?;
    queries(&mut connection);
    Ok(())
}
