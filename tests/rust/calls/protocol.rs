//! Server streams in pieces. Expected values are from the message formats of the PostgreSQL manual.

use erased::kit::Global;
mod calls;
mod exchange;
mod values;

use bytes::BytesMut;
use erased::proved::pgp_base::Error;
use erased::proved::postgres_protocol::session::{ClientStream, StreamParser};

/// A length fault, and a message.
const FAULT: [u8; 10] = *b"Z\x00\x00\x00\x031\x00\x00\x00\x04";

/// A row of 20 bytes.
const ROW: [u8; 20] = *b"D\x00\x00\x00\x13\x00\x03\x00\x00\x00\x01a\xff\xff\xff\xff\x00\x00\x00\x00";

/// Feeds the bytes one at a time.
fn feed_each(parser: &mut StreamParser, bytes: &[u8]) -> Result<(), Error> {
    for byte in bytes {
        if !parser.failed() {
            parser.feed(&[*byte])?;
        }
    }
    Ok(())
}

#[test]
fn what_comes_behind_a_fault_is_kept() {
    let mut parser = StreamParser::new(Global);
    assert_eq!(feed_each(&mut parser, &FAULT), Ok(()));
    assert!(parser.results().is_empty());
    assert!(parser.stopped());
    assert_eq!(parser.rest(), FAULT.as_slice());
    assert_eq!(parser.headers(), 1);
}

#[test]
fn a_header_is_read_once() {
    let mut parser = StreamParser::new(Global);
    assert_eq!(feed_each(&mut parser, &ROW), Ok(()));
    assert_eq!(parser.headers(), 1);
    assert_eq!(parser.take().len(), 1);
    assert!(parser.results().is_empty());
    assert_eq!(feed_each(&mut parser, &ROW), Ok(()));
    assert_eq!(parser.headers(), 2);
    assert_eq!(parser.take().len(), 1);
    assert!(!parser.failed());
}

/// A session with a rejected call.
fn begin_and_end(stream: &mut ClientStream<BytesMut>) -> Result<(), Error> {
    if stream.is_open() {
        return Err(Error::InvalidLength);
    }
    stream.ssl_request()?;
    stream.startup_message(&[("user", "alice")])?;
    assert!(stream.is_open());
    assert_eq!(stream.query("a\0b"), Err(Error::EmbeddedNull));
    stream.query("SELECT 1")?;
    stream.sync()?;
    stream.terminate()
}

#[test]
fn a_session() {
    let mut stream = ClientStream::<BytesMut>::new(Global);
    assert_eq!(begin_and_end(&mut stream), Ok(()));
    let wanted =
        b"\x00\x00\x00\x08\x04\xd2\x16\x2f\x00\x00\x00\x14\x00\x03\x00\x00user\x00alice\x00\x00Q\x00\x00\x00\x0dSELECT 1\x00S\x00\x00\x00\x04X\x00\x00\x00\x04";
    assert_eq!(stream.bytes(), wanted.as_slice());
}
