//! A longer stream of a server, cut in many ways. Its bytes are from the message formats of the PostgreSQL manual.

use crate::memory::refusals_of;
use erased::kit::asking::counted;
use erased::kit::Global;
use erased::proved::pgp_base::Error;
use erased::proved::pgp_message::{Message, Storage};
use erased::proved::postgres_protocol::session::{parse_stream, StreamParser};

/// AuthenticationSASL, RowDescription, DataRow, ErrorResponse, a ReadyForQuery with a byte too many, ParseComplete, and a length fault.
const HOSTILE: &[u8; 101] =
    b"R\0\0\0\x17\0\0\0\x0aSCRAM-SHA-256\0\0T\0\0\0\x1a\0\x01a\0\0\0\0\0\0\0\0\0\0\x17\0\x04\xff\xff\xff\xff\0\0D\0\0\0\x13\0\x03\0\0\0\x01a\xff\xff\xff\xff\0\0\0\0E\0\0\0\x0cSERROR\0\0Z\0\0\0\x06I\0\x31\0\0\0\x04Z\0\0\0\x03";

/// What its results are: the first letter or the tag of a message, or the number of an error.
const MARKS: &[u8] = b"STDE\x081";

/// What is left of it after its last result.
const REST: &[u8] = b"Z\0\0\0\x03";

fn mark<S: Storage>(read: &Result<Message<S>, Error>) -> u8 {
    match read {
        Ok(Message::AuthenticationSasl(_)) => b'S',
        Ok(Message::RowDescription(_)) => b'T',
        Ok(Message::DataRow(_)) => b'D',
        Ok(Message::ErrorResponse(_)) => b'E',
        Ok(Message::ParseComplete) => b'1',
        Ok(_) => b'?',
        Err(e) => e.number(),
    }
}

/// Feeds pieces to a parser. The marks of the results are added, after each piece where they are taken.
fn read_pieces(parser: &mut StreamParser, pieces: &[&[u8]], is_taken: bool, marks: &mut Vec<u8>) -> Result<(), Error> {
    let mut answer = Ok(());
    for piece in pieces {
        if answer.is_ok() && !parser.failed() {
            answer = counted(|| parser.feed(piece));
        }
        if is_taken && answer.is_ok() {
            marks.extend(parser.take().iter().map(mark));
        }
    }
    marks.extend(parser.results().iter().map(mark));
    answer
}

/// A parser has all of that stream.
fn has_all(parser: &StreamParser, marks: &[u8]) {
    assert_eq!(
        (marks, parser.stopped(), parser.rest(), parser.headers()),
        (MARKS, true, REST, 7)
    );
}

/// Results are handed out once, and none is lost: that stream byte by byte, and a message after its length fault.
#[test]
fn taken_after_each_byte() {
    let mut parser = StreamParser::new(Global);
    let mut marks = Vec::new();
    for byte in HOSTILE.chunks(1) {
        assert_eq!(read_pieces(&mut parser, &[byte], true, &mut marks), Ok(()));
    }
    has_all(&parser, &marks);
    assert_eq!(read_pieces(&mut parser, &[b"1\0\0\0\x04"], true, &mut marks), Ok(()));
    assert_eq!(
        (marks.as_slice(), parser.rest()),
        (MARKS, b"Z\0\0\0\x031\0\0\0\x04".as_slice())
    );
}

/// The stream in two pieces, cut at each place. More than two refusals are reported; then the parser has failed, and what it read until then are the stream's
/// first results.
#[test]
fn pieces_with_each_allocation_refused() {
    for cut in 0..=HOSTILE.len() {
        let (front, back) = HOSTILE.split_at(cut);
        for is_taken in [false, true] {
            let refusals = refusals_of(|| {
                let mut parser = StreamParser::new(Global);
                let mut marks = Vec::new();
                let answer = read_pieces(&mut parser, &[front, back], is_taken, &mut marks);
                assert_eq!(parser.failed(), answer.is_err());
                match answer {
                    Ok(()) => has_all(&parser, &marks),
                    Err(_) => assert!(MARKS.starts_with(&marks)),
                }
                answer
            });
            assert!(refusals.reported > 2, "{cut}: {}", refusals.reported);
        }
    }
}

#[test]
fn parse_stream_with_each_allocation_refused() {
    for cut in 0..=HOSTILE.len() {
        let (front, back) = HOSTILE.split_at(cut);
        let refusals = refusals_of(|| {
            let parsed = counted(|| parse_stream(Global, &[front, back]))?;
            let marks: Vec<_> = parsed.results().iter().map(mark).collect();
            assert_eq!((marks.as_slice(), parsed.stopped(), parsed.rest()), (MARKS, true, REST));
            Ok(())
        });
        assert!(refusals.reported > 2, "{cut}: {}", refusals.reported);
    }
}
