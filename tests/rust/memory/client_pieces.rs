//! A client's connection where memory is refused: only a message that is cut wants any.

use crate::memory::{most, within};
use erased::kit::asking::{counted, is_due, refuse};
use erased::kit::Global;
use erased::proved::postgres_protocol::session::{read_session, ClientParser, Limits, ParserError};

/// A Query and a Sync.
const WHOLE: &[u8; 19] = b"Q\0\0\0\x0dSELECT 2\0S\0\0\0\x04";

/// No message is too long.
const UNLIMITED: Limits = Limits {
    opening: u32::MAX,
    tagged: u32::MAX,
};

/// Asks for what the piece gives, as often as there are answers: the length of a message, or none.
fn ask(parser: &mut ClientParser, piece: &mut &[u8], answers: &[Result<Option<usize>, ParserError>]) {
    for answer in answers {
        let received = counted(|| parser.next(piece).map(|frame| frame.map(|frame| frame.bytes().len())));
        assert_eq!(received, *answer);
    }
}

/// Whole messages are read, though the first request is refused; at a cut one it is, and the piece stays. Asked again, it goes on.
#[test]
fn cut_messages_alone_want_memory() {
    refuse(1);
    let mut parser = ClientParser::resume(Global, UNLIMITED, true);
    ask(
        &mut parser,
        &mut WHOLE.as_slice(),
        &[Ok(Some(14)), Ok(Some(5)), Ok(None)],
    );
    assert!(is_due());

    let (front, back) = WHOLE.split_at(9);
    let mut piece = front;
    ask(&mut parser, &mut piece, &[Err(ParserError::OutOfMemory)]);
    assert!(!is_due());
    assert_eq!((piece, parser.rest()), (front, b"".as_slice()));
    ask(&mut parser, &mut piece, &[Ok(None)]);
    assert_eq!(parser.rest(), front);
    let mut piece = back;
    ask(&mut parser, &mut piece, &[Ok(Some(14)), Ok(Some(5))]);
    assert!(piece.is_empty());
}

/// A message past the limit is refused before any memory is asked for.
#[test]
fn no_memory_past_the_limit() {
    refuse(1);
    let limits = Limits {
        opening: 10_000,
        tagged: 100,
    };
    let mut parser = ClientParser::resume(Global, limits, true);
    let mut piece = b"Q\0\0\0\x65SELECT".as_slice();
    ask(&mut parser, &mut piece, &[Err(ParserError::TooLong(101))]);
    assert_eq!(piece.len(), 11);
    assert!(is_due());
    refuse(0);
}

/// Memory in which the Query below fits once, and not twice.
const LITTLE: usize = 40_960;

/// Reads a Query of 30,000 bytes after its header, in pieces of 100.
fn read_long(parser: &mut ClientParser) {
    ask(parser, &mut b"Q\0\0\x75\x34".as_slice(), &[Ok(None)]);
    let mut letters = [b'a'; 100];
    for _ in 0..299 {
        ask(parser, &mut letters.as_slice(), &[Ok(None)]);
    }
    letters[99] = 0;
    ask(parser, &mut letters.as_slice(), &[Ok(Some(30_005))]);
}

/// Ten in turn: no more is asked for than is missing of a message, and that once.
#[test]
fn long_messages_are_held_once() {
    within(LITTLE, || {
        let mut parser = ClientParser::resume(Global, UNLIMITED, true);
        for _ in 0..10 {
            read_long(&mut parser);
        }
    });
    assert!(most() > 30_000 && most() <= LITTLE as isize, "{}", most());
}

/// The list of a session's messages takes what a list of them takes, and no more: here of a startup packet and 100 Syncs.
#[test]
fn a_session_is_read_in_little_memory() {
    let bytes = [b"\0\0\0\x09\0\x03\0\0\0".as_slice(), &b"S\0\0\0\x04".repeat(100)].concat();
    let len = within(LITTLE, || match read_session(Global, &[], &bytes) {
        Ok((messages, None)) => Some(messages.len()),
        _ => None,
    });
    assert_eq!(len, Some(101));
    assert!(most() > 0 && most() <= LITTLE as isize, "{}", most());
}
