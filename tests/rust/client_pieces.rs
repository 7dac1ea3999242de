//! A client's connection that comes in pieces. Its bytes are from the message formats of the PostgreSQL manual.

use erased::kit::Global;
use erased::proved::postgres_protocol::message::client::{ClientError, ClientMessage, PasswordKind};
use erased::proved::postgres_protocol::session::{ClientParser, Limits, ParserError};

/// SSLRequest, StartupMessage, PasswordMessage, Parse, Bind, Execute, Sync, a frame with a tag that no message has, Query, Terminate.
const SESSION: &[u8] =
    b"\0\0\0\x08\x04\xd2\x16\x2f\0\0\0\x14\0\x03\0\0user\0alice\0\0p\0\0\0\x0bsecret\0P\0\0\0\x15\0SELECT $1\0\0\x01\0\0\0\x17B\0\0\0\x16\0\0\0\x01\0\x01\0\x01\0\0\0\x04\0\0\0\x2a\0\0E\0\0\0\x09\0\0\0\0\0S\0\0\0\x04z\0\0\0\x05!Q\0\0\0\x0dSELECT 2\0X\0\0\0\x04";

/// What its messages are: the tag, or a letter for an opening packet, or `?` for an error.
const MARKS: &[u8] = b"LUpPBES?QX";

/// GSSENCRequest, a StartupMessage of protocol 3.1, SASLInitialResponse with no response, FunctionCall, Sync.
const OTHERS: &[u8] =
    b"\0\0\0\x08\x04\xd2\x16\x30\0\0\0\x14\0\x03\0\x01user\0alice\0\0p\0\0\0\x16SCRAM-SHA-256\0\xff\xff\xff\xffF\0\0\0\x18\0\0\x01\0\0\x01\0\x01\0\x01\0\0\0\x04\0\0\0\x2a\0\x01S\0\0\0\x04";

/// What its messages are.
const OTHER_MARKS: &[u8] = b"GViFS";

/// No message is too long.
const UNLIMITED: Limits = Limits {
    opening: u32::MAX,
    tagged: u32::MAX,
};

/// About what a server of PostgreSQL takes.
const SERVER: Limits = Limits {
    opening: 10_000,
    tagged: 0x3fff_ffff,
};

fn mark(read: &Result<ClientMessage<'_>, ClientError>) -> u8 {
    match read {
        Ok(message) => ours(message),
        Err(_) => b'?',
    }
}

/// The mark of a message with this text, or `!`.
fn mark_of(mark: u8, text: &[u8], wanted: &[u8]) -> u8 {
    if text == wanted {
        mark
    } else {
        b'!'
    }
}

fn ours(message: &ClientMessage<'_>) -> u8 {
    match message {
        ClientMessage::SslRequest => b'L',
        ClientMessage::Startup { minor: 0, .. } => b'U',
        ClientMessage::PasswordMessage(password) => mark_of(b'p', password, b"secret"),
        ClientMessage::Parse { query, .. } => mark_of(b'P', query, b"SELECT $1"),
        ClientMessage::Bind { .. } => b'B',
        ClientMessage::Execute { max_rows: 0, .. } => b'E',
        ClientMessage::Sync => b'S',
        ClientMessage::Query(query) => mark_of(b'Q', query, b"SELECT 2"),
        ClientMessage::Terminate => b'X',
        message => other(message),
    }
}

/// The mark of a message that no writer here makes.
fn other(message: &ClientMessage<'_>) -> u8 {
    match message {
        ClientMessage::GssEncRequest => b'G',
        ClientMessage::Startup { minor: 1, .. } => b'V',
        ClientMessage::SaslInitialResponse {
            mechanism,
            response: None,
        } => mark_of(b'i', mechanism, b"SCRAM-SHA-256"),
        ClientMessage::FunctionCall {
            function: 256,
            result_format: 1,
            ..
        } => b'F',
        _ => b'!',
    }
}

/// Feeds a piece, and adds the marks of its messages.
fn feed(parser: &mut ClientParser, kind: PasswordKind, piece: &[u8], marks: &mut Vec<u8>) {
    let mut rest = piece;
    for _ in 0..=MARKS.len() {
        let mark = match parser.next(&mut rest) {
            Ok(Some(frame)) => mark(&frame.message(kind)),
            Ok(None) => return,
            Err(_) => b'#',
        };
        marks.push(mark);
    }
}

/// A session that comes in two pieces has these marks.
fn comes_in_two(kind: PasswordKind, pieces: (&[u8], &[u8]), wanted: &[u8]) {
    let mut parser = ClientParser::new(Global, UNLIMITED);
    let mut marks = Vec::new();
    feed(&mut parser, kind, pieces.0, &mut marks);
    feed(&mut parser, kind, pieces.1, &mut marks);
    assert_eq!(marks.as_slice(), wanted, "{:?}", pieces.0.len());
    assert!(parser.is_open() && parser.rest().is_empty());
}

#[test]
fn every_cutting_into_two() {
    let kind = PasswordKind::Password;
    for cut in 0..=SESSION.len() {
        comes_in_two(kind, SESSION.split_at(cut), MARKS);
    }
}

/// The messages that no writer here makes are read too.
#[test]
fn every_cutting_of_others() {
    let kind = PasswordKind::Initial;
    for cut in 0..=OTHERS.len() {
        comes_in_two(kind, OTHERS.split_at(cut), OTHER_MARKS);
    }
}

#[test]
fn byte_by_byte() {
    let mut parser = ClientParser::new(Global, UNLIMITED);
    let mut marks = Vec::new();
    for byte in SESSION {
        feed(&mut parser, PasswordKind::Password, &[*byte], &mut marks);
    }
    assert_eq!(marks.as_slice(), MARKS);
    assert!(parser.is_open() && parser.rest().is_empty());
}

/// What a call on this piece rejects.
fn refusal(parser: &mut ClientParser, piece: &mut &[u8]) -> Option<ParserError> {
    match parser.next(piece) {
        Ok(_) => None,
        Err(e) => Some(e),
    }
}

/// An opening packet past the limit is rejected by its header alone, also where that is cut; one at the limit is waited for.
#[test]
fn limit_of_opening_packets() {
    let mut parser = ClientParser::new(Global, SERVER);
    let mut piece = b"\0\0\x27\x11".as_slice();
    let refused = refusal(&mut parser, &mut piece);
    assert_eq!(refused, Some(ParserError::TooLong(10_001)));
    assert_eq!(piece, b"\0\0\x27\x11".as_slice());
    assert!(parser.rest().is_empty());

    let mut parser = ClientParser::new(Global, SERVER);
    assert_eq!(refusal(&mut parser, &mut b"\0\0".as_slice()), None);
    let refused = refusal(&mut parser, &mut b"\x27\x11".as_slice());
    assert_eq!(refused, Some(ParserError::TooLong(10_001)));
    assert_eq!(parser.rest(), b"\0\0".as_slice());

    let mut parser = ClientParser::new(Global, SERVER);
    let refused = refusal(&mut parser, &mut b"\0\0\x27\x10\0\x03".as_slice());
    assert_eq!(refused, None);
    assert_eq!(parser.rest(), b"\0\0\x27\x10\0\x03".as_slice());
}

/// What stands there is no message: the bytes stay, and each call says so again.
#[test]
fn refusals_stay() {
    let wrong: [(&[u8], bool, ParserError); 3] = [
        (
            b"\0\0\0\x07\0\x03\0\0",
            false,
            ParserError::Refused(ClientError::Reading(
                erased::proved::postgres_protocol::Error::InvalidLength,
            )),
        ),
        (
            b"\0\0\0\x08\0\x04\0\0",
            false,
            ParserError::Refused(ClientError::UnknownPacket(262_144)),
        ),
        (
            b"Q\0\0\0\x03",
            true,
            ParserError::Refused(ClientError::Reading(
                erased::proved::postgres_protocol::Error::InvalidLength,
            )),
        ),
    ];
    for (bytes, opened, e) in wrong {
        let mut parser = ClientParser::resume(Global, UNLIMITED, opened);
        let mut piece = bytes;
        assert_eq!(refusal(&mut parser, &mut piece), Some(e));
        assert_eq!(refusal(&mut parser, &mut piece), Some(e));
        assert_eq!(piece, bytes);
        assert!(parser.rest().is_empty());
    }
}

/// Also where it is cut: what was held stays held, and what is in the piece stays there.
#[test]
fn cut_refusals_stay() {
    let mut parser = ClientParser::new(Global, UNLIMITED);
    let front = b"\0\0\0\x08\0".as_slice();
    let back = b"\x04\0\0Q".as_slice();
    let e = ParserError::Refused(ClientError::UnknownPacket(262_144));
    let refused = refusal(&mut parser, &mut b"\0\0\0\x08\0".as_slice());
    assert_eq!(refused, None);
    let mut piece = back;
    assert_eq!(refusal(&mut parser, &mut piece), Some(e));
    assert_eq!(refusal(&mut parser, &mut piece), Some(e));
    assert_eq!(piece, back);
    assert_eq!(parser.rest(), front);
    assert!(!parser.is_open());
}
