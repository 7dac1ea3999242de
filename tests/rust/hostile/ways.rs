//! Each way to read a stream that comes in pieces, and one to read it in place.

use super::reading::Reading;
use bytes::BytesMut;
use erased::kit::Global;
use erased::proved::pgp_base::Error;
use erased::proved::pgp_message::{FrameParser, Message, Messages};
use erased::proved::postgres_protocol::session::{parse_stream, StreamParser};

/// A way to read a stream.
#[derive(Clone, Copy, PartialEq)]
pub(crate) enum Way {
    /// `parse_stream`.
    Whole,
    /// A `StreamParser` whose results stay.
    Fed,
    /// A `StreamParser` whose results are taken after each piece.
    Taken,
    /// `Message::parse`, again and again.
    Parsed,
    /// `FrameParser::parse`, again and again.
    Remembered,
    /// `Messages`, over the first piece alone.
    InPlace,
}

impl Way {
    pub(crate) const ALL: [Way; 6] = [
        Way::Whole,
        Way::Fed,
        Way::Taken,
        Way::Parsed,
        Way::Remembered,
        Way::InPlace,
    ];

    pub(crate) fn name(self) -> &'static str {
        match self {
            Way::Whole => "parse_stream",
            Way::Fed => "StreamParser",
            Way::Taken => "StreamParser with take",
            Way::Parsed => "Message::parse",
            Way::Remembered => "FrameParser",
            Way::InPlace => "Messages",
        }
    }
}

/// By `parse_stream`.
fn whole(pieces: &[&[u8]], out: &mut Reading) -> Result<(), Error> {
    let parsed = parse_stream(Global, pieces)?;
    out.add_results(parsed.results());
    out.is_stopped = parsed.stopped();
    out.end(parsed.rest());
    Ok(())
}

/// By a parser that is fed, whose results stay or are taken after each piece.
fn fed(pieces: &[&[u8]], is_taken: bool, out: &mut Reading) -> Result<(), Error> {
    let mut parser = StreamParser::new(Global);
    for piece in pieces {
        parser.feed(piece)?;
        if is_taken {
            out.add_results(parser.take().as_slice());
        }
    }
    out.add_results(parser.results());
    out.is_stopped = parser.stopped();
    out.headers = Some(parser.headers());
    out.end(parser.rest());
    Ok(())
}

/// By repeated taking from a buffer, by `Message::parse` or by a parser that remembers headers and counts them.
fn drained(pieces: &[&[u8]], is_remembered: bool, out: &mut Reading) {
    let mut parser = FrameParser::new();
    let mut buf = BytesMut::new();
    let mut take = |buf: &mut BytesMut| {
        if is_remembered {
            parser.parse(buf)
        } else {
            Message::parse(buf)
        }
    };
    for piece in pieces {
        if !out.is_stopped {
            buf.extend_from_slice(piece);
            while out.add_step(&take(&mut buf)) {}
        }
    }
    out.headers = is_remembered.then(|| parser.headers());
    out.end(&buf);
}

/// In place, by `Messages`.
fn in_place(bytes: &[u8], out: &mut Reading) {
    let mut messages = Messages::new(bytes);
    while out.add_step(&messages.next()) {}
    out.end(messages.rest());
}

/// Reads the pieces this way.
pub(crate) fn read(way: Way, pieces: &[&[u8]]) -> Reading {
    let mut out = Reading::new();
    let ended = match way {
        Way::Whole => whole(pieces, &mut out),
        Way::Fed => fed(pieces, false, &mut out),
        Way::Taken => fed(pieces, true, &mut out),
        Way::Parsed => Ok(drained(pieces, false, &mut out)),
        Way::Remembered => Ok(drained(pieces, true, &mut out)),
        Way::InPlace => Ok(in_place(pieces[0], &mut out)),
    };
    assert!(ended.is_ok());
    out
}
