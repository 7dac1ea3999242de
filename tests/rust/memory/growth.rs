//! A parser of a long stream, in memory that is much smaller than the stream.

use crate::memory::{live, most, within};
use erased::kit::Global;
use erased::proved::pgp_base::Error;
use erased::proved::pgp_message::{Message, Messages};
use erased::proved::postgres_protocol::session::StreamParser;

/// How many bytes there are. A thousand pieces are six times as many.
const LITTLE: usize = 4096;

/// The front of a DataRow.
const FRONT: &[u8; 10] = b"D\0\0\0\x13\0\x03\0\0\0";

/// The rest of that row, a ParseComplete, and the front of another such row.
const PIECE: &[u8; 25] = b"\x01a\xff\xff\xff\xff\0\0\0\0\x31\0\0\0\x04D\0\0\0\x13\0\x03\0\0\0";

/// Feeds a thousand pieces, and takes the two results after each: how much was held at the most.
fn most_held(parser: &mut StreamParser) -> isize {
    let held = (0..1000).map(|_| {
        assert_eq!(parser.feed(PIECE), Ok(()));
        assert_eq!((parser.take().len(), parser.rest()), (2, FRONT.as_slice()));
        live()
    });
    held.max().unwrap()
}

/// Four thousand pieces: what is held after each `take` grows no more, and no request of memory is refused on the way.
#[test]
fn parser_that_is_taken_from_does_not_grow() {
    within(LITTLE, || {
        let mut parser = StreamParser::new(Global);
        assert_eq!(parser.feed(FRONT), Ok(()));
        let held = [0; 4].map(|_| most_held(&mut parser));
        assert!(held[1] > 0 && held[3] <= held[1], "{held:?}");
        assert_eq!(parser.headers(), 8001);
    });
    assert!(most() <= LITTLE as isize, "{}", most());
}

/// That is too little for one that isn't taken from.
#[test]
fn parser_that_is_not_taken_from_grows() {
    within(LITTLE, || {
        let mut parser = StreamParser::new(Global);
        assert_eq!(parser.feed(FRONT), Ok(()));
        let fed = (0..4000).try_for_each(|_| parser.feed(PIECE));
        assert_eq!(fed, Err(Error::OutOfMemory));
        assert!(parser.failed());
    });
}

/// How many bytes the long stream has at least.
const LONG: usize = 10_000_000;

/// The memory of its parser: a frame whose message isn't taken yet, what came of the next one, and a piece.
const LONG_LITTLE: usize = 65_536;

/// The longest piece of a copy. With its tag and length it is a frame of 32 KiB.
const MOST: usize = 32_763;

/// Numbers that look drawn: a linear congruential generator, whose low bits aren't taken.
struct Draws(u32);

impl Draws {
    /// A number below the limit.
    fn below(&mut self, limit: usize) -> usize {
        self.0 = self.0.wrapping_mul(1_664_525).wrapping_add(1_013_904_223);
        (self.0 >> 8) as usize % limit
    }
}

/// Pieces of a copy whose lengths are drawn, the longest among them, each with a CommandComplete after it.
fn pieces() -> Vec<u8> {
    let (mut draws, mut len) = (Draws(1), MOST);
    let mut out = Vec::new();
    while out.len() < LONG {
        out.extend([b'd', 0, 0]);
        out.extend((len as u16 + 4).to_be_bytes());
        out.extend(std::iter::repeat(0xa5).take(len));
        out.extend(b"C\0\0\0\x0bCOPY 1\0");
        len = draws.below(MOST + 1);
    }
    out
}

/// The bytes of a message, whatever holds them.
macro_rules! bytes_of {
    ($message:expr) => {
        match $message {
            Message::CopyData(body) => body.data(),
            Message::CommandComplete(body) => body.tag().unwrap().as_bytes(),
            _ => panic!("another message"),
        }
    };
}

/// How many results there were, and a sum over their bytes and their places.
#[derive(Debug, Default, PartialEq, Eq)]
struct Sums {
    results: u64,
    bytes: u64,
}

impl Sums {
    fn add(&mut self, bytes: &[u8]) {
        self.results += 1;
        for byte in bytes {
            self.bytes = self.bytes.wrapping_mul(31).wrapping_add(u64::from(*byte));
        }
    }
}

/// The sums of a parser that is fed the bytes in pieces of 1 to 5,000, and taken from after each. It holds no bytes in the end.
fn sums_in_pieces(mut rest: &[u8]) -> Sums {
    let mut sums = Sums::default();
    let mut parser = StreamParser::new(Global);
    let mut draws = Draws(2);
    while !rest.is_empty() {
        let (piece, more) = rest.split_at((draws.below(5000) + 1).min(rest.len()));
        assert_eq!(parser.feed(piece), Ok(()));
        for read in &parser.take() {
            sums.add(bytes_of!(read.as_ref().unwrap()));
        }
        rest = more;
    }
    assert!(parser.rest().is_empty());
    assert_eq!(parser.headers(), sums.results);
    sums
}

/// Ten megabytes of frames of up to 32 KiB, in 64 KiB of memory: the same comes as from all of it in place.
#[test]
fn a_long_stream_in_little_memory() {
    let bytes = pieces();
    let mut whole = Sums::default();
    let mut messages = Messages::new(&bytes);
    while let Some(message) = messages.next().unwrap() {
        whole.add(bytes_of!(&message));
    }
    assert!(messages.rest().is_empty() && whole.results > 1000);
    assert_eq!(within(LONG_LITTLE, || sums_in_pieces(&bytes)), whole);
    assert!(most() <= LONG_LITTLE as isize, "{}", most());
}
