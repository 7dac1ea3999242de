//! Messages of a server, and the lists in their bodies.

use crate::memory::{comes_to, refusals_of, refused};
use crate::reads::{buffer, next_row};
use bytes::BytesMut;
use erased::kit::asking::counted;
use erased::kit::calls::Fail;
use erased::kit::Global;
use erased::proved::pgp_base::{Error, FallibleIterator};
use erased::proved::pgp_message::{read_frames, FrameParser, Message, Messages};

type Read = Result<Option<Message>, Error>;

/// What a copy brings; any other message brings nothing, and one that isn't there yet is none.
fn brought(read: &Read) -> Result<Option<Vec<u8>>, Error> {
    match read {
        Ok(Some(Message::CopyData(body))) => Ok(Some(body.data().to_vec())),
        Ok(Some(_)) => Ok(Some(Vec::new())),
        Ok(None) => Ok(None),
        Err(e) => Err(*e),
    }
}

/// Reads the frame, which brings so much or is rejected. A frame that waits or is refused memory stays as it is, and is taken once memory is there; of any
/// other nothing is left.
fn reads(
    frame: &[u8],
    wanted: Result<Option<&[u8]>, Error>,
    read: &mut dyn FnMut(&mut BytesMut) -> Read,
) -> Result<(), Error> {
    let mut buf = buffer(frame);
    let first = counted(|| read(&mut buf));
    let ended = comes_to(brought(&first), wanted.map(|data| data.map(<[u8]>::to_vec)));
    drop(first);
    if ended.is_err() || wanted == Ok(None) {
        assert_eq!(buf, frame);
    }
    if ended.is_err() {
        assert_eq!(brought(&read(&mut buf)), wanted.map(|data| data.map(<[u8]>::to_vec)));
    }
    if wanted != Ok(None) {
        assert!(buf.is_empty());
    }
    ended
}

const COPY: &[u8] = b"\x64\0\0\0\x06ab";

/// The frame's header is remembered.
#[test]
fn parser_with_each_allocation_refused() {
    let asked = refused(|| {
        let mut parser = FrameParser::new();
        reads(COPY, Ok(Some(b"ab")), &mut |buf| {
            assert!(parser.fits(buf));
            let read = parser.parse(buf);
            assert_eq!(parser.headers(), 1);
            read
        })
    });
    assert!(asked > 0);
}

/// Room for what is missing is asked for, and an error of it is not reported.
#[test]
fn unfinished_frame_with_each_allocation_refused() {
    let front = b"\x64\0\x0f\x42\x40\0";
    let refusals = refusals_of(|| reads(front, Ok(None), &mut Message::parse));
    assert!(refusals.asked > 0 && refusals.reported == 0);
}

/// A message that keeps no bytes of its frame asks for no memory, and neither does a frame of no message.
#[test]
fn bare_frames_ask_for_no_memory() {
    let nothing = Ok(Some(b"".as_slice()));
    let frames: [(&[u8], _); 8] = [
        (b"\x31\0\0\0\x04", nothing),
        (b"\x5a\0\0\0\x05I", nothing),
        (b"\x52\0\0\0\x08\0\0\0\0", nothing),
        (b"\x52\0\0\0\x0c\0\0\0\x05\x01\x02\x03\x04", nothing),
        (b"\x5a\0\0\0\x06I\0", Err(Error::NotDrained)),
        (b"\x57\0\0\0\x06ab", Err(Error::UnknownTag(0x57))),
        (b"\x52\0\0\0\x08\0\0\0\x63", Err(Error::UnknownAuthentication(99))),
        (b"\x52\0\0\0\x06\0\0", Err(Error::UnexpectedEof)),
    ];
    for (frame, wanted) in frames {
        assert_eq!(refused(|| reads(frame, wanted, &mut Message::parse)), 0, "{frame:?}");
    }
}

/// A rejected reading of complete frames, each the end of the command `A`, leaves what the first ones gave.
#[test]
fn read_frames_with_each_allocation_refused() {
    let frames = b"C\0\0\0\x06A\0".repeat(3);
    let asked = refused(|| {
        let mut list = Vec::new();
        let read = counted(|| {
            let found = FrameParser::new().find_all(&frames);
            read_frames(&Global.shared_of(&frames[..found.len])?, found.count, &mut list)
        });
        for result in &list {
            assert!(matches!(result, Ok(Message::CommandComplete(body)) if body.tag() == Ok("A")));
        }
        comes_to(read.map(|()| list.len()).map_err(Error::from), Ok(3))
    });
    assert!(asked > 1, "{asked}");
}

/// A row shares the bytes of its frame already, so that its copy asks for no memory.
#[test]
fn clone_with_each_allocation_refused() {
    let frame = b"\x44\0\0\0\x13\0\x03\0\0\0\x01\x61\xff\xff\xff\xff\0\0\0\0";
    let asked = refused(|| {
        let row = next_row(&mut buffer(frame))?;
        let copy = counted(|| row.clone())?;
        assert_eq!(copy.buffer(), &frame[7..]);
        Ok(())
    });
    assert_eq!(asked, 0);
}

/// How many items the iterator over the body of the message collects.
fn collected(message: &Message) -> Result<usize, Error> {
    match message {
        Message::CopyInResponse(body) => Ok(body.column_formats().collect(Global)?.len()),
        Message::ParameterDescription(body) => Ok(body.parameters().collect(Global)?.len()),
        Message::DataRow(body) => Ok(body.ranges().collect(Global)?.len()),
        Message::RowDescription(body) => Ok(body.fields().collect(Global)?.len()),
        Message::ErrorResponse(body) => Ok(body.fields().collect(Global)?.len()),
        Message::AuthenticationSasl(body) => Ok(body.mechanisms().collect(Global)?.len()),
        Message::NegotiateProtocolVersion(body) => Ok(body.options().collect(Global)?.len()),
        _ => panic!("a message without a list"),
    }
}

pub(crate) const FIVE_NULLS: &[u8] =
    b"\x44\0\0\0\x1a\0\x05\xff\xff\xff\xff\xff\xff\xff\xff\xff\xff\xff\xff\xff\xff\xff\xff\xff\xff\xff\xff";

/// The frames of such bodies, and how many items each has.
const LISTS: [(&[u8], usize); 7] = [
    (b"\x47\0\0\0\x11\0\0\x05\0\x01\0\x01\0\x01\0\x01\0\x01", 5),
    (
        b"\x74\0\0\0\x1a\0\x05\0\0\0\x17\0\0\0\x17\0\0\0\x17\0\0\0\x17\0\0\0\x17",
        5,
    ),
    (FIVE_NULLS, 5),
    (
        b"\x54\0\0\0\x1a\0\x01a\0\0\0\0\0\0\0\0\0\0\x17\0\x04\xff\xff\xff\xff\0\0",
        1,
    ),
    (b"\x45\0\0\0\x14Sa\0Cb\0Mc\0Dd\0He\0\0", 5),
    (b"\x52\0\0\0\x13\0\0\0\x0aa\0b\0c\0d\0e\0\0", 5),
    (b"\x76\0\0\0\x16\0\x03\0\0\0\0\0\x05a\0b\0c\0d\0e\0", 5),
];

#[test]
fn collect_with_each_allocation_refused() {
    for (frame, count) in LISTS {
        let message = Message::parse(&mut buffer(frame)).unwrap().unwrap();
        let asked = refused(|| comes_to(counted(|| collected(&message)), Ok(count)));
        assert!(asked > 0);
    }
}

/// Front, and so many bytes of this value after it.
fn long(front: &[u8], more: usize, byte: u8) -> BytesMut {
    let mut buf = buffer(front);
    buf.resize(front.len() + more, byte);
    buf
}

/// With ample memory a frame of 2 MB is read.
#[test]
fn a_long_frame_is_read() -> Result<(), Fail> {
    let frame = long(b"\x64\0\x20\0\x04", 2_097_152, 7);
    Ok(reads(&frame, Ok(Some(&frame[5..])), &mut Message::parse)?)
}

/// With ample memory rows of 300 bytes and of 1 MB are read, and copied.
#[test]
fn a_long_row_is_copied() -> Result<(), Fail> {
    let rows: [(&[u8], usize, usize); 2] = [
        (b"\x44\0\0\x01\x32\0\x01\0\0\x01\x28", 296, 300),
        (b"\x44\0\x10\0\x06\0\x01\0\x0f\xff\xfc", 1_048_572, 1_048_576),
    ];
    for (front, more, len) in rows {
        let row = next_row(&mut long(front, more, 7))?;
        assert_eq!((row.buffer().len(), row.clone()?.buffer().len()), (len, len));
    }
    Ok(())
}

/// With ample memory a row of 60,000 nulls is walked, collected and tabulated.
#[test]
fn a_long_list_is_collected() -> Result<(), Fail> {
    let mut buf = long(b"\x44\0\x03\xa9\x86\xea\x60", 240_000, 0xff);
    assert_eq!(Messages::new(&buf).next_row().unwrap().index(Global)?.len(), 60_000);
    assert_eq!(collected(&Message::parse(&mut buf)?.unwrap()), Ok(60_000));
    Ok(())
}
