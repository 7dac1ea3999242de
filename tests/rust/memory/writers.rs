//! The writers that all messages are made of, each on a buffer that holds a message and has no room left, or some. Those of messages are tried by their rows
//! (`test_rows`).

use crate::calls::protocol::calls::plain;
use crate::memory::{refused, refused_at};
use bytes::BytesMut;
use erased::kit::asking::counted;
use erased::kit::{AsSlice as _, Global};
use erased::proved::pgp_base::{
    put_u8, write_body, write_counted, write_cstr, write_nullable, BindError, Error, IsNull,
};
use erased::proved::pgp_frontend::CopyData;
use erased::proved::pgp_types::ArrayDimension;
use erased::proved::postgres_protocol::lawful::{bind_array, Step};
use erased::proved::postgres_protocol::message::client::{ClientMessages, PasswordKind};
use tests::proved::pgp_uses::statements::pass_on;

/// The message.
pub(crate) const SYNC: &[u8] = b"S\0\0\0\x04";

/// A buffer that holds the message and has this much room.
pub(crate) fn holding(room: usize) -> BytesMut {
    let mut buf = BytesMut::with_capacity(room);
    buf.extend_from_slice(SYNC);
    buf
}

/// How often the writer was refused memory, with this much room, before the bytes stood there that it writes with ample memory.
fn refused_in(room: usize, write: fn(&mut BytesMut) -> Result<(), Error>) -> u64 {
    let mut ample = holding(100);
    assert_eq!(write(&mut ample), Ok(()));
    assert!(ample.len() > SYNC.len());
    refused(|| {
        let mut buf = holding(room);
        let answer = counted(|| write(&mut buf));
        assert_eq!(buf.as_slice(), if answer.is_ok() { ample.as_slice() } else { SYNC });
        answer
    })
}

/// The same without room. With room for each front of what is written, growth comes at its end.
fn refused_writer(write: fn(&mut BytesMut) -> Result<(), Error>) -> u64 {
    for room in SYNC.len()..100 {
        refused_in(room, write);
    }
    refused_in(SYNC.len(), write)
}

fn put_nullable(buf: &mut BytesMut) -> Result<IsNull, Error> {
    put_u8(buf, b'a').map(|()| IsNull::No)
}

#[test]
fn writers_with_each_allocation_refused() {
    let writers: [fn(&mut BytesMut) -> Result<(), Error>; 4] = [
        |buf| write_cstr(b"text", buf),
        |buf| plain(write_body(buf, |buf: &mut BytesMut| put_u8(buf, b'a'))),
        |buf| plain(write_nullable(put_nullable, buf)),
        |buf| plain(write_counted(0..9u8, |n: u8, buf: &mut BytesMut| put_u8(buf, n), buf)),
    ];
    for write in writers {
        let asked = refused_writer(write);
        assert!(asked >= 1 && asked < 100, "{asked}");
    }
}

/// `bind` with an array of an empty value and a null.
fn bound_array(buf: &mut BytesMut) -> Result<(), Error> {
    let pair = ArrayDimension { len: 2, lower_bound: 1 };
    bind_array(&[pair], 17, &[Step::Append(Vec::new()), Step::Null], buf).map_err(|e| match e {
        BindError::Conversion(BindError::Conversion(e) | BindError::Serialization(e)) | BindError::Serialization(e) => {
            e
        }
    })
}

#[test]
fn bind_array_with_each_allocation_refused() {
    assert!(refused_writer(bound_array) > 0);
}

/// A piece of a copy that was refused memory has its bytes still, and can be written again.
#[test]
fn a_refused_piece_is_written_later() {
    let asked = refused(|| {
        let mut buf = holding(SYNC.len());
        let piece = CopyData::new(b"ab".as_slice())?;
        let answer = counted(|| piece.write(&mut buf));
        let ended = answer.map_err(|piece| {
            assert_eq!(buf.as_slice(), SYNC);
            assert!(piece.write(&mut buf).is_ok());
            Error::OutOfMemory
        });
        assert_eq!(buf.as_slice(), b"S\0\0\0\x04d\0\0\0\x06ab".as_slice());
        ended
    });
    assert_eq!(asked, 1);
}

/// A prepared statement of clients that share a server's connection.
#[test]
fn a_statement_without_memory_is_not_passed_on() {
    for number in 1..4 {
        let mut out = BytesMut::with_capacity(64);
        let mut messages = ClientMessages::resume(b"D\0\0\0\x07Ss\0", true);
        let message = messages.next(PasswordKind::Password).unwrap().unwrap();
        let (passed, refused) = refused_at(number, || pass_on(Global, 12, message, &mut out));
        assert_eq!((passed.is_err(), out.is_empty()), (refused, refused));
        assert!(refused || number > 1);
    }
}
