//! What was read.

use bytes::{Bytes, BytesMut};
use erased::proved::pgp_base::Error;
use erased::proved::pgp_message::{DataRowBody, Message};

/// A buffer that holds these bytes.
pub(crate) fn buffer(bytes: &[u8]) -> BytesMut {
    BytesMut::from(bytes)
}

/// The row that was read, which shares its bytes.
fn row_of(read: &Result<Option<Message>, Error>) -> Result<DataRowBody<Bytes>, Error> {
    match read {
        Ok(Some(Message::DataRow(row))) => Ok(row.clone()?),
        Ok(_) => Err(Error::InvalidCount),
        Err(e) => Err(*e),
    }
}

/// The row at the front, which is removed.
pub(crate) fn next_row(buf: &mut BytesMut) -> Result<DataRowBody<Bytes>, Error> {
    let read = Message::parse(buf);
    let row = row_of(&read);
    drop(read);
    row
}

/// The row that the bytes are.
pub(crate) fn row(bytes: &[u8]) -> Result<DataRowBody<Bytes>, Error> {
    next_row(&mut buffer(bytes))
}

/// Whether a copy of these bytes was read.
fn is_copy(read: &Result<Option<Message>, Error>, data: &[u8]) -> Result<bool, Error> {
    match read {
        Ok(Some(Message::CopyData(body))) => Ok(body.data() == data),
        Ok(_) => Ok(false),
        Err(e) => Err(*e),
    }
}

/// Whether the message at the front, which is removed, is a copy of these bytes.
pub(crate) fn brings(buf: &mut BytesMut, data: &[u8]) -> Result<bool, Error> {
    let read = Message::parse(buf);
    let answer = is_copy(&read, data);
    drop(read);
    answer
}
