//! The examples of `pgp_uses` that read and bind arrays, on bytes of the message formats of the PostgreSQL manual.

use bytes::BytesMut;
use erased::kit::calls::Fail;
use erased::kit::AsSlice as _;
use erased::kit::Global;
use erased::proved::postgres_protocol::message::backend::RowIndex;
use erased::proved::postgres_protocol::Error;
use tests::proved::pgp_uses::arrays::{bind_int4s, list_of, ArrayError};
use tests::proved::pgp_uses::streams::front_row;

/// An array of the int4 7 and a null, one of two dimensions, an empty one, a null, and one whose element has 3 bytes: the
/// layout as a server sends it.
const ARRAYS: &[u8; 134] = b"D\x00\x00\x00\x85\x00\x05\
\x00\x00\x00\x20\x00\x00\x00\x01\x00\x00\x00\x01\x00\x00\x00\x17\x00\x00\x00\x02\x00\x00\x00\x01\x00\x00\x00\x04\x00\x00\x00\x07\xff\xff\xff\xff\
\x00\x00\x00\x24\x00\x00\x00\x02\x00\x00\x00\x00\x00\x00\x00\x17\x00\x00\x00\x01\x00\x00\x00\x01\x00\x00\x00\x01\x00\x00\x00\x01\x00\x00\x00\x04\x00\x00\x00\x07\
\x00\x00\x00\x0c\x00\x00\x00\x00\x00\x00\x00\x00\x00\x00\x00\x17\
\xff\xff\xff\xff\
\x00\x00\x00\x1b\x00\x00\x00\x01\x00\x00\x00\x00\x00\x00\x00\x17\x00\x00\x00\x01\x00\x00\x00\x01\x00\x00\x00\x03\x00\x00\x07";

#[test]
fn arrays_are_lists() -> Result<(), Fail> {
    let Some((row, _)) = front_row(ARRAYS) else {
        return Err(Error::UnexpectedEof.into());
    };
    let index = row.index(Global)?;
    let Ok(Some(list)) = list_of::<i32>(Global, &index, 0) else {
        return Err(Error::UnexpectedEof.into());
    };
    assert_eq!(list.as_slice(), [Some(7), None].as_slice());
    let size = size_of(&index, 1);
    assert_eq!(size, Err(ArrayError::Dimensions));
    assert_eq!(size_of(&index, 2), Ok(Some(0)));
    assert_eq!(size_of(&index, 3), Ok(None));
    let size = size_of(&index, 4);
    assert_eq!(size, Err(ArrayError::Value(Error::UnexpectedEof)));
    let size = size_of(&index, 5);
    assert_eq!(size, Err(ArrayError::NoColumn));
    Ok(())
}

/// How many `int4`s and nulls a column's array has.
fn size_of(row: &RowIndex<'_>, i: usize) -> Result<Option<usize>, ArrayError> {
    match list_of::<i32>(Global, row, i) {
        Ok(Some(list)) => Ok(Some(list.len())),
        Ok(None) => Ok(None),
        Err(e) => Err(e),
    }
}

#[test]
fn an_array_is_bound() -> Result<(), Fail> {
    let mut buf = BytesMut::new();
    assert!(bind_int4s(&[Some(7), None], &mut buf).is_ok());
    let wanted =
        b"B\x00\x00\x00\x32\x00\x00\x00\x01\x00\x01\x00\x01\x00\x00\x00\x20\x00\x00\x00\x01\x00\x00\x00\x01\x00\x00\x00\x17\x00\x00\x00\x02\x00\x00\x00\x01\x00\x00\x00\x04\x00\x00\x00\x07\xff\xff\xff\xff\x00\x00";
    assert_eq!(buf.as_slice(), wanted.as_slice());
    Ok(())
}
