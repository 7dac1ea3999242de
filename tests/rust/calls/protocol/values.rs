//! Values in messages. Expected bytes are from the message formats of the PostgreSQL manual, and for the layout of arrays as a server sends them.

use super::ROW;
use crate::reads::{buffer, row};
use bytes::BytesMut;
use erased::kit::calls::Fail;
use erased::kit::AsSlice as _;
use erased::kit::Global;
use erased::proved::postgres_protocol::lawful::{bind_array, row_int4, Step};
use erased::proved::postgres_protocol::types::ArrayDimension;
use erased::proved::postgres_protocol::{BindError, Error};

/// A Sync message.
const SYNC: &[u8] = b"S\0\0\0\x04";

/// Two elements, of which the first is 1.
const PAIR: ArrayDimension = ArrayDimension { len: 2, lower_bound: 1 };

/// A step that appends 5, and another one.
fn five_and(step: Step) -> Vec<Step> {
    vec![Step::Append(vec![0, 0, 0, 5]), step]
}

#[test]
fn an_array_is_bound() -> Result<(), Fail> {
    let steps = five_and(Step::Null);
    let mut buf = buffer(SYNC);
    assert_eq!(bind_array(&[PAIR], 23, &steps, &mut buf), Ok(()));
    let wanted =
        b"S\0\0\0\x04B\0\0\0\x32\0\0\0\x01\0\x01\0\x01\0\0\0\x20\0\0\0\x01\0\0\0\x01\0\0\0\x17\0\0\0\x02\0\0\0\x01\0\0\0\x04\0\0\0\x05\xff\xff\xff\xff\0\0";
    assert_eq!(buf.as_slice(), wanted.as_slice());
    Ok(())
}

#[test]
fn arrays_without_nulls() -> Result<(), Fail> {
    let mut buf = BytesMut::new();
    assert_eq!(bind_array(&[], 23, &[], &mut buf), Ok(()));
    let wanted = b"B\0\0\0\x1e\0\0\0\x01\0\x01\0\x01\0\0\0\x0c\0\0\0\0\0\0\0\0\0\0\0\x17\0\0";
    assert_eq!(buf.as_slice(), wanted.as_slice());
    let steps = five_and(Step::Append(Vec::new()));
    let mut buf = BytesMut::new();
    assert_eq!(bind_array(&[PAIR], 17, &steps, &mut buf), Ok(()));
    let wanted =
        b"B\0\0\0\x32\0\0\0\x01\0\x01\0\x01\0\0\0\x20\0\0\0\x01\0\0\0\0\0\0\0\x11\0\0\0\x02\0\0\0\x01\0\0\0\x04\0\0\0\x05\0\0\0\0\0\0";
    assert_eq!(buf.as_slice(), wanted.as_slice());
    Ok(())
}

#[test]
fn a_step_refuses() -> Result<(), Fail> {
    let steps = five_and(Step::Refuse(Error::InvalidSize));
    let mut buf = buffer(SYNC);
    let refusal = BindError::Conversion(BindError::Conversion(Error::InvalidSize));
    let answer = bind_array(&[PAIR], 23, &steps, &mut buf);
    assert_eq!(answer, Err(refusal));
    assert_eq!(buf.as_slice(), SYNC);
    Ok(())
}

/// The values of the row that the frame is.
fn read_row(frame: &[u8]) -> Result<Vec<Option<Result<i32, Error>>>, Error> {
    row_int4(Global, &row(frame)?)
}

/// The row that the frame is has these values.
fn has_values(frame: &[u8], wanted: &[Option<Result<i32, Error>>]) {
    let read = read_row(frame);
    let values = match &read {
        Ok(values) => Ok(values.as_slice()),
        Err(e) => Err(*e),
    };
    assert_eq!(values, Ok(wanted));
}

#[test]
fn rows_of_numbers() {
    let cut = Some(Err(Error::UnexpectedEof));
    has_values(&ROW, &[cut, None, cut]);
    let row = b"D\0\0\0\x23\0\x04\0\0\0\x04\0\0\0\x05\xff\xff\xff\xff\0\0\0\x04\xff\xff\xff\xfe\0\0\0\x05\0\0\0\0\0";
    let values = [Some(Ok(5)), None, Some(Ok(-2)), Some(Err(Error::NotDrained))];
    has_values(row, &values);
    has_values(b"D\0\0\0\x06\0\0", &[]);
}

#[test]
fn rows_that_do_not_end_well() {
    let cut = b"D\0\0\0\x0c\0\x01\0\0\0\x04\0\0";
    assert_eq!(read_row(cut), Err(Error::UnexpectedEof));
    let long = b"D\0\0\0\x07\0\0\0";
    assert_eq!(read_row(long), Err(Error::NotDrained));
}
