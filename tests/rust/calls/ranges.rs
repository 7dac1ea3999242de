//! What no row of `test_rows` says of ranges: what a closure appends for no bound, and errors of the closures.

use crate::reads::buffer;
use bytes::BytesMut;
use erased::proved::pgp_base::{BindError, Buffer, Error, IsNull};
use erased::proved::pgp_types::{int4_to_sql, range_to_sql, RangeBound};

// A message that stands in the buffer already.
const SYNC: &[u8] = b"S\0\0\0\x04";

// What was appended for no bound is not there.
#[test]
fn no_bound_has_no_bytes() {
    let mut buf = BytesMut::new();
    let answer = range_to_sql(
        |buf: &mut BytesMut| -> Result<RangeBound<IsNull>, Error> {
            int4_to_sql(1, buf)?;
            Ok(RangeBound::Unbounded)
        },
        |buf: &mut BytesMut| -> Result<RangeBound<IsNull>, Error> {
            int4_to_sql(5, buf)?;
            Ok(RangeBound::Inclusive(IsNull::No))
        },
        &mut buf,
    );
    assert_eq!(answer, Ok(()));
    assert_eq!(buf.as_slice(), b"\x0c\0\0\0\x04\0\0\0\x05".as_slice());
}

// The error of a side is answered, and the bytes before the range stay.
fn is_refused_by(lower: bool, upper: bool, want: u8, buf: &mut BytesMut) {
    let answer = range_to_sql(
        |buf: &mut BytesMut| -> Result<RangeBound<IsNull>, u8> {
            if buf.append(b"abc").is_err() || lower {
                return Err(1);
            }
            Ok(RangeBound::Exclusive(IsNull::No))
        },
        |buf: &mut BytesMut| -> Result<RangeBound<IsNull>, u8> {
            if buf.append(b"abc").is_err() || upper {
                return Err(2);
            }
            Ok(RangeBound::Exclusive(IsNull::No))
        },
        buf,
    );
    assert_eq!(answer, Err(BindError::Conversion(want)));
    assert_eq!(buf.as_slice(), SYNC);
}

#[test]
fn a_side_refuses() {
    let mut buf = buffer(SYNC);
    is_refused_by(true, false, 1, &mut buf);
    is_refused_by(false, true, 2, &mut buf);
    is_refused_by(true, true, 1, &mut buf);
}

#[test]
fn the_upper_side_is_not_asked_behind_a_refusal() {
    let mut buf = BytesMut::new();
    let mut calls = 0u32;
    let answer = range_to_sql(
        |_: &mut BytesMut| -> Result<RangeBound<IsNull>, u8> { Err(1) },
        |_: &mut BytesMut| -> Result<RangeBound<IsNull>, u8> {
            calls += 1;
            Ok(RangeBound::Unbounded)
        },
        &mut buf,
    );
    assert_eq!(answer, Err(BindError::Conversion(1)));
    assert_eq!(calls, 0);
    assert!(buf.is_empty());
}
