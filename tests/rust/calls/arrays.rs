//! What no row of `test_rows` says of arrays: a list of elements that don't come, and how often a serializer is called.

use crate::reads::buffer;
use bytes::BytesMut;
use erased::kit::calls::Fail;
use erased::kit::Global;
use erased::proved::pgp_base::{BindError, Buffer, Error, FallibleIterator, IsNull};
use erased::proved::pgp_types::{array_from_sql, array_to_sql, ArrayDimension};

// What is announced isn't there: no memory is asked for by the count.
#[test]
fn elements_that_do_not_come_are_not_collected() -> Result<(), Fail> {
    let array = array_from_sql(b"\0\0\0\x01\0\0\0\0\0\0\0\x17\x7f\xff\xff\xff\0\0\0\x01")?;
    let all = array.values().collect(Global);
    assert!(matches!(all, Err(Error::UnexpectedEof)));
    Ok(())
}

// The serializer isn't called after its error, and the bytes before the array stay.
#[test]
fn a_serializer_refuses() {
    for k in 1..6u32 {
        let mut buf = buffer(b"S\0\0\0\x04");
        let mut calls = 0u32;
        let answer = array_to_sql(
            Some(ArrayDimension { len: 5, lower_bound: 1 }),
            23,
            1..6u32,
            |n: u32, buf: &mut BytesMut| -> Result<IsNull, u32> {
                calls += 1;
                if buf.append(b"abc").is_err() || n == k {
                    return Err(n);
                }
                Ok(IsNull::No)
            },
            &mut buf,
        );
        assert_eq!(answer, Err(BindError::Conversion(k)));
        assert_eq!(calls, k);
        assert_eq!(buf.as_slice(), b"S\0\0\0\x04".as_slice());
    }
}
