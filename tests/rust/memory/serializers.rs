//! Serializers that refuse, and writers that are refused memory: which of the two is reported.

use crate::memory::refused_at;
use crate::memory::writers::{holding, SYNC};
use bytes::BytesMut;
use erased::proved::pgp_base::{BindError, Buffer, Error, IsNull};
use erased::proved::pgp_frontend::bind;
use erased::proved::pgp_types::{array_to_sql, range_to_sql, ArrayDimension, RangeBound};

/// What the serializers here answer where they are refused memory.
const OWN: u8 = 77;

/// A serializer that refuses the k-th of five values, after the bytes that it has appended, is called k times; its error is reported, and the buffer keeps its
/// bytes.
#[test]
fn bind_with_each_value_refused() {
    for k in 1..6u32 {
        let mut buf = holding(SYNC.len());
        let mut calls = 0;
        let put = |n: u32, buf: &mut BytesMut| -> Result<IsNull, u32> {
            calls += 1;
            if buf.append(b"abc").is_err() || n == k {
                return Err(n);
            }
            Ok(IsNull::No)
        };
        let answer = bind("portal", "statement", Some(1i16), 1..6u32, put, Some(1i16), &mut buf);
        assert_eq!(answer, Err(BindError::Conversion(k)));
        assert_eq!((calls, &buf[..]), (k, SYNC));
    }
}

/// Appends twenty bytes, or returns its own number.
fn put(buf: &mut BytesMut) -> Result<IsNull, u8> {
    buf.append(b"0123456789abcdefghij")
        .map(|()| IsNull::No)
        .map_err(|_| OWN)
}

fn put_own(_value: u32, buf: &mut BytesMut) -> Result<IsNull, u8> {
    put(buf)
}

type Writer = fn(&mut BytesMut) -> Result<(), BindError<u8>>;

/// What calls a serializer.
const WRITERS: [Writer; 3] = [
    |buf| bind("", "s", Some(1i16), 1..6u32, put_own, Some(1i16), buf),
    |buf| {
        array_to_sql(
            Some(ArrayDimension { len: 5, lower_bound: 1 }),
            23,
            1..6u32,
            put_own,
            buf,
        )
    },
    |buf| {
        let lower = |buf: &mut BytesMut| put(buf).map(RangeBound::Inclusive);
        let upper = |buf: &mut BytesMut| put(buf).map(RangeBound::Exclusive);
        range_to_sql(lower, upper, buf)
    },
];

/// The serializer's lack of memory is reported as its own error, the writer's as a serialization. Buffers of many lengths have each growth come at their end,
/// so that both are met: the first that a buffer asks for is refused.
#[test]
fn a_serializer_without_memory_is_reported_apart() {
    for write in WRITERS {
        let (mut by_serializer, mut by_writer) = (0, 0);
        for room in 5..200 {
            let mut buf = holding(room);
            let (answer, is_refused) = refused_at(1, || write(&mut buf));
            assert_eq!(answer.is_err(), is_refused);
            assert!(!is_refused || &buf[..] == SYNC);
            match answer {
                Ok(()) => {}
                Err(BindError::Conversion(OWN)) => by_serializer += 1,
                Err(e) => {
                    assert_eq!(e, BindError::Serialization(Error::OutOfMemory));
                    by_writer += 1;
                }
            }
        }
        assert!(by_serializer > 5 && by_writer > 5, "{by_serializer} {by_writer}");
    }
}
