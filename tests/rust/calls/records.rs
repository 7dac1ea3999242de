//! What no row of `test_rows` says of records: one whose field is an array of records, and how often a serializer is called.

use crate::reads::buffer;
use bytes::BytesMut;
use erased::proved::pgp_base::{BindError, Buffer, Error, IsNull, Oid};
use erased::proved::pgp_types::{array_to_sql, int4_to_sql, ArrayDimension};
use erased::proved::pgp_values::record_values_to_sql;

// The types of a number, of a record and of an array of records.
const INT4: Oid = 23;

const RECORD: Oid = 2249;

const RECORDS: Oid = 2287;

fn put_number(number: Option<i32>, buf: &mut BytesMut) -> Result<IsNull, Error> {
    match number {
        None => Ok(IsNull::Yes),
        Some(n) => match int4_to_sql(n, buf) {
            Ok(()) => Ok(IsNull::No),
            Err(e) => Err(e),
        },
    }
}

// A record of a number and a null, as an element that is never a null.
fn put_record(number: i32, buf: &mut BytesMut) -> Result<IsNull, BindError<Error>> {
    let fields = [(INT4, Some(number)), (INT4, None)];
    let answer = record_values_to_sql(
        fields.iter().copied(),
        |number: Option<i32>, buf: &mut BytesMut| put_number(number, buf),
        buf,
    );
    match answer {
        Ok(()) => Ok(IsNull::No),
        Err(e) => Err(e),
    }
}

// An array of two such records, of a number and the next, as a value that is never a null.
fn put_records(first: i32, buf: &mut BytesMut) -> Result<IsNull, BindError<BindError<Error>>> {
    let numbers = [first, first + 1];
    let answer = array_to_sql(
        Some(ArrayDimension { len: 2, lower_bound: 1 }),
        RECORD,
        numbers.as_slice(),
        |number: &i32, buf: &mut BytesMut| put_record(*number, buf),
        buf,
    );
    match answer {
        Ok(()) => Ok(IsNull::No),
        Err(e) => Err(e),
    }
}

// The bytes are those that PostgreSQL 15.18 sent of `row(array[row(2, null::int4), row(3, null::int4)])`.
#[test]
fn records_stand_in_an_array_in_a_record() {
    let mut buf = buffer(b"S\0\0\0\x04");
    let answer = record_values_to_sql(
        Some((RECORDS, 2)),
        |first: i32, buf: &mut BytesMut| put_records(first, buf),
        &mut buf,
    );
    assert_eq!(answer, Ok(()));
    let wanted =
        b"S\0\0\0\x04\0\0\0\x01\0\0\x08\xef\0\0\0\x4c\0\0\0\x01\0\0\0\0\0\0\x08\xc9\0\0\0\x02\0\0\0\x01\0\0\0\x18\0\0\0\x02\0\0\0\x17\0\0\0\x04\0\0\0\x02\0\0\0\x17\xff\xff\xff\xff\0\0\0\x18\0\0\0\x02\0\0\0\x17\0\0\0\x04\0\0\0\x03\0\0\0\x17\xff\xff\xff\xff";
    assert_eq!(buf.as_slice(), wanted.as_slice());
}

// The serializer isn't called after its error, and the bytes before the record stay.
#[test]
fn a_field_refuses() {
    let fields = [(INT4, 1u32), (INT4, 2), (INT4, 3), (INT4, 4), (INT4, 5)];
    for k in 1..6u32 {
        let mut buf = buffer(b"S\0\0\0\x04");
        let mut calls = 0u32;
        let answer = record_values_to_sql(
            fields.iter().copied(),
            |n: u32, buf: &mut BytesMut| -> Result<IsNull, u32> {
                calls += 1;
                if buf.append(b"abc").is_err() || n == k {
                    return Err(n);
                }
                Ok(IsNull::No)
            },
            &mut buf,
        );
        assert_eq!(answer, Err(BindError::Conversion(k)));
        assert_eq!(calls, k);
        assert_eq!(buf.as_slice(), b"S\0\0\0\x04".as_slice());
    }
}
