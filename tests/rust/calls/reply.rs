//! What no row of `test_rows` says of the messages of a server: lists of as many items as a count says, and of one more. Expected
//! bytes are from the message formats of the PostgreSQL manual.

use bytes::BytesMut;
use erased::kit::calls::Fail;
use erased::kit::AsSlice as _;
use erased::proved::pgp_base::Error;
use erased::proved::pgp_message_write::{
    copy_out_response, data_row, parameter_description, ready_for_query, row_description, Column,
};

/// More items than a count says.
const MANY: usize = 65_536;

/// `ReadyForQuery`, which stands before the message.
const READY: &[u8] = b"Z\0\0\0\x05I";

const NAMELESS: Column<'static> = Column {
    name: b"",
    table_oid: 0,
    column_id: 0,
    type_oid: 25,
    type_size: -1,
    type_modifier: -1,
    format: 0,
};

// A null takes 4 bytes, so that the length is 4 + 2 + 4 * 65,535.
#[test]
fn a_row_of_too_many_values_is_refused() -> Result<(), Fail> {
    let values = vec![None; MANY];
    let mut buf = BytesMut::new();
    assert_eq!(ready_for_query(b'I', &mut buf), Ok(()));
    assert_eq!(data_row(&values, &mut buf), Err(Error::TooLarge));
    assert_eq!(buf.as_slice(), READY);
    assert_eq!(data_row(&values[1..], &mut buf), Ok(()));
    assert_eq!(buf.len(), 6 + 7 + 4 * 65_535);
    let front = b"Z\0\0\0\x05ID\0\x04\0\x02\xff\xff".as_slice();
    assert!(buf.as_slice().starts_with(front));
    Ok(())
}

// A column without a name takes 19 bytes, so that the length is 4 + 2 + 19 * 65,535.
#[test]
fn too_many_columns_are_refused() -> Result<(), Fail> {
    let columns = vec![NAMELESS; MANY];
    let mut buf = BytesMut::new();
    assert_eq!(ready_for_query(b'I', &mut buf), Ok(()));
    let answer = row_description(&columns, &mut buf);
    assert_eq!(answer, Err(Error::TooLarge));
    assert_eq!(buf.as_slice(), READY);
    assert_eq!(row_description(&columns[1..], &mut buf), Ok(()));
    assert_eq!(buf.len(), 6 + 7 + 19 * 65_535);
    let front = b"Z\0\0\0\x05IT\0\x12\xff\xf3\xff\xff".as_slice();
    assert!(buf.as_slice().starts_with(front));
    Ok(())
}

#[test]
fn too_many_types_and_formats_are_refused() -> Result<(), Fail> {
    let types = vec![23u32; MANY];
    let formats = vec![1u16; MANY];
    let mut buf = BytesMut::new();
    assert_eq!(ready_for_query(b'I', &mut buf), Ok(()));
    let answer = parameter_description(&types, &mut buf);
    assert_eq!(answer, Err(Error::TooLarge));
    let answer = copy_out_response(0, &formats, &mut buf);
    assert_eq!(answer, Err(Error::TooLarge));
    assert_eq!(buf.as_slice(), READY);
    assert_eq!(parameter_description(&types[1..], &mut buf), Ok(()));
    assert_eq!(copy_out_response(0, &formats[1..], &mut buf), Ok(()));
    assert_eq!(buf.len(), 6 + 7 + 4 * 65_535 + 8 + 2 * 65_535);
    Ok(())
}
