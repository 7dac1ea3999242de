//! What no row of `test_rows` says of the columns of a row: their places in a table, by a table that is made again, and without one.
//! Expected bytes are from the message formats of the PostgreSQL manual.

use super::message::ROW;
use crate::reads::row;
use bytes::Bytes;
use erased::kit::calls::Fail;
use erased::kit::Global;
use erased::proved::pgp_base::{Error, FallibleIterator};
use erased::proved::pgp_message::{DataRowBody, RowIndex, RowPlaces};
use std::ops::Range;

/// The three columns in each order, each time with a place after the last one.
const ORDERS: [[usize; 4]; 6] = [
    [0, 1, 2, 3],
    [0, 2, 1, 4],
    [1, 0, 2, 3],
    [1, 2, 0, 4],
    [2, 0, 1, usize::MAX],
    [2, 1, 0, usize::MAX],
];

/// The columns of `ROW`, asked in this order.
fn are_at_hand(index: &RowIndex<'_>, order: &[usize]) {
    let values = [Some(b"a".as_slice()), None, Some(b"".as_slice())];
    let places = [Some(4..5usize), None, Some(13..13usize)];
    for column in order {
        assert_eq!(index.value(*column), values.get(*column).copied());
        assert_eq!(index.range(*column).as_ref(), places.get(*column));
    }
}

#[test]
fn any_column_of_a_row_is_at_hand() -> Result<(), Fail> {
    let row = row(ROW)?;
    let index = row.index(Global)?;
    assert_eq!(index.len(), 3);
    for order in &ORDERS {
        are_at_hand(&index, order);
    }
    Ok(())
}

#[test]
fn the_columns_at_hand_are_those_of_the_walk() -> Result<(), Fail> {
    let row = row(ROW)?;
    let index = row.index(Global)?;
    let mut ranges = row.ranges();
    for column in 0..4usize {
        assert_eq!(ranges.next(), Ok(index.range(column)));
    }
    Ok(())
}

/// A row of the one column `z`.
const NARROW: &[u8] = b"\x44\0\0\0\x0b\0\x01\0\0\0\x01\x7a";

/// A row of two columns, of which the second is cut short.
const CUT: &[u8] = b"\x44\0\0\0\x0f\0\x02\0\0\0\x01\x61\0\0\0\x05";

/// A value or a null, and nothing where there is no such column.
type Value<'a> = Option<Option<&'a [u8]>>;

/// How many columns a row has by a table that is made in `places`, the values of the first two, and the place of the third.
fn tabled<'a>(
    row: &'a DataRowBody<Bytes>,
    places: &'a mut RowPlaces,
) -> Result<(usize, [Value<'a>; 2], Option<Option<Range<usize>>>), Error> {
    let columns = row.index_into(places)?;
    Ok((columns.len(), [columns.value(0), columns.value(1)], columns.range(2)))
}

#[test]
fn a_table_is_made_again_for_each_row() -> Result<(), Fail> {
    let mut places = RowPlaces::new(Global);
    let wide = row(ROW)?;
    let narrow = row(NARROW)?;
    let cut = row(CUT)?;
    let three = Ok((3, [Some(Some(b"a".as_slice())), Some(None)], Some(Some(13..13usize))));
    assert_eq!(tabled(&wide, &mut places), three);
    let one = Ok((1, [Some(Some(b"z".as_slice())), None], None));
    assert_eq!(tabled(&narrow, &mut places), one);
    assert_eq!(tabled(&cut, &mut places), Err(Error::UnexpectedEof));
    let again = Ok((3, [Some(Some(b"a".as_slice())), Some(None)], Some(Some(13..13usize))));
    assert_eq!(tabled(&wide, &mut places), again);
    Ok(())
}

#[test]
fn a_column_without_a_table() -> Result<(), Fail> {
    let wide = row(ROW)?;
    assert_eq!(wide.column(0), Ok(Some(Some(b"a".as_slice()))));
    assert_eq!(wide.column(1), Ok(Some(None)));
    assert_eq!(wide.column(2), Ok(Some(Some(b"".as_slice()))));
    for past in [3usize, 4, usize::MAX] {
        assert_eq!(wide.column(past), Ok(None));
    }
    let cut = row(CUT)?;
    assert_eq!(cut.column(0), Ok(Some(Some(b"a".as_slice()))));
    assert_eq!(cut.column(1), Err(Error::UnexpectedEof));
    assert_eq!(cut.column(2), Err(Error::UnexpectedEof));
    Ok(())
}
