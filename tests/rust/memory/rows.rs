//! The tables of rows, and the values in them. The writers of values are tried by their rows (`test_rows`).

use crate::memory::message::FIVE_NULLS;
use crate::memory::{comes_to, refused};
use crate::reads::row;
use erased::kit::asking::{counted, is_due, refuse};
use erased::kit::calls::Fail;
use erased::kit::Global;
use erased::proved::pgp_base::{Error, FallibleIterator};
use erased::proved::pgp_message::{Messages, RowPlaces};
use erased::proved::pgp_types::{array_from_sql, hstore_from_sql, path_from_sql};
use erased::proved::postgres_protocol::lawful::row_int4;

/// The table of a short row is one request, that of a row without columns none, and neither one of a row that is cut.
#[test]
fn index_with_each_allocation_refused() {
    let rows: [(&[u8], _, u64); 3] = [
        (FIVE_NULLS, Ok(5), 1),
        (b"\x44\0\0\0\x06\0\0", Ok(0), 0),
        (b"\x44\0\0\0\x0a\xff\xff\0\0\0\x05", Err(Error::UnexpectedEof), 0),
    ];
    for (frame, columns, requests) in rows {
        let asked = refused(|| {
            let row = Messages::new(frame).next_row().unwrap();
            comes_to(counted(|| row.index(Global)).map(|index| index.len()), columns)
        });
        assert_eq!(asked, requests);
    }
}

/// Makes the table of each of these rows, which has so many columns or is rejected.
fn make_tables(places: &mut RowPlaces, rows: &[(&[u8], Result<usize, Error>)]) {
    for (frame, columns) in rows {
        let row = Messages::new(frame).next_row().unwrap();
        assert_eq!(counted(|| row.index_into(places).map(|index| index.len())), *columns);
    }
}

/// A table that is made again asks for memory once, also where another row was refused in between.
#[test]
fn a_table_is_made_again_without_memory() {
    let two = b"\x44\0\0\0\x0e\0\x02\xff\xff\xff\xff\xff\xff\xff\xff".as_slice();
    let one = b"\x44\0\0\0\x0b\0\x01\0\0\0\x01\x7a".as_slice();
    let cut = (
        b"\x44\0\0\0\x0a\0\x02\xff\xff\xff\xff".as_slice(),
        Err(Error::UnexpectedEof),
    );
    let mut places = RowPlaces::new(Global);
    refuse(1);
    make_tables(&mut places, &[(two, Err(Error::OutOfMemory)), (two, Ok(2))]);
    refuse(1);
    make_tables(&mut places, &[cut, (one, Ok(1)), cut, (two, Ok(2))]);
    assert!(is_due());
    refuse(0);
}

/// The values of a row of 5, a null, and a value that isn't an int4.
#[test]
fn row_int4_with_each_allocation_refused() -> Result<(), Fail> {
    let row = row(b"D\0\0\0\x16\0\x03\0\0\0\x04\0\0\0\x05\xff\xff\xff\xff\0\0\0\0")?;
    let values = vec![Some(Ok(5)), None, Some(Err(Error::UnexpectedEof))];
    let asked = refused(|| comes_to(counted(|| row_int4(Global, &row)), Ok(values.clone())));
    assert!(asked > 0);
    Ok(())
}

const PAIRS: &[u8] =
    b"\0\0\0\x05\0\0\0\0\xff\xff\xff\xff\0\0\0\0\xff\xff\xff\xff\0\0\0\0\xff\xff\xff\xff\0\0\0\0\xff\xff\xff\xff\0\0\0\0\xff\xff\xff\xff";

const POINTS: &[u8] = b"\x01\0\0\0\x050123456789abcdef0123456789abcdef0123456789abcdef0123456789abcdef0123456789abcdef";

const LIST: &[u8] =
    b"\0\0\0\x05\0\0\0\x01\0\0\0\x17\0\0\0\x01\0\0\0\x01\0\0\0\x05\0\0\0\x01\0\0\0\x01\0\0\0\x01\0\0\0\x01\0\0\0\x01\0\0\0\x01\0\0\0\x01\xff\xff\xff\xff\xff\xff\xff\xff\xff\xff\xff\xff\xff\xff\xff\xff\xff\xff\xff\xff";

fn elements(value: &[u8]) -> Result<usize, Error> {
    Ok(array_from_sql(value)?.values().collect(Global)?.len())
}

/// Each iterator of five items hands them out, or is refused memory.
#[test]
fn collect_with_each_allocation_refused() {
    let walks: [&dyn Fn() -> Result<usize, Error>; 4] = [
        &|| Ok(hstore_from_sql(PAIRS)?.collect(Global)?.len()),
        &|| Ok(path_from_sql(POINTS)?.points().collect(Global)?.len()),
        &|| Ok(array_from_sql(LIST)?.dimensions().collect(Global)?.len()),
        &|| elements(LIST),
    ];
    for walk in walks {
        assert!(refused(|| comes_to(counted(walk), Ok(5))) > 0);
    }
}

/// The array announces 2,147,483,647 elements, and none stands there: no memory is asked for.
#[test]
fn collect_reserves_nothing_by_the_count() {
    let array = b"\0\0\0\x01\0\0\0\0\0\0\0\x17\x7f\xff\xff\xff\0\0\0\x01";
    let asked = refused(|| comes_to(counted(|| elements(array)), Err(Error::UnexpectedEof)));
    assert_eq!(asked, 0);
}
