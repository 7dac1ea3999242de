//! Large values of the further types with ample memory, and the first that is too large.

use crate::ample::{joined, joined_bytes};
use bytes::BytesMut;
use erased::kit::calls::Fail;
use erased::kit::AsSlice as _;
use erased::proved::pgp_base::{Error, FallibleIterator};
use erased::proved::pgp_values::{
    jsonb_from_sql, jsonb_to_sql, numeric_from_sql, numeric_text_to_sql, numeric_to_text, record_from_sql,
    record_to_sql, tsvector_from_sql, tsvector_to_sql,
};

// Whether this is what is written of a number's text.
fn is_written(text: &str, sent: &[u8]) -> bool {
    let mut buf = BytesMut::new();
    numeric_text_to_sql(text, &mut buf).is_ok() && buf.as_slice() == sent
}

// Whether this is what is shown of a number's bytes.
fn is_shown(sent: &[u8], text: &str) -> bool {
    let mut buf = BytesMut::new();
    match numeric_from_sql(sent) {
        Ok(v) => numeric_to_text(&v, &mut buf).is_ok() && buf.as_slice() == text.as_bytes(),
        Err(_) => false,
    }
}

// The bytes are those that PostgreSQL 15.18 sends of both numbers, the greatest exponents that it takes.
#[test]
fn the_longest_numbers_are_written_and_shown() {
    let great = joined("9", "0", 131_071, "");
    let sent = b"\0\x01\x7f\xff\0\0\0\0\x23\x28";
    assert!(is_written("9e131071", sent));
    assert!(is_written(&great, sent));
    assert!(is_shown(sent, &great));
    let small = joined("0.", "0", 16_382, "1");
    let sent = b"\0\x01\xf0\0\0\0\x3f\xff\0\x0a";
    assert!(is_written("1e-16383", sent));
    assert!(is_written(&small, sent));
    assert!(is_shown(sent, &small));
}

// How many of the first 20,000 fields are the number 42, up to one that isn't.
fn fields_of_42(bytes: &[u8]) -> Result<usize, Error> {
    let mut fields = record_from_sql(bytes)?;
    for count in 0..20_000usize {
        match fields.next()? {
            Some((23, Some(value))) if value == b"\0\0\0\x2a".as_slice() => {}
            _ => return Ok(count),
        }
    }
    Ok(20_000)
}

#[test]
fn a_record_has_ten_thousand_fields() -> Result<(), Fail> {
    let number = b"\0\0\0\x2a".as_slice();
    let fields = vec![(23, Some(number)); 10_000];
    let mut buf = BytesMut::new();
    assert_eq!(record_to_sql(fields.iter().copied(), &mut buf), Ok(()));
    let field = b"\0\0\0\x17\0\0\0\x04\0\0\0\x2a";
    let sent = joined_bytes(b"\0\0\x27\x10", field, 10_000, b"");
    assert!(buf.as_slice() == sent.as_slice());
    assert_eq!(fields_of_42(&sent), Ok(10_000));
    Ok(())
}

#[test]
fn a_document_has_a_megabyte() {
    let text = joined("\"", "0123456789", 100_000, "\"");
    let mut buf = BytesMut::new();
    assert_eq!(jsonb_to_sql(&text, &mut buf), Ok(()));
    let sent = joined("\x01", &text, 1, "");
    assert!(buf.as_slice() == sent.as_bytes());
    assert_eq!(jsonb_from_sql(sent.as_bytes()), Ok(text.as_str()));
}

// How many places the first lexeme has.
fn places_of(bytes: &[u8]) -> Result<usize, Error> {
    match tsvector_from_sql(bytes)?.next()? {
        Some((_, places)) => Ok(places.len()),
        None => Ok(0),
    }
}

// As many places as their count can say, and one more.
#[test]
fn a_lexeme_has_65535_places() -> Result<(), Fail> {
    let places = vec![5u16; 65_536];
    let (most, _) = places.as_slice().split_at(65_535);
    let mut buf = BytesMut::new();
    assert_eq!(tsvector_to_sql(Some(("a", most)), &mut buf), Ok(()));
    let front = b"\0\0\0\x01a\0\xff\xff";
    let sent = joined_bytes(front, b"\0\x05", 65_535, b"");
    assert!(buf.as_slice() == sent.as_slice());
    assert_eq!(places_of(&sent), Ok(65_535));
    let more = tsvector_to_sql(Some(("a", places.as_slice())), &mut buf);
    assert_eq!(more, Err(Error::TooLarge));
    assert!(buf.as_slice() == sent.as_slice());
    Ok(())
}
