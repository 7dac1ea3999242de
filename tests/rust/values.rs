//! Values inside a message.

use crate::reads::buffer;
use bytes::BytesMut;
use erased::kit::AsSlice as _;
use erased::proved::pgp_base::{BindError, IsNull};
use erased::proved::pgp_frontend::bind;
use erased::proved::pgp_types::{array_to_sql, int4_to_sql, ArrayDimension};

// An element is a number, a null, or rejected.
#[derive(Clone, Copy)]
enum Element {
    Number(i32),
    Null,
    Refuse,
}

fn put_element(element: Element, buf: &mut BytesMut) -> Result<IsNull, u8> {
    match element {
        Element::Null => Ok(IsNull::Yes),
        Element::Refuse => Err(2),
        Element::Number(n) => match int4_to_sql(n, buf) {
            Ok(()) => Ok(IsNull::No),
            Err(_) => Err(1),
        },
    }
}

// The bytes are the manual's format of a Bind, worked by hand.
#[test]
fn a_number_and_a_null_are_bound() {
    let mut buf = BytesMut::new();
    let answer = bind(
        "",
        "s",
        Some(1i16),
        [Element::Number(5), Element::Null].as_slice(),
        |element: &Element, buf: &mut BytesMut| put_element(*element, buf),
        Some(1i16),
        &mut buf,
    );
    assert_eq!(answer, Ok(()));
    let wanted = b"B\0\0\0\x1d\0s\0\0\x01\0\x01\0\x02\0\0\0\x04\0\0\0\x05\xff\xff\xff\xff\0\x01\0\x01";
    assert_eq!(buf.as_slice(), wanted.as_slice());
}

// The array of these elements, as a value that is never a null.
fn put_array(elements: &[Element], buf: &mut BytesMut) -> Result<IsNull, BindError<u8>> {
    let answer = array_to_sql(
        Some(ArrayDimension { len: 2, lower_bound: 1 }),
        23,
        elements,
        |element: &Element, buf: &mut BytesMut| put_element(*element, buf),
        buf,
    );
    match answer {
        Ok(()) => Ok(IsNull::No),
        Err(e) => Err(e),
    }
}

// Binds the array of these two elements.
fn bind_array(elements: [Element; 2], buf: &mut BytesMut) -> Result<(), BindError<BindError<u8>>> {
    bind(
        "",
        "",
        Some(1i16),
        Some(elements),
        |elements: [Element; 2], buf: &mut BytesMut| -> Result<IsNull, BindError<u8>> {
            put_array(elements.as_slice(), buf)
        },
        None::<i16>,
        buf,
    )
}

#[test]
fn an_array_is_bound() {
    let mut buf = BytesMut::new();
    let answer = bind_array([Element::Number(5), Element::Null], &mut buf);
    assert_eq!(answer, Ok(()));
    let wanted =
        b"B\0\0\0\x32\0\0\0\x01\0\x01\0\x01\0\0\0\x20\0\0\0\x01\0\0\0\x01\0\0\0\x17\0\0\0\x02\0\0\0\x01\0\0\0\x04\0\0\0\x05\xff\xff\xff\xff\0\0";
    assert_eq!(buf.as_slice(), wanted.as_slice());
}

// The error of an element is the serializer's own, inside the array and inside the message.
#[test]
fn an_array_that_is_refused_is_not_bound() {
    let mut buf = buffer(b"S\0\0\0\x04");
    let answer = bind_array([Element::Number(5), Element::Refuse], &mut buf);
    let refusal = BindError::Conversion(BindError::Conversion(2));
    assert_eq!(answer, Err(refusal));
    assert_eq!(buf.as_slice(), b"S\0\0\0\x04".as_slice());
}
