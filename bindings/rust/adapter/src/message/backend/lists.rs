//! The lists that a server's messages have.

use crate::proved::pgp_base::{Error, FallibleIterator as _};
use crate::proved::pgp_message as proved;
use crate::{Oid, status};
use bytes::Bytes;
use fallible_iterator::FallibleIterator;
use std::ops::Range;
use std::{io, iter};

/// Iterators over the proved ones.
macro_rules! iterators {
    ($($name:ident, $item:ty, $how:expr, $e:expr;)*) => {$(
        pub struct $name<'a>(pub(super) proved::$name<'a>);

        impl<'a> FallibleIterator for $name<'a> {
            type Item = $item;
            type Error = io::Error;

            #[inline]
            fn next(&mut self) -> io::Result<Option<$item>> {
                match self.0.next() {
                    Ok(Some(item)) => Ok(Some($how(item))),
                    Ok(None) => Ok(None),
                    Err(e) => Err($e(e)),
                }
            }

            #[inline]
            fn size_hint(&self) -> (usize, Option<usize>) {
                self.0.size_hint()
            }
        }
    )*};
}

iterators! {
    ColumnFormats, u16, same, status::io;
    DataRowRanges, Option<Range<usize>>, same, status::io;
    ErrorFields, ErrorField<'a>, ErrorField, status::io;
    Parameters, Oid, same, status::io;
}

#[inline(always)]
fn same<T>(item: T) -> T {
    item
}

/// Likewise over lists of names, with the body that they stand in.
macro_rules! lists_of_names {
    ($($name:ident, $body:ident, $item:ty, $how:expr, $e:expr;)*) => {$(
        pub struct $name<'a> {
            pub(super) walk: proved::$name<'a>,
            pub(super) body: &'a proved::$body<Bytes>,
        }

        impl<'a> FallibleIterator for $name<'a> {
            type Item = $item;
            type Error = io::Error;

            #[inline]
            fn next(&mut self) -> io::Result<Option<$item>> {
                match self.walk.next() {
                    Ok(Some(item)) => Ok(Some($how(item))),
                    Ok(None) => Ok(None),
                    Err(e) => Err($e(e, self.body)),
                }
            }

            #[inline]
            fn size_hint(&self) -> (usize, Option<usize>) {
                self.walk.size_hint()
            }
        }
    )*};
}

lists_of_names! {
    SaslMechanisms, AuthenticationSaslBody, &'a str, same, of_mechanisms;
    Fields, RowDescriptionBody, Field<'a>, Field, of_fields;
}

#[cold]
fn of_mechanisms(e: Error, body: &proved::AuthenticationSaslBody<Bytes>) -> io::Error {
    let mut names = body.raw_mechanisms();
    match e {
        Error::NotDrained => status::data(e),
        e => status::io_of_texts(e, iter::from_fn(|| names.next().ok()?)),
    }
}

/// The error of a column. Where what stands after a name is cut short too, the name isn't found, and `std` isn't asked.
#[cold]
fn of_fields(e: Error, body: &proved::RowDescriptionBody<Bytes>) -> io::Error {
    let mut fields = body.raw_fields();
    status::io_of_texts(e, iter::from_fn(|| Some(fields.next().ok()??.name_bytes())))
}

pub struct ErrorField<'a>(proved::ErrorField<'a>);

impl ErrorField<'_> {
    #[inline]
    pub fn type_(&self) -> u8 {
        self.0.type_()
    }

    #[inline]
    #[deprecated(note = "use value_bytes instead", since = "0.6.7")]
    pub fn value(&self) -> &str {
        std::str::from_utf8(self.value_bytes()).expect("an error's field is UTF-8")
    }

    #[inline]
    pub fn value_bytes(&self) -> &[u8] {
        self.0.value_bytes()
    }
}

pub struct Field<'a>(proved::Field<'a>);

/// What is known of a column.
macro_rules! of_column {
    ($($fn:ident: $t:ty;)*) => {
        impl<'a> Field<'a> {$(
            #[inline]
            pub fn $fn(&self) -> $t {
                self.0.$fn()
            }
        )*}
    };
}

of_column! {
    name: &'a str;
    table_oid: Oid;
    column_id: i16;
    type_oid: Oid;
    type_size: i16;
    type_modifier: i32;
    format: i16;
}
