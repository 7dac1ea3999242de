//! Values with a list in them: `hstore`, bits, arrays.

use crate::proved::pgp_types as proved;
use crate::status::{Boxed, boxed, either};
use crate::types::{ArrayDimensions, ArrayValues, HstoreEntries};
use crate::{IsNull, Oid};
use bytes::BytesMut;

pub use proved::{ArrayDimension, Varbit};

/// Writes an `hstore`.
#[inline]
pub fn hstore_to_sql<'a, I>(
    values: I,
    buf: &mut BytesMut,
) -> Result<(), Boxed>
where
    I: IntoIterator<Item = (&'a str, Option<&'a str>)>,
{
    proved::hstore_to_sql(values, buf).map_err(boxed)
}

/// Reads an `hstore`.
#[inline]
pub fn hstore_from_sql(
    buf: &[u8],
) -> Result<HstoreEntries<'_>, Boxed> {
    proved::hstore_from_sql(buf).map(HstoreEntries).map_err(boxed)
}

/// Writes a `varbit` or a `bit` of `len` bits, in as many bytes as they take.
#[inline]
pub fn varbit_to_sql<I>(
    len: usize,
    v: I,
    buf: &mut BytesMut,
) -> Result<(), Boxed>
where
    I: Iterator<Item = u8>,
{
    proved::varbit_to_sql(len, v, buf).map_err(boxed)
}

/// Reads a `varbit` or a `bit`.
#[inline]
pub fn varbit_from_sql(buf: &[u8]) -> Result<Varbit<'_>, Boxed> {
    proved::varbit_from_sql(buf).map_err(boxed)
}

/// Writes an array.
#[inline]
pub fn array_to_sql<T, I, J, F>(
    dimensions: I,
    element_type: Oid,
    elements: J,
    serializer: F,
    buf: &mut BytesMut,
) -> Result<(), Boxed>
where
    I: IntoIterator<Item = ArrayDimension>,
    J: IntoIterator<Item = T>,
    F: FnMut(T, &mut BytesMut) -> Result<IsNull, Boxed>,
{
    proved::array_to_sql(dimensions, element_type, elements, serializer, buf).map_err(either)
}

/// Reads the head and the dimensions of an array.
#[inline]
pub fn array_from_sql(buf: &[u8]) -> Result<Array<'_>, Boxed> {
    proved::array_from_sql(buf).map(Array).map_err(boxed)
}

/// An array.
pub struct Array<'a>(proved::Array<'a>);

impl<'a> Array<'a> {
    /// What its flag says: an element may be a null.
    #[inline]
    pub fn has_nulls(&self) -> bool {
        self.0.has_nulls()
    }

    /// The type of its elements.
    #[inline]
    pub fn element_type(&self) -> Oid {
        self.0.element_type()
    }

    /// Its dimensions.
    #[inline]
    pub fn dimensions(&self) -> ArrayDimensions<'a> {
        ArrayDimensions(self.0.dimensions())
    }

    /// Its elements, the last dimension the fastest.
    #[inline]
    pub fn values(&self) -> ArrayValues<'a> {
        ArrayValues(self.0.values())
    }
}
