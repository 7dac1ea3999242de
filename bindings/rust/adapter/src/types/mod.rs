//! Values in the binary format.

use crate::proved::pgp_base::FallibleIterator as _;
use crate::proved::pgp_types as proved;
use crate::status::{Boxed, boxed};
use fallible_iterator::FallibleIterator;

mod geometry;
mod list;
mod scalar;

pub use geometry::*;
pub use list::*;
pub use scalar::*;

macro_rules! iterators {
    ($($(#[$a:meta])* $name:ident, $item:ty, $how:expr;)*) => {$(
        $(#[$a])*
        pub struct $name<'a>(proved::$name<'a>);

        impl<'a> FallibleIterator for $name<'a> {
            type Item = $item;
            type Error = Boxed;

            #[inline]
            fn next(&mut self) -> Result<Option<$item>, Boxed> {
                match self.0.next() {
                    Ok(Some(item)) => Ok(Some($how(item))),
                    Ok(None) => Ok(None),
                    Err(e) => Err(boxed(e)),
                }
            }

            #[inline]
            fn size_hint(&self) -> (usize, Option<usize>) {
                self.0.size_hint()
            }
        }
    )*};
}

iterators! {
    /// The entries of an `hstore`.
    HstoreEntries, (&'a str, Option<&'a str>), same;
    /// The dimensions of an array.
    ArrayDimensions, ArrayDimension, same;
    /// The elements of an array.
    ArrayValues, Option<&'a [u8]>, same;
    /// The points of a path.
    PathPoints, Point, Point;
}

#[inline(always)]
fn same<T>(item: T) -> T {
    item
}
