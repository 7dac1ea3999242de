//! The proved errors as the errors of this API.

use crate::proved::pgp_base::{self, BindError};
use std::error::Error;
use std::str::{self, Utf8Error};
use std::{fmt, io};

pub(crate) type Boxed = Box<dyn Error + Sync + Send>;

/// An error, in words.
#[derive(Debug, Clone, Copy)]
struct Rejected(pgp_base::Error);

impl fmt::Display for Rejected {
    fn fmt(&self, f: &mut fmt::Formatter<'_>) -> fmt::Result {
        use pgp_base::Error::*;
        f.write_str(match self.0 {
            OutOfMemory => "out of memory",
            EmbeddedNull => "a text has a 0 byte",
            TooLarge => "a count or a length is too large for its field",
            InvalidLength => "a message announces a length below 4",
            UnknownTag(tag) => return write!(f, "no message of a server has the tag {tag}"),
            UnknownAuthentication(code) => return write!(f, "no authentication request has the code {code}"),
            UnexpectedEof => "a part is cut short",
            NotDrained => "bytes stand after the end",
            NotUtf8 => "a text isn't UTF-8",
            InvalidSize => "a value has the wrong number of bytes",
            InvalidCount => "a count is negative",
            InvalidKeyLength => "a key's length is none",
            InvalidValueLength => "a value's length is none",
            InvalidDimension => "a dimension is negative",
            TooManyElements => "an array has too many elements",
            InvalidBitLength => "a number of bits is negative",
            InvalidNetmask => "a netmask has more bits than its address",
            InvalidAddressLength => "an address doesn't have the bytes of its family",
            InvalidFamily => "an address family is unknown",
            InvalidVersion => "a version is unknown",
        })
    }
}

impl Error for Rejected {}

/// The error of a message or a list.
#[cold]
pub(crate) fn io(e: pgp_base::Error) -> io::Error {
    let kind = match e {
        pgp_base::Error::UnexpectedEof => io::ErrorKind::UnexpectedEof,
        _ => io::ErrorKind::InvalidInput,
    };
    io::Error::new(kind, Rejected(e))
}

/// The same of what isn't the input's fault alone.
#[cold]
pub(crate) fn data(e: pgp_base::Error) -> io::Error {
    io::Error::new(io::ErrorKind::InvalidData, Rejected(e))
}

/// The error of a value.
#[cold]
pub(crate) fn boxed(e: pgp_base::Error) -> Boxed {
    Box::new(Rejected(e))
}

/// The error of a value with parts that closures made.
#[cold]
pub(crate) fn either(e: BindError<Boxed>) -> Boxed {
    match e {
        BindError::Conversion(e) => e,
        BindError::Serialization(e) => boxed(e),
    }
}

/// The first of these texts that isn't UTF-8, as `std` says it.
fn not_utf8<'a>(texts: impl IntoIterator<Item = &'a [u8]>) -> Option<Utf8Error> {
    texts.into_iter().find_map(|text| str::from_utf8(text).err())
}

/// The error of a message with these texts. Where one of them isn't UTF-8, it is the one of `std`.
#[cold]
pub(crate) fn io_of_texts<'a>(e: pgp_base::Error, texts: impl IntoIterator<Item = &'a [u8]>) -> io::Error {
    match (e, not_utf8(texts)) {
        (pgp_base::Error::NotUtf8, Some(e)) => io::Error::new(io::ErrorKind::InvalidInput, e),
        _ => io(e),
    }
}

/// The error of a value with these texts, likewise.
#[cold]
pub(crate) fn boxed_of_texts<'a>(e: pgp_base::Error, texts: impl IntoIterator<Item = &'a [u8]>) -> Boxed {
    match (e, not_utf8(texts)) {
        (pgp_base::Error::NotUtf8, Some(e)) => Box::new(e),
        _ => boxed(e),
    }
}

/// What fails only if an allocation does, for which this API has no error.
#[inline]
pub(crate) fn ample<T>(made: Result<T, pgp_base::Error>) -> T {
    match made {
        Ok(value) => value,
        Err(_) => no_memory(),
    }
}

#[cold]
pub(crate) fn no_memory() -> ! {
    panic!("out of memory")
}
