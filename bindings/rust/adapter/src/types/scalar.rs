//! Numbers, texts and bytes.

use crate::proved::pgp_types as proved;
use crate::status::{Boxed, ample, boxed, boxed_of_texts};
use crate::{Lsn, Oid};
use bytes::BytesMut;
use std::str;

macro_rules! values {
    ($($what:literal, $to:ident, $from:ident, $t:ty;)*) => {$(
        #[doc = concat!("Writes ", $what, ".")]
        #[inline]
        pub fn $to(v: $t, buf: &mut BytesMut) {
            ample(proved::$to(v, buf))
        }

        #[doc = concat!("Reads ", $what, ".")]
        #[inline]
        pub fn $from(buf: &[u8]) -> Result<$t, Boxed> {
            proved::$from(buf).map_err(boxed)
        }
    )*};
}

values! {
    "a `bool`", bool_to_sql, bool_from_sql, bool;
    "a `\"char\"`", char_to_sql, char_from_sql, i8;
    "an `int2`", int2_to_sql, int2_from_sql, i16;
    "an `int4`", int4_to_sql, int4_from_sql, i32;
    "an `oid`", oid_to_sql, oid_from_sql, Oid;
    "an `int8`", int8_to_sql, int8_from_sql, i64;
    "a `pg_lsn`", lsn_to_sql, lsn_from_sql, Lsn;
    "a `timestamp` or a `timestamptz`, in microseconds since 2000-01-01", timestamp_to_sql, timestamp_from_sql, i64;
    "a `date`, in days since 2000-01-01", date_to_sql, date_from_sql, i32;
    "a `time`, in microseconds since midnight", time_to_sql, time_from_sql, i64;
    "a `macaddr`", macaddr_to_sql, macaddr_from_sql, [u8; 6];
    "a `uuid`", uuid_to_sql, uuid_from_sql, [u8; 16];
}

macro_rules! texts {
    ($($what:literal, $to:ident, $from:ident;)*) => {$(
        #[doc = concat!("Writes ", $what, ".")]
        #[inline]
        pub fn $to(v: &str, buf: &mut BytesMut) {
            ample(proved::$to(v, buf))
        }

        #[doc = concat!("Reads ", $what, ".")]
        #[inline]
        pub fn $from(buf: &[u8]) -> Result<&str, Boxed> {
            // The text stands after the version.
            proved::$from(buf).map_err(|e| boxed_of_texts(e, buf.get(1..)))
        }
    )*};
}

/// Writes a text.
#[inline]
pub fn text_to_sql(v: &str, buf: &mut BytesMut) {
    ample(proved::text_to_sql(v, buf))
}

/// Reads a text.
#[inline]
pub fn text_from_sql(buf: &[u8]) -> Result<&str, Boxed> {
    // `str::from_utf8` stands for the proved call in the generated text too. With its own error handed on by `?`, both words of a result are
    // read one by one, as they were stored: read as one, they would wait for the stores.
    Ok(str::from_utf8(buf)?)
}

texts! {
    "an `ltree`", ltree_to_sql, ltree_from_sql;
    "an `lquery`", lquery_to_sql, lquery_from_sql;
    "an `ltxtquery`", ltxtquery_to_sql, ltxtquery_from_sql;
}

macro_rules! floats {
    ($($what:literal, $to:ident, $from:ident, $t:ident;)*) => {$(
        #[doc = concat!("Writes ", $what, ".")]
        #[inline]
        pub fn $to(v: $t, buf: &mut BytesMut) {
            ample(proved::$to(v.to_bits(), buf))
        }

        #[doc = concat!("Reads ", $what, ".")]
        #[inline]
        pub fn $from(buf: &[u8]) -> Result<$t, Boxed> {
            proved::$from(buf).map($t::from_bits).map_err(boxed)
        }
    )*};
}

floats! {
    "a `float4`", float4_to_sql, float4_from_sql, f32;
    "a `float8`", float8_to_sql, float8_from_sql, f64;
}

/// Writes a `bytea`: the bytes as they are.
#[inline]
pub fn bytea_to_sql(v: &[u8], buf: &mut BytesMut) {
    ample(proved::bytea_to_sql(v, buf))
}

/// Reads a `bytea`: the bytes as they are.
#[inline]
pub fn bytea_from_sql(buf: &[u8]) -> &[u8] {
    proved::bytea_from_sql(buf)
}
