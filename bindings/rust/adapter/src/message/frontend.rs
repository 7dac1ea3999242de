//! A client's messages. On error the buffer is unchanged.
#![allow(missing_docs)]

use crate::proved::pgp_base;
use crate::proved::pgp_frontend as proved;
use crate::status::{self, ample};
use crate::{IsNull, Oid};
use bytes::{Buf, BytesMut};
use std::error::Error;
use std::{io, marker};

/// The error of `bind`: the serializer's, or the message's.
pub enum BindError {
    Conversion(Box<dyn Error + marker::Sync + Send>),
    Serialization(io::Error),
}

impl From<Box<dyn Error + marker::Sync + Send>> for BindError {
    #[inline]
    fn from(e: Box<dyn Error + marker::Sync + Send>) -> BindError {
        BindError::Conversion(e)
    }
}

impl From<io::Error> for BindError {
    #[inline]
    fn from(e: io::Error) -> BindError {
        BindError::Serialization(e)
    }
}

#[inline]
pub fn bind<I, J, F, T, K>(
    portal: &str,
    statement: &str,
    formats: I,
    values: J,
    serializer: F,
    result_formats: K,
    buf: &mut BytesMut,
) -> Result<(), BindError>
where
    I: IntoIterator<Item = i16>,
    J: IntoIterator<Item = T>,
    F: FnMut(T, &mut BytesMut) -> Result<IsNull, Box<dyn Error + marker::Sync + Send>>,
    K: IntoIterator<Item = i16>,
{
    match proved::bind(portal, statement, formats, values, serializer, result_formats, buf) {
        Ok(()) => Ok(()),
        Err(pgp_base::BindError::Conversion(e)) => Err(BindError::Conversion(e)),
        Err(pgp_base::BindError::Serialization(e)) => Err(BindError::Serialization(status::io(e))),
    }
}

#[inline]
pub fn cancel_request(process_id: i32, secret_key: i32, buf: &mut BytesMut) {
    ample(proved::cancel_request(process_id, secret_key, buf))
}

#[inline]
pub fn close(variant: u8, name: &str, buf: &mut BytesMut) -> io::Result<()> {
    proved::close(variant, name, buf).map_err(status::io)
}

/// Data of a copy, for one message.
pub struct CopyData<T>(proved::CopyData<T>);

impl<T> CopyData<T>
where
    T: Buf,
{
    pub fn new(buf: T) -> io::Result<CopyData<T>> {
        match proved::CopyData::new(buf) {
            Ok(data) => Ok(CopyData(data)),
            Err(e) => Err(status::io(e)),
        }
    }

    pub fn write(self, out: &mut BytesMut) {
        if self.0.write(out).is_err() {
            status::no_memory()
        }
    }
}

#[inline]
pub fn copy_done(buf: &mut BytesMut) {
    ample(proved::copy_done(buf))
}

#[inline]
pub fn copy_fail(message: &str, buf: &mut BytesMut) -> io::Result<()> {
    proved::copy_fail(message, buf).map_err(status::io)
}

#[inline]
pub fn describe(variant: u8, name: &str, buf: &mut BytesMut) -> io::Result<()> {
    proved::describe(variant, name, buf).map_err(status::io)
}

#[inline]
pub fn execute(portal: &str, max_rows: i32, buf: &mut BytesMut) -> io::Result<()> {
    proved::execute(portal, max_rows, buf).map_err(status::io)
}

#[inline]
pub fn flush(buf: &mut BytesMut) {
    ample(proved::flush(buf))
}

#[inline]
pub fn parse<I>(name: &str, query: &str, param_types: I, buf: &mut BytesMut) -> io::Result<()>
where
    I: IntoIterator<Item = Oid>,
{
    proved::parse(name, query, param_types, buf).map_err(status::io)
}

#[inline]
pub fn password_message(password: &[u8], buf: &mut BytesMut) -> io::Result<()> {
    proved::password_message(password, buf).map_err(status::io)
}

#[inline]
pub fn query(query: &str, buf: &mut BytesMut) -> io::Result<()> {
    proved::query(query, buf).map_err(status::io)
}

#[inline]
pub fn sasl_initial_response(mechanism: &str, data: &[u8], buf: &mut BytesMut) -> io::Result<()> {
    proved::sasl_initial_response(mechanism, data, buf).map_err(status::io)
}

#[inline]
pub fn sasl_response(data: &[u8], buf: &mut BytesMut) -> io::Result<()> {
    proved::sasl_response(data, buf).map_err(status::io)
}

#[inline]
pub fn ssl_request(buf: &mut BytesMut) {
    ample(proved::ssl_request(buf))
}

#[inline]
pub fn startup_message<'a, I>(parameters: I, buf: &mut BytesMut) -> io::Result<()>
where
    I: IntoIterator<Item = (&'a str, &'a str)>,
{
    proved::startup_message(parameters, buf).map_err(status::io)
}

#[inline]
pub fn sync(buf: &mut BytesMut) {
    ample(proved::sync(buf))
}

#[inline]
pub fn terminate(buf: &mut BytesMut) {
    ample(proved::terminate(buf))
}
