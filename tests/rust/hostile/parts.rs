//! What the bodies of a server's messages hold, part by part.

use super::sum::{add_walk, Sum, Summed};
use bytes::Bytes;
use erased::kit::Global;
use erased::proved::pgp_base::Error;
use erased::proved::pgp_message::{ColumnFormats, DataRowRanges, ErrorField, Field, Message, RowIndex};
use std::ops::Range;

/// A message whose parts can be added to a sum, wherever it keeps them.
pub(crate) trait Parts {
    fn add_parts(&self, sum: &mut Sum);
}

/// The place of a column's value, or null.
impl Summed for Option<Range<usize>> {
    fn add_to(self, sum: &mut Sum) {
        match self {
            Some(place) => {
                sum.plain(&place.start.to_be_bytes());
                sum.plain(&place.end.to_be_bytes());
            }
            None => sum.plain(&usize::MAX.to_be_bytes()),
        }
    }
}

/// The values that a row's table has, and one place after its last.
fn add_values(index: &RowIndex<'_>, sum: &mut Sum) {
    sum.plain(&index.len().to_be_bytes());
    for i in 0..index.len() {
        if let Some(value) = index.value(i) {
            sum.nullable(value);
        }
    }
    sum.plain(&[u8::from(index.value(index.len()).is_some())]);
}

/// The places of a row's values, its bytes, and the values by its table, or why there is no table.
fn add_row(ranges: DataRowRanges<'_>, buffer: &[u8], index: Result<RowIndex<'_>, Error>, sum: &mut Sum) {
    add_walk(ranges, sum);
    sum.bytes(buffer);
    match index {
        Ok(index) => add_values(&index, sum),
        Err(e) => sum.part_refused(e),
    }
}

impl Summed for Field<'_> {
    fn add_to(self, sum: &mut Sum) {
        sum.bytes(self.name().as_bytes());
        sum.plain(&self.table_oid().to_be_bytes());
        sum.plain(&self.column_id().to_be_bytes());
        sum.plain(&self.type_oid().to_be_bytes());
        sum.plain(&self.type_size().to_be_bytes());
        sum.plain(&self.type_modifier().to_be_bytes());
        sum.plain(&self.format().to_be_bytes());
    }
}

/// A field of an error: its letter, its text, and the bytes of that.
impl Summed for ErrorField<'_> {
    fn add_to(self, sum: &mut Sum) {
        sum.plain(&[self.type_()]);
        sum.text(self.value());
        sum.bytes(self.value_bytes());
    }
}

/// A key: its bytes, and its number, if it is one.
fn add_key(number: Option<i32>, bytes: &[u8], sum: &mut Sum) {
    sum.bytes(bytes);
    if let Some(number) = number {
        sum.plain(&number.to_be_bytes());
    }
}

/// A type.
impl Summed for u32 {
    fn add_to(self, sum: &mut Sum) {
        sum.plain(&self.to_be_bytes());
    }
}

/// A format.
impl Summed for u16 {
    fn add_to(self, sum: &mut Sum) {
        sum.plain(&self.to_be_bytes());
    }
}

fn add_copy(format: u8, columns: ColumnFormats<'_>, sum: &mut Sum) {
    sum.plain(&[format]);
    add_walk(columns, sum);
}

/// The parts of a message of a log-in, or of one of another kind.
macro_rules! login_parts {
    ($message:ident, $sum:ident, $others:ident) => {
        match $message {
            Message::AuthenticationGssContinue(body) => $sum.bytes(body.data()),
            Message::AuthenticationMd5Password(body) => $sum.plain(&body.salt()),
            Message::AuthenticationSasl(body) => add_walk(body.mechanisms(), $sum),
            Message::AuthenticationSaslContinue(body) => $sum.bytes(body.data()),
            Message::AuthenticationSaslFinal(body) => $sum.bytes(body.data()),
            Message::BackendKeyData(body) => {
                $sum.plain(&body.process_id().to_be_bytes());
                add_key(body.secret_key(), body.secret_key_bytes(), $sum);
            }
            Message::NegotiateProtocolVersion(body) => {
                $sum.plain(&body.version().to_be_bytes());
                add_walk(body.options(), $sum);
            }
            other => $others(other, $sum),
        }
    };
}

/// The parts of a message of a query, or of one of another kind.
macro_rules! query_parts {
    ($message:ident, $sum:ident, $others:ident) => {
        match $message {
            Message::CommandComplete(body) => $sum.text(body.tag()),
            Message::DataRow(body) => {
                add_row(body.ranges(), body.buffer(), body.index(Global), $sum);
            }
            Message::ParameterDescription(body) => add_walk(body.parameters(), $sum),
            Message::RowDescription(body) => add_walk(body.fields(), $sum),
            Message::ReadyForQuery(body) => $sum.plain(&[body.status()]),
            other => $others(other, $sum),
        }
    };
}

/// The parts of any other message.
macro_rules! other_parts {
    ($message:ident, $sum:ident) => {
        match $message {
            Message::CopyData(body) => $sum.bytes(body.data()),
            Message::CopyInResponse(body) => add_copy(body.format(), body.column_formats(), $sum),
            Message::CopyOutResponse(body) => add_copy(body.format(), body.column_formats(), $sum),
            Message::ErrorResponse(body) => add_walk(body.fields(), $sum),
            Message::NoticeResponse(body) => add_walk(body.fields(), $sum),
            Message::NotificationResponse(body) => {
                $sum.plain(&body.process_id().to_be_bytes());
                $sum.text(body.channel());
                $sum.text(body.message());
            }
            Message::ParameterStatus(body) => {
                $sum.text(body.name());
                $sum.text(body.value());
            }
            _ => {}
        }
    };
}

fn other_of_shared(message: &Message<Bytes>, sum: &mut Sum) {
    other_parts!(message, sum)
}

fn query_of_shared(message: &Message<Bytes>, sum: &mut Sum) {
    query_parts!(message, sum, other_of_shared)
}

impl Parts for Message<Bytes> {
    fn add_parts(&self, sum: &mut Sum) {
        login_parts!(self, sum, query_of_shared)
    }
}

fn other_in_place(message: &Message<&[u8]>, sum: &mut Sum) {
    other_parts!(message, sum)
}

fn query_in_place(message: &Message<&[u8]>, sum: &mut Sum) {
    query_parts!(message, sum, other_in_place)
}

impl Parts for Message<&[u8]> {
    fn add_parts(&self, sum: &mut Sum) {
        login_parts!(self, sum, query_in_place)
    }
}
