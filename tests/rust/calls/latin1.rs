//! What a server sends in a session whose encoding is LATIN1: each part is read by its bytes, and the message is written again from
//! them. The bytes are after the message formats of the PostgreSQL manual; é is E9 in LATIN1, which is no UTF-8.

use bytes::{Bytes, BytesMut};
use erased::kit::AsSlice as _;
use erased::kit::Global;
use erased::proved::pgp_base::{Error, FallibleIterator};
use erased::proved::pgp_message::{Message, Messages, RawFields};
use erased::proved::pgp_message_write::{
    authentication_sasl, command_complete, negotiate_protocol_version, notification_response, parameter_status,
    row_description, Column,
};

/// An offer of a mechanism, an option that isn't known, a parameter, a column, a tag, and a notification.
const SENT: [&[u8]; 6] = [
    b"R\0\0\0\x0e\0\0\0\x0aCAF\xc9\0\0",
    b"v\0\0\0\x13\0\x03\0\0\0\0\0\x01_pq_.\xe9\0",
    b"S\0\0\0\x0dnom\xe9\0\xe9t\xe9\0",
    b"T\0\0\0\x1f\0\x01pr\xe9nom\0\0\0\0\x07\0\x01\0\0\0\x19\xff\xff\xff\xff\xff\xff\0\0",
    b"C\0\0\0\x09CR\xc9E\0",
    b"A\0\0\0\x12\0\0\0\x07caf\xe9\0d\xe9j\xe0\0",
];

/// The description of these columns.
fn describe(fields: RawFields<'_>, out: &mut BytesMut) -> Result<(), Error> {
    let fields = fields.collect(Global)?;
    let mut columns = Vec::new();
    for field in &fields {
        let column = Column {
            name: field.name_bytes(),
            table_oid: field.table_oid(),
            column_id: field.column_id(),
            type_oid: field.type_oid(),
            type_size: field.type_size(),
            type_modifier: field.type_modifier(),
            format: field.format(),
        };
        columns.push(column);
    }
    row_description(&columns, out)
}

/// Writes the message from its parts, whatever it keeps its bytes in.
macro_rules! again {
    ($message:expr, $out:expr) => {
        match $message {
            Message::AuthenticationSasl(body) => {
                let names = body.raw_mechanisms().collect(Global)?;
                authentication_sasl(&names, $out)
            }
            Message::NegotiateProtocolVersion(body) => {
                let names = body.raw_options().collect(Global)?;
                negotiate_protocol_version(body.version(), &names, $out)
            }
            Message::ParameterStatus(body) => parameter_status(body.name_bytes(), body.value_bytes(), $out),
            Message::RowDescription(body) => describe(body.raw_fields(), $out),
            Message::CommandComplete(body) => command_complete(body.tag_bytes(), $out),
            Message::NotificationResponse(body) => {
                notification_response(body.process_id(), body.channel_bytes(), body.message_bytes(), $out)
            }
            _ => Err(Error::NotDrained),
        }
    };
}

fn write_again(message: &Message<&[u8]>, out: &mut BytesMut) -> Result<(), Error> {
    again!(message, out)
}

fn write_shared_again(message: &Message<Bytes>, out: &mut BytesMut) -> Result<(), Error> {
    again!(message, out)
}

/// The message that these bytes are, read in place and written again.
fn copy_in_place(sent: &[u8], out: &mut BytesMut) -> Result<(), Error> {
    match Messages::new(sent).next()? {
        Some(message) => write_again(&message, out),
        None => Err(Error::UnexpectedEof),
    }
}

/// The message that these bytes are, taken off a buffer and written again.
fn copy_shared(sent: &[u8], out: &mut BytesMut) -> Result<(), Error> {
    let mut received = BytesMut::new();
    received.extend_from_slice(sent);
    match Message::parse(&mut received)? {
        Some(message) => write_shared_again(&message, out),
        None => Err(Error::UnexpectedEof),
    }
}

#[test]
fn messages_that_are_no_utf8_are_written_again() {
    for sent in SENT {
        let mut out = BytesMut::new();
        assert_eq!(copy_in_place(sent, &mut out), Ok(()));
        assert_eq!(out.as_slice(), sent);
        let mut out = BytesMut::new();
        assert_eq!(copy_shared(sent, &mut out), Ok(()));
        assert_eq!(out.as_slice(), sent);
    }
}

/// Whether the iterators over texts stop at such a name, where those over bytes go on.
fn stops_at_names(message: &Message<&[u8]>) -> bool {
    match message {
        Message::AuthenticationSasl(body) => body.mechanisms().next().is_err() && body.raw_mechanisms().next().is_ok(),
        Message::NegotiateProtocolVersion(body) => body.options().next().is_err() && body.raw_options().next().is_ok(),
        Message::RowDescription(body) => match body.raw_fields().next() {
            Ok(Some(field)) => field.name().is_err() && body.fields().next().is_err(),
            _ => false,
        },
        Message::ParameterStatus(body) => body.name().is_err() && body.value().is_err(),
        Message::CommandComplete(body) => body.tag().is_err(),
        Message::NotificationResponse(body) => body.channel().is_err() && body.message().is_err(),
        _ => false,
    }
}

#[test]
fn their_texts_are_refused() {
    for sent in SENT {
        match Messages::new(sent).next() {
            Ok(Some(message)) => assert!(stops_at_names(&message)),
            _ => panic!("what was wanted didn't come"),
        }
    }
}
