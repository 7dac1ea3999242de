//! The messages of a server.
#![allow(missing_docs)]

mod lists;

pub use lists::{ColumnFormats, DataRowRanges, ErrorField, ErrorFields, Field, Fields, Parameters, SaslMechanisms};

use crate::proved::pgp_base::{Error, FallibleIterator as _};
use crate::proved::pgp_message as proved;
use crate::status;
use bytes::{Bytes, BytesMut};
use std::{fmt, io};

macro_rules! tags {
    ($($name:ident = $tag:literal;)*) => { $(pub const $name: u8 = $tag;)* };
}

tags! {
    AUTHENTICATION_TAG = b'R';
    BACKEND_KEY_DATA_TAG = b'K';
    BIND_COMPLETE_TAG = b'2';
    CLOSE_COMPLETE_TAG = b'3';
    COMMAND_COMPLETE_TAG = b'C';
    COPY_DATA_TAG = b'd';
    COPY_DONE_TAG = b'c';
    COPY_IN_RESPONSE_TAG = b'G';
    COPY_OUT_RESPONSE_TAG = b'H';
    DATA_ROW_TAG = b'D';
    EMPTY_QUERY_RESPONSE_TAG = b'I';
    ERROR_RESPONSE_TAG = b'E';
    NO_DATA_TAG = b'n';
    NOTICE_RESPONSE_TAG = b'N';
    NOTIFICATION_RESPONSE_TAG = b'A';
    PARAMETER_DESCRIPTION_TAG = b't';
    PARAMETER_STATUS_TAG = b'S';
    PARSE_COMPLETE_TAG = b'1';
    PORTAL_SUSPENDED_TAG = b's';
    READY_FOR_QUERY_TAG = b'Z';
    ROW_DESCRIPTION_TAG = b'T';
}

/// The tag and the length that a frame begins with.
#[derive(Debug, Copy, Clone)]
pub struct Header(proved::Header);

#[allow(clippy::len_without_is_empty)]
impl Header {
    #[inline]
    pub fn parse(buf: &[u8]) -> io::Result<Option<Header>> {
        match proved::Header::parse(buf) {
            Ok(header) => Ok(header.map(Header)),
            Err(e) => Err(status::data(e)),
        }
    }

    #[inline]
    pub fn tag(self) -> u8 {
        self.0.tag()
    }

    #[inline]
    pub fn len(self) -> i32 {
        self.0.len()
    }
}

/// A message of a server.
#[non_exhaustive]
pub enum Message {
    AuthenticationCleartextPassword,
    AuthenticationGss,
    AuthenticationKerberosV5,
    AuthenticationMd5Password(AuthenticationMd5PasswordBody),
    AuthenticationOk,
    AuthenticationScmCredential,
    AuthenticationSspi,
    AuthenticationGssContinue(AuthenticationGssContinueBody),
    AuthenticationSasl(AuthenticationSaslBody),
    AuthenticationSaslContinue(AuthenticationSaslContinueBody),
    AuthenticationSaslFinal(AuthenticationSaslFinalBody),
    BackendKeyData(BackendKeyDataBody),
    BindComplete,
    CloseComplete,
    CommandComplete(CommandCompleteBody),
    CopyData(CopyDataBody),
    CopyDone,
    CopyInResponse(CopyInResponseBody),
    CopyOutResponse(CopyOutResponseBody),
    DataRow(DataRowBody),
    EmptyQueryResponse,
    ErrorResponse(ErrorResponseBody),
    NoData,
    NoticeResponse(NoticeResponseBody),
    NotificationResponse(NotificationResponseBody),
    ParameterDescription(ParameterDescriptionBody),
    ParameterStatus(ParameterStatusBody),
    ParseComplete,
    PortalSuspended,
    ReadyForQuery(ReadyForQueryBody),
    RowDescription(RowDescriptionBody),
}

impl Message {
    /// The message at the front, which is taken off; none where it isn't whole. A frame with a malformed body is taken off as well.
    #[inline]
    pub fn parse(buf: &mut BytesMut) -> io::Result<Option<Message>> {
        match buf.first() {
            Some(&DATA_ROW_TAG) => take::<DATA_ROW_TAG>(buf, Some(DATA_ROW_TAG)),
            Some(&COMMAND_COMPLETE_TAG) => take::<COMMAND_COMPLETE_TAG>(buf, Some(COMMAND_COMPLETE_TAG)),
            tag => {
                let tag = tag.copied();
                take::<0>(buf, tag)
            }
        }
    }
}

/// The message at the front. Compiled once for each tag that comes by the thousand, it doesn't go through memory between the two APIs.
#[inline(always)]
fn take<const TAG: u8>(buf: &mut BytesMut, tag: Option<u8>) -> io::Result<Option<Message>> {
    match proved::Message::parse(buf) {
        Ok(Some(message)) => in_this_api(message).map(Some),
        Ok(None) => Ok(None),
        Err(e) => Err(rejected(tag, e)),
    }
}

/// The error of a frame. To this API a negotiation of the version is no message, whatever its body is.
#[cold]
fn rejected(tag: Option<u8>, e: Error) -> io::Error {
    match (tag, e) {
        (_, Error::InvalidLength) => status::io(e),
        (Some(tag @ proved::NEGOTIATE_PROTOCOL_VERSION_TAG), _) => status::io(Error::UnknownTag(tag)),
        _ => status::io(e),
    }
}

/// The message in the words of this API, which has no place for what version 3.2 brought.
#[inline(always)]
fn in_this_api(message: proved::Message<Bytes>) -> io::Result<Message> {
    use proved::Message as P;
    Ok(match message {
        P::AuthenticationCleartextPassword => Message::AuthenticationCleartextPassword,
        P::AuthenticationGss => Message::AuthenticationGss,
        P::AuthenticationKerberosV5 => Message::AuthenticationKerberosV5,
        P::AuthenticationMd5Password(body) => Message::AuthenticationMd5Password(AuthenticationMd5PasswordBody(body)),
        P::AuthenticationOk => Message::AuthenticationOk,
        P::AuthenticationScmCredential => Message::AuthenticationScmCredential,
        P::AuthenticationSspi => Message::AuthenticationSspi,
        P::AuthenticationGssContinue(body) => Message::AuthenticationGssContinue(AuthenticationGssContinueBody(body)),
        P::AuthenticationSasl(body) => Message::AuthenticationSasl(AuthenticationSaslBody(body)),
        P::AuthenticationSaslContinue(body) => Message::AuthenticationSaslContinue(AuthenticationSaslContinueBody(body)),
        P::AuthenticationSaslFinal(body) => Message::AuthenticationSaslFinal(AuthenticationSaslFinalBody(body)),
        P::BackendKeyData(body) => match body.secret_key() {
            Some(secret_key) => Message::BackendKeyData(BackendKeyDataBody { process_id: body.process_id(), secret_key }),
            None => return Err(status::io(Error::NotDrained)),
        },
        P::BindComplete => Message::BindComplete,
        P::CloseComplete => Message::CloseComplete,
        P::CommandComplete(body) => Message::CommandComplete(CommandCompleteBody(body)),
        P::CopyData(body) => Message::CopyData(CopyDataBody(body)),
        P::CopyDone => Message::CopyDone,
        P::CopyInResponse(body) => Message::CopyInResponse(CopyInResponseBody(body)),
        P::CopyOutResponse(body) => Message::CopyOutResponse(CopyOutResponseBody(body)),
        P::DataRow(body) => Message::DataRow(DataRowBody(body)),
        P::EmptyQueryResponse => Message::EmptyQueryResponse,
        P::ErrorResponse(body) => Message::ErrorResponse(ErrorResponseBody(body)),
        P::NoData => Message::NoData,
        P::NoticeResponse(body) => Message::NoticeResponse(NoticeResponseBody(body)),
        P::NotificationResponse(body) => Message::NotificationResponse(NotificationResponseBody(body)),
        P::ParameterDescription(body) => Message::ParameterDescription(ParameterDescriptionBody(body)),
        P::ParameterStatus(body) => Message::ParameterStatus(ParameterStatusBody(body)),
        P::ParseComplete => Message::ParseComplete,
        P::PortalSuspended => Message::PortalSuspended,
        P::ReadyForQuery(body) => Message::ReadyForQuery(ReadyForQueryBody(body)),
        P::RowDescription(body) => Message::RowDescription(RowDescriptionBody(body)),
        P::NegotiateProtocolVersion(_) => return Err(status::io(Error::UnknownTag(proved::NEGOTIATE_PROTOCOL_VERSION_TAG))),
    })
}

/// Bodies, as the proved ones; what each method calls.
macro_rules! bodies {
    ($($name:ident $(<$s:ty>)? { $($(#[$a:meta])* $fn:ident: $t:ty, $how:ident;)* })*) => {$(
        pub struct $name(proved::$name$(<$s>)?);

        impl $name {$(
            #[inline]
            $(#[$a])*
            pub fn $fn(&self) -> $t {
                bodies!($how, self.0.$fn())
            }
        )*}
    )*};
    (plain, $e:expr) => { $e };
    (ColumnFormats, $e:expr) => { ColumnFormats($e) };
    (ErrorFields, $e:expr) => { ErrorFields($e) };
    (Parameters, $e:expr) => { Parameters($e) };
    (DataRowRanges, $e:expr) => { DataRowRanges($e) };
}

bodies! {
    AuthenticationMd5PasswordBody { salt: [u8; 4], plain; }
    AuthenticationGssContinueBody<Bytes> { data: &[u8], plain; }
    AuthenticationSaslBody<Bytes> {}
    AuthenticationSaslContinueBody<Bytes> { data: &[u8], plain; }
    AuthenticationSaslFinalBody<Bytes> { data: &[u8], plain; }
    CommandCompleteBody<Bytes> {}
    CopyDataBody<Bytes> { data: &[u8], plain; }
    CopyInResponseBody<Bytes> { format: u8, plain; column_formats: ColumnFormats<'_>, ColumnFormats; }
    CopyOutResponseBody<Bytes> { format: u8, plain; column_formats: ColumnFormats<'_>, ColumnFormats; }
    DataRowBody<Bytes> { ranges: DataRowRanges<'_>, DataRowRanges; buffer: &[u8], plain; buffer_bytes: &Bytes, plain; }
    ErrorResponseBody<Bytes> { fields: ErrorFields<'_>, ErrorFields; }
    NoticeResponseBody<Bytes> { fields: ErrorFields<'_>, ErrorFields; }
    NotificationResponseBody<Bytes> { process_id: i32, plain; }
    ParameterDescriptionBody<Bytes> { parameters: Parameters<'_>, Parameters; }
    ParameterStatusBody<Bytes> {}
    ReadyForQueryBody { status: u8, plain; }
    RowDescriptionBody<Bytes> {}
}

/// Texts of bodies; what has their bytes.
macro_rules! texts {
    ($($name:ident { $($fn:ident, $bytes:ident;)* })*) => {$(
        impl $name {$(
            #[inline]
            pub fn $fn(&self) -> io::Result<&str> {
                self.0.$fn().map_err(|e| status::io_of_texts(e, [self.0.$bytes()]))
            }
        )*}
    )*};
}

texts! {
    CommandCompleteBody { tag, tag_bytes; }
    NotificationResponseBody { channel, channel_bytes; message, message_bytes; }
    ParameterStatusBody { name, name_bytes; value, value_bytes; }
}

impl AuthenticationSaslBody {
    #[inline]
    pub fn mechanisms(&self) -> SaslMechanisms<'_> {
        SaslMechanisms { walk: self.0.mechanisms(), body: &self.0 }
    }
}

impl RowDescriptionBody {
    #[inline]
    pub fn fields(&self) -> Fields<'_> {
        Fields { walk: self.0.fields(), body: &self.0 }
    }
}

impl CopyDataBody {
    #[inline]
    pub fn into_bytes(self) -> Bytes {
        self.0.into_bytes()
    }
}

impl Clone for DataRowBody {
    fn clone(&self) -> DataRowBody {
        DataRowBody(status::ample(self.0.clone()))
    }
}

impl fmt::Debug for DataRowBody {
    fn fmt(&self, f: &mut fmt::Formatter<'_>) -> fmt::Result {
        let len = self.0.ranges().size_hint().0;
        f.debug_struct("DataRowBody").field("storage", self.0.buffer_bytes()).field("len", &len).finish()
    }
}

pub struct BackendKeyDataBody {
    process_id: i32,
    secret_key: i32,
}

impl BackendKeyDataBody {
    #[inline]
    pub fn process_id(&self) -> i32 {
        self.process_id
    }

    #[inline]
    pub fn secret_key(&self) -> i32 {
        self.secret_key
    }
}
