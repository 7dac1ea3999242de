//! The messages of both sides, read and written.

/// A client's messages, read.
pub mod client {
    pub use crate::proved::pgp_frontend_read::*;
}

/// A server's messages, read in place, with those of protocol 3.2.
pub mod in_place {
    pub use crate::proved::pgp_message::{
        AuthenticationGssContinueBody, AuthenticationMd5PasswordBody, AuthenticationSaslBody, AuthenticationSaslContinueBody,
        AuthenticationSaslFinalBody, BackendKeyDataBody, ColumnFormats, CommandCompleteBody, CopyDataBody, CopyInResponseBody,
        CopyOutResponseBody, DataRowBody, DataRowRanges, ErrorField, ErrorFields, ErrorResponseBody, Field, Fields, Header, Message, Messages,
        NegotiateProtocolVersionBody, NoticeResponseBody, NotificationResponseBody, ParameterDescriptionBody, ParameterStatusBody, Parameters,
        ProtocolOptions, RawField, RawFields, RawMechanisms, RawOptions, ReadyForQueryBody, RowColumns, RowDescriptionBody, RowIndex, RowPlaces,
        SaslMechanisms, Storage,
    };
}

/// A server's messages, written.
pub mod reply {
    pub use crate::proved::pgp_message_write::*;
}
