//! What the errors of the generated modules say in words, and what they come from.

use crate::message::client::{ClientError, ParserError};
use crate::proved::pgp_base::BindError;
use crate::proved::pgp_client::{Full, Refusal};
use crate::proved::pgp_session::proxy::ProxyError;
use crate::proved::pgp_session::{BindSendError, ConnectionError};
use std::error::Error;
use std::fmt::{self, Debug, Display, Formatter};

const NO_MEMORY: &str = "out of memory";
const OUT_OF_PHASE: &str = "the call has no place in this phase of the connection";
const UNWRITTEN: &str = "the message can't be written";

impl Display for ConnectionError {
    fn fmt(&self, f: &mut Formatter<'_>) -> fmt::Result {
        f.write_str(match self {
            ConnectionError::OutOfPhase => OUT_OF_PHASE,
            ConnectionError::Unwritten(_) => UNWRITTEN,
            ConnectionError::OutOfMemory => NO_MEMORY,
            ConnectionError::TooLong => "the server announces a message past the limit",
            ConnectionError::Unkept(_) => "the server's setting can't be kept",
            ConnectionError::Malformed(_) => "the server's message is malformed",
            ConnectionError::Misplaced(_) => "the server's message can't be attributed",
            ConnectionError::Undue => "the server's message isn't due in the log-in",
            ConnectionError::BadStatus => "the server reports a status that doesn't exist",
            ConnectionError::NotAdmitted => "the server asks for a way of logging in that isn't admitted",
            ConnectionError::NotOffered => "the server doesn't offer the exchange's mechanism",
            ConnectionError::TooFewRounds => "the server asks for too few rounds",
            ConnectionError::Scram(_) => "the SCRAM exchange failed",
            ConnectionError::BadAnswer => "the answer to the request for encryption isn't one byte, S or N",
        })
    }
}

impl Error for ConnectionError {
    fn source(&self) -> Option<&(dyn Error + 'static)> {
        match self {
            ConnectionError::Unwritten(e) | ConnectionError::Unkept(e) | ConnectionError::Malformed(e) => Some(e),
            ConnectionError::Misplaced(e) => Some(e),
            ConnectionError::Scram(e) => Some(e),
            _ => None,
        }
    }
}

impl<E: Display> Display for BindSendError<E> {
    fn fmt(&self, f: &mut Formatter<'_>) -> fmt::Result {
        match self {
            BindSendError::OutOfPhase => f.write_str(OUT_OF_PHASE),
            BindSendError::Unwritten(BindError::Conversion(e)) => write!(f, "{UNWRITTEN}: {e}"),
            BindSendError::Unwritten(BindError::Serialization(e)) => write!(f, "{UNWRITTEN}: {e}"),
            BindSendError::OutOfMemory => f.write_str(NO_MEMORY),
        }
    }
}

impl<E: Debug + Display> Error for BindSendError<E> {}

impl Display for Refusal {
    fn fmt(&self, f: &mut Formatter<'_>) -> fmt::Result {
        f.write_str(match self {
            Refusal::Unexpected => "no request awaits it",
            Refusal::Uncertain => "whether it answers a Sync among a failed copy's data can't be told",
        })
    }
}

impl Error for Refusal {}

impl Display for ClientError {
    fn fmt(&self, f: &mut Formatter<'_>) -> fmt::Result {
        match self {
            ClientError::UnknownPacket(code) => write!(f, "no opening packet has the code {code}"),
            ClientError::Reading(_) => f.write_str("the client's message is malformed"),
        }
    }
}

impl Error for ClientError {
    fn source(&self) -> Option<&(dyn Error + 'static)> {
        match self {
            ClientError::Reading(e) => Some(e),
            ClientError::UnknownPacket(_) => None,
        }
    }
}

impl Display for ParserError {
    fn fmt(&self, f: &mut Formatter<'_>) -> fmt::Result {
        match self {
            ParserError::Refused(_) => f.write_str("the client's bytes are no message"),
            ParserError::TooLong(length) => write!(f, "the client announces a message of {length} bytes, past the limit"),
            ParserError::OutOfMemory => f.write_str(NO_MEMORY),
        }
    }
}

impl Error for ParserError {
    fn source(&self) -> Option<&(dyn Error + 'static)> {
        match self {
            ParserError::Refused(e) => Some(e),
            _ => None,
        }
    }
}

impl Display for ProxyError {
    fn fmt(&self, f: &mut Formatter<'_>) -> fmt::Result {
        f.write_str(match self {
            ProxyError::NoMessage(_) => "the client's bytes are no message",
            ProxyError::OutOfMemory => NO_MEMORY,
        })
    }
}

impl Error for ProxyError {
    fn source(&self) -> Option<&(dyn Error + 'static)> {
        match self {
            ProxyError::NoMessage(e) => Some(e),
            ProxyError::OutOfMemory => None,
        }
    }
}

impl Display for Full {
    fn fmt(&self, f: &mut Formatter<'_>) -> fmt::Result {
        f.write_str("no room for another request")
    }
}

impl Error for Full {}
