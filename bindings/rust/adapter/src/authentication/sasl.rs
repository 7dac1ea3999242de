//! SCRAM-SHA-256, the client's side.

use crate::kit::random::ThreadRng;
use crate::kit::Global;
use crate::proved::pgp_auth::authentication::sasl::{self, ScramError};
use crate::proved::pgp_saslprep::SaslPrepRfc4013;
use crate::status::no_memory;
use std::num::ParseIntError;
use std::{fmt, io, str};

/// The mechanism's name.
pub const SCRAM_SHA_256: &str = "SCRAM-SHA-256";
/// The name of the mechanism with a channel binding.
pub const SCRAM_SHA_256_PLUS: &str = "SCRAM-SHA-256-PLUS";

/// How an exchange is bound to the channel.
pub struct ChannelBinding(sasl::ChannelBinding);

impl ChannelBinding {
    /// The client could bind, and the server didn't offer it.
    pub fn unrequested() -> ChannelBinding {
        ChannelBinding(sasl::ChannelBinding::unrequested())
    }

    /// The client can't bind.
    pub fn unsupported() -> ChannelBinding {
        ChannelBinding(sasl::ChannelBinding::unsupported())
    }

    /// By `tls-server-end-point`, with the hash of the server's certificate.
    pub fn tls_server_end_point(signature: Vec<u8>) -> ChannelBinding {
        ChannelBinding(sasl::ChannelBinding::tls_server_end_point(signature))
    }
}

/// An exchange: `message`, `update` with the server's first text, `message`, `finish` with its final text.
pub struct ScramSha256(sasl::ScramSha256);

impl ScramSha256 {
    /// Begins an exchange, with a new nonce.
    pub fn new(password: &[u8], channel_binding: ChannelBinding) -> ScramSha256 {
        let prep = SaslPrepRfc4013::new(Global);
        match sasl::ScramSha256::new(Global, password, channel_binding.0, &prep, &mut ThreadRng) {
            Ok(exchange) => ScramSha256(exchange),
            Err(_) => no_memory(),
        }
    }

    #[allow(dead_code)]
    pub(crate) fn new_inner(password: &[u8], channel_binding: ChannelBinding, nonce: String) -> ScramSha256 {
        match sasl::ScramSha256::with_nonce(Global, password, channel_binding.0, nonce, &SaslPrepRfc4013::new(Global)) {
            Ok(exchange) => ScramSha256(exchange),
            Err(_) => no_memory(),
        }
    }

    /// What to send: the client's first text, and after `update` its final one.
    ///
    /// # Panics
    ///
    /// Where the exchange is over.
    pub fn message(&self) -> &[u8] {
        self.0.message().expect("this SCRAM exchange is over")
    }

    /// Takes the server's first text.
    pub fn update(&mut self, message: &[u8]) -> io::Result<()> {
        self.0.update(message).map_err(|e| rejected(e, message))
    }

    /// Looks at the server's final text. Only `Ok` says that this server knows the password's verifier.
    pub fn finish(&mut self, message: &[u8]) -> io::Result<()> {
        self.0.finish(message).map_err(|e| rejected(e, message))
    }
}

#[derive(Debug)]
struct Rejected(ScramError);

impl fmt::Display for Rejected {
    fn fmt(&self, f: &mut fmt::Formatter<'_>) -> fmt::Result {
        f.write_str(match &self.0 {
            ScramError::OutOfMemory => "out of memory",
            ScramError::WrongState => "invalid SCRAM state",
            ScramError::NotUtf8 => "the server's SCRAM text isn't UTF-8",
            ScramError::UnexpectedEnd => "the server's SCRAM text ends early",
            ScramError::UnexpectedCharacter(at) => return write!(f, "an unexpected character in the server's SCRAM text at byte {at}"),
            ScramError::Trailing(at) => return write!(f, "bytes after the server's SCRAM text at byte {at}"),
            ScramError::InvalidNumber => "the server's iteration count is none",
            ScramError::InvalidNonce => "the server's nonce doesn't begin with the client's",
            ScramError::TooManyIterations => "the server asks for too many iterations",
            ScramError::InvalidBase64 => "the server's SCRAM text has invalid base64",
            ScramError::Server(e) => return write!(f, "SCRAM error: {e}"),
            ScramError::Verification => "the server doesn't know the password's verifier",
        })
    }
}

impl std::error::Error for Rejected {}

/// The error of a server's text. Of what isn't UTF-8, of a count that is no number and of invalid base64, it is the one of `std` and of the crate
/// `base64`.
#[cold]
fn rejected(e: ScramError, message: &[u8]) -> io::Error {
    let source: Option<Box<dyn std::error::Error + Send + Sync>> = match (&e, str::from_utf8(message)) {
        (ScramError::NotUtf8, Err(e)) => Some(e.into()),
        (ScramError::InvalidNumber, Ok(text)) => not_a_count(text).map(Into::into),
        (ScramError::InvalidBase64, Ok(text)) => not_base64(text).map(Into::into),
        _ => None,
    };
    if let Some(source) = source {
        return io::Error::new(io::ErrorKind::InvalidInput, source);
    }
    let kind = match e {
        ScramError::WrongState | ScramError::Server(_) => io::ErrorKind::Other,
        ScramError::UnexpectedEnd => io::ErrorKind::UnexpectedEof,
        _ => io::ErrorKind::InvalidInput,
    };
    io::Error::new(kind, Rejected(e))
}

/// Why the digits of `r=..,s=..,i=` are no number of 32 bits. Neither part before them has a comma.
fn not_a_count(text: &str) -> Option<ParseIntError> {
    let count = text.splitn(3, ',').nth(2)?.strip_prefix("i=")?;
    let digits = count.split(|c: char| !c.is_ascii_digit()).next()?;
    digits.parse::<u32>().err()
}

/// Why the salt of `r=..,s=..,i=..`, or the signature of `v=..`, is no base64.
#[allow(deprecated)]
fn not_base64(text: &str) -> Option<base64::DecodeError> {
    let digits = match text.strip_prefix("v=") {
        Some(signature) => signature.split(',').next()?,
        None => text.split(',').nth(1)?.strip_prefix("s=")?,
    };
    base64::decode(digits).err()
}

#[cfg(test)]
mod tests {
    use super::*;

    // psql with a server, both PostgreSQL 15.18, taken down between the two.
    const NONCE: &str = "iHTbZcvWDz+mnWeu67UH0VDN";
    const FIRST: &[u8] = b"r=iHTbZcvWDz+mnWeu67UH0VDNRrdPwJzxCyBC/L+SrmSXbbY6,s=0+JtkGh2O8a8HRyJf8bYYg==,i=4096";
    const PROOF: &str = "c=biws,r=iHTbZcvWDz+mnWeu67UH0VDNRrdPwJzxCyBC/L+SrmSXbbY6,p=WdluwLPfyrrl9ysb+JCPd6W9komkvE1punssNd7LsUk=";

    fn client() -> ScramSha256 {
        ScramSha256::new_inner(b"correct horse 9", ChannelBinding::unsupported(), NONCE.to_string())
    }

    #[test]
    fn an_exchange_of_psql() {
        let mut client = client();
        assert_eq!(client.message(), format!("n,,n=,r={NONCE}").as_bytes());
        client.update(FIRST).unwrap();
        assert_eq!(client.message(), PROOF.as_bytes());
        client.finish(b"v=M2mkQOQsvHbf9FTMSV/UZFyZaiPpSkUKvspQ1Za5Mbg=").unwrap();
    }

    #[test]
    fn another_signature_is_an_error() {
        let mut client = client();
        client.update(FIRST).unwrap();
        let e = client.finish(b"v=M2mkQOQsvHbf9FTMSV/UZFyZaiPpSkUKvspQ1Za5Mbk=").unwrap_err();
        assert_eq!(e.kind(), io::ErrorKind::InvalidInput);
    }

    #[test]
    fn the_servers_own_error_is_reported() {
        let mut client = client();
        client.update(FIRST).unwrap();
        let e = client.finish(b"e=invalid-proof").unwrap_err();
        assert_eq!((e.kind(), e.to_string()), (io::ErrorKind::Other, "SCRAM error: invalid-proof".to_string()));
    }

    #[test]
    fn another_nonce_is_an_error() {
        assert!(client().update(b"r=else,s=AAAA,i=4096").is_err());
    }

    #[test]
    fn invalid_base64_is_the_error_of_the_crate_base64() {
        let invalid = |e: io::Error| e.kind() == io::ErrorKind::InvalidInput && e.get_ref().unwrap().is::<base64::DecodeError>();
        assert!(invalid(client().update(format!("r={NONCE}more,s=Zh==,i=4096").as_bytes()).unwrap_err()));
        let mut client = client();
        client.update(FIRST).unwrap();
        assert!(invalid(client.finish(b"v=Zg==Zg==").unwrap_err()));
    }

    #[test]
    fn a_password_is_prepared() {
        let exchange = |password: &str| {
            let mut client = ScramSha256::new_inner(password.as_bytes(), ChannelBinding::unsupported(), NONCE.to_string());
            client.update(FIRST).unwrap();
            client.message().to_vec()
        };
        assert_eq!(exchange("caf\u{e9}"), exchange("cafe\u{301}"));
    }

    #[test]
    fn each_client_has_its_own_nonce() {
        let first = ScramSha256::new(b"p", ChannelBinding::unrequested());
        let second = ScramSha256::new(b"p", ChannelBinding::unrequested());
        assert!(first.message().starts_with(b"y,,n=,r="));
        assert_ne!(first.message(), second.message());
    }
}
