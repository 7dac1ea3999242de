//! A log-in by SCRAM-SHA-256, on bytes of the message formats of the PostgreSQL manual.

use bytes::BytesMut;
use erased::kit::calls::Fail;
use erased::kit::AsSlice as _;
use erased::kit::Global;
use erased::proved::pgp_saslprep::SaslPrepRfc4013;
use erased::proved::postgres_protocol::authentication::sasl::{is_nonce, ChannelBinding, NoPrep, ScramSha256};
use erased::proved::postgres_protocol::Error;
use tests::proved::test_alloc::counting::Counting;
use tests::proved::pgp_uses::login::begin_prepared;

pub(crate) const CHALLENGE: &[u8; 85] =
    b"R\x00\x00\x00\x54\x00\x00\x00\x0br=9IZ2O01zb9IgiIZ1WJ/zgpJBjx/oIRLs02gGSHcw1KEty3eY,s=fs3IXBy7U7+IvVjZ,i=4096";

pub(crate) const OUTCOME: &[u8; 55] =
    b"R\x00\x00\x00\x36\x00\x00\x00\x0cv=U+ppxD5XUKtradnv8e2MkeupiA8FU87Sg8CXzXHDAzw=";

pub(crate) const WELCOME: &[u8; 9] = b"R\x00\x00\x00\x08\x00\x00\x00\x00";

/// The exchange of these messages, with the password `foobar`.
pub(crate) fn exchange() -> Result<ScramSha256, Fail> {
    let nonce = "9IZ2O01zb9IgiIZ1WJ/zgpJB".to_string();
    if !is_nonce(&nonce) {
        return Err(Error::NotUtf8.into());
    }
    let binding = ChannelBinding::unsupported();
    Ok(ScramSha256::with_nonce(Global, b"foobar", binding, nonce, &NoPrep)?)
}

/// The mapping has a letter to normalize, and the first text doesn't depend on the password.
#[test]
fn a_login_with_a_prepared_password_begins() -> Result<(), Fail> {
    let mut out = BytesMut::new();
    let prep = SaslPrepRfc4013::new(Global);
    let client = begin_prepared(Global, b"caf\xc3\xa9", &prep, &mut Counting(0), &mut out)?;
    assert_eq!(out.len(), 55);
    assert_eq!(client.message(), out.as_slice().get(23..));
    Ok(())
}
