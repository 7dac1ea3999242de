//! The two ends of a log-in by SCRAM-SHA-256, with the salt and the nonces of RFC 7677's example.

use erased::kit::Global;
use erased::proved::pgp_auth::authentication::sasl::{
    ChannelBinding, ChannelOffer, NoPrep, ScramServer, ScramSha256, StoredVerifier,
};
use erased::proved::pgp_session::{Connection, Ways};

// The salt of RFC 7677's example and its password `pencil`, with one round; the keys are python3's.
const STORED: &[u8] =
    b"SCRAM-SHA-256$1:W22ZaJ0SNY7soEsUEjb6gQ==$bzcn5wYzlcMpEXczzDM1iuyLhni5BVbqsm82vjMHWXI=:fg/vS0Y425LcbLGWSqdzrFlRn9451QblzgpwLQYoXCI=";

/// The client's nonce of that example.
const NONCE: &str = "rOprNGfwEbeRWgbNEkqO";

/// The client's end of the exchange.
fn exchange(password: &[u8]) -> Option<ScramSha256> {
    let binding = ChannelBinding::unsupported();
    ScramSha256::with_nonce(Global, password, binding, NONCE.to_string(), &NoPrep).ok()
}

/// A connection that logs in by SCRAM-SHA-256 alone, with this password.
pub(crate) fn by_password(password: &[u8]) -> Connection<'static> {
    let ways = Ways {
        scram: exchange(password),
        md5: None,
        cleartext: None,
        none: false,
        least_rounds: 0,
        encrypted: false,
    };
    Connection::new(Global, ways, 65_536)
}

/// The server's end of the exchange.
pub(crate) fn served() -> Option<ScramServer> {
    match StoredVerifier::parse(Global, STORED) {
        Ok(verifier) => served_by(verifier),
        Err(_) => None,
    }
}

/// The same by this verifier, with the nonce of RFC 7677's example.
fn served_by(verifier: StoredVerifier) -> Option<ScramServer> {
    let offer = ChannelOffer::NotOffered;
    let nonce = "%hvYDpWUa2RaTCAfuxFIlj)hNlF$k0".to_string();
    Some(ScramServer::with_nonce(verifier, offer, nonce))
}
