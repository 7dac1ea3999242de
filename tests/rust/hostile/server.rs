//! A server of SCRAM-SHA-256 that holds a verifier, after RFC 5802: with the client it shares the digest alone.

use erased::kit::base64::STANDARD;
use erased::kit::digests::Sha256;
use erased::kit::Global;

/// What the server keeps of a password.
#[derive(Clone, Copy)]
pub(crate) struct Server {
    pub(crate) stored_key: [u8; 32],
    pub(crate) server_key: [u8; 32],
}

/// The texts of an exchange that are signed: the client's first without its header, the server's first, and the client's
/// last without its proof.
#[derive(Clone, Copy)]
pub(crate) struct Texts<'a> {
    pub(crate) bare: &'a str,
    pub(crate) first: &'a str,
    pub(crate) last: &'a str,
}

/// A block that has each byte of the key, and of the zeros after it, changed by this one.
fn padded(key: &[u8; 32], pad: u8) -> [u8; 64] {
    std::array::from_fn(|at| key.get(at).unwrap_or(&0) ^ pad)
}

/// The code of the texts, joined by commas: RFC 2104 with a key that is shorter than a block.
fn code(key: &[u8; 32], texts: Texts<'_>) -> [u8; 32] {
    let text = [texts.bare, texts.first, texts.last].join(",");
    let digest: [u8; 32] = Sha256::digest([&padded(key, 0x36)[..], text.as_bytes()].concat());
    Sha256::digest([&padded(key, 0x5c)[..], &digest].concat())
}

/// Whether the client's last text without its proof answers the server's first one: it has no binding, and the same nonce.
fn goes_on(first: &str, last: &str) -> bool {
    first
        .split_once(",s=")
        .map_or(false, |(nonce, _)| last.strip_prefix("c=biws,") == Some(nonce))
}

impl Server {
    /// Whether the proof recovers a key whose digest is the stored one.
    fn is_proved(&self, proof: &[u8], texts: Texts<'_>) -> bool {
        let mut key = code(&self.stored_key, texts);
        for (byte, of_proof) in key.iter_mut().zip(proof) {
            *byte ^= *of_proof;
        }
        let digest: [u8; 32] = Sha256::digest(key.as_slice());
        proof.len() == 32 && digest == self.stored_key
    }

    /// Whether the server that sent this first text takes the client's last one.
    pub(crate) fn accepts(&self, bare: &str, first: &str, last: &str) -> bool {
        let Some((last, proof)) = last.rsplit_once(",p=") else {
            return false;
        };
        let proof = STANDARD.decode(Global, proof);
        goes_on(first, last) && proof.map_or(false, |proof| self.is_proved(&proof, Texts { bare, first, last }))
    }

    /// The server's last text.
    pub(crate) fn answer(&self, texts: Texts<'_>) -> String {
        let mut text = "v=".to_string();
        assert!(STANDARD.encode_string(code(&self.server_key, texts), &mut text).is_ok());
        text
    }
}
