//! Our client against our server for the counts, salts and bindings at the edges, with nonces that are drawn and with given ones.

use super::drawn::{begins, binding_of, ends, offer_of};
use erased::kit::Global;
use erased::proved::pgp_auth::authentication::sasl::{NoPrep, ScramServer, ScramSha256, StoredVerifier};
use tests::proved::test_alloc::counting::Counting;

/// A verifier of `pencil` with so many rounds, and a salt of so many bytes.
fn verifier_of(count: u32, salt_len: usize) -> Option<StoredVerifier> {
    let salt = vec![7u8; salt_len];
    StoredVerifier::of_password(Global, b"pencil", salt, count, &NoPrep).ok()
}

/// Whether both come through, with nonces that they draw.
fn meet_by_drawn(count: u32, salt_len: usize, number: u32) -> Option<bool> {
    let mut rng = Counting(5);
    let verifier = verifier_of(count, salt_len)?;
    let offer = offer_of(number);
    let mut server = ScramServer::new(Global, verifier, offer, &mut rng).ok()?;
    let binding = binding_of(number);
    let mut client = ScramSha256::new(Global, b"pencil", binding, &NoPrep, &mut rng).ok()?;
    begins(&mut server, &mut client)?;
    ends(&mut server, &mut client)
}

/// Whether both come through, with given nonces.
fn meet_by_given(count: u32, salt_len: usize, number: u32) -> Option<bool> {
    let verifier = verifier_of(count, salt_len)?;
    let offer = offer_of(number);
    let mut server = ScramServer::with_nonce(verifier, offer, "server".to_string());
    let binding = binding_of(number);
    let mut client = ScramSha256::with_nonce(Global, b"pencil", binding, "client".to_string(), &NoPrep).ok()?;
    begins(&mut server, &mut client)?;
    ends(&mut server, &mut client)
}

/// A count of 0 is reported as 0, and both make one round of it.
#[test]
fn they_meet_at_the_edges() {
    for count in [0, 1, 2, 4096] {
        for salt_len in [0, 16] {
            for number in 0..4u32 {
                let place = (count, salt_len, number);
                let drawn = meet_by_drawn(count, salt_len, number);
                assert_eq!(drawn, Some(true), "{:?}", place);
                let given = meet_by_given(count, salt_len, number);
                assert_eq!(given, Some(true), "{:?}", place);
            }
        }
    }
}
