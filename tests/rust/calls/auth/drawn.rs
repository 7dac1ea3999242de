//! Our client against our server, a thousand times, with nonces that each draws: each channel binding, the right password in turn with a wrong one.

use erased::kit::Global;
use erased::proved::pgp_auth::authentication::sasl::{
    ChannelBinding, ChannelOffer, NoPrep, ScramServer, ScramSha256, StoredVerifier,
};
use tests::proved::test_alloc::counting::Counting;

// The salt of RFC 7677's example and its password `pencil`, with one round; the keys are python3's.
const STORED: &[u8] =
    b"SCRAM-SHA-256$1:W22ZaJ0SNY7soEsUEjb6gQ==$bzcn5wYzlcMpEXczzDM1iuyLhni5BVbqsm82vjMHWXI=:fg/vS0Y425LcbLGWSqdzrFlRn9451QblzgpwLQYoXCI=";

const HASH: &[u8] = b"\x00\xff,hash";

// What the client says of channel binding.
pub(super) fn binding_of(number: u32) -> ChannelBinding {
    match number % 4 {
        0 | 1 => ChannelBinding::unsupported(),
        2 => ChannelBinding::unrequested(),
        _ => ChannelBinding::tls_server_end_point(HASH.to_vec()),
    }
}

// What the server says of it.
pub(super) fn offer_of(number: u32) -> ChannelOffer {
    match number % 4 {
        0 | 2 => ChannelOffer::NotOffered,
        1 => ChannelOffer::Declined,
        _ => ChannelOffer::Chosen(HASH.to_vec()),
    }
}

fn server_of(number: u32, rng: &mut Counting) -> Option<ScramServer> {
    let offer = offer_of(number);
    let verifier = StoredVerifier::parse(Global, STORED).ok()?;
    ScramServer::new(Global, verifier, offer, rng).ok()
}

fn client_of(number: u32, password: &[u8], rng: &mut Counting) -> Option<ScramSha256> {
    let binding = binding_of(number);
    ScramSha256::new(Global, password, binding, &NoPrep, rng).ok()
}

// Whether the client takes the server's first text.
pub(super) fn begins(server: &mut ScramServer, client: &mut ScramSha256) -> Option<bool> {
    let answer = server.first(client.message()?).ok()?;
    Some(client.update(&answer).is_ok())
}

// Whether both are through after that.
pub(super) fn ends(server: &mut ScramServer, client: &mut ScramSha256) -> Option<bool> {
    match server.finish(client.message()?) {
        Ok(last) => Some(client.finish(&last).is_ok()),
        Err(_) => Some(false),
    }
}

// Whether both are through; none where it comes not to an answer of the client.
fn meets(number: u32, password: &[u8], rng: &mut Counting) -> Option<bool> {
    let mut server = server_of(number, rng)?;
    let mut client = client_of(number, password, rng)?;
    if begins(&mut server, &mut client) != Some(true) {
        return None;
    }
    ends(&mut server, &mut client)
}

#[test]
fn a_thousand_exchanges_meet() {
    let mut rng = Counting(5);
    let mut met = 0u32;
    let mut refused = 0u32;
    for number in 0..500u32 {
        if meets(number, b"pencil", &mut rng) == Some(true) {
            met += 1;
        }
        if meets(number, b"pencils", &mut rng) == Some(false) {
            refused += 1;
        }
    }
    assert_eq!(met, 500);
    assert_eq!(refused, 500);
}
