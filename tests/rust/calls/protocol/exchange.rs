//! An exchange of SCRAM-SHA-256 whose texts pass through messages. The texts are those of the Rust crate's
//! own test, the frames from the message formats of the PostgreSQL manual.

use crate::reads::buffer;
use bytes::BytesMut;
use erased::kit::AsSlice as _;
use erased::kit::Global;
use erased::proved::postgres_protocol::authentication::sasl::{is_nonce, ChannelBinding, NoPrep, ScramSha256};
use erased::proved::postgres_protocol::lawful::sasl_exchange;

const NONCE: &str = "9IZ2O01zb9IgiIZ1WJ/zgpJB";

const SERVER_FIRST: &[u8] =
    b"R\0\0\0\x54\0\0\0\x0br=9IZ2O01zb9IgiIZ1WJ/zgpJBjx/oIRLs02gGSHcw1KEty3eY,s=fs3IXBy7U7+IvVjZ,i=4096";

const SERVER_FINAL: &[u8] = b"R\0\0\0\x36\0\0\0\x0cv=U+ppxD5XUKtradnv8e2MkeupiA8FU87Sg8CXzXHDAzw=";

const CLIENT: &[u8] =
    b"p\0\0\0\x36SCRAM-SHA-256\0\0\0\0\x20n,,n=,r=9IZ2O01zb9IgiIZ1WJ/zgpJBp\0\0\0\x6cc=biws,r=9IZ2O01zb9IgiIZ1WJ/zgpJBjx/oIRLs02gGSHcw1KEty3eY,p=AmNKosjJzS31NTlQYNs5BTeQjdHdk7lOflDo5re2an8=";

/// Whether the exchange comes to its end and leaves nothing of the two buffers. The frames are in `out`.
fn exchanged(server_first: &[u8], server_final: &[u8], out: &mut BytesMut) -> bool {
    let mut first = buffer(server_first);
    let mut last = buffer(server_final);
    let nonce = NONCE.to_string();
    if !is_nonce(&nonce) {
        return false;
    }
    let binding = ChannelBinding::unsupported();
    let Ok(mut client) = ScramSha256::with_nonce(Global, b"foobar", binding, nonce, &NoPrep) else {
        return false;
    };
    let answer = sasl_exchange(&mut client, "SCRAM-SHA-256", &mut first, &mut last, out);
    let over = client.message().is_none() && client.hmacs() == 4100;
    answer.is_ok() && over && first.is_empty() && last.is_empty()
}

#[test]
fn texts_of_an_exchange_pass_through_messages() {
    let mut out = BytesMut::new();
    let is_over = exchanged(SERVER_FIRST, SERVER_FINAL, &mut out);
    assert!(is_over);
    assert_eq!(out.as_slice(), CLIENT);
    let mut out = BytesMut::new();
    let is_over = exchanged(SERVER_FINAL, SERVER_FIRST, &mut out);
    assert!(!is_over);
}
