//! The calls of `pgp_auth` for a client.

use crate::memory::refused;
use erased::kit::asking::counted;
use erased::kit::{AllocError, Global};
use erased::proved::pgp_auth::authentication::md5_hash;
use erased::proved::pgp_auth::authentication::sasl::{
    is_nonce, ChannelBinding, NoPrep, SaslPrep, ScramError, ScramSha256,
};
use erased::proved::pgp_auth::escape::{escape_identifier, escape_literal};
use erased::proved::pgp_auth::password::{md5, scram_sha_256, scram_sha_256_salt};
use erased::proved::pgp_base::Error;
use erased::proved::pgp_saslprep::SaslPrepRfc4013;
use tests::proved::test_alloc::counting::Counting;

const SALT: [u8; 16] = [1, 2, 3, 4, 5, 6, 7, 8, 9, 10, 11, 12, 13, 14, 15, 16];

/// A mapping that returns `x`.
struct ToX;

impl SaslPrep for ToX {
    fn prepare(&self, alloc: Global, _text: &str) -> Result<Option<String>, Error> {
        Ok(Some(alloc.text_of("x")?))
    }
}

/// A mapping for which there is no memory: it asks for more than there can be.
struct NoMemory;

impl SaslPrep for NoMemory {
    fn prepare(&self, alloc: Global, _text: &str) -> Result<Option<String>, Error> {
        alloc.text_with_capacity(usize::MAX)?;
        Ok(Some(alloc.text_of("x")?))
    }
}

/// Each call asks for memory as often as is said here: once for its text, and a mapping for its own, SASLprep twice and once for the normal form.
#[test]
fn texts_with_each_allocation_refused() {
    let prep = SaslPrepRfc4013::new(Global);
    let calls: [(&dyn Fn() -> Result<String, Error>, u64); 8] = [
        (&|| escape_literal(Global, "a'b\\c"), 1),
        (&|| escape_identifier(Global, "a\"b\\c"), 1),
        (&|| md5(Global, b"secret", "foo"), 1),
        (
            &|| md5_hash(Global, b"md5_user", b"password", [0x2a, 0x3d, 0x8f, 0xe0]),
            1,
        ),
        (&|| scram_sha_256_salt(Global, b"secret", SALT, &NoPrep), 1),
        (&|| scram_sha_256_salt(Global, b"\xc3\xa9", SALT, &ToX), 2),
        (&|| scram_sha_256_salt(Global, b"\xc3\xa9", SALT, &prep), 4),
        (&|| scram_sha_256(Global, b"secret", &NoPrep, &mut Counting(0)), 1),
    ];
    for (i, (call, asked)) in calls.iter().enumerate() {
        let ample = call().unwrap();
        let refusals = refused(|| {
            assert_eq!(counted(call)?, ample);
            Ok(())
        });
        assert_eq!((i, refusals), (i, *asked));
    }
}

#[test]
fn a_mapping_without_memory_is_reported() {
    let mapped = |password| scram_sha_256_salt(Global, password, SALT, &NoMemory);
    assert_eq!(mapped(b"\xc3\xa9"), Err(Error::OutOfMemory));
    assert_eq!(
        mapped(b"secret"),
        Ok(scram_sha_256_salt(Global, b"secret", SALT, &NoPrep).unwrap())
    );
}

const PASSWORD: &[u8] = b"p\xc3\xa4ssword";

const NONCE: &str = "9IZ2O01zb9IgiIZ1WJ/zgpJB";

fn nonce() -> Result<String, Error> {
    let nonce = Global.text_of(NONCE)?;
    assert!(is_nonce(&nonce));
    Ok(nonce)
}

/// A client whose nonce is drawn, or the one above.
fn begun(is_drawn: bool) -> Result<ScramSha256, Error> {
    let binding = ChannelBinding::tls_server_end_point(Global.list_of(b"a hash")?);
    let client = match is_drawn {
        true => ScramSha256::new(Global, PASSWORD, binding, &ToX, &mut Counting(0)),
        false => ScramSha256::with_nonce(Global, PASSWORD, binding, nonce()?, &ToX),
    };
    client.map_err(|e| {
        assert!(matches!(e, ScramError::OutOfMemory));
        Error::OutOfMemory
    })
}

/// The server's first text for a client's first text: its nonce goes on, and it has a salt and a count.
fn server_first(client: &ScramSha256) -> Result<Vec<u8>, AllocError> {
    let message = client.message().unwrap();
    let mut text = Global.list_of(b"r=")?;
    Global::extend(&mut text, &message[message.len() - 24..])?;
    Global::extend(&mut text, b"jx/oIRLs02gGSH,s=fs3IXBy7U7+IvVjZ,i=1")?;
    Ok(text)
}

/// The number of an error, or 0.
fn number<T>(outcome: Result<T, ScramError>) -> u8 {
    outcome.map_or_else(|e| e.number(), |_| 0)
}

/// The numbers of `update`'s error and of `finish`'s, and the HMACs that were made. There is a text to send after an `update` that isn't rejected alone;
/// then the exchange is over.
fn steps(client: &mut ScramSha256, first: &[u8], server_final: &[u8]) -> (u8, u8, u64) {
    let updated = number(client.update(first));
    assert_eq!(client.message().is_some(), updated == 0);
    let finished = number(client.finish(server_final));
    let over = (number(client.update(first)), number(client.finish(b"v=")));
    assert_eq!((client.message(), over), (None, (2, 2)));
    (updated, finished, client.hmacs())
}

/// 94 bytes that aren't the signature, in base64.
const LONG_FINAL: &[u8] =
    b"v=AAAAAAAAAAAAAAAAAAAAAAAAAAAAAAAAAAAAAAAAAAAAAAAAAAAAAAAAAAAAAAAAAAAAAAAAAAAAAAAAAAAAAAAAAAAAAAAAAAAAAAAAAAAAAAAAAAAAAAAAAAAAAA==";

/// Beside the errors of memory an exchange comes to the same end. A rejected `update` ends it, so that `finish` isn't due. A rejected `finish` is reported.
#[test]
fn exchanges_with_each_allocation_refused() {
    let exchanges: [(bool, &[u8], (u8, u8, u64)); 4] = [
        (true, LONG_FINAL, (0, 12, 5)),
        (false, LONG_FINAL, (0, 12, 5)),
        (false, b"e=other-error", (0, 11, 3)),
        (false, b"v=AAAA", (0, 12, 5)),
    ];
    for (is_drawn, server_final, ample) in exchanges {
        let asked = refused(|| {
            counted(|| {
                let mut client = begun(is_drawn)?;
                let first = server_first(&client)?;
                match steps(&mut client, &first, server_final) {
                    (0, 1, 3) | (1, 2, 0) | (1, 2, 3) => Err(Error::OutOfMemory),
                    steps => Ok(assert_eq!(steps, ample)),
                }
            })
        });
        assert!(asked >= 10, "{asked}");
    }
}

/// A server's last text of the length of a signature is compared in no memory of its own.
#[test]
fn a_signature_is_compared_without_memory() {
    let texts: [(&[u8], u8); 6] = [
        (b"v=U+ppxD5XUKtradnv8e2MkeupiA8FU87Sg8CXzXHDAzw=", 12),
        (b"v=AAAA", 12),
        (b"v=A", 10),
        (b"v=AA==,x", 6),
        (b"\xff", 3),
        (b"", 4),
    ];
    for (text, wanted) in texts {
        let asked = refused(|| {
            let mut client = begun(false)?;
            let first = server_first(&client)?;
            assert_eq!(number(client.update(&first)), 0);
            assert_eq!(counted(|| number(client.finish(text))), wanted);
            Ok(())
        });
        assert_eq!(asked, 0);
    }
}

/// A generator's stream makes a client's nonce, of 24 characters, and another one the next time.
#[test]
fn nonces_are_drawn_anew() {
    let mut rng = Counting(0);
    let mut drawn = || {
        let client = ScramSha256::new(Global, PASSWORD, ChannelBinding::unsupported(), &NoPrep, &mut rng).unwrap();
        <[u8; 32]>::try_from(client.message().unwrap()).unwrap()
    };
    assert_ne!(drawn(), drawn());
}

#[test]
fn a_client_tells_of_a_mapping_without_memory() {
    for (password, wanted) in [(b"\xc3\xa9".as_slice(), 1), (b"secret", 0)] {
        let binding = ChannelBinding::unsupported();
        let client = ScramSha256::with_nonce(Global, password, binding, nonce().unwrap(), &NoMemory);
        assert_eq!(number(client), wanted);
    }
}
