//! What a verifier draws, and when a mapping of the password is asked.

use crate::checks::made;
use erased::kit::Global;
use erased::proved::pgp_auth::authentication::sasl::{NoPrep, SaslPrep};
use erased::proved::pgp_auth::password::{scram_sha_256, scram_sha_256_salt};
use erased::proved::pgp_base::Error;
use std::cell::Cell;
use tests::proved::test_alloc::counting::Counting;

const SALT: [u8; 16] = [1, 2, 3, 4, 5, 6, 7, 8, 9, 10, 11, 12, 13, 14, 15, 16];

// The Rust crate's, for `secret` and this salt.
const VERIFIER: &str =
    "SCRAM-SHA-256$4096:AQIDBAUGBwgJCgsMDQ4PEA==$8rrDg00OqaiWXJ7p+sCgHEIaBSHY89ZJl3mfIsf32oY=:05L1f+yZbiN8O0AnO40Og85NNRhvzTS57naKRWCcsIA=";

// Python's, for the password `x`.
const VERIFIER_OF_X: &str =
    "SCRAM-SHA-256$4096:AQIDBAUGBwgJCgsMDQ4PEA==$GPZWOKqnXlXnI0GQTCsa81xqZQy0Wg6CJN3IQtDsIVA=:jzj70rJ61RGNkSxjbxvtws2mm7+3CUh+s14hvh4lAeA=";

#[test]
fn a_verifier_draws_its_salt() {
    let mut bytes = Counting(0xfffe_fdfd);
    let drawn = scram_sha_256(Global, b"secret", &NoPrep, &mut bytes);
    made(drawn, VERIFIER);
}

// A mapping that returns `x`, and counts how often it was asked.
struct ToX {
    asked: Cell<u32>,
}

impl SaslPrep for ToX {
    fn prepare(&self, _alloc: Global, _text: &str) -> Result<Option<String>, Error> {
        self.asked.set(self.asked.get() + 1);
        Ok(Some("x".to_string()))
    }
}

// It is asked for text past ASCII alone.
#[test]
fn a_mapping_is_asked() {
    let prep = ToX { asked: Cell::new(0) };
    let plain = scram_sha_256_salt(Global, b"secret", SALT, &prep);
    made(plain, VERIFIER);
    let no_text = scram_sha_256_salt(Global, b"\xff", SALT, &prep);
    assert!(no_text.is_ok());
    assert_eq!(prep.asked.get(), 0);
    let mapped = scram_sha_256_salt(Global, b"\xc3\xa9", SALT, &prep);
    made(mapped, VERIFIER_OF_X);
    assert_eq!(prep.asked.get(), 1);
}
