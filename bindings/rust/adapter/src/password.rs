//! What a server stores of a password, made by the client, for `ALTER USER .. PASSWORD`.

use crate::kit::random::ThreadRng;
use crate::kit::Global;
use crate::proved::pgp_auth::password;
use crate::proved::pgp_saslprep::SaslPrepRfc4013;
use crate::status::ample;

/// The SCRAM-SHA-256 verifier of a password, of 4096 rounds, with a new salt.
pub fn scram_sha_256(password: &[u8]) -> String {
    ample(password::scram_sha_256(Global, password, &SaslPrepRfc4013::new(Global), &mut ThreadRng))
}

#[allow(dead_code)]
pub(crate) fn scram_sha_256_salt(password: &[u8], salt: [u8; 16]) -> String {
    ample(password::scram_sha_256_salt(Global, password, salt, &SaslPrepRfc4013::new(Global)))
}

/// The MD5 hash of a password. MD5 is broken; servers know it for old clients' sake.
pub fn md5(password: &[u8], username: &str) -> String {
    ample(password::md5(Global, password, username))
}

#[cfg(test)]
mod tests {
    use super::*;

    // python3's hashlib and hmac.
    #[test]
    fn a_verifier() {
        let salt = [1, 2, 3, 4, 5, 6, 7, 8, 9, 10, 11, 12, 13, 14, 15, 16];
        assert_eq!(
            scram_sha_256_salt(b"secret", salt),
            "SCRAM-SHA-256$4096:AQIDBAUGBwgJCgsMDQ4PEA==$8rrDg00OqaiWXJ7p+sCgHEIaBSHY89ZJl3mfIsf32oY=:05L1f+yZbiN8O0AnO40Og85NNRhvzTS57naKRWCcsIA="
        );
    }
}
