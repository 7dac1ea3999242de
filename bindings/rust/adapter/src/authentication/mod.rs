//! What a server's requests for authentication ask for.

use crate::kit::Global;
use crate::status::ample;

pub mod sasl;

/// What `AuthenticationMd5Password` asks for, to be sent as a password.
pub fn md5_hash(username: &[u8], password: &[u8], salt: [u8; 4]) -> String {
    ample(crate::proved::pgp_auth::authentication::md5_hash(Global, username, password, salt))
}
