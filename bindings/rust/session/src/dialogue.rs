//! Which of a server's messages answers which request.

pub use crate::proved::pgp_client::*;
