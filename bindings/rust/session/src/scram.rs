//! SCRAM-SHA-256 of both sides, with own generators and nonces; and SASLprep.

pub use crate::kit::random::{Rng, ThreadRng};
pub use crate::proved::pgp_auth::authentication::sasl::*;
pub use crate::proved::pgp_saslprep::{saslprep, SaslPrepRfc4013};
