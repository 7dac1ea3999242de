//! Further values in the binary format: `numeric`, `interval`, `jsonb` and more.

pub use crate::proved::pgp_values::*;
