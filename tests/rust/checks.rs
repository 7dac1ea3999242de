//! What several tests hold to be so.

use erased::proved::pgp_base::Error;

/// The text that was made is the one that was wanted.
pub(crate) fn made(received: Result<String, Error>, wanted: &str) {
    assert_eq!(received.as_deref(), Ok(wanted));
}
