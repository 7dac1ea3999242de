//! Calls that have no way to say that memory lacks, as those of the crates `bytes` and `base64`: the program ends there.

use super::AllocError;
use ::bytes::BytesMut;

/// Makes the call, which wants memory or doesn't. (The kit of `scripts/quick` asks for it first, so that a test can refuse it.)
#[inline(always)]
pub(super) fn asked<T>(_wants: bool, call: impl FnOnce() -> T) -> Result<T, AllocError> {
    Ok(call())
}

/// Asks for nothing: each append asks for its own room, and where there is none the program ends either way.
#[inline(always)]
pub(super) fn reserved(_buf: &mut BytesMut, _additional: usize) -> Result<(), AllocError> {
    Ok(())
}
