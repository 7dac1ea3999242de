//! Requests of memory, one of which a test has refused. Of a call that has no way to say that memory lacks one request is counted before it, and none in it.

use super::AllocError;
use ::bytes::BytesMut;
use std::cell::Cell;

std::thread_local! {
    /// How many requests come until the one that is refused, which is counted too; 0 where none is to be.
    static UNTIL: Cell<u64> = const { Cell::new(0) };
    static IS_COUNTED: Cell<bool> = const { Cell::new(false) };
}

/// Has the request of this number refused: of those that are made where `counted` runs.
pub fn refuse(number: u64) {
    UNTIL.with(|until| until.set(number));
}

/// Whether that request is still to come.
pub fn is_due() -> bool {
    UNTIL.with(Cell::get) != 0
}

/// Whether requests are counted until the call ends.
fn switched<T>(is_counted: bool, call: impl FnOnce() -> T) -> T {
    let before = IS_COUNTED.with(|is| is.replace(is_counted));
    let made = call();
    IS_COUNTED.with(|is| is.set(before));
    made
}

pub fn counted<T>(call: impl FnOnce() -> T) -> T {
    switched(true, call)
}

pub fn uncounted<T>(call: impl FnOnce() -> T) -> T {
    switched(false, call)
}

/// No request is counted from here on.
pub fn disarm() {
    IS_COUNTED.with(|is| is.set(false));
}

pub fn is_counted() -> bool {
    IS_COUNTED.with(Cell::get)
}

/// Counts a request, and returns whether it is refused.
pub fn is_refused() -> bool {
    let left = UNTIL.with(Cell::get);
    if left == 0 || !is_counted() {
        return false;
    }
    refuse(left - 1);
    left == 1
}

pub(super) fn asked<T>(wants: bool, call: impl FnOnce() -> T) -> Result<T, AllocError> {
    if wants && is_refused() {
        return Err(AllocError);
    }
    Ok(uncounted(call))
}

pub(super) fn reserved(buf: &mut BytesMut, additional: usize) -> Result<(), AllocError> {
    asked(additional > buf.capacity() - buf.len(), || buf.reserve(additional))
}
