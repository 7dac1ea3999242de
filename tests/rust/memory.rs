//! Calls whose requests of memory are refused: the first, then the second, until none is; and calls that have little memory. The allocator of this program
//! counts requests, and refuses one, only where `counted` runs.

mod auth;
mod auth_server;
mod client_pieces;
mod client_stream;
mod connections;
mod growth;
mod message;
mod pieces;
mod programs;
mod rows;
mod serializers;
mod writers;

use erased::kit::asking::{counted, is_counted, is_due, is_refused, refuse};
use erased::proved::pgp_base::Error;
use std::alloc::{GlobalAlloc, Layout, System};
use std::cell::Cell;
use std::fmt::Debug;

struct Memory;

#[global_allocator]
static MEMORY: Memory = Memory;

thread_local! {
    /// The bytes that were allocated since `within` began and not freed, the most there ever were, and how many there may be.
    static LIVE: Cell<isize> = const { Cell::new(0) };
    static MOST: Cell<isize> = const { Cell::new(0) };
    static LIMIT: Cell<isize> = const { Cell::new(isize::MAX) };
}

fn add(size: usize) {
    LIVE.with(|live| {
        live.set(live.get() + size as isize);
        MOST.with(|most| most.set(most.get().max(live.get())));
    });
}

fn subtract(size: usize) {
    LIVE.with(|live| live.set(live.get() - size as isize));
}

/// Whether a request of so many bytes is granted, which are then counted.
fn is_granted(size: usize) -> bool {
    let all = LIVE.with(Cell::get) + size as isize;
    let fits = !is_counted() || all <= LIMIT.with(Cell::get);
    let granted = !is_refused() && fits;
    if granted {
        add(size);
    }
    granted
}

unsafe impl GlobalAlloc for Memory {
    unsafe fn alloc(&self, layout: Layout) -> *mut u8 {
        match is_granted(layout.size()) {
            true => System.alloc(layout),
            false => std::ptr::null_mut(),
        }
    }

    unsafe fn alloc_zeroed(&self, layout: Layout) -> *mut u8 {
        match is_granted(layout.size()) {
            true => System.alloc_zeroed(layout),
            false => std::ptr::null_mut(),
        }
    }

    unsafe fn dealloc(&self, ptr: *mut u8, layout: Layout) {
        subtract(layout.size());
        System.dealloc(ptr, layout)
    }

    /// For a moment both are there. Less than before is never refused.
    unsafe fn realloc(&self, ptr: *mut u8, layout: Layout, size: usize) -> *mut u8 {
        if size <= layout.size() {
            add(size);
        } else if !is_granted(size) {
            return std::ptr::null_mut();
        }
        subtract(layout.size());
        System.realloc(ptr, layout, size)
    }
}

/// Makes a call that may hold so many bytes at a time. What has no way to say that memory lacks is refused none, so that `most` is to be looked at.
pub(crate) fn within<T>(limit: usize, call: impl FnOnce() -> T) -> T {
    LIVE.with(|live| live.set(0));
    MOST.with(|most| most.set(0));
    LIMIT.with(|bytes| bytes.set(limit as isize));
    let made = counted(call);
    LIMIT.with(|bytes| bytes.set(isize::MAX));
    made
}

/// The bytes that are held of those that were allocated since `within` began.
pub(crate) fn live() -> isize {
    LIVE.with(Cell::get)
}

/// How many were at the most.
pub(crate) fn most() -> isize {
    MOST.with(Cell::get)
}

/// How many requests were refused, and how often that was reported.
pub(crate) struct Refusals {
    pub(crate) asked: u64,
    pub(crate) reported: u64,
}

/// Makes a call whose request of this number is refused, and says whether there was one.
pub(crate) fn refused_at<T>(number: u64, call: impl FnOnce() -> T) -> (T, bool) {
    refuse(number);
    let made = counted(call);
    let is_refused = !is_due();
    refuse(0);
    (made, is_refused)
}

/// Tries something, of which the first request is refused, then the second, until none is. It comes to its end, or says that memory lacks.
pub(crate) fn refusals_of(mut tried: impl FnMut() -> Result<(), Error>) -> Refusals {
    let mut reported = 0;
    for asked in 0..1000 {
        refuse(asked + 1);
        let ended = tried();
        let is_refused = !is_due();
        refuse(0);
        match ended {
            Ok(()) if is_refused => {}
            Ok(()) => return Refusals { asked, reported },
            Err(e) => {
                assert_eq!((asked, is_refused, e), (asked, true, Error::OutOfMemory));
                reported += 1;
            }
        }
    }
    panic!("requests without an end")
}

/// How many requests were refused, each of which was reported.
pub(crate) fn refused(tried: impl FnMut() -> Result<(), Error>) -> u64 {
    let refusals = refusals_of(tried);
    assert_eq!(refusals.reported, refusals.asked);
    refusals.asked
}

/// What was received is what was wanted, or memory lacked.
pub(crate) fn comes_to<T: PartialEq + Debug>(
    received: Result<T, Error>,
    wanted: Result<T, Error>,
) -> Result<(), Error> {
    if received == Err(Error::OutOfMemory) {
        return Err(Error::OutOfMemory);
    }
    assert_eq!(received, wanted);
    Ok(())
}

/// The allocator refuses what it is told to.
#[test]
fn each_request_is_refused_in_turn() {
    let mut tried = || {
        let mut list = Vec::new();
        counted(|| (0..40u8).try_for_each(|n| erased::kit::Global::push(&mut list, n).map_err(|_| Error::OutOfMemory)))
    };
    let asked = refused(&mut tried);
    assert!(asked > 2 && asked < 20, "{asked}");
    assert_eq!(within(63, &mut tried), Err(Error::OutOfMemory));
    assert_eq!(within(96, &mut tried), Ok(()));
}
