//! Memory that C hands over as a pointer and a length, which may be NULL with the length 0. The two structs stand in C's structs, where a
//! slice of Rust can't: its pointer is never NULL. All fields are private, so that a struct comes from C, by a call whose caller has to hold to
//! the header, or from a slice.
#![deny(unsafe_op_in_unsafe_fn)]
#![allow(clippy::missing_safety_doc)]
use std::marker::PhantomData;
use std::ops::{Deref, DerefMut};
use std::os::unix::io::AsRawFd;

/// Items that are read.
#[repr(C)]
#[derive(Clone, Copy)]
pub struct Part<'a, T> {
    at: *const T,
    len: usize,
    of: PhantomData<&'a [T]>,
}

/// Items that are written.
#[repr(C)]
pub struct PartMut<'a, T> {
    at: *mut T,
    len: usize,
    of: PhantomData<&'a mut [T]>,
}

impl<'a, T> Part<'a, T> {
    #[inline]
    pub fn all(self) -> &'a [T] {
        // SAFETY: by the header the items are there, and nobody writes them during the call.
        unsafe { items(self.at, self.len) }
    }
}

impl<T> Deref for Part<'_, T> {
    type Target = [T];

    #[inline]
    fn deref(&self) -> &[T] {
        // SAFETY: as above.
        unsafe { items(self.at, self.len) }
    }
}

impl<'a, T> From<&'a [T]> for Part<'a, T> {
    #[inline]
    fn from(items: &'a [T]) -> Part<'a, T> {
        Part { at: items.as_ptr(), len: items.len(), of: PhantomData }
    }
}

impl<'a, T> PartMut<'a, T> {
    /// Takes the items out, so that none are left until they are put back.
    #[inline]
    pub fn take(&mut self) -> &'a mut [T] {
        // SAFETY: by the header the items are the caller's alone, and with the length 0 they are reached no more through this struct.
        unsafe { room(self.at, std::mem::take(&mut self.len)) }
    }

    /// Puts the items back. Where there are none the pointer stays the caller's.
    #[inline]
    pub fn put_back(&mut self, items: &'a mut [T]) {
        if !items.is_empty() {
            (self.at, self.len) = (items.as_mut_ptr(), items.len());
        }
    }
}

impl<T> Deref for PartMut<'_, T> {
    type Target = [T];

    #[inline]
    fn deref(&self) -> &[T] {
        // SAFETY: by the header the items are the caller's alone, lent through this borrow.
        unsafe { items(self.at, self.len) }
    }
}

impl<T> DerefMut for PartMut<'_, T> {
    #[inline]
    fn deref_mut(&mut self) -> &mut [T] {
        // SAFETY: as above.
        unsafe { room(self.at, self.len) }
    }
}

/// So many items behind the pointer, which isn't read where there are none.
#[inline]
pub unsafe fn items<'a, T>(at: *const T, len: usize) -> &'a [T] {
    if len == 0 {
        return &[];
    }
    // SAFETY: the caller's.
    unsafe { std::slice::from_raw_parts(at, len) }
}

/// The same for items that are written.
#[inline]
pub unsafe fn room<'a, T>(at: *mut T, len: usize) -> &'a mut [T] {
    if len == 0 {
        return &mut [];
    }
    // SAFETY: the caller's.
    unsafe { std::slice::from_raw_parts_mut(at, len) }
}

extern "C" {
    fn isatty(fd: i32) -> i32;
}

/// Whether it is a terminal, as std says since Rust 1.70.
pub fn is_terminal(file: &impl AsRawFd) -> bool {
    // SAFETY: the file is open, and the C library's call takes any number.
    unsafe { isatty(file.as_raw_fd()) == 1 }
}
