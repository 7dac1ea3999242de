//! Calls of Rattle's `std` that ask for memory or for a host, under its names or those that a rule gives them.

use super::asking::{asked, is_refused, uncounted};
use super::{AllocError, AllocFailed, Global};
use ::bytes::{Bytes, BytesMut};

pub trait FromSlice<T> {
    fn from_slice(alloc: Global, items: &[T]) -> Result<Vec<T>, AllocError>;
}

impl<T: Copy> FromSlice<T> for Vec<T> {
    fn from_slice(alloc: Global, items: &[T]) -> Result<Vec<T>, AllocError> {
        alloc.list_of(items)
    }
}

pub fn text_of(alloc: Global, text: &str) -> Result<String, AllocError> {
    alloc.text_of(text)
}

pub fn room_for(_alloc: Global, len: usize) -> Result<BytesMut, AllocError> {
    asked(len > 0, || BytesMut::with_capacity(len))
}

impl super::base64::Standard {
    pub fn decode(&self, alloc: Global, text: impl AsRef<[u8]>) -> Result<Vec<u8>, super::base64::DecodeAllocError> {
        alloc.base64_shown(text.as_ref())
    }

    pub fn encode_string(&self, bytes: impl AsRef<[u8]>, text: &mut String) -> Result<(), AllocError> {
        Global::push_base64(text, bytes.as_ref())
    }
}

/// `push`, which gives back what no memory holds.
pub trait Pushed<T> {
    type Failed;

    fn pushed(&mut self, item: T) -> Result<(), Self::Failed>;
}

impl<T> Pushed<T> for Vec<T> {
    type Failed = AllocFailed<T>;

    fn pushed(&mut self, item: T) -> Result<(), AllocFailed<T>> {
        Global::push(self, item)
    }
}

impl Pushed<char> for String {
    type Failed = AllocError;

    fn pushed(&mut self, item: char) -> Result<(), AllocError> {
        Global::push_char(self, item)
    }
}

/// `push_str`.
pub trait Lengthened {
    fn lengthened(&mut self, more: &str) -> Result<(), AllocError>;
}

impl Lengthened for String {
    fn lengthened(&mut self, more: &str) -> Result<(), AllocError> {
        Global::push_str(self, more)
    }
}

/// `extend_from_slice`.
pub trait Extended<T> {
    fn extended(&mut self, more: &[T]) -> Result<(), AllocError>;
}

impl<T: Copy> Extended<T> for Vec<T> {
    fn extended(&mut self, more: &[T]) -> Result<(), AllocError> {
        Global::extend(self, more)
    }
}

impl Extended<u8> for BytesMut {
    fn extended(&mut self, more: &[u8]) -> Result<(), AllocError> {
        Global::append(self, more)
    }
}

/// `to_string` with an allocator.
pub trait ShownIn {
    fn shown_in(&self, alloc: Global) -> Result<String, AllocError>;
}

impl<T: std::fmt::Display + ?Sized> ShownIn for T {
    fn shown_in(&self, _alloc: Global) -> Result<String, AllocError> {
        asked(true, || self.to_string())
    }
}

pub fn bytes_of(alloc: Global, bytes: &[u8]) -> Result<Bytes, AllocError> {
    alloc.shared_of(bytes)
}

/// What a test is handed, and what it fails with.
pub trait Abort {}

impl Abort for super::host::HostRuntime {}

/// (It isn't shown by itself, since it is made of all that is.)
pub struct Fail(pub String);

impl<E: std::fmt::Debug> From<E> for Fail {
    fn from(e: E) -> Fail {
        Fail(std::format!("{e:?}"))
    }
}

impl<T> std::fmt::Debug for AllocFailed<T> {
    fn fmt(&self, f: &mut std::fmt::Formatter<'_>) -> std::fmt::Result {
        f.write_str("AllocFailed")
    }
}

/// What a test comes to.
pub trait Ended {
    fn ended(self);
}

impl Ended for () {
    fn ended(self) {}
}

impl Ended for Result<(), Fail> {
    fn ended(self) {
        if let Err(Fail(why)) = self {
            std::panic!("{why}")
        }
    }
}

// Each stands for the macro of its name that is handed an allocator or a host.
#[macro_export]
macro_rules! formatted {
    (in $alloc:expr; $($words:tt)*) => { Ok::<String, $crate::kit::AllocError>(::std::format!($($words)*)) };
}
#[macro_export]
macro_rules! listed {
    (in $alloc:expr; $($words:tt)*) => { Ok::<_, $crate::kit::AllocError>(::std::vec![$($words)*]) };
}
#[macro_export]
macro_rules! reported {
    ($rt:expr; $($words:tt)*) => { ::std::io::Write::write_fmt(&mut ::std::io::stderr(), format_args!($($words)*)) };
}
#[macro_export]
macro_rules! reported_line {
    ($rt:expr; $($words:tt)*) => { $crate::reported!($rt; "{}\n", format_args!($($words)*)) };
}
#[macro_export]
macro_rules! printed {
    ($rt:expr; $($words:tt)*) => { ::std::io::Write::write_fmt(&mut ::std::io::stdout(), format_args!($($words)*)) };
}
#[macro_export]
macro_rules! printed_line {
    ($rt:expr; $($words:tt)*) => { $crate::printed!($rt; "{}\n", format_args!($($words)*)) };
}
#[macro_export]
macro_rules! held {
    ($rt:expr; $($words:tt)*) => { ::std::assert!($($words)*) };
}
#[macro_export]
macro_rules! held_equal {
    ($rt:expr; $($words:tt)*) => { ::std::assert_eq!($($words)*) };
}
#[macro_export]
macro_rules! failed {
    ($rt:expr; $($words:tt)*) => { ::std::panic!($($words)*) };
}
pub use crate::{failed as panic, formatted as format, held as assert, held_equal as assert_eq, listed as vec};
pub use crate::{printed as print, printed_line as println, reported as eprint, reported_line as eprintln};

/// What a line shows of a value, as `Display` does, with no formatter between.
pub trait Show {
    fn show(&self, out: &mut String);
}

macro_rules! numbers {
    ($($t:ty)*) => {$(
        impl Show for $t {
            #[inline]
            fn show(&self, out: &mut String) {
                out.push_str(::itoa::Buffer::new().format(*self))
            }
        }
    )*};
}

numbers! { u8 u16 u32 u64 usize i16 i32 i64 }

impl Show for char {
    #[inline]
    fn show(&self, out: &mut String) {
        out.push(*self)
    }
}

impl Show for String {
    fn show(&self, out: &mut String) {
        out.push_str(self)
    }
}

impl<T: Show + ?Sized> Show for &T {
    #[inline]
    fn show(&self, out: &mut String) {
        (**self).show(out)
    }
}

/// The same at the end of so many columns.
pub fn show_wide<T: Show>(value: &T, width: usize, out: &mut String) {
    let start = out.len();
    value.show(out);
    for _ in out.len() - start..width {
        out.insert(start, ' ');
    }
}

impl Global {
    #[inline]
    pub fn push_parts(text: &mut String, parts: impl FnOnce(&mut String)) -> Result<(), AllocError> {
        let (len, room) = (text.len(), text.capacity());
        uncounted(|| parts(text));
        if text.capacity() != room && is_refused() {
            text.truncate(len);
            return Err(AllocError);
        }
        Ok(())
    }
}
