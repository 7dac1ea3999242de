//! The methods of the sources' trait `Memory`, at the global allocator.

use super::asking::{asked, reserved};
use super::base64::{self, DecodeAllocError};
use super::later::DividedUp as _;
use super::{hex, AllocError, AllocFailed, Global};
use ::bytes::{Buf, BufMut, Bytes, BytesMut};
use std::collections::{TryReserveError, VecDeque};
use std::fmt::{Display, Write as _};
use std::mem;

type Made<T> = Result<T, AllocError>;

#[inline]
fn made(room: Result<(), TryReserveError>) -> Made<()> {
    match room {
        Ok(()) => Ok(()),
        Err(_) => Err(AllocError),
    }
}

/// A text that a value is written to, unless memory lacks.
struct Growing<'a>(&'a mut String);

impl std::fmt::Write for Growing<'_> {
    fn write_str(&mut self, more: &str) -> std::fmt::Result {
        Global::push_str(self.0, more).map_err(|_| std::fmt::Error)
    }
}

impl Global {
    #[inline]
    pub fn list_with_capacity<T>(self, capacity: usize) -> Made<Vec<T>> {
        let mut list = Vec::new();
        made(list.try_reserve_exact(capacity))?;
        Ok(list)
    }

    #[inline]
    pub fn list_of<T: Copy>(self, items: &[T]) -> Made<Vec<T>> {
        let mut list = self.list_with_capacity(items.len())?;
        list.extend_from_slice(items);
        Ok(list)
    }

    #[inline]
    pub fn push<T>(list: &mut Vec<T>, value: T) -> Result<(), AllocFailed<T>> {
        if list.len() == list.capacity() && list.try_reserve(1).is_err() {
            return Err(AllocFailed { value });
        }
        list.push(value);
        Ok(())
    }

    #[inline]
    pub fn empty_queue<T>() -> VecDeque<T> {
        asked(false, VecDeque::new).unwrap_or_default()
    }

    #[inline]
    pub fn push_back<T>(queue: &mut VecDeque<T>, value: T) -> Result<(), AllocFailed<T>> {
        if queue.len() == queue.capacity() && queue.try_reserve(1).is_err() {
            return Err(AllocFailed { value });
        }
        queue.push_back(value);
        Ok(())
    }

    #[inline]
    pub fn reserve<T>(list: &mut Vec<T>, additional: usize) -> Made<()> {
        made(list.try_reserve(additional))
    }

    #[inline]
    pub fn extend<T: Copy>(list: &mut Vec<T>, more: &[T]) -> Made<()> {
        made(list.try_reserve(more.len()))?;
        list.extend_from_slice(more);
        Ok(())
    }

    pub fn list_filled(self, byte: u8, len: usize) -> Made<Vec<u8>> {
        let mut list = self.list_with_capacity(len)?;
        list.resize(len, byte);
        Ok(list)
    }

    pub fn resize(list: &mut Vec<u8>, len: usize, byte: u8) -> Made<()> {
        made(list.try_reserve(len.saturating_sub(list.len())))?;
        list.resize(len, byte);
        Ok(())
    }

    #[inline]
    pub fn text_with_capacity(self, capacity: usize) -> Made<String> {
        let mut text = String::new();
        made(text.try_reserve_exact(capacity))?;
        Ok(text)
    }

    #[inline]
    pub fn text_of(self, text: &str) -> Made<String> {
        let mut all = self.text_with_capacity(text.len())?;
        all.push_str(text);
        Ok(all)
    }

    #[inline]
    pub fn push_str(text: &mut String, more: &str) -> Made<()> {
        made(text.try_reserve(more.len()))?;
        text.push_str(more);
        Ok(())
    }

    #[inline]
    pub fn push_char(text: &mut String, more: char) -> Made<()> {
        made(text.try_reserve(more.len_utf8()))?;
        text.push(more);
        Ok(())
    }

    pub fn push_shown<D: Display>(text: &mut String, value: D) -> Made<()> {
        write!(Growing(text), "{value}").map_err(|_| AllocError)
    }

    pub fn hex_of(self, bytes: &[u8]) -> Made<String> {
        let mut text = self.text_with_capacity(bytes.len().saturating_mul(2))?;
        text.extend(bytes.iter().flat_map(|byte| hex::digits(*byte)).map(char::from));
        Ok(text)
    }

    pub fn push_base64(text: &mut String, bytes: &[u8]) -> Made<()> {
        made(text.try_reserve(bytes.len().divided_up(3).saturating_mul(4)))?;
        asked(false, || base64::append(bytes, text))
    }

    pub fn base64_shown(self, text: &[u8]) -> Result<Vec<u8>, DecodeAllocError> {
        match asked(true, || base64::decode(text)) {
            Ok(bytes) => bytes.map_err(DecodeAllocError::DecodeError),
            Err(_) => Err(DecodeAllocError::OutOfMemory),
        }
    }

    #[inline]
    pub fn shared_of(self, bytes: &[u8]) -> Made<Bytes> {
        asked(!bytes.is_empty(), || Bytes::copy_from_slice(bytes))
    }

    #[inline]
    pub fn share(list: &mut Vec<u8>) -> Made<Bytes> {
        asked(true, || Bytes::from(mem::take(list)))
    }

    #[inline]
    pub fn clone_shared(bytes: &Bytes) -> Made<Bytes> {
        asked(false, || bytes.clone())
    }

    #[inline]
    pub fn slice_shared(bytes: &Bytes, start: usize, end: usize) -> Made<Bytes> {
        asked(true, || bytes.slice(start..end))
    }

    #[inline]
    pub fn freeze_to(buf: &mut BytesMut, at: usize) -> Made<Bytes> {
        asked(true, || buf.split_to(at).freeze())
    }

    #[inline]
    pub fn reserve_bytes(buf: &mut BytesMut, additional: usize) -> Made<()> {
        reserved(buf, additional)
    }

    #[inline]
    pub fn reserve_ahead(buf: &mut BytesMut, additional: usize) -> Made<()> {
        asked(additional > buf.capacity() - buf.len(), || buf.reserve(additional))
    }

    #[inline]
    pub fn append(buf: &mut BytesMut, more: &[u8]) -> Made<()> {
        asked(more.len() > buf.capacity() - buf.len(), || buf.put_slice(more))
    }

    #[inline]
    pub fn append_from<T: Buf>(buf: &mut BytesMut, more: &mut T) -> Made<()> {
        asked(more.remaining() > buf.capacity() - buf.len(), || buf.put(more))
    }
}

#[cfg(test)]
mod tests {
    use super::*;

    #[test]
    fn lists_and_texts_that_no_memory_holds_are_errors() {
        assert!(Global.list_with_capacity::<u64>(usize::MAX).is_err());
        assert!(Global.text_with_capacity(usize::MAX).is_err());
        let mut list = vec![1u8];
        assert_eq!(Global::reserve(&mut list, usize::MAX), Err(AllocError));
        assert_eq!(list, [1]);
    }

    #[test]
    fn what_is_appended_stands_after_the_rest() {
        let mut list = Global.list_of(b"ab").unwrap();
        assert!(Global::push(&mut list, b'c').is_ok());
        Global::extend(&mut list, b"de").unwrap();
        Global::resize(&mut list, 7, b'!').unwrap();
        assert_eq!(list, b"abcde!!");
        let mut text = Global.text_of("x").unwrap();
        Global::push_char(&mut text, 'é').unwrap();
        Global::push_shown(&mut text, 4096).unwrap();
        assert_eq!(text, "xé4096");
        assert_eq!(Global.hex_of(&[0, 0x9f, 0xab]).unwrap(), "009fab");
    }

    #[test]
    fn queues_fillings_and_base64() {
        let mut queue = Global::empty_queue();
        assert!(Global::push_back(&mut queue, 1).is_ok() && Global::push_back(&mut queue, 2).is_ok());
        assert_eq!(queue, [1, 2]);
        assert_eq!(Global.list_filled(7, 3).unwrap(), [7, 7, 7]);
        let mut text = String::from("=");
        Global::push_base64(&mut text, b"foob").unwrap();
        Global::push_str(&mut text, "!").unwrap();
        assert_eq!(text, "=Zm9vYg==!");
        assert!(matches!(Global.base64_shown(b"Zm9vYg=="), Ok(bytes) if bytes == b"foob"));
        assert!(Global.base64_shown(b"Zm9vYg").is_err());
        let shared = Global.shared_of(b"abc").unwrap();
        assert_eq!(Global::clone_shared(&shared).unwrap(), shared);
        let mut buf = BytesMut::new();
        Global::reserve_bytes(&mut buf, 100).unwrap();
        Global::append(&mut buf, &shared).unwrap();
        assert_eq!(&buf[..], b"abc");
    }

    #[test]
    fn a_frame_is_taken_off_the_front() {
        let mut buf = BytesMut::from(&b"abcdef"[..]);
        let front = Global::freeze_to(&mut buf, 2).unwrap();
        assert_eq!((&front[..], &buf[..]), (&b"ab"[..], &b"cdef"[..]));
        let mut more = Bytes::from_static(b"gh");
        Global::append_from(&mut buf, &mut more).unwrap();
        assert_eq!((&buf[..], more.len()), (&b"cdefgh"[..], 0));
        let mut list = vec![1, 2, 3];
        let all = Global::share(&mut list).unwrap();
        assert_eq!(Global::slice_shared(&all, 1, 3).unwrap(), &[2, 3][..]);
        assert!(list.is_empty());
    }
}
