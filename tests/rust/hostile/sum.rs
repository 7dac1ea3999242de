//! One number for all that was read, so that any change of it shows.

use erased::proved::pgp_base::{Error, FallibleIterator};

/// The FNV-1a digest, of 64 bits, of what was added, and the first error among it.
#[derive(Clone, Copy)]
pub(crate) struct Sum {
    value: u64,
    flaw: Option<Error>,
}

impl Sum {
    pub(crate) fn new() -> Sum {
        Sum {
            value: 0xcbf2_9ce4_8422_2325,
            flaw: None,
        }
    }

    pub(crate) fn value(&self) -> u64 {
        self.value
    }

    /// The first error of an accessor or an iterator.
    pub(crate) fn flaw(&self) -> Option<Error> {
        self.flaw
    }

    /// Adds the bytes of a number.
    pub(crate) fn plain(&mut self, bytes: &[u8]) {
        for byte in bytes {
            self.value = (self.value ^ u64::from(*byte)).wrapping_mul(0x100_0000_01b3);
        }
    }

    /// Adds bytes, after how many they are.
    pub(crate) fn bytes(&mut self, bytes: &[u8]) {
        self.plain(&bytes.len().to_be_bytes());
        self.plain(bytes);
    }

    /// Adds an error: its number, and the tag or the code that it carries.
    pub(crate) fn refusal(&mut self, refusal: Error) {
        self.plain(&[refusal.number()]);
        match refusal {
            Error::UnknownTag(tag) => self.plain(&[tag]),
            Error::UnknownAuthentication(code) => self.plain(&code.to_be_bytes()),
            _ => {}
        }
    }

    /// Adds an error of a part, which is remembered where it is the first.
    pub(crate) fn part_refused(&mut self, refusal: Error) {
        self.refusal(refusal);
        if self.flaw.is_none() {
            self.flaw = Some(refusal);
        }
    }

    /// Adds a text, or why it is none.
    pub(crate) fn text(&mut self, text: Result<&str, Error>) {
        match text {
            Ok(text) => self.bytes(text.as_bytes()),
            Err(e) => self.part_refused(e),
        }
    }

    /// Adds bytes, or that they are null.
    pub(crate) fn nullable(&mut self, bytes: Option<&[u8]>) {
        match bytes {
            Some(bytes) => self.bytes(bytes),
            None => self.plain(&usize::MAX.to_be_bytes()),
        }
    }
}

/// More items than any list here has.
const MOST: usize = 1000;

/// An item of a list, which is added to a sum.
pub(crate) trait Summed {
    fn add_to(self, sum: &mut Sum);
}

/// A name.
impl Summed for &str {
    fn add_to(self, sum: &mut Sum) {
        sum.bytes(self.as_bytes());
    }
}

/// Adds the items of an iterator and its end. Each has a byte before it: 1 for an item, 0 for the end, 2 for an
/// error.
fn add_items<W: FallibleIterator>(walk: &mut W, sum: &mut Sum)
where
    W::Item: Summed,
{
    for _ in 0..MOST {
        match walk.next() {
            Ok(Some(item)) => {
                sum.plain(&[1]);
                item.add_to(sum);
            }
            Ok(None) => {
                sum.plain(&[0]);
                return;
            }
            Err(e) => {
                sum.plain(&[2]);
                sum.part_refused(e);
                return;
            }
        }
    }
}

/// Adds what an iterator returns at its end.
fn add_end<W: FallibleIterator>(walk: &mut W, sum: &mut Sum) {
    match walk.next() {
        Ok(Some(_)) => sum.plain(&[1]),
        Ok(None) => sum.plain(&[0]),
        Err(e) => {
            sum.plain(&[2]);
            sum.refusal(e);
        }
    }
}

/// Adds how many items an iterator announces.
fn add_announced<W: FallibleIterator>(walk: &W, sum: &mut Sum) {
    let (least, most) = walk.size_hint();
    sum.plain(&least.to_be_bytes());
    sum.plain(&most.unwrap_or(usize::MAX).to_be_bytes());
}

/// Adds an iterator: what it announces, its items, and its end, which is asked for three times
/// more.
pub(crate) fn add_walk<W: FallibleIterator>(mut walk: W, sum: &mut Sum)
where
    W::Item: Summed,
{
    add_announced(&walk, sum);
    add_items(&mut walk, sum);
    for _ in 0..3 {
        add_end(&mut walk, sum);
    }
    add_announced(&walk, sum);
}
