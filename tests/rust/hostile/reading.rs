//! What was read of a stream, result by result.

use super::parts::Parts;
use super::sum::Sum;
use erased::proved::pgp_base::Error;
use erased::proved::pgp_message::{Message, Storage};
use std::fmt::{self, Display};

/// What a frame was read as.
#[derive(Clone, Copy)]
enum Kind {
    /// A message of this name, and the first error among its texts and lists.
    Message(&'static str, Option<Error>),
    Refused(Error),
}

/// A result, and the sum of all that it holds.
#[derive(Clone, Copy)]
pub(crate) struct Entry {
    kind: Kind,
    sum: u64,
}

/// The message's name and what is wrong inside, or the error.
impl Display for Entry {
    fn fmt(&self, f: &mut fmt::Formatter<'_>) -> fmt::Result {
        match self.kind {
            Kind::Message(name, None) => f.write_str(name),
            Kind::Message(name, Some(flaw)) => write!(f, "{name} with {flaw}"),
            Kind::Refused(e) => e.fmt(f),
        }
    }
}

/// Entries are the same where all that they hold is, by its sum.
impl PartialEq for Entry {
    fn eq(&self, other: &Entry) -> bool {
        self.sum == other.sum
    }
}

/// What was read of a stream.
pub(crate) struct Reading {
    pub(crate) entries: Vec<Entry>,
    pub(crate) is_stopped: bool,
    /// How many bytes are left.
    pub(crate) rest: usize,
    /// How many headers were read, where that is counted.
    pub(crate) headers: Option<u64>,
    sum: Sum,
}

impl Reading {
    pub(crate) fn new() -> Reading {
        Reading {
            entries: Vec::new(),
            is_stopped: false,
            rest: 0,
            headers: None,
            sum: Sum::new(),
        }
    }

    fn add(&mut self, kind: Kind, sum: u64) {
        self.sum.plain(&sum.to_be_bytes());
        self.entries.push(Entry { kind, sum });
    }

    fn add_message<S: Storage>(&mut self, message: &Message<S>)
    where
        Message<S>: Parts,
    {
        let name = message.name();
        let mut sum = Sum::new();
        sum.bytes(name.as_bytes());
        message.add_parts(&mut sum);
        self.add(Kind::Message(name, sum.flaw()), sum.value());
    }

    fn add_refusal(&mut self, refusal: Error) {
        let mut sum = Sum::new();
        sum.refusal(refusal);
        self.add(Kind::Refused(refusal), sum.value());
    }

    /// Adds results that a parser has.
    pub(crate) fn add_results<S: Storage>(&mut self, results: &[Result<Message<S>, Error>])
    where
        Message<S>: Parts,
    {
        for result in results {
            match result {
                Ok(message) => self.add_message(message),
                Err(e) => self.add_refusal(*e),
            }
        }
    }

    /// Adds what was read, and says whether reading goes on. A length fault is no result: it stops the stream.
    pub(crate) fn add_step<S: Storage>(&mut self, read: &Result<Option<Message<S>>, Error>) -> bool
    where
        Message<S>: Parts,
    {
        match read {
            Ok(Some(message)) => self.add_message(message),
            Ok(None) => return false,
            Err(Error::InvalidLength) => {
                self.is_stopped = true;
                return false;
            }
            Err(e) => self.add_refusal(*e),
        }
        true
    }

    /// Adds what is left after the results.
    pub(crate) fn end(&mut self, rest: &[u8]) {
        self.rest = rest.len();
        self.sum.plain(&[u8::from(self.is_stopped)]);
        self.sum.bytes(rest);
    }

    /// The sum of all of it.
    pub(crate) fn value(&self) -> u64 {
        self.sum.value()
    }
}

/// The results by name, whether a length fault stopped it, what is left, the sum and the headers, where they are counted.
impl Display for Reading {
    fn fmt(&self, f: &mut fmt::Formatter<'_>) -> fmt::Result {
        for entry in &self.entries {
            write!(f, "{entry} ")?;
        }
        let ended = if self.is_stopped { "stopped" } else { "waits" };
        write!(f, "{ended}, rest {}, {:016x}", self.rest, self.value())?;
        if let Some(headers) = self.headers {
            write!(f, ", headers {headers}")?;
        }
        f.write_str(":")
    }
}
