//! Regular expressions by the crate `regex`.

use super::{AllocError, Global};

pub enum Error {
    OutOfMemory,
    Other,
}

pub struct Regex(::regex::Regex);

pub struct Matcher<'a>(&'a Regex);

impl Regex {
    pub fn new(_alloc: Global, pattern: &str) -> Result<Regex, Error> {
        ::regex::Regex::new(pattern).map(Regex).map_err(|_| Error::Other)
    }

    pub fn matcher(&self, _alloc: Global) -> Result<Matcher<'_>, AllocError> {
        Ok(Matcher(self))
    }
}

impl Matcher<'_> {
    pub fn is_match(&mut self, text: &str) -> bool {
        self.0 .0.is_match(text)
    }
}
