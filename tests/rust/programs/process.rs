//! A process of a test's own.

use erased::kit::host::Env;
use erased::kit::host::FillError;

/// The words of a process, the first of which is its name; one without a name has none.
pub struct Words<'a> {
    pub name: Option<&'a [u8]>,
    pub words: &'a [&'a str],
}

impl Words<'_> {
    /// The word at this place.
    fn word(&self, i: usize) -> Option<&[u8]> {
        let name = self.name?;
        match i.checked_sub(1) {
            None => Some(name),
            Some(i) => Some(self.words.get(i)?.as_bytes()),
        }
    }
}

impl Env for Words<'_> {
    fn arg(&self, i: usize, buf: &mut [u8]) -> Result<usize, FillError> {
        let Some(word) = self.word(i) else {
            return Err(FillError::NotPresent);
        };
        let n = word.len();
        if buf.len() < n {
            return Err(FillError::TooLong);
        }
        buf[..n].copy_from_slice(word);
        Ok(n)
    }

    fn var(&self, _name: &str, _buf: &mut [u8]) -> Result<usize, FillError> {
        Err(FillError::NotPresent)
    }

    fn var_at(&self, _i: usize, _buf: &mut [u8]) -> Result<usize, FillError> {
        Err(FillError::NotPresent)
    }
}
