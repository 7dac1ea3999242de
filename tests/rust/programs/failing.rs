//! Readers and writers for the tests: those that fail, and those that give what they have in pieces.

use erased::proved::pgtrace_session::files::Recordings;
use std::io::{self, Read, Write};

/// A reader that gives these bytes, so many at a time, and then fails.
pub struct FailingReader<'a> {
    pub rest: &'a [u8],
    pub step: usize,
}

impl Read for FailingReader<'_> {
    fn read(&mut self, buf: &mut [u8]) -> io::Result<usize> {
        let n = self.rest.len().min(self.step).min(buf.len());
        if n == 0 {
            return Err(io::Error::from(io::ErrorKind::ConnectionReset));
        }
        let (piece, rest) = self.rest.split_at(n);
        buf[..n].copy_from_slice(piece);
        self.rest = rest;
        Ok(n)
    }
}

/// A reader that ends a piece after each byte whose bit is set, the lowest bit for the first byte. It is interrupted before each piece.
pub struct PieceReader<'a> {
    pub rest: &'a [u8],
    pub cuts: u64,
    pub interrupted: bool,
}

impl Read for PieceReader<'_> {
    fn read(&mut self, buf: &mut [u8]) -> io::Result<usize> {
        self.interrupted = !self.interrupted;
        if self.interrupted {
            return Err(io::Error::from(io::ErrorKind::Interrupted));
        }
        let ends = self.cuts.trailing_zeros() as usize;
        let n = (ends + 1).min(self.rest.len()).min(buf.len());
        let (piece, rest) = self.rest.split_at(n);
        buf[..n].copy_from_slice(piece);
        self.rest = rest;
        self.cuts = if n < 64 { self.cuts >> n } else { 0 };
        Ok(n)
    }
}

/// A writer that takes so many bytes, one at a time, and then fails; its flush fails where it has none left to take.
pub struct FailingWriter {
    pub left: usize,
    pub taken: Vec<u8>,
}

impl Write for FailingWriter {
    fn write(&mut self, buf: &[u8]) -> io::Result<usize> {
        if self.left == 0 || buf.is_empty() {
            return Err(io::Error::from(io::ErrorKind::BrokenPipe));
        }
        self.taken.push(buf[0]);
        self.left -= 1;
        Ok(1)
    }

    fn flush(&mut self) -> io::Result<()> {
        if self.left == 0 {
            return Err(io::Error::from(io::ErrorKind::BrokenPipe));
        }
        Ok(())
    }
}

/// A reader beside which there are no files.
pub struct Alone<R>(pub R);

impl<R: Read> Read for Alone<R> {
    fn read(&mut self, buf: &mut [u8]) -> io::Result<usize> {
        self.0.read(buf)
    }
}

impl<R: Read> Recordings for Alone<R> {
    type File = io::Empty;

    fn open(&self, _name: &str) -> io::Result<io::Empty> {
        Err(io::Error::from(io::ErrorKind::NotFound))
    }
}
