//! What a program is handed, as Rattle's `std` has it: standard input, output and errors with no buffer, the words, the clock.

use super::Global;
use std::fs::File;
use std::io;
use std::os::unix::ffi::OsStrExt;
use std::os::unix::io::{AsFd, BorrowedFd};
use std::time::Duration;

#[derive(Clone, Copy)]
pub struct HostRuntime;

#[derive(Debug, Clone, Copy, PartialEq, Eq)]
pub enum FillError {
    NotPresent,
    TooLong,
}

pub trait Env {
    fn arg(&self, place: usize, buffer: &mut [u8]) -> Result<usize, FillError>;

    fn var(&self, _name: &str, _buffer: &mut [u8]) -> Result<usize, FillError> {
        Err(FillError::NotPresent)
    }

    fn var_at(&self, _place: usize, _buffer: &mut [u8]) -> Result<usize, FillError> {
        Err(FillError::NotPresent)
    }
}

pub trait Files {}

impl Files for HostRuntime {}

pub trait Print {}

impl Print for HostRuntime {}

pub trait AllocGlobal {
    fn alloc(&self) -> Global {
        Global
    }
}

impl AllocGlobal for HostRuntime {}

impl Env for HostRuntime {
    fn arg(&self, place: usize, buffer: &mut [u8]) -> Result<usize, FillError> {
        let word = std::env::args_os().nth(place).ok_or(FillError::NotPresent)?;
        let room = buffer.get_mut(..word.len()).ok_or(FillError::TooLong)?;
        room.copy_from_slice(word.as_bytes());
        Ok(word.len())
    }
}

/// The words of the program, its own first.
pub struct Words;

pub fn args(_rt: &HostRuntime) -> io::Result<Words> {
    Ok(Words)
}

impl Words {
    pub fn collect(self, _alloc: Global) -> io::Result<Vec<String>> {
        let text = |word: std::ffi::OsString| word.into_string().map_err(|_| io::ErrorKind::InvalidData.into());
        std::env::args_os().map(text).collect()
    }
}

pub struct Instant(std::time::Instant);

impl Instant {
    pub fn now(_rt: &HostRuntime) -> io::Result<Instant> {
        Ok(Instant(std::time::Instant::now()))
    }

    pub fn elapsed(&self, _rt: &HostRuntime) -> io::Result<Duration> {
        Ok(self.0.elapsed())
    }
}

fn raw(stream: BorrowedFd<'_>) -> File {
    File::from(stream.try_clone_to_owned().expect("a standard stream"))
}

impl HostRuntime {
    pub fn reader(&self) -> File {
        raw(io::stdin().as_fd())
    }

    pub fn stdout(&self) -> File {
        raw(io::stdout().as_fd())
    }

    pub fn stderr(&self) -> File {
        raw(io::stderr().as_fd())
    }
}

pub fn writer(rt: &HostRuntime) -> File {
    rt.stdout()
}
