//! The sources without their contracts, over stand-ins for Rattle's kit: nothing of it is proved.
#![forbid(unsafe_code)]
#![allow(unknown_lints, unused, dropping_copy_types, clippy::all)]

#[cfg(not(target_pointer_width = "64"))]
compile_error!("this build is for processors of 64 bits: its sources were proved for lengths of 64 bits");

pub mod kit;
pub mod proved;
