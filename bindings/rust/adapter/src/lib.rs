//! The byte level of a PostgreSQL client, with the API of `postgres-protocol` 0.6.12: messages, values in the binary format, and what a
//! log-in computes.
//!
//! ```
//! use bytes::BytesMut;
//! use postgres_protocol::message::{backend::Message, frontend};
//!
//! let mut sent = BytesMut::new();
//! frontend::query("SELECT 1", &mut sent)?;
//! assert_eq!(&sent[..], b"Q\0\0\0\x0dSELECT 1\0");
//!
//! let mut received = BytesMut::from(&b"C\0\0\0\x0dSELECT 1\0Z\0\0\0\x05I"[..]);
//! while let Some(message) = Message::parse(&mut received)? {
//!     if let Message::CommandComplete(body) = message {
//!         assert_eq!(body.tag()?, "SELECT 1");
//!     }
//! }
//! # Ok::<(), std::io::Error>(())
//! ```
//!
//! The modules below `proved` are generated: sources whose contracts a machine checked, without these contracts. `kit` stands for what
//! they are proved over, and the other modules give them the API; neither is proved.
#![forbid(unsafe_code)]
#![warn(missing_docs, rust_2018_idioms)]
#![allow(elided_lifetimes_in_paths)]

#[cfg(not(target_pointer_width = "64"))]
compile_error!("postgres-protocol is for processors of 64 bits: its sources were proved for lengths of 64 bits");

pub mod authentication;
pub mod escape;
pub mod message;
pub mod password;
mod status;
pub mod types;

// `postgres-session` stands on these.
#[cfg(not(feature = "parts"))]
mod kit;
#[cfg(feature = "parts")]
#[doc(hidden)]
pub mod kit;
#[cfg(not(feature = "parts"))]
mod proved;
#[cfg(feature = "parts")]
#[doc(hidden)]
pub mod proved;

/// The number of an object of a database.
pub type Oid = u32;

/// A place in a server's log.
pub type Lsn = u64;

pub use proved::pgp_base::IsNull;
