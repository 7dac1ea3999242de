//! PostgreSQL's protocol for whoever writes a driver, a pooler or a test server: state machines that take received bytes and return messages
//! and the bytes to send, without sockets and without threads.
//!
//! - [`Connection`]: a client's connection, with its log-in, its requests, and which of the server's messages answers which of them.
//! - [`serving`]: a server's core; [`pooler`], [`proxy`]: what stands between a client and a server.
//! - [`message`]: a server's messages read in place and written, a client's messages read.
//! - [`dialogue`]: which message answers which request, for who has a connection of his own.
//! - [`scram`]: both sides of SCRAM-SHA-256, and SASLprep; [`values`]: `numeric`, `interval`, `jsonb` and more in the binary format.
//!
//! What a client writes, and the values of the common types, are `postgres-protocol`'s, on which this stands. A call that allocates takes
//! [`Global`] as its first argument.
//!
//! ```
//! use postgres_session::{Connection, Event, Global, Ways, message::client::ClientMessage};
//!
//! // A server that asks for no password; `Ways` says by which ways the client lets itself be asked.
//! let ways = Ways { scram: None, md5: None, cleartext: None, none: true, least_rounds: 1, encrypted: false };
//! let mut connection = Connection::new(Global, ways, 1 << 20);
//! let startup = connection.start(&[("user", "alice")])?;
//! let to_send = connection.to_send().len();
//! connection.sent(to_send);
//!
//! // The server's bytes, in chunks.
//! for chunk in [&b"R\0\0\0\x08\0\0"[..], b"\0\0Z\0\0\0\x05I"] {
//!     connection.feed(chunk)?;
//!     while let Some((event, _)) = connection.next()? {
//!         assert!(matches!(event, Event::Part(name) | Event::Last(name) if name == startup));
//!     }
//! }
//! assert!(connection.is_logged_in());
//!
//! let query = connection.send(&ClientMessage::Query(b"SELECT 1"))?;
//! assert_eq!(connection.to_send(), b"Q\0\0\0\x0dSELECT 1\0");
//! connection.feed(b"C\0\0\0\x0dSELECT 1\0Z\0\0\0\x05I")?;
//! assert!(matches!(connection.next()?, Some((Event::Part(name), _)) if name == query));
//! assert!(matches!(connection.next()?, Some((Event::Last(name), _)) if name == query));
//! # Ok::<(), postgres_session::ConnectionError>(())
//! ```
//!
//! The modules below `proved` are generated: sources whose contracts a machine checked, without these contracts; the others are not proved.
//! Conditions of a call (`requires`) are assertions here, which `README.md` lists.
#![forbid(unsafe_code)]
#![warn(missing_docs, rust_2018_idioms)]
#![allow(elided_lifetimes_in_paths)]

pub mod dialogue;
mod errors;
pub mod message;
mod proved;
pub mod scram;
pub mod values;
mod versions;

pub(crate) use postgres_protocol::kit;

pub use bytes::{Bytes, BytesMut};
pub use dialogue::Event;
pub use message::in_place::Message;
pub use postgres_protocol::kit::{AllocError, AllocFailed, Global};
pub use postgres_protocol::proved::pgp_base::{BindError, Buffer, Error, FallibleIterator, IsNull, Window};
pub use proved::pgp_session::*;
pub use versions::VersionsError;
pub use proved::pgp_stream::{parse_stream, ClientStream, Parsed, StreamParser};
