//! What no row of `test_rows` says of each crate's public calls. They stand here and not in those crates, since a crate with
//! tests is proved once with them and once without.

mod arrays;
mod auth;
mod base;
mod frontend;
mod latin1;
mod message;
mod protocol;
mod ranges;
mod records;
mod reply;
mod row_index;
mod server;
