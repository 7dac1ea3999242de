//! The examples of `pgp_uses`, a log-in's two ends, and a proxy.

mod arrays;
mod calls;
mod client_rows;
mod logins;
mod serving;
mod sides;
mod statements;
