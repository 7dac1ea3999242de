//! A client's connection with a server's core, and a pooler's core. A connection alone has rows (`test_rows`).

mod both_ends;
mod dice;
mod log_in;
mod pooled;
