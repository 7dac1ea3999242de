//! What the programs `pgwire` and `pgtrace` run, with their input cut, and with their readers and writers failing.

mod failing;
mod listing;
mod process;
mod wire;
