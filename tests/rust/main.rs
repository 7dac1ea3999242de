//! Tests of public calls, those that cross crates, those of large values with ample memory and of refused memory, of clients, servers and poolers, and of what
//! the programs run. `bindings/rust/cases.py` adds the table of them. They run one after another: all, or those whose names have the word. One that fails ends
//! the program, which says its name.

mod ample;
mod ample_values;
mod calls;
mod checks;
mod client_pieces;
mod days;
mod hostile;
mod memory;
mod newer;
mod programs;
mod reads;
mod session;
mod uses;
mod values;

use erased::kit::asking::disarm;
use erased::kit::calls::Ended;
use std::sync::atomic::{AtomicUsize, Ordering};

static PASSED: AtomicUsize = AtomicUsize::new(0);

fn main() {
    let word = std::env::args().nth(1).unwrap_or_default();
    let chosen: Vec<_> = TESTS.iter().filter(|(name, _)| name.contains(&word)).collect();
    let names: Vec<_> = chosen.iter().map(|(name, _)| *name).collect();
    std::panic::set_hook(Box::new(move |why| {
        disarm();
        let passed = PASSED.load(Ordering::Relaxed);
        println!(
            "{}: {why}\n{passed} passed, 1 failed, {} not tried",
            names[passed],
            names.len() - passed - 1
        );
    }));
    for (_, test) in chosen {
        test();
        PASSED.fetch_add(1, Ordering::Relaxed);
    }
    println!("{} passed, 0 failed", PASSED.load(Ordering::Relaxed));
}
