//! Whether a text is JSON, by the crate `serde_json`.

use super::{AllocError, Global};

pub struct Scratch;

impl Scratch {
    pub fn new(_alloc: Global) -> Scratch {
        Scratch
    }
}

pub fn is_valid(text: &str, _scratch: &mut Scratch) -> Result<bool, AllocError> {
    Ok(::serde_json::from_str::<::serde_json::Value>(text).is_ok())
}
