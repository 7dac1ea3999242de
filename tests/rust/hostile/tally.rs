//! How often each thing came.

use std::fmt::{self, Display};

/// How often each name came, in the order in which they came first.
#[derive(Default)]
pub(crate) struct Tally(Vec<(String, u64)>);

impl Tally {
    /// The name came once more.
    pub(crate) fn add(&mut self, name: impl Display) {
        let name = name.to_string();
        match self.0.iter_mut().find(|(known, _)| *known == name) {
            Some((_, count)) => *count += 1,
            None => self.0.push((name, 1)),
        }
    }
}

/// The names and how often each came, with a comma between two.
impl Display for Tally {
    fn fmt(&self, f: &mut fmt::Formatter<'_>) -> fmt::Result {
        let counts: Vec<_> = self.0.iter().map(|(name, count)| format!("{name} {count}")).collect();
        f.write_str(&counts.join(", "))
    }
}
