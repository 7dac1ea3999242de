//! Texts as parts of an SQL command. Where a query's parameter serves, use that.

use crate::kit::Global;
use crate::proved::pgp_auth::escape;
use crate::status::ample;

/// The text as a string constant, right under either setting of `standard_conforming_strings`.
pub fn escape_literal(input: &str) -> String {
    ample(escape::escape_literal(Global, input))
}

/// The text as a quoted identifier.
pub fn escape_identifier(input: &str) -> String {
    ample(escape::escape_identifier(Global, input))
}
