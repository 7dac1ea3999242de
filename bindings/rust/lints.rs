// What isn't clean in the generated modules, by single lints; any other is a warning.
// Of the sources stand here all parts, of which the library for C and the programs call some, and `postgres-session` more.
#![allow(dead_code, unused_imports)]
// The allocator is handed on, and here it is the global one.
#![allow(unused_variables, clippy::let_unit_value)]
// The sources say what a field is at its struct, and write lifetimes where Rattle asks for them (paths without: at the crate's head).
#![allow(missing_docs, clippy::needless_lifetimes)]
// Where contracts stood: after the text about a function, and between its parts.
#![allow(clippy::empty_line_after_doc_comments)]
// Names and signatures are those of the proved API: a `clone` that may fail, a `next` with an error, a `len` that is a field of a message.
#![allow(clippy::should_implement_trait, clippy::len_without_is_empty, clippy::new_without_default, clippy::type_complexity)]
#![allow(clippy::too_many_arguments)]
// What Rust's std has a shorter call for is written out where Rattle's has none, or where a proof goes by the cases.
#![allow(clippy::match_like_matches_macro, clippy::redundant_pattern_matching, clippy::question_mark, clippy::manual_ok_err, clippy::manual_map)]
#![allow(clippy::manual_is_ascii_check, clippy::manual_range_contains, clippy::manual_find, clippy::manual_unwrap_or_default)]
#![allow(clippy::mem_replace_with_default, clippy::needless_range_loop, clippy::nonminimal_bool, clippy::explicit_auto_deref)]
// What Rattle has to drop by hand has nothing to drop here.
#![allow(clippy::drop_non_drop)]
