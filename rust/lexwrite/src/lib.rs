//! Answers lines that request numbers as text, in blocks of bytes, over any reader and writer. The program `lexwrite`
//! does so over the standard streams. `build.rs` makes the module of the sources that are proved.
//!
//! # Conditions
//!
//! With a buffer that is too short, a call panics, or its text fits all the same and is right. The documentation of a
//! call says which of its conditions are not checked.

#![forbid(unsafe_code)]
#![warn(missing_docs, clippy::missing_errors_doc)]

// Only this package calls `parse`, with lines of at most 64 bytes, as its contract requires.
#[doc = include_str!(concat!(env!("OUT_DIR"), "/lexical_lines/lib.md"))]
#[allow(unused_imports, reason = "only contracts use the methods of some traits")]
#[allow(clippy::new_without_default, reason = "an answerer is at the start of an input")]
#[allow(clippy::needless_range_loop, clippy::manual_find, reason = "the prover knows the index of a newline")]
#[allow(clippy::len_without_is_empty, reason = "the length of what a sink took is not that of a collection")]
pub mod lines {
    include!(concat!(env!("OUT_DIR"), "/lexical_lines/lib.rs"));
}
