// Made by `strip` from crates/lexical_parts/src/texts.rt. Edit that file, not this one.

//! Parts that are strings, words, characters or bytes, and parts that change the text of another part or stand for it.

pub(crate) mod bytes;
mod chars;
pub(crate) mod hex_bytes;
pub(crate) mod strings;
mod words;

// The text of another part in lowercase, if there is one, and by a reference.
pub(crate) mod lower;
pub(crate) mod option;
mod reference;
