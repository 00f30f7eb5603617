// Made by `strip` from crates/lexical_write_integer/src/texts.rt. Edit that file, not this one.

//! The texts of numbers: a sign, and then the digits in the groups of the format.

pub mod groups;
mod integers;
pub mod to_lexical;
