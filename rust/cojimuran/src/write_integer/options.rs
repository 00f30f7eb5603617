// Made by `strip` from crates/lexical_write_integer/src/options.rt. Edit that file, not this one.

//! The options of writing an integer, which have no fields yet.

pub use crate::num::options::{Options, OptionsBuilder, STANDARD, WriteOptions};
