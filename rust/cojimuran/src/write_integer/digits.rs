// Made by `strip` from crates/lexical_write_integer/src/digits.rt. Edit that file, not this one.

//! The digits of a number in any radix, without a sign: how many there are, and the writers.

// How many digits a number has.
pub mod count;

// Two digits at a time, from a table.
mod pairs;

// Radix 10: `jeaiii` writes two digits at a time.
pub mod decimal;

// Every radix: `radix` has the tables of digit pairs, `algorithm` takes one, and `compact` uses none.
pub mod radix;

// Each radix with the writer that is fastest for it.
pub mod write;

// Leading zeros to a fixed width.
pub mod padded;
