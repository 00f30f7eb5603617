//! The tests of `crates/tests`, which `strip` makes.

#![allow(unused, clippy::all, reason = "they are written for Rattle")]
// A test that returns before its end would pass.
#![deny(unreachable_code)]

include!(concat!(env!("OUT_DIR"), "/tests/lib.rs"));
