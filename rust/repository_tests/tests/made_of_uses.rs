//! The callers of `crates/uses` and their tests, which `strip` makes.

#![allow(unused, clippy::all, reason = "they are written for Rattle")]
// A test that returns before its end would pass.
#![deny(unreachable_code)]

mod uses {
    include!(concat!(env!("OUT_DIR"), "/uses/lib.rs"));
}
