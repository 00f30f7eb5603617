// Made by `strip` from crates/lexical_parts/src/layout/fill.rt. Edit that file, not this one.

//! Runs of one byte, before a text and after it.

use super::column::Left;
use crate::parts::part::Part;
use core::fmt;

// Writes `count` copies of the byte to the start of the buffer, and returns `count`.
#[inline]
pub(crate) fn write_fill(fill: u8, count: usize, buffer: &mut [u8]) -> usize {
    buffer[..count].fill(fill);
    count
}

// Moves the first `count` bytes of the buffer to the right, and writes `more` copies of the byte before them.
#[inline]
pub(crate) fn insert_fill(fill: u8, more: usize, count: usize, buffer: &mut [u8]) {
    buffer.copy_within(..count, more);
    buffer[..more].fill(fill);
}

// The most copies of a byte that are written with one call.
const RUN: usize = 64;

// Writes copies of a byte to a writer.
#[inline]
pub(crate) fn write_copies<O: fmt::Write>(byte: u8, count: usize, out: &mut O) -> fmt::Result {
    for _ in 0..count / RUN {
        write_run(byte, RUN, out)?;
    }
    write_run(byte, count % RUN, out)
}

// Writes copies of a byte to a writer with one call.
#[inline]
fn write_run<O: fmt::Write>(byte: u8, count: usize, out: &mut O) -> fmt::Result {
    out.write_str(Left("", count, byte).to_str(&mut [0; RUN]))
}
