// Made by `strip` from crates/lexical_write_integer/src/digits/pairs.rt. Edit that file, not this one.

//! Tables of the pairs of digits of a radix: `00`, `01` and so on.

use crate::tables::get_table;

// A table that begins with the digit pairs of the radix `R`, one for each number below the square of the radix.
#[derive(Clone, Copy)]
pub(super) struct RadixTable<'a, const R: u32> {
    pub(super) pairs: &'a [u8],
}

impl<const R: u32> RadixTable<'static, R> {
    // Returns the table that `get_table` returns.
    #[inline(always)]
    #[track_caller]
    pub(super) fn new() -> Self {
        RadixTable {
            pairs: get_table(R),
        }
    }
}

impl<const R: u32> RadixTable<'_, R> {
    // Writes the pair of a number at index `at`.
    #[inline(always)]
    #[track_caller]
    pub(super) fn write(self, number: u32, buffer: &mut [u8], at: usize) {
        let index = 2 * number as usize;
        let pair = &self.pairs[index..index + 2];
        // rustc tests the end of each slice once. Both bytes are read first, so a compiler moves them as one number.
        let (first, second) = (pair[0], pair[1]);
        let written = &mut buffer[at..at + 2];
        written[1] = second;
        written[0] = first;
    }
}
