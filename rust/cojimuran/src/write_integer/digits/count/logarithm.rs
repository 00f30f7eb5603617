// Made by `strip` from crates/lexical_write_integer/src/digits/count/logarithm.rt. Edit that file, not this one.

//! Logarithms, rounded down, from which digits are counted.

use crate::num::num::UnsignedInteger;

/// Returns the logarithm to base 2, rounded down, which is the position of the highest set bit. It is 0
/// for 0.
#[must_use]
#[inline(always)]
#[track_caller]
pub fn fast_log2<T: UnsignedInteger>(x: T) -> usize {
    // With the last bit set, the number is known not to be 0, and so its logarithm is one instruction.
    (x.as_u64() / 2 * 2 + 1).ilog2() as usize
}

/// Returns the logarithm to base 10 of the largest power of 2 that is at most the number, rounded down,
/// and 0 for 0.
#[must_use]
#[inline]
pub fn fast_log10<T: UnsignedInteger>(x: T) -> usize {
    // 1233 / 4096 is close enough to the logarithm of 2 for the bit positions of 64 bits.
    (fast_log2(x) * 1233) >> 12
}
