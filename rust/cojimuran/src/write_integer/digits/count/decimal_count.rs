// Made by `strip` from crates/lexical_write_integer/src/digits/count/decimal_count.rt. Edit that file, not this one.

//! Counting decimal digits without a loop.

use super::logarithm::{fast_log2, fast_log10};
use crate::num::num::UnsignedInteger;

// One digit, in a sum whose high 32 bits count digits.
const ONE: u64 = 1 << 32;

// Indexed by the position of the highest set bit. The high 32 bits of `number + entry` are the digit
// count. If a power of ten lies among the numbers with that highest bit, the entry is the larger count
// minus that power, so only the numbers from that power upwards carry into the larger count. Otherwise the entry is the
// count after the next power of ten minus that power, or, if no such power is below 2^32, the count.
const DIGITS_BY_LOG2: [u64; 32] = [
    ONE,
    2 * ONE - 10,
    2 * ONE - 10,
    2 * ONE - 10,
    3 * ONE - 100,
    3 * ONE - 100,
    3 * ONE - 100,
    4 * ONE - 1000,
    4 * ONE - 1000,
    4 * ONE - 1000,
    5 * ONE - 10000,
    5 * ONE - 10000,
    5 * ONE - 10000,
    5 * ONE - 10000,
    6 * ONE - 100000,
    6 * ONE - 100000,
    6 * ONE - 100000,
    7 * ONE - 1000000,
    7 * ONE - 1000000,
    7 * ONE - 1000000,
    8 * ONE - 10000000,
    8 * ONE - 10000000,
    8 * ONE - 10000000,
    8 * ONE - 10000000,
    9 * ONE - 100000000,
    9 * ONE - 100000000,
    9 * ONE - 100000000,
    10 * ONE - 1000000000,
    10 * ONE - 1000000000,
    10 * ONE - 1000000000,
    10 * ONE,
    10 * ONE,
];

// The powers of ten from 10 upwards that fit in 64 bits.
const POWERS_OF_TEN: [u64; 19] = [
    10,
    100,
    1000,
    10000,
    100000,
    1000000,
    10000000,
    100000000,
    1000000000,
    10000000000,
    100000000000,
    1000000000000,
    10000000000000,
    100000000000000,
    1000000000000000,
    10000000000000000,
    100000000000000000,
    1000000000000000000,
    10000000000000000000,
];

/// Returns how many decimal digits the number has. The method is from Lemire, "Computing the
/// number of digits of an integer even faster".
#[must_use]
#[inline]
pub fn fast_digit_count(x: u32) -> usize {
    let entry = DIGITS_BY_LOG2[fast_log2(x)];
    ((u64::from(x) + entry) >> 32) as usize
}

/// Returns how many decimal digits the number has. The table holds the powers of ten from 10
/// upwards that fit in the type, in rising order, and nothing else.
///
/// # Not checked
///
/// Rust does not check what the table holds. With another table the result may be wrong.
#[must_use]
#[inline]
pub fn fallback_digit_count<T: UnsignedInteger>(x: T, table: &[T]) -> usize {
    let log10 = fast_log10(x);
    if log10 < table.len() && x.is_at_least(table[log10]) {
        log10 + 2
    } else {
        log10 + 1
    }
}

/// An unsigned integer type whose decimal digits are counted without a loop.
pub trait DecimalCount: UnsignedInteger {
    /// Returns how many decimal digits the number has.
    #[must_use]
    #[inline]
    fn decimal_count(self) -> usize {
        if Self::BITS == 64 {
            fallback_digit_count(self.as_u64(), &POWERS_OF_TEN)
        } else {
            fast_digit_count(self.as_u32())
        }
    }
}

impl<T: UnsignedInteger> DecimalCount for T {}
