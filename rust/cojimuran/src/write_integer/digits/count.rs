// Made by `strip` from crates/lexical_write_integer/src/digits/count.rt. Edit that file, not this one.

//! Counting the digits of a number in any radix.

pub mod decimal_count;
pub mod logarithm;

use crate::num::limits::is_radix;
use crate::num::num::UnsignedInteger;
use decimal_count::DecimalCount;
pub use logarithm::fast_log2;

// Returns `radix.pow(exponent)`, or `None` if it does not fit in the type. Then every number of the type is
// smaller, so nothing is left to divide by it.
#[inline]
fn power_of<T: UnsignedInteger>(radix: u32, exponent: u32) -> Option<T> {
    let power = radix.pow(exponent);
    if T::BITS >= 32 || power >> T::BITS == 0 {
        Some(T::from_u32(power))
    } else {
        None
    }
}

// Returns the quotient of the number and a power of the radix.
#[inline]
fn quotient<T: UnsignedInteger>(number: T, power: T) -> T {
    let (left, _) = number.div_rem(power);
    left
}

// Removes the last `step` digits of the number per iteration, while it has more than `step` digits.
// Returns the remaining quotient and the number of digits that were removed.
#[inline]
fn remove_digits_by<T: UnsignedInteger>(value: T, radix: u32, step: u32) -> (T, usize) {
    let Some(power) = power_of::<T>(radix, step) else {
        return (value, 0);
    };
    let mut left = value;
    let mut removed = 0;
    while left.is_at_least(power) {
        left = quotient(left, power);
        removed += step as usize;
    }
    (left, removed)
}

/// Returns how many digits the number has. They are counted by division: four per iteration while more
/// than four are left, then two, and then one. The radix is from 2 to 36.
#[inline]
pub(crate) fn slow_digit_count<T: UnsignedInteger>(x: T, radix: u32) -> usize {
    assert!(is_radix(radix as u64), "the radix is not from 2 to 36");
    let (left, by_four) = remove_digits_by(x, radix, 4);
    let (left, by_two) = remove_digits_by(left, radix, 2);
    let (_, by_one) = remove_digits_by(left, radix, 1);
    1 + by_four + by_two + by_one
}

// Returns whether the digits in the radix are counted without division: from the highest set bit or with a table.
#[inline]
pub(crate) fn has_fast_count(radix: u32) -> bool {
    radix == 2 || radix == 4 || radix == 8 || radix == 10 || radix == 16 || radix == 32
}

/// Returns how many digits the number has. They are counted from the highest set bit if the radix is a
/// power of 2, by `decimal_count` in radix 10, and otherwise by division. The radix is from 2 to 36.
#[inline(always)]
#[track_caller]
pub(crate) fn digit_count<T: DecimalCount>(x: T, radix: u32) -> usize {
    assert!(is_radix(radix as u64), "the radix is not from 2 to 36");
    match radix {
        2 => fast_log2(x) + 1,
        // By 2 and by 4, which are shifts, the sum first takes fewer instructions.
        4 => (fast_log2(x) + 2) / 2,
        8 => fast_log2(x) / 3 + 1,
        16 => (fast_log2(x) + 4) / 4,
        32 => fast_log2(x) / 5 + 1,
        10 => x.decimal_count(),
        _ => slow_digit_count(x, radix),
    }
}

/// Returns a number of digits that is enough for each number of the type in the radix, which is from 2 to 36. It takes
/// fewer instructions than to count the digits of one number, and may be more than the longest number has.
///
/// ```
/// use cojimuran::digit_count::most_digits;
///
/// assert_eq!((most_digits::<u64>(36), most_digits::<u8>(10)), (13, 3));
/// ```
#[doc(hidden)]
#[must_use]
#[inline(always)]
#[track_caller]
pub fn most_digits<T: UnsignedInteger>(radix: u32) -> usize {
    assert!(is_radix(radix as u64), "the radix is not from 2 to 36");
    // A digit has at least as many bits as the logarithm of the radix.
    (T::BITS - 1) / fast_log2(radix) + 1
}

/// An unsigned integer type whose digits are counted in every radix.
#[diagnostic::on_unimplemented(
    message = "`{Self}` is not an unsigned integer type that this crate writes",
    note = "a literal needs a type, such as `255u8`; a signed number in a radix is written by `Formatted`, one with \
    leading zeros by `ZeroPadded`, and one of 128 bits by `Displayed`"
)]
pub trait DigitCount: DecimalCount {
    /// Returns how many digits the number has. The radix is from 2 to 36.
    ///
    /// # Panics
    ///
    /// If the radix is not from 2 to 36.
    #[must_use]
    #[inline(always)]
    #[track_caller]
    fn digit_count(self, radix: u32) -> usize {
        digit_count(self, radix)
    }

    /// Returns how many digits the number has, as `digit_count` does, but counts them by division.
    /// The radix is from 2 to 36.
    ///
    /// # Panics
    ///
    /// If the radix is not from 2 to 36.
    #[must_use]
    #[inline]
    fn slow_digit_count(self, radix: u32) -> usize {
        slow_digit_count(self, radix)
    }
}

impl<T: DecimalCount> DigitCount for T {}
