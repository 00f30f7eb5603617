// Made by `strip` from crates/lexical_write_integer/src/digits/radix/compact.rt. Edit that file, not this one.

//! The compact writer, which writes one digit per iteration.

use super::by_radix::by_radix;
use crate::num::constants::FormattedSize;
use crate::num::digit::digit_to_char;
use crate::num::num::UnsignedInteger;
use crate::write_integer::buffer::copy_to_front;

// The number of digits of the largest `u64` in radix 2.
const MOST_DIGITS: usize = 64;

// Returns the character of a digit in this radix. In radix 10 and below it is computed.
#[inline]
fn char_of<const R: u32>(digit: u32) -> u8 {
    if R <= 10 {
        b'0' + digit as u8
    } else {
        digit_to_char(digit)
    }
}

// Writes the digits of a number to the end of the buffer, the last digit first, and returns the index
// of the first digit.
#[inline]
fn write_to_end<const R: u32>(value: u64, buffer: &mut [u8]) -> usize {
    let radix = u64::from(R);
    let mut index = buffer.len();
    let mut left = value;
    while left >= radix {
        let next = left / radix;
        index -= 1;
        buffer[index] = char_of::<R>((left % radix) as u32);
        left = next;
    }
    index -= 1;
    buffer[index] = char_of::<R>(left as u32);
    index
}

// Writes the digits of a number to the start of the buffer. Returns how many there are.
#[inline]
fn write_each_digit<const R: u32>(value: u64, buffer: &mut [u8]) -> usize {
    // The last digit is computed first, so the digits go to a temporary array.
    let mut digits = [0u8; MOST_DIGITS];
    let index = write_to_end::<R>(value, &mut digits);
    copy_to_front(&digits[index..], buffer)
}

// Calls `write_each_digit` for a radix that is known only at run time.
#[inline]
fn write_each_digit_in(value: u64, radix: u32, buffer: &mut [u8]) -> usize {
    by_radix!(radix, write_each_digit(value, buffer))
}

/// Writes the digits of the number to the start of the buffer, and returns how many there are. The radix is
/// from 2 to 36, and the buffer has room for the digits. There is one division for each digit after the first.
#[inline]
pub(crate) fn compact<T: UnsignedInteger>(value: T, radix: u32, buffer: &mut [u8]) -> usize {
    write_each_digit_in(value.as_u64(), radix, buffer)
}

/// An unsigned integer type, with a writer of digits that takes little code: it divides once for each digit after the
/// first, and uses no table.
///
/// ```
/// use cojimuran::compact::Compact;
///
/// let mut buffer = [0; 16];
/// let count = 255u32.compact(16, &mut buffer);
/// assert_eq!(&buffer[..count], b"FF");
/// ```
pub trait Compact: UnsignedInteger + FormattedSize {
    /// Writes the digits of the number to the start of the buffer, and returns how many there are. The radix
    /// must be from 2 to 36, and the buffer must have room for the digits.
    ///
    /// # Panics
    ///
    /// If the radix is not from 2 to 36, or if the buffer is [too short](crate::conditions).
    #[inline]
    fn compact(self, radix: u32, buffer: &mut [u8]) -> usize {
        compact(self, radix, buffer)
    }
}

impl<T: UnsignedInteger + FormattedSize> Compact for T {}
