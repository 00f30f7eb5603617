// Made by `strip` from crates/lexical_write_integer/src/digits/padded.rt. Edit that file, not this one.

//! Numbers with leading zeros, as in dates and times.

use super::count::DigitCount;
use super::decimal::decimal_pairs::write_decimal_block;
use super::radix::{Radix, write_in_constant_radix};
use crate::num::limits::is_radix;

// Writes the character `0` to each byte of the buffer.
#[inline]
fn write_zeros(buffer: &mut [u8]) {
    buffer.fill(b'0');
}

/// Returns whether the number, with leading zeros, can have this number of decimal digits: it is below `10.pow(width)`.
#[must_use]
#[inline]
pub fn fits_decimal_width(number: u64, width: usize) -> bool {
    // Every number is below 10^20. A constant power costs nothing in rustc.
    width >= 20 || number < 10u64.pow(width as u32)
}

/// Writes the number with leading zeros over the whole buffer, and returns the length of the buffer.
/// The radix is from 2 to 36, and the number is below the radix to the power of that length.
///
/// ```
/// use cojimuran::padded::write_padded;
///
/// let mut buffer = [0; 4];
/// write_padded(255u8, 16, &mut buffer);
/// assert_eq!(&buffer, b"00FF");
/// ```
///
/// # Panics
///
/// If the radix is not from 2 to 36, or if the number has more digits than the buffer has bytes.
#[inline(always)]
#[track_caller]
pub fn write_padded<T: DigitCount + Radix>(value: T, radix: u32, buffer: &mut [u8]) -> usize {
    let number = value.as_u64();
    if radix == 10 {
        assert!(
            fits_decimal_width(number, buffer.len()),
            "the number has more digits than the width"
        );
        write_decimal_block(number, buffer);
        return buffer.len();
    }
    if buffer.is_empty() {
        // The digit of 0 does not fit, and no other number is without digits.
        assert!(is_radix(u64::from(radix)), "the radix is not from 2 to 36");
        assert!(number == 0, "the number has more digits than the width");
        return 0;
    }
    let count = value.digit_count(radix);
    assert!(
        count <= buffer.len(),
        "the number has more digits than the width"
    );
    let zeros = buffer.len() - count;
    write_zeros(&mut buffer[..zeros]);
    zeros + write_in_constant_radix(value, radix, &mut buffer[zeros..])
}
