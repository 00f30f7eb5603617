// Made by `strip` from crates/lexical_num/src/digit.rt. Edit that file, not this one.

//! The characters of digits.

// The characters of the digits, in order.
const CHARACTERS: [u8; 36] = *b"0123456789ABCDEFGHIJKLMNOPQRSTUVWXYZ";

/// Returns the character of a digit: `0` to `9` for a digit below ten, and `A` for 10 to `Z` for 35. The
/// digit is below 36.
///
/// # Panics
///
/// If the digit is 36 or above.
#[must_use]
#[inline]
pub const fn digit_to_char(digit: u32) -> u8 {
    CHARACTERS[digit as usize]
}
