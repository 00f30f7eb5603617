// Made by `strip` from crates/lexical_write_integer/src/digits/radix/algorithm.rt. Edit that file, not this one.

//! Writing the digits of a number with a table of digit pairs that the caller passes. `Radix` writes them with the
//! table of this library.

use super::by_radix::by_radix;
use super::write_digits;
use crate::num::num::UnsignedInteger;
use crate::write_integer::digits::count::DigitCount;

// Calls `write_digits` for a radix that is known only at run time.
#[inline]
fn write_digits_in_radix<T: UnsignedInteger>(
    value: T,
    radix: u32,
    table: &[u8],
    buffer: &mut [u8],
) -> usize {
    by_radix!(radix, write_digits::<T>(value, table, buffer))
}

// Returns whether the table is long enough for the radix, and has the pair `10` for the number that is the radix, which
// no table of another radix has.
#[inline]
fn begins_with_pairs(radix: u32, table: &[u8]) -> bool {
    let pair = 2 * radix as usize;
    table.len() >= pair * radix as usize && table[pair] == b'1' && table[pair + 1] == b'0'
}

/// Writes the digits of the number to the start of the buffer, and returns how many there are. The radix is
/// from 2 to 36, the table begins with the digit pairs of the radix, and the buffer has room for the
/// digits.
///
/// # Panics
///
/// If the radix is not from 2 to 36, or if the table does not begin with the digit pairs of the radix, or if the buffer
/// is [too short](crate::conditions).
///
/// # Not checked
///
/// Rust checks only the length and one pair of the table. With a table that is otherwise wrong the digits may be wrong.
#[inline]
pub fn algorithm<T: DigitCount>(value: T, radix: u32, table: &[u8], buffer: &mut [u8]) -> usize {
    assert!(
        begins_with_pairs(radix, table),
        "the table does not begin with the digit pairs of the radix"
    );
    write_digits_in_radix(value, radix, table, buffer)
}
