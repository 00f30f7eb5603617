// Made by `strip` from crates/lexical_write_integer/src/digits/radix/steps.rt. Edit that file, not this one.

//! The steps of the writers, each for two or four digits: removing them from a number, and writing them from a table of
//! digit pairs.

use crate::write_integer::digits::pairs::RadixTable;

// Returns the fourth power of the radix: the divisor that removes four digits.
#[inline(always)]
#[track_caller]
pub(super) fn fourth_power(radix: u32) -> u64 {
    let square = u64::from(radix * radix);
    square * square
}

// Returns the last four digits of a number, as a number.
#[inline(always)]
#[track_caller]
pub(super) fn last_four<const R: u32>(value: u64) -> u32 {
    (value % fourth_power(R)) as u32
}

// Returns the number without its last four digits.
#[inline(always)]
#[track_caller]
pub(super) fn remove_four<const R: u32>(value: u64) -> u64 {
    value / fourth_power(R)
}

// Returns a number of up to four digits without its last two.
#[inline(always)]
#[track_caller]
pub(super) fn remove_two<const R: u32>(number: u64) -> u64 {
    number / u64::from(R * R)
}

// Returns how many digits a number of one or two digits has, by a division.
#[inline(always)]
#[track_caller]
pub(super) fn count_one_or_two_by_division(number: u32, radix: u32) -> usize {
    let left = number / radix;
    1 + usize::from(left > 0)
}

// Writes the one or two digits of a number, which are counted, to the start of the buffer: two characters, of which the
// first is written over if it is a leading zero.
#[inline(always)]
#[track_caller]
pub(super) fn write_pair_by_bytes<const R: u32>(
    number: u32,
    digits: usize,
    table: RadixTable<'_, R>,
    buffer: &mut [u8],
) {
    // So rustc tests the end of the buffer once.
    assert!(digits <= buffer.len(), "the buffer is too short");
    let pair = 2 * number as usize;
    buffer[0] = table.pairs[pair];
    buffer[digits - 1] = table.pairs[pair + 1];
}

// Writes the one or two digits of a number as `write_pair_by_bytes` does. It reads both characters as one word, in one
// instruction, but into one of few registers.
#[inline(always)]
#[track_caller]
pub(super) fn write_pair_by_word<const R: u32>(
    number: u64,
    digits: usize,
    table: RadixTable<'_, R>,
    buffer: &mut [u8],
) {
    // rustc tests the end of these bytes once.
    let written = &mut buffer[..digits];
    let index = 2 * number as u32 as usize;
    let mut pair = [0; 2];
    pair.copy_from_slice(&table.pairs[index..index + 2]);
    let characters = u16::from_le_bytes(pair);
    written[0] = (characters % 256) as u8;
    written[digits - 1] = (characters / 256) as u8;
}

// Writes a number of up to four digits at index `at`, with leading zeros, as two pairs.
#[inline(always)]
#[track_caller]
pub(super) fn write_four<const R: u32>(
    number: u32,
    table: RadixTable<'_, R>,
    buffer: &mut [u8],
    at: usize,
) {
    let square = R * R;
    // rustc tests the end of these bytes once.
    let four = &mut buffer[at..at + 4];
    table.write(number % square, four, 2);
    table.write(number / square, four, 0);
}
