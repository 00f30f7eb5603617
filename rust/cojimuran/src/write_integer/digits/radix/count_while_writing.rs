// Made by `strip` from crates/lexical_write_integer/src/digits/radix/count_while_writing.rt. Edit that file, not this one.

//! Counting the digits of a number by division, and writing them from the same quotients: for the radices in which a
//! count needs divisions.

use super::steps::{
    count_one_or_two_by_division, fourth_power, last_four, remove_four, remove_two, write_four,
    write_pair_by_bytes,
};
use crate::write_integer::digits::pairs::RadixTable;

// Returns the eighth power of the radix.
#[inline]
pub(super) fn eighth_power(radix: u32) -> u64 {
    fourth_power(radix) * fourth_power(radix)
}

// Counts the one or two digits of a number by division, and writes them.
#[inline(always)]
#[track_caller]
fn count_and_write_one_or_two<const R: u32>(
    number: u32,
    table: RadixTable<'_, R>,
    buffer: &mut [u8],
) -> usize {
    let count = count_one_or_two_by_division(number, R);
    write_pair_by_bytes(number, count, table, buffer);
    count
}

// Counts the one to four digits of a number by division, and writes them.
#[inline(always)]
#[track_caller]
pub(super) fn count_and_write_up_to_four<const R: u32>(
    number: u32,
    table: RadixTable<'_, R>,
    buffer: &mut [u8],
) -> usize {
    let pair = remove_two::<R>(u64::from(number)) as u32;
    if pair == 0 {
        return count_and_write_one_or_two(number, table, buffer);
    }
    let head = count_and_write_one_or_two(pair, table, buffer);
    table.write(number % (R * R), buffer, head);
    head + 2
}

// Counts five to eight digits by division, and writes them.
#[inline(always)]
#[track_caller]
pub(super) fn count_and_write_five_to_eight<const R: u32>(
    value: u64,
    table: RadixTable<'_, R>,
    buffer: &mut [u8],
) -> usize {
    let left = remove_four::<R>(value);
    let head = count_and_write_up_to_four(left as u32, table, buffer);
    // With `last_four` LLVM would not inline this function for numbers of 8 bits.
    let last = value - left * fourth_power(R);
    write_four(last as u32, table, buffer, head);
    head + 4
}

// Counts up to eight digits by division, and writes them.
#[inline(always)]
#[track_caller]
fn count_and_write_up_to_eight<const R: u32>(
    value: u64,
    table: RadixTable<'_, R>,
    buffer: &mut [u8],
) -> usize {
    if value < fourth_power(R) {
        count_and_write_up_to_four(value as u32, table, buffer)
    } else {
        count_and_write_five_to_eight(value, table, buffer)
    }
}

// Counts more than eight digits by division, and writes them: those before the last eight first, since only then the
// index of the last eight is known.
#[inline]
pub(super) fn count_and_write_above_eight<const R: u32>(
    value: u64,
    table: RadixTable<'_, R>,
    buffer: &mut [u8],
) -> usize {
    let first = remove_four::<R>(value);
    let second = remove_four::<R>(first);
    let head = if second < eighth_power(R) {
        count_and_write_up_to_eight(second, table, buffer)
    } else {
        count_and_write_above_eight(second, table, buffer)
    };
    write_four(last_four::<R>(first), table, buffer, head);
    write_four(last_four::<R>(value), table, buffer, head + 4);
    head + 8
}
