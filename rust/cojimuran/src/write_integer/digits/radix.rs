// Made by `strip` from crates/lexical_write_integer/src/digits/radix.rt. Edit that file, not this one.

//! Writing the digits of a number in any radix, from the tables of digit pairs, and in radix 2 from 256 on without one.
//! In radix 10 and in powers of 2 the digits are counted first, and otherwise, by division, while they are written.

pub mod algorithm;
mod binary_words;
mod by_radix;
pub mod compact;
mod count_then_write;
mod count_while_writing;
mod steps;

use crate::num::num::UnsignedInteger;
use crate::tables::get_table;
use crate::write_integer::digits::count::has_fast_count;
use crate::write_integer::digits::pairs::RadixTable;
use binary_words::write_binary;
use by_radix::by_radix;
use count_then_write::{count_then_write, write_one_or_two_digits};
use count_while_writing::{
    count_and_write_above_eight, count_and_write_five_to_eight, count_and_write_up_to_four,
    eighth_power,
};
use steps::fourth_power;

// Writes a number in the radix `R`, whose digits are counted without division, with a table that begins with the digit
// pairs of that radix.
#[inline(always)]
#[track_caller]
fn write_by_fast_count<const R: u32>(number: u64, table: &[u8], buffer: &mut [u8]) -> usize {
    let table = RadixTable::<R> { pairs: table };
    if R == 2 && number >= 256 {
        write_binary(number, buffer)
    } else if number < u64::from(R * R) {
        write_one_or_two_digits(number, table, buffer)
    } else {
        count_then_write(number, table, buffer)
    }
}

// Writes a number in the radix `R`, with a table that begins with the digit pairs of that radix: after the count of
// the digits if that needs no division, and otherwise while they are counted.
#[inline(always)]
#[track_caller]
fn write_digits<T: UnsignedInteger, const R: u32>(
    value: T,
    table: &[u8],
    buffer: &mut [u8],
) -> usize {
    let number = value.as_u64();
    if has_fast_count(R) {
        return write_by_fast_count::<R>(number, table, buffer);
    }
    let table = RadixTable::<R> { pairs: table };
    if number < fourth_power(R) {
        // This is known of each number of 8 bits from radix 4 on, so their code has nothing else.
        count_and_write_up_to_four(number as u32, table, buffer)
    } else if number < eighth_power(R) {
        count_and_write_five_to_eight(number, table, buffer)
    } else {
        count_and_write_above_eight(number, table, buffer)
    }
}

// Writes a number with the table of the radix.
#[inline(always)]
#[track_caller]
fn write_by_table<T: UnsignedInteger, const R: u32>(value: T, buffer: &mut [u8]) -> usize {
    write_digits::<T, R>(value, get_table(R), buffer)
}

// Writes a number as `write_by_table` does, by a call: its code is too long for each caller.
#[cold]
#[inline]
fn write_by_table_out_of_line<T: UnsignedInteger, const R: u32>(
    value: T,
    buffer: &mut [u8],
) -> usize {
    write_by_table::<T, R>(value, buffer)
}

// Writes a number as `write_by_table` does. One or two digits, which are frequent, and each number of a type of 8 or 16
// bits, whose code is short, are written in the caller. A longer number is written by a call.
#[inline]
fn write_with_short_inline<T: UnsignedInteger, const R: u32>(value: T, buffer: &mut [u8]) -> usize {
    let number = value.as_u64();
    if number < u64::from(R * R) {
        return write_one_or_two_digits(number, RadixTable::<R>::new(), buffer);
    }
    if T::BITS < 32 {
        return write_by_table::<T, R>(value, buffer);
    }
    write_by_table_out_of_line::<T, R>(value, buffer)
}

// Writes the digits by the code of the radix, which names the table. In a power of 2 this code is short enough to be in
// each caller.
#[cold]
#[inline(always)]
#[track_caller]
pub(crate) fn write_in_radix<T: UnsignedInteger>(value: T, radix: u32, buffer: &mut [u8]) -> usize {
    by_radix!(radix, write_by_table or write_with_short_inline::<T>(value, buffer))
}

// Writes the digits as `write_in_radix` does, but by a call. Only in a radix that is no power of 2, one or two digits and
// the numbers of a type of 8 or 16 bits are written in the caller. So a caller whose radix is constant has little code.
#[inline(always)]
#[track_caller]
fn write_in_radix_out_of_line<T: UnsignedInteger>(
    value: T,
    radix: u32,
    buffer: &mut [u8],
) -> usize {
    by_radix!(radix, write_by_table_out_of_line or write_with_short_inline::<T>(value, buffer))
}

/// Writes the digits of the number as `Radix::radix` does, by code that rustc has in each caller: the radix is to be
/// constant there. It must be from 2 to 36, and the buffer must have room for the digits.
///
/// # Panics
///
/// If the radix is not from 2 to 36, or if the buffer is [too short](crate::conditions).
#[inline(always)]
#[track_caller]
pub fn write_in_constant_radix<T: UnsignedInteger>(
    value: T,
    radix: u32,
    buffer: &mut [u8],
) -> usize {
    write_in_radix(value, radix, buffer)
}

/// An unsigned integer type whose digits are written in every radix.
#[diagnostic::on_unimplemented(
    message = "`{Self}` is not an unsigned integer type that this crate writes",
    note = "a literal needs a type, such as `255u8`; a signed number in a radix is written by `Formatted`, one with \
    leading zeros by `ZeroPadded`, and one of 128 bits by `Displayed`"
)]
pub trait Radix: UnsignedInteger {
    /// Writes the digits of the number to the start of the buffer, and returns how many there are. The
    /// radix must be from 2 to 36, and the buffer must have room for the digits.
    ///
    /// # Panics
    ///
    /// If the radix is not from 2 to 36, or if the buffer is [too short](crate::conditions).
    #[inline(always)]
    #[track_caller]
    fn radix(self, radix: u32, buffer: &mut [u8]) -> usize {
        write_in_radix_out_of_line(self, radix, buffer)
    }
}

impl<T: UnsignedInteger> Radix for T {}
